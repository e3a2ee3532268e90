/* Boxes on a bay: which pairs of them must stand apart. Compiled for -mcpu=5208; no `|` and no `/`, whose
   instructions are in line 8. */
typedef unsigned char byte;
typedef unsigned short half;
typedef unsigned int word;

struct box {
    byte kind;
    byte tier;
    half row;
    short bay;
    half weight;
    char name[12];
};

#define BOXES 24
#define KINDS 9

static struct box boxes[BOXES];
static byte apart[KINDS][KINDS];
static word found[4];
static word seed;

__attribute__((noinline)) static word next(void)
{
    seed = seed * 1103515245 + 12345;
    return seed >> 16;
}

__attribute__((noinline)) static int length(const char *s)
{
    int n = 0;
    while (s[n])
        n++;
    return n;
}

__attribute__((noinline)) static int order(const char *a, const char *b)
{
    while (*a && *a == *b) {
        a++;
        b++;
    }
    return *a - *b;
}

__attribute__((noinline)) static void fill(void)
{
    for (int i = 0; i < KINDS; i++)
        for (int j = 0; j < KINDS; j++)
            apart[i][j] = next() & 3;
    for (int i = 0; i < BOXES; i++) {
        struct box *b = &boxes[i];
        word n = next();
        b->kind = n & 7;
        b->tier = (n >> 3) & 3;
        b->row = (n >> 5) & 15;
        b->bay = (short)((n >> 9) & 63) - 20;
        b->weight = next();
        int k = 2 + (n & 7);
        for (int c = 0; c < k; c++)
            b->name[c] = 'A' + (next() & 15);
        b->name[k] = 0;
    }
}

__attribute__((noinline)) static int distance(const struct box *a, const struct box *b)
{
    int bays = a->bay - b->bay;
    int rows = a->row - b->row;
    if (bays < 0)
        bays = -bays;
    if (rows < 0)
        rows = -rows;
    return bays * 3 + rows + (a->tier == b->tier ? 0 : 1);
}

__attribute__((noinline)) static void sort(void)
{
    for (int i = 1; i < BOXES; i++) {
        struct box held = boxes[i];
        int j = i - 1;
        while (j >= 0 && order(boxes[j].name, held.name) > 0) {
            boxes[j + 1] = boxes[j];
            j--;
        }
        boxes[j + 1] = held;
    }
}

__attribute__((noinline)) static word sum(const byte *at, int n)
{
    word s = 0xFFFF;
    while (n--) {
        s ^= *at++ << 8;
        for (int k = 0; k < 4; k++)
            s = s & 0x8000 ? (s << 1) ^ 0x1021 : s << 1;
    }
    return s & 0xFFFF;
}

__attribute__((noinline)) static int pairs(int least)
{
    int bad = 0;
    for (int i = 0; i < BOXES; i++)
        for (int j = i + 1; j < BOXES; j++) {
            const struct box *a = &boxes[i], *b = &boxes[j];
            byte rule = apart[a->kind][b->kind];
            if (rule && distance(a, b) < least * rule) {
                bad++;
                found[rule] += a->weight - b->weight;
            }
        }
    return bad;
}

void plan(void)
{
    word total = 0;
    for (;;) {
        fill();
        sort();
        for (int least = 1; least < 6; least++)
            total += pairs(least);
        for (int i = 0; i < BOXES; i++)
            total += length(boxes[i].name);
        total ^= sum((const byte *)boxes, sizeof boxes);
        found[0] = total;
    }
}
