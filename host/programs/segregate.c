/* A manifest of dangerous goods: received byte by byte, packed into longs, sorted, searched, put into bays and summed up. Which
   goods meet in a bay that must be kept apart is counted. Nothing depends on the order of bytes in a long, so the answer is the
   same on every machine. */
typedef unsigned char byte;
typedef unsigned short half;
typedef unsigned int word;
/* A vector of one: gcc divides it as a short. Two shorts are divided as ints. */
typedef short lone __attribute__((vector_size(2)));

#define GOODS 3000
#define CLASSES 10
#define MESSAGE 10
#define PART __attribute__((noipa)) static

/* One of the goods: number 31 to 20, class 19 to 16, group 15 to 14, sea pollutant 13, mass 12 to 0. */
static word goods[GOODS];
static word crc_of[256];
/* A bit for each number that was received. */
static word seen[128];
static word keep_apart[CLASSES];
static word classes_in[64];
static half mass_in[64];
static short coldest_in[64];
static byte marks_in[64];
static word seed;

PART word next(void)
{
    seed = seed * 1103515245 + 12345;
    return seed >> 8 & 0xFFFF;
}

/* A message as the terminal sends it: number, class, group and marks, mass, pieces, flash point in tenths of a degree. */
PART void receive(byte *m)
{
    word mass = 100 + next() % 8000;
    word flash = next() % 1400 - 400;
    word number = 1000 + next() % 2600;
    m[0] = number >> 8;
    m[1] = number;
    m[2] = 1 + next() % 9;
    m[3] = (next() & 3) | (next() & 1) << 7;
    m[4] = mass >> 8;
    m[5] = mass;
    m[6] = 0;
    m[7] = 1 + next() % 40;
    m[8] = flash >> 8;
    m[9] = flash;
}

PART half half_at(const byte *m)
{
    return m[0] << 8 | m[1];
}

PART word packed(const byte *m)
{
    word sea = m[3] >> 7;
    word mass = half_at(m + 4);
    return (word)half_at(m) << 20 | (word)m[2] << 16 | (word)(m[3] & 3) << 14 | sea << 13 | mass;
}

/* What the goods are sorted by: the class, then the number, then the rest. */
static inline word key_of(word v)
{
    return (v << 12 & 0xF0000000) | (v >> 4 & 0x0FFF0000) | (v & 0xFFFF);
}

/* Shell's sort. */
PART void sort(word *at, half count)
{
    half gap = count;
    while (gap > 1) {
        gap = gap < 3 ? 1 : gap * 5 / 11;
        for (half i = gap; i < count; i++) {
            word held = at[i], key = key_of(held);
            half j = i;
            for (; j >= gap && key_of(at[j - gap]) > key; j -= gap)
                at[j] = at[j - gap];
            at[j] = held;
        }
    }
}

/* The first of the goods that is not below a key. */
PART half place_of(word key, half count)
{
    half low = 0, high = count;
    while (low < high) {
        half middle = (low + high) / 2;
        if (key_of(goods[middle]) < key)
            low = middle + 1;
        else
            high = middle;
    }
    return low;
}

PART void fill_tables(void)
{
    for (word i = 0; i < 256; i++) {
        word c = i;
        for (int k = 0; k < 8; k++)
            c = c & 1 ? c >> 1 ^ 0xEDB88320 : c >> 1;
        crc_of[i] = c;
    }
    for (int a = 1; a < CLASSES; a++)
        for (int b = 1; b < a; b++)
            if (next() % 12 == 0) {
                keep_apart[a] |= 1u << b;
                keep_apart[b] |= 1u << a;
            }
}

PART word crc(word c, word v)
{
    for (int k = 0; k < 4; k++) {
        c = crc_of[(c ^ v) & 255] ^ c >> 8;
        v >>= 8;
    }
    return c;
}

/* Puts one of the goods into its bay, and answers whether it meets there what must be kept apart from it. A bay keeps its classes,
   its marks, the masses of a piece joined, and the coldest flash point in whole steps. */
PART word stow(const byte *m, half bays, short step)
{
    half number = half_at(m), bay = number % bays;
    half piece = half_at(m + 4) / half_at(m + 6);
    lone flash = {half_at(m + 8)}, steps = flash / (lone){step};
    word meets = (classes_in[bay] & keep_apart[m[2]]) != 0;
    classes_in[bay] |= 1u << m[2];
    seen[number >> 5] |= 1u << (number & 31);
    marks_in[bay] |= m[3];
    mass_in[bay] |= piece;
    if (steps[0] < coldest_in[bay])
        coldest_in[bay] = steps[0];
    return meets;
}

PART word crc_of_bays(word c, half bays)
{
    for (half bay = 0; bay < bays; bay++) {
        c = crc(c, classes_in[bay] << 16 | mass_in[bay]);
        c = crc(c, (word)marks_in[bay] << 16 | (half)coldest_in[bay]);
    }
    return c;
}

PART word numbers_seen(void)
{
    word count = 0;
    for (int i = 0; i < 128; i++)
        for (word bits = seen[i]; bits; bits &= bits - 1)
            count++;
    return count;
}

/* Looks for every second number, in one of the classes: where its goods begin and end goes into the sum. */
PART word search(word c, half count, half classes)
{
    for (half number = 1000; number < 3600; number += 2) {
        word key = (word)(1 + number % classes) << 28 | (word)number << 16;
        half first = place_of(key, count);
        half past = place_of(key | 0xFFFF, count);
        c = crc(c, (word)first << 16 | past);
    }
    return c;
}

/* The answer: in the upper long the sum of all that was found; in the lower one how many numbers there are, and how many of the
   goods met in their bay what must be kept apart from them. */
unsigned long long segregate(half count, half bays, short step)
{
    byte message[MESSAGE];
    word met = 0, c = 0xFFFFFFFF;
    seed = 2026;
    fill_tables();
    for (half i = 0; i < count; i++) {
        receive(message);
        goods[i] = packed(message);
        met += stow(message, bays, step);
    }
    sort(goods, count);
    for (half i = 0; i < count; i++)
        c = crc(c, goods[i]);
    c = search(c, count, CLASSES - 1);
    c = crc_of_bays(c, bays);
    return (unsigned long long)~crc(c, met) << 32 | numbers_seen() << 16 | met;
}
