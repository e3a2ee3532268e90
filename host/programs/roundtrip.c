/* The lines of a manifest are compressed by zlib, decompressed and compared. The library is given memory from an array. */
#include "zlib.h"

#define TEXT 20000
#define PART __attribute__((noipa)) static

static Bytef text[TEXT + 100];
static Bytef packed[TEXT];
static Bytef back[TEXT + 100];
static char heap[320000] __attribute__((aligned(16)));
static uInt taken;
static unsigned int seed;

PART voidpf take(voidpf all, uInt items, uInt size)
{
    (void)all;
    voidpf at = heap + taken;
    taken += (items * size + 15) & ~15u;
    return taken <= sizeof heap ? at : Z_NULL;
}

PART void give_back(voidpf all, voidpf at)
{
    (void)all;
    (void)at;
}

PART unsigned int next(unsigned int below)
{
    seed = seed * 1103515245 + 12345;
    return (seed >> 16) % below;
}

PART uInt put_word(uInt at, const char *word)
{
    while (*word)
        text[at++] = *word++;
    text[at++] = ' ';
    return at;
}

PART uInt put_number(uInt at, unsigned int n)
{
    char digits[12];
    char *first = digits + sizeof digits - 1;
    for (*first = 0; n || !*first; n /= 10)
        *--first = '0' + n % 10;
    return put_word(at, first);
}

/* A line: number, name, class, mass and bay. */
PART uInt put_line(uInt at)
{
    static const char names[8][12] = {"petrol", "acetone", "chlorine", "ammonia", "lithium", "sulphur", "toluene", "batteries"};
    at = put_word(at, "UN");
    at = put_number(at, 1000 + next(2600));
    at = put_word(at, names[next(8)]);
    at = put_word(at, "class");
    at = put_number(at, 1 + next(9));
    at = put_number(at, 100 + next(8000));
    at = put_word(at, "kg bay");
    at = put_number(at, next(40));
    text[at - 1] = '\n';
    return at;
}

PART uInt compressed(uInt length)
{
    z_stream s = {.zalloc = take, .zfree = give_back, .next_in = text, .avail_in = length, .next_out = packed, .avail_out = TEXT};
    if (deflateInit(&s, Z_DEFAULT_COMPRESSION) != Z_OK || deflate(&s, Z_FINISH) != Z_STREAM_END)
        return 0;
    return s.total_out;
}

PART uInt decompressed(uInt length)
{
    z_stream s = {.zalloc = take, .zfree = give_back, .next_in = packed, .avail_in = length, .next_out = back, .avail_out = sizeof back};
    if (inflateInit(&s) != Z_OK || inflate(&s, Z_FINISH) != Z_STREAM_END)
        return 0;
    return s.total_out;
}

/* The answer: in the upper long the CRC-32 of the compressed bytes, in the lower one how many they are; 0 where the text did not
   come back. */
unsigned long long roundtrip(void)
{
    uInt length = 0;
    seed = 2026;
    while (length < TEXT)
        length = put_line(length);
    uInt small = compressed(length);
    taken = 0;
    if (decompressed(small) != length)
        return 0;
    for (uInt i = 0; i < length; i++)
        if (back[i] != text[i])
            return 0;
    return (unsigned long long)crc32(0, packed, small) << 32 | small;
}
