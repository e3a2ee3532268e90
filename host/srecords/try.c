/* try TEXTS SEED: holds the archive's S-records to plain.c on random texts and random writes, and
   shows what differs. Texts are good, or damaged in a line, in the order of lines or in their end.
   It also checks what both must do whatever they answer: a refused text leaves memory, a refused
   write leaves the text, nothing before or behind changes, and what is written reads back. What is
   lent ends where a page begins that nobody may touch. Exit 1 on a difference. */
#include "srecords.h"

#include <stdbool.h>
#include <stdio.h>
#include <stdlib.h>
#include <string.h>
#include <sys/mman.h>

#define FENCE ((size_t)1 << 16)
/* What stands before a lent buffer and is to stay. */
#define MARGIN ((size_t)64)
#define LINES 24
#define LINE_ROOM 700
#define TEXT_ROOM (LINES * LINE_ROOM)
/* So many of these are shown. */
#define SHOWN 5
#define MIB ((size_t)1 << 20)

/* ---- chance */

static uint64_t seed;

/* xorshift64* */
static uint32_t any(void)
{
    seed ^= seed >> 12;
    seed ^= seed << 25;
    seed ^= seed >> 27;
    return (uint32_t)(seed * 0x2545F4914F6CDD1D >> 32);
}

static uint32_t below(uint32_t n)
{
    return (uint32_t)((uint64_t)any() * n >> 32);
}

static bool one_in(uint32_t n)
{
    return below(n) == 0;
}

/* ---- what is lent */

/* A buffer that ends at a fence. */
struct buffer {
    uint8_t *end;
};

static struct buffer memory_before, memory_ours, memory_plain, memory_into;
static struct buffer text_before, text_ours, text_plain;

static struct buffer fenced(size_t room)
{
    size_t size = (MARGIN + room + FENCE - 1) / FENCE * FENCE;
    uint8_t *at =
        mmap(NULL, size + FENCE, PROT_READ | PROT_WRITE, MAP_PRIVATE | MAP_ANONYMOUS, -1, 0);
    if (at == MAP_FAILED || mprotect(at + size, FENCE, PROT_NONE) != 0) {
        perror("a buffer");
        exit(2);
    }
    return (struct buffer){at + size};
}

static void fill(struct buffer b, size_t size)
{
    for (size_t i = 1; i <= size + MARGIN; i++)
        b.end[-i] = any();
}

/* The last `len` bytes, as `from` has them. */
static uint8_t *lent(struct buffer b, struct buffer from, size_t len)
{
    memcpy(b.end - len - MARGIN, from.end - len - MARGIN, len + MARGIN);
    return b.end - len;
}

static bool same(struct buffer a, struct buffer b, size_t len)
{
    return memcmp(a.end - len - MARGIN, b.end - len - MARGIN, len + MARGIN) == 0;
}

/* ---- what was found */

static uint64_t texts, differing;
static uint64_t reads[17], writes[17];

static void show_text(const uint8_t *text, size_t len)
{
    size_t shown = len < 2000 ? len : 2000;
    for (size_t i = 0; i < shown; i++) {
        if (text[i] == '\n')
            printf("\\n\n");
        else if (text[i] < ' ' || text[i] > '~')
            printf("\\x%02X", text[i]);
        else
            putchar(text[i]);
    }
    printf("%s(%zu bytes)\n", shown < len ? " .. " : "", len);
}

static void answers(uint64_t ours, uint64_t plain)
{
    printf("  the archive answers %u and %#lx, plain C %u and %#lx\n", (unsigned)(ours % 256),
           (unsigned long)(ours / 256), (unsigned)(plain % 256), (unsigned long)(plain / 256));
}

/* Whether this difference is to be shown. */
static bool differs(const char *what)
{
    if (differing++ >= SHOWN)
        return false;
    printf("text %lu: %s\n", (unsigned long)texts, what);
    return true;
}

/* ---- texts */

struct line {
    size_t len;
    uint8_t at[LINE_ROOM];
};

static struct line lines[LINES];
static size_t line_count;
static bool upper, mixed;

static uint8_t digit(unsigned v)
{
    bool big = mixed ? one_in(2) : upper;
    return (big ? "0123456789ABCDEF" : "0123456789abcdef")[v & 15];
}

static void add(struct line *l, uint8_t c)
{
    l->at[l->len++] = c;
}

static void add_byte(struct line *l, uint8_t byte)
{
    add(l, digit(byte >> 4));
    add(l, digit(byte));
}

static unsigned width_of(char kind)
{
    return strchr("37", kind) ? 4 : strchr("28", kind) ? 3 : 2;
}

/* A record that is right, without a line end. */
static void make(struct line *l, char kind, uint32_t address, size_t size)
{
    unsigned width = width_of(kind);
    uint8_t sum = width + size + 1;
    l->len = 0;
    add(l, 'S');
    add(l, kind);
    add_byte(l, sum);
    for (unsigned i = width; i-- > 0;) {
        sum += address >> 8 * i;
        add_byte(l, address >> 8 * i);
    }
    for (size_t i = 0; i < size; i++) {
        uint8_t byte = any();
        sum += byte;
        add_byte(l, byte);
    }
    add_byte(l, ~sum);
}

/* The digits' bytes from the count on, as far as there are whole ones. */
static unsigned sum_of(const struct line *l, size_t end)
{
    unsigned sum = 0;
    for (size_t i = 2; i + 2 <= end; i += 2) {
        char pair[3] = {l->at[i], l->at[i + 1], 0};
        sum += strtoul(pair, NULL, 16);
    }
    return sum;
}

/* Makes the sum of a changed line right again. */
static void sum_up(struct line *l)
{
    if (l->len < 4)
        return;
    uint8_t sum = ~sum_of(l, l->len - 2);
    l->len -= 2;
    add_byte(l, sum);
}

static size_t some_size(unsigned width)
{
    switch (below(16)) {
    case 0:
        return 0;
    case 1:
        return 255 - width - 1;
    case 2:
        return below(255 - width);
    default:
        return below(20);
    }
}

/* An address for so many bytes, most often one that is inside: near the last one, at memory's end,
   one past it, or anywhere. */
static uint32_t some_address(size_t size, size_t mem_len)
{
    static const uint32_t edges[] = {0, 0xFFFF, 0x10000, 0xFFFFFF, 0x1000000, 0xFFFFFFFF};
    static uint32_t last;
    size_t free = size < mem_len ? mem_len - size : 0;
    switch (below(64)) {
    case 0:
        return last = free + 1;
    case 1:
        return last = edges[below(6)];
    case 2:
        return last = any();
    case 3 ... 6:
        return last = free;
    case 7 ... 24:
        last += below(9) - 4;
        return last = last <= free ? last : free;
    default:
        return last = below(free + 1);
    }
}

static void add_data(size_t mem_len)
{
    char kind = '1' + below(3);
    size_t size = some_size(width_of(kind));
    /* Bytes that cannot be inside are rare; bytes without an address of theirs are not. */
    if (size > mem_len && !one_in(8))
        size = below(mem_len + 1);
    uint32_t address = size == 0 ? any() : some_address(size, mem_len);
    make(&lines[line_count++], kind, address, size);
}

static void add_other(char kind)
{
    make(&lines[line_count++], kind, any(), below(12));
}

static void add_end(void)
{
    make(&lines[line_count++], '7' + below(3), any(), 0);
}

static void good_lines(size_t mem_len)
{
    line_count = 0;
    if (one_in(2))
        add_other('0');
    for (unsigned i = below(7); i > 0; i--) {
        add_data(mem_len);
        if (one_in(12))
            add_other(one_in(4) ? '0' : '5');
    }
    add_end();
}

/* ---- damage */

static void drop(struct line *l, size_t at, size_t n)
{
    memmove(l->at + at, l->at + at + n, l->len - at - n);
    l->len -= n;
}

static void insert(struct line *l, size_t at, uint8_t c)
{
    memmove(l->at + at + 1, l->at + at, l->len - at);
    l->at[at] = c;
    l->len++;
}

/* A character that may stand in a text, or just beside one that may. */
static uint8_t some_character(void)
{
    static const uint8_t near[] = "/:@G`gsS \t\r\n";
    return one_in(3) ? any() : one_in(2) ? near[below(sizeof near - 1)] : digit(any());
}

static void wrong_count(struct line *l)
{
    struct line digits = {0, {0}};
    uint8_t byte = (l->len - 4) / 2 + (one_in(2) ? 1 : -1) * (1 + (int)below(one_in(4) ? 200 : 3));
    add_byte(&digits, byte);
    memcpy(l->at + 2, digits.at, 2);
}

static void wrong_sum(struct line *l)
{
    uint8_t *last = &l->at[l->len - 1 - below(2)];
    uint8_t was = *last;
    while ((*last | 32) == (was | 32))
        *last = digit(any());
}

/* One change to a line that is right. */
static void damage_line(struct line *l)
{
    size_t at = below(l->len);
    switch (below(12)) {
    case 0:
        l->at[at] = some_character();
        break;
    case 1:
        l->at[at] = digit(any());
        break;
    case 2:
        drop(l, at, 1);
        break;
    case 3:
        insert(l, at, l->at[at]);
        break;
    case 4:
        insert(l, at, some_character());
        break;
    case 5:
        drop(l, l->len - 2, 2);
        break;
    case 6:
        wrong_count(l);
        break;
    case 7:
    case 8:
        wrong_sum(l);
        break;
    case 9:
        l->at[1] = '0' + below(10);
        break;
    case 10:
        l->at[0] = one_in(2) ? 's' : some_character();
        break;
    default:
        make(l, '7' + below(3), any(), 1 + below(4));
    }
}

/* Damages a line once or twice, and then often makes its sum right. */
static void damage_some_line(void)
{
    struct line *l = &lines[below(line_count)];
    damage_line(l);
    if (one_in(4) && l->len > 6)
        damage_line(l);
    if (one_in(3))
        sum_up(l);
    if (one_in(16) && l->len > 5)
        l->len = below(6);
}

static void swap_lines(void)
{
    struct line *a = &lines[below(line_count)], *b = &lines[below(line_count)], c = *a;
    *a = *b;
    *b = c;
}

/* Another order of lines: no end, two of them, one before data, a line that is doubled or empty. */
static void damage_order(size_t mem_len)
{
    switch (below(6)) {
    case 0:
        line_count--;
        break;
    case 1:
        add_end();
        break;
    case 2:
        add_data(mem_len);
        break;
    case 3:
        swap_lines();
        break;
    case 4:
        lines[line_count] = lines[below(line_count)];
        line_count++;
        break;
    default:
        lines[below(line_count)].len = 0;
    }
}

/* ---- a text of lines */

enum line_ends { ALL_LF, ALL_CR_LF, EITHER };

static uint8_t built[TEXT_ROOM];
static size_t built_len;

static void end_line(enum line_ends ends)
{
    if (ends == ALL_CR_LF || (ends == EITHER && one_in(2)))
        built[built_len++] = '\r';
    built[built_len++] = '\n';
}

static void join(void)
{
    enum line_ends ends = below(3);
    built_len = 0;
    for (size_t i = 0; i < line_count; i++) {
        memcpy(built + built_len, lines[i].at, lines[i].len);
        built_len += lines[i].len;
        end_line(ends);
    }
    if (one_in(4))
        for (unsigned i = below(4); i > 0; i--)
            end_line(ends);
}

static void damage_text(void)
{
    size_t at = built_len == 0 ? 0 : below(built_len);
    switch (below(6)) {
    case 0:
        built_len -= built_len != 0;
        break;
    case 1:
        built_len = at;
        break;
    case 2:
        built[built_len++] = some_character();
        break;
    case 3:
        built[built_len++] = '\r';
        built[built_len++] = one_in(2) ? '\r' : ' ';
        built[built_len++] = '\n';
        break;
    case 4:
        memmove(built + at + 1, built + at, built_len++ - at);
        built[at] = one_in(2) ? '\r' : '\n';
        break;
    default:
        built[at] = one_in(2) ? '\r' : some_character();
    }
}

static void build(size_t mem_len)
{
    upper = one_in(2);
    mixed = one_in(3);
    good_lines(mem_len);
    unsigned damage = below(10);
    if (damage == 0 || damage == 1 || damage == 2)
        damage_some_line();
    if (damage == 2 || damage == 3)
        damage_order(mem_len);
    join();
    if (damage == 4)
        damage_text();
}

/* ---- reading */

/* Reads the text that was built into memories of this length. */
static void try_read(size_t mem_len)
{
    uint8_t *text = memcpy(text_ours.end - built_len, built, built_len);
    uint8_t *ours = lent(memory_ours, memory_before, mem_len);
    uint8_t *plain = lent(memory_plain, memory_before, mem_len);
    texts++;
    uint64_t got = srecord_read(text, built_len, ours, mem_len);
    uint64_t want = plain_read(text, built_len, plain, mem_len);
    reads[got % 256 <= 16 ? got % 256 : 16]++;
    const char *wrong = NULL;
    if (got != want)
        wrong = "other answers to a text";
    else if (!same(memory_ours, memory_plain, mem_len))
        wrong = "other bytes in memory";
    else if (got % 256 != DONE && !same(memory_ours, memory_before, mem_len))
        wrong = "a refused text changes memory";
    else if (memcmp(text, built, built_len) != 0)
        wrong = "the text is changed";
    if (wrong && differs(wrong)) {
        printf("  memory of %zu bytes\n", mem_len);
        answers(got, want);
        show_text(built, built_len);
    }
}

/* ---- writing */

/* What was written, read into another memory that has room for it: bytes, start, and nothing else.
 */
static bool reads_back(uint8_t *mem, uint32_t from, uint32_t count, uint32_t start, uint64_t length)
{
    size_t room = (size_t)from + count + below(8);
    room = room < LONGEST ? room : LONGEST;
    uint8_t *into = memory_into.end - room;
    for (size_t i = 1; i <= room + MARGIN; i++)
        memory_into.end[-i] = i * 7;
    uint64_t answer = srecord_read(text_ours.end - built_len, length, into, room);
    if (answer != DONE + 256 * (uint64_t)start || memcmp(into + from, mem + from, count) != 0)
        return false;
    for (size_t i = 1; i <= room + MARGIN; i++)
        if ((i > room - from || i <= room - from - count) &&
            memory_into.end[-i] != (uint8_t)(i * 7))
            return false;
    return true;
}

/* Writes a range into texts of this length. */
static void try_write(size_t mem_len, uint32_t from, uint32_t count, uint32_t start, size_t room)
{
    uint8_t *mem = lent(memory_ours, memory_before, mem_len);
    uint8_t *ours = lent(text_ours, text_before, room);
    uint8_t *plain = lent(text_plain, text_before, room);
    built_len = room;
    texts++;
    uint64_t got = srecord_write(mem, mem_len, from, count, start, ours, room);
    uint64_t want =
        plain_write(memory_before.end - mem_len, mem_len, from, count, start, plain, room);
    uint64_t length = got / 256;
    writes[got % 256 <= 16 ? got % 256 : 16]++;
    const char *wrong = NULL;
    if (got != want)
        wrong = "other answers to a write";
    else if (!same(text_ours, text_plain, room))
        wrong = "other texts";
    else if (memcmp(ours + length, text_before.end - room + length, room - length) != 0)
        wrong = "a write changes what is behind, or is refused and changes the text";
    else if (!same(memory_ours, memory_before, mem_len))
        wrong = "a write changes memory";
    else if (got % 256 == DONE && !reads_back(mem, from, count, start, length))
        wrong = "a text that was written does not read back";
    if (wrong && differs(wrong)) {
        printf("  %u from %#x of %zu bytes, start %#x, room for %zu\n", count, from, mem_len, start,
               room);
        answers(got, want);
        show_text(ours, length);
    }
}

/* By hand, not by the formula: a line for each 16 bytes or fewer, and the end. */
static size_t needed(size_t count)
{
    size_t full = count / 16 * (strlen("S3ccaaaaaaaass\n") + 32);
    size_t last = count % 16 ? strlen("S3ccaaaaaaaass\n") + 2 * (count % 16) : 0;
    return full + last + strlen("S705aaaaaaaass\n");
}

static size_t some_room(size_t need)
{
    switch (below(8)) {
    case 0:
    case 1:
        return need - 1;
    case 2:
        return below(need);
    case 3:
    case 4:
        return need;
    default:
        return need + below(100);
    }
}

static void some_write(size_t mem_len)
{
    uint32_t count = one_in(8) ? 0 : below(one_in(4) ? 600 : 50);
    if (count > mem_len && !one_in(8))
        count = below(mem_len + 1);
    uint32_t from = some_address(count, mem_len);
    if (one_in(64))
        count = 0 - below(3);
    size_t need = needed(count < 1000 ? count : 1000);
    try_write(mem_len, from, count, one_in(4) ? below(4) - 2 : any(), some_room(need));
}

/* ---- all of it */

static size_t some_length(void)
{
    static const size_t edges[] = {0, 0, 1, 2, 15, 16, 17, 255, 256};
    if (one_in(8))
        return edges[below(sizeof edges / sizeof *edges)];
    if (one_in(32))
        return 0xFF00 + below(0x200);
    return below(one_in(3) ? 40 : 1200);
}

/* The longest memory, and one that is a byte longer. */
static void try_longest(void)
{
    size_t mem_len = one_in(4) ? LONGEST + 1 : LONGEST;
    build(mem_len);
    try_read(mem_len);
    some_write(mem_len);
}

static void try_some(void)
{
    size_t mem_len = some_length();
    if (one_in(3)) {
        some_write(mem_len);
    } else {
        build(mem_len);
        try_read(mem_len);
    }
}

/* A MiB at the end of the longest memory, with room for it and with a byte less. */
static void try_long_range(void)
{
    size_t need = needed(MIB);
    try_write(LONGEST, LONGEST - MIB, MIB, 0xFFFFFFFF, need);
    try_write(LONGEST, LONGEST - MIB, MIB, 0xFFFFFFFF, need - 1);
    try_write(LONGEST, LONGEST - MIB + 1, MIB, 0, need);
    try_write(LONGEST + 1, 0, 1, 0, need);
}

static void show_counts(const char *what, const uint64_t *counts)
{
    printf("%s", what);
    for (unsigned i = 0; i < 17; i++)
        if (counts[i] != 0)
            printf("  reply %u: %lu", i, (unsigned long)counts[i]);
    printf("\n");
}

int main(int argc, char **argv)
{
    uint64_t wanted = argc > 1 ? strtoull(argv[1], NULL, 10) : 200000;
    uint64_t given = argc > 2 ? strtoull(argv[2], NULL, 10) : 1;
    seed = (given + 1) * 0x9E3779B97F4A7C15;
    struct buffer *memories[] = {&memory_before, &memory_ours, &memory_plain, &memory_into};
    for (unsigned i = 0; i < 4; i++)
        *memories[i] = fenced(LONGEST + 1);
    struct buffer *kept[] = {&text_before, &text_ours, &text_plain};
    for (unsigned i = 0; i < 3; i++)
        *kept[i] = fenced(needed(MIB) + TEXT_ROOM);
    fill(memory_before, LONGEST + 1);
    fill(text_before, needed(MIB) + TEXT_ROOM);
    try_long_range();
    while (texts < wanted) {
        if (one_in(4096))
            try_longest();
        else
            try_some();
    }
    show_counts("read   ", reads);
    show_counts("written", writes);
    printf("S-records: %lu texts, %lu differ\n", (unsigned long)texts, (unsigned long)differing);
    return differing != 0;
}
