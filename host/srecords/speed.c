/* speed [LIMIT]: processor times of reading and writing 1 MiB of data as S-records: the archive and
   the loops of plain.c, alternating, the best of 11 each. Exit 1 where a limit is given and the
   archive's time is above so many of plain C's. */
#include "srecords.h"

#include <stdbool.h>
#include <stdio.h>
#include <stdlib.h>
#include <string.h>
#include <time.h>

#define DATA ((size_t)1 << 20)
#define TIMES 11

static uint8_t data[DATA], memory[DATA];
static uint8_t text[4 * DATA], other[4 * DATA];
static size_t text_len;

static double now(void)
{
    struct timespec t;
    clock_gettime(CLOCK_THREAD_CPUTIME_ID, &t);
    return t.tv_sec * 1e3 + t.tv_nsec / 1e6;
}

static void hold(bool right, const char *what)
{
    if (right)
        return;
    printf("%s\n", what);
    exit(2);
}

/* The milliseconds of one read, which must give the data back. */
static double read_time(reader *read)
{
    memset(memory, 0, DATA);
    double before = now();
    uint64_t answer = read(text, text_len, memory, DATA);
    double after = now();
    hold(answer == DONE && memcmp(memory, data, DATA) == 0, "a read gives other data");
    return after - before;
}

/* The milliseconds of one write, which must give the same text. */
static double write_time(writer *write)
{
    memset(other, 0, sizeof other);
    double before = now();
    uint64_t answer = write(data, DATA, 0, DATA, 0, other, sizeof other);
    double after = now();
    hold(answer / 256 == text_len && memcmp(other, text, text_len) == 0,
         "a write gives another text");
    return after - before;
}

static double less(double a, double b)
{
    return a < b ? a : b;
}

/* The ratio of the two times, shown with them. */
static double show(const char *what, double archive, double plain)
{
    double ratio = archive / plain;
    printf("%s 1 MiB: archive %.2f ms, plain C %.2f ms, ratio %.2f\n", what, archive, plain, ratio);
    return ratio;
}

int main(int argc, char **argv)
{
    double read[2] = {1e9, 1e9}, write[2] = {1e9, 1e9};
    uint32_t v = 1;
    for (size_t i = 0; i < DATA; i++) {
        v = v * 1664525 + 1013904223;
        data[i] = v >> 24;
    }
    text_len = plain_write(data, DATA, 0, DATA, 0, text, sizeof text) / 256;
    for (int i = 0; i < TIMES; i++) {
        read[0] = less(read[0], read_time(srecord_read));
        read[1] = less(read[1], read_time(plain_read));
        write[0] = less(write[0], write_time(srecord_write));
        write[1] = less(write[1], write_time(plain_write));
    }
    double reads = show("reading", read[0], read[1]);
    double writes = show("writing", write[0], write[1]);
    double limit = argc > 1 ? strtod(argv[1], NULL) : 1e9;
    return reads > limit || writes > limit;
}
