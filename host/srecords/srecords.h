/* The two calls on S-records: of libharness.a, and the same in plain C (plain.c). Each answers a
   reply, and 256 times the start address or the length of the written text. Nothing checks these
   declarations against crates/harness_c. */
#ifndef SRECORDS_H
#define SRECORDS_H

#include <stddef.h>
#include <stdint.h>

enum reply { DONE = 0, TOO_LONG = 1, OUTSIDE = 4, MALFORMED = 10, WRONG_SUM = 11, NO_ROOM = 16 };

/* The longest memory, in bytes. */
#define LONGEST ((size_t)1 << 24)

typedef uint64_t reader(uint8_t *text, size_t text_len, uint8_t *mem, size_t mem_len);
typedef uint64_t writer(uint8_t *mem, size_t mem_len, uint32_t from, uint32_t count, uint32_t start,
                        uint8_t *text, size_t text_len);

reader srecord_read, plain_read;
writer srecord_write, plain_write;

#endif
