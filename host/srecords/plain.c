/* S-records read and written by plain loops, after the request's words (document 02, P2) and the
   points decided with it. It has nothing in common with the code of crates/ but those: try.c holds
   the two to each other, and speed.c takes the times of both. */
#include "srecords.h"

#include <stdbool.h>

/* A line's parts. */
struct record {
    uint8_t digit;
    uint32_t address;
    size_t size;
    uint8_t data[256];
};

/* ---- reading */

static int value_of(uint8_t c)
{
    if ('0' <= c && c <= '9')
        return c - '0';
    if ('A' <= c && c <= 'F')
        return c - 'A' + 10;
    if ('a' <= c && c <= 'f')
        return c - 'a' + 10;
    return -1;
}

/* The byte of two digits, or -1. */
static int byte_of(const uint8_t *digits)
{
    int high = value_of(digits[0]);
    int low = value_of(digits[1]);
    return high < 0 || low < 0 ? -1 : high * 16 + low;
}

/* How many bytes the address has; 0 where the digit is of no record. */
static size_t width_of(uint8_t digit)
{
    switch (digit) {
    case '0':
    case '1':
    case '5':
    case '9':
        return 2;
    case '2':
    case '8':
        return 3;
    case '3':
    case '7':
        return 4;
    default:
        return 0;
    }
}

static bool is_data(uint8_t digit)
{
    return '1' <= digit && digit <= '3';
}

static bool is_end(uint8_t digit)
{
    return '7' <= digit && digit <= '9';
}

/* The parts of a line, without its line end. The form is asked for before the sum. */
static enum reply take_apart(const uint8_t *line, size_t len, struct record *r)
{
    if (len < 4 || line[0] != 'S')
        return MALFORMED;
    r->digit = line[1];
    size_t width = width_of(r->digit);
    int count = byte_of(line + 2);
    if (width == 0 || count < 0 || len != 4 + 2 * (size_t)count || (size_t)count < width + 1)
        return MALFORMED;
    r->size = count - width - 1;
    if (is_end(r->digit) && r->size != 0)
        return MALFORMED;
    unsigned sum = count;
    r->address = 0;
    for (size_t i = 0; i < (size_t)count; i++) {
        int byte = byte_of(line + 4 + 2 * i);
        if (byte < 0)
            return MALFORMED;
        sum += byte;
        if (i < width)
            r->address = r->address << 8 | byte;
        else
            r->data[i - width] = byte;
    }
    return (sum & 0xFF) == 0xFF ? DONE : WRONG_SUM;
}

static bool inside(const struct record *r, size_t mem_len)
{
    return r->size == 0 || (uint64_t)r->address + r->size <= mem_len;
}

static void put(const struct record *r, uint8_t *mem)
{
    for (size_t i = 0; i < r->size; i++)
        mem[r->address + i] = r->data[i];
}

/* Goes through the lines; data is put into memory where that is asked for. */
static uint64_t go_through(const uint8_t *text, size_t text_len, uint8_t *mem, size_t mem_len,
                           bool putting)
{
    struct record r;
    uint32_t start = 0;
    bool ended = false;
    size_t next;
    for (size_t at = 0; at < text_len; at = next) {
        size_t end = at;
        while (end < text_len && text[end] != '\n')
            end++;
        if (end == text_len)
            return MALFORMED;
        next = end + 1;
        if (end > at && text[end - 1] == '\r')
            end--;
        if (ended) {
            if (end != at)
                return MALFORMED;
            continue;
        }
        enum reply reply = take_apart(text + at, end - at, &r);
        if (reply != DONE)
            return reply;
        if (is_end(r.digit)) {
            ended = true;
            start = r.address;
        } else if (is_data(r.digit)) {
            if (!inside(&r, mem_len))
                return OUTSIDE;
            if (putting)
                put(&r, mem);
        }
    }
    return ended ? DONE + 256 * (uint64_t)start : MALFORMED;
}

/* A text that is refused leaves memory as it is, so it is gone through before anything is put. */
uint64_t plain_read(uint8_t *text, size_t text_len, uint8_t *mem, size_t mem_len)
{
    if (mem_len > LONGEST)
        return TOO_LONG;
    uint64_t answer = go_through(text, text_len, mem, mem_len, false);
    if (answer % 256 == DONE)
        go_through(text, text_len, mem, mem_len, true);
    return answer;
}

/* ---- writing */

static uint8_t *put_byte(uint8_t *to, uint8_t byte)
{
    static const char digits[] = "0123456789ABCDEF";
    *to++ = digits[byte >> 4];
    *to++ = digits[byte & 15];
    return to;
}

/* A line with an address of four bytes: where the next one goes. */
static uint8_t *put_line(uint8_t *to, uint8_t digit, uint32_t address, const uint8_t *data,
                         size_t size)
{
    uint8_t count = 4 + size + 1;
    uint8_t sum = count;
    *to++ = 'S';
    *to++ = digit;
    to = put_byte(to, count);
    for (int shift = 24; shift >= 0; shift -= 8) {
        sum += address >> shift;
        to = put_byte(to, address >> shift);
    }
    for (size_t i = 0; i < size; i++) {
        sum += data[i];
        to = put_byte(to, data[i]);
    }
    to = put_byte(to, ~sum);
    *to++ = '\n';
    return to;
}

static size_t line_length(size_t size)
{
    return 2 + 2 * (1 + 4 + size + 1) + 1;
}

static size_t text_length(size_t count)
{
    size_t length = line_length(0);
    for (; count > 16; count -= 16)
        length += line_length(16);
    return count > 0 ? length + line_length(count) : length;
}

uint64_t plain_write(uint8_t *mem, size_t mem_len, uint32_t from, uint32_t count, uint32_t start,
                     uint8_t *text, size_t text_len)
{
    if (mem_len > LONGEST)
        return TOO_LONG;
    if ((uint64_t)from + count > mem_len)
        return OUTSIDE;
    if (text_length(count) > text_len)
        return NO_ROOM;
    uint8_t *to = text;
    size_t size;
    for (size_t done = 0; done < count; done += size) {
        size = count - done < 16 ? count - done : 16;
        to = put_line(to, '3', from + done, mem + from + done, size);
    }
    to = put_line(to, '7', start, NULL, 0);
    return DONE + 256 * (uint64_t)(to - text);
}
