/* convert read TEXT MEM_LEN: reads S-records into a memory of zeros; the bytes go to standard
   output. convert write BINARY FROM START: the bytes of a file, as the memory from FROM on, go to
   standard output as S-records. Reply and start, or reply and length, go to standard error. Both by
   the archive. Exit 1 where the reply is not 0. */
#include "srecords.h"

#include <stdio.h>
#include <stdlib.h>
#include <string.h>

static uint8_t *room(size_t size)
{
    uint8_t *at = calloc(size + 1, 1);
    if (at != NULL)
        return at;
    perror("room");
    exit(2);
}

/* The bytes of a file, put behind so many zeros. */
static uint8_t *bytes_of(const char *name, size_t zeros, size_t *len)
{
    FILE *file = fopen(name, "rb");
    if (file == NULL || fseek(file, 0, SEEK_END) != 0) {
        perror(name);
        exit(2);
    }
    size_t size = ftell(file);
    rewind(file);
    uint8_t *at = room(zeros + size);
    *len = zeros + fread(at + zeros, 1, size, file);
    fclose(file);
    return at;
}

static size_t number(const char *word)
{
    return strtoull(word, NULL, 0);
}

static int ends(uint64_t answer, const char *what)
{
    fprintf(stderr, "reply %u %s 0x%llX\n", (unsigned)(answer % 256), what,
            (unsigned long long)(answer / 256));
    return answer % 256 != DONE;
}

static int read_text(const char *name, size_t mem_len)
{
    size_t text_len;
    uint8_t *text = bytes_of(name, 0, &text_len);
    uint8_t *mem = room(mem_len);
    uint64_t answer = srecord_read(text, text_len, mem, mem_len);
    fwrite(mem, 1, mem_len, stdout);
    return ends(answer, "start");
}

static int write_text(const char *name, uint32_t from, uint32_t start)
{
    size_t mem_len;
    uint8_t *mem = bytes_of(name, from, &mem_len);
    size_t count = mem_len - from, text_len = 4 * count + 64;
    uint8_t *text = room(text_len);
    uint64_t answer = srecord_write(mem, mem_len, from, count, start, text, text_len);
    fwrite(text, 1, answer / 256, stdout);
    return ends(answer, "length");
}

int main(int argc, char **argv)
{
    if (argc == 4 && strcmp(argv[1], "read") == 0)
        return read_text(argv[2], number(argv[3]));
    if (argc == 5 && strcmp(argv[1], "write") == 0)
        return write_text(argv[2], number(argv[3]), number(argv[4]));
    fprintf(stderr, "use: convert read TEXT MEM_LEN, convert write BINARY FROM START\n");
    return 2;
}
