/* What the runs by hand share: a whole file in memory, numbers of a record, lines with one write(2) each, and the shipped
   hash functions. They check only what they need to read a trace. */
#include <fcntl.h>
#include <stdint.h>
#include <stdlib.h>
#include <string.h>
#include <sys/stat.h>
#include <unistd.h>

static void put(const char *line, size_t length)
{
    while (length > 0) {
        ssize_t count = write(1, line, length);
        if (count <= 0)
            exit(5);
        line += count;
        length -= (size_t)count;
    }
}

static char *decimal(char *to, uint64_t number)
{
    char digits[20];
    int count = 0;
    do {
        digits[count++] = (char)('0' + number % 10);
        number /= 10;
    } while (number != 0);
    while (count > 0)
        *to++ = digits[--count];
    return to;
}

static char *signed_decimal(char *to, uint32_t word)
{
    if (word >> 31) {
        *to++ = '-';
        word = 0u - word;
    }
    return decimal(to, word);
}

/* The bytes of a file, with a 0 at their end. */
static char *text_of(const char *path)
{
    int file = open(path, O_RDONLY);
    struct stat about;
    if (file < 0 || fstat(file, &about) != 0)
        exit(4);
    size_t size = (size_t)about.st_size, have = 0;
    char *text = malloc(size + 1);
    if (text == NULL)
        exit(6);
    while (have < size) {
        ssize_t count = read(file, text + have, size - have);
        if (count <= 0)
            exit(4);
        have += (size_t)count;
    }
    text[size] = 0;
    return text;
}

/* The text of the trace that is named, behind its heading. */
static inline const char *whole(int argc, char **argv, const char *heading)
{
    if (argc != 2)
        exit(2);
    const char *text = text_of(argv[1]);
    size_t length = strlen(heading);
    if (strncmp(text, heading, length) != 0)
        exit(3);
    return text + length;
}

/* Reads the numbers of a record, the first of which is the gap. */
static inline const char *numbers(const char *text, uint32_t *row, int count)
{
    for (int k = 0; k < count; k++) {
        int is_negative = *text == '-';
        const char *from = text + is_negative;
        uint64_t number = 0;
        text = from;
        while (*text >= '0' && *text <= '9')
            number = number * 10 + (uint64_t)(*text++ - '0');
        if (text == from || text - from > 10 || *text != (k + 1 < count ? ',' : '\n'))
            exit(3);
        text++;
        row[k] = is_negative ? 0u - (uint32_t)number : (uint32_t)number;
    }
    return text;
}

static inline void packet(uint64_t number, const uint32_t *words, int count)
{
    char line[1024], *to = decimal(line, number);
    for (int k = 0; k < count; k++) {
        *to++ = ',';
        to = signed_decimal(to, words[k]);
    }
    *to++ = '\n';
    put(line, (size_t)(to - line));
}

static inline void state(const char *name, const uint32_t *words, uint32_t count)
{
    for (uint32_t k = 0; k < count; k++) {
        if (words[k] == 0)
            continue;
        char line[256] = "state,", *to = line + 6;
        size_t length = strlen(name);
        memcpy(to, name, length);
        to += length;
        *to++ = ',';
        to = decimal(to, k);
        *to++ = ',';
        to = signed_decimal(to, words[k]);
        *to++ = '\n';
        put(line, (size_t)(to - line));
    }
}

static inline void done(uint64_t packets)
{
    char line[32] = "done,", *to = decimal(line + 5, packets);
    *to++ = '\n';
    put(line, (size_t)(to - line));
}

/* The two last kinds of lines of a run on a machine. */
static inline void place(const char *name, int stage)
{
    char line[256] = "place,", *to = stpcpy(line + 6, name);
    *to++ = ',';
    to = decimal(to, (uint64_t)stage);
    *to++ = '\n';
    put(line, (size_t)(to - line));
}

static inline void done_after(uint64_t packets, uint64_t cycles)
{
    char line[64] = "done,", *to = decimal(line + 5, packets);
    *to++ = ',';
    to = decimal(to, cycles);
    *to++ = '\n';
    put(line, (size_t)(to - line));
}

/* 32-bit FNV-1a over the letter's number and the words' bytes, low byte first, without its top bit. */
static inline uint32_t fnv(uint8_t letter, const uint32_t *words, int count)
{
    uint32_t hash = (2166136261u ^ letter) * 16777619u;
    for (int k = 0; k < count; k++)
        for (int byte = 0; byte < 4; byte++)
            hash = (hash ^ (words[k] >> (8 * byte) & 255)) * 16777619u;
    return hash & 0x7fffffffu;
}
