/* Shared by the ends of a connection in C (tests/joined/README.md): lines that are read, and steps
 * that are printed. */
#ifndef ENDS_H
#define ENDS_H

#include "testing.h"
#include <inttypes.h>

enum { LONGEST_LINE = 1 << 18 };

static int64_t now;

static inline void print_hex(const uint8_t *bytes, size_t length)
{
    static const char digits[] = "0123456789abcdef";
    for (size_t i = 0; i < length; i++) {
        putchar(digits[bytes[i] >> 4]);
        putchar(digits[bytes[i] & 15]);
    }
}

/* Prints a step that has only words. */
static inline void does(const char *words)
{
    printf("%" PRId64 " %s\n", now, words);
}

/* Prints the bytes that an end sends, unless there are none. */
static inline void does_send(const char *end, const uint8_t *bytes, size_t length)
{
    if (length == 0)
        return;
    printf("%" PRId64 " %s> ", now, end);
    print_hex(bytes, length);
    putchar('\n');
}

/* Ends an answer: prints when this end next acts by itself. */
static inline void answers(int64_t wakes)
{
    printf("wakes %" PRId64 "\n", wakes);
    fflush(stdout);
}

/* Decodes hexadecimal words into a buffer, and returns the number of bytes. */
static inline size_t from_hex(uint8_t *to, size_t capacity, const char *hex)
{
    size_t count = 0;
    for (unsigned value; sscanf(hex, " %2x", &value) == 1; count++) {
        CHECK(count < capacity);
        to[count] = (uint8_t)value;
        hex += strspn(hex, " ") + 2;
    }
    return count;
}

/* Calls a function with each line of standard input. */
static inline void each_line(void (*line)(char *text))
{
    static char text[LONGEST_LINE];
    while (fgets(text, sizeof text, stdin)) {
        size_t length = strcspn(text, "\n");
        CHECK(text[length] == '\n');
        text[length] = 0;
        line(text);
    }
}

#endif
