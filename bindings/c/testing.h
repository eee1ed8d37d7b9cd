/* Shared by the tests of C. The archive isn't instrumented, so sanitizers don't see its reads and
 * writes. Instead each input and output lies between two guard pages, once right after the first
 * and once right before the second. */
#ifndef TESTING_H
#define TESTING_H

#define _DEFAULT_SOURCE /* MAP_ANONYMOUS */
#include <stdio.h>
#include <stdlib.h>
#include <string.h>
#include <sys/mman.h>
#include <unistd.h>
#include "rtr.h"

#define CHECK(what) check(what, #what, __FILE__, __LINE__)

static inline void check(int holds, const char *what, const char *file, int line)
{
    if (!holds) {
        fprintf(stderr, "%s:%d: %s\n", file, line, what);
        exit(1);
    }
}

/* Reads the next number, of eight bytes, little-endian. */
static inline uint64_t number(const uint8_t **at)
{
    uint64_t value = 0;
    for (int i = 7; i >= 0; i--)
        value = value << 8 | (*at)[i];
    *at += 8;
    return value;
}

/* The most bytes of an input or an output. */
#define MOST ((size_t)1 << 19)

/* Pages between two guard pages. */
struct fenced {
    uint8_t *front, *end;
};

static inline struct fenced fence(size_t most)
{
    size_t page = (size_t)sysconf(_SC_PAGESIZE), size = (most + page - 1) / page * page;
    uint8_t *all = mmap(NULL, size + 2 * page, PROT_NONE, MAP_PRIVATE | MAP_ANONYMOUS, -1, 0);
    CHECK(all != MAP_FAILED);
    CHECK(mprotect(all + page, size, PROT_READ | PROT_WRITE) == 0);
    return (struct fenced){all + page, all + page + size};
}

/* A thread's memory for inputs and outputs: all at the start of their pages, or at the end. */
struct arena {
    bool at_end;
    struct fenced input, other, output, index, answer, unit;
};

static inline struct arena new_arena(void)
{
    return (struct arena){false,       fence(MOST), fence(MOST), fence(MOST),
                          fence(MOST), fence(1),    fence(1)};
}

/* Returns this many bytes, right after the first guard page or right before the second. */
static inline void *lie(const struct arena *arena, struct fenced fenced, size_t length)
{
    CHECK(length <= (size_t)(fenced.end - fenced.front));
    return arena->at_end ? fenced.end - length : fenced.front;
}

static inline uint8_t *copied(const struct arena *arena, struct fenced fenced, const uint8_t *bytes,
                              size_t length)
{
    uint8_t *copy = lie(arena, fenced, length);
    memcpy(copy, bytes, length);
    return copy;
}

/* Returns a buffer of `size` bytes that begins with those of another one, as many as fit. */
static inline void *resized(const struct arena *arena, struct fenced fenced, const void *bytes,
                            size_t length, size_t size)
{
    static uint8_t held[MOST];
    size_t same = length < size ? length : size;
    if (same)
        memcpy(held, bytes, same);
    return memcpy(memset(lie(arena, fenced, size), 0xa5, size), held, same);
}

/* Decodes hexadecimal digits, and returns the number of bytes. */
static inline size_t decoded(const char *digits, uint8_t *bytes)
{
    size_t length = strlen(digits) / 2;
    for (size_t i = 0; i < length; i++) {
        unsigned byte;
        CHECK(sscanf(digits + 2 * i, "%2x", &byte) == 1);
        bytes[i] = (uint8_t)byte;
    }
    return length;
}

/* Memory for a result, filled with bytes that no call returns. */
#define FILLED(fenced, type) ((type *)memset(lie(arena, fenced, sizeof(type)), 0xa5, sizeof(type)))

/* The content of a file. */
struct cases {
    const uint8_t *bytes;
    size_t length;
};

static inline struct cases read_file(const char *path)
{
    FILE *file = fopen(path, "rb");
    CHECK(file != NULL && fseek(file, 0, SEEK_END) == 0);
    size_t length = (size_t)ftell(file);
    uint8_t *bytes = malloc(length);
    rewind(file);
    CHECK(bytes != NULL && fread(bytes, 1, length, file) == length);
    fclose(file);
    return (struct cases){bytes, length};
}

#endif
