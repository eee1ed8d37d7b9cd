/* Counts allocations and lets them fail, and builds units for tests: link it with
 * -Wl,--wrap=malloc,--wrap=realloc,--wrap=free. */
#ifndef COUNTING_H
#define COUNTING_H

#include "testing.h"
#include <malloc.h>

enum { SESSION = 4660 };

/* ---- memory */

void *__real_malloc(size_t size);
void *__real_realloc(void *memory, size_t size);
void __real_free(void *memory);
void *__wrap_malloc(size_t size);
void *__wrap_realloc(void *memory, size_t size);
void __wrap_free(void *memory);

static size_t held, most_held, allocations, denied; /* denied: which allocation fails, or 0 */

void *__wrap_malloc(size_t size)
{
    void *memory = ++allocations == denied ? NULL : __real_malloc(size);
    held += memory ? malloc_usable_size(memory) : 0;
    most_held = held > most_held ? held : most_held;
    return memory;
}

void *__wrap_realloc(void *memory, size_t size)
{
    size_t before = malloc_usable_size(memory);
    void *moved = ++allocations == denied ? NULL : __real_realloc(memory, size);
    held += moved ? malloc_usable_size(moved) - before : 0;
    most_held = held > most_held ? held : most_held;
    return moved;
}

void __wrap_free(void *memory)
{
    held -= memory ? malloc_usable_size(memory) : 0;
    __real_free(memory);
}

/* ---- units, as RFC 8210 section 5 draws them */

struct text {
    uint8_t bytes[1 << 17];
    size_t length;
};

static inline void add(struct text *to, const void *bytes, size_t length)
{
    CHECK(length <= sizeof to->bytes - to->length);
    memcpy(to->bytes + to->length, bytes, length);
    to->length += length;
}

static inline void add_number(struct text *to, uint32_t value)
{
    uint8_t bytes[] = {(uint8_t)(value >> 24), (uint8_t)(value >> 16), (uint8_t)(value >> 8),
                       (uint8_t)value};
    add(to, bytes, 4);
}

static inline void add_header(struct text *to, uint8_t version, uint8_t type, uint16_t field,
                              uint32_t length)
{
    uint8_t bytes[] = {version, type, (uint8_t)(field >> 8), (uint8_t)field};
    add(to, bytes, 4);
    add_number(to, length);
}

static inline void add_response(struct text *to, uint8_t version, uint16_t session)
{
    add_header(to, version, 3, session, 8);
}

/* The prefix 10.0.0.0/8-24 of an AS. */
static inline void add_prefix(struct text *to, uint8_t version, uint8_t flags, uint32_t asn)
{
    uint8_t bytes[] = {flags, 8, 24, 0, 10, 0, 0, 0};
    add_header(to, version, 4, 0, 20);
    add(to, bytes, 8);
    add_number(to, asn);
}

static inline void add_aspa(struct text *to, uint8_t flags, uint32_t customer, uint32_t provider)
{
    add_header(to, 2, 11, (uint16_t)(flags << 8), flags ? 16 : 12);
    add_number(to, customer);
    if (flags)
        add_number(to, provider);
}

/* A router key of AS 7 with this many bytes of key info. */
static inline void add_key(struct text *to, uint8_t version, uint8_t flags, uint32_t info)
{
    static const uint8_t zero[1 << 16];
    add_header(to, version, 9, (uint16_t)(flags << 8), 32 + info);
    add(to, zero, 20);
    add_number(to, 7);
    add(to, zero, info);
}

static inline void add_serial(struct text *to, uint8_t version, uint8_t type, uint16_t session,
                              uint32_t serial)
{
    add_header(to, version, type, session, 12);
    add_number(to, serial);
}

static inline void add_end(struct text *to, uint8_t version, uint16_t session, uint32_t serial,
                           const uint32_t *times)
{
    add_header(to, version, 7, session, version ? 24 : 12);
    add_number(to, serial);
    for (int i = 0; version && i < 3; i++)
        add_number(to, times[i]);
}

static inline void add_report(struct text *to, uint8_t version, uint16_t code)
{
    add_header(to, version, 10, code, 18);
    add_number(to, 0);
    add_number(to, 2);
    add(to, "no", 2);
}

static const uint32_t usual[] = {3600, 600, 7200};

/* Returns a response with the prefix of each of these ASes, in order. */
static inline struct text *whole(uint8_t version, uint32_t serial, uint32_t first, uint32_t last)
{
    static struct text text;
    text.length = 0;
    add_response(&text, version, SESSION);
    for (uint32_t asn = first; asn <= last; asn++)
        add_prefix(&text, version, 1, asn);
    add_end(&text, version, SESSION, serial, usual);
    return &text;
}

#endif
