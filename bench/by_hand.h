/* The calls of rtr.h written by hand in C, which rtr.h's are measured against. Nothing here is
 * proved; bench/calls.c tests that both return the same. */
#ifndef FISHREEF_BY_HAND_H
#define FISHREEF_BY_HAND_H

#include <string.h>
#include "rtr.h"

static inline uint32_t get32(const uint8_t *bytes)
{
    uint32_t value;
    memcpy(&value, bytes, 4);
    return __builtin_bswap32(value);
}

static inline void put32(uint8_t *bytes, uint32_t value)
{
    value = __builtin_bswap32(value);
    memcpy(bytes, &value, 4);
}

static inline uint64_t get64(const uint8_t *bytes)
{
    uint64_t value;
    memcpy(&value, bytes, 8);
    return __builtin_bswap64(value);
}

static inline void put64(uint8_t *bytes, uint64_t value)
{
    value = __builtin_bswap64(value);
    memcpy(bytes, &value, 8);
}

/* Writes an address of 4 or 16 bytes with all but its first `bits` bits cleared. */
static inline void put_cleared(uint8_t *to, const uint8_t *from, unsigned size, unsigned bits)
{
    const uint64_t all = UINT64_MAX;
    if (size == 4) {
        put32(to, get32(from) & ~(uint32_t)(all >> 32 >> bits));
        return;
    }
    put64(to, bits < 64 ? get64(from) & ~(all >> bits) : get64(from));
    put64(to + 8, bits > 64 ? get64(from + 8) & all << (128 - bits) : 0);
}

/* Like rtr_normalise_slice and rtr_next. */
uint8_t normalise_by_hand(const uint8_t *input, size_t input_length, uint8_t *output,
                          size_t output_length, uint64_t limit, struct rtr_answer *answer);
uint8_t next_by_hand(const uint8_t *input, size_t input_length, struct rtr_unit *unit);

#endif
