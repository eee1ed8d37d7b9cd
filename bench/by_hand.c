/* The calls of rtr.h by hand in C: see by_hand.h. */
#include "by_hand.h"

/* The bytes of an error report beside its two parts. */
enum { REPORT_FIXED = 16 };

/* Returns the status of a unit of each kind with a whole header, by its length. */
static inline uint8_t prefix_status(const uint8_t *in, size_t left, size_t size, unsigned width,
                                    uint8_t *detail)
{
    if (size != 16 + width / 8)
        return RTR_UNIT_LENGTH;
    if (left < 16 + width / 8)
        return RTR_SHORT;
    if (in[9] <= in[10] && in[10] <= width)
        return RTR_OK;
    *detail = in[9] > width    ? RTR_LENGTH_OVER
              : in[10] > width ? RTR_MAX_LENGTH_OVER
                               : RTR_MAX_LENGTH_UNDER;
    return RTR_PREFIX;
}

static inline uint8_t end_status(const uint8_t *in, size_t left, size_t size, uint8_t *detail)
{
    if (in[0] > 2) {
        *detail = in[0];
        return RTR_UNIT_VERSION;
    }
    if (size != (in[0] ? 24 : 12))
        return RTR_UNIT_LENGTH;
    return left < size ? RTR_SHORT : RTR_OK;
}

static inline uint8_t key_status(size_t left, size_t size)
{
    if (size > 65535)
        return RTR_TOO_LONG;
    if (size < 32)
        return RTR_UNIT_LENGTH;
    return left < size ? RTR_SHORT : RTR_OK;
}

static inline uint8_t aspa_status(const uint8_t *in, size_t left, size_t size)
{
    if (size > 65535)
        return RTR_TOO_LONG;
    if (size < 12 || size % 4)
        return RTR_UNIT_LENGTH;
    if (size == 12 && in[2] & 1)
        return RTR_EMPTY_PROVIDERS;
    return left < size ? RTR_SHORT : RTR_OK;
}

/* Returns the status of the payload unit or the end of data at the front, and its length; or the
 * detail of its refusal. */
static inline uint8_t checked(const uint8_t *in, size_t left, size_t *size, uint8_t *detail)
{
    if (left < 8)
        return RTR_SHORT;
    *size = get32(in + 4);
    switch (in[1]) {
    case RTR_IPV4_PREFIX:
        return prefix_status(in, left, *size, 32, detail);
    case RTR_IPV6_PREFIX:
        return prefix_status(in, left, *size, 128, detail);
    case RTR_END_OF_DATA:
        return end_status(in, left, *size, detail);
    case RTR_ROUTER_KEY:
        return key_status(left, *size);
    case RTR_ASPA:
        return aspa_status(in, left, *size);
    default:
        *detail = in[1];
        return RTR_UNIT_TYPE;
    }
}

/* Writes a checked prefix unit in canonical form: the session, the free byte, all flags but the
 * lowest and the bits of the address after the prefix length are cleared. */
static inline void put_prefix(uint8_t *to, const uint8_t *from, size_t size)
{
    put64(to, get64(from) & UINT64_C(0xffff0000ffffffff));
    put32(to + 8, get32(from + 8) & 0x01ffff00);
    put_cleared(to + 12, from + 12, (unsigned)size - 16, from[9]);
    memcpy(to + size - 4, from + size - 4, 4);
}

static void answer_with(struct rtr_answer *answer, uint8_t status, uint8_t detail, size_t wanted)
{
    memset(answer, 0, sizeof *answer);
    answer->status = status;
    answer->detail = detail;
    answer->wanted = wanted;
}

uint8_t normalise_by_hand(const uint8_t *in, size_t length, uint8_t *out, size_t capacity,
                          uint64_t limit, struct rtr_answer *answer)
{
    const uint8_t *next = in;
    uint8_t *to = out, status = RTR_TOO_MANY, detail = 0;
    uint64_t units = 0;
    size_t left = length, size = 0, made;
    for (; units < limit; units++, next += size, left -= size) {
        status = RTR_SHORT;
        if (left < 8)
            break;
        size = get32(next + 4);
        switch (next[1]) {
        case RTR_IPV4_PREFIX:
            status = prefix_status(next, left, size, 32, &detail);
            made = 20;
            if (status != RTR_OK || capacity < made)
                goto stopped;
            put_prefix(to, next, 20);
            break;
        case RTR_IPV6_PREFIX:
            status = prefix_status(next, left, size, 128, &detail);
            made = 32;
            if (status != RTR_OK || capacity < made)
                goto stopped;
            put_prefix(to, next, 32);
            break;
        case RTR_END_OF_DATA:
            status = end_status(next, left, size, &detail);
            made = size;
            if (status != RTR_OK || capacity < made)
                goto stopped;
            memcpy(to, next, size);
            to += size;
            next += size;
            made = 0;
            goto stopped;
        case RTR_ROUTER_KEY:
            status = key_status(left, size);
            made = size;
            goto long_unit;
        case RTR_ASPA:
            status = aspa_status(next, left, size);
            made = next[2] & 1 ? size : 12;
        long_unit:
            if (status != RTR_OK || capacity < made)
                goto stopped;
            memcpy(to + 8, next + 8, made - 8);
            put32(to, get32(next) & 0xffff0100);
            put32(to + 4, (uint32_t)made);
            break;
        default:
            detail = next[1];
            status = RTR_UNIT_TYPE;
            goto stopped;
        }
        to += made;
        capacity -= made;
    }
    if (units == limit)
        status = RTR_TOO_MANY;
    made = 0;
stopped:
    if (status == RTR_OK && capacity < made)
        status = RTR_NO_ROOM;
    answer_with(answer, status, detail, status != RTR_SHORT ? 0 : left < 8 ? 8 : size);
    answer->units = answer->forms = units;
    answer->taken = (size_t)(next - in);
    answer->written = (size_t)(to - out);
    return status;
}

/* Returns the status of a unit, with a whole header, of a kind that no sequence has. */
static uint8_t other_status(const uint8_t *in, size_t left, size_t size, uint8_t *detail)
{
    switch (in[1]) {
    case RTR_SERIAL_NOTIFY:
    case RTR_SERIAL_QUERY:
        *detail = 0;
        if (size != 12)
            return RTR_UNIT_LENGTH;
        break;
    case RTR_RESET_QUERY:
    case RTR_CACHE_RESPONSE:
    case RTR_CACHE_RESET:
        *detail = 0;
        if (size != 8)
            return RTR_UNIT_LENGTH;
        break;
    case RTR_ERROR_REPORT:
        *detail = 0;
        if (size > 65535)
            return RTR_TOO_LONG;
        if (size < REPORT_FIXED)
            return RTR_UNIT_LENGTH;
        break;
    default:
        return RTR_UNIT_TYPE;
    }
    return left < size ? RTR_SHORT : RTR_OK;
}

/* As `checked`, of a unit of any kind. */
static inline uint8_t checked_any(const uint8_t *in, size_t left, size_t *size, uint8_t *detail)
{
    uint8_t status = checked(in, left, size, detail);
    return status == RTR_UNIT_TYPE ? other_status(in, left, *size, detail) : status;
}

/* Decodes a unit of a kind that no sequence has. */
static void show_other(const uint8_t *in, size_t size, struct rtr_unit *unit)
{
    uint16_t second = (uint16_t)(in[2] << 8 | in[3]);
    if (in[1] == RTR_ERROR_REPORT) {
        unit->code = second;
        size_t inner = get32(in + 8);
        if (inner > size - REPORT_FIXED || get32(in + 12 + inner) != size - REPORT_FIXED - inner)
            return;
        unit->part_start = 12;
        unit->part_length = inner;
        unit->text_start = REPORT_FIXED + inner;
        unit->text_length = size - REPORT_FIXED - inner;
    } else if (in[1] != RTR_RESET_QUERY && in[1] != RTR_CACHE_RESET) {
        unit->session = second;
        if (in[1] != RTR_CACHE_RESPONSE)
            unit->serial = get32(in + 8);
    }
}

uint8_t next_by_hand(const uint8_t *in, size_t left, struct rtr_unit *unit)
{
    size_t size = 0;
    /* In two pieces, which gcc clears without a loop. */
    memset(unit, 0, 64);
    memset((uint8_t *)unit + 64, 0, sizeof *unit - 64);
    uint8_t status = checked_any(in, left, &size, &unit->detail);
    if (status != RTR_OK) {
        if (status == RTR_SHORT)
            unit->wanted = left < 8 ? 8 : size;
        if (status == RTR_PREFIX)
            unit->size = size;
        return status;
    }
    unit->size = size;
    unit->kind = in[1];
    unit->version = in[0];
    switch (in[1]) {
    case RTR_IPV4_PREFIX:
    case RTR_IPV6_PREFIX:
        unit->family = in[1];
        unit->action = in[8] & 1;
        unit->prefix_length = in[9];
        unit->max_length = in[10];
        put_cleared(unit->address, in + 12, in[1] == RTR_IPV4_PREFIX ? 4 : 16, in[9]);
        unit->asn = get32(in + size - 4);
        break;
    case RTR_END_OF_DATA:
        unit->session = (uint16_t)(in[2] << 8 | in[3]);
        unit->serial = get32(in + 8);
        if (in[0]) {
            unit->refresh = get32(in + 12);
            unit->retry = get32(in + 16);
            unit->expire = get32(in + 20);
        }
        break;
    case RTR_ROUTER_KEY:
        unit->action = in[2] & 1;
        memcpy(unit->key_identifier, in + 8, 20);
        unit->asn = get32(in + 28);
        unit->part_start = 32;
        unit->part_length = size - 32;
        break;
    case RTR_ASPA:
        unit->action = in[2] & 1;
        unit->customer = get32(in + 8);
        unit->part_start = 12;
        unit->part_length = size - 12;
        break;
    default:
        show_other(in, size, unit);
    }
    return RTR_OK;
}
