/* The calls of rtr.h in C, for where no archive fits: compile this file beside rtr.h, optimised, by
 * any compiler of C11. It needs no library but C's.
 *
 * A script made it of the proved module for WebAssembly, whose functions wabt's wasm2c wrote: don't
 * edit it. Nothing proves that wabt and binaryen translate rightly; tests run all calls over it.
 *
 * Copyright (c) 2026, the authors of Fishreef
 * Copyright (c) 2018, NLnet Labs
 * BSD 3-Clause License: see the file LICENSE at the top of the repository.
 *
 * Where pointers have 64 bits and numbers lie with their lowest byte first, the module's addresses
 * are the host's, its structs are those of rtr.h, and a call copies nothing. Elsewhere (COPIES) all
 * that isn't bytes is copied, with the sizes and the order of bytes that the module has.
 */
#include "rtr.h"

#include <stdlib.h>
#include <string.h>

#if defined __BYTE_ORDER__ && __BYTE_ORDER__ != __ORDER_LITTLE_ENDIAN__
#define BIG_ENDIAN_HOST
#endif
#if UINTPTR_MAX != UINT64_MAX || defined BIG_ENDIAN_HOST
#define COPIES
#endif

#ifdef __GNUC__
#pragma GCC diagnostic ignored "-Wunused-function"
#pragma GCC diagnostic ignored "-Wunused-parameter"
#pragma GCC diagnostic ignored "-Wunused-variable"
#endif

typedef uint8_t u8;
typedef int8_t s8;
typedef uint16_t u16;
typedef int16_t s16;
typedef uint32_t u32;
typedef int32_t s32;
typedef uint64_t u64;
typedef int64_t s64;

/* The state of a call: the top and the end of its stack, and a flag that it runs. */
typedef struct {
    u64 g0;
    u64 lowest;
    u32 g1;
} M;

/* ---- memory */

/* The module's data; AT(n) is the address of byte n. Elsewhere addresses have a mark that none of
 * the host's has. */
typedef union {
    u8 bytes[8];
    const u8 *address;
} cell;

#define BYTES(...) {{__VA_ARGS__}}
#ifndef COPIES
#define ADDRESS(n) {.address = (const u8 *)data + (n)}
#define AT(n) ((u64)(uintptr_t)((const u8 *)data + (n)))
#define HOST(at) ((u8 *)(uintptr_t)(at))
#else
#define MARK ((u64)1 << 63)
#define ADDRESS(n) {{(n) & 255, (n) >> 8, 0, 0, 0, 0, 0, 128}}
#define AT(n) (MARK + (n))
#define HOST(at) host(at)
#endif

static const _Alignas(64) cell data[] = {
/* rows */
};

#ifdef COPIES
static inline u8 *host(u64 at)
{
    return (u8 *)(at & MARK ? (uintptr_t)data + (uintptr_t)(at ^ MARK) : (uintptr_t)at);
}
#endif

/* A number in the module's order of bytes: from the host's, or back. */
#ifdef BIG_ENDIAN_HOST
#define ORDERED(type, number)                                                        \
    ((type)(sizeof(type) == 1   ? (u64)(number)                                      \
            : sizeof(type) == 2 ? __builtin_bswap16((u16)(number))                   \
            : sizeof(type) == 4 ? __builtin_bswap32((u32)(number))                   \
                                : __builtin_bswap64((u64)(number))))
#else
#define ORDERED(type, number) ((type)(number))
#endif

/* A load of a number of this type, and a store. */
#define LOAD(name, type, wide)                    \
    static inline wide name(u64 at)               \
    {                                             \
        type number;                              \
        memcpy(&number, HOST(at), sizeof number); \
        return (wide)ORDERED(type, number);       \
    }
#define STORE(name, type, wide)                   \
    static inline void name(u64 at, wide value)   \
    {                                             \
        type number = ORDERED(type, value);       \
        memcpy(HOST(at), &number, sizeof number); \
    }

LOAD(i32_load, u32, u32)
LOAD(i64_load, u64, u64)
LOAD(i32_load8_s, s8, u32)
LOAD(i32_load8_u, u8, u32)
LOAD(i32_load16_s, s16, u32)
LOAD(i32_load16_u, u16, u32)
LOAD(i64_load8_s, s8, u64)
LOAD(i64_load8_u, u8, u64)
LOAD(i64_load16_s, s16, u64)
LOAD(i64_load16_u, u16, u64)
LOAD(i64_load32_s, s32, u64)
LOAD(i64_load32_u, u32, u64)
STORE(i32_store, u32, u32)
STORE(i64_store, u64, u64)
STORE(i32_store8, u8, u32)
STORE(i32_store16, u16, u32)
STORE(i64_store8, u8, u64)
STORE(i64_store16, u16, u64)
STORE(i64_store32, u32, u64)

static inline void memory_copy(u64 to, u64 from, u64 size)
{
    memmove(HOST(to), HOST(from), (size_t)size);
}

static inline void memory_fill(u64 to, u32 value, u64 size)
{
    memset(HOST(to), (int)(value & 255), (size_t)size);
}

/* ---- numbers: what C has no operator for */

static inline u32 I32_ROTL(u32 x, u32 by)
{
    return x << (by & 31) | x >> (-by & 31);
}

static inline u32 I32_ROTR(u32 x, u32 by)
{
    return x >> (by & 31) | x << (-by & 31);
}

static inline u64 I64_ROTL(u64 x, u64 by)
{
    return x << (by & 63) | x >> (-by & 63);
}

static inline u64 I64_ROTR(u64 x, u64 by)
{
    return x >> (by & 63) | x << (-by & 63);
}

static inline u64 I64_POPCNT(u64 x)
{
    u64 count = 0;
    for (; x; x &= x - 1) {
        count++;
    }
    return count;
}

/* Count the zero bits above the highest that is set, and below the lowest. */
static inline u64 I64_CLZ(u64 x)
{
#ifdef __GNUC__
    return x ? (u64)__builtin_clzll(x) : 64;
#else
    for (int by = 1; by < 64; by *= 2) {
        x |= x >> by;
    }
    return I64_POPCNT(~x);
#endif
}

static inline u64 I64_CTZ(u64 x)
{
#ifdef __GNUC__
    return x ? (u64)__builtin_ctzll(x) : 64;
#else
    return I64_POPCNT(~x & (x - 1));
#endif
}

#define I32_POPCNT(x) ((u32)I64_POPCNT(x))
#define I32_CLZ(x) ((u32)I64_CLZ(x) - 32)
#define I32_CTZ(x) ((u32)I64_CTZ((x) | (u64)1 << 32))
#define DIV_U(x, y) ((x) / (y))
#define REM_U(x, y) ((x) % (y))

/* ---- calls */

/* What a call begins with: its stack. */
#define START(size)                 \
    _Alignas(16) u8 stack[(size) + 16]; \
    M m = {HERE(stack + sizeof stack), HERE(stack), 0}
#define HERE(pointer) ((u64)(uintptr_t)(pointer))

#ifndef COPIES
#define SAME_SIZE(name, size) _Static_assert(sizeof(struct name) == (size), "another ABI");
#define LEND(name, what) u64 name##_at = HERE(name)
#define LEND_MANY(name, what, length) u64 name##_at = HERE(name), name##_many = (length)
#define TAKE(name, what) (void)0
#define TAKE_MANY(name, what) (void)0
#define END_MANY(name) (void)0
#else

/* The numbers of a struct, or of an array in it: where they begin and how many bytes each has, here
 * and in the module, and how many there are. */
struct field {
    size_t here, here_size, there, there_size, count;
};

struct layout {
    size_t here, there; /* bytes of the struct */
    const struct field *fields;
    size_t count;
};

#define SAME_SIZE(name, size)
#define LAYOUT(name, type, size)                   \
    enum { name##_there = size };                  \
    static const struct layout name##_layout = {   \
        sizeof(type), size, name##_fields, sizeof name##_fields / sizeof name##_fields[0]}

static u64 number_of(const u8 *at, size_t size)
{
    u16 two;
    u32 four;
    u64 eight;
    switch (size) {
    case 1:
        return *at;
    case 2:
        memcpy(&two, at, 2);
        return two;
    case 4:
        memcpy(&four, at, 4);
        return four;
    default:
        memcpy(&eight, at, 8);
        return eight;
    }
}

static void set_number(u8 *at, u64 number, size_t size)
{
    u8 byte = (u8)number;
    u16 two = (u16)number;
    u32 four = (u32)number;
    const void *from = size == 1   ? (const void *)&byte
                       : size == 2 ? (const void *)&two
                       : size == 4 ? (const void *)&four
                                   : (const void *)&number;
    memcpy(at, from, size);
}

/* Returns the number in the module's order of bytes. */
static u64 number_there(u64 number, size_t size)
{
    return size == 1   ? number
           : size == 2 ? ORDERED(u16, number)
           : size == 4 ? ORDERED(u32, number)
                       : ORDERED(u64, number);
}

/* Copies structs for the module. A size_t of 32 bits is widened by its highest bit: values near
 * 2^64 are preserved, and no length reaches that bit. */
static u64 lend(u8 *there, const void *here, const struct layout *layout, size_t count)
{
    memset(there, 0, layout->there * count);
    for (size_t i = 0; i < count * layout->count; i++) {
        const struct field *field = &layout->fields[i % layout->count];
        const u8 *from = (const u8 *)here + i / layout->count * layout->here + field->here;
        u8 *to = there + i / layout->count * layout->there + field->there;
        for (size_t k = 0; k < field->count; k++) {
            u64 number = number_of(from + k * field->here_size, field->here_size);
            if (field->here_size < field->there_size) {
                number = (u64)(s64)(s32)(u32)number;
            }
            set_number(to + k * field->there_size, number_there(number, field->there_size),
                       field->there_size);
        }
    }
    return HERE(there);
}

/* Copies them back. */
static void take(void *here, const u8 *there, const struct layout *layout, size_t count)
{
    for (size_t i = 0; i < count * layout->count; i++) {
        const struct field *field = &layout->fields[i % layout->count];
        u8 *to = (u8 *)here + i / layout->count * layout->here + field->here;
        const u8 *from = there + i / layout->count * layout->there + field->there;
        for (size_t k = 0; k < field->count; k++) {
            u64 number = number_of(from + k * field->there_size, field->there_size);
            set_number(to + k * field->here_size, number_there(number, field->there_size),
                       field->here_size);
        }
    }
}

/* Memory for an array: a short one's is in the frame. If memory for a longer one is refused, the
 * array is as long as the one in the frame. */
enum { FEW = 8 };

static u8 *memory_for(u8 *few, size_t *length, size_t size)
{
    u8 *array = few;
    if (*length > FEW) {
        array = *length <= SIZE_MAX / size ? malloc(*length * size) : NULL;
        if (!array) {
            array = few;
            *length = FEW;
        }
    }
    return array;
}

#define LEND(name, what)                       \
    _Alignas(8) u8 name##_bytes[what##_there]; \
    u64 name##_at = lend(name##_bytes, name, &what##_layout, 1)
#define LEND_MANY(name, what, length)                                             \
    _Alignas(8) u8 name##_few[FEW * what##_there];                                \
    size_t name##_many = (length);                                                \
    u8 *name##_bytes = memory_for(name##_few, &name##_many, what##_there);        \
    u64 name##_at = lend(name##_bytes, name, &what##_layout, name##_many)
#define TAKE(name, what) take(name, name##_bytes, &what##_layout, 1)
#define TAKE_MANY(name, what) take(name, name##_bytes, &what##_layout, name##_many)
#define END_MANY(name)                  \
    if (name##_bytes != name##_few) {   \
        free(name##_bytes);             \
    }                                   \
    (void)0
#endif
