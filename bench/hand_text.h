/* Output functions of programs.c: buffers of 64 KiB, and the texts of a unit's fields. */
#ifndef FISHREEF_HAND_TEXT_H
#define FISHREEF_HAND_TEXT_H

#include <stdio.h>
#include <stdlib.h>
#include <unistd.h>
#include "by_hand.h"

enum { BUFFER = 65536, LINE = 400000 };

static uint8_t input[2 * BUFFER];
static size_t input_at, input_end;
static char output[BUFFER + LINE];
static size_t output_end;
static inline void stop(const char *why)
{
    fprintf(stderr, "programs: %s\n", why);
    exit(3);
}

/* Reads more, keeps the bytes not yet taken, and returns whether anything came. */
static inline bool refill(void)
{
    memmove(input, input + input_at, input_end - input_at);
    input_end -= input_at;
    input_at = 0;
    ssize_t got = read(STDIN_FILENO, input + input_end, BUFFER);
    if (got < 0)
        stop("read failed");
    input_end += (size_t)got;
    return got > 0;
}

static inline void flush(void)
{
    for (size_t put = 0; put < output_end;) {
        ssize_t took = write(STDOUT_FILENO, output + put, output_end - put);
        if (took <= 0)
            stop("write failed");
        put += (size_t)took;
    }
    output_end = 0;
}

/* ---- text */

static inline void put_text(const char *text)
{
    size_t length = strlen(text);
    memcpy(output + output_end, text, length);
    output_end += length;
}

static inline void put_byte(char byte)
{
    output[output_end++] = byte;
}

static inline void put_number(uint64_t number)
{
    char digits[20];
    int at = 20;
    do
        digits[--at] = (char)('0' + number % 10);
    while (number /= 10);
    memcpy(output + output_end, digits + at, (size_t)(20 - at));
    output_end += (size_t)(20 - at);
}

static inline void put_labelled(const char *label, uint64_t number)
{
    put_text(label);
    put_number(number);
}

static const char hex_digits[] = "0123456789abcdef";

static inline void put_hex(const uint8_t *at, size_t length)
{
    for (size_t i = 0; i < length; i++) {
        put_byte(hex_digits[at[i] >> 4]);
        put_byte(hex_digits[at[i] & 15]);
    }
}

static inline void put_ipv4(const uint8_t *at)
{
    put_number(at[0]);
    for (int i = 1; i < 4; i++) {
        put_byte('.');
        put_number(at[i]);
    }
}

static inline void put_group(unsigned group)
{
    int shift = group > 0xfff ? 12 : group > 0xff ? 8 : group > 0xf ? 4 : 0;
    for (; shift >= 0; shift -= 4)
        put_byte(hex_digits[group >> shift & 15]);
}

/* As RFC 5952 says: the first of the longest runs of two or more zeros is left out. */
static inline void put_ipv6(const uint8_t *at)
{
    static const uint8_t mapped[12] = {0, 0, 0, 0, 0, 0, 0, 0, 0, 0, 0xff, 0xff};
    if (memcmp(at, mapped, 12) == 0) {
        put_text("::ffff:");
        put_ipv4(at + 12);
        return;
    }
    unsigned group[8];
    int start = 8, longest = 1;
    for (int i = 0, run = 0; i < 8; i++) {
        group[i] = (unsigned)at[2 * i] << 8 | at[2 * i + 1];
        run = group[i] ? 0 : run + 1;
        if (run > longest) {
            longest = run;
            start = i + 1 - run;
        }
    }
    for (int i = 0; i < 8; i++) {
        if (i == start) {
            put_text("::");
            i += longest - 1;
            continue;
        }
        if (i > 0 && i != start + longest)
            put_byte(':');
        put_group(group[i]);
    }
}

/* Base64 with the alphabet of RFC 4648 section 5, without padding. */
static inline void put_base64(const uint8_t *at, size_t length)
{
    static const char digits[] = "ABCDEFGHIJKLMNOPQRSTUVWXYZabcdefghijklmnopqrstuvwxyz0123456789-_";
    for (; length >= 3; at += 3, length -= 3) {
        uint32_t group = (uint32_t)at[0] << 16 | (uint32_t)at[1] << 8 | at[2];
        put_byte(digits[group >> 18]);
        put_byte(digits[group >> 12 & 63]);
        put_byte(digits[group >> 6 & 63]);
        put_byte(digits[group & 63]);
    }
    if (length > 0) {
        uint32_t group = (uint32_t)at[0] << 16 | (length > 1 ? (uint32_t)at[1] << 8 : 0);
        put_byte(digits[group >> 18]);
        put_byte(digits[group >> 12 & 63]);
        if (length > 1)
            put_byte(digits[group >> 6 & 63]);
    }
}

/* ---- units */

static inline bool is_prefix(const uint8_t *in)
{
    return in[1] == RTR_IPV4_PREFIX || in[1] == RTR_IPV6_PREFIX;
}

static inline uint8_t flags_of(const uint8_t *in)
{
    return is_prefix(in) ? in[8] : in[2];
}

static inline void put_address(const uint8_t *in)
{
    if (in[1] == RTR_IPV4_PREFIX)
        put_ipv4(in + 12);
    else
        put_ipv6(in + 12);
}

static inline void put_kind(const uint8_t *in)
{
    put_text(in[1] == RTR_IPV4_PREFIX   ? " IPv4 prefix"
             : in[1] == RTR_IPV6_PREFIX ? " IPv6 prefix"
             : in[1] == RTR_ROUTER_KEY  ? " router key"
                                        : " ASPA");
}

/* The fields of an announcement. */
static inline void put_fields(const uint8_t *in, size_t size)
{
    if (is_prefix(in)) {
        put_byte(' ');
        put_address(in);
        put_labelled("/", in[9]);
        put_labelled("-", in[10]);
        put_labelled(" AS", get32(in + size - 4));
    } else if (in[1] == RTR_ROUTER_KEY) {
        put_byte(' ');
        put_hex(in + 8, 20);
        put_labelled(" AS", get32(in + 28));
        put_byte(' ');
        put_base64(in + 32, size - 32);
    } else {
        put_labelled(" AS", get32(in + 8));
        put_text(" providers");
        for (size_t at = 12; at < size; at += 4)
            put_labelled(" AS", get32(in + at));
    }
}

#endif
