/* A client without sockets (rtr_client.h), with a simulated clock, cache and memory. */
#ifndef PLAYED_H
#define PLAYED_H

#include "counting.h"
#include "rtr_client.h"

enum { NONE = -1 };

/* ---- a client under test */

static struct rtr_client c;
static int64_t now = 1000000;
static bool connected;

/* Returns the next event, after checking its invariants. */
static inline enum rtr_client_event event(void)
{
    struct rtr_data_answer answer;
    size_t length;
    static uint8_t output[1 << 18];
    enum rtr_client_event next = rtr_client_next(&c, now);
    if (next == RTR_CLIENT_WAIT) {
        CHECK(c.wakes > now);
        CHECK(rtr_client_room(&c, &length) && length > 0);
    }
    CHECK(connected == (next == RTR_CLIENT_CLOSE) || next != RTR_CLIENT_CONNECT);
    connected = next == RTR_CLIENT_CONNECT || (connected && next != RTR_CLIENT_CLOSE);
    if (next == RTR_CLIENT_DATA)
        CHECK(
            rtr_delta(c.data, c.data_length, c.data, c.data_length, output, sizeof output, &answer)
            == RTR_OK);
    CHECK((next == RTR_CLIENT_DROPPED) <= !c.data);
    CHECK(c.data || (c.data_length == 0 && rtr_client_payloads(&c) == 0));
    CHECK(!c.changes && c.changes_length == 0); /* those of an earlier event were freed */
    if (next != RTR_CLIENT_DATA && next != RTR_CLIENT_DROPPED)
        CHECK(!rtr_client_changes(&c, &length) && length == 0);
    if (next == RTR_CLIENT_WAIT || next == RTR_CLIENT_CONNECT)
        CHECK(c.status == RTR_OK);
    CHECK(strlen(c.text) < sizeof c.text);
    return next;
}

#define EXPECT(name) CHECK(event() == RTR_CLIENT_##name)

/* Checks that the changes of the last event are exactly these bytes. */
static inline void changes_are(const uint8_t *bytes, size_t length)
{
    size_t count;
    const uint8_t *changes = rtr_client_changes(&c, &count);
    CHECK(changes && count == length && memcmp(changes, bytes, length) == 0);
}

/* Returns the length of the changes of the last event. */
static inline size_t changes_length(void)
{
    size_t length;
    CHECK(rtr_client_changes(&c, &length) != NULL);
    return length;
}

/* Checks that the client sends exactly these bytes. */
static inline void sends(const struct text *expected)
{
    size_t length;
    const uint8_t *output = rtr_client_output(&c, &length);
    CHECK(length == expected->length && memcmp(output, expected->bytes, length) == 0);
    rtr_client_sent(&c, length);
}

static inline void sends_reset_query(uint8_t version)
{
    struct text expected = {.length = 0};
    add_header(&expected, version, 2, 0, 8);
    sends(&expected);
}

static inline void sends_serial_query(uint8_t version, uint32_t serial)
{
    struct text expected = {.length = 0};
    add_serial(&expected, version, 1, SESSION, serial);
    sends(&expected);
}

/* Checks that the client owes a report of this code, or none; it encloses this many bytes, unless
 * that is 0. */
static inline void owes(int code, size_t about)
{
    size_t length;
    struct rtr_unit unit;
    const uint8_t *output = rtr_client_output(&c, &length);
    CHECK((code == NONE) == (length == 0));
    if (code == NONE)
        return;
    CHECK(rtr_next(output, length, &unit) == RTR_OK && unit.size == length);
    CHECK(unit.kind == RTR_ERROR_REPORT && unit.code == code);
    CHECK(about == 0 || unit.part_length == about);
    /* c.text ends with an offset, which the report's text lacks. */
    CHECK(unit.text_length > 0 && unit.text_length <= strlen(c.text));
    CHECK(memcmp(output + unit.text_start, c.text, unit.text_length) == 0);
}

/* The client receives these bytes, in pieces that fit its buffer. */
static inline void comes(const uint8_t *bytes, size_t length)
{
    for (size_t most, piece; length > 0; bytes += piece, length -= piece) {
        uint8_t *input = rtr_client_room(&c, &most);
        piece = length < most ? length : most;
        memcpy(input, bytes, piece);
        CHECK(rtr_client_received(&c, piece));
        if (piece < length)
            EXPECT(WAIT);
    }
}

/* A client without data connects, and asks for all. */
static inline void asks(void)
{
    connected = false;
    EXPECT(CONNECT);
    CHECK(c.wakes == now + 30000);
    CHECK(rtr_client_connected(&c));
    EXPECT(WAIT);
    sends_reset_query(c.settings.highest);
}

static inline void begins(uint8_t version)
{
    rtr_client_init(&c, version);
    asks();
}

/* Begins a client that has the prefixes of AS 1 to 3 at serial number 5, and has asked for
 * changes. */
static inline void has_data(uint8_t version)
{
    begins(version);
    comes(whole(version, 5, 1, 3)->bytes, whole(version, 5, 1, 3)->length);
    EXPECT(DATA);
    CHECK(rtr_client_payloads(&c) == 3 && c.end.serial == 5);
    EXPECT(WAIT);
    CHECK(c.wakes == now + 3600 * 1000);
    now = c.wakes;
    EXPECT(WAIT);
    sends_serial_query(version, 5);
}

static inline void ends(void)
{
    rtr_client_free(&c);
    CHECK(held == 0);
}

/* Checks that it reconnects after this many milliseconds. */
static inline void connects_after(int64_t time)
{
    EXPECT(WAIT);
    CHECK(c.wakes == now + time);
    now = c.wakes;
    EXPECT(CONNECT);
    rtr_client_connected(&c);
    EXPECT(WAIT);
}

#endif
