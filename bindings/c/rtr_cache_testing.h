/* For the tests of rtr_cache.h: a server, a connection and a simulated clock; what a router sends
 * and receives. Link with -Wl,--wrap=malloc,--wrap=realloc,--wrap=free. */
#ifndef RTR_CACHE_TESTING_H
#define RTR_CACHE_TESTING_H

#include "counting.h"
#include "rtr_cache.h"

_Static_assert(sizeof(struct rtr_served) == 488, "rtr_cache.h says how large it is");

static struct rtr_server s;
static struct rtr_served v;
static int64_t now = 1000000;

/* The bytes that a connection sent since the last check; the most that a router reads at once. */
static struct text sent;
static size_t piece = SIZE_MAX;

/* Runs the connection until it waits, closes, or has sent its last report; returns its event. */
static inline enum rtr_served_event runs(void)
{
    struct rtr_part parts[2];
    for (;;) {
        enum rtr_served_event event = rtr_served_next(&v, now);
        CHECK(event == RTR_SERVED_CLOSE ? v.wakes == now : v.wakes > now);
        CHECK(strlen(v.text) < sizeof v.text);
        int count = rtr_served_output(&v, parts);
        CHECK(event == RTR_SERVED_WAIT || count == 0);
        if (count == 0)
            return event;
        size_t length = parts[0].length < piece ? parts[0].length : piece;
        add(&sent, parts[0].at, length);
        rtr_served_sent(&v, now, length);
    }
}

static inline void begins(void)
{
    sent.length = 0;
    rtr_served_init(&v, &s, now);
    CHECK(runs() == RTR_SERVED_WAIT && sent.length == 0);
}

/* Receives these bytes. */
static inline void comes(const void *bytes, size_t length)
{
    for (size_t at = 0, most; at < length; at += most) {
        uint8_t *input = rtr_served_room(&v, &most);
        most = length - at < most ? length - at : most;
        CHECK(most > 0);
        memcpy(input, (const uint8_t *)bytes + at, most);
        rtr_served_received(&v, now, most);
        if (runs() != RTR_SERVED_WAIT)
            return;
    }
}

static inline void asks_all(uint8_t version)
{
    struct text query = {.length = 0};
    add_header(&query, version, 2, 0, 8);
    comes(query.bytes, query.length);
}

static inline void asks_changes(uint8_t version, uint16_t session, uint32_t serial)
{
    struct text query = {.length = 0};
    add_serial(&query, version, 1, session, serial);
    comes(query.bytes, query.length);
}

/* Checks that exactly these bytes were sent. */
static inline void says(const struct text *expected)
{
    CHECK(sent.length == expected->length && !memcmp(sent.bytes, expected->bytes, sent.length));
    sent.length = 0;
}

static inline void says_nothing(void)
{
    CHECK(runs() == RTR_SERVED_WAIT && sent.length == 0);
}

static inline void says_reset(uint8_t version)
{
    struct text expected = {.length = 0};
    add_header(&expected, version, 8, 0, 8);
    says(&expected);
}

/* A response without changes. */
static inline void says_same(uint8_t version, uint32_t serial)
{
    says(whole(version, serial, 2, 1));
}

/* A report of this version and code, about this many bytes. */
static inline void says_report(uint8_t version, uint16_t code, size_t about)
{
    struct rtr_unit unit;
    CHECK(rtr_next(sent.bytes, sent.length, &unit) == RTR_OK && unit.size == sent.length);
    CHECK(unit.kind == RTR_ERROR_REPORT && unit.version == version && unit.code == code);
    CHECK(unit.part_length == about && unit.text_length > 0);
    sent.length = 0;
}

/* Checks that the connection closes, for this reason, and sends nothing more. */
static inline void closes(const char *text)
{
    size_t before = sent.length;
    CHECK(runs() == RTR_SERVED_CLOSE && sent.length == before && !strcmp(v.text, text));
    rtr_served_free(&v);
}

/* Checks that the connection has sent its last report, for this reason, and waits until the router
 * has closed it. */
static inline void finishes(const char *text)
{
    size_t capacity;
    CHECK(runs() == RTR_SERVED_FINISH && v.wakes == now + s.settings.report_limit);
    rtr_served_room(&v, &capacity);
    CHECK(capacity == 0 && !strcmp(v.text, text));
    rtr_served_lost(&v, NULL);
    closes(text);
}

static inline void leaves(void)
{
    rtr_served_lost(&v, NULL);
    closes("");
}

static const int64_t date = INT64_C(1800000000000); /* in January 2027 */

static inline enum rtr_update updates(const struct text *text)
{
    return rtr_server_update(&s, date + now, text->bytes, text->length);
}

/* Gives the server data, which are saved at once. */
static inline enum rtr_update takes(const struct text *text)
{
    enum rtr_update update = updates(text);
    rtr_server_saved(&s);
    return update;
}

/* A server that has the prefixes of AS 1 to 3 at serial number 5. */
static inline void has_data(uint8_t version)
{
    rtr_server_init(&s);
    CHECK(takes(whole(version, 5, 1, 3)) == RTR_UPDATE_TAKEN);
    CHECK(s.present.has && s.present.session == SESSION && s.present.serial == 5);
    CHECK(s.payloads == 3 && s.end.serial == 5);
}

static inline void ends(void)
{
    CHECK(s.door.served == 0 && s.door.refused == 0);
    rtr_server_free(&s);
    CHECK(held == 0);
}

/* A router that stops reading its answer. */
static inline void stalls(void)
{
    struct rtr_part parts[2];
    struct text query = {.length = 0};
    size_t capacity;
    begins();
    add_header(&query, 1, 2, 0, 8);
    memcpy(rtr_served_room(&v, &capacity), query.bytes, query.length);
    rtr_served_received(&v, now, query.length);
    CHECK(rtr_served_next(&v, now) == RTR_SERVED_WAIT && rtr_served_output(&v, parts) == 2);
    CHECK(v.wakes == now + s.settings.write_limit);
    rtr_served_room(&v, &capacity);
    CHECK(capacity == 0);
}

#endif
