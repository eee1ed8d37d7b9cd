/* Tests of connections in rtr_cache.h: answers, limits, ends, and random sessions. Expected values
 * are written by hand, after RFC 8210 and docs/SESSIONS.md.
 *
 * usage: rtr_cache_tests [SESSIONS]   with this many sessions of random bytes; default 3000 */
#include "rtr_cache_testing.h"

/* Each query gets its answer, for all versions of file and router. */
static void test_answers(void)
{
    for (uint8_t of = 0; of < 3; of++) {
        for (uint8_t version = 0; version < 3; version++) {
            has_data(of);
            begins();
            asks_all(version);
            says(whole(version, 5, 1, 3));
            asks_changes(version, SESSION, 5);
            says_same(version, 5);
            asks_changes(version, SESSION, 4);
            says_reset(version);
            asks_changes(version, SESSION + 1, 5);
            says_reset(version);
            leaves();
            ends();
        }
    }
}

/* From a file of version 2, routers of versions 0 and 1 get the payloads that their version has. */
static void test_versions(void)
{
    struct text file = {.length = 0}, expected;
    add_prefix(&file, 2, 1, 1);
    add_key(&file, 2, 1, 5);
    add_aspa(&file, 1, 7, 8);
    add_end(&file, 2, SESSION, 5, usual);
    rtr_server_init(&s);
    CHECK(takes(&file) == RTR_UPDATE_TAKEN && s.payloads == 3);
    for (uint8_t version = 0; version < 3; version++) {
        expected.length = 0;
        add_response(&expected, version, SESSION);
        add_prefix(&expected, version, 1, 1);
        if (version > 0)
            add_key(&expected, version, 1, 5);
        if (version > 1)
            add_aspa(&expected, 1, 7, 8);
        add_end(&expected, version, SESSION, 5, usual);
        begins();
        asks_all(version);
        says(&expected);
        leaves();
    }
    ends();
}

/* Answers don't depend on how queries are split and answers are read. */
static void test_pieces(void)
{
    struct text queries = {.length = 0}, expected = {.length = 0};
    for (int i = 0; i < 9; i++) {
        add_header(&queries, 1, 2, 0, 8);
        add(&expected, whole(1, 5, 1, 3)->bytes, whole(1, 5, 1, 3)->length);
    }
    has_data(1);
    for (size_t length = 1; length <= queries.length; length++) {
        piece = length;
        begins();
        for (size_t at = 0; at < queries.length; at += length)
            comes(queries.bytes + at, length < queries.length - at ? length : queries.length - at);
        says(&expected);
        leaves();
    }
    piece = SIZE_MAX;
    ends();
}

/* Changes since each of the last serial numbers are sent; each changed payload occurs once. */
static void test_changes(void)
{
    has_data(1);
    for (uint32_t serial = 6; serial < 36; serial++) {
        now += 4000;
        CHECK(takes(whole(1, serial, serial - 4, serial - 2)) == RTR_UPDATE_TAKEN);
    }
    begins();
    for (uint32_t round = 0; round < 2; round++) {
        for (uint32_t serial = 5; serial < 35; serial++) {
            struct text expected = {.length = 0};
            uint32_t first = serial - 4 > 29 ? serial - 4 : 29;
            add_response(&expected, 1, SESSION);
            for (uint32_t asn = 31; asn <= 33; asn++)
                if (asn > serial - 2)
                    add_prefix(&expected, 1, 1, asn);
            for (uint32_t asn = serial - 4; asn <= serial - 2; asn++)
                if (asn < 31)
                    add_prefix(&expected, 1, 0, asn);
            CHECK(first >= 29);
            add_end(&expected, 1, SESSION, 35, usual);
            asks_changes(1, SESSION, serial);
            says(&expected);
        }
    }
    asks_changes(1, SESSION, 4);
    says_reset(1);
    leaves();
    ends();
}

/* A new session ends a connection whose router has data of the session before, or is sent them, and
 * no other. */
static void test_session(void)
{
    enum { ASKED = 1, STALLED = 2 };
    for (int asked = 0; asked <= STALLED; asked++) {
        has_data(1);
        if (asked == STALLED)
            stalls();
        else
            begins();
        if (asked == ASKED)
            asks_all(1);
        struct text text = {.length = 0};
        add_end(&text, 1, SESSION + 1, 1, usual);
        CHECK(takes(&text) == RTR_UPDATE_TAKEN);
        if (asked) {
            closes("the data are of a new session");
        } else {
            says_nothing();
            leaves();
        }
        ends();
    }
}

/* The cache's text for each fault of a router, and the report that the router gets. */
static void test_closes(void)
{
    static const char late[] = "\1\2\0\0";
    struct text report = {.length = 0};
    has_data(1);
    begins();
    comes(whole(1, 5, 1, 3)->bytes, 8);
    says_report(1, 3, 8);
    finishes("unit is not a query");
    begins();
    asks_all(3);
    says_report(2, 4, 8);
    finishes("version is not supported");
    begins();
    asks_all(1);
    sent.length = 0;
    asks_all(2);
    says_report(1, 8, 8);
    finishes("unit of another version than the session");
    begins();
    comes("\1\2\0\0\0\0\0\x09", 8);
    says_report(1, 0, 8);
    finishes("invalid unit length, at byte 0");
    begins();
    add_report(&report, 1, 5);
    comes(report.bytes, report.length);
    CHECK(sent.length == 0);
    closes("the router reports an error: Unsupported PDU Type, \"no\"");
    begins();
    now = v.wakes;
    CHECK(runs() == RTR_SERVED_CLOSE && sent.length == 0);
    closes("the router is too slow");
    begins();
    comes(late, 4);
    CHECK(v.wakes == now + s.settings.unit_limit);
    now += s.settings.unit_limit;
    closes("the router is too slow");
    begins();
    rtr_served_lost(&v, "Connection reset by peer");
    closes("Connection reset by peer");
    ends();
}

/* With `refuses`, a query for changes that aren't kept is answered by a report of code 0, and the
 * connection closes. */
static void test_refuses(void)
{
    has_data(1);
    s.settings.cache.refuses = true;
    begins();
    asks_changes(1, SESSION, 4);
    says_report(1, 0, 12);
    finishes("no data of this session and serial number");
    ends();
}

/* A unit longer than a connection's first buffer. */
static void test_long_unit(void)
{
    static struct text report, text;
    has_data(1);
    report.length = text.length = 0;
    while (text.length < 65519)
        add(&text, "a", 1);
    add_header(&report, 1, 10, 1, 65535);
    add_number(&report, 0);
    add_number(&report, 65519);
    add(&report, text.bytes, text.length);
    begins();
    comes(report.bytes, report.length);
    static const char front[] = "the router reports an error: Internal Error, \"aaa";
    CHECK(runs() == RTR_SERVED_CLOSE && !strncmp(v.text, front, sizeof front - 1));
    CHECK(strlen(v.text) == sizeof front - 1 - 3 + 100 + 1);
    rtr_served_free(&v);
    ends();
}

/* A connection that the door refuses: it gets a report of code 1. */
static void is_refused(void)
{
    sent.length = 0;
    rtr_served_init(&v, &s, now);
    CHECK(runs() == RTR_SERVED_FINISH);
    says_report(2, 1, 0);
}

/* Above the limit one connection gets a report, and those after it are closed without one. Each
 * counts until it is freed. */
static void test_connections(void)
{
    struct rtr_served first, third;
    struct rtr_part parts[2];
    has_data(1);
    s.settings.most_connections = 1;
    s.settings.most_refused = 1;
    rtr_served_init(&first, &s, now);
    CHECK(rtr_door_next(&s.door, s.spare) == RTR_ENTRY_REFUSE);
    is_refused();
    CHECK(rtr_door_next(&s.door, s.spare) == RTR_ENTRY_WAIT);
    for (int i = 0; i < 2; i++) {
        rtr_served_init(&third, &s, now);
        CHECK(rtr_served_next(&third, now) == RTR_SERVED_CLOSE);
        CHECK(rtr_served_output(&third, parts) == 0);
        CHECK(!strcmp(third.text, "too many connections"));
        rtr_served_free(&third);
    }
    CHECK(s.door.served == 1 && s.door.refused == 1);
    finishes("too many connections");
    CHECK(s.door.served == 1 && s.door.refused == 0);
    rtr_served_free(&first);
    s.settings.most_connections = 2;
    rtr_served_init(&first, &s, now);
    begins();
    leaves();
    rtr_served_free(&v); /* no-op */
    CHECK(s.door.served == 1);
    rtr_served_free(&first);
    ends();
}

/* Without a descriptor in reserve a connection is refused, though none is served. */
static void test_descriptors(void)
{
    has_data(1);
    s.spare = false;
    is_refused();
    finishes("too many connections");
    s.spare = true;
    begins();
    leaves();
    ends();
}

/* Ends a connection by a report, which the router hasn't read. */
static void owes_report(void)
{
    struct rtr_part parts[2];
    size_t capacity;
    begins();
    memcpy(rtr_served_room(&v, &capacity), whole(1, 5, 1, 3)->bytes, 8);
    rtr_served_received(&v, now, 8);
    CHECK(rtr_served_next(&v, now) == RTR_SERVED_WAIT && rtr_served_output(&v, parts) == 1);
    CHECK(v.wakes == now + s.settings.report_limit && !strcmp(v.text, "unit is not a query"));
    rtr_served_room(&v, &capacity);
    CHECK(capacity == 0);
}

/* One limit holds for the last report: to be sent, and to be read until the router closes. After
 * it, or when the connection breaks, the cache closes the connection. */
static void test_last_report(void)
{
    size_t capacity;
    struct rtr_part parts[2];
    has_data(1);
    owes_report();
    now = v.wakes;
    closes("unit is not a query");
    CHECK(rtr_served_output(&v, parts) == 0);
    owes_report();
    rtr_served_lost(&v, "Broken pipe");
    closes("unit is not a query");
    owes_report();
    now = v.wakes - 1;
    CHECK(rtr_served_output(&v, parts) == 1);
    CHECK(rtr_served_sent(&v, now, parts[0].length - 1));
    CHECK(rtr_served_next(&v, now) == RTR_SERVED_WAIT && rtr_served_output(&v, parts) == 1);
    CHECK(rtr_served_sent(&v, now, 1));
    CHECK(rtr_served_next(&v, now) == RTR_SERVED_FINISH && v.wakes == now + 1);
    now += 1;
    closes("unit is not a query");
    begins();
    rtr_served_lost(&v, NULL);
    rtr_served_room(&v, &capacity);
    CHECK(capacity == 0);
    closes("");
    owes_report();
    rtr_served_lost(&v, NULL); /* it still reads, and gets the report */
    CHECK(rtr_served_next(&v, now) == RTR_SERVED_WAIT);
    CHECK(runs() == RTR_SERVED_CLOSE && !strcmp(v.text, "unit is not a query"));
    says_report(1, 3, 8);
    rtr_served_free(&v);
    ends();
}

/* Each limit of the settings applies, other than the default. */
static void test_settings(void)
{
    has_data(1);
    s.settings.cache.first_limit = 11;
    s.settings.unit_limit = 12;
    s.settings.write_limit = 13;
    s.settings.response_limit = 14;
    s.settings.report_limit = 15;
    s.settings.most_behind = 0;
    begins();
    CHECK(v.wakes == now + 11);
    comes("\1\2\0\0", 4);
    CHECK(v.wakes == now + 11);
    now += 5;
    comes("\0\0\0\x08\1", 5);
    CHECK(v.wakes == now + 12);
    says(whole(1, 5, 1, 3));
    rtr_served_free(&v);
    stalls();
    CHECK(v.wakes == now + 13);
    now += 12;
    CHECK(rtr_served_sent(&v, now, 1));
    CHECK(rtr_served_next(&v, now) == RTR_SERVED_WAIT && v.wakes == now + 2);
    rtr_served_free(&v);
    owes_report();
    CHECK(v.wakes == now + 15);
    rtr_served_free(&v);
    stalls();
    CHECK(takes(whole(1, 6, 1, 4)) == RTR_UPDATE_TAKEN);
    closes("the router is too far behind");
    ends();
}

/* Sending has time limits, and an answer may be at most two updates old. */
static void test_stalls(void)
{
    struct rtr_part parts[2];
    has_data(1);
    stalls();
    now = v.wakes;
    closes("the router is too slow");
    stalls();
    for (int64_t last = now + s.settings.response_limit; now < last;) {
        CHECK(rtr_served_next(&v, now) == RTR_SERVED_WAIT);
        rtr_served_sent(&v, now, 1);
        CHECK(rtr_served_next(&v, now) == RTR_SERVED_WAIT);
        now += s.settings.write_limit - 1;
    }
    closes("the router is too slow");
    for (uint32_t newer = 2; newer < 4; newer++) {
        stalls();
        for (uint32_t i = 0; i < newer; i++) {
            uint32_t serial = s.present.serial + 1;
            CHECK(takes(whole(1, serial, 1, serial)) == RTR_UPDATE_TAKEN);
        }
        if (newer == 2) {
            CHECK(rtr_served_next(&v, now) == RTR_SERVED_WAIT);
            CHECK(rtr_served_output(&v, parts) == 2 && parts[1].length == 3 * 20 + 24);
            rtr_served_lost(&v, "Broken pipe");
            closes("Broken pipe");
        } else {
            closes("the router is too far behind");
        }
    }
    ends();
}

/* More bytes than fit, or than there are to send, are refused, and end the connection. */
static void test_wrong_lengths(void)
{
    struct rtr_part parts[2];
    size_t capacity;
    has_data(1);
    for (int wrong = 0; wrong < 2; wrong++) {
        begins();
        rtr_served_room(&v, &capacity);
        CHECK(!rtr_served_received(&v, now, wrong ? SIZE_MAX : capacity + 1));
        closes("more bytes were read than there is room for");
        stalls();
        CHECK(rtr_served_output(&v, parts) == 2);
        capacity = parts[0].length + parts[1].length;
        CHECK(!rtr_served_sent(&v, now, wrong ? SIZE_MAX : capacity + 1));
        closes("more bytes were sent than there are");
    }
    stalls();
    CHECK(rtr_served_sent(&v, now, capacity) && !rtr_served_sent(&v, now, 1));
    rtr_served_free(&v);
    ends();
}

/* ---- random sessions */

static uint32_t some(uint32_t bound)
{
    static uint64_t state = 1;
    state = state * UINT64_C(6364136223846793005) + 1442695040888963407;
    return (uint32_t)(state >> 33) % bound;
}

/* A query, or something else that a router may send. */
static void add_something(struct text *to)
{
    uint8_t version = some(8) ? 1 : (uint8_t)some(3);
    uint32_t what = some(8);
    if (what < 3)
        add_header(to, version, 2, 0, 8);
    else if (what < 6)
        add_serial(to, version, 1, SESSION, s.present.serial - some(4));
    else if (what == 6)
        add_report(to, version, (uint16_t)some(9));
    else
        add_prefix(to, version, 1, 1);
    if (some(16) == 0)
        to->bytes[some((uint32_t)to->length)] = (uint8_t)some(256);
}

static void test_random(int sessions)
{
    has_data(1);
    for (int session = 0; session < sessions; session++) {
        piece = some(2) ? SIZE_MAX : 1 + some(30);
        begins();
        for (int turn = 0; turn < 30; turn++) {
            struct text text = {.length = 0};
            uint32_t serial = s.present.serial + 1;
            sent.length = 0;
            if (runs() != RTR_SERVED_WAIT)
                break;
            if (some(8) == 0)
                CHECK(takes(whole(1, serial, some(9), 9)) == RTR_UPDATE_TAKEN);
            add_something(&text);
            if (some(20) == 0)
                rtr_served_lost(&v, some(2) ? NULL : "it broke");
            else if (some(8))
                comes(text.bytes, some(8) ? text.length : some((uint32_t)text.length));
            else
                now = some(2) ? v.wakes : now + some(2000);
        }
        rtr_served_free(&v);
    }
    piece = SIZE_MAX;
    ends();
}

int main(int count, char **words)
{
    test_answers();
    test_versions();
    test_pieces();
    test_changes();
    test_session();
    test_closes();
    test_refuses();
    test_long_unit();
    test_connections();
    test_descriptors();
    test_last_report();
    test_settings();
    test_stalls();
    test_wrong_lengths();
    test_random(count > 1 ? atoi(words[1]) : 3000);
    return 0;
}
