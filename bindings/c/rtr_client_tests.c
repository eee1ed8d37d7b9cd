/* Tests of rtr_client.h with a simulated clock and cache, and allocations that are counted: link
 * it with -Wl,--wrap=malloc,--wrap=realloc,--wrap=free. Expected values are written by hand, after
 * RFC 8210 and docs/SESSIONS.md.
 *
 * usage: rtr_client_tests [SESSIONS]   with this many sessions of random units; default 3000 */
#include "played.h"

_Static_assert(sizeof(struct rtr_client) <= 1280, "rtr_client.h says how large it is");

/* The data don't depend on how an answer is split, and come with its last byte. */
static void test_pieces(void)
{
    const struct text *text = whole(2, 5, 1, 3);
    for (size_t piece = 1; piece <= text->length; piece++) {
        begins(2);
        for (size_t at = 0; at < text->length; at += piece) {
            EXPECT(WAIT);
            comes(text->bytes + at, piece < text->length - at ? piece : text->length - at);
        }
        EXPECT(DATA);
        CHECK(c.data_length == text->length - 8);
        CHECK(memcmp(c.data, text->bytes + 8, c.data_length) == 0);
        changes_are(c.data, c.data_length);
        ends();
    }
}

struct failing {
    const char *bytes;
    size_t length;
    int failure, status;
    const char *text;
};

#define BYTES(text) text, sizeof(text) - 1

#define END_OF(session, serial) \
    "\2\7" session "\0\0\0\x18\0\0\0" serial "\0\0\0\1\0\0\0\1\0\0\2\x58"

#define PREFIX(version, asn) version "\4\0\0\0\0\0\x14\1\x08\x18\0\x0a\0\0\0\0\0\0" asn

/* The events for units in the response to a serial query, after 100 bytes. tests/transcripts has
 * what the cache gets. */
static const struct failing all_failing[] = {
    {BYTES("\2\5\0\0\0\0\0\x08"), RTR_CLIENT_REFUSED, RTR_UNIT_TYPE,
     "unit type 5 is not allowed here, at byte 100"},
    {BYTES(PREFIX("\2", "\x09") "\2\x0b\1\0\0\0\0\x0c"), RTR_CLIENT_REFUSED, RTR_EMPTY_PROVIDERS,
     "ASPA unit has no providers, at byte 120"},
    {BYTES(PREFIX("\2", "\x09") PREFIX("\2", "\1") END_OF("\x12\x34", "\6")), RTR_CLIENT_REFUSED,
     RTR_DUPLICATE, "duplicate announcement, at byte 20"},
    {BYTES(PREFIX("\1", "\x09")), RTR_CLIENT_BREACH, RTR_OK,
     "unit of another version than the session"},
    {BYTES("\2\x08\0\0\0\0\0\x08"), RTR_CLIENT_BREACH, RTR_OK, "unit is not allowed here"},
    {BYTES(END_OF("\x12\x34", "\4")), RTR_CLIENT_BREACH, RTR_OK,
     "serial number before that of the query"},
    {BYTES(PREFIX("\2", "\x09") END_OF("\x12\x34", "\5")), RTR_CLIENT_BREACH, RTR_OK,
     "other data at the serial number of the query"},
    {BYTES("\2\x0a\0\1\0\0\0\x12\0\0\0\0\0\0\0\2no"), RTR_CLIENT_REPORTED, RTR_OK,
     "the cache reports an error: Internal Error, \"no\""},
    {BYTES("\2\x0a\0\x0c\0\0\0\x15\0\0\0\0\0\0\0\5" "\" ~\n\xc3"), RTR_CLIENT_REPORTED, RTR_OK,
     "the cache reports an error: error code 12, \"\" ~??\""},
};

static void test_failures(void)
{
    struct text response = {.length = 0};
    add_response(&response, 2, SESSION);
    for (size_t i = 0; i < sizeof all_failing / sizeof all_failing[0]; i++) {
        const struct failing *row = &all_failing[i];
        has_data(2);
        comes(response.bytes, response.length);
        comes((const uint8_t *)row->bytes, row->length);
        EXPECT(CLOSE);
        CHECK(c.wakes == now + 2000 && c.status == row->status);
        EXPECT(FAILED);
        CHECK(c.failure == row->failure && !strcmp(c.text, row->text));
        CHECK(rtr_client_payloads(&c) == 3 && c.end.serial == 5);
        connects_after(1000);
        sends_reset_query(2);
        comes((const uint8_t *)"\2\5\0\0\0\0\0\x08", 8); /* offsets restart at 0 */
        EXPECT(CLOSE);
        EXPECT(FAILED);
        CHECK(!strcmp(c.text, "unit type 5 is not allowed here, at byte 0"));
        ends();
    }
}

/* The events for a cache that is lost, slow, or without data, and for data that expire. */
static void test_texts(void)
{
    struct text none = {.length = 0};
    add_report(&none, 1, 2);
    has_data(1);
    comes(none.bytes, none.length);
    EXPECT(NO_DATA);
    CHECK(c.code == 2);
    CHECK(!strcmp(c.text, "the cache reports an error: No Data Available, \"no\""));
    EXPECT(WAIT);
    rtr_client_lost(&c, NULL);
    EXPECT(CLOSE);
    EXPECT(FAILED);
    CHECK(c.failure == RTR_CLIENT_LOST && !strcmp(c.text, "the cache closed the connection"));
    now += 1000;
    EXPECT(CONNECT);
    rtr_client_lost(&c, "Connection refused");
    EXPECT(CLOSE);
    EXPECT(FAILED);
    CHECK(c.failure == RTR_CLIENT_LOST && !strcmp(c.text, "Connection refused"));
    now += 2000;
    EXPECT(CONNECT);
    now = c.wakes;
    EXPECT(CLOSE);
    EXPECT(FAILED);
    CHECK(c.failure == RTR_CLIENT_SLOW && !strcmp(c.text, "the cache is too slow"));
    now += 3600 * 1000; /* 7200 seconds after the data */
    EXPECT(DROPPED);
    CHECK(changes_length() == 3 * 20 + 24);
    EXPECT(FAILED);
    CHECK(c.failure == RTR_CLIENT_EXPIRED && !strcmp(c.text, "the data have expired"));
    ends();
}

/* A request of the program: after a pending answer the client asks, but not before a pause after
 * its last query; without a connection it connects earlier (docs/SESSIONS.md). */
static void test_wish(void)
{
    has_data(1);
    rtr_client_ask_now(&c);
    EXPECT(WAIT);
    sends(&(struct text){.length = 0});
    comes(whole(1, 5, 1, 3)->bytes, 8);
    comes(whole(1, 5, 1, 3)->bytes + 8 + 3 * 20, 24);
    EXPECT(DATA);
    EXPECT(WAIT);
    CHECK(c.wakes == now + 3600 * 1000);
    rtr_client_ask_now(&c);
    EXPECT(WAIT);
    CHECK(c.wakes == now + 1000);
    now = c.wakes;
    EXPECT(WAIT);
    sends_serial_query(1, 5);
    comes(whole(1, 5, 1, 3)->bytes, 8);
    comes(whole(1, 5, 1, 3)->bytes + 8 + 3 * 20, 24);
    EXPECT(DATA);
    EXPECT(WAIT);
    now += 5000;
    rtr_client_ask_now(&c);
    EXPECT(WAIT);
    sends_serial_query(1, 5);
    rtr_client_lost(&c, NULL);
    EXPECT(CLOSE);
    EXPECT(FAILED);
    connects_after(1000);
    rtr_client_lost(&c, NULL);
    EXPECT(CLOSE);
    EXPECT(FAILED);
    EXPECT(WAIT);
    CHECK(c.wakes > now + 1000);
    now += 1000;
    rtr_client_ask_now(&c);
    EXPECT(CONNECT);
    ends();
}

/* A request that comes beside the loss of a connection, or a failed connect, outlives that: the
 * client connects as soon as the pause allows, not when it would connect anyway. */
static void test_wish_at_a_loss(void)
{
    for (int first = 0; first < 2; first++) {
        has_data(1);
        now += 5000;
        if (first)
            rtr_client_ask_now(&c);
        rtr_client_lost(&c, "it broke");
        if (!first)
            rtr_client_ask_now(&c);
        EXPECT(CLOSE);
        EXPECT(FAILED);
        EXPECT(CONNECT);
        rtr_client_lost(&c, "it is refused");
        rtr_client_ask_now(&c);
        EXPECT(CLOSE);
        EXPECT(FAILED);
        connects_after(1000);
        ends();
    }
}

/* Data expire on time, even if the program makes no call. */
static void test_expiry(void)
{
    rtr_client_init(&c, 1);
    CHECK(!rtr_client_has_data(&c, now));
    has_data(1);
    int64_t expires = now - 3600 * 1000 + 7200 * 1000;
    CHECK(rtr_client_has_data(&c, now) && rtr_client_has_data(&c, expires - 1));
    CHECK(!rtr_client_has_data(&c, expires) && c.data);
    ends();
}

/* The changes of an answer are canonical, whatever their order in it. */
static void test_changes(void)
{
    struct text changes = {.length = 0};
    has_data(1);
    add_response(&changes, 1, SESSION);
    add_prefix(&changes, 1, 0, 2);
    add_prefix(&changes, 1, 1, 9);
    add_prefix(&changes, 1, 0, 1);
    add_end(&changes, 1, SESSION, 6, usual);
    comes(changes.bytes, changes.length);
    EXPECT(DATA);
    size_t length;
    const uint8_t *delta = rtr_client_changes(&c, &length);
    CHECK(rtr_client_payloads(&c) == 2 && length == 3 * 20 + 24);
    CHECK(delta[8] == 1 && delta[19] == 9 && delta[39] == 1 && delta[59] == 2);
    ends();
}

/* The changes from other data, of any version and session, to a client's own. */
static void test_changes_from(void)
{
    static struct text other, expected;
    for (uint8_t version = 0; version < 3; version++) {
        size_t length;
        uint8_t higher = version > 1 ? version : 1;
        other.length = expected.length = 0;
        add_prefix(&expected, higher, 1, 1);
        add_prefix(&expected, higher, 0, 4);
        add_prefix(&other, version, 1, 2);
        add_prefix(&other, version, 1, 3);
        add_prefix(&other, version, 1, 4);
        if (version == 2)
            add_aspa(&other, 1, 7, 8), add_aspa(&expected, 0, 7, 8);
        add_end(&other, version, SESSION + version, 9, usual);
        add_end(&expected, higher, SESSION, 5, usual);
        has_data(1);
        const uint8_t *delta = rtr_client_changes_from(&c, other.bytes, other.length, &length);
        CHECK(delta && length == expected.length && !memcmp(delta, expected.bytes, length));
        CHECK(rtr_client_changes_from(&c, NULL, 0, &length) == c.data && length == c.data_length);
        CHECK(!rtr_client_changes_from(&c, other.bytes, other.length - 1, &length) && !length);
        allocations = 0;
        denied = 1;
        CHECK(!rtr_client_changes_from(&c, other.bytes, other.length, &length) && !length);
        denied = 0;
        EXPECT(WAIT);
        ends();
    }
}

/* An answer in a lower version to a serial query: the client asks for all data in that version,
 * and withdraws what it lacks: ASPAs from version 2 to 1, router keys from 1 to 0. */
static void test_lower_answer(void)
{
    for (uint8_t lower = 0; lower < 2; lower++) {
        static struct text text, gone;
        uint8_t version = lower + 1;
        text.length = gone.length = 0;
        begins(version);
        add_response(&text, version, SESSION);
        add_prefix(&text, version, 1, 1);
        if (version == 2)
            add_aspa(&text, 1, 7, 8), add_aspa(&gone, 0, 7, 8);
        else
            add_key(&text, version, 1, 5), add_key(&gone, version, 0, 5);
        add_end(&text, version, SESSION, 5, usual);
        comes(text.bytes, text.length);
        EXPECT(DATA);
        rtr_client_lost(&c, NULL);
        EXPECT(CLOSE);
        EXPECT(FAILED);
        connects_after(1000);
        sends_serial_query(version, 5);
        comes(whole(lower, 5, 1, 1)->bytes, whole(lower, 5, 1, 1)->length);
        EXPECT(CLOSE);
        EXPECT(CONNECT);
        rtr_client_connected(&c);
        EXPECT(WAIT);
        sends_reset_query(lower);
        comes(whole(lower, 5, 1, 1)->bytes, whole(lower, 5, 1, 1)->length);
        EXPECT(DATA);
        add_end(&gone, version, SESSION, 5, usual);
        changes_are(gone.bytes, gone.length);
        ends();
    }
}

/* A cache that answers, but doesn't read the next queries: these wait, in their order. */
static void test_queries_not_taken(void)
{
    enum { ANSWERS = 9 };
    size_t length;
    begins(1);
    for (uint32_t serial = 5; serial < 5 + ANSWERS; serial++) {
        struct text next = {.length = 0};
        add_serial(&next, 1, 0, SESSION, serial + 1);
        const struct text *answer = serial == 5 ? whole(1, 5, 1, 1) : whole(1, serial, 2, 1);
        EXPECT(WAIT);
        comes(answer->bytes, answer->length);
        comes(next.bytes, next.length);
        EXPECT(DATA);
        EXPECT(WAIT);
        now = c.wakes;
    }
    EXPECT(WAIT);
    const uint8_t *output = rtr_client_output(&c, &length);
    CHECK(length == ANSWERS * 12);
    for (uint8_t i = 0; i < ANSWERS; i++)
        CHECK(output[i * 12 + 1] == 1 && output[i * 12 + 11] == 5 + i);
    now = c.wakes; /* no answer came */
    EXPECT(CLOSE);
    EXPECT(FAILED);
    CHECK(c.failure == RTR_CLIENT_SLOW && !strcmp(c.text, "the cache is too slow"));
    ends();
}

/* Endless payloads use limited memory. */
static void test_flood(void)
{
    rtr_client_init(&c, 1);
    c.settings.most_bytes = 100000;
    asks();
    most_held = 0;
    struct text response = {.length = 0};
    add_response(&response, 1, SESSION);
    comes(response.bytes, response.length);
    for (uint32_t asn = 1; event() == RTR_CLIENT_WAIT; asn++) {
        struct text prefix = {.length = 0};
        add_prefix(&prefix, 1, 1, asn);
        comes(prefix.bytes, prefix.length);
        CHECK(asn < 5002);
    }
    EXPECT(FAILED);
    CHECK(c.failure == RTR_CLIENT_TOO_LONG && most_held <= 4 * c.settings.most_bytes);
    ends();
}

/* An answer with as many bytes of payload units as allowed, and with a byte more. */
static void test_limit(void)
{
    const struct text *text = whole(1, 5, 1, 3);
    for (size_t over = 0; over < 2; over++) {
        rtr_client_init(&c, 1);
        c.settings.most_bytes = text->length - 8 - 24 - over;
        asks();
        comes(text->bytes, text->length);
        if (over == 0) {
            EXPECT(DATA);
            CHECK(rtr_client_payloads(&c) == 3);
        } else {
            EXPECT(CLOSE);
            owes(NONE, 0);
            EXPECT(FAILED);
            CHECK(c.failure == RTR_CLIENT_TOO_LONG && !c.data);
        }
        ends();
    }
}

/* The second unit fills the rest of the buffer exactly, or is a byte shorter or longer. */
static void test_room(void)
{
    for (uint32_t first = 0; first < 3; first++) {
        static struct text text;
        text.length = 0;
        begins(1);
        add_response(&text, 1, SESSION);
        add_key(&text, 1, 1, 20 + first);
        add_key(&text, 1, 1, 21);
        add_end(&text, 1, SESSION, 5, usual);
        comes(text.bytes, text.length);
        if (first == 1) { /* then they are the same key */
            EXPECT(CLOSE);
            owes(7, 53);
            EXPECT(FAILED);
        } else {
            EXPECT(DATA);
            CHECK(rtr_client_payloads(&c) == 2 && c.data_length == 105 + first + 24);
        }
        ends();
    }
}

/* More bytes than fit, or than are unsent, are refused, and end the connection; so is -1, the
 * result of a failed recv or send. */
static void test_wrong_lengths(void)
{
    size_t capacity;
    for (int wrong = 0; wrong < 4; wrong++) {
        size_t more = wrong % 2 ? SIZE_MAX : 1;
        has_data(1);
        rtr_client_room(&c, &capacity);
        if (wrong < 2)
            CHECK(!rtr_client_received(&c, more == 1 ? capacity + 1 : more));
        else
            CHECK(!rtr_client_sent(&c, more)); /* there are none */
        EXPECT(CLOSE);
        EXPECT(FAILED);
        CHECK(c.failure == RTR_CLIENT_LOST && rtr_client_payloads(&c) == 3);
        CHECK(!strcmp(c.text, wrong < 2 ? "more bytes were read than there is room for"
                                        : "more bytes were sent than there are"));
        ends();
    }
    begins(1);
    rtr_client_room(&c, &capacity);
    CHECK(rtr_client_received(&c, capacity) && !rtr_client_received(&c, 1));
    ends();
}

/* Bytes are sent in pieces; unsent ones are dropped when the connection closes. */
static void test_pieces_sent(void)
{
    static const uint8_t wrong[] = {1, 5, 0, 0, 0, 0, 0, 8};
    static const uint8_t query[] = {1, 1, 0x12, 0x34, 0, 0, 0, 12, 0, 0, 0, 5};
    size_t length, whole_length;
    has_data(1);
    comes(whole(1, 5, 1, 0)->bytes, whole(1, 5, 1, 0)->length);
    EXPECT(DATA);
    EXPECT(WAIT);
    now = c.wakes;
    for (size_t sent = 0; sent < sizeof query; sent += 5) {
        EXPECT(WAIT);
        const uint8_t *output = rtr_client_output(&c, &length);
        CHECK(length == sizeof query - sent && memcmp(output, query + sent, length) == 0);
        CHECK(rtr_client_sent(&c, length < 5 ? length : 5));
    }
    comes(wrong, sizeof wrong);
    EXPECT(CLOSE);
    owes(5, 8);
    rtr_client_output(&c, &whole_length);
    CHECK(rtr_client_sent(&c, 1));
    rtr_client_output(&c, &length);
    CHECK(length == whole_length - 1);
    EXPECT(FAILED);
    EXPECT(WAIT);
    rtr_client_output(&c, &length);
    CHECK(length == 0);
    ends();
    rtr_client_init(&c, 0);
    connected = false;
    EXPECT(CONNECT);
    CHECK(rtr_client_connected(&c));
    EXPECT(WAIT);
    CHECK(rtr_client_sent(&c, 3) && rtr_client_lost(&c, NULL));
    EXPECT(CLOSE);
    rtr_client_output(&c, &length);
    CHECK(length == 5);
    EXPECT(FAILED);
    EXPECT(WAIT);
    rtr_client_output(&c, &length);
    CHECK(length == 0);
    ends();
}

/* Nothing is sent to a broken connection, not even a report about a truncated unit. */
static void test_broken(void)
{
    size_t length;
    for (int broke = 0; broke < 2; broke++) {
        has_data(1);
        comes((const uint8_t *)"\1\4", 2);
        CHECK(rtr_client_lost(&c, broke ? "it broke" : NULL));
        EXPECT(CLOSE);
        rtr_client_output(&c, &length);
        CHECK((length == 0) == broke);
        EXPECT(FAILED);
        CHECK(c.failure == RTR_CLIENT_REFUSED && c.status == RTR_SHORT);
        ends();
    }
}

/* Calls without a connection, or after its loss, return false and change nothing. A time before
 * that of the last call counts as that one. */
static void test_turns(void)
{
    rtr_client_init(&c, 1);
    CHECK(!rtr_client_connected(&c) && !rtr_client_lost(&c, NULL) && !rtr_client_received(&c, 0));
    connected = false;
    EXPECT(CONNECT);
    CHECK(!rtr_client_received(&c, 0));
    CHECK(rtr_client_connected(&c) && !rtr_client_connected(&c));
    EXPECT(WAIT);
    sends_reset_query(1);
    int64_t wakes = c.wakes;
    CHECK(rtr_client_next(&c, now - 5000) == RTR_CLIENT_WAIT && c.wakes == wakes);
    CHECK(rtr_client_next(&c, -1) == RTR_CLIENT_WAIT && c.wakes == wakes);
    comes(whole(1, 5, 1, 3)->bytes, whole(1, 5, 1, 3)->length);
    CHECK(rtr_client_lost(&c, "it broke") && !rtr_client_lost(&c, NULL));
    CHECK(!rtr_client_received(&c, 1) && !rtr_client_connected(&c));
    EXPECT(DATA);
    CHECK(rtr_client_has_data(&c, -1));
    EXPECT(CLOSE);
    CHECK(!rtr_client_lost(&c, NULL));
    EXPECT(FAILED);
    CHECK(c.failure == RTR_CLIENT_LOST && !strcmp(c.text, "it broke"));
    CHECK(!rtr_client_connected(&c) && !rtr_client_lost(&c, NULL) && !rtr_client_received(&c, 0));
    connects_after(1000);
    ends();
}

/* After rtr_client_again a client connects at once, without data; the waits for a failing cache
 * continue to grow. A time before that of the last call counts as that one. */
static void test_again(void)
{
    has_data(1);
    rtr_client_free(&c);
    CHECK(held == 0 && !c.data && !rtr_client_has_data(&c, now));
    rtr_client_again(&c);
    CHECK(rtr_client_next(&c, now - 5000) == RTR_CLIENT_CONNECT && c.now == now);
    rtr_client_free(&c);
    rtr_client_again(&c);
    asks();
    ends();
    rtr_client_init(&c, 0);
    c.report_limit = 7;
    asks();
    for (int64_t wait = 1000; wait <= 8000; wait *= 2) {
        rtr_client_lost(&c, NULL);
        EXPECT(CLOSE);
        CHECK(c.wakes == now + 7);
        EXPECT(FAILED);
        EXPECT(WAIT);
        CHECK(c.wakes == now + wait);
        rtr_client_free(&c);
        CHECK(held == 0);
        rtr_client_again(&c);
        asks();
    }
    ends();
}

/* The text of a failure has the first 100 bytes of a report's text. */
static void test_long_report(void)
{
    static const char front[] = "the cache reports an error: Internal Error, \"";
    for (uint32_t length = 99; length < 1000; length += length < 102 ? 1 : 199) {
        static struct text report, text;
        report.length = text.length = 0;
        while (text.length < length)
            add(&text, "a", 1);
        add_header(&report, 1, 10, 1, 16 + length);
        add_number(&report, 0);
        add_number(&report, length);
        add(&report, text.bytes, length);
        begins(1);
        comes(report.bytes, report.length);
        EXPECT(CLOSE);
        owes(NONE, 0);
        EXPECT(FAILED);
        CHECK(c.failure == RTR_CLIENT_REPORTED && c.code == 1);
        size_t shown = length < 100 ? length : 100;
        CHECK(strlen(c.text) == sizeof front - 1 + shown + 1);
        CHECK(strncmp(c.text, front, sizeof front - 1) == 0);
        CHECK(memcmp(c.text + sizeof front - 1, text.bytes, shown) == 0);
        CHECK(c.text[sizeof front - 1 + shown] == '"');
        ends();
    }
}

/* Reports whether a unit of this type may have this length (docs/PROTOCOL.md). */
static bool suits(int type, uint32_t length)
{
    static const uint8_t fixed[] = {12, 12, 8, 8, 20, 0, 32, 24, 8};
    if (type == 9 || type == 10)
        return length >= (type == 9 ? 32 : 16) && length <= 65535;
    if (type == 11)
        return length >= 12 && length <= 65535 && length % 4 == 0;
    return length == fixed[type];
}

/* A header of each type, with valid and invalid lengths: nothing is allocated for it, and faults
 * are reported. */
static void test_lengths(void)
{
    static const uint32_t lengths[] = {0,  7,  8,     11,    12,       16,        20, 24,
                                       32, 33, 65535, 65536, 1u << 31, UINT32_MAX};
    for (int type = 0; type < 256; type++) {
        for (size_t i = 0; i < sizeof lengths / sizeof lengths[0]; i++) {
            struct text header = {.length = 0};
            bool known = type < 12 && type != 5, good = known && suits(type, lengths[i]);
            begins(1);
            add_header(&header, 1, (uint8_t)type, SESSION, lengths[i]);
            most_held = 0;
            comes(header.bytes, header.length);
            enum rtr_client_event next = event();
            CHECK(most_held == 0);
            if (good && (lengths[i] > 8 || type == 3)) {
                CHECK(next == RTR_CLIENT_WAIT);
            } else {
                CHECK(next == RTR_CLIENT_CLOSE);
                bool long_one = type >= 9 && lengths[i] > 65535;
                CHECK(c.status == (!known ? RTR_UNIT_TYPE : good ? RTR_OK
                                   : long_one ? RTR_TOO_LONG : RTR_UNIT_LENGTH));
                owes(type == 10 ? NONE : !known || good ? 5 : 0, 8);
            }
            ends();
        }
    }
}

/* ---- random sessions: changed bytes, split anywhere, at any times */

static uint32_t some(uint32_t bound)
{
    static uint64_t state = 1;
    state = state * UINT64_C(6364136223846793005) + 1442695040888963407;
    return (uint32_t)(state >> 33) % bound;
}

/* An answer, or something else that a cache may send. */
static void add_something(struct text *to)
{
    uint8_t version = (uint8_t)some(3);
    switch (some(6)) {
    case 0:
        add_serial(to, version, 0, SESSION, some(4));
        break;
    case 1:
        add_header(to, version, 8, 0, 8);
        break;
    case 2:
        add_report(to, version, (uint16_t)some(9));
        break;
    default:
        add_response(to, version, SESSION);
        for (uint32_t count = some(3); count > 0; count--)
            add_prefix(to, version, (uint8_t)some(2), some(4));
        if (version == 2 && some(2))
            add_aspa(to, (uint8_t)some(2), some(2), 1);
        add_end(to, version, SESSION, some(4), usual);
    }
}

static void test_random(int sessions)
{
    for (int session = 0; session < sessions; session++) {
        bool lost = false;
        rtr_client_init(&c, (uint8_t)some(3));
        connected = false;
        for (int turn = 0; turn < 60; turn++) {
            size_t length;
            enum rtr_client_event next = event();
            if (next == RTR_CLIENT_CONNECT && some(8))
                lost = !rtr_client_connected(&c);
            else if (next == RTR_CLIENT_CONNECT || (connected && some(30) == 0))
                lost = rtr_client_lost(&c, some(2) ? NULL : "it broke") || lost;
            if (next != RTR_CLIENT_WAIT)
                continue;
            struct text text = {.length = 0};
            add_something(&text);
            if (some(4) == 0)
                text.bytes[some((uint32_t)text.length)] = (uint8_t)some(256);
            if (connected && !lost && some(8))
                comes(text.bytes, some(4) ? text.length : some((uint32_t)text.length));
            else
                now = some(2) ? c.wakes : now + some(2000);
            rtr_client_output(&c, &length);
            rtr_client_sent(&c, some(8) ? length : some((uint32_t)length + 1));
        }
        ends();
    }
}

/* The addresses of a name share the time that is left to connect; the last has all of it. */
static void test_addresses(void)
{
    rtr_client_init(&c, 1);
    c.settings.connect_limit = 9000;
    CHECK(rtr_client_next(&c, 50) == RTR_CLIENT_CONNECT && c.wakes == 9050);
    CHECK(rtr_client_tried_until(&c, 50, 3) == 3050);
    CHECK(rtr_client_tried_until(&c, 1050, 2) == 5050);
    CHECK(rtr_client_tried_until(&c, 5050, 1) == c.wakes);
    CHECK(rtr_client_tried_until(&c, 10000, 2) == 10000);
    CHECK(rtr_client_tried_until(&c, 50, 0) == c.wakes);
    rtr_client_free(&c);
}

int main(int count, char **words)
{
    test_addresses();
    test_pieces();
    test_failures();
    test_texts();
    test_wish();
    test_wish_at_a_loss();
    test_expiry();
    test_changes();
    test_changes_from();
    test_lower_answer();
    test_queries_not_taken();
    test_flood();
    test_limit();
    test_room();
    test_wrong_lengths();
    test_pieces_sent();
    test_broken();
    test_turns();
    test_again();
    test_long_report();
    test_lengths();
    test_random(count > 1 ? atoi(words[1]) : 3000);
    return 0;
}
