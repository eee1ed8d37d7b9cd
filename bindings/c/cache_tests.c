/* Tests of the calls for a cache's end of a connection: the answers to units, in bytes (RFC 8210
 * sections 5 to 8), also to truncated units, and when a cache acts by itself.
 *
 * usage: cache_tests */
#include "testing.h"

/* The longest unit here. */
#define LONGEST 64

/* The serial numbers from which changes can be sent, up to the present one, 5. */
static const uint32_t KEPT[] = {4, 3};

static const struct rtr_present PRESENT = {.serial = 5, .session = 7, .has = true};
static const struct rtr_present NOTHING;

/* An input, and its answer: a unit or a report, of this version. */
struct row {
    const char *input;  /* in hexadecimal */
    uint8_t kind, reason, status;
    uint32_t serial;    /* of the answer */
    const char *unit;   /* the first unit of the answer, in hexadecimal; or null */
    const char *text;   /* the report's text; or null */
    uint8_t version;
    uint16_t code;
    size_t enclosed;    /* the bytes of the input that the report encloses */
};

#define RESET_QUERY "0102000000000008"
#define SINCE(session, serial) "0101000" session "0000000c0000000" serial
#define RESPONSE "0103000700000008"
#define PREFIX "010400000000001401181800c00002000000fde8"
#define REPORT "010a000000000010" "00000000" "00000000"

#define GIVES(serial, unit) serial, unit, NULL, 0, 0, 0
#define REPORTS(version, code, enclosed, text) 0, NULL, text, version, code, enclosed
#define SAYS_NOTHING 0, NULL, NULL, 0, 0, 0

/* On a new connection. */
static const struct row first_rows[] = {
    {RESET_QUERY, RTR_SERVE_ALL, 0, 0, GIVES(5, RESPONSE)},
    {"0002000000000008", RTR_SERVE_ALL, 0, 0, GIVES(5, "0003000700000008")},
    {"0202000000000008", RTR_SERVE_ALL, 0, 0, GIVES(5, "0203000700000008")},
    {"0201000700000" "00c00000004", RTR_SERVE_CHANGES, 0, 0, GIVES(4, "0203000700000008")},
    {"0302000000000008", RTR_SERVE_END, RTR_REASON_NO_VERSION, 0,
     REPORTS(2, 4, 8, "version is not supported")},
    {"0005000000000008", RTR_SERVE_END, RTR_REASON_FAULTY, RTR_UNIT_TYPE,
     REPORTS(0, 5, 8, "unit type 5 is not allowed here")},
    {"0705000000000008", RTR_SERVE_END, RTR_REASON_NO_VERSION, RTR_UNIT_TYPE,
     REPORTS(2, 4, 8, "version is not supported")},
};

/* On a new connection, or after a query of version 1. */
static const struct row rows[] = {
    {RESET_QUERY, RTR_SERVE_ALL, 0, 0, GIVES(5, RESPONSE)},
    {SINCE("7", "3"), RTR_SERVE_CHANGES, 0, 0, GIVES(3, RESPONSE)},
    {SINCE("7", "4"), RTR_SERVE_CHANGES, 0, 0, GIVES(4, RESPONSE)},
    {SINCE("7", "5"), RTR_SERVE_CHANGES, 0, 0, GIVES(5, RESPONSE)},
    {SINCE("7", "2"), RTR_SERVE_RESET, 0, 0, GIVES(0, "0108000000000008")},
    {SINCE("7", "6"), RTR_SERVE_RESET, 0, 0, GIVES(0, "0108000000000008")},
    {SINCE("8", "4"), RTR_SERVE_RESET, 0, 0, GIVES(0, "0108000000000008")},
    {SINCE("8", "5"), RTR_SERVE_RESET, 0, 0, GIVES(0, "0108000000000008")},
    {PREFIX, RTR_SERVE_END, RTR_REASON_NO_QUERY, 0, REPORTS(1, 3, 20, "unit is not a query")},
    {RESPONSE, RTR_SERVE_END, RTR_REASON_NO_QUERY, 0, REPORTS(1, 3, 8, "unit is not a query")},
    {REPORT, RTR_SERVE_END, RTR_REASON_REPORTED, 0, SAYS_NOTHING},
    {"010a00000000000f", RTR_SERVE_END, RTR_REASON_FAULTY, RTR_UNIT_LENGTH, SAYS_NOTHING},
    {"0105000000000008", RTR_SERVE_END, RTR_REASON_FAULTY, RTR_UNIT_TYPE,
     REPORTS(1, 5, 8, "unit type 5 is not allowed here")},
    {"0102000000000009", RTR_SERVE_END, RTR_REASON_FAULTY, RTR_UNIT_LENGTH,
     REPORTS(1, 0, 8, "invalid unit length")},
    {"0109000000010000", RTR_SERVE_END, RTR_REASON_FAULTY, RTR_TOO_LONG,
     REPORTS(1, 0, 8, "unit is longer than 65535 bytes")},
    {"0104000000000014012118000000000000000000", RTR_SERVE_END, RTR_REASON_FAULTY, RTR_PREFIX,
     REPORTS(1, 0, 20, "prefix length too large")},
};

/* After a query of version 1. */
static const struct row later_rows[] = {
    {"0002000000000008", RTR_SERVE_END, RTR_REASON_OTHER_VERSION, 0,
     REPORTS(1, 8, 8, "unit of another version than the session")},
    {"0302000000000008", RTR_SERVE_END, RTR_REASON_OTHER_VERSION, 0,
     REPORTS(1, 8, 8, "unit of another version than the session")},
    {"0205000000000008", RTR_SERVE_END, RTR_REASON_OTHER_VERSION, RTR_UNIT_TYPE,
     REPORTS(1, 8, 8, "unit of another version than the session")},
    {"000a000000000010" "00000000" "00000000", RTR_SERVE_END, RTR_REASON_REPORTED, 0,
     SAYS_NOTHING},
};

/* If the cache refuses queries whose changes it doesn't have. */
static const struct row refusing_rows[] = {
    {SINCE("7", "4"), RTR_SERVE_CHANGES, 0, 0, GIVES(4, RESPONSE)},
    {SINCE("7", "2"), RTR_SERVE_END, RTR_REASON_UNKNOWN, 0,
     REPORTS(1, 0, 12, "no data of this session and serial number")},
    {SINCE("8", "4"), RTR_SERVE_END, RTR_REASON_UNKNOWN, 0,
     REPORTS(1, 0, 12, "no data of this session and serial number")},
};

/* Before the first data. */
static const struct row empty_rows[] = {
    {RESET_QUERY, RTR_SERVE_NO_DATA, 0, 0, REPORTS(1, 2, 8, "the cache has no data yet")},
    {SINCE("7", "5"), RTR_SERVE_NO_DATA, 0, 0, REPORTS(1, 2, 12, "the cache has no data yet")},
    {SINCE("0", "0"), RTR_SERVE_NO_DATA, 0, 0, REPORTS(1, 2, 12, "the cache has no data yet")},
};

/* Returns a cache whose connection began at time 0 and, if `asked`, got a query of version 1. */
static struct rtr_cache new_cache(bool refuses, bool asked, const struct rtr_present *present)
{
    struct rtr_cache cache;
    struct rtr_cache_settings settings;
    struct rtr_serving serving;
    uint8_t query[LONGEST];
    memset(&cache, 0xa5, sizeof cache);
    rtr_cache_settings_usual(&settings);
    settings.refuses = refuses;
    rtr_cache_init(&cache, 0, &settings);
    if (asked) {
        size_t length = decoded(RESET_QUERY, query);
        rtr_cache_read(&cache, 1, present, NULL, 0, query, length, false, &serving);
        CHECK(serving.kind == (present->has ? RTR_SERVE_ALL : RTR_SERVE_NO_DATA));
    }
    return cache;
}

/* Passes an input to a cache; all buffers lie between guard pages. */
static struct rtr_serving *read_input(const struct arena *arena, struct rtr_cache *cache,
                                      const struct rtr_present *present, const uint8_t *input,
                                      size_t length, bool ended)
{
    const uint32_t *kept = (const uint32_t *)(void *)copied(arena, arena->other,
                                                            (const uint8_t *)KEPT, sizeof KEPT);
    struct rtr_serving *serving = FILLED(arena->unit, struct rtr_serving);
    rtr_cache_read(cache, 2, present, kept, sizeof KEPT / sizeof KEPT[0],
                   copied(arena, arena->input, input, length), length, ended, serving);
    return serving;
}

/* The first unit of an answer has these bytes; it is written only if it fits. */
static void check_unit(const struct arena *arena, const struct rtr_serving *serving,
                       const char *digits)
{
    uint8_t unit[LONGEST];
    size_t length = digits ? decoded(digits, unit) : 0;
    for (size_t capacity = 0; capacity <= length + 1; capacity++) {
        uint8_t *output = memset(lie(arena, arena->output, capacity), 0xa5, capacity);
        size_t written = rtr_cache_unit(serving, output, capacity);
        CHECK(written == (capacity < length ? 0 : length));
        CHECK(memcmp(output, unit, written) == 0);
        for (size_t i = written; i < capacity; i++)
            CHECK(output[i] == 0xa5);
    }
    CHECK(rtr_cache_unit(serving, NULL, 0) == 0);
}

/* The answer owes a report of this version and code, which encloses this many bytes, with this
 * text (RFC 8210 section 5.11); without a text it owes none. */
static void check_report(const struct arena *arena, const struct rtr_serving *serving,
                         const uint8_t *input, size_t length, uint8_t version, uint16_t code,
                         size_t enclosed, const char *text)
{
    uint8_t *output = lie(arena, arena->output, 512);
    size_t *written = FILLED(arena->answer, size_t);
    CHECK(serving->reports == (text != NULL));
    CHECK(rtr_cache_report(serving, input, length, output, 512, written) == (text != NULL));
    if (!text) {
        CHECK(*written == 0);
        return;
    }
    size_t text_length = strlen(text), size = 16 + enclosed + text_length;
    const uint8_t head[] = {version, 10, 0, (uint8_t)code, 0, 0, (uint8_t)(size >> 8),
                            (uint8_t)size, 0, 0, 0, (uint8_t)enclosed};
    const uint8_t middle[] = {0, 0, 0, (uint8_t)text_length};
    CHECK(*written == size && memcmp(output, head, 12) == 0);
    CHECK(enclosed == 0 || memcmp(output + 12, input, enclosed) == 0);
    CHECK(memcmp(output + 12 + enclosed, middle, 4) == 0);
    CHECK(memcmp(output + 16 + enclosed, text, text_length) == 0);
    CHECK(!rtr_cache_report(serving, input, length, output, size - 1, written) && *written == 0);
}

/* Each truncation of a unit: the cache waits for the rest, or the close is a fault. */
static void check_cuts(const struct arena *arena, const struct rtr_cache *cache,
                       const struct rtr_present *present, const uint8_t *input, size_t length)
{
    for (size_t cut = 0; cut < length; cut++)
        for (int ended = 0; ended < 2; ended++) {
            struct rtr_cache changed = *cache;
            struct rtr_serving *serving = read_input(arena, &changed, present, input, cut, ended);
            CHECK(serving->taken == 0);
            if (!ended || cut == 0) {
                CHECK(serving->kind == RTR_SERVE_WAIT && !serving->reports);
                CHECK(serving->wanted == (cut < 8 ? 8 : length));
                CHECK(changed.live && changed.asked == cache->asked && changed.told == cache->told);
                CHECK(changed.due == cache->due && changed.notify_from == cache->notify_from);
                continue;
            }
            CHECK(serving->kind == RTR_SERVE_END && serving->wanted == 0 && !changed.live);
            CHECK(serving->status == RTR_SHORT);
            if (cut >= 2 && input[1] == RTR_ERROR_REPORT)
                CHECK(!serving->reports && serving->reason == RTR_REASON_FAULTY);
            else if (cache->asked ? input[0] != 1 : input[0] > 2)
                CHECK(serving->reports && serving->code == (cache->asked ? 8 : 4));
            else
                check_report(arena, serving, input, cut, input[0], 0, cut,
                             "unexpected end of input");
        }
}

/* Each row, with the unit alone and before another one. */
static void check_rows(const struct arena *arena, const struct row *row, size_t count,
                       bool refuses, bool asked, const struct rtr_present *present)
{
    for (const struct row *end = row + count; row < end; row++) {
        uint8_t input[2 * LONGEST];
        size_t length = decoded(row->input, input);
        size_t all = length + decoded(PREFIX, input + length);
        const struct rtr_cache cache = new_cache(refuses, asked, present);
        for (int more = 0; more < 2; more++) {
            struct rtr_cache changed = cache;
            struct rtr_serving *serving =
                read_input(arena, &changed, present, input, more ? all : length, false);
            CHECK(serving->kind == row->kind && serving->reason == row->reason);
            CHECK(serving->status == row->status && serving->detail == (
                      row->status == RTR_UNIT_TYPE ? input[1] : row->status == RTR_PREFIX));
            CHECK(serving->taken == (row->status ? 0 : length) && serving->wanted == 0);
            CHECK(serving->serial == row->serial);
            CHECK(serving->session == (row->unit && row->kind != RTR_SERVE_RESET ? 7 : 0));
            CHECK(serving->code == row->code);
            CHECK(changed.live == (row->kind != RTR_SERVE_END));
            check_unit(arena, serving, row->unit);
            check_report(arena, serving, input, more ? all : length, row->version, row->code,
                         row->enclosed, row->text);
        }
        if (!row->status || row->status == RTR_PREFIX)
            check_cuts(arena, &cache, present, input, length);
    }
}

/* When a cache acts by itself, in milliseconds (RFC 8210 section 8.2). */
static void check_times(const struct arena *arena)
{
    struct rtr_cache cache = new_cache(false, false, &PRESENT);
    struct rtr_serving *serving = FILLED(arena->unit, struct rtr_serving);
    CHECK(rtr_cache_wakes(&cache, &PRESENT) == 30000);
    rtr_cache_tick(&cache, 29999, &PRESENT, serving);
    CHECK(serving->kind == RTR_SERVE_WAIT && cache.live);
    rtr_cache_tick(&cache, 30000, &PRESENT, serving);
    CHECK(serving->kind == RTR_SERVE_END && serving->reason == RTR_REASON_SLOW);
    check_report(arena, serving, NULL, 0, 0, 0, 0, NULL);
    CHECK(rtr_cache_wakes(&cache, &PRESENT) == UINT64_MAX);

    cache = new_cache(false, true, &PRESENT);
    const struct rtr_present next = {.serial = 6, .session = 7, .has = true};
    const struct rtr_present third = {.serial = 7, .session = 7, .has = true};
    const struct rtr_present other = {.serial = 6, .session = 8, .has = true};
    CHECK(rtr_cache_wakes(&cache, &PRESENT) == 90000001);
    CHECK(rtr_cache_wakes(&cache, &next) == 0);
    rtr_cache_tick(&cache, 10, &next, serving);
    CHECK(serving->kind == RTR_SERVE_NOTIFY && serving->version == 1);
    check_unit(arena, serving, "010000070000000c00000006");
    CHECK(rtr_cache_wakes(&cache, &next) == 90000001);
    CHECK(rtr_cache_wakes(&cache, &third) == 60010);
    rtr_cache_tick(&cache, 60009, &third, serving);
    CHECK(serving->kind == RTR_SERVE_WAIT);
    rtr_cache_tick(&cache, 60010, &third, serving);
    CHECK(serving->kind == RTR_SERVE_NOTIFY && serving->serial == 7 && serving->session == 7);
    CHECK(rtr_cache_wakes(&cache, &other) == 0);
    rtr_cache_tick(&cache, 60011, &other, serving);
    CHECK(serving->kind == RTR_SERVE_END && serving->reason == RTR_REASON_NEW_SESSION);
    CHECK(!serving->reports);
}

/* A full cache, and a lost connection; after the end, input is ignored. */
static void check_ends(const struct arena *arena)
{
    for (int asked = 0; asked < 2; asked++) {
        struct rtr_cache cache = new_cache(false, asked, &PRESENT);
        struct rtr_serving *serving = FILLED(arena->unit, struct rtr_serving);
        const uint8_t query[] = {1, 2, 0, 0, 0, 0, 0, 8};
        rtr_cache_full(&cache, 3, &PRESENT, serving);
        CHECK(serving->kind == RTR_SERVE_END && serving->reason == RTR_REASON_FULL);
        check_unit(arena, serving, NULL);
        check_report(arena, serving, query, sizeof query, asked ? 1 : 2, 1, 0,
                     "too many connections");
        rtr_cache_read(&cache, 4, &PRESENT, NULL, 0, query, sizeof query, false, serving);
        CHECK(serving->kind == RTR_SERVE_WAIT && serving->taken == 8 && !serving->reports);
        cache = new_cache(false, asked, &PRESENT);
        rtr_cache_lost(&cache, 3, &PRESENT, serving);
        CHECK(serving->kind == RTR_SERVE_END && serving->reason == RTR_REASON_LOST);
        check_report(arena, serving, query, sizeof query, 0, 0, 0, NULL);
    }
}

/* rtr_reason_text returns the text that the archive writes into a report. */
static void check_reasons(const struct arena *arena)
{
    for (uint8_t reason = RTR_REASON_LOST; reason <= RTR_REASON_UNKNOWN; reason++) {
        const struct rtr_serving serving = {.kind = RTR_SERVE_END, .reason = reason, .version = 1,
                                            .reports = true};
        check_report(arena, &serving, (const uint8_t *)"", 0, 1, 0, 0, rtr_reason_text(reason));
    }
    CHECK(strcmp(rtr_reason_text(RTR_REASON_UNKNOWN + 1), "unknown reason") == 0);
}

#define ROWS(rows) rows, sizeof rows / sizeof rows[0]

int main(void)
{
    struct arena arena = new_arena();
    for (int side = 0; side < 2; side++) {
        arena.at_end = side;
        check_rows(&arena, ROWS(first_rows), false, false, &PRESENT);
        check_rows(&arena, ROWS(later_rows), false, true, &PRESENT);
        for (int asked = 0; asked < 2; asked++) {
            check_rows(&arena, ROWS(rows), false, asked, &PRESENT);
            check_rows(&arena, ROWS(refusing_rows), true, asked, &PRESENT);
            check_rows(&arena, ROWS(empty_rows), false, asked, &NOTHING);
        }
        check_times(&arena);
        check_ends(&arena);
        check_reasons(&arena);
    }
    return 0;
}
