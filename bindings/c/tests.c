/* Tests each function with the cases in a file that `tests/libraries/cases.py` wrote, in eight
 * threads at once, and with a few units by hand, between guard pages (testing.h).
 *
 * usage: tests CASES SESSIONS   SESSIONS is written by `tests/libraries/sessions.py cases` */
#include "testing.h"
#include <pthread.h>

#define THREADS 8

/* One case: a version or 255, and the expected result of a call. Numbers are little-endian. */
struct test_case {
    uint8_t version, status, detail;
    uint64_t units, forms, taken;
    const uint8_t *input, *form;
    size_t input_length, form_length, wanted;
};

/* Returns how many bytes a truncated unit needs: a header, then the length in it. */
static size_t wanted(const uint8_t *bytes, size_t length)
{
    if (length < 8)
        return 8;
    return (size_t)bytes[4] << 24 | (size_t)bytes[5] << 16 | (size_t)bytes[6] << 8 | bytes[7];
}

static struct test_case next_case(const uint8_t **at)
{
    struct test_case test = {(*at)[0], (*at)[1], (*at)[2], 0, 0, 0, NULL, NULL, 0, 0, 0};
    *at += 3;
    test.units = number(at);
    test.forms = number(at);
    test.taken = number(at);
    test.input_length = number(at);
    test.form_length = number(at);
    test.input = *at;
    test.form = *at += test.input_length;
    *at += test.form_length;
    if (test.status == RTR_SHORT)
        test.wanted = wanted(test.input + test.taken, test.input_length - test.taken);
    return test;
}

static uint8_t normalised(const struct test_case *test, const uint8_t *input, uint8_t *output,
                          size_t capacity, uint64_t limit, struct rtr_answer *answer)
{
    uint8_t status = test->version == 255
        ? rtr_normalise_slice(input, test->input_length, output, capacity, limit, answer)
        : rtr_normalise_for_slice(input, test->input_length, output, capacity, limit, test->version,
                                  answer);
    CHECK(status == answer->status);
    return status;
}

/* In one call, with an output that always suffices. */
static void check_whole(const struct arena *arena, const struct test_case *test,
                        const uint8_t *input)
{
    size_t capacity = test->input_length + (test->version == 255 ? 0 : 12);
    uint8_t *output = lie(arena, arena->output, capacity);
    struct rtr_answer *answer = FILLED(arena->answer, struct rtr_answer);
    memset(output, 0xa5, capacity);
    CHECK(normalised(test, input, output, capacity, UINT32_MAX, answer) == test->status);
    CHECK(answer->detail == test->detail && answer->units == test->units);
    CHECK(answer->forms == test->forms && answer->taken == test->taken);
    CHECK(answer->written == test->form_length && answer->wanted == test->wanted);
    CHECK(memcmp(output, test->form, test->form_length) == 0);
    for (size_t i = answer->written; i < capacity; i++)
        CHECK(output[i] == 0xa5);
}

/* An output as long as the form suffices, and a shorter one doesn't. */
static void check_capacity(const struct arena *arena, const struct test_case *test,
                       const uint8_t *input)
{
    for (size_t lack = 0; lack < 2 && test->status == RTR_OK; lack++) {
        size_t capacity = test->form_length - lack;
        uint8_t *output = lie(arena, arena->output, capacity);
        struct rtr_answer *answer = FILLED(arena->answer, struct rtr_answer);
        CHECK(normalised(test, input, output, capacity, test->units + 1, answer)
              == (lack ? RTR_NO_ROOM : RTR_OK));
        CHECK(memcmp(output, test->form, answer->written) == 0);
        CHECK(lack ? answer->taken < test->taken : answer->written == capacity);
        CHECK(normalised(test, input, output, capacity, test->units, answer) == RTR_TOO_MANY);
    }
}

/* In steps, with a small output and few units at a time: the result is the same. */
static void check_in_turns(const struct arena *arena, const struct test_case *test,
                           const uint8_t *input, size_t capacity)
{
    struct test_case rest = *test;
    size_t taken = 0, written = 0;
    uint64_t units = 0;
    for (;;) {
        uint8_t *output = lie(arena, arena->output, capacity);
        struct rtr_answer *answer = FILLED(arena->answer, struct rtr_answer);
        uint8_t status = normalised(&rest, input + taken, output, capacity, 3, answer);
        CHECK(answer->written <= capacity && written + answer->written <= test->form_length);
        CHECK(memcmp(output, test->form + written, answer->written) == 0);
        taken += answer->taken;
        written += answer->written;
        units += answer->units;
        rest.input_length -= answer->taken;
        if (status == RTR_NO_ROOM && answer->taken == 0)
            capacity *= 2;
        else if (status != RTR_NO_ROOM && status != RTR_TOO_MANY) {
            CHECK(status == test->status && answer->detail == test->detail);
            CHECK(answer->wanted == test->wanted);
            break;
        }
    }
    CHECK(taken == test->taken && written == test->form_length && units == test->units);
}

/* Checks that a unit is written as at the start of `form`, and returns its length there. */
static size_t check_unit(const struct arena *arena, const struct rtr_unit *unit,
                         const uint8_t *bytes, const uint8_t *form, size_t most)
{
    const uint8_t *input = copied(arena, arena->other, bytes, unit->size);
    size_t *length_written = FILLED(arena->answer, size_t);
    uint8_t *output = lie(arena, arena->output, unit->size);
    CHECK(rtr_write_unit(unit, input, unit->size, output, unit->size, length_written) == RTR_OK);
    size_t size = *length_written;
    CHECK(size <= most && memcmp(output, form, size) == 0);
    output = lie(arena, arena->output, size - 1);
    uint8_t status = rtr_write_unit(unit, input, unit->size, output, size - 1, length_written);
    CHECK(status == RTR_NO_ROOM && *length_written == 0);
    return size;
}

/* Reports whether rtr_next accepts a unit of this type although a sequence can't contain it. */
static bool is_plain(uint8_t kind)
{
    return kind <= RTR_CACHE_RESPONSE || kind == RTR_CACHE_RESET || kind == RTR_ERROR_REPORT;
}

/* Unit by unit, until the sequence ends or is refused. */
static void check_units(const struct arena *arena, const struct test_case *test,
                        const uint8_t *input)
{
    size_t at = 0, formed = 0;
    uint64_t units = 0;
    struct rtr_unit *unit = FILLED(arena->unit, struct rtr_unit);
    uint8_t status;
    for (;;) {
        if (at == test->taken && test->status == RTR_UNIT_TYPE && is_plain(test->detail))
            return;
        status = rtr_next(input + at, test->input_length - at, unit);
        if (status != RTR_OK)
            break;
        CHECK(unit->size <= test->input_length - at && unit->detail == 0);
        CHECK(unit->part_start + unit->part_length <= unit->size);
        formed += check_unit(arena, unit, input + at, test->form + formed,
                             test->form_length - formed);
        at += unit->size;
        if (unit->kind == RTR_END_OF_DATA)
            break;
        units++;
    }
    CHECK(status == test->status && at == test->taken && units == test->units);
    CHECK(formed == test->form_length);
    if (status != RTR_OK) {
        struct rtr_unit nothing;
        memset(&nothing, 0, sizeof nothing);
        nothing.detail = test->detail;
        nothing.wanted = test->wanted;
        if (status == RTR_PREFIX)
            nothing.size = input[at + 1] == RTR_IPV4_PREFIX ? 20 : 32;
        CHECK(memcmp(unit, &nothing, offsetof(struct rtr_unit, detail) + 1) == 0);
    }
}

#define FIELDS (offsetof(struct rtr_unit, detail) + 1)

/* Many units in one call: each element is as from rtr_next, and later ones are unchanged. */
static void check_many(const uint8_t *input, size_t length)
{
    struct rtr_unit units[5], untouched, unit;
    memset(&untouched, 0xa5, sizeof untouched);
    for (size_t places = 0; places < 5; places++) {
        size_t count, taken, at = 0, shown = 0;
        uint8_t expected = RTR_OK;
        memset(units, 0xa5, sizeof units);
        uint8_t status = rtr_next_many(input, length, units, places, &count, &taken);
        while (shown < places && expected == RTR_OK) {
            expected = rtr_next(input + at, length - at, &unit);
            CHECK(memcmp(&units[shown], &unit, FIELDS) == 0);
            if (expected == RTR_OK)
                at += units[shown++].size;
        }
        CHECK(status == expected && count == shown && taken == at);
        for (size_t i = shown + (status != RTR_OK); i < 5; i++)
            CHECK(memcmp(&units[i], &untouched, sizeof untouched) == 0);
    }
}

/* Compares the case's input, as the left or the right one, with an accepted sequence: the result
 * is the case's fault, or whether both mean the same. */
static void check_comparison(const struct arena *arena, const struct test_case *test,
                             const uint8_t *input, enum rtr_side side, const uint8_t *sequence,
                             size_t length, bool same)
{
    struct rtr_comparison *answer = FILLED(arena->answer, struct rtr_comparison), expected;
    memset(&expected, 0, sizeof expected);
    if (test->status == RTR_OK) {
        expected.same = same;
    } else {
        expected.offset = test->taken;
        expected.wanted = test->wanted;
        expected.status = test->status;
        expected.side = (uint8_t)side;
        expected.detail = test->detail;
    }
    const uint8_t *other = copied(arena, arena->other, sequence, length);
    uint8_t status = side == RTR_LEFT
        ? rtr_same_meaning(input, test->input_length, other, length, UINT32_MAX, answer)
        : rtr_same_meaning(other, length, input, test->input_length, UINT32_MAX, answer);
    CHECK(status == test->status);
    CHECK(memcmp(answer, &expected, offsetof(struct rtr_comparison, same) + 1) == 0);
}

/* A sequence means the same as its form; it means the same as `end` if that is its form. A fault
 * is found on either side; of two faults, the left one. */
static void check_same(const struct arena *arena, const struct test_case *test,
                       const uint8_t *input)
{
    static const uint8_t end[] = {0, 7, 0, 1, 0, 0, 0, 12, 0, 0, 0, 2};
    bool ends = test->form_length == sizeof end && memcmp(test->form, end, sizeof end) == 0;
    check_comparison(arena, test, input, RTR_LEFT, test->form, test->form_length, true);
    check_comparison(arena, test, input, RTR_LEFT, end, sizeof end, ends);
    check_comparison(arena, test, input, RTR_RIGHT, end, sizeof end, ends);
    if (test->status == RTR_OK)
        check_comparison(arena, test, input, RTR_RIGHT, test->form, test->form_length, true);
}

/* The limit applies to each sequence: a comparison stops at the first unit beyond it. */
static void check_same_limit(const struct arena *arena)
{
    static const uint8_t units[] = {
        1, 4, 0, 0, 0, 0, 0, 20, 1, 8, 8, 0, 10, 0, 0, 0, 0, 1, 0, 15,
        1, 4, 0, 0, 0, 0, 0, 20, 1, 8, 8, 0, 11, 0, 0, 0, 0, 1, 0, 15,
        1, 7, 0, 7, 0, 0, 0, 24, 0, 0, 0, 2, 0, 0, 14, 16, 0, 0, 2, 88, 0, 0, 28, 32};
    const size_t size = 20, long_size = sizeof units, short_size = long_size - size;
    struct rtr_comparison *answer = FILLED(arena->answer, struct rtr_comparison);
    const uint8_t *longer = copied(arena, arena->input, units, long_size);
    const uint8_t *shorter = copied(arena, arena->other, units + size, short_size);
    for (uint64_t limit = 0; limit < 4; limit++) {
        uint8_t status = rtr_same_meaning(longer, long_size, shorter, short_size, limit,
                                          answer);
        CHECK(status == (limit < 3 ? RTR_TOO_MANY : RTR_OK) && answer->status == status);
        CHECK(answer->offset == (limit < 3 ? size * limit : 0) && !answer->same);
        CHECK(answer->side == (limit < 3 ? RTR_LEFT : 0));
        status = rtr_same_meaning(shorter, short_size, longer, long_size, limit, answer);
        CHECK(status == (limit < 3 ? RTR_TOO_MANY : RTR_OK) && answer->status == status);
        CHECK(answer->offset == (limit < 3 ? size * limit : 0) && !answer->same);
        CHECK(answer->side == (limit < 2 ? RTR_LEFT : limit < 3 ? RTR_RIGHT : 0));
        CHECK(answer->wanted == 0 && answer->detail == 0);
    }
}

static void check_case(const struct arena *arena, const struct test_case *test)
{
    const uint8_t *input = copied(arena, arena->input, test->input, test->input_length);
    check_whole(arena, test, input);
    check_capacity(arena, test, input);
    if (test->input_length < 1 << 16)
        check_in_turns(arena, test, input, 16);
    if (test->version == 255) {
        check_units(arena, test, input);
        check_many(input, test->input_length);
        check_same(arena, test, input);
    }
    CHECK(memcmp(input, test->input, test->input_length) == 0);
}

static void *check_cases(void *all)
{
    const struct cases *cases = all;
    const uint8_t *at = cases->bytes;
    struct arena arena = new_arena();
    while (at < cases->bytes + cases->length) {
        struct test_case test = next_case(&at);
        for (int side = 0; side < 2; side++) {
            arena.at_end = side;
            check_case(&arena, &test);
        }
    }
    return NULL;
}

/* An IPv4 prefix with free bits set, field by field (RFC 8210 section 5.6). */
static void check_ipv4(const struct arena *arena)
{
    static const uint8_t stray[] = {1, 4,  0,  7, 0,   0, 0, 20, /* reserved bytes are 7, 3 and 9 */
                                    3, 23, 26, 9, 192, 0, 2, 10, 0, 1, 0, 15};
    static const uint8_t form[] = {1, 4,  0,  0, 0,   0, 0, 20, /* and the address is cleared */
                                   1, 23, 26, 0, 192, 0, 2, 0,  0, 1, 0, 15};
    const uint8_t *input = copied(arena, arena->input, stray, sizeof stray);
    uint8_t *output = lie(arena, arena->output, sizeof form);
    struct rtr_unit *unit = FILLED(arena->unit, struct rtr_unit), expected;
    size_t *written = FILLED(arena->answer, size_t);
    memset(&expected, 0, sizeof expected);
    expected.size = 20;
    expected.asn = 65551;
    expected.kind = RTR_IPV4_PREFIX;
    expected.version = 1;
    expected.action = 1;
    expected.family = 4;
    expected.prefix_length = 23;
    expected.max_length = 26;
    memcpy(expected.address, "\xc0\x00\x02\x00", 4);
    CHECK(rtr_next(input, sizeof stray, unit) == RTR_OK);
    CHECK(memcmp(unit, &expected, offsetof(struct rtr_unit, detail) + 1) == 0);
    input = lie(arena, arena->input, 0);
    CHECK(rtr_write_unit(unit, input, 0, output, sizeof form, written) == RTR_OK);
    CHECK(*written == 20 && memcmp(output, form, 20) == 0);
}

/* An ASPA in the layout of an older draft, with flags, an address family and a count after the
 * length: it announces AS65010 with two providers. It is read as rtr.h says. */
static void check_older_aspa(const struct arena *arena)
{
    static const uint8_t older[] = {2, 11, 0, 0, 0, 0, 0, 24, 1, 0, 0, 2, 0, 0, 0xfd, 0xf2,
                                    0, 0, 0xfd, 0xe9, 0, 0, 0xfd, 0xea};
    const uint8_t *input = copied(arena, arena->input, older, sizeof older);
    struct rtr_unit *unit = FILLED(arena->unit, struct rtr_unit);
    CHECK(rtr_next(input, sizeof older, unit) == RTR_OK);
    CHECK(unit->kind == RTR_ASPA && unit->action == 0 && unit->customer == 16777218);
    CHECK(unit->part_start == 12 && unit->part_length == 3 * 4);
}

/* A unit that can't be written is refused, and nothing is written. */
static void check_refused(const struct arena *arena)
{
    static const struct {
        uint8_t status, kind, version, action, family, length, max_length;
        size_t part_start, part_length;
    } rows[] = {
        {RTR_UNIT_TYPE, 5, 1, 1, 4, 8, 8, 0, 0},
        {RTR_UNIT_TYPE, 12, 1, 0, 0, 0, 0, 0, 0},
        {RTR_UNIT_TYPE, 255, 1, 0, 0, 0, 0, 0, 0},
        {RTR_NO_FORM, RTR_SERIAL_NOTIFY, 1, 1, 0, 0, 0, 0, 0},
        {RTR_NO_FORM, RTR_SERIAL_QUERY, 1, 1, 0, 0, 0, 0, 0},
        {RTR_NO_FORM, RTR_RESET_QUERY, 1, 1, 0, 0, 0, 0, 0},
        {RTR_NO_FORM, RTR_CACHE_RESPONSE, 1, 2, 0, 0, 0, 0, 0},
        {RTR_NO_FORM, RTR_CACHE_RESET, 1, 255, 0, 0, 0, 0, 0},
        {RTR_NO_FORM, RTR_ERROR_REPORT, 1, 1, 0, 0, 0, 0, 0},
        {RTR_NO_FORM, RTR_ERROR_REPORT, 1, 0, 0, 0, 0, 1, 100000},
        {RTR_TOO_LONG, RTR_ERROR_REPORT, 1, 0, 0, 0, 0, 0, 65520},
        {RTR_NO_FORM, RTR_IPV4_PREFIX, 1, 2, 4, 8, 8, 0, 0},
        {RTR_NO_FORM, RTR_IPV4_PREFIX, 1, 1, 6, 8, 8, 0, 0},
        {RTR_NO_FORM, RTR_IPV6_PREFIX, 1, 1, 4, 8, 8, 0, 0},
        {RTR_PREFIX, RTR_IPV4_PREFIX, 1, 1, 4, 33, 33, 0, 0},
        {RTR_PREFIX, RTR_IPV4_PREFIX, 1, 1, 4, 8, 33, 0, 0},
        {RTR_PREFIX, RTR_IPV6_PREFIX, 1, 1, 6, 9, 8, 0, 0},
        {RTR_NO_FORM, RTR_ROUTER_KEY, 1, 1, 0, 0, 0, 0, 100001},
        {RTR_NO_FORM, RTR_ROUTER_KEY, 1, 1, 0, 0, 0, SIZE_MAX, 2},
        {RTR_NO_FORM, RTR_ROUTER_KEY, 1, 2, 0, 0, 0, 0, 0},
        {RTR_TOO_LONG, RTR_ROUTER_KEY, 1, 1, 0, 0, 0, 0, 65504},
        {RTR_NO_FORM, RTR_ASPA, 2, 1, 0, 0, 0, 99999, 4},
        {RTR_TOO_LONG, RTR_ASPA, 2, 1, 0, 0, 0, 0, 65524},
        {RTR_UNIT_LENGTH, RTR_ASPA, 2, 1, 0, 0, 0, 0, 6},
        {RTR_EMPTY_PROVIDERS, RTR_ASPA, 2, 1, 0, 0, 0, 0, 0},
        {RTR_NO_FORM, RTR_END_OF_DATA, 1, 1, 0, 0, 0, 0, 0},
        {RTR_UNIT_VERSION, RTR_END_OF_DATA, 3, 0, 0, 0, 0, 0, 0},
    };
    size_t length = 100000;
    const uint8_t *input = memset(lie(arena, arena->input, length), 0, length);
    uint8_t *output = lie(arena, arena->output, length);
    for (size_t i = 0; i < sizeof rows / sizeof rows[0]; i++) {
        struct rtr_unit *unit = lie(arena, arena->unit, sizeof *unit);
        size_t *written = FILLED(arena->answer, size_t);
        memset(unit, 0, sizeof *unit);
        unit->kind = rows[i].kind;
        unit->version = rows[i].version;
        unit->action = rows[i].action;
        unit->family = rows[i].family;
        unit->prefix_length = rows[i].length;
        unit->max_length = rows[i].max_length;
        unit->part_start = rows[i].part_start;
        unit->part_length = rows[i].part_length;
        output[0] = 0xa5;
        CHECK(rtr_write_unit(unit, input, length, output, length, written) == rows[i].status);
        CHECK(*written == 0 && output[0] == 0xa5);
    }
}

/* Empty slices, a limit of 0, and versions that don't exist. */
static void check_bounds(const struct arena *arena)
{
    const uint8_t *none = lie(arena, arena->input, 0);
    uint8_t *no_room = lie(arena, arena->output, 0);
    struct rtr_unit *unit = FILLED(arena->unit, struct rtr_unit);
    struct rtr_answer *answer = FILLED(arena->answer, struct rtr_answer);
    CHECK(rtr_next(none, 0, unit) == RTR_SHORT);
    CHECK(rtr_normalise_slice(none, 0, no_room, 0, 1, answer) == RTR_SHORT);
    CHECK(answer->taken == 0);
    CHECK(rtr_normalise_slice(none, 0, no_room, 0, 0, answer) == RTR_TOO_MANY);
    for (int version = 3; version < 256; version++) {
        CHECK(rtr_normalise_for_slice(none, 0, no_room, 0, 1, (uint8_t)version, answer)
              == RTR_UNIT_VERSION);
        CHECK(answer->detail == version && answer->units == 0 && answer->written == 0);
    }
    struct rtr_comparison *both = FILLED(arena->answer, struct rtr_comparison);
    CHECK(rtr_same_meaning(none, 0, none, 0, 1, both) == RTR_SHORT && both->side == RTR_LEFT);
    CHECK(rtr_same_meaning(none, 0, none, 0, 0, both) == RTR_TOO_MANY && both->wanted == 0);
}

/* Reads the next expected unit of a session, with its status. */
static struct rtr_unit next_answer(const uint8_t **at, uint64_t *status)
{
    struct rtr_unit unit;
    memset(&unit, 0, sizeof unit);
    *status = number(at);
    unit.size = number(at);
    unit.wanted = number(at);
    unit.part_start = number(at);
    unit.part_length = number(at);
    unit.text_start = number(at);
    unit.text_length = number(at);
    unit.asn = (uint32_t)number(at);
    unit.customer = (uint32_t)number(at);
    unit.serial = (uint32_t)number(at);
    unit.refresh = (uint32_t)number(at);
    unit.retry = (uint32_t)number(at);
    unit.expire = (uint32_t)number(at);
    unit.session = (uint16_t)number(at);
    unit.code = (uint16_t)number(at);
    unit.kind = (uint8_t)number(at);
    unit.version = (uint8_t)number(at);
    unit.action = (uint8_t)number(at);
    unit.family = (uint8_t)number(at);
    unit.prefix_length = (uint8_t)number(at);
    unit.max_length = (uint8_t)number(at);
    unit.detail = (uint8_t)number(at);
    memcpy(unit.address, *at, sizeof unit.address);
    memcpy(unit.key_identifier, *at + sizeof unit.address, sizeof unit.key_identifier);
    *at += sizeof unit.address + sizeof unit.key_identifier;
    return unit;
}


/* The length from the header alone agrees with that of the whole unit. */
static void check_size(const struct arena *arena, const uint8_t *input, size_t length,
                       const struct rtr_unit *expected, uint64_t status)
{
    size_t *size = FILLED(arena->answer, size_t);
    uint8_t detail = 0xa5;
    const uint8_t *front = copied(arena, arena->other, input, length < 8 ? length : 8);
    uint8_t found = rtr_unit_size(front, length < 8 ? length : 8, size, &detail);
    if (length < 8)
        CHECK(found == RTR_SHORT && *size == 8 && detail == 0);
    else if (status == RTR_OK || status == RTR_SHORT || status == RTR_PREFIX)
        CHECK(found == RTR_OK && *size == expected->size + expected->wanted && detail == 0);
    else
        CHECK(found == status && *size == 0 && detail == expected->detail);
}

/* A unit is read with the expected fields, and written as its form. The form is read with the same
 * fields, except for a withdrawn ASPA, whose providers aren't written. */
static void check_shown(const struct arena *arena, const uint8_t *input, size_t length,
                        const struct rtr_unit *expected, uint64_t status, const uint8_t *form,
                        size_t size)
{
    struct rtr_unit *unit = FILLED(arena->unit, struct rtr_unit);
    CHECK(rtr_next(input, length, unit) == status);
    CHECK(memcmp(unit, expected, FIELDS) == 0);
    if (status != RTR_OK)
        return;
    const uint8_t *bytes = copied(arena, arena->other, input, unit->size);
    uint8_t *output = lie(arena, arena->output, size);
    size_t *written = FILLED(arena->answer, size_t);
    CHECK(rtr_write_unit(unit, bytes, unit->size, output, size, written) == RTR_OK);
    CHECK(*written == size && memcmp(output, form, size) == 0);
    uint8_t *shorter = lie(arena, arena->output, size - 1);
    CHECK(rtr_write_unit(unit, bytes, unit->size, shorter, size - 1, written) == RTR_NO_ROOM);
    const uint8_t *again = copied(arena, arena->other, form, size);
    struct rtr_unit same = *expected;
    same.size = size;
    if (unit->kind == RTR_ASPA && !unit->action)
        same.part_length = 0;
    if (unit->kind == RTR_ERROR_REPORT && !unit->part_start) {
        same.part_start = 12;
        same.text_start = 16;
    }
    CHECK(rtr_next(again, size, unit) == RTR_OK && memcmp(unit, &same, FIELDS) == 0);
}

/* Sessions with units of all types, read one after the other. */
static void check_sessions(const struct arena *arena, const uint8_t *at, const uint8_t *end)
{
    while (at < end) {
        size_t length = number(&at), passed = 0;
        uint64_t answers = number(&at), status;
        const uint8_t *input = copied(arena, arena->input, at, length);
        at += length;
        for (; answers > 0; answers--) {
            struct rtr_unit expected = next_answer(&at, &status);
            size_t size = number(&at);
            check_size(arena, input + passed, length - passed, &expected, status);
            check_shown(arena, input + passed, length - passed, &expected, status, at, size);
            at += size;
            passed += expected.size;
        }
    }
}

/* A null pointer is a slice without bytes, for each call that takes slices. */
static void check_null(const struct arena *arena)
{
    struct rtr_unit *unit = FILLED(arena->unit, struct rtr_unit);
    struct rtr_answer *answer = FILLED(arena->answer, struct rtr_answer);
    CHECK(rtr_normalise_slice(NULL, 0, NULL, 0, 1, answer) == RTR_SHORT);
    CHECK(answer->taken == 0 && answer->written == 0 && answer->wanted == 8);
    CHECK(rtr_normalise_for_slice(NULL, 0, NULL, 0, 1, 2, answer) == RTR_SHORT);
    CHECK(answer->taken == 0 && answer->written == 0 && answer->wanted == 8);
    CHECK(rtr_next(NULL, 0, unit) == RTR_SHORT && unit->wanted == 8 && unit->size == 0);
    size_t *size = FILLED(arena->answer, size_t);
    uint8_t detail = 1;
    CHECK(rtr_unit_size(NULL, 0, size, &detail) == RTR_SHORT && *size == 8 && detail == 0);
    struct rtr_comparison *both = FILLED(arena->answer, struct rtr_comparison);
    CHECK(rtr_same_meaning(NULL, 0, NULL, 0, 1, both) == RTR_SHORT && !both->same);
    CHECK(both->side == RTR_LEFT && both->offset == 0 && both->wanted == 8);
    uint16_t *code = FILLED(arena->answer, uint16_t);
    CHECK(rtr_error_code(RTR_SHORT, NULL, 0, code) && *code == 0);
    uint32_t *provider = FILLED(arena->answer, uint32_t);
    memset(unit, 0, sizeof *unit);
    unit->kind = RTR_ASPA;
    CHECK(!rtr_provider(unit, NULL, 0, 0, provider) && *provider == 0);
    size_t *written = FILLED(arena->answer, size_t);
    CHECK(rtr_write_unit(unit, NULL, 0, NULL, 0, written) == RTR_NO_ROOM && *written == 0);
    uint8_t *output = lie(arena, arena->output, 12);
    CHECK(rtr_write_unit(unit, NULL, 0, output, 12, written) == RTR_OK && *written == 12);
}

/* Reports of up to 65535 bytes are written, longer ones are refused. The enclosed unit and the
 * text may be anywhere in the input, but not outside of it. */
static void check_reports(const struct arena *arena)
{
    size_t length = 65600;
    uint8_t *input = lie(arena, arena->input, length), *output = lie(arena, arena->output, 65535);
    for (size_t i = 0; i < length; i++)
        input[i] = (uint8_t)(i * 7);
    struct rtr_unit *unit = FILLED(arena->unit, struct rtr_unit);
    size_t *written = FILLED(arena->answer, size_t);
    memset(unit, 0, sizeof *unit);
    unit->kind = RTR_ERROR_REPORT;
    unit->version = 1;
    unit->code = 0x0102;
    unit->part_start = 40;
    unit->part_length = 65500;
    unit->text_start = 3;
    unit->text_length = 19;
    CHECK(rtr_write_unit(unit, input, length, output, 65535, written) == RTR_OK);
    CHECK(*written == 65535 && memcmp(output, "\1\12\1\2\0\0\xff\xff\0\0\xff\xdc", 12) == 0);
    CHECK(memcmp(output + 12, input + 40, 65500) == 0);
    CHECK(memcmp(output + 65512, "\0\0\0\x13", 4) == 0);
    CHECK(memcmp(output + 65516, input + 3, 19) == 0);
    unit->text_length = 20;
    CHECK(rtr_write_unit(unit, input, length, output, 65535, written) == RTR_TOO_LONG);
    unit->text_start = length - 19;
    CHECK(rtr_write_unit(unit, input, length, output, 65535, written) == RTR_NO_FORM);
    unit->text_start = SIZE_MAX;
    CHECK(rtr_write_unit(unit, input, length, output, 65535, written) == RTR_NO_FORM);
    CHECK(*written == 0);
    unit->text_start = unit->text_length = unit->part_start = unit->part_length = 0;
    CHECK(rtr_write_unit(unit, NULL, 0, output, 16, written) == RTR_OK && *written == 16);
    CHECK(memcmp(output, "\1\12\1\2\0\0\0\20\0\0\0\0\0\0\0\0", 16) == 0);
}

/* The order of serial numbers (RFC 1982 section 3.2): half the circle is 2^31. */
static void check_serials(void)
{
    static const struct {
        uint32_t left, right;
        uint8_t order;
    } rows[] = {
        {0, 0, RTR_SERIAL_EQUAL},
        {0xffffffff, 0xffffffff, RTR_SERIAL_EQUAL},
        {0, 1, RTR_SERIAL_LESS},
        {1, 0, RTR_SERIAL_GREATER},
        {0xffffffff, 0, RTR_SERIAL_LESS},
        {0, 0xffffffff, RTR_SERIAL_GREATER},
        {0, 0x7fffffff, RTR_SERIAL_LESS},
        {0x7fffffff, 0, RTR_SERIAL_GREATER},
        {0, 0x80000000, RTR_SERIAL_NO_ORDER},
        {0x80000000, 0, RTR_SERIAL_NO_ORDER},
        {5, 0x80000005, RTR_SERIAL_NO_ORDER},
        {5, 0x80000006, RTR_SERIAL_GREATER},
        {5, 0x80000004, RTR_SERIAL_LESS},
        {0xfffffff0, 0x10, RTR_SERIAL_LESS},
    };
    for (size_t i = 0; i < sizeof rows / sizeof rows[0]; i++)
        CHECK(rtr_serial_order(rows[i].left, rows[i].right) == rows[i].order);
}

/* The kinds of each version: those of RFC 6810, router keys from 1 on, ASPAs in 2. */
static void check_versions(void)
{
    for (int version = 0; version < 256; version++)
        for (int kind = 0; kind < 256; kind++) {
            bool known = kind <= 11 && kind != 5;
            int first = kind == RTR_ROUTER_KEY ? 1 : kind == RTR_ASPA ? 2 : 0;
            CHECK(rtr_version_has((uint8_t)version, (uint8_t)kind)
                  == (known && first <= version && version <= 2));
        }
    char text[16];
    snprintf(text, sizeof text, "%d.%d.%d", RTR_WIRE_VERSION_NUMBER / 10000,
             RTR_WIRE_VERSION_NUMBER / 100 % 100, RTR_WIRE_VERSION_NUMBER % 100);
    CHECK(strcmp(text, RTR_WIRE_VERSION) == 0 && rtr_wire_version() == RTR_WIRE_VERSION_NUMBER);
}

/* The error codes of RFC 8210 section 12; none is owed for a report (section 5.11). */
static void check_codes(const struct arena *arena)
{
    static const int codes[] = {-1, 0, 5, 4, 0, 0, 9, 0, -1, -1, -1, -1, -1, -1, 7, 6};
    uint8_t bytes[] = {1, RTR_IPV4_PREFIX, 0, 0, 0, 0, 0, 20};
    for (int status = 0; status < 256; status++)
        for (size_t length = 0; length <= sizeof bytes; length++)
            for (int report = 0; report < 2; report++) {
                bytes[1] = report ? RTR_ERROR_REPORT : RTR_IPV4_PREFIX;
                const uint8_t *input = copied(arena, arena->input, bytes, length);
                uint16_t *code = FILLED(arena->answer, uint16_t);
                int owed = status < 16 && !(report && length >= 2) ? codes[status] : -1;
                CHECK(rtr_error_code((uint8_t)status, input, length, code) == (owed >= 0));
                CHECK(*code == (owed >= 0 ? owed : 0));
            }
}

/* rtr_cause_text returns the text that the archive writes into a report. */
static void check_causes(void)
{
    for (uint8_t cause = RTR_CAUSE_LOST; cause <= RTR_CAUSE_HIGHER; cause++) {
        const struct rtr_action action = {.kind = RTR_END, .cause = cause, .reports = true};
        const char *text = rtr_cause_text(cause);
        struct rtr_unit unit;
        uint8_t report[256];
        size_t written;
        CHECK(rtr_router_report(&action, NULL, 0, report, sizeof report, &written));
        CHECK(rtr_next(report, written, &unit) == RTR_OK && unit.kind == RTR_ERROR_REPORT);
        CHECK(unit.text_length == strlen(text));
        CHECK(memcmp(report + unit.text_start, text, unit.text_length) == 0);
    }
}

/* The providers of an ASPA by their index: none past the last, outside the input, or of another
 * kind. */
static void check_providers(const struct arena *arena)
{
    static const uint8_t aspa[] = {2, 11, 1, 0, 0, 0, 0, 20, 0, 0, 0xfd, 0xe8,
                                   0, 0, 0xfd, 0xe9, 0xff, 1, 0, 15};
    const uint8_t *input = copied(arena, arena->input, aspa, sizeof aspa);
    struct rtr_unit *unit = FILLED(arena->unit, struct rtr_unit);
    CHECK(rtr_next(input, sizeof aspa, unit) == RTR_OK);
    uint32_t *provider = FILLED(arena->answer, uint32_t);
    CHECK(rtr_provider(unit, input, sizeof aspa, 0, provider) && *provider == 65001);
    CHECK(rtr_provider(unit, input, sizeof aspa, 1, provider) && *provider == 0xff01000f);
    CHECK(!rtr_provider(unit, input, sizeof aspa, 2, provider) && *provider == 0);
    CHECK(!rtr_provider(unit, input, sizeof aspa, SIZE_MAX, provider) && *provider == 0);
    CHECK(!rtr_provider(unit, input, sizeof aspa, SIZE_MAX / 4 + 1, provider));
    CHECK(!rtr_provider(unit, input, sizeof aspa - 1, 0, provider) && *provider == 0);
    unit->part_length = 7;
    CHECK(!rtr_provider(unit, input, sizeof aspa, 1, provider) && *provider == 0);
    unit->kind = RTR_ROUTER_KEY;
    CHECK(!rtr_provider(unit, input, sizeof aspa, 0, provider) && *provider == 0);
}

int main(int count, char **words)
{
    CHECK(count == 3);
    struct cases cases = read_file(words[1]), sessions = read_file(words[2]);
    struct arena arena = new_arena();
    for (int side = 0; side < 2; side++) {
        arena.at_end = side;
        check_ipv4(&arena);
        check_older_aspa(&arena);
        check_refused(&arena);
        check_bounds(&arena);
        check_same_limit(&arena);
        check_null(&arena);
        check_codes(&arena);
        check_providers(&arena);
        check_reports(&arena);
        check_sessions(&arena, sessions.bytes, sessions.bytes + sessions.length);
    }
    check_serials();
    check_causes();
    check_versions();
    pthread_t threads[THREADS];
    for (int i = 0; i < THREADS; i++)
        CHECK(pthread_create(&threads[i], NULL, check_cases, &cases) == 0);
    for (int i = 0; i < THREADS; i++)
        CHECK(pthread_join(threads[i], NULL) == 0);
    free((void *)cases.bytes);
    free((void *)sessions.bytes);
    return 0;
}
