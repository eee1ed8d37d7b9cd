/* Tests each function on data with the cases in a file that `tests/libraries/deltas.py` wrote,
 * between guard pages (testing.h).
 *
 * usage: data_tests CASES */
#include "testing.h"

enum call { DELTA = 0, APPLY = 1, ORDER = 2, IN_ORDER = 3, BETWEEN = 4 };

/* One case: a call and its expected result. Numbers are little-endian. */
struct data_case {
    uint8_t call, status, side, detail;
    size_t offset, first_length, second_length, output_length, places;
    const uint8_t *first, *second, *output;
};

static struct data_case next_case(const uint8_t **at)
{
    struct data_case test = {(*at)[0], (*at)[1], (*at)[2], (*at)[3], 0, 0, 0, 0, 0, NULL,
                            NULL, NULL};
    *at += 4;
    test.offset = number(at);
    test.first_length = number(at);
    test.second_length = number(at);
    test.output_length = number(at);
    test.places = number(at);
    test.first = *at;
    test.second = test.first + test.first_length;
    test.output = test.second + test.second_length;
    *at = test.output + test.output_length;
    return test;
}

static uint8_t called(const struct arena *arena, const struct data_case *test,
                      const uint8_t *first, const uint8_t *second, uint8_t *output, size_t capacity,
                      struct rtr_data_answer *answer)
{
    size_t *index = lie(arena, arena->index, test->places * sizeof *index);
    memset(index, 0xa5, test->places * sizeof *index);
    switch (test->call) {
    case DELTA:
        return rtr_delta(first, test->first_length, second, test->second_length, output, capacity,
                         answer);
    case APPLY:
        return rtr_apply(first, test->first_length, second, test->second_length, output, capacity,
                         answer);
    case BETWEEN:
        return rtr_changes_between(first, test->first_length, second, test->second_length, output,
                                   capacity, answer);
    case IN_ORDER:
        return rtr_apply_in_order(first, test->first_length, second, test->second_length, index,
                                  test->places, output, capacity, answer);
    default:
        CHECK(test->call == ORDER);
        return rtr_order(first, test->first_length, index, test->places, output, capacity, answer);
    }
}

/* With an output of this size the call returns this status. Bytes behind the result are unchanged,
 * except after RTR_NO_ROOM. */
static void check_capacity(const struct arena *arena, const struct data_case *test,
                       const uint8_t *first, const uint8_t *second, size_t capacity, uint8_t status)
{
    uint8_t *output = memset(lie(arena, arena->output, capacity), 0xa5, capacity);
    struct rtr_data_answer *answer = FILLED(arena->answer, struct rtr_data_answer);
    bool as_expected = status == test->status;
    size_t written = status == RTR_OK ? test->output_length : 0;
    CHECK(called(arena, test, first, second, output, capacity, answer) == status);
    CHECK(answer->status == status && answer->written == written);
    CHECK(answer->side == (as_expected ? test->side : 0));
    CHECK(answer->offset == (as_expected ? test->offset : 0));
    CHECK(answer->detail == (as_expected ? test->detail : 0));
    CHECK(memcmp(output, test->output, written) == 0);
    for (size_t i = written; i < capacity && status != RTR_NO_ROOM; i++)
        CHECK(output[i] == 0xa5);
    CHECK(memcmp(first, test->first, test->first_length) == 0);
    CHECK(memcmp(second, test->second, test->second_length) == 0);
}

/* Checks a case with an output that always suffices, with one of the exact size, and with each
 * smaller size, or with a sample of these if the output is long. */
static void check_case(const struct arena *arena, const struct data_case *test)
{
    const uint8_t *first = copied(arena, arena->input, test->first, test->first_length);
    const uint8_t *second = copied(arena, arena->other, test->second, test->second_length);
    size_t enough = test->first_length + test->second_length;
    check_capacity(arena, test, first, second, enough, test->status);
    check_capacity(arena, test, first, second, test->output_length, test->status);
    size_t step = test->output_length < 300 ? 1 : 1 + test->output_length / 20;
    for (size_t lack = 1; lack <= test->output_length; lack += step)
        check_capacity(arena, test, first, second, test->output_length - lack, RTR_NO_ROOM);
}

/* A null pointer is a slice without bytes. */
static void check_null(const struct arena *arena)
{
    static const uint8_t end[] = {0, RTR_END_OF_DATA, 0, 1, 0, 0, 0, 12, 0, 0, 0, 7};
    const uint8_t *data = copied(arena, arena->input, end, sizeof end);
    struct rtr_data_answer *answer = FILLED(arena->answer, struct rtr_data_answer);
    CHECK(rtr_delta(NULL, 0, data, sizeof end, NULL, 0, answer) == RTR_SHORT);
    CHECK(answer->side == 1 && answer->offset == 0 && answer->written == 0);
    CHECK(rtr_delta(data, sizeof end, NULL, 0, NULL, 0, answer) == RTR_SHORT);
    CHECK(answer->side == 2 && answer->offset == 0 && answer->written == 0);
    CHECK(rtr_delta(data, sizeof end, data, sizeof end, NULL, 0, answer) == RTR_NO_ROOM);
    CHECK(answer->side == 0 && answer->offset == 0 && answer->written == 0);
    CHECK(rtr_changes_between(NULL, 0, NULL, 0, NULL, 0, answer) == RTR_SHORT);
    CHECK(answer->side == 2 && answer->offset == 0 && answer->written == 0);
    CHECK(rtr_changes_between(NULL, 0, data, sizeof end, NULL, 0, answer) == RTR_NO_ROOM);
    CHECK(answer->side == 0 && answer->offset == 0 && answer->written == 0);
    CHECK(rtr_apply(NULL, 0, data, sizeof end, NULL, 0, answer) == RTR_SHORT && answer->side == 1);
    CHECK(rtr_apply(data, sizeof end, NULL, 0, NULL, 0, answer) == RTR_SHORT && answer->side == 2);
    CHECK(rtr_order(NULL, 0, NULL, 0, NULL, 0, answer) == RTR_SHORT && answer->side == 1);
    CHECK(rtr_apply_in_order(NULL, 0, data, sizeof end, NULL, 0, NULL, 0, answer) == RTR_SHORT
          && answer->side == 1);
    CHECK(rtr_apply_in_order(data, sizeof end, NULL, 0, NULL, 0, NULL, 0, answer) == RTR_SHORT
          && answer->side == 2);
    uint8_t *output = lie(arena, arena->output, sizeof end);
    CHECK(rtr_order(data, sizeof end, NULL, 0, output, sizeof end, answer) == RTR_OK);
    CHECK(answer->written == sizeof end && memcmp(output, end, sizeof end) == 0);
    output = lie(arena, arena->output, sizeof end);
    CHECK(rtr_apply_in_order(data, sizeof end, data, sizeof end, NULL, 0, output, sizeof end,
                             answer) == RTR_OK);
    CHECK(answer->written == sizeof end && memcmp(output, end, sizeof end) == 0);
}

/* An end of data has 12 bytes in version 0, and 24 in later ones (RFC 6810 and RFC 8210, section
 * 5.8); the prefix before it has 20. */
static void check_end_offset(const struct arena *arena)
{
    static const uint8_t prefix[] = {0, RTR_IPV4_PREFIX, 0, 0, 0, 0, 0, 20, 1, 24,
                                     24, 0, 192, 0, 2, 0, 0, 0, 251, 240};
    static const uint8_t end[24] = {0, RTR_END_OF_DATA, 0, 1, 0, 0, 0, 24, 0, 0, 0, 7};
    for (uint8_t version = 0; version <= RTR_HIGHEST_VERSION; version++) {
        uint8_t data[sizeof prefix + sizeof end], size = version ? 24 : 12;
        memcpy(data, prefix, sizeof prefix);
        memcpy(data + sizeof prefix, end, size);
        data[0] = data[sizeof prefix] = version;
        data[sizeof prefix + 7] = size;
        const uint8_t *some = copied(arena, arena->input, data, sizeof prefix + size);
        CHECK(rtr_end_offset(some, sizeof prefix + size) == sizeof prefix);
        const uint8_t *none = copied(arena, arena->input, data + sizeof prefix, size);
        CHECK(rtr_end_offset(none, size) == 0);
        CHECK(rtr_end_offset(none, size - 1u) == 0);
    }
    CHECK(rtr_end_offset(NULL, 0) == 0);
}

int main(int count, char **words)
{
    CHECK(count == 2);
    struct cases cases = read_file(words[1]);
    struct arena arena = new_arena();
    for (int side = 0; side < 2; side++) {
        arena.at_end = side;
        check_null(&arena);
        check_end_offset(&arena);
        for (const uint8_t *at = cases.bytes; at < cases.bytes + cases.length;) {
            struct data_case test = next_case(&at);
            check_case(&arena, &test);
        }
    }
    free((void *)cases.bytes);
    return 0;
}
