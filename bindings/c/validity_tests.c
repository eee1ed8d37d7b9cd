/* Looks up the routes of the tables in a file that `tests/libraries/validity.py` wrote; data lie
 * between guard pages (testing.h).
 *
 * usage: validity_tests TABLES */
#include "testing.h"

static const struct rtr_route anywhere = {1, 4, 0, {0}};

/* The routes of a table at most, each with its validity; those of one table. */
#define MOST_ROUTES 1000
static struct asked {
    struct rtr_route route;
    uint8_t validity;
} table[2 * MOST_ROUTES];

/* Reads the next number, of four bytes, little-endian. */
static uint32_t number32(const uint8_t **at)
{
    uint32_t value = 0;
    for (int i = 3; i >= 0; i--)
        value = value << 8 | (*at)[i];
    *at += 4;
    return value;
}

/* No VRP is found, for this reason. */
static void check_nothing(const struct arena *arena, const struct rtr_data *data,
                          const struct rtr_route *route, size_t from, uint8_t why)
{
    struct rtr_covering *vrp = FILLED(arena->answer, struct rtr_covering);
    CHECK(rtr_covering(data, route, from, vrp) == why);
    CHECK(vrp->place == 0 && vrp->asn == 0 && vrp->prefix_length == 0);
    CHECK(vrp->max_length == 0 && vrp->mismatch == RTR_MATCHES);
}

/* These VRPs cover the route, in this order; if a row isn't full, there are no more. */
static void check_covering(const struct arena *arena, const struct rtr_data *data,
                           const struct rtr_route *route, uint8_t count, const uint8_t **at)
{
    struct rtr_covering *vrp = FILLED(arena->answer, struct rtr_covering);
    size_t from = 0;
    for (uint8_t i = 0; i < count; i++) {
        CHECK(rtr_covering(data, route, from, vrp) == RTR_COVERS_ONE);
        CHECK(vrp->place == number32(at) && vrp->asn == number32(at));
        CHECK(vrp->prefix_length == (*at)[0] && vrp->max_length == (*at)[1]);
        CHECK(vrp->mismatch == (*at)[2]);
        *at += 4;
        from = vrp->place + 1;
    }
    if (count == UINT8_MAX)
        return;
    check_nothing(arena, data, route, from, RTR_COVERS_NONE);
}

/* rtr_validate_many returns the validities of the first routes of the table. */
static void check_many(const struct arena *arena, const struct rtr_data *data, size_t count)
{
    struct rtr_route *routes = lie(arena, arena->index, count * sizeof *routes);
    uint8_t *validities = memset(lie(arena, arena->output, count), 0xa5, count);
    for (size_t i = 0; i < count; i++)
        routes[i] = table[i].route;
    CHECK(rtr_validate_many(data, routes, count, validities) == count);
    for (size_t i = 0; i < count; i++)
        CHECK(validities[i] == table[i].validity);
}

static int by_address(const void *left, const void *right)
{
    const struct rtr_route *one = &((const struct asked *)left)->route,
                           *other = &((const struct asked *)right)->route;
    int order = one->family - other->family;
    return order ? order : memcmp(one->address, other->address, sizeof one->address);
}

static int from_the_last(const void *left, const void *right)
{
    return by_address(right, left);
}

/* The same in other orders: by address, each route twice; from the last address to the first; and
 * from there on twice. */
static void check_orders(const struct arena *arena, const struct rtr_data *data, size_t count)
{
    check_many(arena, data, count);
    memcpy(table + count, table, count * sizeof *table);
    qsort(table, 2 * count, sizeof *table, by_address);
    check_many(arena, data, 2 * count);
    qsort(table, 2 * count, sizeof *table, from_the_last);
    check_many(arena, data, 2 * count);
    qsort(table, count, sizeof *table, by_address);
    qsort(table + count, count, sizeof *table, by_address);
    check_many(arena, data, 2 * count);
}

/* Each route is answered by this: no route, or no data. */
static void check_each(const struct arena *arena, const struct rtr_data *data,
                       const struct rtr_route *routes, size_t count, uint8_t why)
{
    uint8_t *validities = memset(lie(arena, arena->output, count), 0xa5, count);
    CHECK(rtr_validate_many(data, routes, count, validities) == count);
    for (size_t i = 0; i < count; i++)
        CHECK(validities[i] == why);
    CHECK(rtr_validate_many(data, NULL, 0, NULL) == 0);
}

/* Returns the checked data, which have to be valid. */
static struct rtr_data *checked(const struct arena *arena, const uint8_t *bytes, size_t length)
{
    struct rtr_data *data = FILLED(arena->other, struct rtr_data);
    struct rtr_data_answer *answer = FILLED(arena->answer, struct rtr_data_answer);
    CHECK(rtr_check_data(bytes, length, data, answer) == RTR_OK);
    CHECK(answer->status == RTR_OK && answer->written == 0 && answer->offset == 0);
    CHECK(answer->side == 0 && answer->detail == 0);
    return data;
}

/* A table: its data, and each of its routes. */
static void check_table(const struct arena *arena, const uint8_t **at, size_t *seen)
{
    size_t length = number32(at);
    uint32_t routes = number32(at);
    const struct rtr_data *data = checked(arena, copied(arena, arena->input, *at, length), length);
    *at += length;
    CHECK(routes <= MOST_ROUTES);
    for (uint32_t i = 0; i < routes; i++) {
        struct rtr_route *route = FILLED(arena->unit, struct rtr_route);
        uint8_t validity = (*at)[2], count = (*at)[3];
        route->family = (*at)[0];
        route->prefix_length = (*at)[1];
        *at += 4;
        route->asn = number32(at);
        memcpy(route->address, *at, sizeof route->address);
        *at += sizeof route->address;
        CHECK(rtr_validate(data, route) == validity);
        table[i] = (struct asked){*route, validity};
        seen[validity]++;
        check_covering(arena, data, route, count, at);
    }
    check_orders(arena, data, routes);
}

/* Invalid routes, over data without payloads. */
static void check_none(const struct arena *arena)
{
    static const uint8_t end[] = {0, RTR_END_OF_DATA, 0, 1, 0, 0, 0, 12, 0, 0, 0, 7};
    static const struct rtr_route none[] = {
        {1, 0, 0, {0}}, {1, 5, 0, {0}}, {1, 4, 33, {0}}, {1, 6, 129, {0}},
    };
    const struct rtr_data *data = checked(arena, copied(arena, arena->input, end, sizeof end),
                                          sizeof end);
    for (size_t i = 0; i < sizeof none / sizeof none[0]; i++) {
        CHECK(rtr_validate(data, none + i) == RTR_NO_ROUTE);
        check_nothing(arena, data, none + i, 0, RTR_COVERS_NO_ROUTE);
    }
    check_each(arena, data, none, sizeof none / sizeof none[0], RTR_NO_ROUTE);
    CHECK(rtr_validate(data, &anywhere) == RTR_NOT_FOUND);
    check_each(arena, data, &anywhere, 1, RTR_NOT_FOUND);
    check_nothing(arena, data, &anywhere, 0, RTR_COVERS_NONE);
}

/* Data that are refused, with offset and status. */
struct refused {
    const char *what;
    uint8_t bytes[64];
    size_t length, offset;
    uint8_t status, detail;
};

#define V4(action, last) 1, RTR_IPV4_PREFIX, 0, 0, 0, 0, 0, 20, action, 24, 24, 0, 10, 0, last, 0, \
    0, 0, 0, 7
#define END 1, RTR_END_OF_DATA, 0, 9, 0, 0, 0, 24, 0, 0, 0, 3, 0, 0, 14, 16, 0, 0, 2, 88, 0, 0, \
    28, 32

static const struct refused refusals[] = {
    {"no bytes", {0}, 0, 0, RTR_SHORT, 0},
    {"no end of data", {V4(1, 1)}, 20, 20, RTR_SHORT, 0},
    {"cut off", {V4(1, 1), END}, 43, 20, RTR_SHORT, 0},
    {"a cache response in front",
     {1, RTR_CACHE_RESPONSE, 0, 9, 0, 0, 0, 8, V4(1, 1), END},
     52, 0, RTR_UNIT_TYPE, RTR_CACHE_RESPONSE},
    {"out of order", {V4(1, 2), V4(1, 1), END}, 64, 20, RTR_NOT_CANONICAL, 0},
    {"twice", {V4(1, 2), V4(1, 2), END}, 64, 20, RTR_NOT_CANONICAL, 0},
    {"a withdrawal", {V4(0, 1), END}, 44, 0, RTR_NOT_CANONICAL, 0},
    {"another version", {V4(1, 1), 2, RTR_END_OF_DATA, 0, 9, 0, 0, 0, 24, 0, 0, 0, 3, 0, 0, 14, 16,
     0, 0, 2, 88, 0, 0, 28, 32}, 44, 20, RTR_NOT_CANONICAL, 0},
};

/* Lookups over invalid data are refused, and so are those over a struct that rtr_check_data didn't
 * fill. */
static void check_refused(const struct arena *arena)
{
    for (const struct refused *row = refusals; row < refusals + sizeof refusals / sizeof *refusals;
         row++) {
        struct rtr_data *data = FILLED(arena->other, struct rtr_data);
        struct rtr_data_answer *answer = FILLED(arena->answer, struct rtr_data_answer);
        const uint8_t *bytes = copied(arena, arena->input, row->bytes, row->length);
        uint8_t status = rtr_check_data(row->length ? bytes : NULL, row->length, data, answer);
        check(status == row->status && answer->status == status, row->what, __FILE__, __LINE__);
        check(answer->offset == row->offset, row->what, __FILE__, __LINE__);
        CHECK(answer->detail == row->detail && answer->side == 1 && answer->written == 0);
        CHECK(rtr_validate(data, &anywhere) == RTR_UNCHECKED);
        check_each(arena, data, &anywhere, 1, RTR_UNCHECKED);
        check_nothing(arena, data, &anywhere, 0, RTR_COVERS_UNCHECKED);
    }
    static const struct rtr_data zeros;
    CHECK(rtr_validate(&zeros, &anywhere) == RTR_UNCHECKED);
    check_each(arena, &zeros, &anywhere, 1, RTR_UNCHECKED);
    check_nothing(arena, &zeros, &anywhere, 0, RTR_COVERS_UNCHECKED);
    const struct rtr_data *filled = FILLED(arena->other, struct rtr_data);
    CHECK(rtr_validate(filled, &anywhere) == RTR_UNCHECKED);
    check_each(arena, filled, &anywhere, 1, RTR_UNCHECKED);
    check_nothing(arena, filled, &anywhere, 0, RTR_COVERS_UNCHECKED);
}

/* The archive's calls refuse a lookup in bytes of another length. */
static void check_foreign(const struct arena *arena)
{
    static const uint8_t bytes[] = {V4(1, 1), END, 0};
    const struct rtr_data *data = checked(arena, copied(arena, arena->input, bytes, sizeof bytes),
                                          sizeof bytes);
    const struct rtr_lookup *lookup = &data->lookup;
    struct rtr_covering *vrp = FILLED(arena->answer, struct rtr_covering);
    for (size_t length = 0; length <= sizeof bytes; length++) {
        bool same = length == sizeof bytes;
        CHECK(rtr_validate_nonnull(data->bytes, length, lookup, &anywhere) ==
              (same ? RTR_NOT_FOUND : RTR_UNCHECKED));
        CHECK(rtr_covering_nonnull(data->bytes, length, lookup, &anywhere, 0, vrp) ==
              (same ? RTR_COVERS_NONE : RTR_COVERS_UNCHECKED));
    }
}

/* The archive's call validates as many routes as there are places, or all, and writes only to the
 * places of these. */
static void check_places(const struct arena *arena)
{
    static const uint8_t bytes[] = {V4(1, 1), END};
    static const struct rtr_route routes[] = {
        {7, 4, 24, {10, 0, 1}}, {8, 4, 24, {10, 0, 1}}, {7, 4, 33, {0}},
    };
    static const uint8_t wanted[] = {RTR_VALID, RTR_INVALID, RTR_NO_ROUTE, 0xa5};
    const struct rtr_data *data = checked(arena, copied(arena, arena->input, bytes, sizeof bytes),
                                          sizeof bytes);
    for (size_t count = 0; count <= 3; count++) {
        for (size_t places = 0; places <= 4; places++) {
            uint8_t *validities = memset(lie(arena, arena->output, places), 0xa5, places);
            size_t done = count < places ? count : places;
            CHECK(rtr_validate_many_nonnull(data->bytes, sizeof bytes, &data->lookup, routes, count,
                                            validities, places) == done);
            CHECK(memcmp(validities, wanted, done) == 0);
            for (size_t i = done; i < places; i++)
                CHECK(validities[i] == wanted[3]);
        }
    }
}

int main(int count, char **words)
{
    CHECK(count == 2);
    struct cases cases = read_file(words[1]);
    struct arena arena = new_arena();
    size_t seen[RTR_NO_ROUTE + 1] = {0};
    for (int side = 0; side < 2; side++) {
        arena.at_end = side;
        check_none(&arena);
        check_refused(&arena);
        check_foreign(&arena);
        check_places(&arena);
        for (const uint8_t *at = cases.bytes; at < cases.bytes + cases.length;)
            check_table(&arena, &at, seen);
    }
    CHECK(seen[RTR_VALID] > 100 && seen[RTR_INVALID] > 100 && seen[RTR_NOT_FOUND] > 100);
    free((void *)cases.bytes);
    return 0;
}
