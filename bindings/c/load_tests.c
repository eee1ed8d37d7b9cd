/* Loads the recordings and lists of the file tests/loads, or of tests/libraries/loads.py, between
 * inaccessible pages (testing.h): whole, cut off after each byte, and with buffers and an index
 * that are too short.
 *
 * usage: load_tests LOADS */
#include "testing.h"
#include <ctype.h>

enum { MOST_UNITS = 16, ROOM = 1024 };

/* A recording of the file, and the data or the refusal that it results in. */
struct row {
    char name[128];
    uint8_t input[ROOM], data[ROOM];
    size_t length, data_length, count, offsets[MOST_UNITS]; /* of units */
    size_t refused;                                         /* where, if `text` says why */
    char text[RTR_TEXT_ROOM];
    bool has_cut;
};

/* The sizes of the buffers that the call gets. */
struct capacity {
    size_t index, work, output;
};

/* ---- the file */

static size_t add_hex(uint8_t *bytes, const char *text)
{
    size_t length = 0;
    for (const char *at = text; *at;) {
        char pair[3] = {at[0], at[1], 0}, *end;
        if (isspace((unsigned char)*at)) {
            at += 1;
            continue;
        }
        bytes[length++] = (uint8_t)strtoul(pair, &end, 16);
        CHECK(end == pair + 2);
        at += 2;
    }
    return length;
}

/* Takes a line of a recording. */
static void take_line(struct row *row, const char *word, const char *rest)
{
    int at = 0;
    if (!strcmp(word, "unit")) {
        CHECK(row->count < MOST_UNITS);
        row->offsets[row->count++] = row->length;
        row->length += add_hex(row->input + row->length, rest);
    } else if (!strcmp(word, "data")) {
        row->data_length += add_hex(row->data + row->data_length, rest);
    } else if (!strcmp(word, "refused")) {
        CHECK(sscanf(rest, "%zu %n", &row->refused, &at) == 1 && at);
        snprintf(row->text, sizeof row->text, "%s", rest + at);
    } else {
        CHECK(!strcmp(word, "cut"));
        row->has_cut = true;
    }
    CHECK(row->length <= ROOM && row->data_length <= ROOM);
}

/* ---- calls */

static struct rtr_loaded *loaded_in(const struct arena *arena, const struct row *row, size_t length,
                                    struct capacity capacity)
{
    const uint8_t *input = copied(arena, arena->input, row->input, length);
    size_t *index = lie(arena, arena->index, capacity.index * sizeof *index);
    uint8_t *work = lie(arena, arena->other, capacity.work);
    uint8_t *output = memset(lie(arena, arena->output, capacity.output), 0xa5, capacity.output);
    struct rtr_loaded *loaded = FILLED(arena->answer, struct rtr_loaded);
    uint8_t status = rtr_load(input, length, index, capacity.index, work, capacity.work, output,
                              capacity.output, loaded);
    CHECK(status == loaded->status);
    CHECK(memcmp(input, row->input, length) == 0);
    return loaded;
}

/* Fields that describe data are 0. */
static void check_no_data(const struct rtr_loaded *loaded)
{
    CHECK(!loaded->length && !loaded->serial && !loaded->refresh && !loaded->retry);
    CHECK(!loaded->expire && !loaded->session && !loaded->version && !loaded->has_cut);
}

/* The data of the row were loaded. */
static void check_data(const struct arena *arena, const struct row *row, struct capacity capacity,
                       const struct rtr_loaded *loaded)
{
    struct rtr_unit end;
    const uint8_t *output = lie(arena, arena->output, capacity.output);
    size_t before = row->data_length - (row->data[0] ? RTR_LONGEST_END : RTR_SHORTEST_END);
    CHECK(loaded->status == RTR_OK && loaded->length == row->data_length);
    CHECK(!memcmp(output, row->data, row->data_length));
    CHECK(rtr_next(row->data + before, row->data_length - before, &end) == RTR_OK);
    CHECK(loaded->version == end.version && loaded->session == end.session);
    CHECK(loaded->serial == end.serial && loaded->refresh == end.refresh);
    CHECK(loaded->retry == end.retry && loaded->expire == end.expire);
    CHECK(loaded->has_cut == row->has_cut);
    CHECK(!loaded->offset && !loaded->wanted && !loaded->detail);
}

/* The unit at this offset is refused, for a reason with this text. */
static void check_refused(const struct row *row, size_t length, const struct rtr_loaded *loaded,
                          size_t offset, const char *reason)
{
    struct rtr_unit unit;
    char text[RTR_TEXT_ROOM];
    size_t size;
    CHECK(rtr_text(loaded->status, loaded->detail, (uint8_t *)text, sizeof text - 1, &size)
          == RTR_OK);
    text[size] = 0;
    CHECK(loaded->offset == offset && !strcmp(text, reason));
    CHECK(rtr_next(row->input + offset, length - offset, &unit) == loaded->status
          || loaded->status > RTR_PREFIX);
    CHECK(loaded->wanted == (loaded->status == RTR_SHORT ? unit.wanted : 0));
    check_no_data(loaded);
}

static void check_row(const struct arena *arena, const struct row *row, struct capacity capacity)
{
    const struct rtr_loaded *loaded = loaded_in(arena, row, row->length, capacity);
    if (row->text[0])
        check_refused(row, row->length, loaded, row->refused, row->text);
    else
        check_data(arena, row, capacity, loaded);
}

/* ---- buffers that are too short */

/* No unit is at fault. */
static void check_lack(const struct rtr_loaded *loaded, uint8_t status)
{
    CHECK(loaded->status == status && !loaded->offset && !loaded->detail);
    CHECK(status == RTR_NO_INDEX || !loaded->wanted);
    check_no_data(loaded);
}

/* Grows an index from 0 to the lengths that the call asks for, until it succeeds as before. */
static void check_index(const struct arena *arena, const struct row *row, struct capacity capacity)
{
    for (capacity.index = 0;;) {
        const struct rtr_loaded *loaded = loaded_in(arena, row, row->length, capacity);
        if (loaded->status != RTR_NO_INDEX)
            break;
        check_lack(loaded, RTR_NO_INDEX);
        CHECK(loaded->wanted > capacity.index && loaded->wanted <= row->count);
        capacity.index = loaded->wanted;
    }
    check_row(arena, row, capacity);
}

/* Grows a buffer from 0 until the status isn't RTR_NO_ROOM: then the result is as before. */
static void check_buffer(const struct arena *arena, const struct row *row,
                         struct capacity *capacity,
                         size_t *buffer)
{
    size_t enough = *buffer;
    bool lacks = true;
    for (*buffer = 0; *buffer <= enough; *buffer += 1) {
        const struct rtr_loaded *loaded = loaded_in(arena, row, row->length, *capacity);
        if (lacks && loaded->status == RTR_NO_ROOM) {
            check_lack(loaded, RTR_NO_ROOM);
            continue;
        }
        lacks = false;
        CHECK(row->text[0] || *buffer >= row->data_length);
        check_row(arena, row, *capacity);
    }
    CHECK(!lacks);
    *buffer = enough;
}

/* ---- truncated recordings */

/* Reports whether the recording results in data and only its last unit is an end of data. */
static bool is_one_answer(const struct row *row)
{
    size_t first = 0;
    while (first < row->count && row->input[row->offsets[first] + 1] != RTR_END_OF_DATA)
        first += 1;
    return !row->text[0] && first + 1 == row->count;
}

/* Truncated after any byte, it is refused at the first unit that isn't complete. */
static void check_cut(const struct arena *arena, const struct row *row, struct capacity capacity)
{
    size_t missing = 0;
    for (size_t length = 0; length < row->length; length++) {
        while (missing + 1 < row->count && row->offsets[missing + 1] <= length)
            missing += 1;
        check_refused(row, length, loaded_in(arena, row, length, capacity), row->offsets[missing],
                      "unexpected end of input");
    }
}

/* The recording being checked, which a failed check names. */
static const char *checked;

static void name_checked(void)
{
    if (checked)
        fprintf(stderr, "load_tests: %s\n", checked);
}

static void check_all(const struct row *row)
{
    checked = row->name;
    static struct arena arena;
    if (!arena.input.front)
        arena = new_arena();
    struct capacity capacity = {row->length / RTR_SHORTEST_PAYLOAD, row->length, row->length};
    for (int side = 0; side < 2; side++) {
        arena.at_end = side;
        check_row(&arena, row, capacity);
        check_index(&arena, row, capacity);
        check_buffer(&arena, row, &capacity, &capacity.work);
        check_buffer(&arena, row, &capacity, &capacity.output);
        if (is_one_answer(row))
            check_cut(&arena, row, capacity);
    }
    checked = NULL;
}

/* A null pointer is a slice without bytes. */
static void check_null(void)
{
    static const uint8_t end[] = {0, RTR_END_OF_DATA, 0, 1, 0, 0, 0, 12, 0, 0, 0, 7};
    uint8_t work[sizeof end], output[sizeof end];
    struct rtr_loaded loaded;
    CHECK(rtr_load(NULL, 0, NULL, 0, NULL, 0, NULL, 0, &loaded) == RTR_SHORT && loaded.wanted == 8);
    CHECK(rtr_load(end, sizeof end, NULL, 0, NULL, 0, NULL, 0, &loaded) == RTR_NO_ROOM);
    CHECK(rtr_load(end, sizeof end, NULL, 0, work, sizeof work, output, sizeof output, &loaded)
          == RTR_OK);
    CHECK(loaded.length == sizeof end && !memcmp(output, end, sizeof end));
}

int main(int count, char **words)
{
    static struct row row;
    char line[2 * ROOM + 64], word[16];
    size_t rows = 0;
    CHECK(count == 2);
    atexit(name_checked);
    FILE *file = fopen(words[1], "r");
    CHECK(file != NULL);
    while (fgets(line, sizeof line, file)) {
        int at = 0;
        line[strcspn(line, "\n")] = 0;
        if (line[0] == '#' || sscanf(line, "%15s %n", word, &at) != 1)
            continue;
        if (strcmp(word, "load")) {
            take_line(&row, word, line + at);
            continue;
        }
        if (rows++)
            check_all(&row);
        memset(&row, 0, sizeof row);
        snprintf(row.name, sizeof row.name, "%s", line + at);
    }
    check_all(&row);
    CHECK(rows > 40);
    check_null();
    fclose(file);
    return 0;
}
