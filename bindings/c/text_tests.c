/* Tests texts of statuses, and names, with the file tests/texts, at every output size and between
 * guard pages (testing.h); and lines, JSON, forms and refusals of the sample units in the file
 * tests/samples.
 *
 * usage: text_tests TEXTS SAMPLES */
#include "testing.h"

/* The first words of the rows of names, by rtr_named. */
static const char *const words[] = {"status", "kind", "cause", "reason", "code", "time_rule"};

/* The functions of rtr.h that return these names without a buffer. */
static const char *(*const plain[])(uint8_t) = {
    rtr_status_text, rtr_kind_text, rtr_cause_text, rtr_reason_text, NULL, rtr_time_rule_text,
};

/* The calls that write texts. */
enum text_call { TEXT, TEXT_AT, REPORT, NAME };

/* How long a text of each may be, with a 0 behind it. */
static const size_t rooms[] = {RTR_TEXT_ROOM, RTR_TEXT_AT_ROOM, RTR_REPORT_TEXT_ROOM,
                               RTR_TEXT_ROOM};

/* The arguments of a call; fields that it doesn't take are 0. */
struct asked {
    enum text_call call;
    uint8_t named, detail;
    uint16_t number;
    uint64_t offset;
    const uint8_t *reported;
    size_t reported_length;
};

static uint8_t write_text(const struct asked *a, uint8_t *output, size_t capacity, size_t *length)
{
    switch (a->call) {
    case TEXT:
        return rtr_text((uint8_t)a->number, a->detail, output, capacity, length);
    case TEXT_AT:
        return rtr_text_at((uint8_t)a->number, a->detail, a->offset, output, capacity, length);
    case REPORT:
        return rtr_report_text(a->number, a->reported, a->reported_length, output, capacity,
                               length);
    default:
        return rtr_name(a->named, a->number, output, capacity, length);
    }
}

/* Makes a call with each output size: the text is written if it fits, else its start. */
static void check_text(const struct arena *arena, const struct asked *asked, const char *text)
{
    size_t length = strlen(text);
    CHECK(length < rooms[asked->call]);
    for (size_t capacity = 0; capacity <= length + 1; capacity++) {
        uint8_t *output = lie(arena, arena->output, capacity);
        size_t *length_written = FILLED(arena->answer, size_t);
        memset(output, 0xa5, capacity);
        uint8_t status = write_text(asked, output, capacity, length_written);
        CHECK(status == (capacity < length ? RTR_NO_ROOM : RTR_OK) && *length_written == length);
        CHECK(memcmp(output, text, capacity < length ? capacity : length) == 0);
        CHECK(capacity <= length || output[length] == 0xa5);
    }
}

/* The function of rtr.h returns the same text, if it knows this name. */
static void check_plain(uint8_t named, unsigned long number, const char *text)
{
    if (!plain[named] || number > 255)
        return;
    const char *plain_text = plain[named]((uint8_t)number);
    if (strncmp(plain_text, "unknown ", 8) == 0)
        CHECK(strncmp(plain_text + 8, words[named], strlen(words[named])) == 0
              || strncmp(plain_text, text, strlen(plain_text)) == 0);
    else
        CHECK(strcmp(plain_text, text) == 0);
}

/* Decodes hex digits, and returns the number of bytes. */
static size_t bytes_of(const char *row, uint8_t *bytes)
{
    size_t count = 0;
    unsigned byte;
    for (int length; sscanf(row, " %2x%n", &byte, &length) == 1; row += length)
        bytes[count++] = (uint8_t)byte;
    return count;
}

/* A report's text, and that of rtr_reported_text, which has it. */
static void check_report(const struct arena *arena, uint16_t code, const char *digits,
                         const char *text)
{
    uint8_t bytes[128];
    char written[200], whole[200];
    size_t size = bytes_of(digits, bytes);
    const uint8_t *input = copied(arena, arena->input, bytes, size);
    struct asked asked = {.call = REPORT, .number = code, .reported = input,
                          .reported_length = size};
    struct rtr_unit unit = {.code = code, .text_length = size};
    check_text(arena, &asked, text);
    snprintf(whole, sizeof whole, "it says: %s", text);
    for (size_t capacity = 1; capacity <= sizeof written; capacity++) {
        memset(written, 'x', sizeof written);
        rtr_reported_text("it says", &unit, input, written, capacity);
        CHECK(strlen(written) == (strlen(whole) < capacity ? strlen(whole) : capacity - 1));
        CHECK(memcmp(written, whole, strlen(written)) == 0);
    }
}

/* A row of the file. */
static void check_row(const struct arena *arena, const char *row)
{
    char word[16], digits[256];
    int front = 0;
    unsigned long number, detail;
    unsigned long long offset;
    if (sscanf(row, "text %lu %lu %n", &number, &detail, &front) == 2 && front) {
        struct asked asked = {.call = TEXT, .number = (uint16_t)number, .detail = (uint8_t)detail};
        check_text(arena, &asked, row + front);
    } else if (sscanf(row, "at %lu %lu %llu %n", &number, &detail, &offset, &front) == 3) {
        struct asked asked = {.call = TEXT_AT, .number = (uint16_t)number,
                              .detail = (uint8_t)detail, .offset = offset};
        check_text(arena, &asked, row + front);
    } else if (sscanf(row, "report %lu %255s %n", &number, digits, &front) == 2) {
        check_report(arena, (uint16_t)number, digits, row + front);
    } else {
        CHECK(sscanf(row, "%15s %lu %n", word, &number, &front) == 2);
        uint8_t named = 0;
        while (named < sizeof words / sizeof *words && strcmp(word, words[named]) != 0)
            named++;
        CHECK(named < sizeof words / sizeof *words);
        struct asked asked = {.call = NAME, .named = named, .number = (uint16_t)number};
        check_text(arena, &asked, row + front);
        check_plain(named, number, row + front);
    }
}

/* The functions of rtr.h know the same names as the archive, and no others. */
static void check_all(void)
{
    for (uint8_t named = 0; named < 6; named++)
        for (int number = 0; number < 256; number++) {
            uint8_t text[RTR_TEXT_ROOM] = {0};
            size_t length;
            CHECK(rtr_name(named, (uint16_t)number, text, sizeof text, &length) == RTR_OK);
            if (!plain[named])
                continue;
            const char *plain_text = plain[named]((uint8_t)number);
            bool is_named = strncmp(plain_text, "unknown ", 8) != 0;
            CHECK(length < sizeof text && (strcmp(plain_text, (char *)text) == 0) == is_named);
        }
    for (int named = 6; named < 256; named++) {
        size_t length = 1;
        CHECK(rtr_name((uint8_t)named, 1, NULL, 0, &length) == RTR_OK && length == 0);
    }
    for (int status = 0; status < 256; status++)
        for (int detail = 0; detail < 256; detail++) {
            size_t length;
            CHECK(rtr_text((uint8_t)status, (uint8_t)detail, NULL, 0, &length) == RTR_NO_ROOM);
            CHECK(0 < length && length < RTR_TEXT_ROOM);
            rtr_text_at((uint8_t)status, (uint8_t)detail, UINT64_MAX, NULL, 0, &length);
            CHECK(length < RTR_TEXT_AT_ROOM);
        }
}

/* The rows that a sample may have, by their first words; a missing row is empty. */
enum { UNIT, BYTES, FORM, REFUSED, LINE, OBJECT_LISTED, CHANGE, OBJECT, WORDS };
static const char *const sample_words[WORDS] = {
    "unit", "bytes", "form", "refused", "line", "json", "change", "object",
};

struct sample {
    char rows[WORDS][400];
};

typedef uint8_t line_call(const uint8_t *, size_t, uint8_t *, size_t, struct rtr_line *);

static uint8_t unit_line(const uint8_t *input, size_t length, uint8_t *output, size_t capacity,
                         struct rtr_line *answer)
{
    return rtr_line(input, length, 24, output, capacity, answer);
}

static uint8_t unit_json(const uint8_t *input, size_t length, uint8_t *output, size_t capacity,
                         struct rtr_line *answer)
{
    return rtr_json(input, length, 24, output, capacity, answer);
}

static line_call *const line_calls[] = {unit_line, rtr_change_line, rtr_change_json, unit_json};

/* Calls one of these functions with an output of this size. */
static struct rtr_line line_of(const struct arena *arena, size_t call, const uint8_t *input,
                               size_t length, size_t capacity)
{
    uint8_t *output = lie(arena, arena->output, capacity);
    struct rtr_line *answer = FILLED(arena->answer, struct rtr_line);
    memset(output, 0xa5, capacity);
    uint8_t status = line_calls[call](input, length, output, capacity, answer);
    CHECK(status == answer->status);
    return *answer;
}

/* A line is written if it fits, else its start; `length` is that of the whole line. */
static void check_line(const struct arena *arena, size_t call, const uint8_t *input, size_t size,
                       const char *line)
{
    size_t length = strlen(line);
    for (size_t capacity = length ? length - 1 : 0; capacity <= length + 1; capacity++) {
        struct rtr_line answer = line_of(arena, call, input, size, capacity);
        const uint8_t *output = lie(arena, arena->output, capacity);
        CHECK(answer.status == (capacity < length ? RTR_NO_ROOM : RTR_OK));
        CHECK(answer.size == size && answer.length == length);
        CHECK(answer.wanted == 0 && answer.detail == 0);
        CHECK(memcmp(output, line, capacity < length ? capacity : length) == 0);
        CHECK(capacity <= length || output[length] == 0xa5);
    }
}

/* The text of a status is this one. */
static void check_refused(uint8_t status, uint8_t detail, const char *expected)
{
    uint8_t text[RTR_TEXT_ROOM];
    size_t length;
    CHECK(rtr_text(status, detail, text, sizeof text, &length) == RTR_OK);
    CHECK(length == strlen(expected) && memcmp(text, expected, length) == 0);
}

/* A unit is read, and written as its form, or refused. */
static void check_unit(const struct arena *arena, const struct sample *s, const uint8_t *input,
                       size_t size)
{
    uint8_t form[64];
    size_t length = bytes_of(s->rows[s->rows[FORM][0] ? FORM : BYTES], form), written;
    struct rtr_unit *unit = FILLED(arena->unit, struct rtr_unit);
    uint8_t status = rtr_next(input, size, unit);
    if (s->rows[REFUSED][0]) {
        check_refused(status, unit->detail, s->rows[REFUSED]);
        return;
    }
    CHECK(status == RTR_OK && unit->size == size);
    uint8_t *output = lie(arena, arena->output, length);
    CHECK(rtr_write_unit(unit, input, size, output, length, &written) == RTR_OK);
    CHECK(written == length && memcmp(output, form, length) == 0);
}

/* Lines are written for a unit, and none for a truncated one. */
static void check_lines(const struct arena *arena, const struct sample *s, const uint8_t *bytes,
                        size_t size)
{
    char line[400], object[400];
    snprintf(line, sizeof line, "24%s", s->rows[LINE] + 1); /* its offset is 24 */
    snprintf(object, sizeof object, "{\"offset\":24%s",
             s->rows[OBJECT_LISTED] + strlen("{\"offset\":0"));
    const uint8_t *input = copied(arena, arena->input, bytes, size);
    check_line(arena, 0, input, size, line);
    check_line(arena, 1, input, size, s->rows[CHANGE]);
    check_line(arena, 2, input, size, s->rows[OBJECT]);
    check_line(arena, 3, input, size, object);
    for (size_t there = 0; there < size; there++) {
        input = copied(arena, arena->input, bytes, there);
        struct rtr_line answer = line_of(arena, there % 4, input, there, 9);
        CHECK(answer.status == RTR_SHORT && answer.wanted == (there < 8 ? 8 : size));
        CHECK(answer.size == 0 && answer.length == 0 && answer.detail == 0);
    }
}

static void check_sample(const struct arena *arena, const struct sample *s)
{
    uint8_t bytes[64];
    size_t size = bytes_of(s->rows[BYTES], bytes);
    CHECK(size > 0);
    check_unit(arena, s, copied(arena, arena->input, bytes, size), size);
    if (s->rows[LINE][0]) {
        check_lines(arena, s, bytes, size);
        return;
    }
    for (size_t call = 0; call < 4; call++) {
        const uint8_t *input = copied(arena, arena->input, bytes, size);
        struct rtr_line answer = line_of(arena, call, input, size, 9);
        check_refused(answer.status, answer.detail, s->rows[REFUSED]);
        CHECK(answer.size == 0 && answer.length == 0);
        CHECK(*(uint8_t *)lie(arena, arena->output, 9) == 0xa5);
    }
}

/* The sample being checked. */
static struct sample sample;

/* The row being read, or null; a failed check prints it. */
static const char *row_read;

static void print_row(void)
{
    if (sample.rows[UNIT][0])
        fprintf(stderr, "in the sample: %s\n", sample.rows[UNIT]);
    else if (row_read)
        fprintf(stderr, "in the row: %s\n", row_read);
}

/* Checks the sample whose rows were read, if there is one, and begins another. */
static void end_sample(struct arena *arena)
{
    for (int side = 0; side < 2 && sample.rows[UNIT][0]; side++) {
        arena->at_end = side;
        check_sample(arena, &sample);
    }
    memset(&sample, 0, sizeof sample);
}

/* Reads a row of the file of samples. */
static void take_row(struct arena *arena, const char *row)
{
    size_t length = strcspn(row, " ");
    if (strncmp(row, "unit ", 5) == 0)
        end_sample(arena);
    for (int word = 0; word < WORDS; word++)
        if (strlen(sample_words[word]) == length && memcmp(row, sample_words[word], length) == 0) {
            CHECK(strlen(row + length + 1) < sizeof sample.rows[word]);
            strcpy(sample.rows[word], row + length + 1);
            return;
        }
    CHECK(!"a row of no such word");
}

static void take_text(struct arena *arena, const char *row)
{
    for (int side = 0; side < 2; side++) {
        arena->at_end = side;
        check_row(arena, row);
    }
}

/* Calls a function with each row of a file, without its newline, and returns the number of rows. */
static int each_row(const char *path, struct arena *arena,
                    void (*take)(struct arena *arena, const char *row))
{
    FILE *file = fopen(path, "r");
    CHECK(file != NULL);
    char row[512];
    int rows = 0;
    while (fgets(row, sizeof row, file)) {
        row[strcspn(row, "\n")] = '\0';
        if (row[0] == '\0' || row[0] == '#')
            continue;
        row_read = row;
        take(arena, row);
        rows++;
    }
    row_read = NULL;
    fclose(file);
    return rows;
}

int main(int count, char **arguments)
{
    CHECK(count == 3);
    struct arena arena = new_arena();
    atexit(print_row);
    CHECK(each_row(arguments[1], &arena, take_text) > 80);
    check_all();
    CHECK(each_row(arguments[2], &arena, take_row) > 200);
    end_sample(&arena);
    return 0;
}
