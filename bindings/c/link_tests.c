/* Tests of the calls for a router's end: sessions with units of RFC 8210 section 5, where each
 * buffer is as short as possible and lies between guard pages; and wrong calls, which are refused
 * and change nothing.
 *
 * usage: link_tests [COUNT]   with this number of random structs (default 100,000) */
#include "testing.h"

/* Units of version 1, in hexadecimal. */
#define RESET_QUERY "0102000000000008"
#define RESPONSE "0103000700000008"
#define CACHE_RESET "0108000000000008"
#define NOTIFY(serial) "010000070000000c0000000" serial
#define QUERY(serial) "010100070000000c0000000" serial
/* Serial number; refresh, retry and expire of 3600, 600 and 7200 seconds. */
#define END(serial) "0107000700000018" "0000000" serial "00000e10" "00000258" "00001c20"
/* 192.0.2.0/24 and 198.51.100.0/24 of AS64496, announced and withdrawn. */
#define PREFIX "0104000000000014" "01181800" "c0000200" "0000fbf0"
#define OTHER "0104000000000014" "01181800" "c6336400" "0000fbf0"
#define WITHDRAWAL "0104000000000014" "00181800" "c0000200" "0000fbf0"
/* No data available (section 12), without a unit and with the text "no". */
#define NO_DATA "010a000200000012" "00000000" "00000002" "6e6f"

/* The most bytes that an output needs behind the unsent ones: the longest unit. */
#define OUTPUT ((size_t)RTR_LONGEST_UNIT)

/* A router's end, and its buffers. */
struct end {
    struct rtr_link link;
    struct rtr_link_buffers buffers;
    struct arena arena;
    struct rtr_todo todo;
    struct rtr_link_state state;
    uint64_t now;
};

static void input_room(struct end *e, size_t size)
{
    e->buffers.input =
        resized(&e->arena, e->arena.input, e->buffers.input, e->buffers.input_length, size);
    e->buffers.input_length = size;
}

static void first_room(struct end *e, size_t size)
{
    e->buffers.first =
        resized(&e->arena, e->arena.other, e->buffers.first, e->buffers.first_length, size);
    e->buffers.first_length = size;
}

static void second_room(struct end *e, size_t size)
{
    e->buffers.second =
        resized(&e->arena, e->arena.answer, e->buffers.second, e->buffers.second_length, size);
    e->buffers.second_length = size;
}

static void index_room(struct end *e, size_t size)
{
    e->buffers.index = lie(&e->arena, e->arena.index, size * sizeof(size_t));
    e->buffers.index_length = size;
}

static void output_room(struct end *e, size_t size)
{
    e->buffers.output =
        resized(&e->arena, e->arena.output, e->buffers.output, e->buffers.output_length, size);
    e->buffers.output_length = size;
}

/* Initializes a router's end of version 1, with buffers of length 0. */
static void begin(struct end *e, bool at_end)
{
    static struct arena arena;
    struct rtr_settings settings;
    if (!arena.input.front) {
        arena = new_arena();
        arena.answer = fence(MOST);
    }
    memset(e, 0xa5, sizeof *e);
    e->arena = arena;
    e->arena.at_end = at_end;
    e->buffers = (struct rtr_link_buffers){NULL, 0, NULL, NULL, 0, 0, NULL, 0, NULL, 0};
    e->now = 0;
    rtr_settings_usual(&settings, 1);
    rtr_link_init(&e->link, &settings);
}

/* Grows the buffer that the link asks for. */
static void grow_buffer(struct end *e)
{
    CHECK(e->todo.wakes == e->link.due || e->link.phase != RTR_PHASE_CONNECTING);
    if (e->todo.kind == RTR_TODO_INPUT_ROOM)
        input_room(e, e->todo.room);
    if (e->todo.kind == RTR_TODO_FIRST_ROOM)
        first_room(e, e->todo.room);
    if (e->todo.kind == RTR_TODO_SECOND_ROOM)
        second_room(e, e->todo.room);
    if (e->todo.kind == RTR_TODO_INDEX_ROOM)
        index_room(e, e->todo.room);
    if (e->todo.kind == RTR_TODO_OUTPUT_ROOM)
        output_room(e, e->todo.room);
}

static void look(struct end *e)
{
    CHECK(rtr_link_state(&e->link, &e->buffers, e->now, &e->state) == RTR_LINK_OK);
}

/* Calls rtr_link_next, and grows buffers, until it returns this kind. */
static void next_is(struct end *e, uint8_t kind)
{
    for (int turns = 0; turns < 1000; turns++) {
        CHECK(rtr_link_next(&e->link, &e->buffers, e->now, &e->todo) == RTR_LINK_OK);
        if (e->todo.kind == kind)
            break;
        CHECK(e->todo.kind == RTR_TODO_GO || e->todo.kind >= RTR_TODO_INPUT_ROOM);
        grow_buffer(e);
    }
    CHECK(e->todo.kind == kind);
    look(e);
    CHECK(e->state.wakes == e->todo.wakes);
}

/* Receives these bytes one by one. */
static void comes(struct end *e, const char *digits)
{
    uint8_t bytes[256];
    size_t length = decoded(digits, bytes), size;
    for (size_t i = 0; i < length; i++) {
        next_is(e, RTR_TODO_WAIT);
        uint8_t *to = rtr_link_room(&e->buffers, &e->state, &size);
        CHECK(size > 0);
        *to = bytes[i];
        CHECK(rtr_link_received(&e->link, &e->buffers, 1) == RTR_LINK_OK);
    }
}

/* Checks that exactly these bytes are unsent, and sends them one by one. */
static void sends(struct end *e, const char *digits)
{
    uint8_t bytes[256];
    size_t length = decoded(digits, bytes), unsent;
    for (size_t i = 0; i < length; i++) {
        look(e);
        const uint8_t *output = rtr_link_output(&e->buffers, &e->state, &unsent);
        CHECK(unsent == length - i && memcmp(output, bytes + i, unsent) == 0);
        CHECK(rtr_link_sent(&e->link, &e->buffers, 1) == RTR_LINK_OK);
    }
    look(e);
    rtr_link_output(&e->buffers, &e->state, &unsent);
    CHECK(unsent == 0);
}

/* Checks that these are the data; null means none. */
static void shows(struct end *e, const char *digits)
{
    uint8_t bytes[256];
    size_t length = digits ? decoded(digits, bytes) : 0, shown;
    look(e);
    const uint8_t *data = rtr_link_data(&e->buffers, &e->state, &shown);
    CHECK((data != NULL) == (digits != NULL) && shown == length && e->state.has_data == !!digits);
    CHECK(length == 0 || memcmp(data, bytes, length) == 0);
}

/* Checks that the unsent report has this code, encloses this unit and has this text (section 5.11),
 * and sends it. */
static void sends_report(struct end *e, uint16_t code, const char *unit, const char *text)
{
    uint8_t bytes[256];
    size_t length = decoded(unit, bytes), text_length = strlen(text), unsent;
    size_t size = 16 + length + text_length;
    const uint8_t head[] = {1, RTR_ERROR_REPORT, 0, (uint8_t)code, 0, 0, 0, (uint8_t)size,
                            0, 0, 0, (uint8_t)length};
    look(e);
    const uint8_t *output = rtr_link_output(&e->buffers, &e->state, &unsent);
    CHECK(unsent == size && memcmp(output, head, sizeof head) == 0);
    CHECK(memcmp(output + 12, bytes, length) == 0 && output[15 + length] == text_length);
    CHECK(memcmp(output + 16 + length, text, text_length) == 0);
    CHECK(rtr_link_sent(&e->link, &e->buffers, size) == RTR_LINK_OK);
}

static void connects(struct end *e)
{
    next_is(e, RTR_TODO_CONNECT);
    CHECK(e->todo.wakes == e->now + 30000);
    CHECK(rtr_link_opened(&e->link) == RTR_LINK_OK);
}

/* Loads the first data by a reset query. */
static void loads(struct end *e)
{
    connects(e);
    next_is(e, RTR_TODO_WAIT);
    sends(e, RESET_QUERY);
    comes(e, RESPONSE PREFIX END("5"));
    next_is(e, RTR_TODO_DATA);
    shows(e, PREFIX END("5"));
}

/* ---- sessions */

/* All data, then changes, then all data again (RFC 8210 sections 8.1 to 8.3). */
static void check_session(struct end *e)
{
    size_t length;
    loads(e);
    CHECK(e->state.second && e->link.known.serial == 5 && e->link.known.session == 7);
    e->now = 9000;
    comes(e, NOTIFY("6"));
    next_is(e, RTR_TODO_WAIT);
    sends(e, QUERY("5"));
    comes(e, RESPONSE WITHDRAWAL OTHER END("6"));
    for (;;) {
        look(e);
        if (e->state.answers)
            break;
        CHECK(rtr_link_next(&e->link, &e->buffers, e->now, &e->todo) == RTR_LINK_OK);
    }
    CHECK(e->state.answer == 40 && e->state.since);
    next_is(e, RTR_TODO_DATA);
    shows(e, OTHER END("6"));
    CHECK(!e->state.second && !e->state.answers && e->link.known.serial == 6);
    e->now = 20000;
    CHECK(rtr_link_ask_now(&e->link, &e->buffers, e->now, &e->todo) == RTR_LINK_OK);
    CHECK(e->todo.kind == RTR_TODO_GO);
    next_is(e, RTR_TODO_WAIT);
    sends(e, QUERY("6"));
    comes(e, CACHE_RESET);
    next_is(e, RTR_TODO_WAIT);
    sends(e, RESET_QUERY);
    comes(e, RESPONSE PREFIX END("7"));
    next_is(e, RTR_TODO_DATA);
    shows(e, PREFIX END("7"));
    next_is(e, RTR_TODO_WAIT);
    CHECK(e->todo.wakes == 20000 + 3600000);
    rtr_link_room(&e->buffers, &e->state, &length);
    CHECK(length > 0);
}

/* The failure of a todo, as of a call of rtr_link_give_up or of another. */
static void fails(const struct end *e, enum rtr_client_failure failure, bool gave_up)
{
    CHECK(rtr_todo_failure(&e->todo, gave_up) == failure);
}

/* A cache without data, whose report is at `todo.offset` of the input. */
static void check_no_data(struct end *e)
{
    struct rtr_unit unit;
    connects(e);
    next_is(e, RTR_TODO_WAIT);
    comes(e, NO_DATA);
    next_is(e, RTR_TODO_NO_DATA);
    CHECK(rtr_next(e->buffers.input + e->todo.offset, 18, &unit) == RTR_OK);
    CHECK(unit.kind == RTR_ERROR_REPORT && unit.code == RTR_CODE_NO_DATA_AVAILABLE);
    CHECK(unit.text_length == 2
          && memcmp(e->buffers.input + e->todo.offset + unit.text_start, "no", 2) == 0);
    CHECK(e->todo.position == 0);
    fails(e, RTR_CLIENT_REPORTED, false);
    shows(e, NULL);
    next_is(e, RTR_TODO_WAIT);
    CHECK(e->todo.wakes == 600000);
}

/* A prefix of 33 bits in an answer: `todo` has its status, and it is reported as corrupt data
 * (section 12). 92 bytes came before it; none before the first unit of the next connection. */
static void check_refused(struct end *e)
{
    loads(e);
    e->now = 5000;
    comes(e, NOTIFY("6"));
    next_is(e, RTR_TODO_WAIT);
    sends(e, QUERY("5"));
    comes(e, RESPONSE OTHER "010400000000001401212100c00002000000fbf0");
    next_is(e, RTR_TODO_CLOSE);
    CHECK(e->todo.cause == RTR_CAUSE_FAULTY && e->todo.status == RTR_PREFIX);
    CHECK(e->todo.detail == RTR_LENGTH_OVER && e->todo.offset == 20 && e->todo.position == 92);
    fails(e, RTR_CLIENT_REFUSED, false);
    CHECK(e->todo.reports && e->todo.code == RTR_CODE_CORRUPT_DATA && !e->todo.drops);
    sends_report(e, RTR_CODE_CORRUPT_DATA, "010400000000001401212100c00002000000fbf0",
                 "prefix length too large");
    shows(e, PREFIX END("5"));
    next_is(e, RTR_TODO_WAIT);
    CHECK(e->link.phase == RTR_PHASE_OFFLINE);
    e->now = e->todo.wakes;
    next_is(e, RTR_TODO_CONNECT);
    CHECK(rtr_link_opened(&e->link) == RTR_LINK_OK);
    next_is(e, RTR_TODO_WAIT);
    sends(e, RESET_QUERY);
    comes(e, "0105000000000008");
    next_is(e, RTR_TODO_CLOSE);
    CHECK(e->todo.status == RTR_UNIT_TYPE && e->todo.detail == 5 && e->todo.position == 0);
}

/* A withdrawal of an unknown record: `todo.offset` is that of the change. */
static void check_unknown(struct end *e)
{
    loads(e);
    e->now = 5000;
    comes(e, NOTIFY("6"));
    next_is(e, RTR_TODO_WAIT);
    sends(e, QUERY("5"));
    comes(e, RESPONSE OTHER WITHDRAWAL WITHDRAWAL END("6"));
    next_is(e, RTR_TODO_CLOSE);
    CHECK(e->todo.cause == RTR_CAUSE_NOT_APPLIED && e->todo.status == RTR_UNKNOWN);
    CHECK(e->todo.detail == 0 && e->todo.offset == 40 && e->todo.position == 40);
    fails(e, RTR_CLIENT_REFUSED, false);
    CHECK(e->todo.reports && e->todo.code == RTR_CODE_WITHDRAWAL_OF_UNKNOWN_RECORD);
    sends_report(e, RTR_CODE_WITHDRAWAL_OF_UNKNOWN_RECORD, WITHDRAWAL,
                 "withdrawal of an unknown record");
    shows(e, PREFIX END("5"));
}

/* The peer closes inside a unit, or before its data; the data stay until they expire. */
static void check_lost(struct end *e)
{
    loads(e);
    e->now = 7000000;
    comes(e, "010000");
    CHECK(rtr_link_lost(&e->link) == RTR_LINK_OK);
    CHECK(rtr_link_lost(&e->link) == RTR_LINK_OUT_OF_TURN);
    CHECK(rtr_link_received(&e->link, &e->buffers, 1) == RTR_LINK_OUT_OF_TURN);
    next_is(e, RTR_TODO_CLOSE);
    CHECK(e->todo.cause == RTR_CAUSE_FAULTY && e->todo.status == RTR_SHORT && !e->todo.drops);
    CHECK(e->todo.offset == 0 && e->todo.position == 52);
    shows(e, PREFIX END("5"));
    e->now = 7200000;
    shows(e, NULL);
    next_is(e, RTR_TODO_DROPPED);
    CHECK(!e->todo.drops && e->todo.wakes <= e->now + 600000);
    fails(e, RTR_CLIENT_EXPIRED, false);
    shows(e, NULL);
}

/* Loses a connection that was asked for now, and returns the time until the next one. */
static uint64_t wait_after_loss(struct end *e)
{
    next_is(e, RTR_TODO_CONNECT);
    CHECK(rtr_link_lost(&e->link) == RTR_LINK_OK);
    next_is(e, RTR_TODO_CLOSE);
    next_is(e, RTR_TODO_WAIT);
    return e->todo.wakes - e->now;
}

/* After rtr_link_again it has no data and connects at once, and waits longer after its next
 * failure than a new one. */
static void check_again(struct end *e)
{
    uint64_t first = wait_after_loss(e), second, after;
    e->now = e->todo.wakes;
    second = wait_after_loss(e);
    CHECK(second > first);
    CHECK(rtr_link_again(&e->link) == RTR_LINK_OK);
    after = wait_after_loss(e);
    CHECK(after > second);
    e->now = e->todo.wakes;
    loads(e);
    CHECK(rtr_link_again(&e->link) == RTR_LINK_OK);
    look(e);
    CHECK(!e->state.has_data && e->state.shown == 0 && e->state.filled == 0);
    CHECK(wait_after_loss(e) == first);
    CHECK(rtr_link_next(&e->link, &e->buffers, e->now - 1, &e->todo) == RTR_LINK_BAD_TIME);
}

/* ---- missing memory */

/* The program gives up an answer for which it has no memory: the data stay. */
static void check_give_up(struct end *e)
{
    CHECK(rtr_link_next(&e->link, &e->buffers, 0, &e->todo) == RTR_LINK_OK);
    CHECK(e->todo.kind == RTR_TODO_OUTPUT_ROOM && e->todo.room == OUTPUT);
    CHECK(rtr_link_give_up(&e->link, &e->buffers, 0, &e->todo) == RTR_LINK_SHORT_BUFFER);
    CHECK(e->todo.kind == RTR_TODO_NOTHING && e->todo.wakes == 0);
    loads(e);
    e->now = 5000;
    comes(e, NOTIFY("6"));
    next_is(e, RTR_TODO_WAIT);
    sends(e, QUERY("5"));
    comes(e, RESPONSE OTHER END("6"));
    first_room(e, 0);
    do
        CHECK(rtr_link_next(&e->link, &e->buffers, 5000, &e->todo) == RTR_LINK_OK);
    while (e->todo.kind == RTR_TODO_GO);
    CHECK(e->todo.kind == RTR_TODO_FIRST_ROOM && e->todo.room == 44 + 44);
    CHECK(rtr_link_give_up(&e->link, &e->buffers, 5000, &e->todo) == RTR_LINK_OK);
    CHECK(e->todo.kind == RTR_TODO_CLOSE && e->todo.cause == RTR_CAUSE_NOT_APPLIED);
    CHECK(e->todo.status == RTR_OK && !e->todo.drops);
    fails(e, RTR_CLIENT_MEMORY, true);
    fails(e, RTR_CLIENT_MEMORY, false);
    shows(e, PREFIX END("5"));
}

/* ---- failures */

/* The failure of each kind and each cause, where a unit or a change is refused; a number that is no
 * rtr_cause is a loss. */
static void check_failures(struct end *e)
{
    static const uint8_t failures[] = {
        RTR_CLIENT_LOST,   RTR_CLIENT_SLOW,   RTR_CLIENT_REFUSED, RTR_CLIENT_REPORTED,
        RTR_CLIENT_BREACH, RTR_CLIENT_BREACH, RTR_CLIENT_BREACH,  RTR_CLIENT_BREACH,
        RTR_CLIENT_BREACH, RTR_CLIENT_BREACH, RTR_CLIENT_BREACH,  RTR_CLIENT_TOO_LONG,
        RTR_CLIENT_REFUSED, RTR_CLIENT_EXPIRED, RTR_CLIENT_NONE,  RTR_CLIENT_NONE};
    for (int kind = 0; kind < 256; kind++)
        for (int cause = 0; cause < 256; cause++) {
            uint8_t failure = cause <= RTR_CAUSE_HIGHER ? failures[cause] : RTR_CLIENT_LOST;
            uint8_t starved = failure ? RTR_CLIENT_MEMORY : RTR_CLIENT_NONE;
            memset(&e->todo, 0xa5, sizeof e->todo);
            e->todo.kind = (uint8_t)kind;
            e->todo.cause = (uint8_t)cause;
            if (kind != RTR_TODO_CLOSE)
                failure = starved = kind == RTR_TODO_DROPPED ? RTR_CLIENT_EXPIRED
                    : kind == RTR_TODO_NO_DATA               ? RTR_CLIENT_REPORTED
                                                             : RTR_CLIENT_NONE;
            fails(e, failure, false);
            fails(e, starved, true);
        }
}

/* ---- wrong calls */

/* The call returns this status, and the struct is unchanged. */
#define REFUSES(status, call)                                                                     \
    do {                                                                                          \
        struct rtr_link before = e->link;                                                         \
        CHECK((call) == (status));                                                                \
        CHECK(memcmp(&before, &e->link, sizeof before) == 0);                                     \
    } while (0)

static void check_turns(struct end *e)
{
    REFUSES(RTR_LINK_OUT_OF_TURN, rtr_link_opened(&e->link));
    REFUSES(RTR_LINK_OUT_OF_TURN, rtr_link_lost(&e->link));
    REFUSES(RTR_LINK_OUT_OF_TURN, rtr_link_received(&e->link, &e->buffers, 0));
    next_is(e, RTR_TODO_CONNECT);
    REFUSES(RTR_LINK_OUT_OF_TURN, rtr_link_received(&e->link, &e->buffers, 0));
    CHECK(rtr_link_opened(&e->link) == RTR_LINK_OK);
    REFUSES(RTR_LINK_OUT_OF_TURN, rtr_link_opened(&e->link));
    CHECK(rtr_link_received(&e->link, &e->buffers, 0) == RTR_LINK_OK);
    next_is(e, RTR_TODO_WAIT);
    REFUSES(RTR_LINK_OUT_OF_TURN, rtr_link_opened(&e->link));
    CHECK(rtr_link_lost(&e->link) == RTR_LINK_OK);
    next_is(e, RTR_TODO_CLOSE);
    /* A close without a word may mean a lower version (section 7). */
    CHECK(e->todo.cause == RTR_CAUSE_LOWER && e->todo.offset == 0 && e->todo.status == RTR_OK);
    REFUSES(RTR_LINK_OUT_OF_TURN, rtr_link_opened(&e->link));
    REFUSES(RTR_LINK_OUT_OF_TURN, rtr_link_lost(&e->link));
    e->now = e->link.due;
    next_is(e, RTR_TODO_CONNECT);
    CHECK(rtr_link_lost(&e->link) == RTR_LINK_OK);
    REFUSES(RTR_LINK_OUT_OF_TURN, rtr_link_opened(&e->link));
}

static void check_lengths(struct end *e)
{
    size_t size;
    connects(e);
    next_is(e, RTR_TODO_WAIT);
    rtr_link_room(&e->buffers, &e->state, &size);
    REFUSES(RTR_LINK_TOO_LONG, rtr_link_received(&e->link, &e->buffers, size + 1));
    REFUSES(RTR_LINK_TOO_LONG, rtr_link_received(&e->link, &e->buffers, SIZE_MAX));
    REFUSES(RTR_LINK_TOO_LONG, rtr_link_sent(&e->link, &e->buffers, 9));
    REFUSES(RTR_LINK_TOO_LONG, rtr_link_sent(&e->link, &e->buffers, SIZE_MAX));
    struct rtr_link_buffers shorter = e->buffers;
    shorter.output_length = 7;
    REFUSES(RTR_LINK_SHORT_BUFFER, rtr_link_sent(&e->link, &shorter, 1));
    REFUSES(RTR_LINK_SHORT_BUFFER, rtr_link_next(&e->link, &shorter, 0, &e->todo));
    REFUSES(RTR_LINK_SHORT_BUFFER, rtr_link_ask_now(&e->link, &shorter, 0, &e->todo));
    REFUSES(RTR_LINK_SHORT_BUFFER, rtr_link_state(&e->link, &shorter, 0, &e->state));
    CHECK(e->state.filled == 0 && e->state.unsent == 0 && e->state.wakes == 0);
    sends(e, RESET_QUERY);
    comes(e, RESPONSE PREFIX END("5"));
    next_is(e, RTR_TODO_DATA);
    comes(e, "010000");
    shorter = e->buffers;
    shorter.second_length = 43;
    REFUSES(RTR_LINK_SHORT_BUFFER, rtr_link_next(&e->link, &shorter, 0, &e->todo));
    shorter = e->buffers;
    shorter.input_length = 2;
    REFUSES(RTR_LINK_SHORT_BUFFER, rtr_link_received(&e->link, &shorter, 0));
    REFUSES(RTR_LINK_SHORT_BUFFER, rtr_link_next(&e->link, &shorter, 0, &e->todo));
    REFUSES(RTR_LINK_SHORT_BUFFER, rtr_link_give_up(&e->link, &shorter, 0, &e->todo));
}

static void check_times(struct end *e)
{
    e->now = 10;
    connects(e);
    REFUSES(RTR_LINK_BAD_TIME, rtr_link_next(&e->link, &e->buffers, 9, &e->todo));
    CHECK(e->todo.kind == RTR_TODO_NOTHING);
    REFUSES(RTR_LINK_BAD_TIME, rtr_link_ask_now(&e->link, &e->buffers, 9, &e->todo));
    REFUSES(RTR_LINK_BAD_TIME, rtr_link_give_up(&e->link, &e->buffers, 9, &e->todo));
    REFUSES(RTR_LINK_BAD_TIME, rtr_link_state(&e->link, &e->buffers, 9, &e->state));
    uint64_t late = (uint64_t)1 << 63;
    REFUSES(RTR_LINK_BAD_TIME, rtr_link_next(&e->link, &e->buffers, late, &e->todo));
    REFUSES(RTR_LINK_BAD_TIME, rtr_link_next(&e->link, &e->buffers, UINT64_MAX, &e->todo));
    CHECK(rtr_link_next(&e->link, &e->buffers, late - 1, &e->todo) == RTR_LINK_OK);
}

/* Each call refuses a struct that wasn't initialized. */
static void check_not_begun(struct end *e)
{
    REFUSES(RTR_LINK_NOT_BEGUN, rtr_link_opened(&e->link));
    REFUSES(RTR_LINK_NOT_BEGUN, rtr_link_lost(&e->link));
    REFUSES(RTR_LINK_NOT_BEGUN, rtr_link_again(&e->link));
    REFUSES(RTR_LINK_NOT_BEGUN, rtr_link_received(&e->link, &e->buffers, 0));
    REFUSES(RTR_LINK_NOT_BEGUN, rtr_link_sent(&e->link, &e->buffers, 0));
    REFUSES(RTR_LINK_NOT_BEGUN, rtr_link_next(&e->link, &e->buffers, e->now, &e->todo));
    REFUSES(RTR_LINK_NOT_BEGUN, rtr_link_ask_now(&e->link, &e->buffers, e->now, &e->todo));
    REFUSES(RTR_LINK_NOT_BEGUN, rtr_link_give_up(&e->link, &e->buffers, e->now, &e->todo));
    CHECK(e->todo.kind == RTR_TODO_NOTHING);
    REFUSES(RTR_LINK_NOT_BEGUN, rtr_link_state(&e->link, &e->buffers, e->now, &e->state));
}

/* Damaged structs: of equal bytes, with an invalid phase or flag, with contradictory offsets. */
static void check_structs(struct end *e)
{
    struct rtr_link good;
    loads(e);
    good = e->link;
    for (int byte = 0; byte < 256; byte += 5) {
        memset(&e->link, byte, sizeof e->link);
        check_not_begun(e);
    }
    for (int number = 0; number < 256; number++) {
        e->link = good;
        e->link.phase = (uint8_t)number;
        if (number == RTR_PHASE_READING || number == RTR_PHASE_APPLYING || number > 5)
            check_not_begun(e);
        e->link = good;
        e->link.holding = (uint8_t)number;
        if (number > 0)
            check_not_begun(e);
        e->link = good;
        (&e->link.agreed)[number % 8] = (uint8_t)number;
        if (number > 1)
            check_not_begun(e);
        e->link = good;
        (&e->link.since)[number % 5] = (uint8_t)number;
        if (number > 1)
            check_not_begun(e);
    }
    e->link = good;
    e->link.kept = e->link.filled + 1;
    check_not_begun(e);
    e->link.kept = SIZE_MAX;
    e->link.end_size = SIZE_MAX;
    check_not_begun(e);
    e->link = good;
    e->link.mark ^= 1;
    check_not_begun(e);
    e->link = good;
    next_is(e, RTR_TODO_WAIT);
}

/* Structs with random numbers, except in fields that are checked first: no call touches a byte
 * outside of the buffers. */
static void check_random(struct end *e, long count)
{
    uint64_t seed = 88172645463325252;
    loads(e);
    struct rtr_link good = e->link;
    for (long i = 0; i < count; i++) {
        uint8_t *bytes = (uint8_t *)&e->link;
        e->link = good;
        for (int changes = 0; changes < 6; changes++) {
            seed ^= seed << 13;
            seed ^= seed >> 7;
            seed ^= seed << 17;
            size_t where = seed % sizeof e->link;
            bytes[where] = (uint8_t)(seed >> 32) >> ((seed >> 40) % 8);
        }
        e->link.holding = e->link.phase == RTR_PHASE_READING ? 1
            : e->link.phase == RTR_PHASE_APPLYING            ? 2
                                                             : 0;
        e->link.latest = 0;
        CHECK(rtr_link_next(&e->link, &e->buffers, seed >> 20, &e->todo) <= RTR_LINK_SHORT_BUFFER);
        CHECK(rtr_link_received(&e->link, &e->buffers, seed % 64) <= RTR_LINK_TOO_LONG);
        CHECK(rtr_link_sent(&e->link, &e->buffers, seed % 64) <= RTR_LINK_TOO_LONG);
        rtr_link_give_up(&e->link, &e->buffers, seed >> 20, &e->todo);
    }
}

int main(int count, char **words)
{
    static void (*const checks[])(struct end *) = {
        check_session, check_no_data, check_refused, check_unknown, check_lost, check_again,
        check_give_up, check_failures, check_turns,  check_lengths, check_times,
        check_structs};
    static struct end e;
    long random = count > 1 ? strtol(words[1], NULL, 10) : 100000;
    for (size_t i = 0; i < 2 * (sizeof checks / sizeof checks[0]); i++) {
        begin(&e, i % 2);
        checks[i / 2](&e);
    }
    begin(&e, true);
    check_random(&e, random);
    begin(&e, false);
    check_random(&e, random);
    printf("calls for a router's end: %zu sessions, %ld random structs\n",
           2 * (sizeof checks / sizeof checks[0]), 2 * random);
    return 0;
}
