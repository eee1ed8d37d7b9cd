/* Tests of the calls for a server's limits, its door and its connections: which connections are
 * served, refused and left waiting, what each does next, and what a server keeps.
 *
 * usage: server_tests */
#include "testing.h"

/* The limits that docs/SESSIONS.md has ("The cache"). */
static void check_limits(void)
{
    struct rtr_server_settings usual;
    memset(&usual, 0xa5, sizeof usual);
    rtr_server_settings_usual(&usual);
    CHECK(usual.cache.first_limit == 30 * 1000 && usual.cache.idle_limit == 25 * 3600 * 1000);
    CHECK(usual.cache.pause == 60 * 1000 && !usual.cache.refuses);
    CHECK(usual.unit_limit == 10 * 1000 && usual.write_limit == 30 * 1000);
    CHECK(usual.response_limit == 10 * 60 * 1000 && usual.report_limit == 10 * 1000);
    CHECK(usual.keep == 2 * 3600 * 1000 && usual.keep_bytes == 64 * 1024 * 1024);
    CHECK(usual.most_connections == 1024 && usual.most_refused == 64 && usual.most_behind == 2);
}

enum move { COMES, COMES_WITHOUT_SPARE, LEAVES };

/* A move; what a connection gets that comes, or the entry of one that leaves and whether the door
 * has it; and how many connections are served and refused then. */
struct step {
    enum move move;
    uint8_t entry;
    bool has;
    uint32_t served, refused;
};

/* Two are served, one is refused. */
static const struct step steps[] = {
    {LEAVES, RTR_ENTRY_SERVE, false, 0, 0},
    {LEAVES, RTR_ENTRY_REFUSE, false, 0, 0},
    {COMES, RTR_ENTRY_SERVE, true, 1, 0},
    {COMES_WITHOUT_SPARE, RTR_ENTRY_REFUSE, true, 1, 1},
    {COMES_WITHOUT_SPARE, RTR_ENTRY_WAIT, true, 1, 1},
    {COMES, RTR_ENTRY_SERVE, true, 2, 1},
    {COMES, RTR_ENTRY_WAIT, true, 2, 1},
    {LEAVES, RTR_ENTRY_WAIT, false, 2, 1},
    {LEAVES, 3, false, 2, 1},
    {LEAVES, 255, false, 2, 1},
    {LEAVES, RTR_ENTRY_REFUSE, true, 2, 0},
    {COMES, RTR_ENTRY_REFUSE, true, 2, 1},
    {LEAVES, RTR_ENTRY_SERVE, true, 1, 1},
    {COMES, RTR_ENTRY_SERVE, true, 2, 1},
};

static void check_door(void)
{
    struct rtr_server_settings settings;
    struct rtr_door door;
    rtr_server_settings_usual(&settings);
    settings.most_connections = 2;
    settings.most_refused = 1;
    memset(&door, 0xa5, sizeof door);
    rtr_door_init(&door, &settings);
    CHECK(door.most_connections == 2 && door.most_refused == 1 && !door.served && !door.refused);
    for (size_t i = 0; i < sizeof steps / sizeof steps[0]; i++) {
        const struct step *step = &steps[i];
        bool spare = step->move == COMES;
        if (step->move == LEAVES) {
            CHECK(rtr_door_leave(&door, step->entry) == step->has);
        } else {
            CHECK(rtr_door_next(&door, spare) == step->entry);
            CHECK(rtr_door_enter(&door, spare) == step->entry);
        }
        CHECK(door.served == step->served && door.refused == step->refused);
    }
}

/* At the highest numbers nothing overflows. */
static void check_ends(void)
{
    struct rtr_door door = {UINT32_MAX, UINT32_MAX, UINT32_MAX, UINT32_MAX - 1};
    CHECK(rtr_door_enter(&door, true) == RTR_ENTRY_REFUSE && door.refused == UINT32_MAX);
    CHECK(rtr_door_enter(&door, true) == RTR_ENTRY_WAIT && door.served == UINT32_MAX);
    CHECK(rtr_door_leave(&door, RTR_ENTRY_SERVE) && door.served == UINT32_MAX - 1);
    CHECK(rtr_door_enter(&door, true) == RTR_ENTRY_SERVE && door.served == UINT32_MAX);
}

/* A call on a connection, and its result: the next action, the limit, and the deadline.
 * The router has data of session 7; its machine waits until 90 s. */
enum call { NOTHING, CAME, HEARD, ANSWERS, ENDS, SENT, CLOSED, BROKE };

struct turn {
    uint64_t now;
    enum call call;
    size_t size;
    bool done;
    uint16_t session;
    uint64_t number;
    uint8_t step, cut;
    uint64_t wakes;
};

/* docs/SESSIONS.md: 10 s for a unit, 30 s for a byte and 10 minutes for all of an answer, the third
 * newer data, 10 s for a report and the close. */
static const struct turn turns[] = {
    {1000, CAME, 20, true, 7, 5, RTR_STEP_HEAR, RTR_CUT_NONE, 0},
    {1000, HEARD, 8, true, 7, 5, RTR_STEP_HEAR, RTR_CUT_NONE, 0},
    {1000, HEARD, 0, true, 7, 5, RTR_STEP_WAIT, RTR_CUT_NONE, 11000},
    {11000, NOTHING, 0, true, 7, 5, RTR_STEP_CLOSE, RTR_CUT_SLOW, 11000},
    {9000, ANSWERS, 9, true, 7, 5, RTR_STEP_SEND, RTR_CUT_NONE, 39000},
    {9000, ANSWERS, 9, false, 7, 5, RTR_STEP_SEND, RTR_CUT_NONE, 39000},
    {9000, SENT, 10, false, 7, 7, RTR_STEP_SEND, RTR_CUT_NONE, 39000},
    {9000, ENDS, 4, false, 7, 8, RTR_STEP_CLOSE, RTR_CUT_BEHIND, 39000},
    {9000, NOTHING, 0, true, 8, 8, RTR_STEP_CLOSE, RTR_CUT_NEW_SESSION, 39000},
    {20000, SENT, 2, true, 7, 7, RTR_STEP_SEND, RTR_CUT_NONE, 50000},
    {598000, SENT, 1, true, 7, 7, RTR_STEP_SEND, RTR_CUT_NONE, 609000},
    {609000, NOTHING, 0, true, 7, 7, RTR_STEP_CLOSE, RTR_CUT_SLOW, 609000},
    {20000, SENT, 6, true, 7, 7, RTR_STEP_WAIT, RTR_CUT_NONE, 30000},
    {20000, CLOSED, 0, true, 7, 7, RTR_STEP_HEAR, RTR_CUT_NONE, 0},
    {20000, HEARD, 12, true, 7, 7, RTR_STEP_LOSE, RTR_CUT_NONE, 0},
    {20000, ENDS, 4, true, 7, 7, RTR_STEP_SEND, RTR_CUT_NONE, 30000},
    {29999, SENT, 4, true, 7, 7, RTR_STEP_CLOSE, RTR_CUT_NONE, 30000},
};

/* A connection that breaks while it is sent an answer is closed, without a limit, and stays so. */
static const struct turn broken[] = {
    {1000, CAME, 8, true, 7, 5, RTR_STEP_HEAR, RTR_CUT_NONE, 0},
    {1000, HEARD, 8, true, 7, 5, RTR_STEP_WAIT, RTR_CUT_NONE, 90000},
    {1000, ANSWERS, 9, true, 7, 5, RTR_STEP_SEND, RTR_CUT_NONE, 31000},
    {1000, BROKE, 0, true, 7, 5, RTR_STEP_CLOSE, RTR_CUT_NONE, 0},
    {99000, SENT, 9, true, 8, 9, RTR_STEP_CLOSE, RTR_CUT_NONE, 0},
    {99000, CAME, 8, true, 8, 9, RTR_STEP_CLOSE, RTR_CUT_NONE, 0},
    {99000, CLOSED, 0, true, 8, 9, RTR_STEP_CLOSE, RTR_CUT_NONE, 0},
    {99000, ANSWERS, 9, false, 8, 9, RTR_STEP_CLOSE, RTR_CUT_NONE, 0},
    {99000, ENDS, 9, false, 8, 9, RTR_STEP_CLOSE, RTR_CUT_NONE, 0},
};

static bool call(struct rtr_connection *connection, const struct turn *turn)
{
    switch (turn->call) {
    case CAME:
        rtr_connection_received(connection, turn->now, turn->size);
        return true;
    case HEARD:
        rtr_connection_heard(connection, turn->now, turn->size);
        return true;
    case ANSWERS:
        return rtr_connection_answers(connection, turn->now, turn->size, turn->number);
    case ENDS:
        return rtr_connection_ends(connection, turn->now, turn->size);
    case SENT:
        return rtr_connection_sent(connection, turn->now, turn->size);
    case CLOSED:
        rtr_connection_closed(connection);
        return true;
    case BROKE:
        rtr_connection_broke(connection);
        return true;
    default:
        return true;
    }
}

/* At a wait, an input or a tick: reads, until the router closes. */
static bool reads(const struct rtr_connection *connection)
{
    return !connection->state && !connection->unsent && !connection->closed;
}

static void check_connection(const struct turn *turns, size_t count)
{
    struct rtr_server_settings settings;
    struct rtr_connection connection;
    struct rtr_cache cache = {.live = true, .told = true, .session = 7, .due = 90000};
    rtr_server_settings_usual(&settings);
    memset(&connection, 0xa5, sizeof connection);
    rtr_connection_init(&connection, 0, &settings);
    for (size_t i = 0; i < count; i++) {
        const struct turn *turn = &turns[i];
        const struct rtr_present present = {1, turn->session, true};
        uint8_t cut = 99;
        CHECK(call(&connection, turn) == turn->done);
        uint8_t step = rtr_connection_next(&connection, turn->now, &cache, &present, turn->number,
                                           &cut);
        if (step != turn->step || cut != turn->cut
            || rtr_connection_wakes(&connection, &cache, &present) != turn->wakes)
            fprintf(stderr, "turn %zu\n", i);
        CHECK(step == turn->step && cut == turn->cut);
        CHECK(rtr_connection_wakes(&connection, &cache, &present) == turn->wakes);
        CHECK(rtr_connection_reads(&connection) == reads(&connection));
        CHECK(step != RTR_STEP_WAIT || rtr_connection_reads(&connection));
        CHECK(step != RTR_STEP_SEND || !rtr_connection_reads(&connection));
    }
}

/* The present data, whether there are any, and new ones: the version in which these are kept. */
static void check_versions(void)
{
    static const struct {
        bool has;
        uint8_t present;
        uint16_t session;
        uint8_t version, kept;
    } rows[] = {
        {false, 0, 7, 0, 2}, {true, 1, 7, 0, 1}, {true, 1, 7, 1, 1}, {true, 1, 7, 2, 2},
        {true, 1, 8, 1, 2},  {true, 0, 7, 0, 0}, {true, 2, 7, 0, 2}, {true, 0, 7, 1, 2},
    };
    for (size_t i = 0; i < sizeof rows / sizeof rows[0]; i++) {
        struct rtr_present present = {1, 7, rows[i].has};
        uint8_t kept = rtr_stores_version(&present, rows[i].present, rows[i].session,
                                          rows[i].version);
        CHECK(kept == rows[i].kept);
    }
}

/* Up to `keep_bytes`, without an overflow. */
static void check_kept(void)
{
    struct rtr_server_settings settings;
    rtr_server_settings_usual(&settings);
    CHECK(rtr_server_keeps(&settings, 0, settings.keep_bytes));
    CHECK(!rtr_server_keeps(&settings, 0, settings.keep_bytes + 1));
    settings.keep_bytes = 100;
    CHECK(rtr_server_keeps(&settings, 40, 60) && !rtr_server_keeps(&settings, 40, 61));
    CHECK(rtr_server_keeps(&settings, 100, 0) && !rtr_server_keeps(&settings, 101, 0));
    CHECK(!rtr_server_keeps(&settings, 1, SIZE_MAX) && !rtr_server_keeps(&settings, SIZE_MAX, 1));
}

/* 1, 2, 4, .. 32, 60 and 60 seconds (docs/OPERATORS.md). */
static void check_retries(void)
{
    uint32_t pause = 0;
    for (uint32_t seconds = 1; seconds <= 32; seconds *= 2) {
        pause = rtr_retry_after(pause);
        CHECK(pause == 1000 * seconds);
    }
    CHECK(rtr_retry_after(pause) == 60000 && rtr_retry_after(60000) == 60000);
    CHECK(rtr_retry_after(UINT32_MAX) == 60000);
}

/* The times of an end of data, which has none in version 0. */
static void check_end_rule(void)
{
    CHECK(rtr_end_rule(0, 0, 0, 0) == RTR_TIME_RULE_NONE);
    for (uint8_t version = 1; version <= RTR_HIGHEST_VERSION; version++) {
        CHECK(rtr_end_rule(version, 3600, 600, 7200) == RTR_TIME_RULE_NONE);
        CHECK(rtr_end_rule(version, 0, 600, 7200) == RTR_TIME_RULE_REFRESH);
        CHECK(rtr_end_rule(version, 3600, 7201, 172800) == RTR_TIME_RULE_RETRY);
        CHECK(rtr_end_rule(version, 7200, 600, 7200) == RTR_TIME_RULE_ABOVE_REFRESH);
    }
}

int main(void)
{
    check_limits();
    check_door();
    check_ends();
    check_connection(turns, sizeof turns / sizeof turns[0]);
    check_connection(broken, sizeof broken / sizeof broken[0]);
    check_versions();
    check_kept();
    check_retries();
    check_end_rule();
    return 0;
}
