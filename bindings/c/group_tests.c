/* Tests of the calls for a group of caches by preference: which events a member's next actions are
 * for the group, and which are refused. docs/SESSIONS.md has the rules. */
#include "testing.h"

/* A loss of data and the failure that caused it are one event of a group, also if the next member
 * answers between them. */
static void check_loss(void)
{
    struct rtr_group_settings settings;
    struct rtr_group_answer answer;
    struct rtr_group group;
    rtr_group_usual(&settings);
    CHECK(rtr_group_init(&group, &settings, 3, 0) == RTR_OK);
    CHECK(!rtr_group_counts(&group, 0) && rtr_group_counts(&group, 1));
    rtr_group_shows(&group, 1, 0, 1, &answer);
    CHECK(answer.shown == RTR_GROUP_DATA && answer.member == 0);
    rtr_group_drops(&group, 2, 0, &answer);
    CHECK(answer.shown == RTR_GROUP_NOTHING && answer.starts && answer.start == 1);
    rtr_group_shows(&group, 3, 1, 1, &answer);
    CHECK(answer.shown == RTR_GROUP_DATA && answer.member == 1);
    rtr_group_fails(&group, 4, 0, &answer);
    CHECK(answer.shown == RTR_GROUP_SAME && !answer.stops && !answer.starts);
    rtr_group_drops(&group, 5, 1, &answer);
    CHECK(answer.starts && answer.start == 2);
    rtr_group_fails(&group, 6, 1, &answer);
    CHECK(answer.shown == RTR_GROUP_SAME && !answer.stops && !answer.starts);
    settings.empty_is_data = true;
    CHECK(rtr_group_init(&group, &settings, 1, 0) == RTR_OK);
    CHECK(rtr_group_counts(&group, 0));
}

/* Reports whether two groups, and what they answered, are the same. */
static bool are_same(const struct rtr_group *group, const struct rtr_group_answer *answer,
                     const struct rtr_group *other, const struct rtr_group_answer *answered)
{
    return group->runs == other->runs && group->due == other->due
           && group->current == other->current && !memcmp(group->has, other->has, sizeof other->has)
           && answer->shown == answered->shown && answer->member == answered->member
           && answer->stops == answered->stops && answer->stop == answered->stop
           && answer->starts == answered->starts && answer->start == answered->start;
}

/* The events of a group for the next actions of a member, by the table of docs/SESSIONS.md. */
static void check_told(const struct rtr_group *group)
{
    enum event { NO_EVENT, SHOWS, DROPS, FAILS };
    static const struct {
        uint8_t kind, cause;
        bool drops;
        enum event event;
    } rows[] = {
        {RTR_TODO_GO, 0, false, NO_EVENT},
        {RTR_TODO_WAIT, 0, false, NO_EVENT},
        {RTR_TODO_CONNECT, 0, false, NO_EVENT},
        {RTR_TODO_DATA, 0, false, SHOWS},
        {RTR_TODO_DROPPED, 0, false, DROPS},
        {RTR_TODO_NO_DATA, 0, false, FAILS},
        {RTR_TODO_INPUT_ROOM, 0, false, NO_EVENT},
        {RTR_TODO_FIRST_ROOM, 0, false, NO_EVENT},
        {RTR_TODO_SECOND_ROOM, 0, false, NO_EVENT},
        {RTR_TODO_INDEX_ROOM, 0, false, NO_EVENT},
        {RTR_TODO_OUTPUT_ROOM, 0, false, NO_EVENT},
        {RTR_TODO_CLOSE, RTR_CAUSE_LOST, false, FAILS},
        {RTR_TODO_CLOSE, RTR_CAUSE_REPORTED, false, FAILS},
        {RTR_TODO_CLOSE, RTR_CAUSE_NOT_APPLIED, false, FAILS},
        {RTR_TODO_CLOSE, RTR_CAUSE_LOST, true, DROPS},
        {RTR_TODO_CLOSE, RTR_CAUSE_EXPIRED, true, DROPS},
        {RTR_TODO_CLOSE, RTR_CAUSE_LOWER, true, DROPS},
        {RTR_TODO_CLOSE, RTR_CAUSE_LOWER, false, NO_EVENT},
        {RTR_TODO_CLOSE, RTR_CAUSE_HIGHER, false, NO_EVENT},
    };
    for (size_t i = 0; i < sizeof rows / sizeof rows[0]; i++) {
        struct rtr_group told = *group, expected = *group;
        struct rtr_group_answer answer, answered = {.shown = RTR_GROUP_SAME};
        struct rtr_todo todo = {
            .kind = rows[i].kind, .cause = rows[i].cause, .drops = rows[i].drops};
        CHECK(rtr_group_tell(&told, 9, 0, &todo, 5, &answer) == RTR_GROUP_TOLD);
        if (rows[i].event == SHOWS)
            rtr_group_shows(&expected, 9, 0, 5, &answered);
        if (rows[i].event == DROPS)
            rtr_group_drops(&expected, 9, 0, &answered);
        if (rows[i].event == FAILS)
            rtr_group_fails(&expected, 9, 0, &answered);
        CHECK(are_same(&told, &answer, &expected, &answered));
    }
}

/* A todo that no call leaves, and a member that a group doesn't have, are refused. */
static void check_untold(const struct rtr_group *group)
{
    struct rtr_group_answer answer, none = {.shown = RTR_GROUP_SAME};
    for (int kind = 0; kind < 256; kind++)
        for (int cause = 0; cause < 256; cause++)
            for (size_t member = 0; member < 4; member++) {
                struct rtr_group told = *group;
                struct rtr_todo todo = {.kind = (uint8_t)kind, .cause = (uint8_t)cause};
                bool known = RTR_TODO_GO <= kind && kind <= RTR_TODO_OUTPUT_ROOM
                             && (kind != RTR_TODO_CLOSE || cause <= RTR_CAUSE_HIGHER);
                uint8_t expected = !known        ? RTR_GROUP_NO_TODO
                                   : member >= 2 ? RTR_GROUP_NO_MEMBER
                                                 : RTR_GROUP_TOLD;
                CHECK(rtr_group_tell(&told, 9, member, &todo, 0, &answer) == expected);
                if (expected != RTR_GROUP_TOLD)
                    CHECK(are_same(&told, &answer, group, &none));
            }
}

/* Members of a group that report their next actions as events. */
static void check_members(void)
{
    struct rtr_group_settings settings;
    struct rtr_group_answer answer;
    struct rtr_group group;
    rtr_group_usual(&settings);
    CHECK(rtr_group_init(&group, &settings, 2, 0) == RTR_OK);
    check_told(&group);
    rtr_group_shows(&group, 1, 0, 1, &answer);
    check_told(&group);
    check_untold(&group);
}

int main(void)
{
    check_loss();
    check_members();
    puts("calls for a group: 19 todos of two groups, 262,144 right and wrong calls");
    return 0;
}
