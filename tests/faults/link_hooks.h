/* programs.py includes this before bindings/c/link.c: if FAULTS_PAUSE has milliseconds, the link
 * connects after these, and counting_hooks.h counts what it has allocated. */
#include <stdbool.h>
#include "counting_hooks.h"
#include "rtr.h"

/* Sets the usual settings, with the pause between connections. */
static void settings_with_pause(struct rtr_settings *settings, uint8_t version)
{
    rtr_settings_usual(settings, version);
    if (pause_given())
        settings->pause = (uint32_t)strtoul(pause_given(), NULL, 10);
}

/* Returns what the link has to do next; after a connection's end it connects after the pause. */
static uint8_t next_with_pause(struct rtr_link *link, const struct rtr_link_buffers *buffers,
                               uint64_t now, struct rtr_todo *todo)
{
    static bool asks;
    uint8_t status =
        asks ? rtr_link_ask_now(link, buffers, now, todo) : rtr_link_next(link, buffers, now, todo);
    asks = asks && todo->kind >= RTR_TODO_INPUT_ROOM;
    if (todo->kind == RTR_TODO_CLOSE) {
        count_end();
        asks = pause_given() != NULL;
    }
    return status;
}

#define rtr_settings_usual settings_with_pause
#define rtr_link_next next_with_pause
