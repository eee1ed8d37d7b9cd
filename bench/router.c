/* Gives the units of an answer to a router's state machine, for callgrind to count.
 *
 * usage: router FILE..
 *
 * Each file has a sequence of version 2. A router asks a cache for it, and gets all of its units by
 * rtr_router_read; callgrind dumps the cost, labelled `rtr_router_read FILE`. The exit status is 1
 * if the router takes anything but the whole answer. */
#include <stdio.h>
#include <stdlib.h>
#include "rtr.h"
#include "counting.h"

enum { VERSION = 2, SESSION = 0x1234 };

/* Makes a router that reads an answer; returns false without memory. */
static bool reads(struct rtr_router *router)
{
    static const uint8_t response[] = {
        VERSION, RTR_CACHE_RESPONSE, SESSION >> 8, SESSION & 0xff, 0, 0, 0, 8};
    struct rtr_settings settings;
    struct rtr_action action;
    rtr_settings_usual(&settings, VERSION);
    rtr_router_init(router, &settings);
    rtr_router_tick(router, 0, &action);
    rtr_router_connected(router, 0, &action);
    rtr_router_read(router, 0, response, sizeof response, false, &action);
    return action.kind == RTR_BEGIN;
}

/* Lets the router read all units; returns their length once their changes are to be applied. */
static __attribute__((noinline)) size_t read_all(struct rtr_router *router, const uint8_t *input,
                                                 size_t length)
{
    struct rtr_action action;
    size_t taken = 0;
    do {
        rtr_router_read(router, 1, input + taken, length - taken, false, &action);
        taken += action.taken;
    } while (action.kind == RTR_KEEP);
    return action.kind == RTR_APPLY ? taken : 0;
}

/* Counts a file. */
static bool count(const char *name)
{
    static uint8_t input[1 << 20];
    struct rtr_router router;
    char label[4096];
    FILE *from = fopen(name, "rb");
    size_t length = from ? fread(input, 1, sizeof input, from) : 0;
    if (from)
        fclose(from);
    if (!length || !reads(&router))
        return false;
    snprintf(label, sizeof label, "rtr_router_read %s", name);
    CALLGRIND_ZERO_STATS;
    size_t taken = read_all(&router, input, length);
    CALLGRIND_DUMP_STATS_AT(label);
    return taken == length;
}

int main(int words, char **word)
{
    for (int i = 1; i < words; i++)
        if (!count(word[i])) {
            fprintf(stderr, "%s: the router doesn't take this answer\n", word[i]);
            return 1;
        }
    return 0;
}
