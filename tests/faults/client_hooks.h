/* programs.py includes this before client.c and client_tls.c: if FAULTS_PAUSE has milliseconds, the
 * client reconnects after these, and counting_hooks.h counts what it has allocated. */
#include "counting_hooks.h"
#include "rtr_client.h"

/* Initializes a client that waits for the pause between connections. */
static void init_with_pause(struct rtr_client *client, uint8_t version)
{
    rtr_client_init(client, version);
    if (pause_given())
        client->settings.pause = (uint32_t)strtoul(pause_given(), NULL, 10);
}

/* Returns the next event of the client; after a failure the client connects after the pause. */
static enum rtr_client_event next_with_pause(struct rtr_client *client, int64_t now)
{
    enum rtr_client_event event = rtr_client_next(client, now);
    if (event == RTR_CLIENT_FAILED)
        count_end();
    if (event == RTR_CLIENT_FAILED && pause_given())
        rtr_client_ask_now(client);
    return event;
}

#define rtr_client_init init_with_pause
#define rtr_client_next next_with_pause
