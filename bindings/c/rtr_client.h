/* A router's end of the RPKI to Router protocol (RFC 8210), without sockets or a clock: what to ask
 * a cache, the data that its answers give, and when to ask again. docs/SESSIONS.md has its states;
 * client.c is a program over it.
 *
 * Copyright (c) 2026, the authors of Fishreef
 * BSD 3-Clause License: see the file LICENSE at the top of the repository.
 *
 * The program opens connections, sends and receives bytes, and passes the time. It calls
 * rtr_client_next in a loop, and does what that returns:
 *
 *   RTR_CLIENT_WAIT     send what rtr_client_output returns, and read into the buffer that
 *                       rtr_client_room returns; call again when something was read or the time is
 *                       `wakes`. Between connections there is nothing to send or read
 *   RTR_CLIENT_CONNECT  open a connection, until `wakes`; then call rtr_client_connected, or
 *                       rtr_client_lost
 *   RTR_CLIENT_CLOSE    send what rtr_client_output still returns, and then read and ignore at most
 *                       RTR_LAST_REPORT_BYTES until the cache closes, but not after `wakes`; and
 *                       close the connection. Each RTR_CLIENT_CONNECT is followed by one
 *                       RTR_CLIENT_CLOSE
 *   RTR_CLIENT_DATA     `data` is the cache's data at the serial number of `end`.
 *                       rtr_client_changes lead to them from the former data; there may be none
 *   RTR_CLIENT_DROPPED  there are no data any more; rtr_client_changes withdraw the former data
 *   RTR_CLIENT_NO_DATA  the cache has no data yet (RFC 8210 section 8.4); the client asks again
 *                       after the retry time
 *   RTR_CLIENT_FAILED   `failure` and `text` say why there is no connection; RTR_CLIENT_CONNECT
 *                       follows when it is time to reconnect
 *
 * Each call returns at once. A client is one struct of at most 1.25 KiB. Several clients may run at
 * once, each used by one thread at a time. A client allocates 128 KiB for input and output, and 12
 * bytes for each query that the cache doesn't take. While it loads an answer, it allocates memory
 * for the answer, at most `most_bytes`, and for the new data, but never by a length that a header
 * claims; without memory the connection ends, and the data stay unchanged. The former data stay in
 * memory until the next rtr_client_next; then it keeps only the data. It allocates memory for
 * changes when the program asks for them.
 */
#ifndef FISHREEF_RTR_CLIENT_H
#define FISHREEF_RTR_CLIENT_H

#include "rtr.h"

#ifdef __cplusplus
extern "C" {
#endif

enum rtr_client_event {
    RTR_CLIENT_WAIT,
    RTR_CLIENT_CONNECT,
    RTR_CLIENT_CLOSE,
    RTR_CLIENT_DATA,
    RTR_CLIENT_DROPPED,
    RTR_CLIENT_NO_DATA,
    RTR_CLIENT_FAILED
};

/* Times are in milliseconds, by a monotonic clock that isn't negative. A time before that of an
 * earlier call is taken as the earlier call's. */
struct rtr_client {
    /* Set by rtr_client_init to the defaults, which -DRTR_CLIENT_RESPONSE_LIMIT=.. and
     * -DRTR_CLIENT_MOST_BYTES=.. change when rtr_client.c is compiled. A program may change them
     * before its first rtr_client_next. */
    struct rtr_settings settings;
    int64_t report_limit; /* for a report to be sent, and to be read by the cache, before closing;
                             default 2 seconds */

    /* For the program to read. Pointers are valid until the next call of rtr_client_next or
     * rtr_client_free. */
    uint8_t *data; /* in canonical form (rtr.h); null if there are none. They may expire
                              between calls: rtr_client_has_data */
    size_t data_length;
    struct rtr_unit end; /* their end of data */
    int64_t wakes;
    uint8_t failure; /* an rtr_client_failure of rtr.h */
    uint8_t status;  /* an rtr_status, or 0 */
    uint16_t code;   /* the error code of the last report (RFC 8210 section 12) */
    char text[400];  /* of a failure, or of a cache without data */

    /* Private. */
    struct rtr_link link;
    struct rtr_todo todo; /* what the link asked for last */
    struct rtr_link_buffers buffers;
    const uint8_t *former; /* the data before the last event, in their buffer */
    uint8_t *changes;      /* what was asked for */
    size_t former_length, changes_length;
    int64_t now, tries;
    uint8_t events[4], count;
    bool begun, wished, lost, broken, closing, starved, changed;
    bool untold, unmade; /* a group wasn't told of `todo`; or of a failure without a link's todo */
    char reason[200];
};

/* Initializes a client without data, whatever the struct holds. It asks in this version first (0, 1
 * or 2; for a higher number, in 2), and falls back to the cache's version (RFC 8210 section 7). */
void rtr_client_init(struct rtr_client *client, uint8_t version);

/* Frees the memory of a client. It may be initialized again. */
void rtr_client_free(struct rtr_client *client);

/* Restarts a client after rtr_client_free, without data and with its settings: the waits for a
 * failing cache continue to grow (rtr_link_again). */
void rtr_client_again(struct rtr_client *client);

/* Returns what to do next; `now` is the time. */
enum rtr_client_event rtr_client_next(struct rtr_client *client, int64_t now);

/* Tells a group (rtr.h) what the last event of rtr_client_next means to it, and sets what the
 * program has to do. The client is this member. Several events may be one of the group, which the
 * first call tells. */
void rtr_client_tell(struct rtr_client *client, struct rtr_group *group, size_t member,
                     struct rtr_group_answer *answer);

/* Requests current data: the next call of rtr_client_next asks, or connects, unless it did less
 * than a pause ago (docs/SESSIONS.md); then that happens after the pause. No-op while the client
 * waits for an answer or a connection. */
void rtr_client_ask_now(struct rtr_client *client);

/* Reports whether the client has data that haven't expired at this time, even if rtr_client_next
 * hasn't returned RTR_CLIENT_DROPPED yet. */
bool rtr_client_has_data(const struct rtr_client *client, int64_t now);

/* Returns the number of payload units of the data, which it counts; 0 if there are none. */
size_t rtr_client_payloads(const struct rtr_client *client);

/* After RTR_CLIENT_DATA or RTR_CLIENT_DROPPED, computes the changes from the former data to these,
 * and returns them with their length, as rtr_changes_between writes them; `data` itself, if there
 * were none before. Returns null without memory, and after other events. The changes are valid
 * until the next call of this, rtr_client_changes_from, rtr_client_next or rtr_client_free. */
const uint8_t *rtr_client_changes(struct rtr_client *client, size_t *length);

/* Computes the changes from these data, as another client's, to the client's own, as
 * rtr_client_changes; from no data, if `data` is null. Returns null without memory, and if the
 * bytes aren't data. */
const uint8_t *rtr_client_changes_from(struct rtr_client *client, const uint8_t *data,
                                       size_t length, size_t *changes_length);

/* Returns the time at which to give up the next address of the cache's name, if this many addresses
 * are left. Each gets an equal share of the time that is left, as in the other languages of the
 * library; the last one has until `wakes`, when RTR_CLIENT_CLOSE follows. Call it after
 * RTR_CLIENT_CONNECT. */
static inline int64_t rtr_client_tried_until(const struct rtr_client *client, int64_t now,
                                             size_t addresses)
{
    int64_t left = client->wakes > now ? client->wakes - now : 0;
    return now + left / (addresses ? (int64_t)addresses : 1);
}

/* The connection is established. Returns false, and does nothing, unless RTR_CLIENT_CONNECT asked
 * for it and nothing else was reported since. */
bool rtr_client_connected(struct rtr_client *client);

/* The connection failed or broke for this reason; null means that the cache closed it, and may
 * still read. Bytes that were read before are still processed. RTR_CLIENT_CLOSE follows. Returns
 * false, and does nothing, if there is none and none is asked for, or its loss was reported. */
bool rtr_client_lost(struct rtr_client *client, const char *reason);

/* Returns the buffer to read into, and sets `length` to its size: not 0 after RTR_CLIENT_WAIT while
 * there is a connection. The next rtr_client_next may move it. */
uint8_t *rtr_client_room(struct rtr_client *client, size_t *length);

/* Reports that `length` bytes were read into the buffer of rtr_client_room. Returns false if it is
 * smaller: then none of them are used, and the connection ends as after rtr_client_lost; or if
 * there is no connection, or its loss was reported: then nothing happens. */
bool rtr_client_received(struct rtr_client *client, size_t length);

/* Returns the bytes to send, and sets `length` to their number, which may be 0. */
const uint8_t *rtr_client_output(const struct rtr_client *client, size_t *length);

/* Reports that `length` of these bytes were sent. Returns false if there are fewer: then the
 * connection ends as after rtr_client_lost. */
bool rtr_client_sent(struct rtr_client *client, size_t length);

#ifdef __cplusplus
}
#endif

#endif
