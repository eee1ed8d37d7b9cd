/* A cache's end of the RPKI to Router protocol (RFC 8210) for all of its routers, without sockets,
 * files or a clock: its data, the changes from earlier data, and the answers to each router.
 * docs/SESSIONS.md has its rules and limits; cache.c is a program over it.
 *
 * Copyright (c) 2026, the authors of Fishreef
 * BSD 3-Clause License: see the file LICENSE at the top of the repository.
 *
 * The program accepts connections, sends and receives bytes, and passes the time. A struct
 * rtr_server has the data, and each connection a struct rtr_served. The program calls
 * rtr_served_next in a loop, and does what that returns:
 *
 *   RTR_SERVED_WAIT    send what rtr_served_output returns, and read into the buffer that
 *                      rtr_served_room returns; call again when something was sent or read, the
 *                      server has new data, or the time is `wakes`
 *   RTR_SERVED_FINISH  the last report is sent: shut the connection down for writing, and read and
 *                      ignore what comes, so that the router gets the report before the close. When
 *                      the router closes the connection, call rtr_served_lost; call again then, or
 *                      when the time is `wakes`
 *   RTR_SERVED_CLOSE   close the connection, and call rtr_served_free
 *
 * Once the connection ends, `text` says why. Each call returns at once. A connection is a struct of
 * 488 bytes; it holds no data, only how much of the server's was sent. A server and its connections
 * are used by one thread at a time. Without memory, a connection ends, and new data are refused.
 *
 * The door of the server (rtr_door_next) decides whether a new connection is served, refused with
 * a report of code 1, or left in the system's queue: a program calls rtr_door_next(&server.door,
 * server.spare) before it accepts a connection. One that is accepted where that returns
 * RTR_ENTRY_WAIT is closed without a report.
 *
 * Routers get new data once they are saved, so that a cache never has other data under a session
 * and serial number that a router knows, over any number of restarts and power cuts (RFC 8210
 * section 5.1). A program that saves calls
 *
 *   at a start   rtr_server_init, syncs the folder of its file, since the last run may have ended
 *                before that, and rtr_server_restore with the bytes of the file. Without a file the
 *                cache is new: its data need a session that it never used. If the file can't be
 *                read, or isn't restored, or the folder can't be synced, the program ends: else it
 *                may serve other data under a serial number that a router knows
 *   for data     rtr_server_update. Routers still get the data before
 *   to save      while rtr_server_to_save returns a store, writes its head and the store to a new
 *                file, syncs it (fsync), renames it over its file, and syncs the folder; then
 *                rtr_server_saved. If any of these fails, it tries again later, with all of them
 *
 * An older file, from a backup, can't be told from the newest one: after it is restored, give the
 * data a session that was never used. A program that doesn't save calls rtr_server_unsaved at each
 * start, with a new session.
 */
#ifndef FISHREEF_RTR_CACHE_H
#define FISHREEF_RTR_CACHE_H

#include "rtr.h"

#ifdef __cplusplus
extern "C" {
#endif

enum rtr_served_event { RTR_SERVED_WAIT, RTR_SERVED_CLOSE, RTR_SERVED_FINISH };

/* The result of giving data to a server. */
enum rtr_update {
    RTR_UPDATE_TAKEN,   /* they wait to be saved; if the server doesn't save, it serves them */
    RTR_UPDATE_SAME,    /* the server has them already */
    RTR_UPDATE_REFUSED, /* a unit is refused for `status`, at `offset` */
    RTR_UPDATE_SERIAL,  /* their serial number isn't after the present one (RFC 1982) */
    RTR_UPDATE_TIMING,  /* only their timings differ, under the same serial number */
    RTR_UPDATE_TIMES,   /* their timings break `time_rule` (RFC 8210 section 6) */
    RTR_UPDATE_LEFT,    /* the cache has used their session, and another since (section 5.1) */
    RTR_UPDATE_SESSION, /* the server doesn't save, and began with another session */
    RTR_UPDATE_VERSION, /* they are of a higher protocol version than the saved data, which another
                           program wrote, or an earlier one of this cache */
    RTR_UPDATE_TORN,    /* the saved bytes are damaged, or no cache wrote them */
    RTR_UPDATE_MEMORY   /* there is no memory for them */
};

/* Bytes to send. If `file` isn't -1, they are also at offset `place` of that file in memory, from
 * which sendfile sends them without a copy; it raises SIGPIPE, so ignore that. */
struct rtr_part {
    const uint8_t *at;
    size_t length;
    int file;
    int64_t place;
};

/* Bytes that several connections share, and encoded changes: private to rtr_cache.c. */
struct rtr_shared;
struct rtr_encoded;

/* Times are in milliseconds, by a monotonic clock that isn't negative. */
struct rtr_server {
    /* Set by rtr_server_init to the defaults. A program may change the settings before the first
     * data and connection. */
    struct rtr_server_settings settings;

    /* For the program to read. */
    struct rtr_door door;       /* how many connections are served, and how many refused */
    struct rtr_present present; /* the session and serial number of the data that routers get */
    struct rtr_unit end;        /* the end of these data */
    size_t payloads;            /* the number of their payload units */
    size_t offset;              /* the offset of the unit that was refused, for `status` */
    uint8_t status;             /* an rtr_status */
    uint8_t time_rule;          /* an rtr_time_rule */
    uint32_t refused;           /* the serial number of the data of the last update */
    bool has_cut;               /* whether the input that was loaded last has an answer without an
                                   end of data, which is left out */

    /* Whether the system has another descriptor besides that of the next connection; if not, the
     * connection is refused. Default true; a program may change it at any time. */
    bool spare;

    /* Private. */
    uint64_t number; /* counts the data that were served */
    struct rtr_stores stores;
    struct rtr_shared *held[2]; /* the buffers of `stores` */
    /* The data in other versions, encoded when a router first asks in one. */
    struct rtr_shared *forms[RTR_HIGHEST_VERSION + 1];
    uint32_t *kept; /* the serial numbers from which there are changes */
    size_t kept_count, kept_capacity;
    struct rtr_encoded *encoded;
    size_t encoded_count;
};

/* The longest unit at the start of an answer: a notify. */
enum { RTR_SERVED_HEAD = RTR_SERIAL_SIZE, RTR_SERVED_INPUT = 64 };

struct rtr_served {
    /* For the program to read. */
    int64_t wakes;
    char text[200]; /* why the connection ends; empty if the router closed it between two units */

    /* Private. */
    struct rtr_server *server;
    struct rtr_cache cache;
    struct rtr_connection connection;
    struct rtr_shared *body; /* what is sent after the head */
    uint64_t offset;         /* of the input in all bytes that were read */
    uint8_t *input;          /* `small`, or the buffer of a longer unit */
    uint8_t entry;           /* an rtr_entry */
    uint8_t head_length, head[RTR_SERVED_HEAD], small[RTR_SERVED_INPUT];
};

/* Initializes a server without data, which saves, whatever the struct holds. */
void rtr_server_init(struct rtr_server *server);

/* Turns saving off, after rtr_server_init: data are served as soon as they are taken, and have to
 * be of this session, which no earlier start used. */
void rtr_server_unsaved(struct rtr_server *server, uint16_t session);

/* Frees the memory of a server. Free all of its connections before. */
void rtr_server_free(struct rtr_server *server);

/* Takes new data from a recording or a list, which rtr_load loads. `date` is the time in
 * milliseconds since 1970. New data replace those that wait to be saved. RTR_UPDATE_SAME: routers
 * get these data already, and nothing waits to be saved any more. After any other result nothing
 * changes.
 *
 * Begin serial numbers at 1: a router that lost the first answer, such as BIRD 2.0, asks for the
 * changes since serial number 0, and there are none if that is the present one. */
enum rtr_update rtr_server_update(struct rtr_server *server, int64_t date, const uint8_t *input,
                                  size_t length);

/* Returns the store that waits to be saved, of `length` bytes, and sets `head` to the bytes before
 * it in the file; null, with length 0, if none waits. It stays until the next update. */
const uint8_t *rtr_server_to_save(const struct rtr_server *server, struct rtr_store_head *head,
                                  size_t *length);

/* Reports that the store of rtr_server_to_save is in the file, on the disk: its data are served
 * from now on. Call rtr_served_next for each connection then. */
void rtr_server_saved(struct rtr_server *server);

/* Loads a saved file into a server that has no data yet, and serves its data, with the changes from
 * earlier ones. A file of the earlier form, which begins with rtrkept1, is loaded too.
 * RTR_UPDATE_TAKEN, _TORN, _TIMES or _MEMORY; _SAME, and nothing happens, if the server has data or
 * doesn't save. */
enum rtr_update rtr_server_restore(struct rtr_server *server, const uint8_t *input, size_t length);

/* Initializes a connection that was made at this time, whatever the struct holds. */
void rtr_served_init(struct rtr_served *served, struct rtr_server *server, int64_t now);

/* Frees the memory of a connection. */
void rtr_served_free(struct rtr_served *served);

/* Returns what to do next; `now` is the time. */
enum rtr_served_event rtr_served_next(struct rtr_served *served, int64_t now);

/* Reports that the connection broke, for this reason: nothing is sent on it any more. Null means
 * that the router closed it, and may still read: queries that were read before are answered. */
void rtr_served_lost(struct rtr_served *served, const char *reason);

/* Returns the buffer to read into, and sets `length` to its size: 0 while there are bytes to send,
 * and after the router closed or the connection ended. */
uint8_t *rtr_served_room(struct rtr_served *served, size_t *length);

/* Reports that `length` bytes were read, at this time, into the buffer of rtr_served_room. Returns
 * false if it is smaller: then none of them are used, and the connection ends as after
 * rtr_served_lost. */
bool rtr_served_received(struct rtr_served *served, int64_t now, size_t length);

/* Sets `parts` to the bytes to send, and returns the number of parts: 0, 1 or 2. */
int rtr_served_output(const struct rtr_served *served, struct rtr_part parts[2]);

/* Reports that `length` of these bytes were sent at this time. Returns false if there are fewer:
 * then the connection ends as after rtr_served_lost. */
bool rtr_served_sent(struct rtr_served *served, int64_t now, size_t length);

/* Returns the text of an rtr_update other than RTR_UPDATE_TAKEN and RTR_UPDATE_SAME. */
const char *rtr_update_text(const struct rtr_server *server, enum rtr_update update);

#ifdef __cplusplus
}
#endif

#endif
