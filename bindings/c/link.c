/* Follows a cache over TCP, and prints what changes (RFC 8210): a loop over the calls of rtr.h for
 * a router's end.
 *
 * usage: link HOST:PORT [0|1|2]   with the version to ask in first (default 1)
 *
 * It prints the lines of rtr_diff. On standard error it reports the data at each end of data, and
 * failures. It runs until a signal. */
#define _POSIX_C_SOURCE 200809L
#define _DEFAULT_SOURCE /* getentropy */
#include <errno.h>
#include <inttypes.h>
#include <netdb.h>
#include <poll.h>
#include <stdio.h>
#include <stdlib.h>
#include <string.h>
#include <sys/socket.h>
#include <time.h>
#include <unistd.h>
#include "rtr.h"

static struct rtr_link session;
static struct rtr_link_buffers buffers;
static char *host, *port;
static int connection = -1;
static struct addrinfo *addresses, *address; /* while connecting: all, and the one being tried */
static uint64_t deadline, tried_until;       /* of all addresses, and of the one being tried */
static struct rtr_link_state shown;          /* the state when data were last printed */

/* Returns the time in milliseconds. */
static uint64_t now(void)
{
    struct timespec time;
    clock_gettime(CLOCK_MONOTONIC, &time);
    return (uint64_t)time.tv_sec * 1000 + (uint64_t)time.tv_nsec / 1000000;
}

/* Aborts if a call was refused: then this program has a bug. */
static void must(uint8_t status)
{
    if (status != RTR_LINK_OK) {
        fprintf(stderr, "link: a call was refused: status %u\n", status);
        abort();
    }
}

static struct rtr_link_state state(void)
{
    struct rtr_link_state held;
    must(rtr_link_state(&session, &buffers, now(), &held));
    return held;
}

/* Returns the milliseconds until a time, as poll takes them. */
static int left(uint64_t until)
{
    uint64_t time = now();
    return until <= time ? 0 : until - time < 60000 ? (int)(until - time) : 60000;
}

/* ---- the loop */

static void hang_up(void)
{
    if (connection >= 0)
        close(connection);
    if (addresses)
        freeaddrinfo(addresses);
    connection = -1;
    addresses = address = NULL;
}

/* Tries to connect to this address and those after it, each for its share of the time that is
 * left. If none is left, the connection is lost. */
static void try_address(struct addrinfo *first)
{
    for (address = first; address; address = address->ai_next) {
        int type = SOCK_STREAM | SOCK_CLOEXEC | SOCK_NONBLOCK;
        uint64_t count = 0, time = now();
        for (struct addrinfo *rest = address; rest; rest = rest->ai_next)
            count++;
        tried_until = time < deadline ? time + (deadline - time) / count : time;
        connection = socket(address->ai_family, type, 0);
        if (connection >= 0
            && (connect(connection, address->ai_addr, address->ai_addrlen) == 0
                || errno == EINPROGRESS))
            return;
        if (connection >= 0)
            close(connection);
        connection = -1;
    }
    hang_up();
    must(rtr_link_lost(&session));
}

static void dial(uint64_t until)
{
    struct addrinfo hints = {.ai_socktype = SOCK_STREAM};
    deadline = until;
    addresses = getaddrinfo(host, port, &hints, &addresses) ? NULL : addresses;
    try_address(addresses);
}

/* The address being tried has answered, or its time is over: uses the connection, or tries the
 * next address. */
static void look(bool answered)
{
    int error = 0;
    socklen_t size = sizeof error;
    if (!answered || getsockopt(connection, SOL_SOCKET, SO_ERROR, &error, &size) < 0 || error) {
        close(connection);
        connection = -1;
        try_address(address->ai_next);
        return;
    }
    freeaddrinfo(addresses);
    addresses = address = NULL;
    must(rtr_link_opened(&session));
}

/* Sends some of the unsent bytes; returns false if the connection broke. */
static bool send_some(void)
{
    size_t length;
    struct rtr_link_state held = state();
    const uint8_t *output = rtr_link_output(&buffers, &held, &length);
    ssize_t count = send(connection, output, length, MSG_NOSIGNAL | MSG_DONTWAIT);
    if (count >= 0)
        must(rtr_link_sent(&session, &buffers, (size_t)count));
    return count >= 0 || errno == EAGAIN || errno == EINTR;
}

/* Reads some bytes; returns false if the peer closed, or the connection broke. */
static bool receive_some(void)
{
    size_t length;
    struct rtr_link_state held = state();
    uint8_t *input = rtr_link_room(&buffers, &held, &length);
    ssize_t count = recv(connection, input, length, MSG_DONTWAIT);
    if (count > 0)
        must(rtr_link_received(&session, &buffers, (size_t)count));
    return count > 0 || (count < 0 && (errno == EAGAIN || errno == EINTR));
}

/* Waits until the socket is ready, and sends and reads; or until the time `wakes`. */
static void wait_until(uint64_t wakes)
{
    struct pollfd ready = {.fd = connection, .events = POLLIN};
    if (address || state().unsent)
        ready.events |= POLLOUT;
    int count = poll(&ready, 1, left(address && tried_until < wakes ? tried_until : wakes));
    if (address && (count > 0 || (count == 0 && tried_until <= now())))
        look(count > 0);
    else if (!address && count > 0
             && ((ready.revents & POLLOUT && !send_some()) || !receive_some())) {
        hang_up();
        must(rtr_link_lost(&session));
    }
}

/* Waits until the connection is ready, but not after this time, and returns whether it is. A
 * signal doesn't end the wait. */
static bool await(short events, uint64_t until)
{
    struct pollfd ready = {.fd = connection, .events = events};
    int count;
    do
        count = poll(&ready, 1, left(until));
    while (count < 0 && errno == EINTR);
    return count == 1;
}

/* Reads and drops what the peer sends, until it closes or the time is over: closing with unread
 * bytes would reset the connection, and the bytes sent last might not arrive. */
static void discard(uint64_t until)
{
    uint8_t read[4096];
    bool open = true;
    for (ssize_t rest = RTR_LAST_REPORT_BYTES; open && rest > 0 && await(POLLIN, until);) {
        ssize_t count = recv(connection, read, sizeof read, MSG_DONTWAIT);
        open = count > 0 || (count < 0 && (errno == EAGAIN || errno == EINTR));
        rest -= count > 0 ? count : 0;
    }
}

/* Sends the last bytes, if there are any, and closes the connection so that they arrive. */
static void finish(void)
{
    uint64_t until = now() + RTR_LAST_REPORT_LIMIT;
    bool last = !address && connection >= 0 && state().unsent;
    while (last && state().unsent && await(POLLOUT, until) && send_some()) {
    }
    if (last) {
        shutdown(connection, SHUT_WR);
        discard(until);
    }
    hang_up();
}

/* Grows the buffer that the link asks for; without memory, gives up the answer, and returns
 * false. */
static bool grow_buffer(struct rtr_todo *todo)
{
    size_t size = todo->kind == RTR_TODO_INDEX_ROOM ? sizeof(size_t) : 1, count = todo->room;
    struct {
        void **buffer;
        size_t *length;
    } all[] = {{(void **)&buffers.input, &buffers.input_length},
               {(void **)&buffers.first, &buffers.first_length},
               {(void **)&buffers.second, &buffers.second_length},
               {(void **)&buffers.index, &buffers.index_length},
               {(void **)&buffers.output, &buffers.output_length}},
      *grown = &all[todo->kind - RTR_TODO_INPUT_ROOM];
    void *longer = count <= SIZE_MAX / size ? realloc(*grown->buffer, count * size) : NULL;
    todo->kind = RTR_TODO_GO;
    if (longer) {
        *grown->buffer = longer;
        *grown->length = count;
    } else
        must(rtr_link_give_up(&session, &buffers, now(), todo));
    return longer != NULL;
}

/* ---- output */

/* Prints the changes from the data printed last to those of `held`, which may have none. */
static void print_changes(const struct rtr_link_state *held)
{
    static uint8_t text[1 << 18]; /* longer than any change's line */
    struct rtr_line line = {.size = 1};
    struct rtr_data_answer answer;
    size_t length, new_length;
    const uint8_t *old = rtr_link_data(&buffers, &shown, &length);
    const uint8_t *new = rtr_link_data(&buffers, held, &new_length);
    uint8_t *output = malloc(length + new_length);
    if (!output) {
        fprintf(stderr, "link: " RTR_FAILURE_NO_MEMORY "\n");
        exit(1);
    }
    rtr_changes_between(old, length, new, new_length, output, length + new_length, &answer);
    for (size_t at = 0; line.size > 0; at += line.size) {
        rtr_change_line(output + at, answer.written - at, text, sizeof text, &line);
        if (line.length > 0)
            printf("%.*s\n", (int)line.length, (const char *)text);
    }
    free(output);
    fflush(stdout);
}

/* Prints the changes to new data, and their end of data, unless they have already expired. */
static void show(void)
{
    size_t length;
    struct rtr_unit end;
    struct rtr_link_state held = state();
    const uint8_t *data = rtr_link_data(&buffers, &held, &length);
    size_t at = rtr_end_offset(data, length);
    print_changes(&held);
    if (data && rtr_next(data + at, length - at, &end) == RTR_OK)
        fprintf(stderr, "session %u serial %" PRIu32 " version %u\n", end.session, end.serial,
                end.version);
    shown = held;
}

/* Prints the withdrawal of all data, which were dropped. */
static void drop(void)
{
    struct rtr_link_state none = {.shown = 0};
    print_changes(&none);
    shown = none;
}

/* Prints the error report of the cache that is at this offset of the input, which had `filled`
 * bytes. */
static void print_report(size_t offset, size_t filled)
{
    char text[200];
    struct rtr_unit unit;
    rtr_next(buffers.input + offset, filled - offset, &unit);
    rtr_reported_text(rtr_cause_text(RTR_CAUSE_REPORTED), &unit, buffers.input + offset, text,
                      sizeof text);
    fprintf(stderr, "%s:%s: %s\n", host, port, text);
}

/* Reports why the connection ends; `gave_up` is whether memory ran out. */
static void explain(const struct rtr_todo *todo, size_t filled, bool gave_up)
{
    uint8_t text[RTR_TEXT_AT_ROOM];
    size_t length;
    uint8_t failure = rtr_todo_failure(todo, gave_up);
    rtr_text_at(todo->status, todo->detail, todo->position, text, sizeof text, &length);
    if (failure == RTR_CLIENT_REPORTED)
        print_report(todo->offset, filled);
    else if (failure == RTR_CLIENT_REFUSED)
        fprintf(stderr, "%s:%s: %.*s\n", host, port, (int)length, (const char *)text);
    else if (failure == RTR_CLIENT_MEMORY)
        fprintf(stderr, "%s:%s: " RTR_FAILURE_NO_MEMORY "\n", host, port);
    else if (failure != RTR_CLIENT_NONE)
        fprintf(stderr, "%s:%s: %s\n", host, port, rtr_cause_text(todo->cause));
}

/* Carries out what the link asks for, in a loop. */
static void follow(void)
{
    struct rtr_todo todo;
    for (;;) {
        size_t filled = state().filled;
        must(rtr_link_next(&session, &buffers, now(), &todo));
        bool gave_up = todo.kind >= RTR_TODO_INPUT_ROOM && !grow_buffer(&todo);
        if (todo.kind == RTR_TODO_WAIT)
            wait_until(todo.wakes);
        if (todo.kind == RTR_TODO_CONNECT)
            dial(todo.wakes);
        if (todo.kind == RTR_TODO_DATA)
            show();
        if (todo.kind == RTR_TODO_NO_DATA)
            print_report(todo.offset, filled);
        if (todo.kind == RTR_TODO_CLOSE) {
            explain(&todo, filled, gave_up);
            finish();
        }
        if (todo.kind == RTR_TODO_DROPPED || todo.drops)
            drop();
    }
}

int main(int count, char **words)
{
    struct rtr_settings settings;
    char *colon = count > 1 ? strrchr(words[1], ':') : NULL;
    uint8_t version = count > 2 ? (uint8_t)(words[2][0] - '0') : RTR_USUAL_VERSION;
    if (!colon || count > 3) {
        fprintf(stderr, "usage: link HOST:PORT [0|1|2]\n");
        return 2;
    }
    *colon = 0;
    host = words[1];
    port = colon + 1;
    rtr_settings_usual(&settings, version);
    if (getentropy(&settings.chance, sizeof settings.chance) != 0)
        settings.chance = (uint16_t)(now() ^ (uint64_t)getpid());
    rtr_link_init(&session, &settings);
    follow();
}
