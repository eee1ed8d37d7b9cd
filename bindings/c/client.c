/* A router's end: asks a cache for its data, and prints what changes as it comes (RFC 8210).
 *
 * usage: client (HOST:PORT | (--prefer HOST:PORT).. | --fd N)
 *               [--version 0|1|2] [--once] [--json]
 *
 * With --prefer, up to 16 times, it uses the data of the first of these caches that answers
 * (section 10; docs/SESSIONS.md says when it asks which). With --fd the descriptor N is a socket
 * that is connected to the cache, as socat passes it; when that closes, the client exits with
 * status 1. The lines are those of rtr_diff, with --json those of rtr_diff --json. On standard
 * error it reports the data at each end of data, and failures. It exits with status 0 after a
 * signal, or with --once after all data came; with 1 if they don't come, or writing fails; with 2
 * for wrong arguments. */
#define _POSIX_C_SOURCE 200809L
#define _DEFAULT_SOURCE /* getentropy */
#include <errno.h>
#include <inttypes.h>
#include <netdb.h>
#include <poll.h>
#include <signal.h>
#include <stdio.h>
#include <stdlib.h>
#include <string.h>
#include <sys/socket.h>
#include <time.h>
#include <unistd.h>
#include "rtr_client.h"

enum { MOST = RTR_MOST_MEMBERS, NONE = -1 };

/* A cache, and the client that asks it. */
static struct member {
    struct rtr_client client;
    char *host, *port;
    int socket;
    struct addrinfo *all, *tried; /* its addresses, and the one that is being tried */
    int64_t tried_until;
    bool runs, kept; /* `kept`: it ran before */
    bool failed;     /* it failed, or sent no data that count */
} members[MOST];

/* The member whose data are shown, or NONE, and the data as shown. */
static int source = NONE;
static uint8_t *shown;
static size_t shown_length;
static struct rtr_group group;
static bool once, json;

/* The descriptor of --fd until it is used; then there is no other connection. */
static int passed_fd = NONE;
static bool single;

/* Returns the time in milliseconds. */
static int64_t now(void)
{
    struct timespec time;
    clock_gettime(CLOCK_MONOTONIC, &time);
    return (int64_t)time.tv_sec * 1000 + time.tv_nsec / 1000000;
}

/* Prints the change at the start of these bytes, and returns its length. */
static size_t print_change(const uint8_t *bytes, size_t length)
{
    static uint8_t text[1 << 18]; /* longer than any change's line */
    struct rtr_line line;
    if (json)
        rtr_change_json(bytes, length, text, sizeof text, &line);
    else
        rtr_change_line(bytes, length, text, sizeof text, &line);
    if (line.length > 0) {
        fwrite(text, 1, line.length, stdout);
        putchar('\n');
    }
    return line.size;
}

/* Prints these changes. Exits if there is no memory for them, or if printing fails. */
static void print_changes(const uint8_t *changes, size_t length)
{
    if (!changes) {
        fprintf(stderr, RTR_FAILURE_NO_MEMORY "\n");
        _exit(1);
    }
    for (size_t at = 0, size = 1; size > 0; at += size)
        size = print_change(changes + at, length - at);
    if (fflush(stdout) || ferror(stdout)) {
        perror("standard output");
        _exit(1);
    }
}

/* Returns the milliseconds until a time, as poll takes them. */
static int left(int64_t until)
{
    int64_t time = until - now();
    return time < 0 ? 0 : time < 60000 ? (int)time : 60000;
}

/* ---- connections */

static void close_socket(struct member *m)
{
    if (m->socket != NONE)
        close(m->socket);
    if (m->all)
        freeaddrinfo(m->all);
    m->socket = NONE;
    m->all = m->tried = NULL;
}

/* Reports whether the time of the address that is being tried is over, and there is another one: the
 * client itself ends the last attempt. */
static bool is_late(const struct member *m)
{
    return m->tried && m->tried->ai_next && m->tried_until <= now();
}

/* Tries the next address, for its share of the time that is left for all of them. If none is left,
 * the connection is lost, for this reason. */
static void try_next(struct member *m, const char *reason)
{
    for (; m->tried; m->tried = m->tried->ai_next) {
        int type = SOCK_STREAM | SOCK_CLOEXEC | SOCK_NONBLOCK;
        size_t count = 0;
        for (struct addrinfo *rest = m->tried; rest; rest = rest->ai_next)
            count++;
        m->tried_until = rtr_client_tried_until(&m->client, now(), count);
        m->socket = socket(m->tried->ai_family, type, 0);
        if (m->socket != NONE
            && (connect(m->socket, m->tried->ai_addr, m->tried->ai_addrlen) == 0
                || errno == EINPROGRESS))
            return;
        reason = strerror(errno);
        if (m->socket != NONE)
            close(m->socket);
        m->socket = NONE;
    }
    close_socket(m);
    rtr_client_lost(&m->client, reason);
}

static void dial(struct member *m)
{
    struct addrinfo hints = {.ai_socktype = SOCK_STREAM};
    int unknown = getaddrinfo(m->host, m->port, &hints, &m->all);
    m->tried = m->all = unknown ? NULL : m->all;
    try_next(m, unknown ? gai_strerror(unknown) : "no address");
}

/* Uses the connection of --fd. */
static void take(struct member *m)
{
    int type;
    socklen_t size = sizeof type;
    m->socket = passed_fd;
    passed_fd = NONE;
    if (m->socket == NONE)
        rtr_client_lost(&m->client, RTR_FAILURE_NO_OTHER);
    else if (getsockopt(m->socket, SOL_SOCKET, SO_TYPE, &type, &size) < 0)
        rtr_client_lost(&m->client, strerror(errno));
    else
        rtr_client_connected(&m->client);
}

/* The address being tried has answered, or its time is over: uses the connection, or tries the
 * next address. */
static void look(struct member *m, bool answered)
{
    int error = answered ? 0 : ETIMEDOUT;
    socklen_t size = sizeof error;
    if (answered && getsockopt(m->socket, SOL_SOCKET, SO_ERROR, &error, &size) < 0)
        error = errno;
    if (error) {
        close(m->socket);
        m->socket = NONE;
        m->tried = m->tried->ai_next;
        try_next(m, strerror(error));
    } else {
        freeaddrinfo(m->all);
        m->all = m->tried = NULL;
        rtr_client_connected(&m->client);
    }
}

/* Sends some of the unsent bytes; returns false if the connection broke. */
static bool send_some(struct member *m)
{
    size_t length;
    const uint8_t *output = rtr_client_output(&m->client, &length);
    ssize_t count = send(m->socket, output, length, MSG_NOSIGNAL | MSG_DONTWAIT);
    if (count >= 0)
        rtr_client_sent(&m->client, (size_t)count);
    else if (errno != EAGAIN && errno != EINTR)
        rtr_client_lost(&m->client, strerror(errno));
    return count >= 0 || errno == EAGAIN || errno == EINTR;
}

/* Reads some of the bytes that came. */
static void receive_some(struct member *m)
{
    size_t length;
    uint8_t *input = rtr_client_room(&m->client, &length);
    ssize_t count = recv(m->socket, input, length, MSG_DONTWAIT);
    if (count > 0)
        rtr_client_received(&m->client, (size_t)count);
    else if (count == 0 || (errno != EAGAIN && errno != EINTR))
        rtr_client_lost(&m->client, count < 0 ? strerror(errno) : NULL);
}

/* Waits until a socket is ready, but not after this time, and returns whether it is. A signal
 * doesn't end the wait. */
static bool await(int socket, short events, int64_t until)
{
    struct pollfd ready = {.fd = socket, .events = events};
    int count;
    do
        count = poll(&ready, 1, left(until));
    while (count < 0 && errno == EINTR);
    return count == 1;
}

/* Reads and drops what the peer sends, until it closes or the time is over: closing with unread
 * bytes would reset the connection, and the bytes sent last might not arrive. */
static void discard(int socket, int64_t until)
{
    uint8_t read[4096];
    bool open = true;
    for (ssize_t rest = RTR_LAST_REPORT_BYTES; open && rest > 0 && await(socket, POLLIN, until);) {
        ssize_t count = recv(socket, read, sizeof read, MSG_DONTWAIT);
        open = count > 0 || (count < 0 && (errno == EAGAIN || errno == EINTR));
        rest -= count > 0 ? count : 0;
    }
}

/* Sends the last bytes, if there are any, and closes the connection so that they arrive. */
static void hang_up(struct member *m)
{
    size_t length = 0;
    int64_t until = now() + m->client.report_limit;
    if (m->socket != NONE && !m->tried)
        rtr_client_output(&m->client, &length);
    bool last = length > 0;
    while (length && await(m->socket, POLLOUT, until) && send_some(m))
        rtr_client_output(&m->client, &length);
    if (last) {
        shutdown(m->socket, SHUT_WR);
        discard(m->socket, until);
    }
    close_socket(m);
}

/* Waits for sockets or until a client wakes, then sends and reads what is possible. */
static void wait_for_all(void)
{
    struct pollfd ready[MOST];
    int64_t wakes = INT64_MAX;
    for (size_t i = 0; i < group.runs; i++) {
        size_t length;
        rtr_client_output(&members[i].client, &length);
        ready[i].fd = members[i].socket;
        ready[i].events = members[i].tried ? POLLOUT : length ? POLLIN | POLLOUT : POLLIN;
        if (members[i].client.wakes < wakes)
            wakes = members[i].client.wakes;
        if (members[i].tried && members[i].tried_until < wakes)
            wakes = members[i].tried_until;
    }
    if (rtr_group_wakes(&group) < (uint64_t)wakes)
        wakes = (int64_t)rtr_group_wakes(&group);
    if (poll(ready, group.runs, left(wakes)) < 0)
        return;
    for (size_t i = 0; i < group.runs; i++) {
        struct member *m = &members[i];
        bool may = ready[i].fd != NONE && ready[i].revents;
        if (m->tried && (may || is_late(m)))
            look(m, may);
        else if (may && (!(ready[i].revents & POLLOUT) || send_some(m)))
            receive_some(m);
    }
}

/* ---- the data shown, and the caches asked */

static void start(size_t number, uint8_t version)
{
    struct member *m = &members[number];
    if (m->kept) {
        rtr_client_again(&m->client);
    } else {
        rtr_client_init(&m->client, version);
        uint16_t *chance = &m->client.settings.chance;
        if (getentropy(chance, sizeof *chance) != 0)
            *chance = (uint16_t)(now() ^ getpid());
    }
    m->socket = NONE;
    m->runs = m->kept = true;
}

static void stop(struct member *m)
{
    if (m->runs)
        close_socket(m);
    if (m->runs)
        rtr_client_free(&m->client);
    m->runs = false;
}

/* Prints the changes from the data shown to those of a member, which are shown from then on. */
static void show(size_t number)
{
    struct rtr_client *c = &members[number].client;
    size_t length, payloads = rtr_client_payloads(c);
    uint8_t *copy = malloc(c->data_length);
    const uint8_t *changes = rtr_client_changes_from(c, shown, shown_length, &length);
    print_changes(copy ? changes : NULL, length);
    fprintf(stderr, "session %u serial %" PRIu32 " version %u: %zu payload%s\n", c->end.session,
            c->end.serial, c->end.version, payloads, payloads == 1 ? "" : "s");
    free(shown);
    shown = memcpy(copy, c->data, c->data_length);
    shown_length = c->data_length;
    source = (int)number;
}

/* Carries out the group's answer to an event of a member. */
static void obey(const struct rtr_group_answer *answer, size_t number)
{
    size_t length;
    uint8_t version = members[0].client.settings.highest;
    if (answer->shown == RTR_GROUP_DATA)
        show(answer->member);
    if (answer->shown == RTR_GROUP_NOTHING) {
        const uint8_t *changes = rtr_client_changes(&members[number].client, &length);
        print_changes(changes, length);
        free(shown);
        shown = NULL;
        source = NONE;
    }
    for (size_t i = answer->stop; answer->stops && i < MOST; i++)
        stop(&members[i]);
    if (answer->starts)
        start(answer->start, version);
}

/* Tells the group what happened to a client, and records whether that is a failure. */
static void tell(size_t number, enum rtr_client_event event, struct rtr_group_answer *answer)
{
    struct member *m = &members[number];
    rtr_client_tell(&m->client, &group, number, answer);
    bool some = rtr_end_offset(m->client.data, m->client.data_length) > 0; /* it has payloads */
    bool empty = event == RTR_CLIENT_DATA && !rtr_group_counts(&group, some);
    if (empty)
        fprintf(stderr, "%s:%s: " RTR_FAILURE_EMPTY "\n", m->host, m->port);
    if (event >= RTR_CLIENT_DATA)
        m->failed = event != RTR_CLIENT_DATA || empty;
}

/* Reports whether all caches failed, so that none is left for --once. */
static bool all_failed(void)
{
    for (size_t i = 0; i < group.count; i++)
        if (!members[i].failed)
            return false;
    return true;
}

/* Carries out an event of a client, and tells the group of it. Returns whether the program is
 * done: with --once all caches were asked, or the only connection was closed. */
static bool act(size_t number, enum rtr_client_event event)
{
    struct member *m = &members[number];
    struct rtr_group_answer answer = {.shown = RTR_GROUP_SAME};
    if (event == RTR_CLIENT_CONNECT && single)
        take(m);
    else if (event == RTR_CLIENT_CONNECT)
        dial(m);
    if (event == RTR_CLIENT_NO_DATA || event == RTR_CLIENT_FAILED)
        fprintf(stderr, "%s:%s: %s\n", m->host, m->port, m->client.text);
    tell(number, event, &answer);
    obey(&answer, number);
    bool last =
        (once && (source != NONE || all_failed())) || (single && event == RTR_CLIENT_FAILED);
    if (last || event == RTR_CLIENT_CLOSE)
        hang_up(m);
    return last;
}

/* Tells the group that time has passed. */
static void tick(void)
{
    struct rtr_group_answer answer;
    rtr_group_tick(&group, (uint64_t)now(), &answer);
    obey(&answer, 0);
}

/* Follows the caches, or asks once, or uses one connection; returns the exit status. */
static int follow(void)
{
    for (;;) {
        bool waits = true;
        tick();
        for (size_t i = 0; i < group.runs; i++) {
            enum rtr_client_event event = rtr_client_next(&members[i].client, now());
            waits = waits && event == RTR_CLIENT_WAIT;
            if (event != RTR_CLIENT_WAIT && act(i, event))
                return !once || source == NONE;
        }
        if (waits)
            wait_for_all();
    }
}

/* ---- arguments */

/* Splits a cache's address: a host, or an IPv6 address in brackets, a colon and a port. */
static bool split(char *word, char **host, char **port)
{
    char *colon = strrchr(word, ':');
    if (word[0] == '-' || !colon)
        return false;
    bool bracketed = word[0] == '[' && colon[-1] == ']';
    *host = word + bracketed;
    *port = colon + 1;
    colon[bracketed ? -1 : 0] = 0;
    return true;
}

/* Parses the number of a descriptor. */
static bool descriptor(const char *word)
{
    size_t length = strspn(word, "0123456789");
    bool valid = length > 0 && length < 10 && !word[length];
    passed_fd = valid ? (int)strtol(word, NULL, 10) : NONE;
    return valid;
}

/* Parses a version of the protocol: a digit. */
static bool protocol(const char *word, uint8_t *version)
{
    *version = (uint8_t)(word[0] - '0');
    return word[0] && !word[1] && *version <= RTR_HIGHEST_VERSION;
}

/* Parses the arguments, and returns how many caches they name, or 0 if they are wrong. */
static size_t read_words(int words_count, char **words, uint8_t *version)
{
    size_t count = 0;
    bool understood = true, preferred = false;
    for (int i = 1; i < words_count; i++) {
        bool valued = i + 1 < words_count, prefers = valued && !strcmp(words[i], "--prefer");
        if (!strcmp(words[i], "--version") && valued)
            understood &= protocol(words[++i], version);
        else if (!strcmp(words[i], "--once"))
            once = true;
        else if (!strcmp(words[i], "--json"))
            json = true;
        else if (!strcmp(words[i], "--fd") && valued && !count) {
            single = true;
            members[count].host = "descriptor";
            members[count++].port = words[++i];
            understood &= descriptor(words[i]);
        } else if (count < MOST && (!count || (preferred && prefers))) {
            preferred = prefers;
            i += prefers;
            understood &= split(words[i], &members[count].host, &members[count].port);
            count++;
        } else
            understood = false;
    }
    return understood ? count : 0;
}

/* A signal ends the client. */
static void end(int number)
{
    (void)number;
    _exit(0);
}

int main(int words_count, char **words)
{
    uint8_t version = RTR_USUAL_VERSION;
    size_t count = read_words(words_count, words, &version);
    if (!count) {
        fprintf(stderr, "usage: client (HOST:PORT | (--prefer HOST:PORT).. | --fd N)\n"
                        "              [--version 0|1|2] [--once] [--json]\n");
        return 2;
    }
    struct rtr_group_settings settings;
    rtr_group_usual(&settings);
#ifdef PATIENCE
    settings.patience = PATIENCE;
#endif
    settings.empty_is_data = count == 1; /* there is no other cache to ask */
    rtr_group_init(&group, &settings, count, (uint64_t)now());
    start(0, version);
    signal(SIGINT, once ? SIG_DFL : end);
    signal(SIGTERM, once ? SIG_DFL : end);
    int status = follow();
    for (size_t i = 0; i < MOST; i++)
        stop(&members[i]);
    free(shown);
    return status;
}
