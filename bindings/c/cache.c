/* A cache: serves the data of a file to routers, and reloads it when it changes (RFC 8210).
 *
 * usage: cache FILE [--listen ADDRESS:PORT].. [--max-clients N] [--refuse]
 *
 * ADDRESS may be a host name: the cache listens at each of its addresses, or at all of the
 * machine's if it is empty. It listens at [::]:3323 by default, and serves at most 1024 routers at
 * once by default.
 *
 * The file is a recording of one or more answers, or a list in any order; the cache serves the
 * data that it results in. Replace it by renaming. If a new file is refused, the cache logs why
 * and keeps its present data. It saves data in FILE.kept before it serves them, so that after a
 * restart, or a power cut, routers still get changes; if that fails, it logs why, serves the data
 * before, and tries again after 1 second, 2 seconds, and so on up to a minute. With --refuse it
 * answers a serial query for changes that it doesn't have by a report of code 0. On standard error
 * it logs, with the time in UTC, where it listens, which data it serves, and why it refused a file
 * or a router. It exits with status 0 after a signal, 1 if it can't listen or can't read FILE.kept,
 * and 2 for wrong arguments. If FILE.kept is damaged or lost, remove what is left, and give the
 * data a session that was never used. */
#define _GNU_SOURCE
#include <errno.h>
#include <fcntl.h>
#include <inttypes.h>
#include <libgen.h>
#include <malloc.h>
#include <netdb.h>
#include <netinet/in.h>
#include <signal.h>
#include <stdarg.h>
#include <stdio.h>
#include <stdlib.h>
#include <string.h>
#include <sys/epoll.h>
#include <sys/sendfile.h>
#include <sys/socket.h>
#include <sys/stat.h>
#include <time.h>
#include <unistd.h>
#include "rtr_cache.h"

/* Times in milliseconds: between two checks of the file, before accepting again after a failure,
 * which would take the processor, and before data are taken again for which there was no memory. */
enum { LOOK = 250, REST = 100, LATER = 1000 };

/* The most listeners; events per wait; answers to a connection before the others get their turn, so
 * that one that never waits stops no other; sizes of send buffers, with which the system keeps no
 * more for a slow router, and of blocks that are mapped; and the longest file. */
enum { LISTENERS = 16, EVENTS = 64, TURNS = 64, BUFFER = 1 << 17, MAPPED = 1 << 16 };
static const off_t most_bytes = 1 << 28;

/* A connection, in the list of all. */
struct connection {
    struct connection *next, **link; /* `link`: the pointer that leads here */
    int socket;
    bool sending, finishing; /* whether it waits until it can send; whether its report is sent */
    bool logged;             /* whether the log has why it ends */
    int64_t until;           /* its deadline */
    char name[80];
    struct rtr_served served;
};

/* The state of a file, to see whether it changed. */
struct stamp {
    dev_t device;
    ino_t inode;
    uint64_t links;
    off_t size;
    struct timespec written, changed;
};

static struct rtr_server server;
static struct connection *connections;
static int64_t due = INT64_MAX; /* the first of their deadlines */
static char *addresses[LISTENERS];
static int poller, listeners[LISTENERS], listening, named;
static volatile sig_atomic_t ended;

/* Returns the time by a monotonic clock, and since 1970. */
static int64_t time_of(clockid_t clock)
{
    struct timespec time;
    clock_gettime(clock, &time);
    return (int64_t)time.tv_sec * 1000 + time.tv_nsec / 1000000;
}

static int64_t now(void)
{
    return time_of(CLOCK_MONOTONIC);
}

/* Logs a line on standard error, with the time before it. */
static void say(const char *format, ...)
{
    char line[5000], date[32];
    time_t seconds = time(NULL);
    struct tm utc;
    va_list words;
    va_start(words, format);
    vsnprintf(line, sizeof line, format, words);
    va_end(words);
    strftime(date, sizeof date, "%Y-%m-%dT%H:%M:%SZ", gmtime_r(&seconds, &utc));
    fprintf(stderr, "%s %s\n", date, line);
}

/* ---- connections */

/* Writes the address and port of a socket or of its peer. */
static void name_of(int fd, bool peer, char *name, size_t size)
{
    char host[64], port[8];
    struct sockaddr_storage address;
    socklen_t length = sizeof address;
    int failed = (peer ? getpeername : getsockname)(fd, (struct sockaddr *)&address, &length);
    if (failed
        || getnameinfo((struct sockaddr *)&address, length, host, sizeof host, port, sizeof port,
                       NI_NUMERICHOST | NI_NUMERICSERV))
        snprintf(name, size, "unknown");
    else
        snprintf(name, size, strchr(host, ':') ? "[%s]:%s" : "%s:%s", host, port);
}

/* Makes epoll wait until a connection can be read, or written if `sending`. */
static void wait_for(struct connection *c, int how, bool sending)
{
    struct epoll_event event = {.events = sending ? EPOLLOUT : EPOLLIN, .data.ptr = c};
    epoll_ctl(poller, how, c->socket, &event);
    c->sending = sending;
}

/* Sets the deadline of a connection, if nothing happens before. */
static void wait_until(struct connection *c, int64_t until)
{
    c->until = until;
    due = until < due ? until : due;
}

static void forget(struct connection *c)
{
    *c->link = c->next;
    if (c->next)
        c->next->link = c->link;
    close(c->socket);
    rtr_served_free(&c->served);
    free(c);
}

/* Sends parts: the first by sendfile, without a copy, if it is in a file; else all by sendmsg. */
static ssize_t send_parts(int fd, const struct rtr_part *parts, int count)
{
    struct iovec pieces[2];
    off_t offset = parts[0].place;
    if (parts[0].file >= 0)
        return sendfile(fd, parts[0].file, &offset, parts[0].length);
    bool more = count > 1 && parts[1].file >= 0;
    if (more)
        count = 1;
    for (int i = 0; i < count; i++)
        pieces[i] = (struct iovec){(void *)(uintptr_t)parts[i].at, parts[i].length};
    struct msghdr message = {.msg_iov = pieces, .msg_iovlen = (size_t)count};
    return sendmsg(fd, &message, MSG_NOSIGNAL | (more ? MSG_MORE : 0));
}

/* Sends as much as possible; returns false if the connection broke. */
static bool send_some(struct connection *c)
{
    struct rtr_part parts[2];
    int count;
    while ((count = rtr_served_output(&c->served, parts)) > 0) {
        ssize_t sent = send_parts(c->socket, parts, count);
        if (sent < 0 && errno == EAGAIN)
            return true;
        if (sent < 0 && errno != EINTR) {
            rtr_served_lost(&c->served, strerror(errno));
            return false;
        }
        if (sent > 0)
            rtr_served_sent(&c->served, now(), (size_t)sent);
    }
    return true;
}

/* Reads from a connection. Returns whether bytes came or the router closed. */
static bool read_some(struct connection *c)
{
    size_t length;
    uint8_t *input = rtr_served_room(&c->served, &length);
    ssize_t count = length ? recv(c->socket, input, length, MSG_DONTWAIT) : -1;
    if (count > 0)
        rtr_served_received(&c->served, now(), (size_t)count);
    else if (length && (count == 0 || (errno != EAGAIN && errno != EINTR)))
        rtr_served_lost(&c->served, count < 0 ? strerror(errno) : NULL);
    else
        return false;
    return true;
}

/* Sends and reads; returns whether the connection has more to do at once. */
static bool exchange(struct connection *c)
{
    struct rtr_part parts[2];
    bool had_output = rtr_served_output(&c->served, parts) > 0;
    if (!send_some(c))
        return true;
    return !rtr_served_output(&c->served, parts) && (had_output || read_some(c));
}

/* Shuts a connection down for writing once its report is sent, and ignores what comes: with bytes
 * unread, the system would reset the connection at its close, and the report would be lost. Returns
 * whether the router has closed it. */
static bool finish(struct connection *c)
{
    uint8_t ignored[4096];
    if (!c->finishing)
        shutdown(c->socket, SHUT_WR);
    c->finishing = true;
    ssize_t count = recv(c->socket, ignored, sizeof ignored, MSG_DONTWAIT);
    bool closed = count == 0 || (count < 0 && errno != EAGAIN && errno != EINTR);
    if (closed)
        rtr_served_lost(&c->served, NULL);
    return closed;
}

/* Logs why a connection ends, once. */
static void log_end(struct connection *c)
{
    if (c->served.text[0] && !c->logged)
        say("%s: %s", c->name, c->served.text);
    c->logged = c->served.text[0];
}

/* Advances a connection after an event, a deadline or new data, until it has to wait, or closes
 * it. A router that sends queries without a pause is continued after other connections. */
static void act(struct connection *c)
{
    struct rtr_part parts[2];
    bool more = true;
    for (int turns = 0; more && turns < TURNS; turns++) {
        enum rtr_served_event event = rtr_served_next(&c->served, now());
        log_end(c);
        if (event == RTR_SERVED_CLOSE) {
            forget(c);
            return;
        }
        more = event == RTR_SERVED_FINISH ? finish(c) : exchange(c);
    }
    bool sending = rtr_served_output(&c->served, parts) > 0;
    if (sending != c->sending)
        wait_for(c, EPOLL_CTL_MOD, sending);
    wait_until(c, more ? now() : c->served.wakes);
}

/* Accepts a connection. */
static void take(int fd)
{
    int bytes = BUFFER;
    struct connection *c = calloc(1, sizeof *c);
    if (!c) {
        close(fd);
        return;
    }
    setsockopt(fd, SOL_SOCKET, SO_SNDBUF, &bytes, sizeof bytes);
    c->socket = fd;
    name_of(fd, true, c->name, sizeof c->name);
    c->next = connections;
    c->link = &connections;
    if (c->next)
        c->next->link = &c->next;
    connections = c;
    rtr_served_init(&c->served, &server, now());
    wait_for(c, EPOLL_CTL_ADD, false);
    act(c);
}

/* Reports whether a connection may be accepted now. */
static bool is_door_open(void)
{
    return rtr_door_next(&server.door, server.spare) != RTR_ENTRY_WAIT;
}

/* Accepts the waiting connections that the door lets in; returns false if accepting failed, and has
 * to pause. */
static bool take_all(int listener)
{
    while (is_door_open()) {
        int fd = accept4(listener, NULL, NULL, SOCK_NONBLOCK | SOCK_CLOEXEC);
        if (fd < 0)
            return errno == EAGAIN || errno == EINTR || errno == ECONNABORTED;
        take(fd);
    }
    return true;
}

/* Serves the connections whose deadline has passed, or all of them if there are new data. */
static void act_all(bool all)
{
    int64_t time = now();
    due = INT64_MAX;
    for (struct connection *c = connections, *next; c; c = next) {
        next = c->next;
        if (all || time >= c->until)
            act(c);
        else
            due = c->until < due ? c->until : due;
    }
}

/* ---- the file */

/* The file of data, with a descriptor that is kept in reserve for it and for saving. */
struct watched {
    const char *path;
    char kept[4096], beside[4096]; /* the file of saved data, and the temporary file for it */
    struct stamp seen;
    char failed[200]; /* why it couldn't be read, or its data couldn't be taken */
    int64_t again;    /* after a failure, when it is read again */
    int64_t retry;    /* when data that wait are saved, `pause` ms after a failure */
    uint32_t pause;
    int spare;
};

static struct stamp stamp_of(const struct stat *found)
{
    struct stamp stamp;
    memset(&stamp, 0, sizeof stamp);
    stamp.device = found->st_dev;
    stamp.inode = found->st_ino;
    stamp.links = found->st_nlink;
    stamp.size = found->st_size;
    stamp.written = found->st_mtim;
    stamp.changed = found->st_ctim;
    return stamp;
}

/* Returns whether a file in this state has to be read: it changed, or couldn't be read before.
 * While another file is renamed to the path, the path may still lead to the old file, which has
 * lost its last link: that alone is no change. */
static bool is_due(const struct watched *w, const struct stat *found)
{
    struct stamp stamp = stamp_of(found), replaced = w->seen;
    replaced.links = 0;
    replaced.changed = stamp.changed;
    return (w->failed[0] && now() >= w->again)
           || (memcmp(&stamp, &w->seen, sizeof stamp) && memcmp(&stamp, &replaced, sizeof stamp));
}

/* Closes the descriptor in reserve, before a file is opened. */
static void give_spare(struct watched *w)
{
    if (w->spare >= 0)
        close(w->spare);
}

static void take_spare(struct watched *w)
{
    w->spare = open("/dev/null", O_RDONLY | O_CLOEXEC);
    server.spare = w->spare >= 0;
}

/* Opens a file, and returns its state; -1 if that fails, with the reason in errno. */
static int open_file(const char *path, struct stat *found)
{
    int file = open(path, O_RDONLY | O_CLOEXEC);
    if (file < 0 || fstat(file, found) == 0)
        return file;
    int error = errno;
    close(file);
    errno = error;
    return -1;
}

/* Reads a file that `open_file` opened, of at most `most` bytes, or of any size for 0, into memory
 * that the caller frees, and closes it; null if that fails, with the reason in errno, which stays
 * for the file -1. */
static uint8_t *read_file(int file, off_t size, off_t most, size_t *length)
{
    ssize_t count = 1;
    bool too_long = file >= 0 && most && size > most;
    uint8_t *bytes = file >= 0 && !too_long ? malloc((size_t)size + 1) : NULL;
    errno = too_long ? EFBIG : errno;
    for (*length = 0; bytes && count > 0; *length += count > 0 ? (size_t)count : 0)
        count = read(file, bytes + *length, (size_t)size - *length);
    int error = errno;
    if (file >= 0)
        close(file);
    if (bytes && count < 0) {
        free(bytes);
        bytes = NULL;
    }
    errno = error;
    return bytes;
}

/* Logs which data the server serves now. */
static void say_data(const char *path)
{
    say("%s: session %u serial %" PRIu32 ": %zu payload%s", path, server.present.session,
        server.present.serial, server.payloads, server.payloads == 1 ? "" : "s");
    if (!server.present.serial)
        say("%s: " RTR_WARNING_SERIAL_0, path);
}

/* Logs why the server refuses data, or what it leaves out. */
static void say_update(const char *path, enum rtr_update update)
{
    if (update == RTR_UPDATE_TAKEN && server.has_cut)
        say("%s: left out: an answer without an end of data", path);
    else if (update == RTR_UPDATE_REFUSED)
        say("%s: %s, at byte %zu", path, rtr_update_text(&server, update), server.offset);
    else if (update == RTR_UPDATE_SERIAL)
        say("%s: %s: new %" PRIu32 ", present %" PRIu32, path, rtr_update_text(&server, update),
            server.refused, server.present.serial);
    else if (update != RTR_UPDATE_SAME && update != RTR_UPDATE_TAKEN)
        say("%s: %s", path, rtr_update_text(&server, update));
}

/* Writes all bytes to a file; returns false, with the reason in errno, if that fails. */
static bool write_all(int file, const void *bytes, size_t length)
{
    const uint8_t *at = bytes;
    while (length) {
        ssize_t count = write(file, at, length);
        if (count < 0 && errno != EINTR)
            return false;
        at += count > 0 ? count : 0;
        length -= count > 0 ? (size_t)count : 0;
    }
    return true;
}

/* Closes a file or a folder; returns whether that and the earlier step (`done`) succeeded. errno is
 * that of the first failure. */
static bool closes(int file, bool done)
{
    int error = errno;
    bool closed = close(file) == 0;
    errno = done ? errno : error;
    return done && closed;
}

/* Syncs the folder of a file, if its file system can sync folders; returns false, with the reason
 * in errno, if that fails. */
static bool sync_folder(const char *path)
{
    char copy[4096];
    snprintf(copy, sizeof copy, "%s", path);
    int folder = open(dirname(copy), O_RDONLY | O_DIRECTORY | O_CLOEXEC);
    return folder >= 0 && closes(folder, fsync(folder) == 0 || errno == EINVAL);
}

/* Replaces the file of saved data: syncs a new one, renames it, and syncs the folder. If that fails
 * it removes the new one, and returns false with the reason in errno. */
static bool write_kept(const struct watched *w, const struct rtr_store_head *head,
                       const uint8_t *store, size_t length)
{
    int file = open(w->beside, O_WRONLY | O_CREAT | O_TRUNC | O_CLOEXEC, 0666);
    if (file < 0)
        return false;
    bool written = closes(file, write_all(file, head, sizeof *head)
                                    && write_all(file, store, length) && fsync(file) == 0);
    if (written && rename(w->beside, w->kept) == 0)
        return sync_folder(w->kept);
    int error = errno;
    unlink(w->beside);
    errno = error;
    return false;
}

/* Saves the pending data, unless it is too early to retry, and serves them. */
static void save(struct watched *w)
{
    struct rtr_store_head head;
    size_t length;
    const uint8_t *store = now() < w->retry ? NULL : rtr_server_to_save(&server, &head, &length);
    if (!store)
        return;
    give_spare(w);
    bool written = write_kept(w, &head, store, length);
    int error = errno;
    take_spare(w);
    if (written) {
        w->pause = 0;
        rtr_server_saved(&server);
        say_data(w->path);
        act_all(true);
        return;
    }
    w->pause = rtr_retry_after(w->pause);
    w->retry = now() + w->pause;
    say("%s: %s: " RTR_FAILURE_UNSERVED "; trying again in %" PRIu32 " second%s", w->kept,
        strerror(error), w->pause / 1000, w->pause == 1000 ? "" : "s");
}

/* Loads what the cache saved before its restart; returns false if it can't. It may have ended
 * before the name of the file was on the disk: the folder is synced before the data are served. */
static bool restore(const struct watched *w)
{
    struct stat found = {.st_size = 0};
    size_t length;
    unlink(w->beside);
    int file = open_file(w->kept, &found);
    uint8_t *bytes = read_file(file, found.st_size, 0, &length);
    if (!bytes && errno == ENOENT)
        return true;
    if (!bytes || !sync_folder(w->kept)) {
        say("%s: %s", w->kept, strerror(errno));
        free(bytes);
        return false;
    }
    enum rtr_update update = rtr_server_restore(&server, bytes, length);
    free(bytes);
    if (update == RTR_UPDATE_TAKEN)
        say_data(w->kept);
    else
        say_update(w->kept, update);
    return update == RTR_UPDATE_TAKEN;
}

/* Logs that the file can't be read, or its data can't be taken, once for each reason, and reads it
 * again even if it doesn't change. */
static void fail(struct watched *w, const char *reason)
{
    if (strcmp(w->failed, reason))
        say("%s: %s", w->path, reason);
    snprintf(w->failed, sizeof w->failed, "%s", reason);
}

/* Gives the server the bytes of the file, and frees them. Without memory it waits a moment, since
 * reading and parsing it takes time that routers lack. */
static void update(struct watched *w, uint8_t *bytes, size_t length)
{
    enum rtr_update update = rtr_server_update(&server, time_of(CLOCK_REALTIME), bytes, length);
    free(bytes);
    if (update == RTR_UPDATE_MEMORY) {
        w->again = now() + LATER;
        fail(w, rtr_update_text(&server, update));
        return;
    }
    w->failed[0] = 0;
    say_update(w->path, update);
    w->retry = update == RTR_UPDATE_TAKEN ? 0 : w->retry;
}

/* Loads the file if it is due. Another one may have come to the path since: the state is that of
 * the file that is read, from before it is read. */
static void look(struct watched *w)
{
    struct stat found;
    size_t length;
    if (stat(w->path, &found))
        memset(&found, 0, sizeof found);
    if (!is_due(w, &found))
        return;
    give_spare(w);
    int file = open_file(w->path, &found);
    if (!is_due(w, &found)) {
        close(file);
        take_spare(w);
        return;
    }
    uint8_t *bytes = read_file(file, found.st_size, most_bytes, &length);
    int error = errno;
    take_spare(w);
    w->seen = stamp_of(&found);
    if (bytes) {
        update(w, bytes, length);
    } else if (error == EFBIG) {
        w->failed[0] = 0;
        say("%s: more than %lld bytes", w->path, (long long)most_bytes);
    } else {
        fail(w, strerror(error));
    }
}

/* ---- the program */

/* Looks up the addresses of HOST:PORT; returns null, with the reason on standard error, if there
 * are none. */
static struct addrinfo *look_up(const char *word)
{
    struct addrinfo hints = {.ai_socktype = SOCK_STREAM, .ai_flags = AI_PASSIVE}, *found = NULL;
    const char *colon = strrchr(word, ':');
    if (!colon) {
        say("%s: no port", word);
        return NULL;
    }
    bool bracketed = word[0] == '[' && colon > word && colon[-1] == ']';
    char *host = strndup(word + bracketed, (size_t)(colon - word) - 2 * bracketed);
    int error = host ? getaddrinfo(*host ? host : NULL, colon + 1, &hints, &found) : EAI_MEMORY;
    free(host);
    if (error)
        say("%s: %s", word, gai_strerror(error));
    return error ? NULL : found;
}

/* Returns a socket that listens at an address, for IPv6 only if other sockets have IPv4; negative
 * on failure. */
static int open_listener(const struct addrinfo *address, int only_v6)
{
    int type = SOCK_STREAM | SOCK_CLOEXEC | SOCK_NONBLOCK;
    int yes = 1, listener = socket(address->ai_family, type, 0);
    setsockopt(listener, SOL_SOCKET, SO_REUSEADDR, &yes, sizeof yes);
    if (address->ai_family == AF_INET6)
        setsockopt(listener, IPPROTO_IPV6, IPV6_V6ONLY, &only_v6, sizeof only_v6);
    if (listener < 0
        || (!bind(listener, address->ai_addr, address->ai_addrlen) && !listen(listener, SOMAXCONN)))
        return listener;
    int error = errno;
    close(listener);
    errno = error;
    return -1;
}

/* Listens at an address of HOST:PORT, and logs that; returns false, with the reason logged, if it
 * can't. */
static bool listen_on(const char *word, const struct addrinfo *address, bool several)
{
    char name[80];
    if (listening == LISTENERS) {
        errno = E2BIG;
        say("%s: more than %d addresses", word, LISTENERS);
        return false;
    }
    int listener = open_listener(address, several);
    if (listener < 0) {
        int error = errno;
        say("%s: %s", word, strerror(error));
        errno = error;
        return false;
    }
    name_of(listener, false, name, sizeof name);
    say("listening on %s", name);
    listeners[listening++] = listener;
    return true;
}

/* Listens at every address of HOST:PORT that the machine has; returns false if there is none, or
 * it is in use. */
static bool listen_at(const char *word)
{
    struct addrinfo *found = look_up(word);
    bool several = found && found->ai_next, good = true;
    int before = listening;
    for (struct addrinfo *address = found; good && address; address = address->ai_next)
        good = listen_on(word, address, several)
               || (several && (errno == EAFNOSUPPORT || errno == EADDRNOTAVAIL));
    if (found)
        freeaddrinfo(found);
    return good && listening > before;
}

/* Makes epoll watch the listeners, or stop watching them. */
static void look_at_listeners(bool looked_at)
{
    static bool before;
    if (looked_at == before)
        return;
    before = looked_at;
    for (int i = 0; i < listening; i++) {
        struct epoll_event event = {.events = EPOLLIN, .data.ptr = &listeners[i]};
        epoll_ctl(poller, looked_at ? EPOLL_CTL_ADD : EPOLL_CTL_DEL, listeners[i], &event);
    }
}

static bool is_listener(const void *data)
{
    return (const int *)data >= listeners && (const int *)data < listeners + listening;
}

static void end(int number)
{
    (void)number;
    ended = 1;
}

/* Reports whether a signal to end has come. epoll_pwait delivers none while sockets are ready. */
static bool has_ended(void)
{
    sigset_t waiting;
    sigpending(&waiting);
    return ended || sigismember(&waiting, SIGINT) || sigismember(&waiting, SIGTERM);
}

/* Waits for events until this time at most, and handles them; returns false if a listener failed.
 * Signals are delivered only here. */
static bool serve(int64_t until, const sigset_t *signals)
{
    bool good = true;
    struct epoll_event events[EVENTS];
    int64_t left = (until < due ? until : due) - now();
    int count = epoll_pwait(poller, events, EVENTS, left < 0 ? 0 : (int)left, signals);
    for (int i = 0; i < count; i++) {
        if (is_listener(events[i].data.ptr))
            good = take_all(*(int *)events[i].data.ptr) && good;
        else
            act(events[i].data.ptr);
    }
    if (now() >= due)
        act_all(false);
    return good;
}

/* Serves until a signal arrives. New connections stay in the system's queue while the door is shut,
 * and for a moment after accepting failed. */
static void run(struct watched *w, const sigset_t *signals)
{
    int64_t next = now(), again = next;
    while (!has_ended()) {
        if (now() >= next) {
            look(w);
            save(w);
            if (w->spare < 0)
                take_spare(w);
            next = now() + LOOK;
        }
        bool rests = now() < again;
        look_at_listeners(!rests && is_door_open());
        if (!serve(rests && again < next ? again : next, signals))
            again = now() + REST;
    }
    w->retry = 0;
    save(w);
}

/* Parses a limit: a number above 0, of at most 32 bits. */
static bool read_count(const char *word, uint32_t *number)
{
    char *end;
    unsigned long long count = strtoull(word, &end, 10);
    *number = (uint32_t)count;
    return word[0] >= '1' && word[0] <= '9' && !*end && count <= UINT32_MAX;
}

/* Parses the command line; returns false if it is wrong. */
static bool read_words(int count, char **words, struct watched *w)
{
    for (int i = 1; i < count; i++) {
        if (!strcmp(words[i], "--listen") && i + 1 < count && named < LISTENERS)
            addresses[named++] = words[++i];
        else if (!strcmp(words[i], "--max-clients") && i + 1 < count
                 && read_count(words[i + 1], &server.settings.most_connections))
            i += 1;
        else if (!strcmp(words[i], "--refuse"))
            server.settings.cache.refuses = true;
        else if (words[i][0] != '-' && words[i][0] && !w->path)
            w->path = words[i];
        else
            return false;
    }
    return w->path && strlen(w->path) <= sizeof w->kept - 16;
}

int main(int count, char **words)
{
    static char anywhere[] = "[::]:3323";
    static struct watched w = {.failed = "not tried", .spare = -1};
    rtr_server_init(&server);
    if (!read_words(count, words, &w)) {
        fprintf(stderr,
                "usage: cache FILE [--listen ADDRESS:PORT].. [--max-clients N] [--refuse]\n");
        return 2;
    }
    if (!named)
        addresses[named++] = anywhere;
    snprintf(w.kept, sizeof w.kept, "%s.kept", w.path);
    snprintf(w.beside, sizeof w.beside, "%s.kept.new", w.path);
    sigset_t blocked, signals;
    sigemptyset(&blocked);
    sigaddset(&blocked, SIGINT);
    sigaddset(&blocked, SIGTERM);
    sigprocmask(SIG_BLOCK, &blocked, &signals);
    signal(SIGPIPE, SIG_IGN);
    signal(SIGINT, end);
    signal(SIGTERM, end);
    mallopt(M_MMAP_THRESHOLD, MAPPED); /* so that freed memory of data returns to the system */
    poller = epoll_create1(EPOLL_CLOEXEC);
    if (!restore(&w))
        return 1;
    for (int i = 0; i < named; i++)
        if (!listen_at(addresses[i]))
            return 1;
    run(&w, &signals);
    return 0;
}
