/* Decides which calls of a program get a fault, for `tests/faults/run.py`, which preloads it, or
 * traces the program.
 *
 * FAULTS is a list of words CALL:FIRST:LAST:FAULT or CALL:FIRST:LAST:FAULT:STEP. CALL is connect,
 * accept, send, receive or wait, counted over all sockets from 1, or open, write, sync, close,
 * rename or save, counted over calls on files that a cache saves before it renames them, and syncs
 * of folders; save is any of these. CALL may also be remove, counted over removals of such a file,
 * load, over openings of a saved file, to read it, or folder, over those of its folder. The calls
 * from FIRST to LAST get the fault, to the end if LAST is 0; with a STEP only each STEP-th of them.
 * FAULT is the name of an error, a number, the most bytes that the call moves, or KILL, which kills
 * the process before the call, or in the middle of a write. EAGAIN is injected only where the
 * socket doesn't block. With it, and with a call that moves less than it could, the system reports
 * again what the socket is ready for, to programs that wait for edges (epoll(7)). FAULTS_SEEN is a
 * file that gets a line for each of the first faults that were injected. */
#define _GNU_SOURCE
#include <dlfcn.h>
#include <errno.h>
#include <fcntl.h>
#include <limits.h>
#include <netinet/in.h>
#include <netinet/tcp.h>
#include <poll.h>
#include <pthread.h>
#include <stdio.h>
#include <stdlib.h>
#include <string.h>
#include <sys/socket.h>
#include <sys/stat.h>
#include <sys/syscall.h>
#include <time.h>
#include <unistd.h>
#include "faults.h"

enum { MOST_RECORDED = 1000 };

static const char *const names[CALLS] = {"connect", "accept", "send",   "receive", "wait",
                                         "mkdir",   "load",   "folder", "remove",  "open",
                                         "write",   "sync",   "close",  "rename",  "save"};
static const struct {
    const char *name;
    int number;
} errors[] = {{"EINTR", EINTR},
              {"EAGAIN", EAGAIN},
              {"EPIPE", EPIPE},
              {"EMFILE", EMFILE},
              {"ENFILE", ENFILE},
              {"ENOMEM", ENOMEM},
              {"ENOBUFS", ENOBUFS},
              {"ECONNABORTED", ECONNABORTED},
              {"ECONNREFUSED", ECONNREFUSED},
              {"ECONNRESET", ECONNRESET},
              {"EHOSTUNREACH", EHOSTUNREACH},
              {"ENETUNREACH", ENETUNREACH},
              {"ETIMEDOUT", ETIMEDOUT},
              {"EACCES", EACCES},
              {"EIO", EIO},
              {"ENOSPC", ENOSPC},
              {"EDQUOT", EDQUOT},
              {"EROFS", EROFS},
              {"EINVAL", EINVAL},
              {"KILL", KILLED}};

static pthread_mutex_t mutex = PTHREAD_MUTEX_INITIALIZER;
static unsigned long counts[CALLS], recorded;

/* A parsed word of FAULTS. */
struct word {
    char call[16], fault[16];
    unsigned long first, last, step;
};

void *real(const char *name)
{
    return dlsym(RTLD_NEXT, name);
}

const char *name_of(enum call call)
{
    return names[call];
}

/* Reports whether a path ends with one of two texts. */
static int ends_with(const char *path, const char *const texts[2])
{
    size_t length = strlen(path);
    for (size_t i = 0; i < 2; i++) {
        size_t end = strlen(texts[i]);
        if (length >= end && !strcmp(path + length - end, texts[i]))
            return 1;
    }
    return 0;
}

int is_saved_path(const char *path)
{
    static const char *const suffixes[] = {".kept.new", "/editions.new"};
    return ends_with(path, suffixes);
}

/* Reports whether this is a folder with a file that a cache saved. */
static int is_saved_folder(const char *path)
{
    static const char *const files[] = {"data.kept", "editions"};
    char file[PATH_MAX];
    struct stat info;
    int error_before = errno, has_file = 0;
    int is_folder = !stat(path, &info) && S_ISDIR(info.st_mode);
    for (size_t i = 0; is_folder && i < sizeof files / sizeof files[0]; i++) {
        int length = snprintf(file, sizeof file, "%s/%s", path, files[i]);
        has_file |= length < (int)sizeof file && !stat(file, &info);
    }
    errno = error_before;
    return has_file;
}

int is_opening(const char *path, int creates, enum call *call)
{
    static const char *const suffixes[] = {".kept", "/editions"};
    if (creates) {
        *call = OPEN;
        return is_saved_path(path);
    }
    *call = LOAD;
    if (ends_with(path, suffixes))
        return 1;
    *call = FOLDER;
    return is_saved_folder(path);
}

/* Appends the injected fault to the file of FAULTS_SEEN, for the test. */
static void record(enum call call, unsigned long count, const char *fault)
{
    const char *path = getenv("FAULTS_SEEN");
    char line[80];
    int length = snprintf(line, sizeof line, "%s %lu %s\n", names[call], count, fault);
    pthread_mutex_lock(&mutex);
    int is_recorded = path && recorded++ < MOST_RECORDED;
    pthread_mutex_unlock(&mutex);
    int fd = is_recorded ? open(path, O_WRONLY | O_APPEND | O_CREAT | O_CLOEXEC, 0600) : -1;
    ssize_t (*real_write)(int, const void *, size_t) = real("write");
    if (fd < 0)
        return;
    if (real_write(fd, line, (size_t)length) != length)
        abort();
    close(fd);
}

/* Parses the next word; returns what follows it, or null if there is none. */
static const char *next_word(const char *text, struct word *word)
{
    int length;
    if (!text
        || sscanf(text, " %15[a-z]:%lu:%lu:%15[A-Z0-9]%n", word->call, &word->first, &word->last,
                  word->fault, &length)
               != 4)
        return NULL;
    char *rest = (char *)text + length;
    word->step = *rest == ':' ? strtoul(rest + 1, &rest, 10) : 1;
    return rest;
}

/* Reports whether a word is about this call. */
static int concerns(const struct word *word, enum call call, unsigned long count)
{
    return !strcmp(word->call, names[call]) && count >= word->first
           && (!word->last || count <= word->last) && (count - word->first) % word->step == 0;
}

/* Returns the error of this name; 0 if there is none. */
static int error_of(const char *name)
{
    for (size_t i = 0; i < sizeof errors / sizeof errors[0]; i++)
        if (!strcmp(name, errors[i].name))
            return errors[i].number;
    return 0;
}

int fault_of(enum call call, int can_block, size_t *limit)
{
    struct word word;
    int error_before = errno;
    const char *rest = getenv("FAULTS");
    pthread_mutex_lock(&mutex);
    unsigned long count = ++counts[call];
    pthread_mutex_unlock(&mutex);
    while ((rest = next_word(rest, &word))) {
        size_t number = strtoul(word.fault, NULL, 10);
        int error = error_of(word.fault);
        if (!concerns(&word, call, count) || (error == EAGAIN && can_block))
            continue;
        if (error || (limit && number && number < *limit))
            record(call, count, word.fault);
        if (error == KILLED)
            return KILLED;
        if (error)
            return errno = error;
        if (limit && number && number < *limit)
            *limit = number;
    }
    errno = error_before; /* a call that succeeds leaves it */
    return 0;
}

int has_socket_faults(void)
{
    struct word word;
    for (const char *rest = getenv("FAULTS"); (rest = next_word(rest, &word));)
        for (enum call call = CONNECT; call <= WAIT; call++)
            if (!strcmp(word.call, names[call]))
                return 1;
    return 0;
}

int is_ready(int fd, short events)
{
    static const struct timespec at_once;
    struct pollfd descriptor = {.fd = fd, .events = events};
    int error_before = errno;
    long count = syscall(SYS_ppoll, &descriptor, 1, &at_once, NULL, 0);
    errno = error_before;
    return count == 1;
}

/* Setting an option again, to what it is, makes the system look at what a socket is ready for. */
void report_readiness(int fd)
{
    int least = 1, unsent = 0, error_before = errno;
    socklen_t size = sizeof unsent;
    is_ready(fd, POLLOUT); /* a full socket reports later that it isn't */
    getsockopt(fd, IPPROTO_TCP, TCP_NOTSENT_LOWAT, &unsent, &size);
    setsockopt(fd, IPPROTO_TCP, TCP_NOTSENT_LOWAT, &unsent, size);
    setsockopt(fd, SOL_SOCKET, SO_RCVLOWAT, &least, sizeof least);
    errno = error_before;
}

int fault_on_file(enum call call, size_t *limit)
{
    int fault = call < OPEN ? 0 : fault_of(SAVE, 1, NULL);
    return fault ? fault : fault_of(call, 1, limit);
}
