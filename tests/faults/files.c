/* Injects faults, as faults.c decides, into calls on the file that a cache saves before it renames
 * it, and on its folder. */
#define _GNU_SOURCE
#include <errno.h>
#include <fcntl.h>
#include <limits.h>
#include <signal.h>
#include <stdarg.h>
#include <stdio.h>
#include <string.h>
#include <sys/stat.h>
#include <unistd.h>
#include "faults.h"

/* The stream over the file, and its descriptor: the C library's own streams make no call that can
 * be preloaded. */
static FILE *stream;
static int stream_fd = -1;

static int is_saved(int fd)
{
    char name[64], path[PATH_MAX];
    int error_before = errno;
    snprintf(name, sizeof name, "/proc/self/fd/%d", fd);
    ssize_t length = fd < 0 ? -1 : readlink(name, path, sizeof path - 1);
    path[length < 0 ? 0 : length] = 0;
    errno = error_before;
    return is_saved_path(path);
}

static int is_folder(int fd)
{
    struct stat info;
    int error_before = errno, failed = fstat(fd, &info);
    errno = error_before;
    return !failed && S_ISDIR(info.st_mode);
}

/* Counts a call that moves no bytes, and returns the fault to inject, or 0. Kills the process if
 * the fault is KILLED. */
static int inject(enum call call)
{
    int fault = fault_on_file(call, NULL);
    if (fault == KILLED)
        raise(SIGKILL);
    return fault;
}

ssize_t write_file(int fd, const void *bytes, size_t size)
{
    ssize_t (*next)(int, const void *, size_t) = real("write");
    int fault = is_saved(fd) ? fault_on_file(WRITE, &size) : 0;
    if (fault == KILLED) {
        next(fd, bytes, size / 2);
        raise(SIGKILL);
    }
    return fault ? -1 : next(fd, bytes, size);
}

/* ---- opening */

static int open_file(const char *name, const char *path, int flags, mode_t mode)
{
    int (*next)(const char *, int, ...) = real(name);
    enum call call;
    if (is_opening(path, flags & O_CREAT, &call) && inject(call))
        return -1;
    return next(path, flags, mode);
}

int open(const char *path, int flags, ...)
{
    va_list rest;
    va_start(rest, flags);
    mode_t mode = flags & (O_CREAT | O_TMPFILE) ? va_arg(rest, mode_t) : 0;
    va_end(rest);
    return open_file("open", path, flags, mode);
}

int open64(const char *path, int flags, ...)
{
    va_list rest;
    va_start(rest, flags);
    mode_t mode = flags & (O_CREAT | O_TMPFILE) ? va_arg(rest, mode_t) : 0;
    va_end(rest);
    return open_file("open64", path, flags, mode);
}

/* ---- streams */

/* Writes all bytes, as the streams of the C library do. Returns fewer if a write failed. */
static ssize_t write_stream(void *fd, const char *bytes, size_t size)
{
    size_t written = 0;
    ssize_t count = 0;
    for (; written < size && count >= 0; written += count > 0 ? (size_t)count : 0)
        count = write_file(*(int *)fd, bytes + written, size - written);
    return (ssize_t)written;
}

static int close_stream(void *fd)
{
    int closed = close(*(int *)fd);
    stream = NULL;
    *(int *)fd = -1;
    return closed;
}

/* Opens at most one such stream at a time, only for writing. */
FILE *fopen(const char *path, const char *mode)
{
    FILE *(*next)(const char *, const char *) = real("fopen");
    if (!is_saved_path(path) || mode[0] != 'w')
        return next(path, mode);
    stream_fd = open(path, O_WRONLY | O_CREAT | O_TRUNC | O_CLOEXEC, 0666);
    if (stream_fd < 0)
        return NULL;
    cookie_io_functions_t calls = {.write = write_stream, .close = close_stream};
    stream = fopencookie(&stream_fd, "w", calls);
    return stream;
}

int fileno(FILE *file)
{
    int (*next)(FILE *) = real("fileno");
    return file && file == stream ? stream_fd : next(file);
}

/* ---- ends */

int fsync(int fd)
{
    int (*next)(int) = real("fsync");
    return (is_saved(fd) || is_folder(fd)) && inject(SYNC) ? -1 : next(fd);
}

int fdatasync(int fd)
{
    int (*next)(int) = real("fdatasync");
    return is_saved(fd) && inject(SYNC) ? -1 : next(fd);
}

/* Closes the descriptor also if the call fails. */
int close(int fd)
{
    int (*next)(int) = real("close");
    int failed = is_saved(fd) ? inject(CLOSE) : 0;
    int closed = next(fd);
    return failed ? -1 : closed;
}

int rename(const char *from, const char *to)
{
    int (*next)(const char *, const char *) = real("rename");
    return is_saved_path(from) && inject(RENAME) ? -1 : next(from, to);
}

int unlink(const char *path)
{
    int (*next)(const char *) = real("unlink");
    return is_saved_path(path) && inject(REMOVE) ? -1 : next(path);
}
