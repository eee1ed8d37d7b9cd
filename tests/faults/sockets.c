/* Injects faults into calls on sockets, as faults.c decides. */
#define _GNU_SOURCE
#include <errno.h>
#include <fcntl.h>
#include <netdb.h>
#include <poll.h>
#include <string.h>
#include <sys/epoll.h>
#include <sys/sendfile.h>
#include <sys/socket.h>
#include <sys/uio.h>
#include "faults.h"

/* Reports whether this is an internet socket; a program wakes itself by a pair of others. */
static int is_socket(int fd)
{
    struct sockaddr_storage address;
    socklen_t length = sizeof address;
    int error_before = errno;
    int failed = getsockname(fd, (struct sockaddr *)&address, &length);
    errno = error_before;
    return !failed && (address.ss_family == AF_INET || address.ss_family == AF_INET6);
}

static int is_nonblocking(int fd, int flags)
{
    return (flags & MSG_DONTWAIT) || (fcntl(fd, F_GETFL) & O_NONBLOCK);
}

/* Counts a call on an internet socket, and returns the error to inject, or 0; lowers `size`. */
static int fault_on_socket(enum call call, int fd, int flags, size_t *size)
{
    size_t asked = size ? *size : 0;
    int fault = is_socket(fd) ? fault_of(call, !is_nonblocking(fd, flags), size) : 0;
    if (fault == EAGAIN || (size && *size < asked))
        report_readiness(fd);
    return fault;
}

/* ---- names: localhost has two addresses, and no server listens at the first */

int getaddrinfo(const char *host, const char *port, const struct addrinfo *hints,
                struct addrinfo **found)
{
    int (*next)(const char *, const char *, const struct addrinfo *, struct addrinfo **) =
        real("getaddrinfo");
    if (!host || strcmp(host, "localhost"))
        return next(host, port, hints, found);
    struct addrinfo *second;
    int failed = next("127.0.0.1", port, hints, &second);
    if (!failed && (failed = next("127.0.0.2", port, hints, found)))
        freeaddrinfo(second);
    if (failed)
        return failed;
    struct addrinfo *last = *found;
    while (last->ai_next)
        last = last->ai_next;
    last->ai_next = second;
    return 0;
}

/* ---- new connections: a connection that isn't accepted stays in the queue */

int connect(int fd, const struct sockaddr *address, socklen_t length)
{
    int (*next)(int, const struct sockaddr *, socklen_t) = real("connect");
    int family = address ? address->sa_family : AF_UNSPEC;
    if ((family == AF_INET || family == AF_INET6) && fault_of(CONNECT, 1, NULL))
        return -1;
    return next(fd, address, length);
}

int accept(int fd, struct sockaddr *address, socklen_t *length)
{
    int (*next)(int, struct sockaddr *, socklen_t *) = real("accept");
    if (fault_on_socket(ACCEPT, fd, 0, NULL))
        return -1;
    return next(fd, address, length);
}

int accept4(int fd, struct sockaddr *address, socklen_t *length, int flags)
{
    int (*next)(int, struct sockaddr *, socklen_t *, int) = real("accept4");
    if (fault_on_socket(ACCEPT, fd, 0, NULL))
        return -1;
    return next(fd, address, length, flags);
}

/* ---- calls on one buffer */

ssize_t send(int fd, const void *bytes, size_t size, int flags)
{
    ssize_t (*next)(int, const void *, size_t, int) = real("send");
    if (fault_on_socket(SEND, fd, flags, &size))
        return -1;
    return next(fd, bytes, size, flags);
}

ssize_t sendto(int fd, const void *bytes, size_t size, int flags, const struct sockaddr *address,
               socklen_t length)
{
    ssize_t (*next)(int, const void *, size_t, int, const struct sockaddr *, socklen_t) =
        real("sendto");
    if (!address && fault_on_socket(SEND, fd, flags, &size))
        return -1;
    return next(fd, bytes, size, flags, address, length);
}

ssize_t write(int fd, const void *bytes, size_t size)
{
    ssize_t (*next)(int, const void *, size_t) = real("write");
    if (!is_socket(fd))
        return write_file(fd, bytes, size);
    if (fault_on_socket(SEND, fd, 0, &size))
        return -1;
    return next(fd, bytes, size);
}

ssize_t sendfile(int to, int from, off_t *offset, size_t size)
{
    ssize_t (*next)(int, int, off_t *, size_t) = real("sendfile");
    if (fault_on_socket(SEND, to, 0, &size))
        return -1;
    return next(to, from, offset, size);
}

ssize_t recv(int fd, void *bytes, size_t size, int flags)
{
    ssize_t (*next)(int, void *, size_t, int) = real("recv");
    if (fault_on_socket(RECEIVE, fd, flags, &size))
        return -1;
    return next(fd, bytes, size, flags);
}

ssize_t recvfrom(int fd, void *bytes, size_t size, int flags, struct sockaddr *address,
                 socklen_t *length)
{
    ssize_t (*next)(int, void *, size_t, int, struct sockaddr *, socklen_t *) = real("recvfrom");
    if (!address && fault_on_socket(RECEIVE, fd, flags, &size))
        return -1;
    return next(fd, bytes, size, flags, address, length);
}

ssize_t read(int fd, void *bytes, size_t size)
{
    ssize_t (*next)(int, void *, size_t) = real("read");
    if (fault_on_socket(RECEIVE, fd, 0, &size))
        return -1;
    return next(fd, bytes, size);
}

/* ---- calls on several buffers */

enum { MOST_PARTS = 64 };

static size_t size_of(const struct iovec *parts, size_t count)
{
    size_t size = 0;
    for (size_t i = 0; i < count; i++)
        size += parts[i].iov_len;
    return size;
}

/* Copies the first `limit` bytes of buffers, as buffers; returns how many they are. */
static size_t shorten(struct iovec *shorter, const struct iovec *parts, size_t count, size_t limit)
{
    size_t used = 0;
    for (; used < count && used < MOST_PARTS && limit > 0; used++) {
        size_t length = parts[used].iov_len < limit ? parts[used].iov_len : limit;
        shorter[used] = (struct iovec){parts[used].iov_base, length};
        limit -= length;
    }
    return used;
}

ssize_t writev(int fd, const struct iovec *parts, int count)
{
    ssize_t (*next)(int, const struct iovec *, int) = real("writev");
    struct iovec shorter[MOST_PARTS];
    size_t size = size_of(parts, count > 0 ? (size_t)count : 0), limit = size;
    if (fault_on_socket(SEND, fd, 0, &limit))
        return -1;
    if (limit == size)
        return next(fd, parts, count);
    return next(fd, shorter, (int)shorten(shorter, parts, (size_t)count, limit));
}

ssize_t sendmsg(int fd, const struct msghdr *message, int flags)
{
    ssize_t (*next)(int, const struct msghdr *, int) = real("sendmsg");
    struct iovec parts[MOST_PARTS];
    struct msghdr shorter = *message;
    size_t size = size_of(message->msg_iov, message->msg_iovlen), limit = size;
    if (!message->msg_name && fault_on_socket(SEND, fd, flags, &limit))
        return -1;
    if (limit == size)
        return next(fd, message, flags);
    shorter.msg_iovlen = shorten(parts, message->msg_iov, message->msg_iovlen, limit);
    shorter.msg_iov = parts;
    return next(fd, &shorter, flags);
}

/* ---- waits, which a signal interrupts */

int poll(struct pollfd *descriptors, nfds_t count, int timeout)
{
    int (*next)(struct pollfd *, nfds_t, int) = real("poll");
    return count && fault_of(WAIT, 1, NULL) ? -1 : next(descriptors, count, timeout);
}

int ppoll(struct pollfd *descriptors, nfds_t count, const struct timespec *timeout,
          const sigset_t *mask)
{
    int (*next)(struct pollfd *, nfds_t, const struct timespec *, const sigset_t *) = real("ppoll");
    return count && fault_of(WAIT, 1, NULL) ? -1 : next(descriptors, count, timeout, mask);
}

int epoll_wait(int fd, struct epoll_event *events, int capacity, int timeout)
{
    int (*next)(int, struct epoll_event *, int, int) = real("epoll_wait");
    return fault_of(WAIT, 1, NULL) ? -1 : next(fd, events, capacity, timeout);
}

int epoll_pwait(int fd, struct epoll_event *events, int capacity, int timeout, const sigset_t *mask)
{
    int (*next)(int, struct epoll_event *, int, int, const sigset_t *) = real("epoll_pwait");
    return fault_of(WAIT, 1, NULL) ? -1 : next(fd, events, capacity, timeout, mask);
}
