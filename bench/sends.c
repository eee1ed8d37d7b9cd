/* Sends a file by sendfile to each router that asks: about the least work that a cache can do.
 *
 * usage: sends FILE PORT
 *
 * One thread accepts connections at a port of 127.0.0.1, with a buffer of BUFFER bytes each, and
 * sends the whole file for each HEAD bytes that come, whatever they are. */
#define _GNU_SOURCE
#include <errno.h>
#include <fcntl.h>
#include <netinet/in.h>
#include <signal.h>
#include <stdbool.h>
#include <stdint.h>
#include <stdio.h>
#include <stdlib.h>
#include <sys/epoll.h>
#include <sys/sendfile.h>
#include <sys/socket.h>
#include <sys/stat.h>
#include <unistd.h>

enum { HEAD = 8, BUFFER = 1 << 17, EVENTS = 64 };

struct router {
    int socket;
    off_t sent;
};

static int poller, file;
static off_t length;

static void wait_for(struct router *r, int how, uint32_t what)
{
    struct epoll_event event = {.events = what, .data.ptr = r};
    epoll_ctl(poller, how, r->socket, &event);
}

/* Accepts the waiting connections. */
static void take_all(int listener)
{
    int fd, bytes = BUFFER;
    while ((fd = accept4(listener, NULL, NULL, SOCK_NONBLOCK | SOCK_CLOEXEC)) >= 0) {
        struct router *r = calloc(1, sizeof *r);
        setsockopt(fd, SOL_SOCKET, SO_SNDBUF, &bytes, sizeof bytes);
        r->socket = fd;
        r->sent = length;
        wait_for(r, EPOLL_CTL_ADD, EPOLLIN);
    }
}

static void forget(struct router *r)
{
    close(r->socket);
    free(r);
}

/* Starts sending if a query came. Returns whether the router is still connected. */
static bool read_query(struct router *r)
{
    uint8_t query[HEAD];
    ssize_t size = recv(r->socket, query, sizeof query, 0);
    if (size == HEAD)
        r->sent = 0;
    return size > 0 || (size < 0 && errno == EAGAIN);
}

/* Sends as much as the socket takes. Returns whether the router is still connected. */
static bool send_some(struct router *r)
{
    while (r->sent < length) {
        ssize_t size = sendfile(r->socket, file, &r->sent, (size_t)(length - r->sent));
        if (size < 0)
            return errno == EAGAIN;
    }
    return true;
}

static void act(struct router *r)
{
    bool sending = r->sent < length;
    if ((!sending && !read_query(r)) || !send_some(r)) {
        forget(r);
        return;
    }
    if ((r->sent < length) != sending)
        wait_for(r, EPOLL_CTL_MOD, sending ? EPOLLIN : EPOLLOUT);
}

static int listen_at(uint16_t port)
{
    int yes = 1, fd = socket(AF_INET, SOCK_STREAM | SOCK_NONBLOCK | SOCK_CLOEXEC, 0);
    struct sockaddr_in address = {.sin_family = AF_INET, .sin_port = htons(port)};
    address.sin_addr.s_addr = htonl(INADDR_LOOPBACK);
    setsockopt(fd, SOL_SOCKET, SO_REUSEADDR, &yes, sizeof yes);
    if (bind(fd, (struct sockaddr *)&address, sizeof address) || listen(fd, SOMAXCONN)) {
        perror("sends");
        exit(1);
    }
    return fd;
}

int main(int words, char **word)
{
    struct stat found;
    struct epoll_event events[EVENTS], taking = {.events = EPOLLIN};
    file = words == 3 ? open(word[1], O_RDONLY | O_CLOEXEC) : -1;
    if (file < 0 || fstat(file, &found)) {
        fprintf(stderr, "usage: sends FILE PORT\n");
        return 2;
    }
    length = found.st_size;
    signal(SIGPIPE, SIG_IGN);
    poller = epoll_create1(EPOLL_CLOEXEC);
    int listener = listen_at((uint16_t)atoi(word[2]));
    epoll_ctl(poller, EPOLL_CTL_ADD, listener, &taking);
    for (;;) {
        int count = epoll_wait(poller, events, EVENTS, -1);
        for (int i = 0; i < count; i++) {
            if (events[i].data.ptr)
                act(events[i].data.ptr);
            else
                take_all(listener);
        }
    }
}
