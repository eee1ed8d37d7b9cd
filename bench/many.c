/* Runs many routers of one cache on this machine at once, in one thread.
 *
 * usage: many PORT COUNT SECONDS
 *
 * One router asks for all data, reads them unit by unit, and notes their end of data. Then the
 * program takes a step for each line of standard input, and prints a line when the step is done:
 *
 *   connect   COUNT routers connect, from addresses of 127.0.0.0/8, PER_ADDRESS from each
 *   all       they ask for all data at once, and skip them up to their end of data
 *   changes   each answers a notify by a serial query, and reads up to the end of data
 *
 * The line has the name of the step, or `first`, its start and end in nanoseconds of the monotonic
 * clock, and how many bytes came. If a step takes more than SECONDS, the line has `late`, how many
 * routers still wait, and how many bytes came. The exit status is 1 if a step failed. */
#define _GNU_SOURCE
#include <errno.h>
#include <inttypes.h>
#include <netinet/in.h>
#include <stdbool.h>
#include <stdio.h>
#include <stdlib.h>
#include <string.h>
#include <sys/epoll.h>
#include <sys/socket.h>
#include <time.h>
#include <unistd.h>

enum { VERSION = 1, NOTIFY = 0, SERIAL_QUERY = 1, RESET_QUERY = 2, END = 7, REPORT = 10 };
enum { HEAD = 8, END_SIZE = 24, PER_ADDRESS = 100, EVENTS = 256 };
enum { BUFFER = 1 << 16, PIECE = 1 << 20 };

/* A router: the number of bytes that it received of an answer; while it reads units, the first
 * bytes of the current unit, and the number of bytes that are missing behind them. */
struct router {
    int socket;
    uint64_t received, remaining;
    uint8_t head[END_SIZE];
    uint32_t head_size;
};

static struct router *routers;
static size_t count;
static int epoll_fd;
static uint64_t data_length; /* of all data in bytes */
static uint8_t end_of_data[END_SIZE];

static int64_t now(void)
{
    struct timespec time;
    clock_gettime(CLOCK_MONOTONIC, &time);
    return (int64_t)time.tv_sec * 1000000000 + time.tv_nsec;
}

static void fail(const char *what)
{
    fprintf(stderr, "many: %s: %s\n", what, errno ? strerror(errno) : "not as wanted");
    exit(1);
}

static uint32_t read_u32(const uint8_t *bytes)
{
    return (uint32_t)bytes[0] << 24 | (uint32_t)bytes[1] << 16 | (uint32_t)bytes[2] << 8 | bytes[3];
}

/* Connects the router of this number to the port, from an address of PER_ADDRESS routers. */
static void connect_router(struct router *r, size_t number, uint16_t port)
{
    int bytes = BUFFER, yes = 1;
    size_t host = number / PER_ADDRESS;
    struct sockaddr_in from = {.sin_family = AF_INET}, to = {.sin_family = AF_INET};
    from.sin_addr.s_addr = htonl(0x7f000101 + (uint32_t)(host / 250 << 8 | host % 250));
    to.sin_addr.s_addr = htonl(INADDR_LOOPBACK);
    to.sin_port = htons(port);
    memset(r, 0, sizeof *r);
    r->socket = socket(AF_INET, SOCK_STREAM | SOCK_CLOEXEC, 0);
    if (r->socket < 0)
        fail("socket");
    setsockopt(r->socket, SOL_SOCKET, SO_RCVBUF, &bytes, sizeof bytes);
    setsockopt(r->socket, IPPROTO_IP, IP_BIND_ADDRESS_NO_PORT, &yes, sizeof yes);
    if (bind(r->socket, (struct sockaddr *)&from, sizeof from)
        || connect(r->socket, (struct sockaddr *)&to, sizeof to))
        fail("connect");
}

static void send_all(struct router *r, const uint8_t *bytes, size_t size)
{
    if (send(r->socket, bytes, size, MSG_NOSIGNAL) != (ssize_t)size)
        fail("send");
}

static void ask_all(struct router *r)
{
    static const uint8_t query[HEAD] = {VERSION, RESET_QUERY, 0, 0, 0, 0, 0, HEAD};
    send_all(r, query, sizeof query);
}

/* Asks for the changes since the end of data of the first router. */
static void ask_changes(struct router *r)
{
    uint8_t query[12] = {
        VERSION, SERIAL_QUERY, end_of_data[2], end_of_data[3], 0, 0, 0, sizeof query,
    };
    memcpy(query + HEAD, end_of_data + HEAD, 4);
    send_all(r, query, sizeof query);
}

/* Reads bytes of units. Returns the type of the last whole unit, or -1 for none. */
static int read_units(struct router *r, const uint8_t *bytes, size_t size)
{
    int type = -1;
    while (size) {
        if (r->head_size < HEAD || !r->remaining) {
            r->head[r->head_size++] = *bytes++;
            size -= 1;
            r->remaining = r->head_size == HEAD ? read_u32(r->head + 4) - HEAD : 0;
        } else {
            size_t taken = size < r->remaining ? size : r->remaining;
            size_t copied = taken < END_SIZE - r->head_size ? taken : END_SIZE - r->head_size;
            memcpy(r->head + r->head_size, bytes, copied);
            r->head_size += (uint32_t)copied;
            r->remaining -= taken;
            bytes += taken;
            size -= taken;
        }
        if (r->head_size >= HEAD && !r->remaining) {
            type = r->head[1];
            r->head_size = 0;
            if (type == REPORT)
                fail("a report came");
        }
    }
    return type;
}

/* Reads all data by a first router, and keeps their length and their end of data. */
static void read_all_data(uint16_t port)
{
    static uint8_t bytes[PIECE];
    struct router r;
    connect_router(&r, 0, port);
    ask_all(&r);
    for (int type = -1; type != END;) {
        ssize_t size = recv(r.socket, bytes, sizeof bytes, 0);
        if (size <= 0)
            fail("recv");
        r.received += (uint64_t)size;
        type = read_units(&r, bytes, (size_t)size);
    }
    data_length = r.received;
    memcpy(end_of_data, r.head, sizeof end_of_data);
    close(r.socket);
}

/* Skips the received bytes of all data. Reports whether all of them have come. */
static bool skip_data(struct router *r)
{
    uint64_t missing = data_length - r->received;
    uint64_t skippable = missing > END_SIZE ? missing - END_SIZE : 0;
    int flags = MSG_DONTWAIT | (skippable ? MSG_TRUNC : 0);
    size_t limit = skippable < PIECE ? skippable : PIECE;
    ssize_t size = recv(r->socket, skippable ? NULL : r->head + END_SIZE - missing,
                        skippable ? limit : missing, flags);
    if (size < 0 && errno == EAGAIN)
        return false;
    if (size <= 0)
        fail("recv");
    r->received += (uint64_t)size;
    if (r->received == data_length && memcmp(r->head, end_of_data, sizeof end_of_data))
        fail("another end of data");
    return r->received == data_length;
}

/* Reads the received bytes of a notify and of changes. Reports whether the changes are complete. */
static bool read_changes(struct router *r)
{
    static uint8_t bytes[BUFFER];
    ssize_t size = recv(r->socket, bytes, sizeof bytes, MSG_DONTWAIT);
    if (size < 0 && errno == EAGAIN)
        return false;
    if (size <= 0)
        fail("recv");
    r->received += (uint64_t)size;
    int type = read_units(r, bytes, (size_t)size);
    if (type == NOTIFY)
        ask_changes(r);
    return type == END;
}

/* Runs all routers until they are done or the deadline. Returns how many aren't done. */
static size_t run_all(bool (*step)(struct router *), int64_t deadline)
{
    struct epoll_event events[EVENTS];
    size_t waiting = count;
    while (waiting && now() < deadline) {
        int ready = epoll_wait(epoll_fd, events, EVENTS, 100);
        for (int i = 0; i < ready; i++) {
            struct router *r = events[i].data.ptr;
            waiting -= step(r);
        }
    }
    return waiting;
}

static void connect_all(uint16_t port)
{
    for (size_t i = 0; i < count; i++) {
        struct epoll_event event = {.events = EPOLLIN, .data.ptr = &routers[i]};
        connect_router(&routers[i], i, port);
        epoll_ctl(epoll_fd, EPOLL_CTL_ADD, routers[i].socket, &event);
    }
}

/* Runs a step. Returns how many routers aren't done at the deadline. */
static size_t run_step(const char *step, uint16_t port, int64_t deadline)
{
    for (size_t i = 0; i < count; i++)
        routers[i].received = 0;
    if (!strcmp(step, "connect")) {
        connect_all(port);
        return 0;
    }
    if (!strcmp(step, "changes"))
        return run_all(read_changes, deadline);
    for (size_t i = 0; i < count; i++)
        ask_all(&routers[i]);
    return run_all(skip_data, deadline);
}

static uint64_t bytes_received(void)
{
    uint64_t bytes = 0;
    for (size_t i = 0; i < count; i++)
        bytes += routers[i].received;
    return bytes;
}

int main(int argc, char **argv)
{
    if (argc != 4) {
        fprintf(stderr, "usage: many PORT COUNT SECONDS\n");
        return 2;
    }
    uint16_t port = (uint16_t)atoi(argv[1]);
    int64_t limit = (int64_t)(atof(argv[3]) * 1e9);
    count = (size_t)atol(argv[2]);
    routers = calloc(count, sizeof *routers);
    epoll_fd = epoll_create1(EPOLL_CLOEXEC);
    setvbuf(stdout, NULL, _IOLBF, 0);
    int64_t start = now();
    read_all_data(port);
    printf("first %" PRId64 " %" PRId64 " %" PRIu64 "\n", start, now(), data_length);
    char step[20];
    while (scanf("%19s", step) == 1) {
        start = now();
        size_t waiting = run_step(step, port, start + limit);
        if (waiting) {
            printf("late %zu %" PRIu64 "\n", waiting, bytes_received());
            return 1;
        }
        printf("%s %" PRId64 " %" PRId64 " %" PRIu64 "\n", step, start, now(), bytes_received());
    }
    return 0;
}
