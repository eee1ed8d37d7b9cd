/* Follows caches over TLS, in order of preference, and prints what changes (RFC 8210 sections 9.2
 * and 10), until a signal: rtr_client.h over OpenSSL 3.
 *
 * usage: client_tls CA OWN HOST:PORT..
 * CA is a file of trusted CA certificates. A cache's certificate has to name HOST. OWN is a file
 * with the client's own certificate and key. It prints the lines of rtr_diff. */
#define _POSIX_C_SOURCE 200809L
#define _DEFAULT_SOURCE /* getentropy */
#include <arpa/inet.h>
#include <errno.h>
#include <netdb.h>
#include <openssl/err.h>
#include <openssl/ssl.h>
#include <openssl/x509v3.h>
#include <poll.h>
#include <signal.h>
#include <stdio.h>
#include <stdlib.h>
#include <string.h>
#include <sys/socket.h>
#include <time.h>
#include <unistd.h>
#include "rtr_client.h"

enum { NONE = -1 };

/* A cache, and the client that asks it. */
static struct member {
    struct rtr_client client;
    const char *address;
    char *host, *port; /* its parts */
    int socket;
    struct addrinfo *all, *tried; /* its addresses, and the one that is being tried, also in its
                                     handshake */
    int64_t tried_until;
    BIO *connection; /* TLS over the socket; null before that is connected */
    bool open;       /* it is established, and TLS hasn't failed */
    short awaited;   /* POLLIN or POLLOUT: what TLS waits for */
} members[RTR_MOST_MEMBERS];

static SSL_CTX *context;
static struct rtr_group group;
static struct rtr_client none, *source = &none; /* whose data are shown */

static int64_t now(void)
{
    struct timespec time;
    clock_gettime(CLOCK_MONOTONIC, &time);
    return (int64_t)time.tv_sec * 1000 + time.tv_nsec / 1000000;
}

static int left(int64_t until)
{
    int64_t time = until - now();
    return time < 0 ? 0 : time < 60000 ? (int)time : 60000;
}

/* Returns the text of OpenSSL's oldest error, or else of errno. */
static const char *reason(void)
{
    const char *text = ERR_reason_error_string(ERR_peek_error());
    return text ? text : strerror(errno);
}

/* Exits with an error unless `done`. */
static void must(bool done, const char *what)
{
    if (!done) {
        fprintf(stderr, "client_tls: %s: %s\n", what, reason());
        exit(1);
    }
}

static void close_connection(struct member *m)
{
    BIO_free_all(m->connection);
    if (m->socket != NONE)
        close(m->socket);
    if (m->all)
        freeaddrinfo(m->all);
    m->connection = NULL;
    m->socket = NONE;
    m->all = m->tried = NULL;
    m->open = false;
}

/* Reports whether the time of the address that is being tried is over, and there is another one: the
 * client itself ends the last attempt. */
static bool is_late(const struct member *m)
{
    return m->tried && m->tried->ai_next && m->tried_until <= now();
}

/* Tries the next address, for its share of the time that is left for all of them. If none is left,
 * the connection is lost, for this reason. */
static void try_next(struct member *m, const char *why)
{
    for (; m->tried; m->tried = m->tried->ai_next) {
        int type = SOCK_STREAM | SOCK_CLOEXEC | SOCK_NONBLOCK;
        size_t count = 0;
        for (struct addrinfo *rest = m->tried; rest; rest = rest->ai_next)
            count++;
        m->tried_until = rtr_client_tried_until(&m->client, now(), count);
        m->socket = socket(m->tried->ai_family, type, 0);
        if (m->socket != NONE
            && (connect(m->socket, m->tried->ai_addr, m->tried->ai_addrlen) == 0
                || errno == EINPROGRESS))
            return;
        why = strerror(errno);
        if (m->socket != NONE)
            close(m->socket);
        m->socket = NONE;
    }
    close_connection(m);
    rtr_client_lost(&m->client, why);
}

/* The address being tried failed, for this reason; null means that the cache closed. Tries the next
 * one. */
static void skip(struct member *m, const char *why)
{
    BIO_free_all(m->connection);
    m->connection = NULL;
    close(m->socket);
    m->socket = NONE;
    m->tried = m->tried->ai_next;
    try_next(m, why);
}

/* Handles a failed call on the connection: it waits for the socket, or the address or the connection
 * is lost. */
static void unfinished(struct member *m)
{
    SSL *tls = NULL;
    const char *why = reason();
    m->awaited = BIO_should_read(m->connection) ? POLLIN : POLLOUT;
    if (BIO_should_retry(m->connection))
        return;
    BIO_get_ssl(m->connection, &tls);
    if (SSL_get_verify_result(tls) != X509_V_OK)
        why = X509_verify_cert_error_string(SSL_get_verify_result(tls));
    bool closed = !ERR_peek_error() && SSL_get_shutdown(tls) & SSL_RECEIVED_SHUTDOWN;
    m->open = m->open && closed;
    if (m->tried)
        skip(m, closed ? NULL : why);
    else
        rtr_client_lost(&m->client, closed ? NULL : why);
}

/* Sends some of the unsent bytes; returns whether the connection is still open. After a failure it
 * isn't, even if the cache had closed its side before. */
static bool send_some(struct member *m)
{
    size_t length, count;
    const uint8_t *output = rtr_client_output(&m->client, &length);
    if (length && BIO_write_ex(m->connection, output, length, &count)) {
        rtr_client_sent(&m->client, count);
    } else if (length) {
        unfinished(m);
        m->open = m->open && BIO_should_retry(m->connection);
    }
    return m->open;
}

/* After the handshake the other addresses aren't needed. */
static void forget_addresses(struct member *m)
{
    freeaddrinfo(m->all);
    m->all = m->tried = NULL;
}

/* Advances a connection: makes the TLS handshake, or sends and reads. */
static void go_on(struct member *m)
{
    size_t length, count;
    ERR_clear_error();
    if (!m->open) {
        m->open = BIO_do_handshake(m->connection) == 1 && rtr_client_connected(&m->client);
        if (m->open)
            forget_addresses(m);
        else
            unfinished(m);
    } else if (send_some(m)) {
        uint8_t *input = rtr_client_room(&m->client, &length);
        if (BIO_read_ex(m->connection, input, length, &count))
            rtr_client_received(&m->client, count);
        else
            unfinished(m);
    }
}

/* Sends the host's name in the handshake, unless it is an address (RFC 6066 section 3). */
static bool send_name(SSL *tls, const char *host)
{
    struct in6_addr address;
    return inet_pton(AF_INET, host, &address) == 1 || inet_pton(AF_INET6, host, &address) == 1
           || SSL_set_tlsext_host_name(tls, host);
}

/* Begins TLS over the socket, with a cache whose certificate has to name the host. */
static void secure(struct member *m)
{
    SSL *tls = NULL;
    BIO *bytes = BIO_new_socket(m->socket, BIO_NOCLOSE);
    m->connection = BIO_new_ssl(context, 1);
    must(bytes && m->connection && BIO_push(m->connection, bytes)
             && BIO_get_ssl(m->connection, &tls) && SSL_set1_host(tls, m->host)
             && send_name(tls, m->host),
         m->address);
    SSL_set_hostflags(tls, X509_CHECK_FLAG_NEVER_CHECK_SUBJECT); /* RFC 8210 section 9.2 */
    go_on(m);
}

static void dial(struct member *m)
{
    struct addrinfo hints = {.ai_socktype = SOCK_STREAM};
    int unknown = getaddrinfo(m->host, m->port, &hints, &m->all);
    m->tried = m->all = unknown ? NULL : m->all;
    try_next(m, unknown ? gai_strerror(unknown) : "no address");
}

/* The address being tried has answered, or its time is over: begins TLS, or tries the next
 * address. */
static void look(struct member *m, bool answered)
{
    int error = answered ? 0 : ETIMEDOUT;
    socklen_t size = sizeof error;
    if (answered && getsockopt(m->socket, SOL_SOCKET, SO_ERROR, &error, &size) < 0)
        error = errno;
    if (error)
        skip(m, strerror(error));
    else
        secure(m);
}

/* Waits until a socket is ready, but not after this time, and returns whether it is. A signal
 * doesn't end the wait. */
static bool await(int socket, short events, int64_t until)
{
    struct pollfd ready = {.fd = socket, .events = events};
    int count;
    do
        count = poll(&ready, 1, left(until));
    while (count < 0 && errno == EINTR);
    return count == 1;
}

/* Reads and drops what the peer sends, until it closes or the time is over: closing with unread
 * bytes would reset the connection, and the bytes sent last might not arrive. */
static void discard(int socket, int64_t until)
{
    uint8_t read[4096];
    bool open = true;
    for (ssize_t rest = RTR_LAST_REPORT_BYTES; open && rest > 0 && await(socket, POLLIN, until);) {
        ssize_t count = recv(socket, read, sizeof read, MSG_DONTWAIT);
        open = count > 0 || (count < 0 && (errno == EAGAIN || errno == EINTR));
        rest -= count > 0 ? count : 0;
    }
}

/* Sends the last bytes, if there are any, and closes the connection so that they arrive. */
static void hang_up(struct member *m)
{
    size_t length = 0;
    int64_t until = now() + m->client.report_limit;
    if (m->open)
        rtr_client_output(&m->client, &length);
    bool last = length > 0;
    while (m->open && length && await(m->socket, POLLOUT, until) && send_some(m))
        rtr_client_output(&m->client, &length);
    if (m->open)
        BIO_ssl_shutdown(m->connection);
    if (last) {
        shutdown(m->socket, SHUT_WR);
        discard(m->socket, until);
    }
    close_connection(m);
}

/* Waits for connections or until a client wakes, and advances the connections that are ready. */
static void wait_for_all(void)
{
    struct pollfd ready[RTR_MOST_MEMBERS];
    uint64_t group_wakes = rtr_group_wakes(&group);
    int64_t wakes = group_wakes < INT64_MAX ? (int64_t)group_wakes : INT64_MAX;
    for (size_t i = 0; i < group.runs; i++) {
        size_t length;
        struct member *m = &members[i];
        rtr_client_output(&m->client, &length);
        ready[i] = (struct pollfd){m->socket,
                                   m->tried && !m->connection ? POLLOUT
                                   : !m->open                 ? m->awaited
                                   : length                   ? POLLIN | POLLOUT
                                                              : POLLIN,
                                   0};
        wakes = m->client.wakes < wakes ? m->client.wakes : wakes;
        wakes = m->tried && m->tried_until < wakes ? m->tried_until : wakes;
        wakes = m->open && BIO_pending(m->connection) ? 0 : wakes; /* TLS has already read more */
    }
    poll(ready, group.runs, left(wakes));
    for (size_t i = 0; i < group.runs; i++) {
        struct member *m = &members[i];
        if (m->tried && !m->connection && (ready[i].revents || is_late(m)))
            look(m, ready[i].revents);
        else if (is_late(m))
            skip(m, strerror(ETIMEDOUT));
        else if (m->connection && (m->open || ready[i].revents))
            go_on(m);
    }
}

static void print_changes(const uint8_t *changes, size_t length)
{
    static uint8_t text[1 << 18]; /* longer than any change's line */
    struct rtr_line line = {.size = 1};
    must(changes != NULL, "changes");
    for (size_t at = 0; line.size > 0; at += line.size) {
        rtr_change_line(changes + at, length - at, text, sizeof text, &line);
        if (line.length > 0)
            printf("%.*s\n", (int)line.length, (const char *)text);
    }
    must(!fflush(stdout), "standard output");
}

/* Switches to the data of another client, and stops clients, as the group decided. */
static void obey(const struct rtr_group_answer *answer)
{
    struct rtr_client *c = &members[answer->member].client;
    if (answer->shown == RTR_GROUP_DATA && c != source) {
        size_t length;
        const uint8_t *changes =
            rtr_client_changes_from(c, source->data, source->data_length, &length);
        print_changes(changes, length);
    }
    if (answer->shown != RTR_GROUP_SAME)
        source = answer->shown == RTR_GROUP_DATA ? c : &none;
    for (size_t i = answer->stop; answer->stops && i < group.count; i++) {
        close_connection(&members[i]);
        rtr_client_free(&members[i].client);
        rtr_client_again(&members[i].client);
    }
}

/* Carries out an event of a client. */
static void act(size_t number, enum rtr_client_event event)
{
    struct member *m = &members[number];
    struct rtr_group_answer answer = {.shown = RTR_GROUP_SAME};
    if (event == RTR_CLIENT_CONNECT)
        dial(m);
    if (event == RTR_CLIENT_CLOSE)
        hang_up(m);
    if (event >= RTR_CLIENT_NO_DATA)
        fprintf(stderr, "%s: %s\n", m->address, m->client.text);
    if ((event == RTR_CLIENT_DATA || event == RTR_CLIENT_DROPPED) && source == &m->client) {
        size_t length;
        const uint8_t *changes = rtr_client_changes(source, &length);
        print_changes(changes, length);
    }
    rtr_client_tell(&m->client, &group, number, &answer);
    obey(&answer);
}

/* Initializes the client of a cache at this address; returns false unless it is a host and a
 * port. */
static bool init(struct member *m, const char *address)
{
    uint16_t *chance = &m->client.settings.chance;
    m->address = address;
    m->socket = NONE;
    rtr_client_init(&m->client, RTR_USUAL_VERSION);
    if (getentropy(chance, sizeof *chance) != 0)
        *chance = (uint16_t)(now() ^ getpid());
    return BIO_parse_hostserv(address, &m->host, &m->port, BIO_PARSE_PRIO_HOST) == 1 && m->host
           && m->port;
}

int main(int count, char **words)
{
    struct rtr_group_settings settings;
    struct rtr_group_answer answer;
    bool understood = count >= 4 && count - 3 <= RTR_MOST_MEMBERS;
    for (int i = 3; understood && i < count; i++)
        understood = init(&members[i - 3], words[i]);
    if (!understood)
        return fprintf(stderr, "usage: client_tls CA OWN HOST:PORT..\n"), 2;
    must((context = SSL_CTX_new(TLS_client_method())) != NULL, "OpenSSL");
    must(SSL_CTX_load_verify_file(context, words[1]), words[1]);
    must(SSL_CTX_use_certificate_chain_file(context, words[2])
             && SSL_CTX_use_PrivateKey_file(context, words[2], SSL_FILETYPE_PEM),
         words[2]);
    SSL_CTX_set_verify(context, SSL_VERIFY_PEER, NULL);
    SSL_CTX_set_options(context, SSL_OP_NO_RENEGOTIATION);
    SSL_CTX_set_mode(context, SSL_MODE_ENABLE_PARTIAL_WRITE | SSL_MODE_ACCEPT_MOVING_WRITE_BUFFER);
    signal(SIGPIPE, SIG_IGN);
    rtr_group_usual(&settings);
    settings.empty_is_data = count == 4; /* there is no other cache to ask */
    rtr_group_init(&group, &settings, (size_t)count - 3, (uint64_t)now());
    for (;;) {
        bool waits = true;
        rtr_group_tick(&group, (uint64_t)now(), &answer);
        obey(&answer);
        for (size_t i = 0; i < group.runs; i++) {
            enum rtr_client_event event = rtr_client_next(&members[i].client, now());
            waits = waits && event == RTR_CLIENT_WAIT;
            act(i, event);
        }
        if (waits)
            wait_for_all();
    }
}
