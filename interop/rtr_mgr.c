/* Queries a cache with rtrlib's manager, and prints the validity of routes.
 *
 * usage: rtr_mgr PORT < ROUTES
 *
 * The cache is on this machine. Each line of ROUTES has a family, 4 or 6, an address, a prefix
 * length and an AS. For each a line has the state, as rtr_mgr_validate numbers it. It ends with
 * status 1 if there is no data within a minute. */
#include <arpa/inet.h>
#include <rtrlib/rtrlib.h>
#include <stdio.h>
#include <stdlib.h>
#include <unistd.h>

#define TRIES 600
#define TRY_MICROSECONDS 100000

static struct lrtr_ip_addr address_of(int family, const char *text)
{
    struct lrtr_ip_addr made = {.ver = family == 4 ? LRTR_IPV4 : LRTR_IPV6};
    uint32_t octets[4] = {0};
    if (inet_pton(family == 4 ? AF_INET : AF_INET6, text, octets) != 1)
        exit(2);
    if (family == 4)
        made.u.addr4.addr = ntohl(octets[0]);
    for (int i = 0; family == 6 && i < 4; i++)
        made.u.addr6.addr[i] = ntohl(octets[i]);
    return made;
}

static void answer(struct rtr_mgr_config *manager)
{
    char text[64];
    unsigned family, length, asn;
    while (scanf("%u %63s %u %u", &family, text, &length, &asn) == 4) {
        struct lrtr_ip_addr address = address_of((int)family, text);
        enum pfxv_state state;
        if (rtr_mgr_validate(manager, asn, &address, (uint8_t)length, &state) != PFX_SUCCESS)
            exit(2);
        printf("%d\n", (int)state);
    }
}

int main(int argc, char **argv)
{
    char host[] = "127.0.0.1";
    struct tr_tcp_config cache = {.host = host, .port = argc == 2 ? argv[1] : "0"};
    struct tr_socket transport;
    tr_tcp_init(&cache, &transport);
    struct rtr_socket socket = {.tr_socket = &transport}, *sockets[] = {&socket};
    struct rtr_mgr_group group = {.sockets = sockets, .sockets_len = 1, .preference = 1};
    struct rtr_mgr_config *manager;
    if (rtr_mgr_init(&manager, &group, 1, 3600, 7200, 2, NULL, NULL, NULL, NULL) != RTR_SUCCESS)
        return 2;
    rtr_mgr_start(manager);
    int tries = 0;
    while (!rtr_mgr_conf_in_sync(manager) && tries++ < TRIES)
        usleep(TRY_MICROSECONDS);
    if (tries > TRIES)
        return 1;
    answer(manager);
    rtr_mgr_stop(manager);
    rtr_mgr_free(manager);
    return 0;
}
