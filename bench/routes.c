/* Looks up routes in made-up VRPs, by rtr_validate, rtr_validate_many and rtrlib's table.
 *
 * usage: routes VRPS ROUTES ROUNDS
 *
 * It makes VRPS VRPs, five in six of IPv4, and ROUTES routes, a third of each state: below a VRP
 * and of its AS, below a VRP and of an AS that has none, and covered by nothing. Each round looks
 * up all of them, by rtr_validate and then by rtrlib. The last line has, separated by spaces: how
 * many VRPs and bytes of data there are; the milliseconds in which our tables and rtrlib's are
 * made; the median nanoseconds of a lookup of IPv4, of IPv6 and of both, by rtr_validate and by
 * rtrlib; those of IPv4, and those of IPv6, in the order of addresses, by rtr_validate,
 * rtr_validate_many and rtrlib; and how many routes are not found, valid, invalid, and of another
 * state by rtrlib or in that order.
 * Without rtrlib (WITH_RTRLIB isn't defined) its numbers are 0. */
#include <stdio.h>
#include <stdlib.h>
#include <string.h>
#include <time.h>
#include "rtr.h"
#ifdef WITH_RTRLIB
#include <arpa/inet.h>
#include <rtrlib/rtrlib.h>
#endif

/* No VRP has this AS. */
#define UNUSED_AS 4200000000u

#define MOST_ROUNDS 99

/* One VRP in SHORT_SHARE is short. */
#define SHORT_SHARE 5000

/* A VRP. Its bytes up to the AS have the order of payloads. */
struct vrp {
    uint8_t family, address[16], length, max_length;
    uint32_t asn;
};

static uint64_t seed = 88172645463325252u;

static uint64_t random_below(uint64_t below)
{
    seed ^= seed << 13;
    seed ^= seed >> 7;
    seed ^= seed << 17;
    return seed % below;
}

/* Returns the processor time used so far. */
static double now(void)
{
    struct timespec time;
    clock_gettime(CLOCK_PROCESS_CPUTIME_ID, &time);
    return time.tv_sec * 1e9 + time.tv_nsec;
}

static uint8_t width(const struct vrp *vrp)
{
    return vrp->family == 4 ? 32 : 128;
}

/* Clears the bits after the prefix length. */
static void clear(uint8_t *address, uint8_t length)
{
    for (int i = length; i < 128; i++)
        address[i / 8] &= (uint8_t) ~(0x80 >> i % 8);
}

/* Sets a random address of the space that is allocated to networks. */
static void random_address(struct vrp *vrp)
{
    memset(vrp->address, 0, sizeof vrp->address);
    for (int i = 0; i < (vrp->family == 4 ? 4 : 16); i++)
        vrp->address[i] = (uint8_t)random_below(256);
    vrp->address[0] = (uint8_t)(vrp->family == 4 ? 1 + random_below(222) : 0x20 + random_below(2));
}

/* Makes a random VRP, with lengths about as frequent as among the VRPs of the RPKI, where few are
 * short; half of the VRPs are below another. */
static void random_vrp(struct vrp *vrp, const struct vrp *others, size_t count)
{
    static const uint8_t lengths[2][20] = {
        {24, 24, 24, 24, 24, 24, 24, 24, 24, 24, 24, 23, 23, 22, 22, 21, 20, 19, 18, 16},
        {48, 48, 48, 48, 48, 48, 48, 48, 48, 48, 44, 44, 40, 40, 36, 32, 32, 32, 32, 29},
    };
    static const uint8_t shortest[2][2] = {{8, 12}, {24, 28}};
    vrp->length = random_below(SHORT_SHARE) ? lengths[vrp->family == 6][random_below(20)]
                                            : shortest[vrp->family == 6][random_below(2)];
    random_address(vrp);
    if (count > 0 && random_below(2)) {
        const struct vrp *above = others + random_below(count);
        if (above->family == vrp->family)
            for (int i = 0; i < above->length / 8; i++)
                vrp->address[i] = above->address[i];
    }
    clear(vrp->address, vrp->length);
    vrp->max_length = random_below(3) ? vrp->length : (uint8_t)(vrp->length + random_below(5));
    vrp->asn = (uint32_t)(1 + random_below(70000));
}

static int compare(const void *left, const void *right)
{
    const struct vrp *a = left, *b = right;
    int order = memcmp(a, b, offsetof(struct vrp, asn));
    return order ? order : (a->asn > b->asn) - (a->asn < b->asn);
}

/* Makes different VRPs in their order, and returns how many. */
static size_t make_vrps(struct vrp *vrps, size_t count)
{
    size_t kept = 0;
    for (size_t i = 0; i < count; i++) {
        memset(vrps + i, 0, sizeof vrps[i]);
        vrps[i].family = i % 6 < 5 ? 4 : 6;
        random_vrp(vrps + i, vrps, i);
    }
    qsort(vrps, count, sizeof *vrps, compare);
    for (size_t i = 0; i < count; i++)
        if (kept == 0 || compare(vrps + kept - 1, vrps + i))
            vrps[kept++] = vrps[i];
    return kept;
}

static void put32(uint8_t *bytes, uint32_t number)
{
    for (int i = 0; i < 4; i++)
        bytes[i] = (uint8_t)(number >> (24 - 8 * i));
}

/* Writes the units that announce the VRPs, and an end of data of version 0. */
static size_t write_data(const struct vrp *vrps, size_t count, uint8_t *data)
{
    uint8_t *next = data;
    for (size_t i = 0; i < count; i++) {
        uint8_t octets = width(vrps + i) / 8, size = (uint8_t)(16 + octets);
        const uint8_t head[12] = {
            0, vrps[i].family, 0, 0, 0, 0, 0, size, 1, vrps[i].length, vrps[i].max_length, 0,
        };
        memcpy(next, head, 12);
        memcpy(next + 12, vrps[i].address, octets);
        put32(next + 12 + octets, vrps[i].asn);
        next += size;
    }
    const uint8_t end[12] = {0, 7, 0, 1, 0, 0, 0, 12, 0, 0, 0, 1};
    memcpy(next, end, 12);
    return (size_t)(next + 12 - data);
}

/* Makes a random route at or below a VRP, of a length that the VRP allows. */
static void random_route(struct rtr_route *route, const struct vrp *vrp)
{
    route->family = vrp->family;
    uint64_t longer = random_below(1u + vrp->max_length - vrp->length);
    route->prefix_length = (uint8_t)(vrp->length + longer);
    for (int i = 0; i < width(vrp) / 8; i++)
        route->address[i] = (uint8_t)random_below(256);
    for (int i = 0; i < vrp->length; i++) {
        uint8_t bit = (uint8_t)(0x80 >> i % 8);
        uint8_t kept = route->address[i / 8] & (uint8_t)~bit;
        route->address[i / 8] = (uint8_t)(kept | (vrp->address[i / 8] & bit));
    }
    clear(route->address, route->prefix_length);
}

static void make_routes(struct rtr_route *routes, size_t count, const struct vrp *vrps,
                        size_t vrp_count, const struct rtr_data *data)
{
    for (size_t i = 0; i < count; i++) {
        const struct vrp *vrp = vrps + random_below(vrp_count);
        random_route(routes + i, vrp);
        routes[i].asn = i % 3 == 0 ? vrp->asn : UNUSED_AS;
        while (i % 3 == 2 && rtr_validate(data, routes + i) != RTR_NOT_FOUND) {
            struct vrp other = *vrp;
            random_address(&other);
            memcpy(routes[i].address, other.address, sizeof other.address);
            clear(routes[i].address, routes[i].prefix_length);
        }
    }
}

#ifdef WITH_RTRLIB
static uint32_t get32(const uint8_t *bytes)
{
    uint32_t number;
    memcpy(&number, bytes, sizeof number);
    return ntohl(number);
}

static struct lrtr_ip_addr rtrlib_address(uint8_t family, const uint8_t *address)
{
    struct lrtr_ip_addr converted = {.ver = family == 4 ? LRTR_IPV4 : LRTR_IPV6};
    if (family == 4)
        converted.u.addr4.addr = get32(address);
    for (int i = 0; family == 6 && i < 4; i++)
        converted.u.addr6.addr[i] = get32(address + 4 * i);
    return converted;
}

static struct pfx_table table;

static void build_rtrlib_table(const struct vrp *vrps, size_t count)
{
    pfx_table_init(&table, NULL);
    for (size_t i = 0; i < count; i++) {
        struct pfx_record record = {
            .asn = vrps[i].asn,
            .prefix = rtrlib_address(vrps[i].family, vrps[i].address),
            .min_len = vrps[i].length,
            .max_len = vrps[i].max_length,
        };
        pfx_table_add(&table, &record);
    }
}

static uint8_t rtrlib_validity(const struct rtr_route *route)
{
    static const uint8_t validities[] = {
        [BGP_PFXV_STATE_VALID] = RTR_VALID,
        [BGP_PFXV_STATE_NOT_FOUND] = RTR_NOT_FOUND,
        [BGP_PFXV_STATE_INVALID] = RTR_INVALID,
    };
    struct lrtr_ip_addr prefix = rtrlib_address(route->family, route->address);
    enum pfxv_state state;
    pfx_table_validate(&table, route->asn, &prefix, route->prefix_length, &state);
    return validities[state];
}
#endif

static int by_time(const void *left, const void *right)
{
    double a = *(const double *)left, b = *(const double *)right;
    return (a > b) - (a < b);
}

static double median(double *times, int rounds)
{
    qsort(times, (size_t)rounds, sizeof *times, by_time);
    return times[rounds / 2];
}

/* Compares by family, and then by address. */
static int by_address(const void *left, const void *right)
{
    const struct rtr_route *a = left, *b = right;
    int order = a->family - b->family;
    return order ? order : memcmp(a->address, b->address, sizeof a->address);
}

/* How routes in order are looked up. */
enum way { SINGLY, AT_ONCE, THEIRS, WAYS };

static void look_up(enum way way, const struct rtr_data *data, const struct rtr_route *routes,
                    size_t count, uint8_t *answers)
{
    if (way == AT_ONCE)
        rtr_validate_many(data, routes, count, answers);
    for (size_t i = 0; way == SINGLY && i < count; i++)
        answers[i] = rtr_validate(data, routes + i);
#ifdef WITH_RTRLIB
    for (size_t i = 0; way == THEIRS && i < count; i++)
        answers[i] = rtrlib_validity(routes + i);
#endif
}

/* Looks up routes of one family in order, and prints the median time of each way. Returns how many
 * answers differ from those of rtr_validate. */
static size_t print_in_order(const struct rtr_data *data, const struct rtr_route *routes,
                             size_t count, uint8_t *answers, uint8_t *others, int rounds)
{
    double times[WAYS][MOST_ROUNDS] = {{0}};
    size_t differ = 0;
    for (int round = 0; round < rounds; round++) {
        look_up(SINGLY, data, routes, count, answers);
        for (int way = 0; way < WAYS; way++) {
            memcpy(others, answers, count);
            double start = now();
            look_up((enum way)way, data, routes, count, others);
            times[way][round] = now() - start;
            for (size_t i = 0; i < count; i++)
                differ += answers[i] != others[i];
        }
    }
    for (int way = 0; way < WAYS; way++)
        printf(" %.1f", median(times[way], rounds) / (double)count);
    return differ;
}

/* Allocates zeroed memory, or exits. */
static void *allocate(size_t size)
{
    void *memory = calloc(size, 1);
    if (!memory)
        exit(1);
    return memory;
}

int main(int argc, char **argv)
{
    size_t requested = argc == 4 ? strtoul(argv[1], NULL, 10) : 0;
    size_t count = argc == 4 ? strtoul(argv[2], NULL, 10) : 0;
    int rounds = argc == 4 ? atoi(argv[3]) : 0;
    if (requested == 0 || count < 6 || rounds < 1 || rounds > MOST_ROUNDS) {
        fprintf(stderr, "usage: routes VRPS ROUTES ROUNDS\n");
        return 2;
    }
    struct vrp *vrps = allocate(requested * sizeof *vrps);
    size_t vrp_count = make_vrps(vrps, requested);
    uint8_t *bytes = allocate(32 * vrp_count + 12);
    uint8_t *answers = allocate(count), *others = allocate(count);
    size_t length = write_data(vrps, vrp_count, bytes);
    struct rtr_data data;
    struct rtr_data_answer answer;
    double check_times[MOST_ROUNDS], rtrlib_time = 0, times[2][3][MOST_ROUNDS] = {{{0}}};
    for (int round = 0; round < rounds; round++) {
        double start = now();
        if (rtr_check_data(bytes, length, &data, &answer) != RTR_OK)
            return 1;
        check_times[round] = now() - start;
    }
    struct rtr_route *routes = allocate(count * sizeof *routes);
    make_routes(routes, count, vrps, vrp_count, &data);
#ifdef WITH_RTRLIB
    double build_start = now();
    build_rtrlib_table(vrps, vrp_count);
    rtrlib_time = now() - build_start;
#endif
    size_t family_counts[3] = {0, 0, count}, state_counts[3] = {0}, differ = 0;
    for (size_t i = 0; i < count; i++)
        family_counts[routes[i].family == 6]++;
    for (int round = 0; round < rounds; round++) {
        for (int family = 0; family < 2; family++) {
            double start = now();
            for (size_t i = 0; i < count; i++)
                if (routes[i].family == 4 + 2 * family)
                    answers[i] = rtr_validate(&data, routes + i);
            double middle = now();
            times[0][family][round] = middle - start;
#ifdef WITH_RTRLIB
            for (size_t i = 0; i < count; i++)
                if (routes[i].family == 4 + 2 * family)
                    others[i] = rtrlib_validity(routes + i);
            times[1][family][round] = now() - middle;
#endif
        }
        for (int library = 0; library < 2; library++)
            times[library][2][round] = times[library][0][round] + times[library][1][round];
    }
    for (size_t i = 0; i < count; i++) {
        state_counts[answers[i]]++;
#ifdef WITH_RTRLIB
        differ += answers[i] != others[i];
#endif
    }
    printf("%zu %zu %.3f %.1f", vrp_count, length, median(check_times, rounds) / 1e6,
           rtrlib_time / 1e6);
    for (int library = 0; library < 2; library++)
        for (int family = 0; family < 3; family++)
            printf(" %.1f", median(times[library][family], rounds) / (double)family_counts[family]);
    qsort(routes, count, sizeof *routes, by_address);
    differ += print_in_order(&data, routes, family_counts[0], answers, others, rounds);
    differ +=
        print_in_order(&data, routes + family_counts[0], family_counts[1], answers, others, rounds);
    printf(" %zu %zu %zu %zu\n", state_counts[0], state_counts[1], state_counts[2], differ);
    return differ != 0;
}
