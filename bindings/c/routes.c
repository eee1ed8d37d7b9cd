/* Prints whether three routes are valid by the recording or the list on standard input, and why one
 * isn't. */
#include <inttypes.h>
#include <stdio.h>
#include "rtr.h"

static void print_validity(const struct rtr_data *data, const struct rtr_route *route)
{
    static const char *const validities[] = {"not found", "valid", "invalid", "no route"};
    static const char *const reasons[] = {"it matches", "AS 0", "another AS", "longer"};
    printf("%u.%u.%u.%u/%u AS%" PRIu32 " %s\n", route->address[0], route->address[1],
           route->address[2], route->address[3], route->prefix_length, route->asn,
           validities[rtr_validate(data, route)]);
    struct rtr_covering vrp;
    for (size_t from = 0; rtr_covering(data, route, from, &vrp) == RTR_COVERS_ONE;
         from = vrp.place + 1)
        printf("  its first %u bits, up to %u, AS%" PRIu32 ": %s\n", vrp.prefix_length,
               vrp.max_length, vrp.asn, reasons[vrp.mismatch]);
}

int main(void)
{
    static const struct rtr_route routes[] = {
        {65551, 4, 24, {192, 0, 2}},
        {65551, 4, 27, {192, 0, 2}},
        {65551, 4, 24, {203, 0, 113}},
    };
    static uint8_t input[1 << 20], work[sizeof input], bytes[sizeof input];
    static size_t index[sizeof input / RTR_SHORTEST_PAYLOAD];
    size_t length = fread(input, 1, sizeof input, stdin);
    struct rtr_loaded loaded;
    struct rtr_data data;
    struct rtr_data_answer answer;
    if (rtr_load(input, length, index, sizeof index / sizeof index[0], work, sizeof work, bytes,
                 sizeof bytes, &loaded)
        != RTR_OK) {
        fprintf(stderr, "routes: offset %zu: %s\n", loaded.offset, rtr_status_text(loaded.status));
        return 1;
    }
    if (loaded.has_cut)
        fprintf(stderr, "routes: left out: an answer without an end of data\n");
    rtr_check_data(bytes, loaded.length, &data, &answer);
    for (size_t i = 0; i < sizeof routes / sizeof routes[0]; i++)
        print_validity(&data, &routes[i]);
    return 0;
}
