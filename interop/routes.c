/* Says what rtr_validate makes of routes by a sequence that only announces, in whatever order.
 *
 * usage: routes SEQUENCE < ROUTES
 *
 * Each line of ROUTES has a family, 4 or 6, an address, a prefix length and an AS. For each a line
 * has the validity, an rtr_validity. It ends with status 1 if the sequence is refused. */
#include <arpa/inet.h>
#include <stdio.h>
#include <stdlib.h>
#include "rtr.h"

/* The number of bytes of the shortest payload unit. */
#define SHORTEST 12

/* Reads a file, puts its changes in canonical form, and returns their length in bytes. */
static size_t read_data(const char *path, uint8_t **data)
{
    FILE *file = fopen(path, "rb");
    if (!file || fseek(file, 0, SEEK_END) != 0)
        exit(2);
    size_t length = (size_t)ftell(file), places = length / SHORTEST + 1;
    uint8_t *input = malloc(length + 1);
    size_t *index = malloc(places * sizeof *index);
    *data = malloc(length + 1);
    rewind(file);
    if (!input || !index || !*data || fread(input, 1, length, file) != length)
        exit(2);
    fclose(file);
    struct rtr_data_answer answer;
    if (rtr_order(input, length, index, places, *data, length, &answer) != RTR_OK)
        exit(1);
    free(index);
    free(input);
    return answer.written;
}

int main(int argc, char **argv)
{
    uint8_t *bytes;
    size_t length = argc == 2 ? read_data(argv[1], &bytes) : 0;
    if (length == 0)
        return 2;
    struct rtr_data data;
    struct rtr_data_answer answer;
    if (rtr_check_data(bytes, length, &data, &answer) != RTR_OK)
        return 1;
    char text[64];
    unsigned family, bits, asn;
    while (scanf("%u %63s %u %u", &family, text, &bits, &asn) == 4) {
        struct rtr_route route = {
            .asn = asn,
            .family = (uint8_t)family,
            .prefix_length = (uint8_t)bits,
        };
        if (inet_pton(family == 4 ? AF_INET : AF_INET6, text, route.address) != 1)
            return 2;
        printf("%u\n", rtr_validate(&data, &route));
    }
    free(bytes);
    return 0;
}
