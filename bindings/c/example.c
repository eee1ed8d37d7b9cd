/* Reads a sequence from standard input, prints each unit, and checks that its form means the same.
 *
 * Compile it at the top of the repository, after bindings/build has made the archive:
 *
 *     cc -Ibindings/c -o example bindings/c/example.c prebuilt/x86_64/librtr_wire.a */
#include <inttypes.h>
#include <stdio.h>
#include <stdlib.h>
#include "rtr.h"

static void print_unit(const uint8_t *at, const struct rtr_unit *unit)
{
    const char *what = unit->action ? "announce" : "withdraw";
    uint32_t provider;
    switch (unit->kind) {
    case RTR_IPV4_PREFIX:
        printf("%s %u.%u.%u.%u/%u-%u AS%" PRIu32 "\n", what, unit->address[0], unit->address[1],
               unit->address[2], unit->address[3], unit->prefix_length, unit->max_length,
               unit->asn);
        break;
    case RTR_IPV6_PREFIX:
        printf("%s ", what);
        for (int i = 0; i < 16; i += 2)
            printf("%s%02x%02x", i ? ":" : "", unit->address[i], unit->address[i + 1]);
        printf("/%u-%u AS%" PRIu32 "\n", unit->prefix_length, unit->max_length, unit->asn);
        break;
    case RTR_ROUTER_KEY:
        printf("%s key of AS%" PRIu32 ", %zu bytes\n", what, unit->asn, unit->part_length);
        break;
    case RTR_ASPA:
        printf("%s providers of AS%" PRIu32 ":", what, unit->customer);
        for (size_t i = 0; unit->action && rtr_provider(unit, at, unit->size, i, &provider); i++)
            printf(" AS%" PRIu32, provider);
        printf("\n");
        break;
    case RTR_END_OF_DATA:
        printf("end of data of version %u, session %u, serial %" PRIu32 "\n", unit->version,
               unit->session, unit->serial);
        break;
    }
}

/* Prints the units of a sequence, and returns the status of the last. */
static uint8_t print_units(const uint8_t *input, size_t length)
{
    struct rtr_unit unit;
    size_t at = 0;
    do {
        uint8_t status = rtr_next(input + at, length - at, &unit);
        if (status != RTR_OK)
            return status;
        print_unit(input + at, &unit);
        at += unit.size;
    } while (unit.kind != RTR_END_OF_DATA);
    return RTR_OK;
}

int main(void)
{
    size_t capacity = 1 << 20;
    uint8_t *input = malloc(capacity), *form = malloc(capacity);
    if (!input || !form)
        return 2;
    size_t length = fread(input, 1, capacity, stdin);

    uint8_t status = print_units(input, length);
    if (status != RTR_OK) {
        fprintf(stderr, "%s\n", rtr_status_text(status));
        return 1;
    }

    struct rtr_answer answer;
    struct rtr_comparison comparison;
    rtr_normalise_slice(input, length, form, capacity, UINT32_MAX, &answer);
    rtr_same_meaning(input, length, form, answer.written, UINT32_MAX, &comparison);
    printf("%" PRIu64 " payload units, form of %zu bytes, which means %s\n", answer.units,
           answer.written, comparison.same ? "the same" : "something else");
    free(form);
    free(input);
    return 0;
}
