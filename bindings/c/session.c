/* Prints each unit of the recorded session on standard input. */
#include <inttypes.h>
#include <stdio.h>
#include "rtr.h"

/* Prints the code of an error report, and the start of its text. */
static void print_report(const struct rtr_unit *u, const uint8_t *at)
{
    char text[RTR_REPORT_TEXT_ROOM];
    size_t length;
    rtr_report_text(u->code, at + u->text_start, u->text_length, (uint8_t *)text, sizeof text,
                    &length);
    printf(": %.*s, about %zu bytes", (int)length, text, u->part_length);
}

static void print_unit(const struct rtr_unit *u, const uint8_t *at)
{
    uint32_t provider;
    printf("%s, %zu bytes", rtr_kind_text(u->kind), u->size);
    if (u->kind <= RTR_SERIAL_QUERY || u->kind == RTR_END_OF_DATA)
        printf(": session %u, serial %" PRIu32, u->session, u->serial);
    else if (u->kind == RTR_CACHE_RESPONSE)
        printf(": session %u", u->session);
    else if (u->family)
        printf(": %02x%02x%02x%02x../%u-%u AS%" PRIu32, u->address[0], u->address[1], u->address[2],
               u->address[3], u->prefix_length, u->max_length, u->asn);
    else if (u->kind == RTR_ROUTER_KEY)
        printf(": AS%" PRIu32 ", %zu bytes of key info", u->asn, u->part_length);
    else if (u->kind == RTR_ERROR_REPORT)
        print_report(u, at);
    else if (u->kind == RTR_ASPA)
        printf(": AS%" PRIu32 " by", u->customer);
    for (size_t i = 0; rtr_provider(u, at, u->size, i, &provider); i++)
        printf(" AS%" PRIu32, provider);
    printf("\n");
}

int main(void)
{
    static uint8_t in[1 << 20];
    size_t length = fread(in, 1, sizeof in, stdin), at = 0;
    struct rtr_unit unit;
    for (;; at += unit.size) {
        uint8_t status = rtr_next(in + at, length - at, &unit);
        if (status == RTR_OK)
            print_unit(&unit, in + at);
        else
            printf("%s, %zu bytes\n", rtr_status_text(status), unit.size + unit.wanted);
        if (unit.size == 0)
            return status != RTR_SHORT;
    }
}
