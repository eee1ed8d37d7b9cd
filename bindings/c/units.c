/* Prints the units of the sequence on standard input, and the length of its form. */
#include <inttypes.h>
#include <stdio.h>
#include "rtr.h"

int main(void)
{
    static uint8_t input[1 << 20], form[1 << 20];
    size_t length = fread(input, 1, sizeof input, stdin), at = 0;
    struct rtr_unit unit = {0};
    while (unit.kind != RTR_END_OF_DATA && rtr_next(input + at, length - at, &unit) == RTR_OK) {
        printf("type %u, %zu bytes, AS %" PRIu32 "\n", unit.kind, unit.size, unit.asn);
        at += unit.size;
    }
    struct rtr_answer answer;
    uint8_t status = rtr_normalise_slice(input, length, form, sizeof form, UINT32_MAX, &answer);
    printf("%s: %zu of %zu bytes, form of %zu bytes\n", rtr_status_text(status), answer.taken,
           length, answer.written);
    return status;
}
