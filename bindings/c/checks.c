/* Prints which of the protocol's rules the units on standard input break, as rtr_list --check. */
#include <stdio.h>
#include <string.h>
#include "rtr.h"

/* The names of announced payloads, each after its length. A hash set is faster for many names. */
static uint8_t set[1 << 20];
static size_t used;

/* Returns the offset of the name, or the end of the set. */
static size_t offset_of(const uint8_t *name, size_t length)
{
    for (size_t at = 0, size; at < used; at += sizeof size + size) {
        memcpy(&size, set + at, sizeof size);
        if (size == length && memcmp(set + at + sizeof size, name, length) == 0)
            return at;
    }
    return used;
}

static void put(const uint8_t *name, size_t length)
{
    if (length <= sizeof set - sizeof length - used) {
        memcpy(set + used, &length, sizeof length);
        memcpy(set + used + sizeof length, name, length);
        used += sizeof length + length;
    }
}

static void delete (size_t at, size_t length)
{
    used -= sizeof length + length;
    memmove(set + at, set + at + sizeof length + length, used - at);
}

static void print(const struct rtr_finding *finding, size_t offset)
{
    uint8_t line[RTR_FINDING_ROOM];
    size_t length = rtr_finding_line(finding, offset, line, sizeof line);
    if (length > 0)
        printf("%.*s\n", (int)length, (const char *)line);
}

int main(void)
{
    static uint8_t input[1 << 20], name[RTR_NAME_ROOM];
    size_t length = fread(input, 1, sizeof input, stdin), at = 0;
    struct rtr_check check = {0};
    struct rtr_naming named;
    struct rtr_checked checked;
    struct rtr_finding missing;
    for (; at < length; at += named.size) {
        uint8_t status = rtr_check_name(input + at, length - at, name, sizeof name, &named);
        if (status != RTR_OK) {
            fprintf(stderr, "offset %zu: %s\n", at, rtr_status_text(status));
            return 1;
        }
        size_t offset = offset_of(name, named.length);
        rtr_check_unit(&check, input + at, length - at, offset < used, &checked);
        for (size_t i = 0; i < sizeof checked.findings / sizeof checked.findings[0]; i++)
            print(&checked.findings[i], at);
        if (named.begins)
            used = 0;
        if (named.announces && offset == used)
            put(name, named.length);
        else if (!named.announces && offset < used)
            delete (offset, named.length);
    }
    rtr_check_end(&check, &missing);
    print(&missing, at);
    return 0;
}
