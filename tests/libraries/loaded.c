/* Loads a shared library of rtr.h, whose path is the argument, and reads a prefix and writes its
 * line by it: whatever C library this program is linked with. */
#include <dlfcn.h>
#include <stdio.h>
#include <string.h>
#include "rtr.h"

typedef uint8_t next_call(const uint8_t *, size_t, struct rtr_unit *);
typedef uint8_t line_call(const uint8_t *, size_t, uint64_t, uint8_t *, size_t, struct rtr_line *);

/* Puts the address of a call into a pointer to a function; false if the library lacks it. */
static bool find(void *library, const char *name, void *call, size_t size)
{
    void *found = dlsym(library, name);
    memcpy(call, &found, size);
    return found != NULL;
}

int main(int count, char **words)
{
    /* RFC 8210 section 5.6 */
    static const uint8_t prefix[] = {1,  4, 0,   0, 0, 0, 0, 20, 1, 23,
                                     26, 0, 192, 0, 2, 0, 0, 1,  0, 15};
    static const char wanted[] = "0 v1 IPv4 prefix announce 192.0.2.0/23-26 AS65551";
    void *library = count == 2 ? dlopen(words[1], RTLD_NOW) : NULL;
    if (library == NULL) {
        fprintf(stderr, "loaded: %s\n", count == 2 ? dlerror() : "usage: loaded LIBRARY");
        return 2;
    }
    next_call *next;
    line_call *line;
    if (!find(library, "rtr_next_nonnull", &next, sizeof next)
        || !find(library, "rtr_line_nonnull", &line, sizeof line))
        return 2;
    struct rtr_unit unit;
    struct rtr_line answer;
    uint8_t text[RTR_LINE_ROOM];
    bool read = next(prefix, sizeof prefix, &unit) == RTR_OK && unit.kind == RTR_IPV4_PREFIX
                && unit.size == sizeof prefix && unit.asn == 65551;
    bool written = line(prefix, sizeof prefix, 0, text, sizeof text, &answer) == RTR_OK
                   && answer.length == sizeof wanted - 1
                   && memcmp(text, wanted, sizeof wanted - 1) == 0;
    printf("%s, %s\n", read ? "read" : "not read", written ? "written" : "not written");
    return !(read && written);
}
