/* Measures rtr_delta and rtr_apply_in_order in C, as bench/python.py measures them in Python: each
 * call allocates its memory.
 *
 * usage: python_calls OLD NEW ROUNDS    prints of each the least time in ns, and what it writes
 */
#include <inttypes.h>
#include <stdio.h>
#include <stdlib.h>
#include <time.h>
#include "rtr.h"

struct input {
    uint8_t *bytes;
    size_t length;
};

static struct input read_all(const char *path)
{
    struct input input = {0};
    FILE *file = fopen(path, "rb");
    if (!file || fseek(file, 0, SEEK_END) != 0)
        exit(1);
    input.length = (size_t)ftell(file);
    input.bytes = malloc(input.length);
    rewind(file);
    if (!input.bytes || fread(input.bytes, 1, input.length, file) != input.length)
        exit(1);
    fclose(file);
    return input;
}

static uint64_t now(void)
{
    struct timespec time;
    clock_gettime(CLOCK_PROCESS_CPUTIME_ID, &time);
    return (uint64_t)time.tv_sec * 1000000000 + (uint64_t)time.tv_nsec;
}

/* Returns the delta from old to new; or with `changes`, the old data with those in `second`. */
static struct input called(struct input old, struct input second, bool changes)
{
    size_t capacity = old.length + second.length, places = second.length / 8;
    struct input output = {malloc(capacity), 0};
    size_t *index = changes ? malloc(places * sizeof *index) : 0;
    struct rtr_data_answer answer;
    if (!output.bytes || (changes && !index))
        exit(1);
    if (changes)
        rtr_apply_in_order(old.bytes, old.length, second.bytes, second.length, index, places,
                           output.bytes, capacity, &answer);
    else
        rtr_delta(old.bytes, old.length, second.bytes, second.length, output.bytes, capacity,
                  &answer);
    free(index);
    if (answer.status != RTR_OK)
        exit(2);
    output.length = answer.written;
    return output;
}

int main(int count, char **words)
{
    if (count != 4)
        return 2;
    struct input old = read_all(words[1]), new = read_all(words[2]);
    struct input delta = called(old, new, false);
    for (int changes = 0; changes < 2; changes++) {
        uint64_t least = UINT64_MAX;
        size_t length = 0;
        for (int round = atoi(words[3]); round > 0; round--) {
            uint64_t from = now();
            struct input result = called(old, changes ? delta : new, changes);
            length = result.length;
            free(result.bytes);
            uint64_t took = now() - from;
            least = took < least ? took : least;
        }
        printf("%" PRIu64 " %zu\n", least, length);
    }
    return 0;
}
