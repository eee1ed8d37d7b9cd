/* Counts the calls on data from C.
 *
 * usage: data_calls FILE..          does each job once over each file, to be counted by callgrind
 *
 * Each file has an old and a new data, one after the other, as generate_data.py writes them.
 * Callgrind dumps the cost of each job, labelled `JOB FILE`: bench/data.py reads that. If a call
 * writes wrong bytes, the exit status is 1. */
#include <stdio.h>
#include <stdlib.h>
#include <string.h>
#include "counting.h"
#include "rtr.h"

enum job {
    NORMALISE_BOTH,
    DELTA,
    NORMALISE_CHANGES,
    APPLY,
    ORDER_APPLY,
    IN_ORDER,
    ORDER_APPLY_ALL,
    IN_ORDER_ALL,
    JOBS
};

static const char *const names[JOBS] = {
    "normalise_both", "rtr_delta", "normalise_changes", "rtr_apply",
    "order_apply",    "in_order",  "order_apply_all",   "in_order_all",
};

/* The bytes of an end of data of version 2. */
enum { END_SIZE = 24 };

/* A sequence. */
struct bytes {
    const uint8_t *at;
    size_t length;
};

/* An old and a new data, the delta between them, the units of the delta and of the new data in no
 * order, data without payloads, an index for either, and room for units in order. */
struct sample {
    struct bytes old, new, changes, mixed, all, none;
    size_t *index;
    uint8_t *ordered;
};

/* Normalises both, and returns how many bytes that made. */
static size_t normalise(struct bytes first, struct bytes second, uint8_t *out)
{
    struct rtr_answer answer[2];
    if (rtr_normalise_slice(first.at, first.length, out, first.length, UINT64_MAX, &answer[0])
            != RTR_OK
        || rtr_normalise_slice(second.at, second.length, out + first.length, second.length,
                               UINT64_MAX, &answer[1])
               != RTR_OK)
        return 0;
    return answer[0].written + answer[1].written;
}

/* Applies changes in no order to the old data: orders them first. */
static size_t order_apply(const struct sample *sample, struct bytes old, struct bytes changes,
                          uint8_t *out)
{
    struct rtr_data_answer answer;
    if (rtr_order(changes.at, changes.length, sample->index, changes.length / 20, sample->ordered,
                  changes.length, &answer)
        == RTR_OK)
        rtr_apply(old.at, old.length, sample->ordered, answer.written, out,
                  old.length + changes.length, &answer);
    return answer.written;
}

/* Does the same in one call. */
static size_t in_order(const struct sample *sample, struct bytes old, struct bytes changes,
                       uint8_t *out)
{
    struct rtr_data_answer answer;
    rtr_apply_in_order(old.at, old.length, changes.at, changes.length, sample->index,
                       changes.length / 20, out, old.length + changes.length, &answer);
    return answer.written;
}

/* Does a job, and returns how many bytes it made; 0 if it was refused. */
static __attribute__((noinline)) size_t run_job(enum job job, const struct sample *sample,
                                                uint8_t *out)
{
    struct rtr_data_answer answer;
    struct bytes old = sample->old, new = sample->new, changes = sample->changes;
    switch (job) {
    case NORMALISE_BOTH:
        return normalise(old, new, out);
    case DELTA:
        rtr_delta(old.at, old.length, new.at, new.length, out, old.length + new.length, &answer);
        return answer.written;
    case NORMALISE_CHANGES:
        return normalise(old, changes, out);
    case APPLY:
        rtr_apply(old.at, old.length, changes.at, changes.length, out, old.length + changes.length,
                  &answer);
        return answer.written;
    case ORDER_APPLY:
        return order_apply(sample, old, sample->mixed, out);
    case IN_ORDER:
        return in_order(sample, old, sample->mixed, out);
    case ORDER_APPLY_ALL:
        return order_apply(sample, sample->none, sample->all, out);
    default:
        return in_order(sample, sample->none, sample->all, out);
    }
}

/* Reads a file to its end. Returns whether memory sufficed. */
static bool read_all(FILE *from, uint8_t **input, size_t *length)
{
    size_t capacity = 1 << 16;
    *length = 0;
    *input = malloc(capacity);
    for (size_t n; *input && (n = fread(*input + *length, 1, capacity - *length, from)) > 0;) {
        *length += n;
        if (*length == capacity)
            *input = realloc(*input, capacity *= 2);
    }
    return *input != NULL;
}

/* Returns the length of the sequence at the front, or 0 if there is none. */
static size_t sequence_length(const uint8_t *in, size_t left)
{
    struct rtr_unit unit;
    for (size_t at = 0; rtr_next(in + at, left - at, &unit) == RTR_OK;) {
        at += unit.size;
        if (unit.kind == RTR_END_OF_DATA)
            return at;
    }
    return 0;
}

/* Writes the units of a sequence in no order, and its end of data. */
static struct bytes mix(struct bytes from, size_t *places, uint8_t *out)
{
    struct rtr_unit unit;
    struct bytes mixed = {out, 0};
    uint32_t random = 1;
    size_t count = 0, at = 0;
    for (;
         rtr_next(from.at + at, from.length - at, &unit) == RTR_OK && unit.kind != RTR_END_OF_DATA;
         at += unit.size)
        places[count++] = at;
    for (; count > 0; count--) {
        random = random * 1664525 + 1013904223;
        size_t *taken = &places[(random >> 8) % count], size = from.at[*taken + 7];
        memcpy(out + mixed.length, from.at + *taken, size);
        mixed.length += size;
        *taken = places[count - 1];
    }
    memcpy(out + mixed.length, from.at + at, END_SIZE);
    mixed.length += END_SIZE;
    return mixed;
}

/* Makes the inputs of the jobs that take changes in no order. */
static bool take_mixed(struct sample *sample)
{
    size_t capacity = sample->new.length + sample->changes.length;
    sample->index = malloc(capacity / 20 * sizeof *sample->index + 1);
    sample->ordered = malloc(capacity);
    uint8_t *mixed = malloc(capacity);
    if (!sample->index || !sample->ordered || !mixed)
        return false;
    sample->none = (struct bytes){sample->new.at + sample->new.length - END_SIZE, END_SIZE};
    sample->mixed = mix(sample->changes, sample->index, mixed);
    sample->all = mix(sample->new, sample->index, mixed + sample->mixed.length);
    return true;
}

/* Splits the input, and makes the delta. */
static bool take_sample(const uint8_t *input, size_t length, struct sample *sample, uint8_t *delta)
{
    sample->old = (struct bytes){input, sequence_length(input, length)};
    input += sample->old.length;
    length -= sample->old.length;
    sample->new = (struct bytes){input, sequence_length(input, length)};
    sample->changes = (struct bytes){delta, run_job(DELTA, sample, delta)};
    return sample->old.length && sample->new.length && sample->changes.length &&take_mixed(sample);
}

static void drop_sample(struct sample *sample)
{
    free((void *)sample->mixed.at);
    free(sample->ordered);
    free(sample->index);
}

/* Reports whether a job wrote the right bytes: the delta, or the new data. */
static bool is_right(enum job job, const struct sample *sample, const uint8_t *out, size_t made)
{
    if (job == NORMALISE_BOTH || job == NORMALISE_CHANGES)
        return made > 0;
    struct bytes expected = job == DELTA ? sample->changes : sample->new;
    return made == expected.length && memcmp(out, expected.at, made) == 0;
}

/* Does each job, has callgrind dump its cost, and tests its output. */
static bool count(const char *file, const struct sample *sample, uint8_t *out)
{
    char label[4096];
    for (enum job job = 0; job < JOBS; job++) {
        snprintf(label, sizeof label, "%s %s", names[job], file);
        CALLGRIND_ZERO_STATS;
        size_t made = run_job(job, sample, out);
        CALLGRIND_DUMP_STATS_AT(label);
        if (!is_right(job, sample, out, made))
            return false;
    }
    return true;
}

/* Reads a file, and counts the jobs. */
static bool measure(FILE *from, const char *file)
{
    struct sample sample = {0};
    uint8_t *input = NULL, *delta = NULL, *out = NULL;
    size_t length;
    bool good = from && read_all(from, &input, &length) && (delta = malloc(length))
                && (out = malloc(length)) && take_sample(input, length, &sample, delta)
                && count(file, &sample, out);
    drop_sample(&sample);
    free(input);
    free(delta);
    free(out);
    return good;
}

int main(int words, char **word)
{
    if (words == 1) {
        fprintf(stderr, "usage: data_calls FILE..\n");
        return 2;
    }
    for (int i = 1; i < words; i++) {
        FILE *from = fopen(word[i], "rb");
        if (!measure(from, word[i])) {
            fprintf(stderr, "%s: refused, or a call wrote wrong bytes\n", word[i]);
            return 1;
        }
        fclose(from);
    }
    return 0;
}
