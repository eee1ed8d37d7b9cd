/* Compares calls from C with the same jobs written by hand, in by_hand.c.
 *
 * usage: calls < SEQUENCE          times each job
 *        calls --count FILE..      does each job once over each file, to be counted by callgrind
 *
 * once `bindings/build` has made the archive, or with that in prebuilt/:
 *
 *     cc -O3 -march=x86-64-v2 -Ibindings/c -o calls bench/calls.c bench/by_hand.c \
 *         prebuilt/x86_64/librtr_wire.a
 *
 * The first prints for each job the best of 41 runs each way, interleaved, in nanoseconds a unit,
 * and how many times as long the calls take. With --count callgrind dumps the cost of each job,
 * labelled `JOB WAY FILE`: bench/count.py reads that. Both exit with status 1 if the two ways
 * disagree on an input; the first also if they disagree with any bit of its front flipped, or on
 * units of all kinds with lengths at the limits. */
#include <stdio.h>
#include <stdlib.h>
#include <string.h>
#include <time.h>
#include "by_hand.h"
#include "counting.h"

#define RUNS 41

/* The version of the protocol for jobs that write a given version. */
#define VERSION 1

/* Jobs before COMPARED are also written by hand; the others are only counted. */
enum job { NORMALISE, NEXT, COMPARED, WRITE_UNIT = COMPARED, NORMALISE_FOR, SAME_MEANING, JOBS };

static const char *const names[JOBS] = {
    "rtr_normalise_slice",     "rtr_next",         "rtr_write_unit",
    "rtr_normalise_for_slice", "rtr_same_meaning",
};

/* A sequence, its canonical form, and how many units it has with the end of data. */
struct sample {
    uint8_t *input, *form;
    size_t length, form_length;
    struct rtr_unit *units;
    uint64_t count;
};

typedef uint8_t next_call(const uint8_t *, size_t, struct rtr_unit *);

/* Decodes all units, and returns how many bytes they have. */
static inline __attribute__((always_inline)) size_t read_units(next_call *next,
                                                               const struct sample *sample)
{
    struct rtr_unit unit;
    size_t taken = 0;
    do {
        if (next(sample->input + taken, sample->length - taken, &unit) != RTR_OK)
            return 0;
        taken += unit.size;
    } while (unit.kind != RTR_END_OF_DATA);
    return taken;
}

/* Writes all units, and returns how many bytes it wrote. */
static inline size_t write_units(const struct sample *sample, uint8_t *out, size_t capacity)
{
    const uint8_t *in = sample->input;
    size_t formed = 0, written;
    for (uint64_t i = 0; i < sample->count; in += sample->units[i++].size) {
        const struct rtr_unit *unit = &sample->units[i];
        if (rtr_write_unit(unit, in, unit->size, out + formed, capacity - formed, &written)
            != RTR_OK)
            return 0;
        formed += written;
    }
    return formed;
}

/* Does a job with the calls, and returns how many bytes it made; 0 if it was refused. */
static __attribute__((noinline)) size_t with_calls(enum job job, const struct sample *sample,
                                                   uint8_t *out, size_t capacity)
{
    struct rtr_answer answer;
    struct rtr_comparison both;
    switch (job) {
    case NORMALISE:
        return rtr_normalise_slice(sample->input, sample->length, out, capacity, UINT32_MAX,
                                   &answer)
                       == RTR_OK
                   ? answer.written
                   : 0;
    case NORMALISE_FOR:
        return rtr_normalise_for_slice(sample->input, sample->length, out, capacity, UINT32_MAX,
                                       VERSION, &answer)
                       == RTR_OK
                   ? answer.written
                   : 0;
    case SAME_MEANING:
        rtr_same_meaning(sample->input, sample->length, sample->form, sample->form_length,
                         UINT32_MAX, &both);
        return both.same;
    case NEXT:
        return read_units(rtr_next, sample);
    default:
        return write_units(sample, out, capacity);
    }
}

/* Does the same by hand. */
static __attribute__((noinline)) size_t by_hand(enum job job, const struct sample *sample,
                                                uint8_t *out, size_t capacity)
{
    struct rtr_answer answer;
    if (job == NEXT)
        return read_units(next_by_hand, sample);
    return normalise_by_hand(sample->input, sample->length, out, capacity, UINT32_MAX, &answer)
                   == RTR_OK
               ? answer.written
               : 0;
}

/* Longer than any unit. */
enum { LONGEST = 70000 };

/* What the two ways write. */
static uint8_t written[2][LONGEST];

/* Reports whether both ways decode the unit at the front the same. */
static int agree_on_unit(const uint8_t *in, size_t left)
{
    struct rtr_unit unit[2];
    return rtr_next(in, left, &unit[0]) == next_by_hand(in, left, &unit[1])
           && memcmp(&unit[0], &unit[1], offsetof(struct rtr_unit, detail) + 1) == 0;
}

/* Reports whether both ways normalise the same with this limit and room. */
static int agree_on_run(const uint8_t *in, size_t length, uint64_t limit, size_t capacity)
{
    struct rtr_answer answer[2];
    rtr_normalise_slice(in, length, written[0], capacity, limit, &answer[0]);
    normalise_by_hand(in, length, written[1], capacity, limit, &answer[1]);
    return memcmp(&answer[0], &answer[1], offsetof(struct rtr_answer, detail) + 1) == 0
           && memcmp(written[0], written[1], answer[0].written) == 0;
}

/* Reports whether both ways normalise the same, with enough and with too little room. */
static int agree_on_form(const uint8_t *in, size_t length)
{
    return agree_on_run(in, length, UINT32_MAX, LONGEST)
           && agree_on_run(in, length, UINT32_MAX, length / 2) && agree_on_run(in, length, 1, 23)
           && agree_on_run(in, length, 0, 0);
}

/* Reports whether both ways agree with any bit of the front of the input flipped. */
static int agree_on_damaged(const struct sample *sample)
{
    uint8_t *in = sample->input;
    size_t left = sample->length, most = left < 1024 ? left : 1024, begin = 0, end = 0;
    struct rtr_unit unit;
    for (size_t bit = 0; bit < 8 * most; bit++) {
        if (bit == 8 * end) {
            if (rtr_next(in + end, left - end, &unit) != RTR_OK)
                return end > 0;
            begin = end;
            end += unit.size;
        }
        in[bit / 8] ^= (uint8_t)(1 << bit % 8);
        if (!agree_on_form(in, most) || !agree_on_unit(in + begin, most - begin))
            return 0;
        in[bit / 8] ^= (uint8_t)(1 << bit % 8);
    }
    return 1;
}

/* Lengths at the limits of units. */
static const uint32_t lengths[] = {
    0,  4,  8,     12,    13,    16,    17,    18,    20,    24,    31,    32,
    33, 36, 65503, 65504, 65519, 65520, 65521, 65524, 65532, 65535, 65536, 65540,
};

enum { LENGTHS = sizeof lengths / sizeof lengths[0] };

/* Reports whether both ways agree on a unit with this header, with more and fewer bytes of it. */
static int agree_on_header(uint8_t *in, uint8_t version, uint8_t kind, uint8_t flags,
                           uint32_t length)
{
    const size_t lefts[] = {0, 7, 8, length - (length > 0), length, LONGEST};
    in[0] = version;
    in[1] = kind;
    in[2] = flags;
    put32(in + 4, length);
    for (size_t i = 0; i < sizeof lefts / sizeof lefts[0]; i++)
        if (!agree_on_unit(in, lefts[i]) || !agree_on_form(in, lefts[i]))
            return 0;
    return 1;
}

/* Reports whether both ways agree on all kinds of units with lengths at the limits. */
static int agree_at_limits(void)
{
    static uint8_t in[LONGEST];
    for (size_t i = 0; i < LONGEST; i++)
        in[i] = (uint8_t)(i * 37 >> 3);
    in[9] = 8;
    in[10] = 24;
    for (uint8_t kind = 0; kind < 13; kind++)
        for (uint8_t which = 0; which < 8; which++)
            for (int i = 0; i < LENGTHS; i++)
                if (!agree_on_header(in, which / 2, kind, which % 2, lengths[i]))
                    return 0;
    return 1;
}

/* Reads a sequence to its end. Returns whether it is one and memory sufficed. */
static int take_sample(FILE *from, struct sample *sample)
{
    size_t capacity = 1 << 16;
    memset(sample, 0, sizeof *sample);
    sample->input = malloc(capacity);
    for (size_t n;
         sample->input
         && (n = fread(sample->input + sample->length, 1, capacity - sample->length, from)) > 0;) {
        sample->length += n;
        if (sample->length == capacity)
            sample->input = realloc(sample->input, capacity *= 2);
    }
    struct rtr_answer answer;
    sample->form = malloc(sample->length + 1);
    if (!sample->input || !sample->form
        || rtr_normalise_slice(sample->input, sample->length, sample->form, sample->length,
                               UINT32_MAX, &answer)
               != RTR_OK)
        return 0;
    sample->form_length = answer.written;
    sample->count = answer.units + 1;
    sample->units = malloc(sample->count * sizeof *sample->units);
    uint64_t offset = 0;
    for (uint64_t i = 0; sample->units && i < sample->count; offset += sample->units[i++].size)
        if (rtr_next(sample->input + offset, sample->length - offset, &sample->units[i]) != RTR_OK)
            return 0;
    return sample->units != NULL;
}

static void drop_sample(struct sample *sample)
{
    free(sample->input);
    free(sample->form);
    free(sample->units);
}

/* Reports whether each compared job makes the same bytes in both ways. */
static int agree(const struct sample *sample, uint8_t *out[2], size_t capacity)
{
    for (enum job job = 0; job < COMPARED; job++) {
        memset(out[0], 1, capacity);
        memset(out[1], 1, capacity);
        size_t formed = with_calls(job, sample, out[0], capacity);
        if (formed == 0 || formed != by_hand(job, sample, out[1], capacity)
            || memcmp(out[0], out[1], capacity) != 0)
            return 0;
    }
    return 1;
}

/* Does each job in each of its ways, and has callgrind dump its cost. */
static void count(const char *file, const struct sample *sample, uint8_t *out, size_t capacity)
{
    char label[4096];
    for (enum job job = 0; job < JOBS; job++) {
        snprintf(label, sizeof label, "%s ours %s", names[job], file);
        CALLGRIND_ZERO_STATS;
        with_calls(job, sample, out, capacity);
        CALLGRIND_DUMP_STATS_AT(label);
        if (job >= COMPARED)
            continue;
        snprintf(label, sizeof label, "%s by-hand %s", names[job], file);
        CALLGRIND_ZERO_STATS;
        by_hand(job, sample, out, capacity);
        CALLGRIND_DUMP_STATS_AT(label);
    }
}

static double now(void)
{
    struct timespec time;
    clock_gettime(CLOCK_MONOTONIC, &time);
    return (double)time.tv_sec * 1e9 + (double)time.tv_nsec;
}

static void best(double *least, double begun)
{
    double taken = now() - begun;
    if (*least == 0 || taken < *least)
        *least = taken;
}

static void print_times(const struct sample *sample, uint8_t *out, size_t capacity)
{
    for (enum job job = 0; job < COMPARED; job++) {
        double ours = 0, hand = 0, units = (double)sample->count;
        for (int i = 0; i < RUNS; i++) {
            double begun = now();
            with_calls(job, sample, out, capacity);
            best(&ours, begun);
            begun = now();
            by_hand(job, sample, out, capacity);
            best(&hand, begun);
        }
        printf("%s: calls %.2f ns a unit, by hand %.2f ns, %.2f times as long\n", names[job],
               ours / units, hand / units, ours / hand);
    }
}

/* Reads a file, tests that both ways agree on it, and counts or times them. */
static int measure(FILE *from, const char *counted)
{
    struct sample sample;
    if (!from || !take_sample(from, &sample)) {
        fprintf(stderr, "no sequence, or no memory for it\n");
        return 0;
    }
    size_t capacity = sample.length + 12;
    uint8_t *out[2] = {malloc(capacity), malloc(capacity)};
    int alike = out[0] && out[1] && agree(&sample, out, capacity);
    if (alike && counted)
        count(counted, &sample, out[0], capacity);
    else if (alike && (alike = agree_at_limits() && agree_on_damaged(&sample)))
        print_times(&sample, out[0], capacity);
    if (!alike)
        fprintf(stderr, "the calls and the code by hand differ\n");
    free(out[0]);
    free(out[1]);
    drop_sample(&sample);
    return alike;
}

int main(int words, char **word)
{
    if (words == 1)
        return !measure(stdin, NULL);
    if (words < 3 || strcmp(word[1], "--count") != 0) {
        fprintf(stderr, "usage: calls < SEQUENCE, or calls --count FILE..\n");
        return 2;
    }
    for (int i = 2; i < words; i++) {
        FILE *from = fopen(word[i], "rb");
        if (!measure(from, word[i]))
            return 1;
        fclose(from);
    }
    return 0;
}
