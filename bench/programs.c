/* The program by hand in C that rtr_list is measured against.
 *
 * usage: programs list|check < SEQUENCE
 *        programs --count FILE..      does each job over each file, to be counted by callgrind
 *
 *     cc -O3 -march=x86-64-v2 -Ibindings/c -o programs bench/programs.c
 *
 * It writes the output of `rtr_list` and `rtr_list --check` for sequences of payload units, through
 * buffers of 64 KiB; it doesn't know units of other types. With --count callgrind dumps the cost of
 * each job, labelled `JOB FILE`. Nothing here is proved: bench/count.py compares what both write,
 * and counts both. */
#include <fcntl.h>
#include "hand_text.h"
#include "counting.h"

static uint64_t offset;
static bool found_any;

/* ---- rtr_list */

static void list_unit(const uint8_t *in, size_t size)
{
    put_number(offset);
    put_labelled(" v", in[0]);
    if (in[1] == RTR_END_OF_DATA) {
        put_labelled(" end of data session ", (unsigned)in[2] << 8 | in[3]);
        put_labelled(" serial ", get32(in + 8));
        if (in[0]) {
            put_labelled(" refresh ", get32(in + 12));
            put_labelled(" retry ", get32(in + 16));
            put_labelled(" expire ", get32(in + 20));
        }
        put_byte('\n');
        return;
    }
    put_kind(in);
    put_text(flags_of(in) & 1 ? " announce" : " withdraw");
    put_fields(in, size);
    put_byte('\n');
}

/* ---- rtr_list --check */

/* The announced payloads of the sequence: a hash table with open addressing. A payload is its type,
 * and the bytes that distinguish it from others of its type, from `start` on in `kept`. */
struct slot {
    uint64_t hash;
    size_t start;
    uint32_t length;
    enum { FREE, TAKEN, GONE } state;
};

static struct slot *table;
static size_t table_size, table_used;
static uint8_t *kept;
static size_t kept_length, kept_room;
static int sequence_version = -1;

static uint64_t hash_of(const uint8_t *position, size_t length)
{
    uint64_t hash = length;
    for (; length >= 8; position += 8, length -= 8)
        hash = (hash ^ get64(position)) * UINT64_C(0x9e3779b97f4a7c15), hash ^= hash >> 32;
    for (; length > 0; position++, length--)
        hash = (hash ^ *position) * UINT64_C(0x9e3779b97f4a7c15), hash ^= hash >> 32;
    return hash;
}

static void grow_table(void)
{
    size_t size = table_size ? 2 * table_size : 1024;
    struct slot *larger = calloc(size, sizeof *larger);
    if (!larger)
        stop("out of memory");
    table_used = 0;
    for (size_t i = 0; i < table_size; i++) {
        if (table[i].state != TAKEN)
            continue;
        size_t index = table[i].hash & (size - 1);
        while (larger[index].state == TAKEN)
            index = (index + 1) & (size - 1);
        larger[index] = table[i];
        table_used++;
    }
    free(table);
    table = larger;
    table_size = size;
}

/* Returns the slot of a payload, or the first free one. */
static struct slot *slot_of(const uint8_t *payload, size_t length, uint64_t hash)
{
    size_t index = hash & (table_size - 1);
    while (table[index].state != FREE) {
        const struct slot *slot = &table[index];
        if (slot->state == TAKEN && slot->hash == hash && slot->length == length
            && memcmp(kept + slot->start, payload, length) == 0)
            break;
        index = (index + 1) & (table_size - 1);
    }
    return &table[index];
}

/* Counts a payload as announced or withdrawn, and returns whether it was announced before. */
static bool count_payload(const uint8_t *payload, size_t length, bool announced)
{
    if (2 * table_used >= table_size)
        grow_table();
    uint64_t hash = hash_of(payload, length);
    struct slot *slot = slot_of(payload, length, hash);
    bool was = slot->state == TAKEN;
    if (!announced && was)
        slot->state = GONE;
    if (!announced || was)
        return was;
    if (kept_length + length > kept_room) {
        kept_room = 2 * kept_room + length + BUFFER;
        kept = realloc(kept, kept_room);
        if (!kept)
            stop("out of memory");
    }
    memcpy(kept + kept_length, payload, length);
    *slot = (struct slot){hash, kept_length, (uint32_t)length, TAKEN};
    kept_length += length;
    table_used++;
    return false;
}

static void begin_sequence(void)
{
    if (table)
        memset(table, 0, table_size * sizeof *table);
    table_used = kept_length = 0;
    sequence_version = -1;
}

static void begin_finding(void)
{
    put_labelled("offset ", offset);
    put_text(": ");
    found_any = true;
}

static void find(const char *what)
{
    begin_finding();
    put_text(what);
    put_byte('\n');
}

static void check_reserved(unsigned index, uint8_t byte)
{
    if (byte == 0)
        return;
    begin_finding();
    put_labelled("reserved byte ", index);
    put_text(" is not zero\n");
}

static void check_flags(uint8_t flags)
{
    if (flags > 1)
        find("reserved bits of the flags are not zero");
}

static void check_version(uint8_t version)
{
    if (sequence_version < 0 || sequence_version == version)
        return;
    begin_finding();
    put_labelled("version ", version);
    put_labelled(" differs from version ", (unsigned)sequence_version);
    put_text(" of the sequence\n");
}

static void check_lacks(uint8_t version, uint8_t first)
{
    if (version >= first)
        return;
    begin_finding();
    put_labelled("version ", version);
    put_text(" has no unit of this type\n");
}

static void check_twice(const uint8_t *payload, size_t length, uint8_t flags)
{
    if (count_payload(payload, length, flags & 1) && flags & 1)
        find("announced twice in the sequence");
}

static void check_prefix(const uint8_t *in, size_t size)
{
    check_reserved(2, in[2]);
    check_reserved(3, in[3]);
    check_flags(in[8]);
    check_reserved(11, in[11]);
    unsigned width = in[1] == RTR_IPV4_PREFIX ? 32 : 128;
    if (in[9] > width) {
        find("prefix length is too large");
    } else if (in[10] > width) {
        find("max length is too large");
    } else if (in[10] < in[9]) {
        find("max length is below the prefix length");
    } else {
        uint8_t payload[24];
        payload[0] = in[1];
        payload[1] = in[9];
        payload[2] = in[10];
        payload[3] = 0;
        put_cleared(payload + 4, in + 12, width / 8, in[9]);
        if (memcmp(payload + 4, in + 12, width / 8) != 0)
            find("host bits of the prefix are not zero");
        memcpy(payload + 4 + width / 8, in + size - 4, 4);
        check_twice(payload, 8 + width / 8, in[8]);
    }
}

static void check_key(const uint8_t *in, size_t size)
{
    static uint8_t payload[BUFFER];
    check_flags(in[2]);
    check_reserved(3, in[3]);
    check_lacks(in[0], 1);
    payload[0] = in[1];
    memcpy(payload + 1, in + 8, size - 8);
    check_twice(payload, size - 7, in[2]);
}

static void check_aspa(const uint8_t *in, size_t size)
{
    check_flags(in[2]);
    check_reserved(3, in[3]);
    check_lacks(in[0], 2);
    if (!(in[2] & 1) && size > 12) {
        bool older = in[2] == 0 && in[3] == 0 && in[8] <= 1 && in[9] <= 1
                     && ((size_t)in[10] << 8 | in[11]) + 1 == (size - 12) / 4;
        find(older ? "withdrawn ASPA has providers; looks like the layout of an older draft"
                   : "withdrawn ASPA has providers");
    }
    for (size_t position = 16; position < size; position += 4) {
        if (get32(in + position - 4) >= get32(in + position)) {
            find("providers are not in ascending order");
            break;
        }
    }
    uint8_t payload[5] = {in[1]};
    memcpy(payload + 1, in + 8, 4);
    check_twice(payload, sizeof payload, in[2]);
}

static void check_unit(const uint8_t *in, size_t size)
{
    check_version(in[0]);
    if (in[1] == RTR_END_OF_DATA) {
        begin_sequence();
        return;
    }
    if (sequence_version < 0)
        sequence_version = in[0];
    if (is_prefix(in))
        check_prefix(in, size);
    else if (in[1] == RTR_ROUTER_KEY)
        check_key(in, size);
    else
        check_aspa(in, size);
}

/* ---- the loop */

/* Reports whether a unit of this type has this length. */
static bool is_length(const uint8_t *in, size_t size)
{
    switch (in[1]) {
    case RTR_IPV4_PREFIX:
        return size == 20;
    case RTR_IPV6_PREFIX:
        return size == 32;
    case RTR_END_OF_DATA:
        return in[0] <= 2 && size == (in[0] ? 24 : 12);
    case RTR_ROUTER_KEY:
        return size >= 32 && size <= 65535;
    case RTR_ASPA:
        return size >= 12 && size <= 65535 && size % 4 == 0 && (size > 12 || !(in[2] & 1));
    default:
        return false;
    }
}

static int list_all(void (*put_unit)(const uint8_t *, size_t))
{
    for (;;) {
        const uint8_t *in = input + input_at;
        size_t left = input_end - input_at, size = left < 8 ? 8 : get32(in + 4);
        if (left >= 8 && !is_length(in, size))
            stop("a unit that isn't known here, or is refused");
        if (left < size) {
            if (refill())
                continue;
            if (left > 0)
                stop("unexpected end of input");
            flush();
            return found_any;
        }
        put_unit(in, size);
        offset += size;
        input_at += size;
        if (output_end >= BUFFER)
            flush();
    }
}

static const char *const jobs[] = {"list", "check"};

enum { JOBS = sizeof jobs / sizeof jobs[0] };

static int run(int job)
{
    return list_all(job == 0 ? list_unit : check_unit);
}

/* Does each job over a file as if the program had just started, but with its memory allocated. */
static void count(const char *file)
{
    char label[4096];
    for (int job = 0; job < JOBS; job++) {
        int from = open(file, O_RDONLY);
        if (from < 0 || dup2(from, STDIN_FILENO) < 0)
            stop("no such file");
        close(from);
        input_at = input_end = 0;
        offset = 0;
        begin_sequence();
        snprintf(label, sizeof label, "%s %s", jobs[job], file);
        CALLGRIND_ZERO_STATS;
        run(job);
        CALLGRIND_DUMP_STATS_AT(label);
    }
}

int main(int words, char **word)
{
    for (int i = 2; words > 2 && strcmp(word[1], "--count") == 0; i++) {
        if (i == words)
            return 0;
        count(word[i]);
    }
    for (int job = 0; words == 2 && job < JOBS; job++)
        if (strcmp(word[1], jobs[job]) == 0)
            return run(job);
    fprintf(stderr, "usage: programs list|check, or --count FILE..\n");
    return 2;
}
