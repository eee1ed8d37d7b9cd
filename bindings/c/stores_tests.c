/* Tests of the calls for what a cache serves and saves: lives played by hand, whose data and
 * answers are units of RFC 8210 section 5 and RFC 6810 section 5, with each buffer as short as it
 * may be and between inaccessible pages; and calls that can't be, which are refused and change
 * nothing.
 *
 * usage: stores_tests [COUNT]   with the number of random structs; 100,000 if left out */
#include "testing.h"

/* Data and changes of version 1, in hexadecimal: 192.0.2.0/24, 198.51.100.0/24 and 203.0.113.0/24
 * of AS64496, announced and withdrawn. */
#define FIRST "0104000000000014" "01181800" "c0000200" "0000fbf0"
#define SECOND "0104000000000014" "01181800" "c6336400" "0000fbf0"
#define THIRD "0104000000000014" "01181800" "cb007100" "0000fbf0"
#define NOT_FIRST "0104000000000014" "00181800" "c0000200" "0000fbf0"
#define NOT_SECOND "0104000000000014" "00181800" "c6336400" "0000fbf0"
/* Session and serial number; refresh, retry and expire of 3600, 600 and 7200 seconds. */
#define END_OF(session, serial) "0107" session "00000018" serial "00000e10" "00000258" "00001c20"
#define END(serial) END_OF("0007", "0000000" serial)
/* The same in version 0 (RFC 6810 section 5.8). */
#define FIRST_0 "0004000000000014" "01181800" "c0000200" "0000fbf0"
#define NOT_FIRST_0 "0004000000000014" "00181800" "c0000200" "0000fbf0"
#define THIRD_0 "0004000000000014" "01181800" "cb007100" "0000fbf0"
#define END_0(serial) "000700070000000c0000000" serial

/* The memory of a cache. */
struct cache {
    struct rtr_stores stores;
    struct rtr_stores_buffers buffers;
    struct rtr_work work;
    struct rtr_history_limits limits;
    struct rtr_stores_answer answer;
    struct arena arena;
    struct fenced buffer, spare;
    uint64_t now;
    uint8_t file[4096];
    size_t file_length;
};

/* Returns the bytes of hexadecimal digits, in an input. */
static const uint8_t *bytes_of(const struct cache *k, const char *digits, size_t *length)
{
    uint8_t bytes[1024];
    *length = decoded(digits, bytes);
    return copied(&k->arena, k->arena.input, bytes, *length);
}

/* Memory for the last pointer, filled with bytes that no call returns. */
static void *filled(const struct cache *k, size_t size)
{
    return memset(lie(&k->arena, k->arena.unit, size), 0xa5, size);
}

static void first_room(struct cache *k, size_t room)
{
    k->buffers.first =
        resized(&k->arena, k->arena.other, k->buffers.first, k->buffers.first_length, room);
    k->buffers.first_length = room;
}

static void second_room(struct cache *k, size_t room)
{
    k->buffers.second =
        resized(&k->arena, k->arena.answer, k->buffers.second, k->buffers.second_length, room);
    k->buffers.second_length = room;
}

static void index_room(struct cache *k, size_t room)
{
    k->work.index = lie(&k->arena, k->arena.index, room * sizeof(size_t));
    k->work.index_length = room;
}

static void buffer_room(struct cache *k, size_t room)
{
    k->work.buffer = lie(&k->arena, k->buffer, room);
    k->work.buffer_length = room;
}

static void spare_room(struct cache *k, size_t room)
{
    k->work.spare = lie(&k->arena, k->spare, room);
    k->work.spare_length = room;
}

/* Makes the buffer that is too short as long as is wanted. */
static void give_room(struct cache *k)
{
    static void (*const rooms[])(struct cache *, size_t) = {
        [RTR_ROOM_INDEX] = index_room, [RTR_ROOM_BUFFER] = buffer_room,
        [RTR_ROOM_SPARE] = spare_room, [RTR_ROOM_FIRST] = first_room,
        [RTR_ROOM_SECOND] = second_room};
    const size_t lengths[] = {
        [RTR_ROOM_INDEX] = k->work.index_length,     [RTR_ROOM_BUFFER] = k->work.buffer_length,
        [RTR_ROOM_SPARE] = k->work.spare_length,     [RTR_ROOM_FIRST] = k->buffers.first_length,
        [RTR_ROOM_SECOND] = k->buffers.second_length};
    CHECK(k->answer.room < sizeof rooms / sizeof rooms[0] && rooms[k->answer.room]);
    CHECK(k->answer.wanted > lengths[k->answer.room] && k->answer.wanted < MOST);
    CHECK(!k->answer.length && !k->answer.offset && !k->answer.flaw && !k->answer.detail);
    rooms[k->answer.room](k, k->answer.wanted);
}

/* A cache whose buffers have length 0, and whose struct isn't made. */
static void begin(struct cache *k, bool at_end)
{
    static struct cache fences;
    if (!fences.arena.input.front) {
        fences.arena = new_arena();
        fences.arena.answer = fence(MOST);
        fences.buffer = fence(MOST);
        fences.spare = fence(MOST);
    }
    *k = fences;
    k->arena.at_end = at_end;
    k->limits = (struct rtr_history_limits){3600000, 100000};
    k->now = 1700000000000;
    memset(&k->stores, 0xa5, sizeof k->stores);
}

/* Takes data, with as much room as is wanted. */
static uint8_t take(struct cache *k, const char *digits)
{
    size_t length;
    const uint8_t *bytes = bytes_of(k, digits, &length);
    for (int turn = 0; turn < 8; turn++) {
        memset(&k->answer, 0xa5, sizeof k->answer);
        uint8_t status = rtr_stores_take(&k->stores, bytes, length, k->now, &k->limits,
                                         &k->buffers, &k->work, &k->answer);
        CHECK(status == k->answer.status);
        if (status != RTR_STORES_NO_ROOM)
            return status;
        give_room(k);
    }
    CHECK(false);
    return RTR_STORES_NO_ROOM;
}

static struct rtr_stores_state state_of(const struct cache *k)
{
    struct rtr_stores_state *state = filled(k, sizeof *state);
    CHECK(rtr_stores_state(&k->stores, &k->buffers, state) == RTR_STORES_OK);
    return *state;
}

/* Returns the history that is served. */
static const uint8_t *served(const struct cache *k, size_t *length)
{
    struct rtr_stores_state state = state_of(k);
    const uint8_t *history = rtr_stores_served(&k->buffers, &state, length);
    CHECK(state.serves && history && *length);
    return history;
}

/* Reports whether these data are served. */
static bool serves(const struct cache *k, const char *digits)
{
    size_t history_length, data_length, length;
    const uint8_t *history = served(k, &history_length);
    const uint8_t *data = rtr_history_data(history, history_length, &data_length);
    const uint8_t *bytes = bytes_of(k, digits, &length);
    CHECK(data != NULL);
    return data_length == length && memcmp(data, bytes, length) == 0;
}

static bool serves_none(const struct cache *k)
{
    struct rtr_stores_state state = state_of(k);
    size_t length;
    return !state.serves && !state.offset && !state.length
        && !rtr_stores_served(&k->buffers, &state, &length) && !length;
}

/* The output of the last answer to a serial query. */
static const uint8_t *output;

/* Answers a serial query, with as much room as is wanted. */
static uint8_t since(struct cache *k, uint32_t serial, uint8_t version)
{
    size_t length, output_length = 0;
    const uint8_t *history = served(k, &length);
    for (int turn = 0; turn < 8; turn++) {
        uint8_t *written = lie(&k->arena, k->arena.output, output_length);
        memset(&k->answer, 0xa5, sizeof k->answer);
        uint8_t status = rtr_history_since(history, length, serial, version, &k->work, written,
                                           output_length, &k->answer);
        CHECK(status == k->answer.status);
        output = written;
        if (status != RTR_STORES_NO_ROOM)
            return status;
        if (k->answer.room == RTR_ROOM_OUTPUT) {
            CHECK(k->answer.wanted > output_length && k->answer.wanted < MOST);
            output_length = k->answer.wanted;
        } else {
            give_room(k);
        }
    }
    CHECK(false);
    return RTR_STORES_NO_ROOM;
}

/* Reports whether these are the changes since data of a serial number. */
static bool changes(struct cache *k, uint32_t serial, uint8_t version, const char *digits)
{
    size_t length, history_length;
    const uint8_t *history = served(k, &history_length);
    CHECK(rtr_history_knows(history, history_length, serial));
    CHECK(since(k, serial, version) == RTR_STORES_OK);
    const uint8_t *bytes = bytes_of(k, digits, &length);
    return k->answer.length == length && memcmp(output, bytes, length) == 0;
}

/* Returns the FNV-1a hash of 64 bits. */
static uint64_t hash(const uint8_t *bytes, size_t length)
{
    uint64_t sum = 0xcbf29ce484222325;
    for (size_t i = 0; i < length; i++)
        sum = (sum ^ bytes[i]) * 0x100000001b3;
    return sum;
}

/* Eight bytes in network order. */
static uint64_t number_at(const uint8_t *bytes)
{
    uint64_t value = 0;
    for (int i = 0; i < 8; i++)
        value = value << 8 | bytes[i];
    return value;
}

/* Writes the file of the pending store. */
static void write_file(struct cache *k)
{
    struct rtr_stores_state state = state_of(k);
    struct rtr_store_head *head = filled(k, sizeof *head);
    size_t length;
    const uint8_t *store = rtr_stores_to_save(&k->buffers, &state, &length);
    CHECK(state.waits && store && length && length + sizeof *head <= sizeof k->file);
    rtr_store_seal(store, length, head);
    CHECK(sizeof *head == 24 && memcmp(head->bytes, "rtrkept2", 8) == 0);
    CHECK(number_at(head->bytes + 8) == length);
    CHECK(number_at(head->bytes + 16) == hash(store, length));
    memcpy(k->file, head, sizeof *head);
    memcpy(k->file + sizeof *head, store, length);
    k->file_length = sizeof *head + length;
}

/* Takes data, and saves them. */
static void take_and_save(struct cache *k, const char *digits)
{
    CHECK(take(k, digits) == RTR_STORES_OK);
    write_file(k);
    CHECK(rtr_stores_saved(&k->stores) == RTR_STORES_OK);
    CHECK(!state_of(k).waits && serves(k, digits));
}

/* Reports whether the earlier data of the history that is served have just these serial numbers. */
static bool lists(struct cache *k, const uint32_t *serials, size_t count)
{
    size_t length;
    const uint8_t *history = served(k, &length);
    for (size_t room = 0; room < count; room++) {
        uint32_t *few = (uint32_t *)(void *)lie(&k->arena, k->arena.output, room * sizeof *few);
        memset(few, 0xa5, room * sizeof *few);
        memset(&k->answer, 0xa5, sizeof k->answer);
        CHECK(rtr_history_serials(history, length, few, room, &k->answer) == RTR_STORES_NO_ROOM);
        CHECK(k->answer.status == RTR_STORES_NO_ROOM && k->answer.room == RTR_ROOM_OUTPUT);
        CHECK(k->answer.wanted == count);
        for (size_t i = 0; i < room; i++)
            CHECK(few[i] == 0xa5a5a5a5);
    }
    uint32_t *all = (uint32_t *)(void *)lie(&k->arena, k->arena.output, count * sizeof *all);
    CHECK(rtr_history_serials(history, length, all, count, &k->answer) == RTR_STORES_OK);
    return k->answer.length == count && memcmp(all, serials, count * sizeof *all) == 0;
}

/* Copies the store of the file to the first buffer; returns its length, or 0 if the file isn't
 * whole. */
static size_t open_file(struct cache *k)
{
    size_t head = sizeof(struct rtr_store_head), length = k->file_length;
    const uint8_t *file = copied(&k->arena, k->arena.input, k->file, length);
    if (rtr_store_open(file, length)) {
        first_room(k, length - head);
        memcpy(k->buffers.first, file + head, length - head);
        return length - head;
    }
    first_room(k, length);
    memset(&k->answer, 0xa5, sizeof k->answer);
    uint8_t status = rtr_store_open_old(file, length, k->buffers.first, length, &k->answer);
    CHECK(status == k->answer.status);
    CHECK(status == RTR_STORES_MALFORMED || (!status && k->answer.length == length));
    return status ? 0 : length;
}

/* Starts from the file, as after a power cut: buffers and struct are lost. */
static uint8_t restart(struct cache *k)
{
    struct cache was = *k;
    begin(k, was.arena.at_end);
    memcpy(k->file, was.file, was.file_length);
    k->file_length = was.file_length;
    k->now = was.now + 60000;
    size_t length = open_file(k);
    if (!length)
        return RTR_STORES_MALFORMED;
    for (int turn = 0; turn < 8; turn++) {
        memset(&k->answer, 0xa5, sizeof k->answer);
        uint8_t status =
            rtr_stores_start(&k->stores, length, &k->buffers, &k->work, &k->answer);
        CHECK(status == k->answer.status);
        if (status != RTR_STORES_NO_ROOM)
            return status;
        give_room(k);
    }
    CHECK(false);
    return RTR_STORES_NO_ROOM;
}

/* Data are served once they are saved, and not before. */
static void check_life(struct cache *k)
{
    rtr_stores_new(&k->stores);
    CHECK(serves_none(k) && !state_of(k).waits);
    CHECK(take(k, FIRST SECOND END("1")) == RTR_STORES_OK);
    CHECK(serves_none(k) && state_of(k).taken == k->answer.length);
    CHECK(take(k, FIRST END("2")) == RTR_STORES_WAITS);
    write_file(k);
    CHECK(rtr_stores_saved(&k->stores) == RTR_STORES_OK);
    CHECK(serves(k, FIRST SECOND END("1")) && !state_of(k).waits);
    CHECK(rtr_stores_saved(&k->stores) == RTR_STORES_OK);
    CHECK(serves(k, FIRST SECOND END("1")));

    CHECK(take(k, SECOND END("2")) == RTR_STORES_OK);
    CHECK(serves(k, FIRST SECOND END("1")) && state_of(k).waits);
    CHECK(since(k, 2, 1) == RTR_STORES_UNKNOWN_SERIAL);
    CHECK(rtr_stores_give_up(&k->stores) == RTR_STORES_OK);
    CHECK(serves(k, FIRST SECOND END("1")) && !state_of(k).waits);
    CHECK(rtr_stores_give_up(&k->stores) == RTR_STORES_OK);

    take_and_save(k, SECOND END("2"));
    take_and_save(k, SECOND THIRD END("3"));
}

/* The answers to serial queries (RFC 8210 section 8.2), before and after a restart. */
static void check_answers(struct cache *k)
{
    check_life(k);
    for (int turn = 0; turn < 2; turn++) {
        size_t length;
        const uint8_t *history = served(k, &length);
        CHECK(!rtr_history_knows(history, length, 0) && !rtr_history_knows(history, length, 4));
        CHECK(lists(k, (const uint32_t[]){2, 1}, 2));
        CHECK(changes(k, 3, 1, END("3")));
        CHECK(changes(k, 2, 1, THIRD END("3")));
        CHECK(changes(k, 1, 1, THIRD NOT_FIRST END("3")));
        CHECK(changes(k, 1, 0, THIRD_0 NOT_FIRST_0 END_0("3")));
        CHECK(since(k, 4, 1) == RTR_STORES_UNKNOWN_SERIAL && !k->answer.length);
        CHECK(since(k, 4, 3) == RTR_STORES_UNIT_VERSION && !k->answer.length);
        CHECK(restart(k) == RTR_STORES_OK && serves(k, SECOND THIRD END("3")));
    }
    take_and_save(k, FIRST THIRD END("4"));
    CHECK(changes(k, 1, 1, THIRD NOT_SECOND END("4")));
    CHECK(changes(k, 3, 0, FIRST_0 "0004000000000014" "00181800" "c6336400" "0000fbf0" END_0("4")));
}

/* Makes the file of the form before, which has no length and no sessions that were left. */
static void write_old_file(struct cache *k)
{
    size_t length;
    const uint8_t *history = served(k, &length);
    uint64_t sum = hash(history, length);
    memcpy(k->file, "rtrkept1", 8);
    for (int i = 0; i < 8; i++)
        k->file[8 + i] = (uint8_t)(sum >> (56 - 8 * i));
    memcpy(k->file + 16, history, length);
    k->file_length = 16 + length;
}

/* A file of the form before is opened, unless a byte of it is another one. */
static void check_old_file(struct cache *k)
{
    check_life(k);
    write_old_file(k);
    CHECK(restart(k) == RTR_STORES_OK && serves(k, SECOND THIRD END("3")));
    CHECK(lists(k, (const uint32_t[]){2, 1}, 2));
    CHECK(changes(k, 1, 1, THIRD NOT_FIRST END("3")));
    const uint8_t *file = copied(&k->arena, k->arena.input, k->file, k->file_length);
    uint8_t *output = lie(&k->arena, k->arena.output, k->file_length - 1);
    CHECK(rtr_store_open_old(file, k->file_length, output, k->file_length - 1, &k->answer)
          == RTR_STORES_NO_ROOM);
    CHECK(k->answer.room == RTR_ROOM_OUTPUT && k->answer.wanted == k->file_length);
    take_and_save(k, FIRST THIRD END("4"));
    CHECK(lists(k, (const uint32_t[]){3, 2, 1}, 3) && !memcmp(k->file, "rtrkept2", 8));
    write_old_file(k);
    for (size_t at = 0; at < k->file_length; at++) {
        k->file[at] ^= 1;
        CHECK(restart(k) == RTR_STORES_MALFORMED);
        k->file[at] ^= 1;
    }
    CHECK(restart(k) == RTR_STORES_OK && serves(k, FIRST THIRD END("4")));
}

/* A restart before and after a store replaced the file. */
static void check_power_cuts(struct cache *k)
{
    check_life(k);
    CHECK(take(k, FIRST END("4")) == RTR_STORES_OK);
    CHECK(restart(k) == RTR_STORES_OK && serves(k, SECOND THIRD END("3")));
    CHECK(take(k, FIRST END("4")) == RTR_STORES_OK);
    write_file(k);
    CHECK(restart(k) == RTR_STORES_OK && serves(k, FIRST END("4")));
    CHECK(changes(k, 1, 1, NOT_SECOND END("4")));
}

/* A file that isn't whole. */
static void check_files(struct cache *k)
{
    check_life(k);
    size_t length = k->file_length;
    for (size_t i = 0; i < length; i++) {
        k->file[i] ^= 0x10;
        CHECK(restart(k) == RTR_STORES_MALFORMED);
        k->file[i] ^= 0x10;
    }
    for (k->file_length = 0; k->file_length < length; k->file_length++)
        CHECK(!rtr_store_open(copied(&k->arena, k->arena.input, k->file, k->file_length),
                              k->file_length));
    CHECK(!rtr_store_open(NULL, 0));
    /* The store without its last byte, and more than the buffer has. */
    struct rtr_stores before = k->stores;
    index_room(k, length);
    buffer_room(k, length);
    first_room(k, length - sizeof(struct rtr_store_head));
    memcpy(k->buffers.first, k->file + sizeof(struct rtr_store_head), k->buffers.first_length);
    CHECK(rtr_stores_start(&k->stores, k->buffers.first_length - 1, &k->buffers, &k->work,
                           &k->answer) == RTR_STORES_MALFORMED);
    CHECK(rtr_stores_start(&k->stores, k->buffers.first_length + 1, &k->buffers, &k->work,
                           &k->answer) == RTR_STORES_SHORT_BUFFER);
    CHECK(memcmp(&k->stores, &before, sizeof before) == 0);
    CHECK(!rtr_history_data(k->buffers.first, 15, &length) && !length);
}

/* Data that aren't taken: what is served stays. */
static void check_refused(struct cache *k)
{
    check_life(k);
    CHECK(take(k, SECOND THIRD END("3")) == RTR_STORES_SAME_DATA);
    CHECK(take(k, SECOND THIRD "0107000700000018" "00000003" "00000e10" "00000258" "00001c21")
          == RTR_STORES_OTHER_TIMES);
    CHECK(take(k, FIRST THIRD END("3")) == RTR_STORES_OLD_SERIAL);
    CHECK(take(k, FIRST THIRD END("2")) == RTR_STORES_OLD_SERIAL);
    CHECK(take(k, FIRST_0 END_0("4")) == RTR_STORES_OTHER_VERSION && k->answer.detail == 0);
    CHECK(take(k, SECOND FIRST END("4")) == RTR_STORES_FLAW);
    CHECK(k->answer.offset == 20 && k->answer.flaw == RTR_NOT_CANONICAL);
    CHECK(take(k, "0104000000000014" "01211800" "c0000200" "0000fbf0" END("4"))
          == RTR_STORES_FLAW);
    CHECK(!k->answer.offset && k->answer.flaw == RTR_PREFIX);
    CHECK(k->answer.detail == RTR_LENGTH_OVER);
    CHECK(!state_of(k).waits && serves(k, SECOND THIRD END("3")));
}

/* Sessions: one that the cache left isn't taken again (RFC 8210 section 5.1). */
static void check_sessions(struct cache *k)
{
    check_life(k);
    take_and_save(k, FIRST END_OF("0008", "00000000"));
    CHECK(since(k, 3, 1) == RTR_STORES_UNKNOWN_SERIAL);
    CHECK(take(k, FIRST END("4")) == RTR_STORES_SESSION_LEFT);
    CHECK(restart(k) == RTR_STORES_OK && take(k, FIRST END("4")) == RTR_STORES_SESSION_LEFT);
    take_and_save(k, SECOND END_OF("0009", "fffffffe"));
    take_and_save(k, THIRD END_OF("0009", "00000001"));
    CHECK(changes(k, 0xfffffffe, 1, THIRD NOT_SECOND END_OF("0009", "00000001")));
    CHECK(take(k, FIRST END_OF("0008", "00000001")) == RTR_STORES_SESSION_LEFT);
}

/* A cache that doesn't save. */
static void check_unsaved(struct cache *k)
{
    rtr_stores_unsaved(&k->stores, 7);
    CHECK(serves_none(k));
    CHECK(take(k, FIRST END_OF("0008", "00000001")) == RTR_STORES_OTHER_SESSION);
    CHECK(take(k, FIRST END("1")) == RTR_STORES_OK && serves(k, FIRST END("1")));
    CHECK(take(k, SECOND END("2")) == RTR_STORES_OK && serves(k, SECOND END("2")));
    CHECK(!state_of(k).waits && state_of(k).second == false);
    CHECK(changes(k, 1, 1, SECOND NOT_FIRST END("2")));
}

/* How long steps are kept, and of how many bytes: one has 16 bytes, and here two units. */
static void check_limits(struct cache *k)
{
    rtr_stores_unsaved(&k->stores, 7);
    k->limits = (struct rtr_history_limits){1000, 60};
    CHECK(take(k, FIRST END("1")) == RTR_STORES_OK);
    CHECK(take(k, FIRST SECOND END("2")) == RTR_STORES_OK && changes(k, 1, 1, SECOND END("2")));
    CHECK(take(k, FIRST SECOND THIRD END("3")) == RTR_STORES_OK);
    CHECK(since(k, 1, 1) == RTR_STORES_UNKNOWN_SERIAL && changes(k, 2, 1, THIRD END("3")));
    k->limits.bytes = 10000;
    k->now += 1001;
    CHECK(take(k, FIRST SECOND END("4")) == RTR_STORES_OK);
    CHECK(since(k, 2, 1) == RTR_STORES_UNKNOWN_SERIAL && since(k, 3, 1) == RTR_STORES_OK);
}

/* Reports whether all calls refuse the struct, and change nothing. */
static bool refuses(struct cache *k, uint8_t status)
{
    size_t length;
    struct rtr_stores before = k->stores;
    struct rtr_stores_state *state = filled(k, sizeof *state);
    const uint8_t *data = bytes_of(k, FIRST END("9"), &length);
    return rtr_stores_state(&k->stores, &k->buffers, state) == status && !state->serves
        && !state->waits && !state->second && !state->offset && !state->length && !state->taken
        && rtr_stores_take(&k->stores, data, length, k->now, &k->limits, &k->buffers, &k->work,
                           &k->answer) == status
        && k->answer.status == status && !k->answer.length && !k->answer.wanted
        && memcmp(&k->stores, &before, sizeof before) == 0;
}

/* Structs that no call leaves, and buffers that are shorter than what they have. */
static void check_structs(struct cache *k)
{
    CHECK(refuses(k, RTR_STORES_NOT_MADE));
    memset(&k->stores, 0, sizeof k->stores);
    CHECK(refuses(k, RTR_STORES_NOT_MADE));
    CHECK(rtr_stores_saved(&k->stores) == RTR_STORES_NOT_MADE);
    CHECK(rtr_stores_give_up(&k->stores) == RTR_STORES_NOT_MADE);
    rtr_stores_new(&k->stores);
    const struct rtr_stores made = k->stores;
    k->stores.second = 1; /* without a store that is served */
    CHECK(refuses(k, RTR_STORES_NOT_MADE));
    k->stores = made;
    k->stores.serves = 2;
    CHECK(refuses(k, RTR_STORES_NOT_MADE));
    rtr_stores_unsaved(&k->stores, 7);
    k->stores.waits = 1; /* where nothing is saved */
    CHECK(refuses(k, RTR_STORES_NOT_MADE));

    check_life(k);
    struct rtr_stores_buffers whole = k->buffers;
    k->buffers.first_length = k->stores.second ? whole.first_length : k->stores.served - 1;
    k->buffers.second_length = k->stores.second ? k->stores.served - 1 : whole.second_length;
    CHECK(refuses(k, RTR_STORES_SHORT_BUFFER));
    k->buffers = whole;
    CHECK(take(k, FIRST END("4")) == RTR_STORES_OK);
    whole = k->buffers;
    k->buffers.first_length = k->stores.second ? k->stores.taken - 1 : whole.first_length;
    k->buffers.second_length = k->stores.second ? whole.second_length : k->stores.taken - 1;
    CHECK(refuses(k, RTR_STORES_SHORT_BUFFER));
}

/* Random structs. No call reads or writes past a buffer, whatever its struct holds. */
static void check_random(struct cache *k, long count)
{
    uint64_t seed = 88172645463325252;
    size_t length;
    check_life(k);
    struct rtr_stores good = k->stores;
    for (long i = 0; i < count; i++) {
        uint8_t *bytes = (uint8_t *)&k->stores;
        struct rtr_stores_state state;
        k->stores = good;
        for (int changed = 0; changed < 4; changed++) {
            seed ^= seed << 13;
            seed ^= seed >> 7;
            seed ^= seed << 17;
            size_t at = seed % sizeof k->stores;
            if (at < offsetof(struct rtr_stores, mark)
                || at >= offsetof(struct rtr_stores, session))
                bytes[at] = (uint8_t)(seed >> 32) >> ((seed >> 40) % 8);
        }
        const uint8_t *data = bytes_of(k, FIRST END("9"), &length);
        rtr_stores_state(&k->stores, &k->buffers, &state);
        rtr_stores_take(&k->stores, data, length, k->now, &k->limits, &k->buffers, &k->work,
                        &k->answer);
        rtr_stores_saved(&k->stores);
        rtr_stores_state(&k->stores, &k->buffers, &state);
    }
}

int main(int count, char **words)
{
    static void (*const checks[])(struct cache *) = {
        check_life,     check_answers,  check_power_cuts, check_files,  check_old_file,
        check_refused,  check_sessions, check_unsaved,    check_limits, check_structs};
    static struct cache k;
    long random = count > 1 ? strtol(words[1], NULL, 10) : 100000;
    for (size_t i = 0; i < 2 * (sizeof checks / sizeof checks[0]); i++) {
        begin(&k, i % 2);
        checks[i / 2](&k);
    }
    begin(&k, true);
    check_random(&k, random);
    printf("calls for a cache's stores: %zu lives, %ld random structs\n",
           2 * (sizeof checks / sizeof checks[0]), random);
    return 0;
}
