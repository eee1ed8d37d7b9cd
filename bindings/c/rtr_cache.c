/* See rtr_cache.h. The calls of rtr.h decide what is kept, saved and answered, and when: those on a
 * struct rtr_stores and its history have the data; those on a struct rtr_door say who is served;
 * those on a struct rtr_cache answer a router, and those on a struct rtr_connection pace that and
 * end it. This file has their buffers, and what connections share. */
#ifndef _GNU_SOURCE
#define _GNU_SOURCE /* for memfd_create */
#endif
#include <stdio.h>
#include <string.h>
#include "rtr_cache.h"
#include "rtr_shared.h"

enum { VERSIONS = RTR_HIGHEST_VERSION + 1 };

/* Changes from the data of `serial` to the newest data, encoded for routers of `version`. */
struct rtr_encoded {
    struct rtr_shared *changes;
    uint32_t serial;
    uint8_t version;
};

/* ---- data */

/* Returns the end of data of data in canonical form. */
static struct rtr_unit end_of(const struct rtr_shared *data)
{
    struct rtr_unit unit;
    size_t end = rtr_end_offset(data->bytes, data->size);
    rtr_next(data->bytes + end, data->size - end, &unit);
    return unit;
}

/* Converts data in canonical form to a version; null without memory. */
static struct rtr_shared *in_version(const struct rtr_shared *from, uint8_t version)
{
    struct rtr_answer answer;
    struct rtr_shared *to = new_shared(from->length + RTR_LONGEST_END);
    if (!to)
        return NULL;
    rtr_normalise_for_slice(from->bytes + from->start, from->length, to->bytes, to->size,
                            UINT64_MAX, version, &answer);
    return shrink(to, answer.written);
}

/* Records why new data are refused, and the offset of the unit. */
static enum rtr_update refuse(struct rtr_server *s, uint8_t status, size_t offset)
{
    s->status = status;
    s->offset = offset;
    return RTR_UPDATE_REFUSED;
}

/* Loads the data of a recording or a list; `data` is set on success. */
static enum rtr_update load(struct rtr_server *s, const uint8_t *input, size_t length,
                            struct rtr_shared **data)
{
    struct rtr_loaded loaded;
    size_t most = length / RTR_SHORTEST_PAYLOAD;
    size_t *index = malloc((most + 1) * sizeof *index);
    uint8_t *work = malloc(length + 1);
    struct rtr_shared *block = new_shared(length);
    bool has_memory = index && work && block;
    if (has_memory)
        rtr_load(input, length, index, most, work, length, block->bytes, length, &loaded);
    free(index);
    free(work);
    if (has_memory && loaded.status == RTR_OK) {
        *data = shrink(block, loaded.length);
        s->has_cut = loaded.has_cut;
        s->refused = loaded.serial;
        return RTR_UPDATE_TAKEN;
    }
    release(block);
    return has_memory ? refuse(s, loaded.status, loaded.offset) : RTR_UPDATE_MEMORY;
}

/* Reports whether RFC 8210 section 6 allows a cache these timings. */
static bool are_times_allowed(struct rtr_server *s, const struct rtr_unit *end)
{
    s->time_rule = rtr_end_rule(end->version, end->refresh, end->retry, end->expire);
    return s->time_rule == RTR_TIME_RULE_NONE;
}

/* ---- the stores, of which `held` are the buffers */

static struct rtr_stores_buffers buffers_of(const struct rtr_server *s)
{
    struct rtr_shared *first = s->held[0], *second = s->held[1];
    return (struct rtr_stores_buffers){first ? first->bytes : NULL, second ? second->bytes : NULL,
                                       first ? first->size : 0, second ? second->size : 0};
}

static struct rtr_stores_state state_of(const struct rtr_server *s)
{
    struct rtr_stores_state state;
    struct rtr_stores_buffers buffers = buffers_of(s);
    rtr_stores_state(&s->stores, &buffers, &state);
    return state;
}

/* Returns the block of the store that is served; null if none is. */
static struct rtr_shared *newest(const struct rtr_server *s)
{
    return s->held[state_of(s).second];
}

/* Returns the history that is served. */
static const uint8_t *history_of(const struct rtr_server *s, size_t *length)
{
    struct rtr_stores_state state = state_of(s);
    struct rtr_stores_buffers buffers = buffers_of(s);
    return rtr_stores_served(&buffers, &state, length);
}

static void free_work(const struct rtr_work *work)
{
    free(work->index);
    free(work->buffer);
    free(work->spare);
}

/* Allocates memory for a call to work in; returns false, with none allocated, if that fails. */
static bool new_work(struct rtr_work *work, size_t index, size_t buffer, size_t spare)
{
    *work = (struct rtr_work){malloc((index + 1) * sizeof *work->index),
                              index,
                              malloc(buffer + 1),
                              malloc(spare + 1),
                              buffer,
                              spare};
    if (work->index && work->buffer && work->spare)
        return true;
    free_work(work);
    return false;
}

/* Returns the size of the units up to and with the end of data, counts those before it, and sets
 * `end`. */
static size_t walk(const uint8_t *units, size_t length, size_t *count, struct rtr_unit *end)
{
    size_t at = 0;
    for (*count = 0; rtr_next(units + at, length - at, end) == RTR_OK; *count += 1) {
        at += end->size;
        if (end->kind == RTR_END_OF_DATA)
            break;
    }
    return at;
}

/* Grows the list of serial numbers of earlier data to this many; returns false without memory. */
static bool reserve_kept(struct rtr_server *s, size_t count)
{
    if (count <= s->kept_capacity)
        return true;
    uint32_t *kept = realloc(s->kept, count * sizeof *kept);
    if (!kept)
        return false;
    s->kept = kept;
    s->kept_capacity = count;
    return true;
}

/* Returns how many earlier data the history has that is served. */
static size_t count_kept(const struct rtr_server *s)
{
    struct rtr_stores_answer answer;
    size_t length;
    const uint8_t *history = history_of(s, &length);
    rtr_history_serials(history, length, NULL, 0, &answer);
    return answer.wanted;
}

/* Lists the serial numbers of the earlier data of a history; the list is long enough. */
static void list_kept(struct rtr_server *s, const uint8_t *history, size_t length)
{
    struct rtr_stores_answer answer;
    rtr_history_serials(history, length, s->kept, s->kept_capacity, &answer);
    s->kept_count = answer.length;
}

/* Frees the encodings of the newest data, and the changes that lead to them. */
static void forget_made(struct rtr_server *s)
{
    for (size_t i = 0; i < s->encoded_count; i++)
        release(s->encoded[i].changes);
    s->encoded_count = 0;
    for (uint8_t version = 0; version < VERSIONS; version++) {
        release(s->forms[version]);
        s->forms[version] = NULL;
    }
}

/* Frees the data of the server, and begins as if it had none. */
static void forget(struct rtr_server *s)
{
    forget_made(s);
    for (int i = 0; i < 2; i++) {
        release(s->held[i]);
        s->held[i] = NULL;
    }
    rtr_stores_new(&s->stores);
    s->kept_count = 0;
    s->present.has = false;
}

/* Lets connections send the data of the store that is served now, and frees the other store. The
 * list of serial numbers has to have room for those of its history. */
static void serve(struct rtr_server *s)
{
    size_t length;
    const uint8_t *history = history_of(s, &length);
    bool second = state_of(s).second;
    struct rtr_shared *block = s->held[second];
    const uint8_t *data = rtr_history_data(history, length, &block->length);
    block->start = (size_t)(data - block->bytes);
    release(s->held[!second]);
    s->held[!second] = NULL;
    forget_made(s);
    walk(data, block->length, &s->payloads, &s->end);
    s->present = (struct rtr_present){s->end.serial, s->end.session, true};
    s->number += 1;
    list_kept(s, history, length);
}

/* Returns the rtr_update of a store that isn't taken. */
static enum rtr_update refused_by(enum rtr_stores_status status)
{
    switch (status) {
    case RTR_STORES_SAME_DATA:
        return RTR_UPDATE_SAME;
    case RTR_STORES_OTHER_TIMES:
        return RTR_UPDATE_TIMING;
    case RTR_STORES_OLD_SERIAL:
        return RTR_UPDATE_SERIAL;
    case RTR_STORES_SESSION_LEFT:
        return RTR_UPDATE_LEFT;
    case RTR_STORES_OTHER_SESSION:
        return RTR_UPDATE_SESSION;
    case RTR_STORES_OTHER_VERSION:
        return RTR_UPDATE_VERSION;
    case RTR_STORES_FLAW:
        return RTR_UPDATE_REFUSED;
    case RTR_STORES_NO_ROOM:
        return RTR_UPDATE_MEMORY;
    default:
        return RTR_UPDATE_TORN;
    }
}

/* Drops the pending store. */
static void give_up(struct rtr_server *s)
{
    bool second = state_of(s).second;
    rtr_stores_give_up(&s->stores);
    release(s->held[!second]);
    s->held[!second] = NULL;
}

/* Takes data in canonical form, which replace a pending store. The buffers have the lengths that
 * suffice for rtr_stores_take; the served data become one more of the earlier ones. */
static enum rtr_update take(struct rtr_server *s, int64_t date, const uint8_t *data, size_t length)
{
    struct rtr_work work;
    struct rtr_stores_answer answer;
    struct rtr_stores_state state = state_of(s);
    struct rtr_stores stores = s->stores;
    struct rtr_history_limits limits = {s->settings.keep, s->settings.keep_bytes};
    size_t both = length + (state.serves ? s->held[state.second]->size : 0);
    if (!new_work(&work, 0, both, 2 * both + 32))
        return RTR_UPDATE_MEMORY;
    struct rtr_shared *store = new_shared(18 + both + work.spare_length);
    answer.status = RTR_STORES_NO_ROOM;
    if (store) {
        struct rtr_stores_buffers buffers = buffers_of(s);
        *(state.second ? &buffers.first : &buffers.second) = store->bytes;
        *(state.second ? &buffers.first_length : &buffers.second_length) = store->size;
        rtr_stores_give_up(&stores);
        rtr_stores_take(&stores, data, length, (uint64_t)date, &limits, &buffers, &work, &answer);
    }
    free_work(&work);
    if (answer.status == RTR_STORES_OK && !reserve_kept(s, s->kept_count + 1))
        answer.status = RTR_STORES_NO_ROOM;
    if (answer.status != RTR_STORES_OK) {
        release(store);
        return refused_by(answer.status);
    }
    give_up(s);
    s->held[!state.second] = shrink(store, answer.length);
    s->stores = stores;
    if (!state_of(s).waits)
        serve(s);
    return RTR_UPDATE_TAKEN;
}

/* Converts data to the version in which the stores take them; returns false without memory. */
static bool convert(const struct rtr_server *s, struct rtr_shared **data)
{
    struct rtr_unit end = end_of(*data);
    uint8_t version = rtr_stores_version(&s->present, s->end.version, end.session, end.version);
    if (version == end.version)
        return true;
    struct rtr_shared *converted = in_version(*data, version);
    release(*data);
    *data = converted;
    return converted != NULL;
}

/* Takes an input that is in canonical form and of the highest version, without a copy. Returns
 * RTR_UPDATE_REFUSED for another input, which has to be loaded. */
static enum rtr_update take_input(struct rtr_server *s, int64_t date, const uint8_t *input,
                                  size_t length)
{
    struct rtr_unit end;
    size_t offset = rtr_end_offset(input, length);
    if (rtr_next(input + offset, length - offset, &end) != RTR_OK || end.kind != RTR_END_OF_DATA
        || end.version != RTR_HIGHEST_VERSION || !are_times_allowed(s, &end))
        return RTR_UPDATE_REFUSED;
    s->has_cut = false;
    s->refused = end.serial;
    return take(s, date, input, length);
}

/* Takes data that were loaded. */
static enum rtr_update take_loaded(struct rtr_server *s, int64_t date, struct rtr_shared **data)
{
    struct rtr_unit end = end_of(*data);
    if (!are_times_allowed(s, &end))
        return RTR_UPDATE_TIMES;
    if (!convert(s, data))
        return RTR_UPDATE_MEMORY;
    return take(s, date, (*data)->bytes, (*data)->size);
}

enum rtr_update rtr_server_update(struct rtr_server *s, int64_t date, const uint8_t *input,
                                  size_t length)
{
    struct rtr_shared *data = NULL;
    enum rtr_update update = take_input(s, date, input, length);
    if (update == RTR_UPDATE_REFUSED)
        update = load(s, input, length, &data);
    if (data)
        update = take_loaded(s, date, &data);
    release(data);
    if (update == RTR_UPDATE_SAME)
        give_up(s);
    return update;
}

const uint8_t *rtr_server_to_save(const struct rtr_server *s, struct rtr_store_head *head,
                                  size_t *length)
{
    struct rtr_stores_state state = state_of(s);
    struct rtr_stores_buffers buffers = buffers_of(s);
    const uint8_t *store = rtr_stores_to_save(&buffers, &state, length);
    if (store)
        rtr_store_seal(store, *length, head);
    return store;
}

void rtr_server_saved(struct rtr_server *s)
{
    if (!state_of(s).waits)
        return;
    rtr_stores_saved(&s->stores);
    serve(s);
}

/* ---- restarts */

/* Copies the store of a file, which in the earlier form is as long as the file; returns
 * RTR_UPDATE_TORN if the file is damaged. */
static enum rtr_update copy_store(const uint8_t *file, size_t length, struct rtr_shared **store)
{
    struct rtr_stores_answer answer;
    bool is_old = !rtr_store_open(file, length);
    size_t head = is_old ? 0 : sizeof(struct rtr_store_head);
    *store = new_shared(length - head);
    if (!*store)
        return RTR_UPDATE_MEMORY;
    if (!is_old)
        memcpy((*store)->bytes, file + head, length - head);
    else if (rtr_store_open_old(file, length, (*store)->bytes, length, &answer) != RTR_STORES_OK)
        return RTR_UPDATE_TORN;
    return RTR_UPDATE_TAKEN;
}

/* Starts from the store in the first buffer. */
static enum rtr_update start(struct rtr_server *s, size_t size)
{
    struct rtr_work work;
    struct rtr_stores_answer answer;
    struct rtr_stores_buffers buffers = buffers_of(s);
    if (!new_work(&work, size / RTR_SHORTEST_END, size, 0))
        return RTR_UPDATE_MEMORY;
    rtr_stores_start(&s->stores, size, &buffers, &work, &answer);
    free_work(&work);
    if (answer.status != RTR_STORES_OK)
        return refused_by(answer.status);
    if (!reserve_kept(s, count_kept(s)))
        return RTR_UPDATE_MEMORY;
    serve(s);
    return are_times_allowed(s, &s->end) ? RTR_UPDATE_TAKEN : RTR_UPDATE_TIMES;
}

enum rtr_update rtr_server_restore(struct rtr_server *s, const uint8_t *input, size_t length)
{
    if (s->held[0] || s->held[1] || s->stores.unsaved)
        return RTR_UPDATE_SAME;
    enum rtr_update update = copy_store(input, length, &s->held[0]);
    if (update == RTR_UPDATE_TAKEN)
        update = start(s, s->held[0]->size);
    if (update != RTR_UPDATE_TAKEN)
        forget(s);
    return update;
}

/* ---- answers */

/* Returns the newest data in a version, with a reference, to a connection that sends them; they are
 * encoded at the first call. Null without memory. */
static struct rtr_shared *sent_form(struct rtr_server *s, uint8_t version)
{
    struct rtr_shared **form = &s->forms[version];
    if (version == s->end.version)
        form = &s->held[state_of(s).second];
    else if (!*form)
        *form = in_version(newest(s), version);
    if (*form)
        *form = moved_to_file(*form);
    return *form ? hold(*form) : NULL;
}

/* Caches changes for further routers, as the settings allow, unless memory runs out. */
static void keep_encoded(struct rtr_server *s, struct rtr_encoded entry)
{
    size_t bytes = 0;
    for (size_t i = 0; i < s->encoded_count; i++)
        bytes += s->encoded[i].changes->length;
    struct rtr_encoded *entries = NULL;
    if (rtr_server_keeps(&s->settings, bytes, entry.changes->length))
        entries = realloc(s->encoded, (s->encoded_count + 1) * sizeof *entries);
    if (!entries)
        return;
    s->encoded = entries;
    s->encoded[s->encoded_count++] = entry;
    hold(entry.changes);
}

/* Computes the changes from the data of a serial number to the newest, for routers of a version;
 * null without memory. The buffers have the lengths that suffice for rtr_history_since. */
static struct rtr_shared *make_changes(const struct rtr_server *s, uint8_t version, uint32_t serial)
{
    struct rtr_work work;
    struct rtr_stores_answer answer;
    size_t length;
    const uint8_t *history = history_of(s, &length);
    if (!new_work(&work, length / RTR_SHORTEST_END, 2 * length, length))
        return NULL;
    struct rtr_shared *changes = new_shared(work.buffer_length + RTR_LONGEST_END);
    answer.status = RTR_STORES_NO_ROOM;
    if (changes)
        rtr_history_since(history, length, serial, version, &work, changes->bytes, changes->size,
                          &answer);
    free_work(&work);
    if (answer.status == RTR_STORES_OK)
        return shrink(changes, answer.length);
    release(changes);
    return NULL;
}

/* Returns the changes from the data of a serial number, the present one or one that is kept, for
 * routers of a version. The caller releases them. Null without memory. */
static struct rtr_shared *changes_from(struct rtr_server *s, uint8_t version, uint32_t serial)
{
    for (size_t i = 0; i < s->encoded_count; i++)
        if (s->encoded[i].version == version && s->encoded[i].serial == serial)
            return hold(s->encoded[i].changes);
    struct rtr_shared *changes = make_changes(s, version, serial);
    if (changes)
        keep_encoded(s, (struct rtr_encoded){changes, serial, version});
    return changes;
}

/* ---- the server */

void rtr_server_init(struct rtr_server *s)
{
    memset(s, 0, sizeof *s);
    s->spare = true;
    rtr_server_settings_usual(&s->settings);
    rtr_door_init(&s->door, &s->settings);
    rtr_stores_new(&s->stores);
}

void rtr_server_unsaved(struct rtr_server *s, uint16_t session)
{
    rtr_stores_unsaved(&s->stores, session);
}

void rtr_server_free(struct rtr_server *s)
{
    forget(s);
    free(s->encoded);
    free(s->kept);
}

const char *rtr_update_text(const struct rtr_server *s, enum rtr_update update)
{
    switch (update) {
    case RTR_UPDATE_REFUSED:
        return rtr_status_text(s->status);
    case RTR_UPDATE_SERIAL:
        return RTR_FAILURE_OLD_SERIAL;
    case RTR_UPDATE_TIMING:
        return RTR_FAILURE_OTHER_TIMES;
    case RTR_UPDATE_TIMES:
        return rtr_time_rule_text(s->time_rule);
    case RTR_UPDATE_LEFT:
        return RTR_FAILURE_SESSION_LEFT;
    case RTR_UPDATE_SESSION:
        return RTR_FAILURE_OTHER_SESSION;
    case RTR_UPDATE_VERSION:
        return RTR_FAILURE_HIGHER_VERSION;
    case RTR_UPDATE_TORN:
        return RTR_FAILURE_DAMAGED;
    default:
        return RTR_FAILURE_NO_MEMORY;
    }
}

/* ---- a connection */

/* Returns the number of bytes of the answer, or of the last report, sent or not. */
static size_t answer_size(const struct rtr_served *c)
{
    return c->head_length + (c->body ? c->body->length : 0);
}

/* Returns how many of them are unsent. */
static size_t unsent(const struct rtr_served *c)
{
    return answer_size(c) ? c->connection.unsent : 0;
}

static void drop_answer(struct rtr_served *c)
{
    release(c->body);
    c->body = NULL;
    c->head_length = 0;
}

/* Sends nothing any more: the connection broke, or has to be closed. */
static void stop(struct rtr_served *c)
{
    drop_answer(c);
    rtr_connection_broke(&c->connection);
}

static void set_text(struct rtr_served *c, const char *text)
{
    snprintf(c->text, sizeof c->text, "%s", text);
}

/* Ends the connection without a report, since there is no memory. */
static void starve(struct rtr_served *c, uint64_t now)
{
    drop_answer(c);
    set_text(c, RTR_FAILURE_NO_MEMORY);
    rtr_connection_ends(&c->connection, now, 0);
}

/* Sets `text` to the reason why the connection ends, at the first unit of the input. */
static void explain_end(struct rtr_served *c, const struct rtr_serving *serving, size_t filled)
{
    size_t count;
    struct rtr_unit unit;
    if (serving->reason == RTR_REASON_REPORTED) {
        rtr_next(c->input, filled, &unit);
        rtr_reported_text(rtr_reason_text(RTR_REASON_REPORTED), &unit, c->input, c->text,
                          sizeof c->text);
    } else if (serving->reason == RTR_REASON_FAULTY) {
        rtr_text_at(serving->status, serving->detail, c->offset, (uint8_t *)c->text,
                    RTR_TEXT_AT_ROOM, &count);
        c->text[count] = 0;
    } else if (serving->reason != RTR_REASON_LOST) {
        set_text(c, rtr_reason_text(serving->reason));
    }
}

/* Returns the report that is owed about the input; null if none is, or without memory. */
static struct rtr_shared *new_report(const struct rtr_served *c, const struct rtr_serving *serving,
                                     size_t filled)
{
    size_t length;
    struct rtr_shared *report = serving->reports ? new_shared(RTR_LONGEST_UNIT) : NULL;
    if (!report)
        return NULL;
    rtr_cache_report(serving, c->input, filled, report->bytes, RTR_LONGEST_UNIT, &length);
    return shrink(report, length);
}

/* Carries out the answer of rtr.h to the first `filled` bytes of the input: begins to send it, or
 * ends the connection. */
static void act(struct rtr_served *c, uint64_t now, const struct rtr_serving *serving,
                size_t filled)
{
    struct rtr_server *s = c->server;
    bool needs_body = serving->kind != RTR_SERVE_RESET && serving->kind != RTR_SERVE_NOTIFY;
    if (serving->kind == RTR_SERVE_WAIT)
        return;
    c->head_length = (uint8_t)rtr_cache_unit(serving, c->head, sizeof c->head);
    if (serving->kind == RTR_SERVE_ALL)
        c->body = sent_form(s, serving->version);
    else if (serving->kind == RTR_SERVE_CHANGES)
        c->body = changes_from(s, serving->version, serving->serial);
    else
        c->body = new_report(c, serving, filled);
    if (serving->kind == RTR_SERVE_END) {
        explain_end(c, serving, filled);
        rtr_connection_ends(&c->connection, now, answer_size(c));
    } else if (needs_body && !c->body) {
        starve(c, now);
    } else {
        rtr_connection_answers(&c->connection, now, answer_size(c), s->number);
    }
}

/* Returns the size of the input buffer. */
static size_t input_size(const struct rtr_served *c)
{
    return c->input == c->small ? sizeof c->small : RTR_LONGEST_UNIT;
}

/* Grows the input buffer to the longest unit; returns false without memory. */
static bool grow(struct rtr_served *c)
{
    uint8_t *longer = malloc(RTR_LONGEST_UNIT);
    if (!longer)
        return false;
    memcpy(longer, c->input, c->connection.filled);
    c->input = longer;
    return true;
}

/* Answers the first unit of the input, if it is whole. */
static void hear(struct rtr_served *c, uint64_t now)
{
    struct rtr_serving serving;
    const struct rtr_server *s = c->server;
    struct rtr_connection *connection = &c->connection;
    size_t filled = connection->filled;
    rtr_cache_read(&c->cache, now, &s->present, s->kept, s->kept_count, c->input, filled,
                   connection->closed, &serving);
    rtr_connection_heard(connection, now, serving.taken);
    act(c, now, &serving, filled);
    c->offset += serving.taken;
    memmove(c->input, c->input + serving.taken, connection->filled);
    if (serving.kind == RTR_SERVE_WAIT && serving.wanted > input_size(c) && !grow(c))
        starve(c, now);
}

/* Takes a step on the struct rtr_cache; returns false, and does nothing, if it isn't one. */
static bool take_step(struct rtr_served *c, uint64_t now, uint8_t step)
{
    struct rtr_serving serving;
    if (step == RTR_STEP_HEAR) {
        hear(c, now);
        return true;
    }
    if (step != RTR_STEP_TICK && step != RTR_STEP_LOSE)
        return false;
    if (step == RTR_STEP_TICK)
        rtr_cache_tick(&c->cache, now, &c->server->present, &serving);
    else
        rtr_cache_lost(&c->cache, now, &c->server->present, &serving);
    act(c, now, &serving, 0);
    return true;
}

/* Sets `text` to the limit that ends the connection, if one does. */
static void explain_cut(struct rtr_served *c, uint8_t cut)
{
    if (cut == RTR_CUT_SLOW)
        set_text(c, rtr_reason_text(RTR_REASON_SLOW));
    else if (cut == RTR_CUT_NEW_SESSION)
        set_text(c, rtr_reason_text(RTR_REASON_NEW_SESSION));
    else if (cut == RTR_CUT_BEHIND)
        set_text(c, RTR_FAILURE_BEHIND);
}

void rtr_served_init(struct rtr_served *c, struct rtr_server *s, int64_t now)
{
    struct rtr_serving serving;
    uint64_t time = (uint64_t)now;
    memset(c, 0, sizeof *c);
    c->server = s;
    c->input = c->small;
    rtr_cache_init(&c->cache, time, &s->settings.cache);
    rtr_connection_init(&c->connection, time, &s->settings);
    if (!s->door.served && !s->door.refused)
        rtr_door_init(&s->door, &s->settings); /* the program may have changed its limits */
    c->entry = rtr_door_enter(&s->door, s->spare);
    if (c->entry == RTR_ENTRY_SERVE)
        return;
    rtr_cache_full(&c->cache, time, &s->present, &serving);
    if (c->entry == RTR_ENTRY_WAIT)
        serving.reports = false;
    act(c, time, &serving, 0);
}

void rtr_served_free(struct rtr_served *c)
{
    drop_answer(c);
    if (c->input != c->small)
        free(c->input);
    c->input = c->small;
    rtr_door_leave(&c->server->door, c->entry);
    c->entry = RTR_ENTRY_WAIT;
}

enum rtr_served_event rtr_served_next(struct rtr_served *c, int64_t now)
{
    const struct rtr_server *s = c->server;
    uint64_t time = (uint64_t)now;
    uint8_t step, cut;
    do
        step = rtr_connection_next(&c->connection, time, &c->cache, &s->present, s->number, &cut);
    while (take_step(c, time, step));
    if (step == RTR_STEP_CLOSE) {
        explain_cut(c, cut);
        stop(c);
        c->wakes = now;
        return RTR_SERVED_CLOSE;
    }
    uint64_t wakes = rtr_connection_wakes(&c->connection, &c->cache, &s->present);
    c->wakes = wakes < INT64_MAX ? (int64_t)wakes : INT64_MAX;
    return step == RTR_STEP_FINISH ? RTR_SERVED_FINISH : RTR_SERVED_WAIT;
}

void rtr_served_lost(struct rtr_served *c, const char *reason)
{
    if (!reason) {
        rtr_connection_closed(&c->connection);
        return;
    }
    if (!c->connection.state)
        set_text(c, reason);
    stop(c);
}

uint8_t *rtr_served_room(struct rtr_served *c, size_t *length)
{
    bool reads = rtr_connection_reads(&c->connection);
    *length = reads ? input_size(c) - c->connection.filled : 0;
    return c->input + c->connection.filled;
}

bool rtr_served_received(struct rtr_served *c, int64_t now, size_t length)
{
    if (length > input_size(c) - c->connection.filled) {
        rtr_served_lost(c, RTR_FAILURE_MORE_READ);
        return false;
    }
    rtr_connection_received(&c->connection, (uint64_t)now, length);
    return true;
}

int rtr_served_output(const struct rtr_served *c, struct rtr_part parts[2])
{
    int count = 0;
    size_t left = unsent(c), whole = c->body ? c->body->length : 0;
    size_t body = left < whole ? left : whole, head = left - body;
    if (head)
        parts[count++] = (struct rtr_part){c->head + c->head_length - head, head, -1, 0};
    if (body) {
        const uint8_t *at = c->body->bytes + c->body->start + c->body->length - body;
        parts[count++] = (struct rtr_part){at, body, c->body->file, at - (const uint8_t *)c->body};
    }
    return count;
}

bool rtr_served_sent(struct rtr_served *c, int64_t now, size_t length)
{
    if (length > unsent(c)) {
        rtr_served_lost(c, RTR_FAILURE_MORE_SENT);
        return false;
    }
    rtr_connection_sent(&c->connection, (uint64_t)now, length);
    if (!unsent(c))
        drop_answer(c);
    return true;
}
