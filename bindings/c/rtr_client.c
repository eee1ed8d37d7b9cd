/* See rtr_client.h. The calls of rtr.h on a struct rtr_link process received units, apply answers,
 * and write queries and reports; this file allocates the buffers, and makes texts and events for
 * the program. */
#include <stdio.h>
#include <stdlib.h>
#include <string.h>
#include "rtr_client.h"

/* The sizes of buffers at first. The output holds two queries and a report. The input shrinks to
 * INPUT bytes between two answers. */
enum { OUTPUT = 2 * RTR_SERIAL_SIZE + RTR_LONGEST_UNIT, INPUT = RTR_LONGEST_UNIT };

struct bytes {
    uint8_t *at;
    size_t length;
};

/* Aborts if a call was refused: then this file has a bug, or the program has overwritten the
 * client. */
static void must(uint8_t status)
{
    if (status != RTR_LINK_OK) {
        fprintf(stderr, "rtr_client: a call was refused: status %u\n", status);
        abort();
    }
}

/* Queues an event for the program. */
static void happens(struct rtr_client *c, enum rtr_client_event event)
{
    c->events[c->count++] = (uint8_t)event;
}

/* Returns the link's state; all zero before the first rtr_client_next. */
static struct rtr_link_state state(const struct rtr_client *c)
{
    struct rtr_link_state held = {.wakes = 0};
    if (c->begun)
        must(rtr_link_state(&c->link, &c->buffers, (uint64_t)c->now, &held));
    return held;
}

/* ---- buffers */

/* Resizes a buffer and keeps its content; returns false without memory. */
static bool resize(uint8_t **buffer, size_t *length, size_t size)
{
    uint8_t *moved = realloc(*buffer, size);
    if (moved) {
        *buffer = moved;
        *length = size;
    }
    return moved != NULL;
}

static void release(uint8_t **buffer, size_t *length)
{
    free(*buffer);
    *buffer = NULL;
    *length = 0;
}

static void release_index(struct rtr_client *c)
{
    free(c->buffers.index);
    c->buffers.index = NULL;
    c->buffers.index_length = 0;
}

/* Replaces the index by an empty one of `count` entries; returns false without memory. */
static bool new_index(struct rtr_client *c, size_t count)
{
    release_index(c);
    if (count <= SIZE_MAX / sizeof *c->buffers.index)
        c->buffers.index = malloc(count * sizeof *c->buffers.index);
    if (c->buffers.index)
        c->buffers.index_length = count;
    return c->buffers.index != NULL;
}

static void forget_output(struct rtr_client *c)
{
    must(rtr_link_sent(&c->link, &c->buffers, state(c).unsent));
}

/* Grows the buffer that the link asks for; returns false without memory. The input doubles, so
 * that a long answer is copied only a few times. */
static bool grow_buffer(struct rtr_client *c, const struct rtr_todo *todo)
{
    struct rtr_link_buffers *b = &c->buffers;
    size_t twice = 2 * b->input_length;
    switch (todo->kind) {
    case RTR_TODO_INPUT_ROOM:
        return resize(&b->input, &b->input_length, todo->room > twice ? todo->room : twice);
    case RTR_TODO_FIRST_ROOM:
        return resize(&b->first, &b->first_length, todo->room);
    case RTR_TODO_SECOND_ROOM:
        return resize(&b->second, &b->second_length, todo->room);
    case RTR_TODO_INDEX_ROOM:
        return new_index(c, todo->room);
    default:
        return resize(&b->output, &b->output_length, todo->room);
    }
}

/* Frees what is needed only while an answer comes: the index, and each data buffer without data or
 * former data. The input buffer gets its first size back. */
static void trim(struct rtr_client *c)
{
    struct rtr_link_buffers *b = &c->buffers;
    release_index(c);
    if (c->data != b->first && c->former != b->first)
        release(&b->first, &b->first_length);
    if (c->data != b->second && c->former != b->second)
        release(&b->second, &b->second_length);
    if (b->input_length > INPUT && state(c).filled <= INPUT)
        resize(&b->input, &b->input_length, INPUT);
}

/* ---- data */

/* Publishes new data. The former data, from which the changes lead, stay in their buffer. */
static void show(struct rtr_client *c)
{
    struct rtr_link_state held = state(c);
    c->former = c->data;
    c->former_length = c->data_length;
    c->changed = true;
    c->data = held.second ? c->buffers.second : c->buffers.first;
    c->data_length = held.shown;
    size_t end = rtr_end_offset(c->data, c->data_length);
    must(rtr_next(c->data + end, c->data_length - end, &c->end));
    trim(c);
    happens(c, RTR_CLIENT_DATA);
}

/* Publishes the loss of the data. */
static void drop(struct rtr_client *c)
{
    c->former = c->data;
    c->former_length = c->data_length;
    c->changed = true;
    c->data = NULL;
    c->data_length = 0;
    trim(c);
    happens(c, RTR_CLIENT_DROPPED);
}

/* ---- what the link asks for */

/* Sets `text` and `code` to those of a cache's error report. */
static void explain_report(struct rtr_client *c, struct bytes report)
{
    struct rtr_unit unit;
    rtr_next(report.at, report.length, &unit);
    rtr_reported_text(rtr_cause_text(RTR_CAUSE_REPORTED), &unit, report.at, c->text,
                      sizeof c->text);
    c->code = unit.code;
}

/* Sets `text` to why a unit is refused, and where. */
static void explain_refused(struct rtr_client *c, const struct rtr_todo *todo)
{
    size_t count;
    rtr_text_at(todo->status, todo->detail, todo->position, (uint8_t *)c->text, RTR_TEXT_AT_ROOM,
                &count);
    c->text[count] = 0;
}

/* Queues a failure with its text; null keeps the present text. */
static void fail(struct rtr_client *c, enum rtr_client_failure failure, const char *text)
{
    c->failure = (uint8_t)failure;
    if (text)
        snprintf(c->text, sizeof c->text, "%s", text);
    happens(c, RTR_CLIENT_FAILED);
}

/* Queues the failure that ended the connection, unless the link only changes the version: then the
 * client reconnects at once. `filled` is the length of the input. */
static void explain(struct rtr_client *c, const struct rtr_todo *todo, size_t filled)
{
    enum rtr_client_failure failure = rtr_todo_failure(todo, c->starved);
    if (failure == RTR_CLIENT_NONE)
        return;
    c->status = todo->status;
    if (failure == RTR_CLIENT_MEMORY) {
        fail(c, failure, RTR_FAILURE_NO_MEMORY);
    } else if (failure == RTR_CLIENT_REPORTED) {
        explain_report(c, (struct bytes){c->buffers.input + todo->offset, filled - todo->offset});
        fail(c, failure, NULL);
    } else if (failure == RTR_CLIENT_REFUSED) {
        explain_refused(c, todo);
        fail(c, failure, NULL);
    } else {
        fail(c, failure, failure == RTR_CLIENT_LOST ? c->reason : rtr_cause_text(todo->cause));
    }
}

/* Ends the connection, and drops the data if the link says so. `filled` is the length of the
 * input. */
static void end(struct rtr_client *c, const struct rtr_todo *todo, size_t filled)
{
    if (todo->drops)
        drop(c);
    if (c->broken)
        forget_output(c);
    c->lost = false;
    c->closing = true;
    happens(c, RTR_CLIENT_CLOSE);
    explain(c, todo, filled);
    trim(c);
}

/* Carries out what the link asks for. `filled` is the length of the input. */
static void act(struct rtr_client *c, const struct rtr_todo *todo, size_t filled)
{
    if (todo->kind == RTR_TODO_CONNECT) {
        c->broken = false;
        happens(c, RTR_CLIENT_CONNECT);
    } else if (todo->kind == RTR_TODO_CLOSE) {
        end(c, todo, filled);
    } else if (todo->kind == RTR_TODO_DATA) {
        show(c);
    } else if (todo->kind == RTR_TODO_DROPPED) {
        drop(c);
        fail(c, RTR_CLIENT_EXPIRED, rtr_cause_text(RTR_CAUSE_EXPIRED));
    } else if (todo->kind == RTR_TODO_NO_DATA) {
        explain_report(c, (struct bytes){c->buffers.input + todo->offset, filled - todo->offset});
        happens(c, RTR_CLIENT_NO_DATA);
    }
}

/* Gets the link's next request, or gives up the answer if there is no memory for it. A wish that
 * comes after the loss of a connection waits until that is closed. */
static void ask_link(struct rtr_client *c, struct rtr_todo *todo)
{
    uint64_t now = (uint64_t)c->now;
    bool asks = c->wished && !c->lost;
    must(asks ? rtr_link_ask_now(&c->link, &c->buffers, now, todo)
              : rtr_link_next(&c->link, &c->buffers, now, todo));
    c->starved = todo->kind >= RTR_TODO_INPUT_ROOM && !grow_buffer(c, todo);
    if (asks && todo->kind < RTR_TODO_INPUT_ROOM)
        c->wished = false;
    if (c->starved)
        must(rtr_link_give_up(&c->link, &c->buffers, now, todo));
}

/* Takes a step; returns whether the link may have another one now. */
static bool step(struct rtr_client *c)
{
    size_t filled = state(c).filled;
    ask_link(c, &c->todo);
    c->untold = true;
    act(c, &c->todo, filled);
    return c->todo.kind != RTR_TODO_WAIT;
}

/* ---- calls */

void rtr_client_init(struct rtr_client *c, uint8_t version)
{
    memset(c, 0, sizeof *c);
    rtr_settings_usual(&c->settings, version);
#ifdef RTR_CLIENT_RESPONSE_LIMIT
    c->settings.response_limit = RTR_CLIENT_RESPONSE_LIMIT;
#endif
#ifdef RTR_CLIENT_MOST_BYTES
    c->settings.most_bytes = RTR_CLIENT_MOST_BYTES;
#endif
    c->report_limit = RTR_LAST_REPORT_LIMIT;
}

/* Frees the changes of an earlier event, and the data from which they led. */
static void forget_changes(struct rtr_client *c)
{
    bool held = c->former != NULL;
    release(&c->changes, &c->changes_length);
    c->former = NULL;
    c->former_length = 0;
    c->changed = false;
    if (held)
        trim(c);
}

void rtr_client_free(struct rtr_client *c)
{
    forget_changes(c);
    release_index(c);
    release(&c->buffers.input, &c->buffers.input_length);
    release(&c->buffers.first, &c->buffers.first_length);
    release(&c->buffers.second, &c->buffers.second_length);
    release(&c->buffers.output, &c->buffers.output_length);
    c->data = NULL;
    c->data_length = 0;
    if (c->begun)
        must(rtr_link_again(&c->link));
}

void rtr_client_again(struct rtr_client *c)
{
    struct rtr_client old = *c;
    memset(c, 0, sizeof *c);
    c->settings = old.settings;
    c->report_limit = old.report_limit;
    c->link = old.link;
    c->now = old.now;
    c->begun = old.begun;
}

/* Initializes the link and the buffers of a connection. Without memory it fails, returns false,
 * and retries after a pause. */
static bool begin(struct rtr_client *c)
{
    struct rtr_link_buffers *b = &c->buffers;
    if (!c->begun)
        rtr_link_init(&c->link, &c->settings);
    c->begun = true;
    if (b->input && b->output)
        return true;
    if (c->now < c->tries)
        return false;
    if ((b->input || resize(&b->input, &b->input_length, INPUT))
        && resize(&b->output, &b->output_length, OUTPUT))
        return true;
    c->tries = c->now + c->settings.pause + 1;
    c->unmade = true;
    fail(c, RTR_CLIENT_MEMORY, RTR_FAILURE_NO_MEMORY);
    return false;
}

enum rtr_client_event rtr_client_next(struct rtr_client *c, int64_t now)
{
    bool begun = true;
    c->now = now > c->now ? now : c->now;
    forget_changes(c);
    if (!c->count) {
        c->status = 0;
        if (c->closing)
            forget_output(c);
        c->closing = false;
        begun = begin(c);
        while (begun && !c->count && step(c)) {
        }
    }
    enum rtr_client_event event = c->count ? c->events[0] : RTR_CLIENT_WAIT;
    memmove(c->events, c->events + 1, sizeof c->events - 1);
    c->count -= c->count > 0;
    c->wakes = begun ? (int64_t)state(c).wakes : c->tries;
    if (event == RTR_CLIENT_CLOSE)
        c->wakes = c->now + c->report_limit;
    return event;
}

void rtr_client_tell(struct rtr_client *c, struct rtr_group *group, size_t member,
                     struct rtr_group_answer *answer)
{
    uint64_t now = (uint64_t)c->now;
    bool some = rtr_end_offset(c->data, c->data_length) > 0;
    *answer = (struct rtr_group_answer){.shown = RTR_GROUP_SAME};
    if (c->unmade)
        rtr_group_fails(group, now, member, answer);
    else if (c->untold)
        must(rtr_group_tell(group, now, member, &c->todo, some, answer));
    c->unmade = c->untold = false;
}

void rtr_client_ask_now(struct rtr_client *c)
{
    c->wished = true;
}

bool rtr_client_has_data(const struct rtr_client *c, int64_t now)
{
    struct rtr_link_state held = {.has_data = false};
    uint64_t time = (uint64_t)(now > c->now ? now : c->now);
    if (c->data)
        must(rtr_link_state(&c->link, &c->buffers, time, &held));
    return held.has_data;
}

size_t rtr_client_payloads(const struct rtr_client *c)
{
    uint8_t detail;
    size_t size = 0, count = 0, at = 0;
    for (; at < c->data_length; at += size, count++)
        must(rtr_unit_size(c->data + at, c->data_length - at, &size, &detail));
    return count ? count - 1 : 0;
}

const uint8_t *rtr_client_changes_from(struct rtr_client *c, const uint8_t *data, size_t length,
                                       size_t *changes_length)
{
    struct rtr_data_answer answer;
    size_t most = length + c->data_length;
    release(&c->changes, &c->changes_length);
    *changes_length = data ? 0 : c->data_length;
    if (!data) /* the changes from no data are the data */
        return c->data;
    if (most < length || !resize(&c->changes, &c->changes_length, most))
        return NULL;
    if (rtr_changes_between(data, length, c->data, c->data_length, c->changes, most, &answer)
        != RTR_OK)
        release(&c->changes, &c->changes_length);
    else
        resize(&c->changes, &c->changes_length, answer.written);
    *changes_length = answer.written;
    return c->changes;
}

const uint8_t *rtr_client_changes(struct rtr_client *c, size_t *length)
{
    *length = 0;
    return c->changed ? rtr_client_changes_from(c, c->former, c->former_length, length) : NULL;
}

/* Reports whether the link was in the right state for a call. */
static bool in_turn(uint8_t status)
{
    if (status != RTR_LINK_OUT_OF_TURN)
        must(status);
    return status == RTR_LINK_OK;
}

bool rtr_client_connected(struct rtr_client *c)
{
    return c->begun && in_turn(rtr_link_opened(&c->link));
}

bool rtr_client_lost(struct rtr_client *c, const char *reason)
{
    if (!c->begun || !in_turn(rtr_link_lost(&c->link)))
        return false;
    snprintf(c->reason, sizeof c->reason, "%s", reason ? reason : rtr_cause_text(RTR_CAUSE_LOST));
    c->lost = true;
    c->broken = reason != NULL;
    return true;
}

uint8_t *rtr_client_room(struct rtr_client *c, size_t *length)
{
    struct rtr_link_state held = state(c);
    return rtr_link_room(&c->buffers, &held, length);
}

bool rtr_client_received(struct rtr_client *c, size_t length)
{
    if (!c->begun)
        return false;
    uint8_t status = rtr_link_received(&c->link, &c->buffers, length);
    if (status == RTR_LINK_TOO_LONG) {
        rtr_client_lost(c, RTR_FAILURE_MORE_READ);
        return false;
    }
    return in_turn(status);
}

const uint8_t *rtr_client_output(const struct rtr_client *c, size_t *length)
{
    struct rtr_link_state held = state(c);
    return rtr_link_output(&c->buffers, &held, length);
}

bool rtr_client_sent(struct rtr_client *c, size_t length)
{
    if (!c->begun)
        return !length;
    uint8_t status = rtr_link_sent(&c->link, &c->buffers, length);
    if (status == RTR_LINK_TOO_LONG) {
        rtr_client_lost(c, RTR_FAILURE_MORE_SENT);
        return false;
    }
    must(status);
    return true;
}
