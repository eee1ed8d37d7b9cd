/* Tests of rtr_client.h without enough memory, with a simulated clock and cache: link it with
 * -Wl,--wrap=malloc,--wrap=realloc,--wrap=free. */
#include "played.h"

/* Returns the next event, while the allocation with this number fails. */
static enum rtr_client_event denies(size_t which)
{
    allocations = 0;
    denied = which;
    enum rtr_client_event next = event();
    denied = 0;
    return next;
}

/* Each allocation in turn fails: the data are the old or the new ones, the failure is
 * RTR_CLIENT_MEMORY, and the next connection gets the data. */
static void test_answer(void)
{
    bool succeeded = false;
    for (size_t which = 1; !succeeded; which++) {
        CHECK(which < 100);
        begins(1);
        comes(whole(1, 5, 1, 3)->bytes, whole(1, 5, 1, 3)->length);
        enum rtr_client_event next = denies(which);
        succeeded = next == RTR_CLIENT_DATA;
        if (!succeeded) {
            CHECK(next == RTR_CLIENT_CLOSE && !c.data);
            owes(NONE, 0);
            EXPECT(FAILED);
            CHECK(c.failure == RTR_CLIENT_MEMORY && !strcmp(c.text, "no memory"));
            connects_after(1000);
            sends_reset_query(1);
            comes(whole(1, 5, 1, 3)->bytes, whole(1, 5, 1, 3)->length);
            EXPECT(DATA);
        }
        CHECK(rtr_client_payloads(&c) == 3);
        EXPECT(WAIT);
        now += 7200 * 1000;
        CHECK(denies(which) == RTR_CLIENT_DROPPED);
        CHECK(changes_length() == 3 * 20 + 24);
        ends();
    }
}

/* The same for changes of data: these stay as they were, and are asked for again. */
static void test_changes(void)
{
    const struct text before = *whole(1, 5, 1, 3);
    bool succeeded = false;
    for (size_t which = 1; !succeeded; which++) {
        struct text changes = {.length = 0};
        CHECK(which < 100);
        add_response(&changes, 1, SESSION);
        add_prefix(&changes, 1, 0, 2);
        add_prefix(&changes, 1, 1, 9);
        add_end(&changes, 1, SESSION, 6, usual);
        has_data(1);
        comes(changes.bytes, changes.length);
        enum rtr_client_event next = denies(which);
        succeeded = next == RTR_CLIENT_DATA;
        if (!succeeded) {
            CHECK(next == RTR_CLIENT_CLOSE && which <= 3);
            EXPECT(FAILED);
            CHECK(c.failure == RTR_CLIENT_MEMORY && !strcmp(c.text, "no memory"));
            CHECK(rtr_client_payloads(&c) == 3 && c.end.serial == 5);
            CHECK(c.data_length == before.length - 8);
            CHECK(memcmp(c.data, before.bytes + 8, c.data_length) == 0);
            connects_after(1000);
            sends_reset_query(1);
            comes(whole(1, 6, 2, 4)->bytes, whole(1, 6, 2, 4)->length);
            EXPECT(DATA);
        }
        size_t length;
        allocations = 0;
        denied = 1; /* the data are there, and the changes when they are asked for again */
        CHECK(!rtr_client_changes(&c, &length) && length == 0);
        denied = 0;
        CHECK(rtr_client_payloads(&c) == 3 && c.end.serial == 6 && changes_length() == 2 * 20 + 24);
        ends();
    }
}

/* Without memory for an answer's buffer the old data stay. */
static void test_input(void)
{
    const struct text before = *whole(1, 5, 1, 3);
    size_t capacity, more;
    has_data(1);
    rtr_client_room(&c, &capacity);
    comes(whole(1, 6, 1, 4000)->bytes, capacity);
    EXPECT(WAIT);
    rtr_client_room(&c, &more);
    comes(whole(1, 6, 1, 4000)->bytes + capacity, more);
    CHECK(denies(1) == RTR_CLIENT_CLOSE);
    owes(NONE, 0);
    EXPECT(FAILED);
    CHECK(c.failure == RTR_CLIENT_MEMORY && rtr_client_payloads(&c) == 3 && c.end.serial == 5);
    CHECK(c.data_length == before.length - 8 && !memcmp(c.data, before.bytes + 8, c.data_length));
    connects_after(1000);
    sends_reset_query(1);
    comes(whole(1, 6, 1, 4000)->bytes, whole(1, 6, 1, 4000)->length);
    EXPECT(DATA);
    CHECK(rtr_client_payloads(&c) == 4000 && changes_length() == 3997 * 20 + 24);
    ends();
}

/* The same for a long unit outside of an answer: the failure isn't a lost connection. */
static void test_unit(void)
{
    struct text none = {.length = 0};
    static struct text key;
    size_t capacity;
    key.length = 0;
    add_report(&none, 1, 2);
    add_key(&key, 1, 1, 65535 - 32);
    begins(1);
    comes(none.bytes, none.length);
    EXPECT(NO_DATA);
    EXPECT(WAIT);
    rtr_client_room(&c, &capacity);
    CHECK(capacity < key.length);
    comes(key.bytes, capacity);
    CHECK(denies(1) == RTR_CLIENT_CLOSE);
    EXPECT(FAILED);
    CHECK(c.failure == RTR_CLIENT_MEMORY && !strcmp(c.text, "no memory"));
    ends();
}

/* The last event is a failure of the first client of a group, which hears of it once: it starts the
 * second one. */
static void starts_next(void)
{
    struct rtr_group group;
    struct rtr_group_settings settings;
    struct rtr_group_answer answer;
    rtr_group_usual(&settings);
    CHECK(rtr_group_init(&group, &settings, 2, (uint64_t)now) == RTR_OK);
    rtr_client_tell(&c, &group, 0, &answer);
    CHECK(answer.shown == RTR_GROUP_SAME && !answer.stops && answer.starts && answer.start == 1);
    CHECK(rtr_group_init(&group, &settings, 2, (uint64_t)now) == RTR_OK);
    rtr_client_tell(&c, &group, 0, &answer);
    CHECK(answer.shown == RTR_GROUP_SAME && !answer.stops && !answer.starts);
}

/* Without memory to connect, the client fails at once, and connects a pause later. */
static void test_beginning(void)
{
    for (size_t which = 1; which <= 2; which++) {
        size_t capacity;
        rtr_client_init(&c, 1);
        connected = false;
        CHECK(!rtr_client_room(&c, &capacity) && capacity == 0);
        CHECK(denies(which) == RTR_CLIENT_FAILED);
        CHECK(c.failure == RTR_CLIENT_MEMORY && !strcmp(c.text, "no memory"));
        starts_next();
        CHECK(rtr_client_next(&c, now) == RTR_CLIENT_WAIT);
        CHECK(c.wakes > now && c.wakes <= now + c.settings.pause + 1);
        now = c.wakes;
        asks();
        ends();
    }
}

/* Between two answers a client allocates its data and 128 KiB. */
static void test_held(void)
{
    begins(1);
    for (uint32_t serial = 5; serial < 8; serial++) {
        struct text changes = {.length = 0};
        add_response(&changes, 1, SESSION);
        add_prefix(&changes, 1, 1, 10000 + serial);
        add_end(&changes, 1, SESSION, serial, usual);
        const struct text *text = serial == 5 ? whole(1, 5, 1, 6000) : &changes;
        comes(text->bytes, text->length);
        EXPECT(DATA);
        size_t length;
        CHECK((rtr_client_changes(&c, &length) == c.data) == (serial == 5));
        EXPECT(WAIT);
        CHECK(held < c.data_length + 2 * 65536 + 1000);
        now = c.wakes;
        EXPECT(WAIT);
        sends_serial_query(1, serial);
    }
    CHECK(rtr_client_payloads(&c) == 6002);
    ends();
}

int main(void)
{
    test_answer();
    test_changes();
    test_input();
    test_unit();
    test_beginning();
    test_held();
    return 0;
}
