/* Tests of a server's data in rtr_cache.h: what it takes, keeps, saves and restores, in how much
 * memory, and what it does without. Expected values are written by hand, after RFC 8210 and
 * docs/SESSIONS.md. */
#include "rtr_cache_testing.h"
#include <fcntl.h>
#include <sys/resource.h>

/* Times that RFC 8210 section 6 doesn't allow are refused by the name of the rule, and the old
 * data stay; version 0 has no times. */
static void test_times(void)
{
    static const struct {
        uint32_t times[3];
        uint8_t rule;
    } rows[] = {
        {{0, 600, 7200}, RTR_TIME_RULE_REFRESH},
        {{86401, 600, 172800}, RTR_TIME_RULE_REFRESH},
        {{3600, 0, 7200}, RTR_TIME_RULE_RETRY},
        {{3600, 7201, 172800}, RTR_TIME_RULE_RETRY},
        {{1, 1, 599}, RTR_TIME_RULE_EXPIRE},
        {{3600, 600, 172801}, RTR_TIME_RULE_EXPIRE},
        {{3600, 600, 3600}, RTR_TIME_RULE_ABOVE_REFRESH},
        {{600, 3600, 3600}, RTR_TIME_RULE_ABOVE_RETRY},
    };
    struct text text = {.length = 0};
    has_data(1);
    for (size_t i = 0; i < sizeof rows / sizeof *rows; i++)
        for (uint8_t version = 1; version < 3; version++) {
            text.length = 0;
            add_end(&text, version, SESSION, 6, rows[i].times);
            CHECK(takes(&text) == RTR_UPDATE_TIMES && s.time_rule == rows[i].rule);
            CHECK(!strcmp(rtr_update_text(&s, RTR_UPDATE_TIMES), rtr_time_rule_text(s.time_rule)));
            CHECK(s.present.serial == 5 && s.payloads == 3);
        }
    text.length = 0;
    add_end(&text, 0, SESSION, 6, usual);
    CHECK(takes(&text) == RTR_UPDATE_TAKEN && s.present.serial == 6);
    ends();
}

/* Changes since old data are kept for two hours after newer data came, up to a limit of bytes. The
 * same limit applies to changes that were encoded for routers. */
static void test_kept(void)
{
    has_data(1);
    CHECK(takes(whole(1, 6, 1, 4)) == RTR_UPDATE_TAKEN);
    now += (int64_t)s.settings.keep;
    CHECK(takes(whole(1, 7, 1, 5)) == RTR_UPDATE_TAKEN && s.kept_count == 2);
    now += 1;
    CHECK(takes(whole(1, 8, 1, 6)) == RTR_UPDATE_TAKEN && s.kept_count == 2);
    CHECK(s.kept[0] == 7 && s.kept[1] == 6);
    s.settings.keep_bytes = 2 * (16 + 44); /* one prefix and an end of data each */
    CHECK(takes(whole(1, 9, 1, 7)) == RTR_UPDATE_TAKEN && s.kept_count == 2);
    CHECK(s.kept[0] == 8 && s.kept[1] == 7);
    CHECK(takes(whole(1, 10, 1, 9)) == RTR_UPDATE_TAKEN && s.kept_count == 1);
    begins();
    asks_changes(1, SESSION, 8);
    says_reset(1);
    leaves();
    for (uint8_t version = 1; version < 3; version++) {
        begins();
        asks_changes(version, SESSION, 9);
        says(whole(version, 10, 8, 9));
        leaves();
    }
    CHECK(s.encoded_count == 1); /* each has two prefixes and an end of data, 64 bytes */
    ends();
}

/* Serial numbers are compared by RFC 1982: one that isn't before the present one is dropped. */
static void test_wrap(void)
{
    rtr_server_init(&s);
    CHECK(takes(whole(1, 0xfffffffe, 1, 3)) == RTR_UPDATE_TAKEN);
    CHECK(takes(whole(1, 1, 1, 4)) == RTR_UPDATE_TAKEN && s.kept_count == 1);
    CHECK(takes(whole(1, 0xffffffff, 1, 5)) == RTR_UPDATE_SERIAL);
    CHECK(takes(whole(1, 0x7fffffff, 1, 5)) == RTR_UPDATE_TAKEN && s.kept_count == 1);
    CHECK(s.kept[0] == 1);
    begins();
    asks_changes(1, SESSION, 0xfffffffe);
    says_reset(1);
    leaves();
    ends();
}

/* A file of a higher or of a lower version than the one before. */
static void test_other_versions(void)
{
    for (uint8_t from = 0; from < 3; from++) {
        for (uint8_t to = 0; to < 3; to++) {
            has_data(from);
            CHECK(takes(whole(from, 6, 1, 4)) == RTR_UPDATE_TAKEN);
            CHECK(takes(whole(to, 7, 1, 5)) == RTR_UPDATE_TAKEN);
            for (uint8_t version = 0; version < 3; version++) {
                struct text *expected = whole(version, 7, 4, 5);
                begins();
                asks_changes(version, SESSION, 5);
                says(expected);
                leaves();
            }
            ends();
        }
    }
}

static void test_updates(void)
{
    struct text text = {.length = 0};
    const uint32_t others[] = {3600, 600, 7201};
    has_data(1);
    CHECK(takes(whole(1, 5, 1, 3)) == RTR_UPDATE_SAME);
    CHECK(takes(whole(1, 5, 1, 4)) == RTR_UPDATE_SERIAL);
    CHECK(takes(whole(1, 4, 1, 3)) == RTR_UPDATE_SERIAL && s.refused == 4);
    for (uint32_t asn = 3; asn > 0; asn--)
        add_prefix(&text, 1, 1, asn);
    add_end(&text, 1, SESSION, 5, usual);
    CHECK(takes(&text) == RTR_UPDATE_SAME); /* the same in another order, without a response */
    text.length = 60;
    add_end(&text, 1, SESSION, 5, others);
    CHECK(takes(&text) == RTR_UPDATE_TIMING);
    text.length = 60;
    add_end(&text, 1, SESSION, 6, others);
    CHECK(takes(&text) == RTR_UPDATE_TAKEN && s.end.expire == 7201);
    CHECK(s.kept_count == 1 && s.number == 2);
    text.length = 60;
    add_end(&text, 1, SESSION + 1, 3, usual);
    CHECK(takes(&text) == RTR_UPDATE_TAKEN && s.kept_count == 0);
    ends();
}

/* A session that the server left isn't served again, whatever its serial numbers are. */
static void test_left(void)
{
    struct text text = {.length = 0};
    has_data(1);
    add_end(&text, 1, SESSION + 1, 1, usual);
    CHECK(takes(&text) == RTR_UPDATE_TAKEN && s.present.session == SESSION + 1);
    for (uint32_t serial = 4; serial < 8; serial++)
        CHECK(takes(whole(1, serial, 1, 4)) == RTR_UPDATE_LEFT);
    CHECK(s.present.session == SESSION + 1 && s.payloads == 0);
    text.length = 0;
    add_end(&text, 1, SESSION + 2, 1, usual);
    CHECK(takes(&text) == RTR_UPDATE_TAKEN);
    ends();
}

/* A server that doesn't save serves its data at once, and only those of one session. */
static void test_unsaved(void)
{
    struct rtr_store_head head;
    size_t length;
    struct text text = {.length = 0};
    rtr_server_init(&s);
    rtr_server_unsaved(&s, SESSION);
    add_end(&text, 1, SESSION + 1, 1, usual);
    CHECK(updates(&text) == RTR_UPDATE_SESSION && !s.present.has);
    for (uint32_t serial = 5; serial < 9; serial++) {
        CHECK(updates(whole(1, serial, 1, serial)) == RTR_UPDATE_TAKEN);
        CHECK(s.present.serial == serial && s.kept_count == serial - 5);
        CHECK(!rtr_server_to_save(&s, &head, &length) && length == 0);
    }
    CHECK(updates(&text) == RTR_UPDATE_SESSION && s.present.serial == 8);
    CHECK(rtr_server_restore(&s, text.bytes, text.length) == RTR_UPDATE_SAME);
    begins();
    asks_changes(1, SESSION, 5);
    says(whole(1, 8, 6, 8));
    leaves();
    ends();
}

struct refused {
    uint8_t status;
    size_t offset;
};

/* Refused inputs, with status and offset; the data stay. */
static void test_refusals(void)
{
    static const struct refused all[] = {
        {RTR_SHORT, 68}, {RTR_DUPLICATE, 68}, {RTR_UNKNOWN, 68}, {RTR_RESET_INSIDE, 68}};
    has_data(1);
    for (size_t i = 0; i < sizeof all / sizeof all[0]; i++) {
        struct text text = *whole(1, 6, 1, 3);
        text.length = 68;
        if (i == 1)
            add_prefix(&text, 1, 1, 2);
        if (i == 2)
            add_prefix(&text, 1, 0, 4);
        if (i == 3)
            add_header(&text, 1, RTR_CACHE_RESET, 0, RTR_HEADER_SIZE);
        if (i > 0)
            add_end(&text, 1, SESSION, 6, usual);
        CHECK(takes(&text) == RTR_UPDATE_REFUSED);
        CHECK(s.status == all[i].status && s.offset == all[i].offset);
        CHECK(!strcmp(rtr_update_text(&s, RTR_UPDATE_REFUSED), rtr_status_text(s.status)));
    }
    begins();
    asks_all(1);
    says(whole(1, 5, 1, 3));
    leaves();
    ends();
}

/* ---- saving */

/* Sets a text to the file of the pending store. */
static void writes(struct text *file)
{
    struct rtr_store_head head;
    size_t length;
    const uint8_t *store = rtr_server_to_save(&s, &head, &length);
    CHECK(store != NULL);
    file->length = 0;
    add(file, &head, sizeof head);
    add(file, store, length);
    CHECK(rtr_store_open(file->bytes, file->length));
}

/* Gives the server data, and saves them in a file. */
static void saves(struct text *file, const struct text *text)
{
    CHECK(updates(text) == RTR_UPDATE_TAKEN);
    writes(file);
    rtr_server_saved(&s);
}

/* Starts a server with this file, some time later. */
static enum rtr_update restarts(const struct text *file)
{
    ends();
    rtr_server_init(&s);
    return rtr_server_restore(&s, file->bytes, file->length);
}

/* Routers get data that wait to be saved only after that, and newer ones replace them; a failed
 * save changes nothing. */
static void test_waits(void)
{
    static struct text file, again;
    struct rtr_store_head head;
    size_t length;
    rtr_server_init(&s);
    rtr_server_saved(&s);
    CHECK(!rtr_server_to_save(&s, &head, &length) && length == 0 && !s.present.has);
    CHECK(updates(whole(1, 5, 1, 3)) == RTR_UPDATE_TAKEN && !s.present.has);
    writes(&file);
    writes(&again);
    CHECK(file.length == again.length && !memcmp(file.bytes, again.bytes, file.length));
    begins();
    asks_all(1);
    says_report(1, 2, 8);
    rtr_server_saved(&s);
    CHECK(s.present.has && s.present.serial == 5 && !rtr_server_to_save(&s, &head, &length));
    asks_all(1);
    says(whole(1, 5, 1, 3));
    CHECK(updates(whole(1, 6, 1, 4)) == RTR_UPDATE_TAKEN);
    CHECK(s.present.serial == 5 && s.payloads == 3 && s.kept_count == 0);
    asks_changes(1, SESSION, 5);
    says_same(1, 5);
    CHECK(updates(whole(1, 4, 1, 4)) == RTR_UPDATE_SERIAL && s.refused == 4);
    CHECK(rtr_server_to_save(&s, &head, &length) != NULL); /* 6 */
    CHECK(updates(whole(1, 6, 1, 5)) == RTR_UPDATE_TAKEN); /* other data: nobody has the first */
    rtr_server_saved(&s);
    now += s.settings.cache.pause;
    CHECK(runs() == RTR_SERVED_WAIT);
    sent.length = 0;
    asks_changes(1, SESSION, 5);
    says(whole(1, 6, 4, 5));
    CHECK(updates(whole(1, 7, 1, 6)) == RTR_UPDATE_TAKEN);
    CHECK(updates(whole(1, 6, 1, 5)) == RTR_UPDATE_SAME); /* 7 is dropped */
    CHECK(!rtr_server_to_save(&s, &head, &length) && s.present.serial == 6);
    rtr_server_saved(&s);
    CHECK(s.present.serial == 6 && s.kept_count == 1);
    leaves();
    ends();
}

/* A restarted server answers as the one before, and keeps changes for as long. */
static void test_saved(void)
{
    static struct text file;
    has_data(1);
    for (uint32_t serial = 6; serial < 9; serial++) {
        now += 1000;
        saves(&file, whole(1, serial, 1, serial));
    }
    now += 60000;
    CHECK(restarts(&file) == RTR_UPDATE_TAKEN);
    CHECK(s.present.serial == 8 && s.payloads == 8 && s.kept_count == 3);
    CHECK(rtr_server_restore(&s, file.bytes, file.length) == RTR_UPDATE_SAME);
    CHECK(takes(whole(1, 8, 1, 8)) == RTR_UPDATE_SAME);
    CHECK(takes(whole(1, 9, 1, 9)) == RTR_UPDATE_TAKEN);
    begins();
    asks_changes(1, SESSION, 5);
    says(whole(1, 9, 4, 9));
    leaves();
    /* Serial number 6 was replaced 1000 ms before saving. */
    now += (int64_t)s.settings.keep - 60000 - 1000;
    CHECK(takes(whole(1, 10, 1, 10)) == RTR_UPDATE_TAKEN && s.kept_count == 4);
    CHECK(s.kept[0] == 9 && s.kept[1] == 8 && s.kept[2] == 7 && s.kept[3] == 6);
    ends();
}

/* The number in network byte order. */
static void add_long(struct text *to, uint64_t value)
{
    add_number(to, (uint32_t)(value >> 32));
    add_number(to, (uint32_t)value);
}

/* A file of the earlier form: eight letters, the 64-bit FNV-1a hash of the rest, and then the data
 * and the steps back, each behind a time and its length. */
static void add_old_file(struct text *to, const struct text *const parts[], size_t count)
{
    static struct text rest;
    uint64_t hash = UINT64_C(0xcbf29ce484222325);
    rest.length = 0;
    for (size_t i = 0; i < count; i++) {
        add_long(&rest, (uint64_t)(date + now));
        add_long(&rest, parts[i]->length);
        add(&rest, parts[i]->bytes, parts[i]->length);
    }
    for (size_t i = 0; i < rest.length; i++)
        hash = (hash ^ rest.bytes[i]) * UINT64_C(0x100000001b3);
    add(to, "rtrkept1", 8);
    add_long(to, hash);
    add(to, rest.bytes, rest.length);
}

/* A file of the earlier form is restored, with its steps back; data of a higher version need
 * another session then. */
static void test_old_file(void)
{
    static struct text file;
    struct text data = {.length = 0}, back = {.length = 0}, text = {.length = 0};
    add_prefix(&data, 1, 1, 1);
    add_prefix(&data, 1, 1, 2);
    add_end(&data, 1, SESSION, 6, usual);
    add_prefix(&back, 1, 0, 2);
    add_end(&back, 1, SESSION, 5, usual);
    rtr_server_init(&s);
    for (size_t count = 1; count < 3; count++) {
        file.length = text.length = 0;
        add_old_file(&file, (const struct text *const[]){&data, &back}, count);
        CHECK(restarts(&file) == RTR_UPDATE_TAKEN);
        CHECK(s.present.serial == 6 && s.payloads == 2 && s.kept_count == count - 1);
        CHECK(takes(whole(2, 7, 1, 3)) == RTR_UPDATE_VERSION);
        CHECK(takes(whole(0, 7, 1, 3)) == RTR_UPDATE_TAKEN);
        CHECK(takes(whole(1, 8, 1, 4)) == RTR_UPDATE_TAKEN && s.kept_count == count + 1);
        begins();
        asks_changes(1, SESSION, 6);
        says(whole(1, 8, 3, 4));
        leaves();
        add_end(&text, 2, SESSION + 1, 1, usual);
        CHECK(takes(&text) == RTR_UPDATE_TAKEN);
        CHECK(takes(whole(1, 9, 1, 3)) == RTR_UPDATE_LEFT);
        file.bytes[file.length - 1] ^= 1;
        CHECK(restarts(&file) == RTR_UPDATE_TORN && !s.present.has);
    }
    file.length = 16;
    CHECK(restarts(&file) == RTR_UPDATE_TORN);
    ends();
}

/* Saved data whose times RFC 8210 section 6 doesn't allow, as another program may have saved them,
 * aren't served. */
static void test_saved_times(void)
{
    static struct text file;
    static const uint32_t times[][3] = {{0, 600, 7200}, {3600, 600, 3600}};
    rtr_server_init(&s);
    for (size_t i = 0; i < 2; i++) {
        struct text data = {.length = 0};
        add_end(&data, 1, SESSION, 6, times[i]);
        file.length = 0;
        add_old_file(&file, (const struct text *const[]){&data}, 1);
        CHECK(restarts(&file) == RTR_UPDATE_TIMES && !s.present.has);
        CHECK(s.time_rule == (i ? RTR_TIME_RULE_ABOVE_REFRESH : RTR_TIME_RULE_REFRESH));
    }
    ends();
}

/* An older file than the last one, as from a backup, can't be told from it: the server serves its
 * data again, and knows no session that was left after it. A new session, which the page of
 * rtr_cache.h asks for, ends each connection and has routers load all data. */
static void test_backup(void)
{
    static struct text file, later;
    struct text other = {.length = 0};
    has_data(1);
    saves(&file, whole(1, 6, 1, 4));
    saves(&later, whole(1, 7, 1, 5));
    CHECK(restarts(&file) == RTR_UPDATE_TAKEN);
    CHECK(s.present.serial == 6 && s.kept_count == 1);
    begins();
    asks_changes(1, SESSION, 7); /* a router of the time after the backup */
    says_reset(1);
    asks_all(1);
    says(whole(1, 6, 1, 4));
    add_prefix(&other, 1, 1, 9);
    add_end(&other, 1, SESSION + 1, 7, usual);
    CHECK(takes(&other) == RTR_UPDATE_TAKEN);
    closes("the data are of a new session");
    begins();
    asks_changes(1, SESSION, 7);
    says_reset(1);
    leaves();
    for (uint32_t serial = 6; serial < 9; serial++)
        CHECK(takes(whole(1, serial, 1, 5)) == RTR_UPDATE_LEFT);
    ends();
}

/* If a byte is changed, or the file is truncated, nothing is loaded. */
static void test_torn(void)
{
    static struct text saved, torn;
    has_data(1);
    saves(&saved, whole(1, 6, 1, 4));
    ends();
    rtr_server_init(&s);
    for (size_t at = 0; at < 2 * saved.length; at++) {
        torn = saved;
        if (at < saved.length)
            torn.bytes[at] ^= 1;
        else
            torn.length = at - saved.length;
        CHECK(rtr_server_restore(&s, torn.bytes, torn.length) == RTR_UPDATE_TORN);
        CHECK(!s.present.has && s.kept_count == 0 && !s.held[0]);
    }
    CHECK(!strncmp(rtr_update_text(&s, RTR_UPDATE_TORN), "the saved file is damaged", 25));
    CHECK(rtr_server_restore(&s, saved.bytes, saved.length) == RTR_UPDATE_TAKEN);
    ends();
}

/* ---- memory */

/* One allocation fails: the data are the old or the new ones, and a connection ends with a reason.
 * Returns whether that allocation was reached. */
static bool denies(uint8_t version, size_t which)
{
    has_data(version);
    CHECK(takes(whole(1, 6, 1, 4)) == RTR_UPDATE_TAKEN);
    struct text next = *whole(2, 7, 1, 5);
    allocations = 0;
    denied = which;
    enum rtr_update update = takes(&next);
    CHECK(update == RTR_UPDATE_TAKEN || update == RTR_UPDATE_MEMORY);
    CHECK(s.present.serial == (update == RTR_UPDATE_TAKEN ? 7 : 6));
    CHECK(s.payloads == s.present.serial - 2);
    rtr_served_init(&v, &s, now);
    sent.length = 0;
    asks_changes(1, SESSION, 5);
    bool ended = runs() == RTR_SERVED_CLOSE, failed = allocations >= which;
    denied = 0;
    CHECK(ended == !sent.length);
    CHECK(ended || sent.bytes[1] == 3); /* a cache response, not a cache reset */
    if (ended)
        closes("no memory");
    else
        leaves();
    begins();
    asks_all(1);
    says(whole(1, s.present.serial, 1, s.present.serial - 2));
    asks_changes(1, SESSION, 5);
    says(whole(1, s.present.serial, 4, s.present.serial - 2));
    leaves();
    ends();
    return failed;
}

/* One allocation of a restart fails: it restores nothing, and the next try restores the data with
 * the changes from earlier ones. Returns whether that allocation was reached. */
static bool denies_restart(size_t which)
{
    static struct text saved;
    has_data(1);
    saves(&saved, whole(1, 6, 1, 4));
    ends();
    rtr_server_init(&s);
    allocations = 0;
    denied = which;
    enum rtr_update update = rtr_server_restore(&s, saved.bytes, saved.length);
    bool failed = allocations >= which;
    denied = 0;
    CHECK(update == (failed ? RTR_UPDATE_MEMORY : RTR_UPDATE_TAKEN));
    CHECK(s.present.has == !failed);
    if (failed)
        CHECK(rtr_server_restore(&s, saved.bytes, saved.length) == RTR_UPDATE_TAKEN);
    begins();
    asks_changes(1, SESSION, 5);
    says(whole(1, 6, 4, 4));
    leaves();
    ends();
    return failed;
}

/* Without memory for the report of a cache without data, a connection ends. */
static void test_no_report(void)
{
    rtr_server_init(&s);
    begins();
    allocations = 0;
    denied = 1;
    asks_all(1);
    closes("no memory");
    denied = 0;
    CHECK(allocations == 1);
    begins();
    asks_all(1);
    says_report(1, 2, 8);
    leaves();
    ends();
}

/* Without memory for a unit that is longer than the first buffer, a connection ends. */
static void test_no_input(void)
{
    struct text header = {.length = 0};
    add_header(&header, 1, 10, 1, 65535);
    has_data(1);
    begins();
    allocations = 0;
    denied = 1;
    comes(header.bytes, header.length);
    closes("no memory");
    denied = 0;
    CHECK(allocations == 1);
    ends();
}

static void test_memory(void)
{
    for (uint8_t version = 1; version < 3; version++)
        for (size_t which = 1; denies(version, which); which++)
            CHECK(which < 100);
    for (size_t which = 1; denies_restart(which); which++)
        CHECK(which < 100);
}

/* Routers that ask for the same data share one copy, which is that of the store if they ask in the
 * highest version. */
static void test_held(uint8_t version)
{
    static struct rtr_served many[100];
    struct rtr_part parts[2];
    size_t capacity, most = version == RTR_HIGHEST_VERSION ? 62000 : 2 * 62000;
    rtr_server_init(&s);
    CHECK(takes(whole(version, 4, 2, 3000)) == RTR_UPDATE_TAKEN);
    CHECK(takes(whole(version, 5, 1, 3000)) == RTR_UPDATE_TAKEN);
    for (size_t i = 0; i < 100; i++) {
        rtr_served_init(&many[i], &s, now);
        memcpy(rtr_served_room(&many[i], &capacity), "\1\2\0\0\0\0\0\x08", 8);
        rtr_served_room(&many[i], &capacity)[0] = version;
        rtr_served_received(&many[i], now, 8);
        CHECK(rtr_served_next(&many[i], now) == RTR_SERVED_WAIT);
        CHECK(rtr_served_output(&many[i], parts) == 2);
        CHECK(parts[1].length == 3000 * 20 + 24 && held < most);
    }
    for (size_t i = 0; i < 100; i++)
        rtr_served_free(&many[i]);
    ends();
}

/* Data of more than a huge page are in a file in memory, which is closed with the server, unless
 * file sizes are limited. */
static void test_filed(bool limited)
{
    enum { COUNT = 170000, LENGTH = COUNT * 20 + 24 };
    struct rlimit usual_limit, limit;
    struct rtr_part parts[2];
    uint8_t *table = malloc(LENGTH), *copy = malloc(LENGTH);
    for (uint32_t i = 0; i < COUNT; i++)
        memcpy(table + (size_t)i * 20, whole(1, 5, i, i)->bytes + 8, 20 + 24);
    getrlimit(RLIMIT_FSIZE, &usual_limit);
    limit = usual_limit;
    limit.rlim_cur = limited ? 1 << 20 : limit.rlim_cur;
    setrlimit(RLIMIT_FSIZE, &limit);
    rtr_server_init(&s);
    CHECK(rtr_server_update(&s, date, table, LENGTH) == RTR_UPDATE_TAKEN);
    rtr_server_saved(&s);
    stalls();
    setrlimit(RLIMIT_FSIZE, &usual_limit);
    CHECK(rtr_served_output(&v, parts) == 2 && parts[1].length == LENGTH);
    CHECK((parts[1].file < 0) == limited && !memcmp(parts[1].at, table, LENGTH));
    if (!limited) {
        CHECK(pread(parts[1].file, copy, LENGTH, (off_t)parts[1].place) == LENGTH);
        CHECK(!memcmp(copy, table, LENGTH));
    }
    rtr_served_free(&v);
    free(table);
    free(copy);
    ends();
    CHECK(limited || fcntl(parts[1].file, F_GETFD) < 0);
}

int main(void)
{
    test_times();
    test_kept();
    test_wrap();
    test_other_versions();
    test_updates();
    test_left();
    test_unsaved();
    test_refusals();
    test_waits();
    test_saved();
    test_old_file();
    test_saved_times();
    test_backup();
    test_torn();
    test_memory();
    test_no_report();
    test_no_input();
    test_held(1);
    test_held(2);
    test_filed(false);
    test_filed(true);
    return 0;
}
