/* A cache (rtr_cache.h) with a simulated clock, as an end of a connection
 * (tests/joined/README.md). */
#include "ends.h"
#include "rtr_cache.h"

static struct rtr_server server;
static struct rtr_served served;
static bool connected, broken;
static uint64_t readable; /* how many more bytes the router reads */
static uint8_t received[1 << 17];
static size_t received_length, read_length; /* read: by the connection */
static bool end_received;                   /* the router has closed */
static int64_t date;                        /* when the scene began, in milliseconds since 1970 */
static uint8_t *saved;                      /* the file that the cache saved last */
static size_t saved_length;

/* Sends the connection's output, as far as the router reads it; drops it if the connection broke.
 * Returns whether there was any. */
static bool sends(void)
{
    static uint8_t bytes[1 << 17];
    struct rtr_part parts[2];
    size_t length = 0;
    int count = rtr_served_output(&served, parts);
    for (int i = 0; i < count; i++) {
        CHECK(parts[i].length <= sizeof bytes - length);
        memcpy(bytes + length, parts[i].at, parts[i].length);
        length += parts[i].length;
    }
    if (!broken) {
        length = length < readable ? length : (size_t)readable;
        readable -= length;
        does_send("cache", bytes, length);
    }
    rtr_served_sent(&served, now, length);
    return length > 0;
}

/* Lets the connection read received bytes, as many as fit. Returns whether it read. */
static bool reads(void)
{
    size_t most, left = received_length - read_length;
    uint8_t *to = rtr_served_room(&served, &most);
    if (most == 0 || (left == 0 && !end_received))
        return false;
    most = left < most ? left : most;
    memcpy(to, received + read_length, most);
    read_length += most;
    if (most > 0) {
        rtr_served_received(&served, now, most);
    } else {
        end_received = false;
        rtr_served_lost(&served, NULL);
    }
    return true;
}

/* Runs the connection until it waits. The router reads the last report at once, and closes. */
static void settle(void)
{
    while (connected) {
        bool waits = rtr_served_next(&served, now) == RTR_SERVED_WAIT;
        if (waits && !sends() && !reads())
            return;
        if (waits)
            continue;
        does("closes");
        rtr_served_free(&served);
        connected = false;
    }
}

/* Returns when the connection acts by itself; never without a connection. */
static int64_t wakes(void)
{
    return connected ? served.wakes : INT64_MAX;
}

/* Advances the clock to this time. */
static void pass(int64_t time)
{
    while (wakes() <= time) {
        now = served.wakes > now ? served.wakes : now;
        settle();
    }
    now = time;
}

static void connects(bool beyond)
{
    uint32_t most = server.settings.most_connections;
    server.settings.most_connections = beyond ? 0 : most;
    rtr_served_init(&served, &server, now);
    server.settings.most_connections = most;
    connected = true;
    broken = end_received = false;
    received_length = read_length = 0;
    readable = UINT64_MAX;
}

/* Receives these bytes. */
static void comes(const char *hex)
{
    if (received_length == read_length)
        received_length = read_length = 0;
    received_length += from_hex(received + received_length, sizeof received - received_length, hex);
}

/* Saves the pending data, and lets the server serve them. */
static void saves_all(void)
{
    struct rtr_store_head head;
    size_t length;
    const uint8_t *store = rtr_server_to_save(&server, &head, &length);
    if (!store)
        return;
    saved_length = sizeof head + length;
    saved = realloc(saved, saved_length);
    CHECK(saved != NULL);
    memcpy(saved, &head, sizeof head);
    memcpy(saved + sizeof head, store, length);
    rtr_server_saved(&server);
}

/* Gives the server these data. It refuses data of a session that it left: if a scene returns to
 * such a session, the server first forgets which sessions it left. */
static void has(const char *hex)
{
    static uint8_t bytes[1 << 17];
    size_t length = from_hex(bytes, sizeof bytes, hex);
    enum rtr_update update = rtr_server_update(&server, date + now, bytes, length);
    if (update == RTR_UPDATE_LEFT) {
        rtr_stores_new(&server.stores);
        update = rtr_server_update(&server, date + now, bytes, length);
    }
    CHECK(update == RTR_UPDATE_TAKEN || update == RTR_UPDATE_SAME);
    saves_all();
}

static void saves(const char *path)
{
    if (!server.present.has)
        return;
    FILE *file = fopen(path, "wb");
    CHECK(file && fwrite(saved, 1, saved_length, file) == saved_length);
    CHECK(fclose(file) == 0);
}

static void restores(const char *path)
{
    struct cases kept = read_file(path);
    CHECK(rtr_server_restore(&server, kept.bytes, kept.length) == RTR_UPDATE_TAKEN);
    saved = realloc(saved, kept.length);
    CHECK(saved != NULL);
    memcpy(saved, kept.bytes, kept.length);
    saved_length = kept.length;
    free((void *)kept.bytes);
}

/* Drops the changes since this serial number and since earlier ones. */
static void forgets(uint32_t serial)
{
    size_t index = 0;
    while (index < server.kept_count && server.kept[index] != serial)
        index++;
    CHECK(index < server.kept_count);
    server.kept_count = index;
}

/* Carries out a step of the router or the data. */
static void take_step(const char *step)
{
    static const char *const starts[] = {"router> ",        "data {",        "forgets ",
                                         "router connects", "router closes", "router breaks",
                                         "saves ",          "restores ",     "router takes "};
    enum { SENDS, DATA, FORGETS, CONNECTS, CLOSES, BREAKS, SAVES, RESTORES, TAKES, STARTS };
    unsigned which = 0;
    while (which < STARTS && strncmp(step, starts[which], strlen(starts[which])) != 0)
        which++;
    CHECK(which < STARTS);
    const char *rest = step + strlen(starts[which]);
    if (which == SENDS)
        comes(rest);
    else if (which == DATA)
        has(rest);
    else if (which == FORGETS)
        forgets((uint32_t)strtoul(rest, NULL, 10));
    else if (which == CONNECTS)
        connects(rest[0] != 0);
    else if (which == SAVES)
        saves(rest);
    else if (which == RESTORES)
        restores(rest);
    else if (which == TAKES)
        readable = strtoull(rest, NULL, 10);
    else if (which == CLOSES)
        end_received = true;
    else if (connected) {
        broken = true;
        rtr_served_lost(&served, "it broke");
    }
    settle();
}

static void set(const char *key, uint64_t number)
{
    uint32_t value = (uint32_t)number;
    if (!strcmp(key, "refuses"))
        server.settings.cache.refuses = true;
    else if (!strcmp(key, "first-limit"))
        server.settings.cache.first_limit = value;
    else if (!strcmp(key, "idle-limit"))
        server.settings.cache.idle_limit = value;
    else if (!strcmp(key, "pause"))
        server.settings.cache.pause = value;
    else if (!strcmp(key, "keep-bytes"))
        server.settings.keep_bytes = value;
    else if (!strcmp(key, "date"))
        date = (int64_t)number;
    else
        CHECK(!strcmp(key, "usual"));
}

/* Ends the scene. */
static void ends(void)
{
    if (connected)
        rtr_served_free(&served);
    rtr_server_free(&server);
}

/* Begins a scene, with a cache without data. */
static void begins(void)
{
    ends();
    rtr_server_init(&server);
    now = 0;
    connected = false;
}

static void line(char *text)
{
    int at = 0;
    int64_t time;
    uint64_t value = 0;
    char key[64];
    if (!strncmp(text, "scene ", 6)) {
        begins();
    } else if (sscanf(text, "cache %63s %" SCNu64, key, &value) >= 1) {
        set(key, value);
    } else if (sscanf(text, "at %" SCNd64, &time) == 1) {
        pass(time);
        answers(wakes());
    } else {
        CHECK(sscanf(text, "%" SCNd64 " %n", &time, &at) == 1 && at);
        pass(time);
        take_step(text + at);
        answers(wakes());
    }
}

int main(void)
{
    rtr_server_init(&server);
    each_line(line);
    ends();
    free(saved);
}
