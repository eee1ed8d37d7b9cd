/* A client (rtr_client.h) with a simulated clock, as an end of a connection
 * (tests/joined/README.md). */
#include "ends.h"
#include "rtr_client.h"

static struct rtr_client c;
static bool connected;

/* Sends queries and reports. */
static void sends(void)
{
    size_t length;
    const uint8_t *output = rtr_client_output(&c, &length);
    does_send("router", output, length);
    rtr_client_sent(&c, length);
}

static void shows(void)
{
    CHECK(rtr_client_has_data(&c, now));
    printf("%" PRId64 " shows { ", now);
    print_hex(c.data, c.data_length);
    puts(" }");
}

/* Runs the client until it waits. */
static void settle(void)
{
    for (;;) {
        enum rtr_client_event event = rtr_client_next(&c, now);
        if (event == RTR_CLIENT_WAIT || event == RTR_CLIENT_CLOSE)
            sends();
        if (event == RTR_CLIENT_WAIT)
            return;
        if (event == RTR_CLIENT_DATA)
            shows();
        connected = connected && event != RTR_CLIENT_CLOSE;
        static const char *const words[] = {[RTR_CLIENT_CONNECT] = "connects",
                                            [RTR_CLIENT_CLOSE] = "closes",
                                            [RTR_CLIENT_DROPPED] = "drops",
                                            [RTR_CLIENT_NO_DATA] = "no data",
                                            [RTR_CLIENT_FAILED] = NULL};
        if (words[event])
            does(words[event]);
    }
}

/* Advances the clock to this time. */
static void pass(int64_t time)
{
    while (c.wakes <= time) {
        now = c.wakes > now ? c.wakes : now;
        settle();
    }
    now = time;
}

/* Receives bytes, written in hexadecimal, in pieces that fit the client's buffer. */
static void comes(const char *hex)
{
    static uint8_t bytes[LONGEST_LINE / 2];
    size_t length = from_hex(bytes, sizeof bytes, hex), capacity, piece;
    for (size_t at = 0; connected && at < length; at += piece) {
        uint8_t *to = rtr_client_room(&c, &capacity);
        piece = length - at < capacity ? length - at : capacity;
        memcpy(to, bytes + at, piece);
        rtr_client_received(&c, piece);
        if (at + piece < length)
            settle();
    }
}

static void set(const char *key, uint64_t value)
{
    struct rtr_settings *s = &c.settings;
    if (!strcmp(key, "version"))
        s->highest = (uint8_t)value;
    else if (!strcmp(key, "chance"))
        s->chance = (uint16_t)value;
    else if (!strcmp(key, "most-bytes"))
        s->most_bytes = value;
    else
        *(!strcmp(key, "pause")            ? &s->pause
          : !strcmp(key, "connect-limit")  ? &s->connect_limit
          : !strcmp(key, "response-limit") ? &s->response_limit
          : !strcmp(key, "refresh")        ? &s->refresh
          : !strcmp(key, "retry")          ? &s->retry
          : !strcmp(key, "expire")         ? &s->expire
                                           : &s->most_units) = (uint32_t)value;
}

/* Carries out a step of the cache or the caller. */
static void take_step(const char *step)
{
    if (!strncmp(step, "cache> ", 7))
        comes(step + 7);
    else if (!strcmp(step, "cache accepts"))
        connected = true, rtr_client_connected(&c);
    else if (!strcmp(step, "caller asks"))
        rtr_client_ask_now(&c);
    else
        rtr_client_lost(&c, strcmp(step, "cache closes") ? "it broke" : NULL);
    settle();
}

static void line(char *text)
{
    int at = 0;
    int64_t time;
    char key[64];
    uint64_t value;
    if (!strncmp(text, "scene ", 6)) {
        rtr_client_free(&c);
        rtr_client_init(&c, 1);
        now = 0;
        connected = false;
    } else if (sscanf(text, "router %63s %" SCNu64, key, &value) == 2) {
        set(key, value);
    } else if (sscanf(text, "at %" SCNd64, &time) == 1) {
        pass(time);
        answers(c.wakes);
    } else {
        CHECK(sscanf(text, "%" SCNd64 " %n", &time, &at) == 1 && at);
        pass(time);
        take_step(text + at);
        answers(c.wakes);
    }
}

int main(void)
{
    each_line(line);
    rtr_client_free(&c);
}
