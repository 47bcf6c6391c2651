// Writes the trace of a lively session of eight streams to standard output: FILE_EVENTS events of all calls.
// A session of the second engine is kept at hand, so that most calls are ones that a recorder would make.
#include "../second/engine.h"

#include <stdio.h>
#include <stdlib.h>

#define FILE_EVENTS 4000

enum kind { ARRIVAL = 1, TURN, OWN_TURN, FINISHED, TIME };

struct event {
    uint8_t kind, stream;
    uint32_t tag;
    uint64_t value;
};

static uint64_t state = 20;

// A number below a limit, the same on every machine.
static uint64_t below(uint64_t limit)
{
    state = state * 6364136223846793005u + 1442695040888963407u;
    return (state >> 33) % limit;
}

// C leaves the order of initializers open, so none of them holds two draws.
static struct event for_a_stream(const struct session *s, enum kind kind, uint64_t limit)
{
    uint8_t stream = (uint8_t)(1 + below(s->table.count));
    return (struct event){(uint8_t)kind, stream, 0, below(limit)};
}

// Each request has a tag that no other has.
static struct event arrival(const struct session *s)
{
    static uint32_t tag;
    struct event e = for_a_stream(s, ARRIVAL, 1000000);
    e.tag = ++tag;
    return e;
}

// While a request is at the disk most calls are its completion, one in fifty of them overlong, and the rest arrivals; a turn is refused.
static struct event while_busy(const struct session *s)
{
    uint64_t dice = below(100);
    bool overlong = below(50) == 0;
    if (dice < 72)
        return (struct event){FINISHED, 0, 0, overlong ? s->table.worst + 1 : 1 + below(s->table.worst)};
    return dice < 98 ? arrival(s) : (struct event){TURN, 0, 0, 0};
}

// A caller that was told to wait comes back at the latest safe moment or before; the others ask, choose or queue.
static struct event while_idle(const struct session *s, bool waiting)
{
    uint64_t dice = below(100);
    uint64_t latest = session_latest_safe(s);
    if (waiting && s->clock < latest)
        return dice < 30 ? arrival(s) : (struct event){TIME, 0, 0, dice < 65 ? latest : s->clock + below(latest - s->clock)};
    if (dice < 20)
        return arrival(s);
    if (dice < 30)
        return for_a_stream(s, OWN_TURN, 2);
    return (struct event){TURN, 0, 0, 0};
}

static struct reply call(struct session *s, struct event e)
{
    switch (e.kind) {
    case ARRIVAL:
        return session_arrival(s, e.stream, e.value, e.tag);
    case TURN:
        return session_turn(s);
    case OWN_TURN:
        return session_own_turn(s, e.stream, e.value);
    case FINISHED:
        return session_done(s, e.value);
    default:
        return session_clock(s, e.value);
    }
}

static void put(uint64_t number, int width)
{
    for (int i = 0; i < width; i++)
        putchar((int)(number >> 8 * i & 255));
}

// bench/long W H k (e p)..: the events for this table.
int main(int words, char **word)
{
    struct table t = {0};
    t.worst = (uint32_t)atoi(word[1]);
    t.span = (uint32_t)atoi(word[2]);
    t.padding = (uint32_t)atoi(word[3]);
    for (int i = 4; i + 1 < words; i += 2)
        t.reservations[t.count++] = (struct reservation){(uint32_t)atoi(word[i]), (uint32_t)atoi(word[i + 1])};
    struct session s;
    int64_t margin;
    if (session_open(&s, &t, ORDER_NEAREST, &margin) != ADMITTED)
        return 1;
    bool waiting = false;
    for (int i = 0; i < FILE_EVENTS; i++) {
        struct event e = s.disk_stream != 0 ? while_busy(&s) : while_idle(&s, waiting);
        enum number number = call(&s, e).number;
        if (e.kind == TURN)
            waiting = number == WAIT;
        put(e.kind, 1);
        put(e.stream, 1);
        put(e.tag, 4);
        put(0, 2);
        put(e.value, 8);
    }
    return 0;
}
