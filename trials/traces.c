// Events that follow the state of the session, so that every rule is met at its edges and not by luck alone.
#include "maker.h"

// With more slots in a job than this, only overlong completions bring the horizon on.
#define MANY_SLOTS 100

// From about here on h × H passes 64 bits, with the longest span.
#define FAR_CLOCK 31000000000u

// How a file leans, in percent of its steps.
struct leaning {
    uint64_t arrivals;
    uint64_t own;
    uint64_t clocks;
    uint64_t refused;
    uint64_t overlong;
    uint64_t late;
    unsigned places;
    uint64_t end_at;
};

// Tags have a chance of their own: what else a file has does not depend on them.
struct run {
    struct chance *c;
    struct chance tags;
    unsigned tag_mode;
    struct session s;
    struct trace *trace;
    struct leaning lean;
    uint64_t waiting_for;
};

// --- Values at the edges ---

static uint64_t queued_place(struct run *r)
{
    const struct stream *m = &r->s.streams[below(r->c, r->s.table.count)];
    return m->length == 0 ? r->s.head : m->places[below(r->c, m->length)];
}

// Ties need small numbers, distances that do not fit 63 bits need the ends of the range.
static uint64_t pick_place(struct run *r)
{
    static const uint64_t ends[] = {0, 1, 2, INT64_MAX - 1, INT64_MAX, (uint64_t)INT64_MAX + 1, (uint64_t)INT64_MAX + 2,
        UINT64_MAX - 2, UINT64_MAX - 1, UINT64_MAX};
    unsigned mode = percent(r->c, 75) ? r->lean.places : (unsigned)below(r->c, 6);
    uint64_t other = queued_place(r);
    switch (mode) {
    case 0:
        return below(r->c, 7);
    case 1:
        return r->s.head + below(r->c, 9) - 4;
    case 2:
        return ONE_OF(r->c, ends);
    case 3:
        return draw(r->c);
    case 4:
        return other;
    default:
        return 2 * r->s.head - other;
    }
}

// In one file of four all tags are 0, as in files from before there were tags; in the others most are few, at the ends of a
// byte and of its multiples, or any.
static uint32_t pick_tag(struct run *r)
{
    static const uint32_t ends[] = {0, 1, UINT8_MAX, UINT8_MAX + 1, UINT16_MAX, UINT16_MAX + 1, INT32_MAX,
        (uint32_t)INT32_MAX + 1, UINT32_MAX - 1, UINT32_MAX};
    unsigned mode = r->tag_mode == 0 || percent(&r->tags, 75) ? r->tag_mode : (unsigned)below(&r->tags, 4);
    switch (mode) {
    case 0:
        return 0;
    case 1:
        return (uint32_t)below(&r->tags, 4);
    case 2:
        return ONE_OF(&r->tags, ends);
    default:
        return (uint32_t)draw(&r->tags);
    }
}

// A duration after which the charge stands just at, below or past the last that leaves n more slots.
static uint64_t duration_to_edge(struct run *r)
{
    uint64_t i = r->s.disk_stream - 1;
    const struct stream *m = &r->s.streams[i];
    uint64_t earned = (session_horizon(&r->s) - m->release) * m->granted / r->s.table.reservations[i].period;
    uint64_t left = earned > m->charge ? earned - m->charge : 0;
    uint64_t slots = left / r->s.table.worst;
    uint64_t n = below(r->c, slots + 1 < 4 ? slots + 1 : 4);
    return left - n * r->s.table.worst + below(r->c, 3) - 1;
}

// A duration after which the charge stands just at, below or past so many granted budgets, and so carries nothing or is
// carried over several closings; or one worst-case time below it, so that the last of those jobs has a slot.
static uint64_t duration_to_budgets(struct run *r)
{
    const struct stream *m = &r->s.streams[r->s.disk_stream - 1];
    uint64_t budgets = 1 + below(r->c, 5);
    uint64_t slot = budgets > 1 && percent(r->c, 30) ? r->s.table.worst : 0;
    return budgets * m->granted - m->charge - slot + below(r->c, 3) - 1;
}

static uint64_t pick_duration(struct run *r)
{
    uint64_t worst = r->s.table.worst;
    uint64_t to_end = SESSION_END - r->s.clock;
    if (to_end <= DURATION_MAX && percent(r->c, 30))
        return to_end + below(r->c, 2);
    uint64_t edge = percent(r->c, 40) ? duration_to_budgets(r) : duration_to_edge(r);
    if (edge > 0 && edge <= DURATION_MAX && percent(r->c, 40) && (edge <= worst || percent(r->c, r->lean.overlong)))
        return edge;
    if (percent(r->c, r->lean.overlong)) {
        uint64_t more = worst + spread(r->c, worst);
        uint64_t any = spread(r->c, DURATION_MAX);
        uint64_t over[] = {worst + 1, worst + 1, more, 2 * worst, DURATION_MAX, any};
        return ONE_OF(r->c, over);
    }
    uint64_t plain[] = {worst, worst, worst, 1, 1 + below(r->c, worst), worst > 1 ? worst - 1 : 1, (worst + 1) / 2};
    return ONE_OF(r->c, plain);
}

static uint64_t bad_duration(struct run *r)
{
    static const uint64_t bad[] = {0, DURATION_MAX + 1, UINT64_MAX, UINT64_MAX - SESSION_END};
    return ONE_OF(r->c, bad);
}

static uint64_t pick_stream(struct run *r)
{
    return 1 + below(r->c, r->s.table.count);
}

static uint64_t bad_stream(struct run *r)
{
    uint64_t bad[] = {0, r->s.table.count + 1, 255, 128 + below(r->c, 128)};
    return ONE_OF(r->c, bad);
}

// At L, one to either side of it, the present, a deadline, and any later time.
static uint64_t pick_time(struct run *r)
{
    uint64_t now = r->s.clock;
    uint64_t latest = session_latest_safe(&r->s);
    uint64_t early = latest > now ? now + below(r->c, latest - now) : now;
    uint64_t later = now + spread(r->c, 2 * r->s.table.span);
    uint64_t past = latest + spread(r->c, 1000);
    uint64_t deadline = r->s.streams[below(r->c, r->s.table.count)].deadline;
    uint64_t plain[] = {latest, latest, latest - 1, now, now + 1, early};
    uint64_t late[] = {latest + 1, latest + 1, now, session_horizon(&r->s), later, deadline, past};
    uint64_t time = percent(r->c, r->lean.late) ? ONE_OF(r->c, late) : ONE_OF(r->c, plain);
    return time < now && percent(r->c, 90) ? now : time;
}

static uint64_t bad_time(struct run *r)
{
    uint64_t bad[] = {r->s.clock - 1, r->s.clock - 1, 0, SESSION_END + 1, UINT64_MAX, below(r->c, r->s.clock + 1)};
    return ONE_OF(r->c, bad);
}

// --- Steps ---

static struct reply step(struct run *r, uint8_t kind, uint64_t stream, uint64_t value)
{
    uint32_t tag = kind == EVENT_ARRIVAL ? pick_tag(r) : 0;
    r->trace->events[r->trace->count++] = (struct event){kind, (uint8_t)stream, tag, value};
    switch (kind) {
    case EVENT_ARRIVAL:
        return session_arrival(&r->s, stream, value, tag);
    case EVENT_TURN:
        return session_turn(&r->s);
    case EVENT_OWN_TURN:
        return session_own_turn(&r->s, stream, value);
    case EVENT_DONE:
        return session_done(&r->s, value);
    default:
        return session_clock(&r->s, value);
    }
}

static void arrive(struct run *r)
{
    uint64_t stream = pick_stream(r);
    step(r, EVENT_ARRIVAL, stream, pick_place(r));
}

static void arrive_nowhere(struct run *r)
{
    uint64_t stream = bad_stream(r);
    step(r, EVENT_ARRIVAL, stream, pick_place(r));
}

// Full queues are met by `flood`; elsewhere they would make most arrivals refused ones.
static bool roomy(const struct run *r)
{
    uint64_t queued = 0;
    for (uint32_t i = 0; i < r->s.table.count; i++)
        queued += r->s.streams[i].length;
    return queued < (uint64_t)r->s.table.count * QUEUE_MAX * 3 / 4;
}

static void turn(struct run *r)
{
    struct reply reply = step(r, EVENT_TURN, 0, 0);
    if (reply.number == WAIT)
        r->waiting_for = reply.value;
}

// The last of the set, one past it, or any index.
static void own_turn(struct run *r)
{
    uint64_t stream = pick_stream(r);
    for (int tries = 0; tries < 8 && session_filled(&r->s, stream) == 0; tries++)
        stream = pick_stream(r);
    uint64_t set = session_filled(&r->s, stream);
    uint64_t index = set == 0 ? 0 : percent(r->c, 40) ? set - 1 : below(r->c, set);
    step(r, EVENT_OWN_TURN, stream, index);
}

static void refused_busy(struct run *r)
{
    uint64_t stream = percent(r->c, 50) ? bad_stream(r) : pick_stream(r);
    switch (below(r->c, 6)) {
    case 0:
        turn(r);
        break;
    case 1:
        step(r, EVENT_OWN_TURN, stream, below(r->c, 3));
        break;
    case 2:
        step(r, EVENT_CLOCK, 0, percent(r->c, 50) ? bad_time(r) : pick_time(r));
        break;
    case 3:
        arrive_nowhere(r);
        break;
    default:
        step(r, EVENT_DONE, 0, bad_duration(r));
    }
}

static void refused_idle(struct run *r)
{
    uint64_t stream = pick_stream(r);
    uint64_t nowhere = bad_stream(r);
    uint64_t indexes[] = {session_filled(&r->s, stream), session_filled(&r->s, stream), r->s.streams[stream - 1].length,
        QUEUE_MAX, UINT64_MAX, (uint64_t)1 << 32};
    switch (below(r->c, 6)) {
    case 0:
        step(r, EVENT_DONE, 0, percent(r->c, 50) ? bad_duration(r) : 1 + below(r->c, r->s.table.worst));
        break;
    case 1:
        step(r, EVENT_OWN_TURN, nowhere, percent(r->c, 50) ? 0 : ONE_OF(r->c, indexes));
        break;
    case 2:
    case 3:
        step(r, EVENT_OWN_TURN, stream, ONE_OF(r->c, indexes));
        break;
    case 4:
        arrive_nowhere(r);
        break;
    default:
        step(r, EVENT_CLOCK, 0, bad_time(r));
    }
}

static void busy_step(struct run *r)
{
    if (percent(r->c, r->lean.refused))
        refused_busy(r);
    else if (percent(r->c, r->lean.arrivals / 2) && roomy(r))
        arrive(r);
    else
        step(r, EVENT_DONE, 0, pick_duration(r));
}

// After a wait the clock most often goes to the L that was given, so that slots expire.
static void after_wait(struct run *r)
{
    uint64_t latest = r->waiting_for;
    r->waiting_for = 0;
    if (percent(r->c, r->lean.late / 2))
        latest += percent(r->c, 70) ? 1 : spread(r->c, 1000);
    else if (percent(r->c, 10))
        latest -= 1;
    step(r, EVENT_CLOCK, 0, latest);
}

static void idle_step(struct run *r)
{
    if (percent(r->c, r->lean.refused))
        refused_idle(r);
    else if (percent(r->c, r->lean.arrivals) && roomy(r))
        arrive(r);
    else if (r->waiting_for != 0 && percent(r->c, 85))
        after_wait(r);
    else if (percent(r->c, r->lean.own))
        own_turn(r);
    else if (percent(r->c, r->lean.clocks))
        step(r, EVENT_CLOCK, 0, pick_time(r));
    else
        turn(r);
}

// Fills one queue to the brim and past it.
static void flood(struct run *r, size_t most)
{
    uint64_t stream = pick_stream(r);
    for (int n = 0; n < QUEUE_MAX + 2 && r->trace->count < most; n++)
        step(r, EVENT_ARRIVAL, stream, pick_place(r));
}

// One request to each stream at once, on either side of the head: ties over streams that share a deadline.
static void volley(struct run *r, size_t most)
{
    uint64_t far = below(r->c, 4);
    uint64_t head = r->s.head;
    for (uint64_t stream = r->s.table.count; stream >= 1 && r->trace->count < most; stream--)
        step(r, EVENT_ARRIVAL, stream, percent(r->c, 50) ? head + far : head - far);
}

// A clock close to the end of time, from which completions and reports soon pass it.
static void jump_to_end(struct run *r)
{
    static const uint64_t before[] = {0, 1, 2, 10, 1000, DURATION_MAX};
    uint64_t early = percent(r->c, 60) ? ONE_OF(r->c, before) : spread(r->c, 3 * (uint64_t)PERIOD_MAX);
    step(r, EVENT_CLOCK, 0, SESSION_END - early);
    r->lean.end_at = 0;
}

static struct leaning lean(struct chance *c, size_t most)
{
    static const uint64_t rates[] = {0, 5, 15, 30, 50};
    static const uint64_t rare[] = {0, 0, 2, 10, 40};
    struct leaning l;
    l.arrivals = ONE_OF(c, rates);
    l.own = percent(c, 50) ? 0 : ONE_OF(c, rates);
    l.clocks = ONE_OF(c, rare);
    l.refused = ONE_OF(c, rare) / 2;
    l.overlong = ONE_OF(c, rare);
    l.late = ONE_OF(c, rare);
    l.places = (unsigned)below(c, 6);
    l.end_at = percent(c, 12) ? 1 + below(c, most + 1) : 0;
    return l;
}

// Events for a file whose table is refused: their layout is sound and nothing else counts.
static void any_events(struct chance *c, size_t most, struct trace *trace)
{
    while (trace->count < most) {
        uint8_t kind = (uint8_t)(1 + below(c, 5));
        bool own = kind == EVENT_ARRIVAL || kind == EVENT_OWN_TURN;
        uint8_t stream = own ? (uint8_t)below(c, 10) : 0;
        uint64_t value = kind == EVENT_TURN ? 0 : below(c, 100000);
        uint32_t tag = kind == EVENT_ARRIVAL ? (uint32_t)draw(c) : 0;
        trace->events[trace->count++] = (struct event){kind, stream, tag, value};
    }
}

// The slots of a whole job, of the stream that has the most.
static uint64_t most_slots(const struct session *s)
{
    uint64_t most = 0;
    for (uint32_t i = 0; i < s->table.count; i++) {
        uint64_t slots = s->streams[i].granted / s->table.worst;
        most = slots > most ? slots : most;
    }
    return most;
}

// A request is at the disk at the end of time: no duration can end it.
static bool stuck(const struct session *s)
{
    return s->disk_stream != 0 && s->clock == SESSION_END;
}

static void follow(struct run *r, size_t most)
{
    while (r->trace->count < most) {
        if (stuck(&r->s) && percent(r->c, 5))
            return;
        if (r->lean.end_at != 0 && r->trace->count >= r->lean.end_at && r->s.disk_stream == 0)
            jump_to_end(r);
        else if (below(r->c, 400) == 0)
            flood(r, most);
        else if (percent(r->c, 2))
            volley(r, most);
        else if (r->s.disk_stream != 0)
            busy_step(r);
        else
            idle_step(r);
    }
}

// Opens the session that the events follow; false if the table is refused.
static bool opened(struct run *r, const struct table *t, enum order order)
{
    int64_t margin;
    r->tags = (struct chance){~r->c->state};
    r->tag_mode = (unsigned)below(&r->tags, 4);
    return session_open(&r->s, t, order, &margin) == ADMITTED;
}

void make_trace(struct chance *c, const struct table *t, enum order order, size_t most, struct trace *trace)
{
    struct run r = {.c = c, .trace = trace, .lean = lean(c, most)};
    trace->count = 0;
    if (!opened(&r, t, order)) {
        any_events(c, most, trace);
        return;
    }
    if (most_slots(&r.s) > MANY_SLOTS && percent(c, 60))
        r.lean.overlong = 40;
    follow(&r, most);
}

void make_far_trace(struct chance *c, const struct table *t, enum order order, size_t most, struct trace *trace)
{
    struct run r = {.c = c, .trace = trace};
    trace->count = 0;
    if (!opened(&r, t, order))
        return;
    step(&r, EVENT_CLOCK, 0, FAR_CLOCK + below(c, FAR_CLOCK));
    while (trace->count < most && r.waiting_for == 0)
        turn(&r);
    // From here on the horizon is ahead of the clock, and L is asked for.
    r.lean = lean(c, most);
    r.lean.end_at = 0;
    follow(&r, most);
}
