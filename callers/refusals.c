/* Calls every function of the library with bad input. A refusal leaves every byte as it was, and what is not refused is what the second engine makes of it. */
#include <stddef.h>
#include <stdio.h>
#include <string.h>

#include "engine.h"
#include "hold.h"
#include "yerbagunt.h"

static int is_refusal(uint64_t number) { return number < YERBAGUNT_ARRIVED || number == YERBAGUNT_UNSOUND; }

/* The second engine's session of an image, where its numbers fit. */
static int to_second(const struct yerbagunt_session *i, struct session *s)
{
    memset(s, 0, sizeof *s);
    if (i->count > UINT32_MAX)
        return 0;
    s->table.worst = i->worst;
    s->table.span = i->span;
    s->table.padding = i->padding;
    s->table.count = (uint32_t)i->count;
    s->order = i->order;
    s->margin = i->margin;
    s->horizon = i->horizon;
    s->remainders = i->remainders;
    s->clock = i->clock;
    s->head = i->head;
    s->disk_stream = i->served;
    s->disk_place = i->place;
    s->disk_tag = i->tag;
    for (int n = 0; n < STREAM_MAX; n++) {
        const struct yerbagunt_stream *x = &i->streams[n];
        s->table.reservations[n] = (struct reservation){x->reserved, x->period};
        struct stream *y = &s->streams[n];
        *y = (struct stream){.granted = x->granted, .release = x->release, .deadline = x->deadline, .charge = x->charge, .expired = x->expired, .start = x->start, .length = x->queued};
        y->last = (struct record){.charge = x->last.charge, .clock = x->last.closed, .deadline = x->last.deadline, .expired = x->last.expired, .start = x->last.start};
        memcpy(y->places, x->places, sizeof x->places);
        memcpy(y->tags, x->tags, sizeof x->tags);
    }
    return 1;
}

/* The calls that are tried on each session: streams 0, 1, 2, 255 and beyond, and extreme numbers. */
struct trial {
    int kind;
    uint64_t stream, value;
    uint32_t tag;
};

static const struct trial trials[] = {
    {1, 0, 5, 1}, {1, 1, 0, 0}, {1, 2, UINT64_MAX, UINT32_MAX}, {1, 255, 1, UINT32_MAX}, {1, UINT64_MAX, 1, 1},
    {2, 0, 0, 0}, {3, 0, 0, 0}, {3, 1, 0, 0}, {3, 2, 1, 0}, {3, 255, UINT64_MAX, 0},
    {4, 0, 0, 0}, {4, 0, 1, 0}, {4, 0, 10000000, 0}, {4, 0, 10000001, 0}, {4, 0, UINT64_MAX, 0},
    {5, 0, 0, 0}, {5, 0, 200000, 0}, {5, 0, 1000000000000, 0}, {5, 0, 1000000000001, 0}, {5, 0, UINT64_MAX, 0},
};
#define TRIALS (sizeof trials / sizeof trials[0])

static struct yerbagunt_reply called(struct yerbagunt_session *s, const struct trial *t)
{
    switch (t->kind) {
    case 1:
        return yerbagunt_arrival(s, t->stream, t->value, t->tag);
    case 2:
        return yerbagunt_turn(s);
    case 3:
        return yerbagunt_own_turn(s, t->stream, t->value);
    case 4:
        return yerbagunt_done(s, t->value);
    default:
        return yerbagunt_clock(s, t->value);
    }
}

static struct reply second(struct session *s, const struct trial *t)
{
    switch (t->kind) {
    case 1:
        return session_arrival(s, t->stream, t->value, t->tag);
    case 2:
        return session_turn(s);
    case 3:
        return session_own_turn(s, t->stream, t->value);
    case 4:
        return session_done(s, t->value);
    default:
        return session_clock(s, t->value);
    }
}

static unsigned long met[32];
static unsigned long asks, asks_refused;

/* The ask agrees with the second engine's, whatever its three numbers are. */
static void ask(uint64_t horizon, int64_t remainders, uint64_t span)
{
    uint64_t moment;
    struct yerbagunt_moment m = yerbagunt_latest(horizon, remainders, span);
    hold(m.number == (uint64_t)latest_asked(horizon, remainders, span, &moment) && m.at == moment, "the ask is the second engine's", asks);
    asks++;
    asks_refused += m.number != YERBAGUNT_OK;
}

/* A session is asked by three of its numbers, sound or not. What fits is what ends by the moment told, and is then no late report. */
static void ask_session(const struct yerbagunt_session *s, int sound, unsigned long at)
{
    struct yerbagunt_moment latest = yerbagunt_latest_of(s), told = yerbagunt_latest(s->horizon, s->remainders, s->span);
    ask(s->horizon, s->remainders, s->span);
    hold(latest.number == told.number && latest.at == told.at, "a session is asked by its horizon, its sum and its span", at);
    const uint64_t left = latest.at - s->clock, lengths[] = {0, 1, left - 1, left, left + 1, UINT64_MAX - s->clock, UINT64_MAX};
    for (size_t i = 0; i < sizeof lengths / sizeof lengths[0]; i++) {
        unsigned __int128 end = (unsigned __int128)s->clock + lengths[i];
        int fits = s->served == 0 && latest.number == YERBAGUNT_OK && end <= latest.at;
        hold(yerbagunt_fits(s, lengths[i]) == fits, "what ends by the latest safe moment fits, while nothing is at the disk", at);
        if (sound && s->served == 0 && end <= SESSION_END) {
            struct yerbagunt_session later = *s;
            uint64_t number = fits || lengths[i] == 0 ? YERBAGUNT_CLOCK : YERBAGUNT_LATE;
            hold(yerbagunt_clock(&later, (uint64_t)end).number == number, "the report after what fits is not late, and any other is", at);
        }
    }
}

/* What is shown of one session, and told of its latest safe moment. */
static void try_shown(const struct yerbagunt_session *given, unsigned long at)
{
    struct yerbagunt_session probe = *given;
    int sound = yerbagunt_arrival(&probe, 0, 0, 0).number != YERBAGUNT_UNSOUND;
    struct yerbagunt_view v = yerbagunt_view(*given);
    hold(v.number == (sound ? YERBAGUNT_OK : YERBAGUNT_UNSOUND), "a session is shown exactly if it is sound", at);
    hold(sound ? v.clock == given->clock && v.margin == given->margin : (v.clock | v.horizon | v.latest | (uint64_t)v.margin) == 0, "what is shown of an unsound session is 0", at);
    ask_session(given, sound, at);
    struct session seen;
    if (sound && to_second(given, &seen)) {
        hold(v.horizon == session_horizon(&seen) && v.latest == session_latest_safe(&seen), "horizon and latest safe moment are the second engine's", at);
        hold(yerbagunt_latest_of(given).number == YERBAGUNT_OK && yerbagunt_latest_of(given).at == v.latest, "a sound session is asked for the moment that is shown", at);
    }
    for (uint64_t n = 0; n < 10; n++) {
        uint64_t stream = n == 9 ? 255 : n;
        uint64_t number = !sound ? YERBAGUNT_UNSOUND : stream == 0 || stream > given->count ? YERBAGUNT_NO_STREAM : YERBAGUNT_OK;
        struct yerbagunt_state x = yerbagunt_stream(*given, stream);
        struct yerbagunt_closing j = yerbagunt_last_job(*given, stream);
        struct yerbagunt_stream none;
        memset(&none, 0, sizeof none);
        const struct yerbagunt_stream *want = number == YERBAGUNT_OK ? &given->streams[stream - 1] : &none;
        hold(x.number == number && memcmp(&x.stream, want, sizeof none) == 0, "a stream is shown as it is", at);
        hold(j.number == number && memcmp(&j.job, &want->last, sizeof j.job) == 0, "a last job is shown as it is", at);
    }
}

/* Every call on a copy of one session. */
static void try_all(const struct yerbagunt_session *given, unsigned long at)
{
    for (size_t k = 0; k < TRIALS; k++) {
        struct yerbagunt_session s = *given;
        struct session other, after;
        struct yerbagunt_reply r = called(&s, &trials[k]);
        hold(r.number < 32, "the reply has a number of the table", at);
        hold(s.margin == given->margin && s.order == given->order, "no call changes the margin or the order", at);
        met[r.number & 31]++;
        if (is_refusal(r.number)) {
            hold(memcmp(&s, given, sizeof s) == 0, "a refusal left every byte as it was", at);
            hold(r.value == 0 && r.tag == 0 && r.stream == trials[k].stream, "a refusal has value 0, tag 0 and the call's own stream", at);
        }
        if (to_second(given, &other)) {
            struct reply q = second(&other, &trials[k]);
            hold(q.number == r.number, "the number is the second engine's", at);
            hold(is_refusal(r.number) || (q.stream == r.stream && q.value == r.value && q.tag == r.tag), "the stream, the value and the tag are the second engine's", at);
            hold(to_second(&s, &after) && memcmp(&other, &after, sizeof after) == 0, "the session is the second engine's", at);
        } else {
            hold(r.number == YERBAGUNT_UNSOUND, "numbers that stand for no session are refused 31", at);
        }
    }
    try_shown(given, at);
}

/* Every call on a session with a wrong number in a cell. */
static void try_wrong(const struct yerbagunt_session *given, size_t cell)
{
    unsigned long before = met[YERBAGUNT_UNSOUND];
    try_all(given, cell);
    hold(met[YERBAGUNT_UNSOUND] - before == TRIALS, "every call is refused 31 where a cell is not what follows from the others", cell);
}

/* Copies of one session with another number in a cell of eight bytes: one more, one less, a span more and less, 0, of the other sign, and the ends of both types. Answers how many. */
static unsigned long try_cell(const struct yerbagunt_session *given, size_t cell)
{
    uint64_t right;
    memcpy(&right, (const uint8_t *)given + cell, sizeof right);
    const uint64_t numbers[] = {right + 1, right - 1, right + given->span, right - given->span, 0, -right, INT64_MAX, (uint64_t)INT64_MIN, UINT64_MAX};
    unsigned long many = 0;
    for (size_t i = 0; i < sizeof numbers / sizeof numbers[0]; i++) {
        struct yerbagunt_session s = *given;
        if (numbers[i] == right)
            continue;
        memcpy((uint8_t *)&s + cell, &numbers[i], sizeof right);
        try_wrong(&s, cell);
        many++;
    }
    return many;
}

/* Copies of one session in which a cell is not what follows from the others: its margin, its horizon or its sum; or horizon and sum, where an ask is told the same moment as before. Answers how many. */
static unsigned long try_cells(const struct yerbagunt_session *given)
{
    struct yerbagunt_session s = *given;
    s.horizon++;
    s.remainders += s.span;
    hold(yerbagunt_latest_of(&s).at == yerbagunt_latest_of(given).at, "a later horizon and as much more in the sum have the same moment", 0);
    try_wrong(&s, offsetof(struct yerbagunt_session, horizon));
    return 1 + try_cell(given, offsetof(struct yerbagunt_session, margin)) + try_cell(given, offsetof(struct yerbagunt_session, horizon))
        + try_cell(given, offsetof(struct yerbagunt_session, remainders));
}

/* Numbers that are those of no order. */
static const uint64_t no_orders[] = {2, 3, 255, 256, UINT32_MAX, 4294967296, 4294967297, INT64_MAX, (uint64_t)INT64_MIN, UINT64_MAX};
#define NO_ORDERS (sizeof no_orders / sizeof no_orders[0])

/* Copies of one session with another order: a number that is that of none, which every call but the ask refuses. Answers how many. */
static unsigned long try_orders(const struct yerbagunt_session *given)
{
    for (size_t i = 0; i < NO_ORDERS; i++) {
        struct yerbagunt_session s = *given;
        s.order = no_orders[i];
        try_wrong(&s, offsetof(struct yerbagunt_session, order));
        hold(yerbagunt_latest_of(&s).number == YERBAGUNT_OK && yerbagunt_latest_of(&s).at == yerbagunt_latest_of(given).at, "an ask does not look at the order", i);
    }
    return NO_ORDERS;
}

/* Copies of one session with a tag where no request is: in a cell past a queue's end, or at the disk while nothing is there. Answers how many. */
static unsigned long try_tags(const struct yerbagunt_session *given)
{
    unsigned long many = 0;
    for (size_t n = 0; n < YERBAGUNT_STREAMS_MAX; n++)
        for (size_t j = given->streams[n].queued; j < YERBAGUNT_QUEUE_MAX; j++, many++) {
            struct yerbagunt_session s = *given;
            s.streams[n].tags[j] = j % 2 == 0 ? 1 : UINT32_MAX;
            try_wrong(&s, (size_t)((uint8_t *)&s.streams[n].tags[j] - (uint8_t *)&s));
        }
    if (given->served == 0) {
        struct yerbagunt_session s = *given;
        s.tag = UINT32_MAX;
        try_wrong(&s, offsetof(struct yerbagunt_session, tag));
        many++;
    }
    return many;
}

/* Gives a session the horizon and the sum that its streams have; a sum that does not fit wraps. */
static void mend(struct yerbagunt_session *s)
{
    s->horizon = UINT64_MAX;
    for (size_t n = 0; n < s->count && n < YERBAGUNT_STREAMS_MAX; n++)
        s->horizon = s->streams[n].deadline < s->horizon ? s->streams[n].deadline : s->horizon;
    uint64_t sum = 0;
    for (size_t n = 0; n < s->count && n < YERBAGUNT_STREAMS_MAX; n++) {
        const struct yerbagunt_stream *x = &s->streams[n];
        uint64_t times = x->period == 0 ? 0 : s->span / x->period;
        sum += (s->horizon - x->release) * x->granted * times - x->charge * s->span;
    }
    s->remainders = (int64_t)sum;
}

static int same(const struct yerbagunt_session *a, const struct yerbagunt_session *b) { return memcmp(a, b, sizeof *a) == 0; }

/* Every call on a copy of one session with a byte changed; and once more where another horizon or sum goes with that change, so that what else is judged is met too. Answers how many sessions. */
static unsigned long try_byte(const struct yerbagunt_session *given, size_t at, uint8_t flip)
{
    struct yerbagunt_session changed = *given, mended;
    ((uint8_t *)&changed)[at] ^= flip;
    try_all(&changed, at);
    mended = changed;
    mend(&mended);
    if (same(&mended, &changed) || same(&mended, given))
        return 1;
    try_all(&mended, at);
    return 2;
}

/* A turn, and a wait for as long as it says. */
static void go_on(struct yerbagunt_session *s)
{
    struct yerbagunt_reply r = yerbagunt_turn(s);
    if (r.number == YERBAGUNT_WAIT)
        yerbagunt_clock(s, r.value);
}

/* A request of stream 1 takes 60,000 more than that stream's budget. */
static void overrun(struct yerbagunt_session *s)
{
    yerbagunt_arrival(s, 1, 100, 0);
    yerbagunt_turn(s);
    hold(yerbagunt_done(s, 110000).number == YERBAGUNT_OVERLONG, "a request took 60,000 more than its budget of 50,000", 0);
}

/* Whether the next turn moves. */
static int moves(struct yerbagunt_session s) { return yerbagunt_turn(&s).number == YERBAGUNT_MOVED; }

/* A session of two streams in either order. */
static struct yerbagunt_session opened(uint64_t order)
{
    static const struct yerbagunt_reservation table[2] = {{25000, 250000}, {175000, 500000}};
    struct yerbagunt_opening o = yerbagunt_open(25000, 1000000, 1, (struct yerbagunt_reservations){table, 2}, order);
    hold(o.number == YERBAGUNT_OK && o.session.margin == 300000 && o.session.order == order, "the table is admitted in either order, and leaves 300,000 of its span", order);
    return o.session;
}

/* The head stands at 500, and stream 2 has requests at either side of it: nearest first they go one way, and by sweep another. */
static void around_the_head(struct yerbagunt_session *s)
{
    static const uint64_t places[3] = {510, 495, 490};
    yerbagunt_arrival(s, 2, 500, 0);
    yerbagunt_turn(s);
    yerbagunt_done(s, 1000);
    for (int i = 0; i < 3; i++)
        yerbagunt_arrival(s, 2, places[i], i);
    hold(s->head == 500 && s->streams[1].queued == 3, "three requests wait around the head", s->order);
}

/* Sessions of one order to start from: fresh, with a full queue, with a request at the disk, after closed jobs, with a job that started with an overrun and lost a slot, with a move ahead that carries one, and with requests at either side of the head. */
#define MADE 7
static void sessions(struct yerbagunt_session made[MADE], uint64_t order)
{
    for (int i = 0; i < MADE; i++)
        made[i] = opened(order);
    for (int i = 0; i < YERBAGUNT_QUEUE_MAX; i++)
        yerbagunt_arrival(&made[1], 1, 100 + i, UINT32_MAX - i);
    yerbagunt_arrival(&made[2], 2, 900, 0x80000001);
    hold(yerbagunt_turn(&made[2]).number == YERBAGUNT_SENT, "a request is sent", 0);
    for (int i = 0; i < 60; i++)
        go_on(&made[3]);
    hold(made[3].streams[0].last.deadline != 0, "a job was closed", 0);
    const struct yerbagunt_stream *late = &made[4].streams[0];
    overrun(&made[4]);
    for (int i = 0; i < 60 && late->expired == 0; i++)
        go_on(&made[4]);
    hold(late->last.start == 60000 && late->last.charge == 60000, "the job after it started with these, and had nothing else", 0);
    hold(late->start == 10000 && late->expired == 1 && late->charge == 35000, "the next one started with what was left, and lost a slot", 0);
    overrun(&made[5]);
    for (int i = 0; i < 60 && !moves(made[5]); i++)
        go_on(&made[5]);
    hold(moves(made[5]) && made[5].streams[0].charge == 110000, "the next turn moves, and carries 60,000", 0);
    around_the_head(&made[6]);
}

/* Requests around the head go nearest first, or by sweep, which goes on above the head and then starts at the smallest place again. */
static void both_orders(void)
{
    static const uint64_t places[2][3] = {{495, 490, 510}, {510, 490, 495}};
    for (uint64_t order = 0; order < 2; order++) {
        struct yerbagunt_session s = opened(order);
        around_the_head(&s);
        for (int i = 0; i < 3; i++) {
            struct yerbagunt_reply r = yerbagunt_turn(&s);
            hold(r.number == YERBAGUNT_SENT && r.value == places[order][i], "a turn sends by the session's order", 10 * order + i);
            yerbagunt_done(&s, 1000);
        }
    }
}

/* A reply that hands a request of stream 2 back. */
static void hold_back(struct yerbagunt_reply r, uint64_t number, uint64_t value, uint32_t tag)
{
    hold(r.number == number && r.stream == 2 && r.value == value && r.tag == tag, "a request comes back with its own tag", tag);
}

/* Three requests for one place, in either order: the caller's own turn takes the second, and the house's the first and then the last. */
static void one_place(uint64_t order)
{
    static const uint32_t tags[3] = {7, UINT32_MAX, 0x01020304};
    struct yerbagunt_session s = opened(order);
    const struct yerbagunt_stream *two = &s.streams[1];
    for (int i = 0; i < 3; i++)
        hold(yerbagunt_arrival(&s, 2, 900, tags[i]).tag == 0 && two->tags[i] == tags[i], "an arrival keeps the tag, and its reply has none", i);
    hold_back(yerbagunt_own_turn(&s, 2, 1), YERBAGUNT_SENT, 900, tags[1]);
    hold(s.tag == tags[1] && two->tags[0] == tags[0] && two->tags[1] == tags[2] && two->tags[2] == 0, "tags close up as places do", 0);
    hold_back(yerbagunt_done(&s, 5000), YERBAGUNT_DONE, 5000, tags[1]);
    hold(s.tag == 0 && s.place == 0 && yerbagunt_clock(&s, 6000).tag == 0, "an idle disk has no tag, and a clock report none", 0);
    hold_back(yerbagunt_turn(&s), YERBAGUNT_SENT, 900, tags[0]);
    hold_back(yerbagunt_done(&s, 25001), YERBAGUNT_OVERLONG, 30001, tags[0]);
    hold_back(yerbagunt_turn(&s), YERBAGUNT_SENT, 900, tags[2]);
    hold_back(yerbagunt_done(&s, 1), YERBAGUNT_DONE, 30002, tags[2]);
    struct yerbagunt_reply wait = yerbagunt_turn(&s);
    hold(wait.number == YERBAGUNT_WAIT && wait.tag == 0, "a wait has no tag", 0);
}

/* A table to open, the first record and the others, and what opening answers. */
struct booked {
    uint32_t worst, span, padding;
    struct yerbagunt_reservation first, others;
    size_t length;
    uint64_t number;
    int64_t margin;
};

static void open_one(const struct booked *b, uint64_t order, unsigned long at)
{
    static const struct yerbagunt_session zero;
    struct yerbagunt_reservation records[9];
    for (size_t i = 0; i < 9; i++)
        records[i] = i == 0 ? b->first : b->others;
    struct yerbagunt_opening o = yerbagunt_open(b->worst, b->span, b->padding, (struct yerbagunt_reservations){records, b->length}, order);
    hold(o.number == (order < 2 ? b->number : YERBAGUNT_UNSOUND), "opening answers by number, and to another order by 31 whatever the table", at);
    hold(o.margin == (order < 2 ? b->margin : 0), "opening tells the margin, and 0 with 31 and 1 to 6", at);
    if (o.number == YERBAGUNT_OK) {
        struct yerbagunt_view v = yerbagunt_view(o.session);
        hold(o.session.padding == b->padding && o.session.order == order, "a session keeps its padding and its order as given", at);
        hold(o.session.margin == b->margin && v.number == YERBAGUNT_OK && v.margin == b->margin, "a session keeps its margin and shows it", at);
    } else {
        hold(memcmp(&o.session, &zero, sizeof zero) == 0, "a refused opening stands beside the all-zero session", at);
    }
    struct table t = {b->worst, b->span, b->padding, (uint32_t)b->length, {{0, 0}}};
    struct session opened, other;
    int64_t margin;
    for (size_t i = 0; i < b->length && i < STREAM_MAX; i++)
        t.reservations[i] = (struct reservation){records[i].reserved, records[i].period};
    hold(session_open(&other, &t, order, &margin) == o.number && margin == o.margin, "the number and the margin are the second engine's", at);
    hold(to_second(&o.session, &opened) && memcmp(&opened, &other, sizeof other) == 0, "the opened session is the second engine's", at);
}

#define ALIKE {20, 20000}, {20, 20000}
static void openings(void)
{
    static const struct booked tried[] = {
        {100, 20000, 1, ALIKE, 0, 1, 0}, {0, 0, UINT32_MAX, ALIKE, 0, 1, 0}, {100, 20000, 1, ALIKE, 9, 1, 0},
        {0, 20000, 1, ALIKE, 8, 2, 0}, {UINT32_MAX, 20000, 1, ALIKE, 8, 2, 0}, {100, 999, 1, ALIKE, 8, 3, 0}, {100, UINT32_MAX, 1, ALIKE, 8, 3, 0},
        {100, 20000, 4, ALIKE, 8, 4, 0}, {100, 30000, 1, ALIKE, 8, 5, 0}, {1000000, 20000, 1, ALIKE, 8, 6, 0},
        /* 0 stands for 3: g is 20 + 3 W (with k 1, 20 + W), and the load of eight streams is 160 + 25 W (160 + 9 W), of one 20 + 4 W (20 + 2 W) */
        {5000, 20000, 1, ALIKE, 8, 7, -25160}, {100, 20000, 1, ALIKE, 8, 0, 18940},
        {793, 20000, 0, ALIKE, 8, 0, 15}, {794, 20000, 0, ALIKE, 8, 7, -10}, {794, 20000, 3, ALIKE, 8, 7, -10}, {794, 20000, 1, ALIKE, 8, 0, 12694},
        {6660, 20000, 0, ALIKE, 1, 7, -6660}, {6661, 20000, 0, ALIKE, 1, 6, 0}, {6661, 20000, 3, ALIKE, 1, 6, 0}, {6661, 20000, 1, ALIKE, 1, 0, 6658},
        /* the first has half the period of the others: the load is 2 (e + 100) + 7 * 120 + 2 * 100 */
        {100, 20000, 1, {9380, 10000}, {20, 20000}, 8, 0, 0}, {100, 20000, 1, {9381, 10000}, {20, 20000}, 8, 7, -2},
        /* one stream: g is e + 25,000, and the load e + 50,000 */
        {25000, 1000000, 1, {950000, 1000000}, {0, 0}, 1, 0, 0}, {25000, 1000000, 1, {950001, 1000000}, {0, 0}, 1, 7, -1},
        {25000, 1000000, 1, {975000, 1000000}, {0, 0}, 1, 7, -25000}, {25000, 1000000, 1, {975001, 1000000}, {0, 0}, 1, 6, 0},
        /* the least margin that there is, which takes more than 32 bits, and the largest */
        {999999, 600000000, 1, {1, 1000000}, {1, 1000000}, 8, 7, -4799999400}, {1, 600000000, 1, {1, 60000000}, {0, 0}, 1, 0, 599999970},
    };
    for (size_t i = 0; i < sizeof tried / sizeof tried[0]; i++) {
        open_one(&tried[i], YERBAGUNT_NEAREST, i);
        open_one(&tried[i], YERBAGUNT_SWEEP, i);
        for (size_t n = 0; n < NO_ORDERS; n++)
            open_one(&tried[i], no_orders[n], i);
    }
}

/* What is written in every trial below: a table of two streams, and a trace of an arrival with a tag and a turn. */
static const struct yerbagunt_table filed = {25000, 1000000, 1, 2, {25000, 175000}, {250000, 500000}};
static uint8_t trace[16 * YERBAGUNT_EVENTS_MAX + 16] = {1, 1, 255, 255, 255, 255, 0, 0, 100, 0, 0, 0, 0, 0, 0, 0, 2};
#define TRACE 32
static uint8_t out[70000], before[sizeof out];

static struct yerbagunt_written written(struct yerbagunt_table t, uint64_t order, uint64_t third, size_t length, size_t room)
{
    return yerbagunt_write(t, (struct yerbagunt_bytes){trace, length}, (struct yerbagunt_buffer){out, room}, order, third);
}

static void not_written(struct yerbagunt_table t, uint64_t order, uint64_t third, size_t length, size_t room, uint64_t number, const char *what, unsigned long at)
{
    struct yerbagunt_written w = written(t, order, third, length, room);
    hold(w.number == number && w.length == 0, what, at);
    hold(memcmp(out, before, sizeof out) == 0, "a refused writing left every byte as it was", at);
}

/* A file that is written: its order, the length of its third body, where its table is, and how long it is. */
struct form {
    uint64_t order, third;
    size_t table, length;
};

static const struct form forms[] = {{0, 0, 26, 90}, {0, YERBAGUNT_ORDER_SIZE, 38, 106}, {1, YERBAGUNT_ORDER_SIZE, 38, 106}};
#define FORMS (sizeof forms / sizeof forms[0])

/* An order that is none, a third body of a length that there is not, and a sweep without a place for it are refused by 16, in a buffer without room too. */
static void other_forms(void)
{
    static const uint64_t lengths[] = {1, 2, 3, 5, 8, 12, 4294967296, 4294967300, INT64_MAX, (uint64_t)INT64_MIN, UINT64_MAX};
    static const size_t rooms[] = {0, 89, sizeof out};
    for (size_t r = 0; r < 3; r++) {
        for (size_t i = 0; i < NO_ORDERS; i++)
            for (uint64_t third = 0; third <= YERBAGUNT_ORDER_SIZE; third++)
                not_written(filed, no_orders[i], third, TRACE, rooms[r], YERBAGUNT_LAYOUT, "another order is not written", i);
        for (size_t i = 0; i < sizeof lengths / sizeof lengths[0]; i++)
            for (uint64_t order = 0; order < 2; order++)
                not_written(filed, order, lengths[i], TRACE, rooms[r], YERBAGUNT_LAYOUT, "a third body of another length is not written", i);
        not_written(filed, YERBAGUNT_SWEEP, 0, TRACE, rooms[r], YERBAGUNT_LAYOUT, "sweep has no place in two entries", r);
    }
}

/* Each refusal of a table and a trace, in one form. */
static void refused_writings(const struct form *f)
{
    struct yerbagunt_table nine = filed;
    nine.count = 9;
    for (size_t room = 0; room < f->length; room++)
        not_written(filed, f->order, f->third, TRACE, room, YERBAGUNT_ROOM, "a short buffer is refused", room);
    not_written(nine, f->order, f->third, TRACE, sizeof out, YERBAGUNT_LAYOUT, "nine streams are not written", 0);
    not_written(filed, f->order, f->third, TRACE - 1, 0, YERBAGUNT_LAYOUT, "part of an event is not written", 0);
    not_written(filed, f->order, f->third, sizeof trace, sizeof out, YERBAGUNT_LAYOUT, "4,001 events are not written", 0);
    for (size_t at = 6; at < 24; at = at == 7 ? 18 : at + 1) {
        trace[at] = 1;
        not_written(filed, f->order, f->third, TRACE, sizeof out, YERBAGUNT_LAYOUT, "of an arrival the two bytes after the tag are 0, of a turn all six", at);
        trace[at] = 0;
    }
}

static void not_read(struct yerbagunt_bytes file, const char *what, unsigned long at)
{
    static const struct yerbagunt_file refused = {.number = YERBAGUNT_LAYOUT};
    struct yerbagunt_file f = yerbagunt_read(file);
    hold(memcmp(&f, &refused, sizeof f) == 0, what, at);
}

/* Every byte of the contents and of the third body has one right value, but that either order may stand there. */
static void other_contents(const struct form *f)
{
    static const uint8_t flips[] = {0x01, 0x02, 0x80, 0xff};
    for (size_t at = 0; at < f->length; at = at + 1 == f->table ? f->length - f->third : at + 1)
        for (size_t i = 0; i < sizeof flips; i++) {
            out[at] ^= flips[i];
            if (f->third != 0 && at == f->length - f->third && flips[i] == 0x01)
                hold(yerbagunt_read((struct yerbagunt_bytes){out, f->length}).order == 1 - f->order, "a third body may say the other order", at);
            else
                not_read((struct yerbagunt_bytes){out, f->length}, "contents of another value are refused, beside zeros", at);
            out[at] ^= flips[i];
        }
}

/* A file is written, read, and written again byte for byte by the order and the third that reading answers. */
static void there_and_back(const struct form *f)
{
    static uint8_t kept[sizeof out];
    struct yerbagunt_written w = written(filed, f->order, f->third, TRACE, f->length);
    hold(w.number == YERBAGUNT_OK && w.length == f->length, "the file is written, in just its length", f->length);
    hold(memcmp(out + f->length, before + f->length, sizeof out - f->length) == 0, "the bytes after the file are as they were", 0);
    struct yerbagunt_bytes file = {out, f->length};
    struct yerbagunt_file p = yerbagunt_read(file);
    size_t start = f->table + 32;
    hold(p.number == YERBAGUNT_OK && p.count == 2 && p.start == start && p.end == start + TRACE && p.events == 2 && memcmp(out + start, trace, TRACE) == 0, "it reads back, with its tag", 0);
    hold(p.order == f->order && p.third == f->third, "it reads back in its form and order", f->third);
    struct yerbagunt_table t = yerbagunt_table(file);
    hold(t.worst == filed.worst && t.span == filed.span && t.padding == filed.padding && t.count == filed.count && memcmp(t.reserved, filed.reserved, sizeof t.reserved) == 0 && memcmp(t.period, filed.period, sizeof t.period) == 0, "the table reads back", 0);
    for (size_t length = 0; length < f->length; length++)
        not_read((struct yerbagunt_bytes){out, length}, "a file cut short is refused", length);
    not_read((struct yerbagunt_bytes){out, f->length + 1}, "a byte after the file is refused", 0);
    other_contents(f);
    memcpy(kept, before, sizeof kept);
    w = yerbagunt_write(t, (struct yerbagunt_bytes){out + p.start, p.end - p.start}, (struct yerbagunt_buffer){kept, sizeof kept}, p.order, p.third);
    hold(w.number == YERBAGUNT_OK && memcmp(kept, out, sizeof kept) == 0, "a file that was read is written again byte for byte", f->third);
    memcpy(out, before, sizeof out);
}

static void files(void)
{
    memset(before, 0xa5, sizeof before);
    memcpy(out, before, sizeof out);
    not_read((struct yerbagunt_bytes){out, 0}, "no bytes are no file", 0);
    other_forms();
    for (size_t i = 0; i < FORMS; i++) {
        refused_writings(&forms[i]);
        there_and_back(&forms[i]);
    }
}

/* A number from a fixed row; and one that may have few bits or many. */
static uint64_t draw(void)
{
    static uint64_t state = 6;
    state ^= state << 13;
    state ^= state >> 7;
    state ^= state << 17;
    return state;
}

static uint64_t some_bits(void)
{
    uint64_t number = draw();
    return number >> draw() % 64;
}

static const uint64_t horizons[] = {0, 1, 2, SESSION_END, INT64_MAX, (uint64_t)INT64_MIN, UINT64_MAX - 1, UINT64_MAX};
static const int64_t sums[] = {INT64_MIN, INT64_MIN + 1, -1, 0, 1, INT64_MAX - 1, INT64_MAX};
static const uint64_t spans[] = {0, 1, 2, SPAN_MIN, SPAN_MAX, 4294967296, INT64_MAX, (uint64_t)INT64_MIN, UINT64_MAX - 1, UINT64_MAX};
#define MANY(list) (sizeof list / sizeof list[0])
#define ONE_OF(list) list[draw() % MANY(list)]

/* A whole number of spans, of either sign, or one beside it, as far as 63 bits go. */
static int64_t spans_and_one(uint64_t span)
{
    uint64_t most = span == 0 ? 0 : INT64_MAX / span;
    uint64_t whole = span * (most == 0 ? 0 : some_bits() % most);
    int64_t beside = (int64_t)(draw() % 3) - 1;
    return (draw() % 2 == 0 ? (int64_t)whole : -(int64_t)whole) + beside;
}

/* A sum to ask with: at the ends of its type, of any size, or beside a whole number of spans. */
static int64_t some_sum(uint64_t span)
{
    switch (draw() % 4) {
    case 0:
        return ONE_OF(sums);
    case 1:
        return (int64_t)(draw() % 2 == 0 ? some_bits() : -some_bits());
    default:
        return spans_and_one(span);
    }
}

/* A horizon to ask with: at the ends of its type, of any size, or where the answer is close to 0 or to the last that fits. */
static uint64_t some_horizon(int64_t sum, uint64_t span)
{
    uint64_t size = sum < 0 ? -(uint64_t)sum : (uint64_t)sum;
    uint64_t whole = span == 0 ? size : size / span;
    uint64_t beside = draw() % 4 - 2;
    switch (draw() % 4) {
    case 0:
        return ONE_OF(horizons);
    case 1:
        return some_bits();
    default:
        return (sum < 0 ? UINT64_MAX - whole : whole) + beside;
    }
}

/* The ask at the ends of the three types, and at many numbers between. */
#define ASKS 100000
static void three_numbers(void)
{
    for (size_t h = 0; h < MANY(horizons); h++)
        for (size_t r = 0; r < MANY(sums); r++)
            for (size_t n = 0; n < MANY(spans); n++)
                ask(horizons[h], sums[r], spans[n]);
    for (int i = 0; i < ASKS; i++) {
        uint64_t span = draw() % 2 == 0 ? ONE_OF(spans) : some_bits();
        int64_t sum = some_sum(span);
        ask(some_horizon(sum, span), sum, span);
    }
}

/* Every session of one order, as it was made and with a change in each of its cells. Answers how many sessions were changed. */
static unsigned long try_order(uint64_t order)
{
    static struct yerbagunt_session made[MADE];
    static const uint8_t flips[] = {0x01, 0x80, 0xff};
    unsigned long tried = 0;
    sessions(made, order);
    for (int m = 0; m < MADE; m++) {
        try_all(&made[m], 0);
        tried += try_cells(&made[m]) + try_orders(&made[m]) + try_tags(&made[m]);
        for (size_t at = 0; at < sizeof made[m]; at++)
            for (size_t f = 0; f < sizeof flips; f++)
                tried += try_byte(&made[m], at, flips[f]);
    }
    return tried;
}

int main(void)
{
    unsigned long tried = 0;
    openings();
    files();
    both_orders();
    for (uint64_t order = YERBAGUNT_NEAREST; order <= YERBAGUNT_SWEEP; order++) {
        one_place(order);
        tried += try_order(order);
    }
    static struct yerbagunt_session extreme;
    memset(&extreme, 0xff, sizeof extreme);
    try_all(&extreme, 0);
    memset(&extreme, 0, sizeof extreme);
    try_all(&extreme, 0);
    three_numbers();
    printf("%lu changed sessions, %u calls each\n", tried, (unsigned)TRIALS);
    printf("%lu asks, %lu of them refused\n", asks, asks_refused);
    for (int n = 8; n < 32; n++)
        if (met[n])
            printf("answer %d: %lu\n", n, met[n]);
    printf("%lu wrong\n", wrong);
    return wrong != 0;
}
