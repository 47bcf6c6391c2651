// The rules of document 01, and of document 02 where it changes them, each from its own sentence, with exact fractions
// and plain lists.
#include "engine.h"

typedef unsigned __int128 wide;
typedef __int128 signed_wide;

// A fraction that is never rounded; two are compared by cross products.
struct fraction {
    wide over;
    uint64_t under;
};

static bool fraction_below(struct fraction a, struct fraction b)
{
    return a.over * b.under < b.over * a.under;
}

// Document 02, Req 07: "sent and done hand the tag back"; every other reply has the tag 0.
static struct reply answer(enum number number, uint32_t stream, uint64_t value, uint32_t tag)
{
    return (struct reply){number, stream, value, tag};
}

static struct reply refusal(enum number number)
{
    return answer(number, 0, 0, 0);
}

// --- Reservation table ---

// "Zero stands for the default"; document 02, Req 02: "A padding of 0 in a table now stands for 3."
uint32_t padding_of(const struct table *t)
{
    return t->padding == 0 ? PADDING_DEFAULT : t->padding;
}

// "Granted budget g = e + k × W"
uint64_t granted_budget(const struct table *t, const struct reservation *r)
{
    return (uint64_t)r->reserved + (uint64_t)padding_of(t) * t->worst;
}

// Document 02, Req 05: "The load test should say the exact margin, span less load, negative when refused, and not a yes
// or no."
static int64_t load_test(const struct table *t, uint64_t load)
{
    return (int64_t)t->span - (int64_t)load;
}

// 2 to 6 in the order of opening: "2, 3, 4, then 5 and 6 stream by stream"
enum number judge_table(const struct table *t, uint64_t *total)
{
    *total = 0;
    if (t->worst < WORST_MIN || t->worst > WORST_MAX)
        return BAD_WORST;
    if (t->span < SPAN_MIN || t->span > SPAN_MAX)
        return BAD_SPAN;
    if (t->padding > PADDING_MAX)
        return BAD_PADDING;
    uint64_t load = 0;
    uint64_t most = 0;
    for (uint32_t i = 0; i < t->count; i++) {
        const struct reservation *r = &t->reservations[i];
        uint64_t granted = granted_budget(t, r);
        // "p outside its range or not dividing H"
        if (r->period < PERIOD_MIN || r->period > PERIOD_MAX)
            return BAD_PERIOD;
        uint32_t times = t->span / r->period;
        if (times * r->period != t->span)
            return BAD_PERIOD;
        // "e = 0 or g > p"
        if (r->reserved == 0 || granted > r->period)
            return BAD_RESERVED;
        // "Load = sum of g × (H / p) over the streams, plus W × (H / smallest p)." The largest H / p has the smallest p.
        load += granted * times;
        most = times > most ? times : most;
    }
    load += t->worst * most;
    *total = load;
    return ADMITTED;
}

// "Opening: 1, 2, 3, 4, then 5 and 6 stream by stream, then 7"; Req 05: "Other refusals carry margin 0"
static enum number admit(const struct table *t, int64_t *margin)
{
    *margin = 0;
    if (t->count == 0 || t->count > STREAM_MAX)
        return BAD_COUNT;
    uint64_t load;
    enum number number = judge_table(t, &load);
    if (number != ADMITTED)
        return number;
    *margin = load_test(t, load);
    // "Admitted exactly if load ≤ H"
    return *margin < 0 ? OVERLOAD : ADMITTED;
}

// --- Slots and the latest safe moment ---

// "Horizon h = smallest deadline."
uint64_t session_horizon(const struct session *s)
{
    uint64_t horizon = s->streams[0].deadline;
    for (uint32_t i = 1; i < s->table.count; i++)
        if (s->streams[i].deadline < horizon)
            horizon = s->streams[i].deadline;
    return horizon;
}

// "(c + n × W) × p ≤ (h − r) × g": slot n has its micro-deadline by the horizon.
static bool slot_fits(const struct session *s, uint32_t i, uint64_t horizon, uint64_t n)
{
    const struct stream *m = &s->streams[i];
    uint64_t period = s->table.reservations[i].period;
    return (m->charge + n * s->table.worst) * period <= (horizon - m->release) * m->granted;
}

// "Slots of a stream: the number s of whole n ≥ 1 with (c + n × W) × p ≤ (h − r) × g."
static uint64_t slots(const struct session *s, uint32_t i, uint64_t horizon)
{
    const struct stream *m = &s->streams[i];
    uint64_t period = s->table.reservations[i].period;
    uint64_t used = m->charge * period;
    uint64_t room = (horizon - m->release) * m->granted;
    return room < used ? 0 : (room - used) / (s->table.worst * period);
}

// "Filled slots: the smaller of s and the queue length; the first so many queued requests are the set"
static uint64_t filled(const struct session *s, uint32_t i, uint64_t horizon)
{
    uint64_t length = s->streams[i].length;
    // Most queues are shorter than the slots, and then no division is needed.
    if (length == 0 || slot_fits(s, i, horizon, length))
        return length;
    return slots(s, i, horizon);
}

// "the remainder of a stream is (h − r) × g / p − c, negative after an overrun", times H so that it is whole
static int64_t scaled_remainder(const struct session *s, uint32_t i, uint64_t horizon)
{
    const struct stream *m = &s->streams[i];
    uint32_t span = s->table.span;
    uint32_t times = span / s->table.reservations[i].period;
    return (int64_t)((horizon - m->release) * m->granted * times) - (int64_t)(m->charge * span);
}

// "the sum of all remainders", times H as well
static int64_t sum_of_remainders(const struct session *s, uint64_t horizon)
{
    int64_t sum = 0;
    for (uint32_t i = 0; i < s->table.count; i++)
        sum += scaled_remainder(s, i, horizon);
    return sum;
}

// "Latest safe moment L = h less the sum of all remainders, rounded down once."
static uint64_t latest_safe(const struct session *s, uint64_t horizon)
{
    int64_t sum = sum_of_remainders(s, horizon);
    uint64_t span = s->table.span;
    // Taking off what is rounded up is rounding down what is left.
    if (sum > 0)
        return horizon - ((uint64_t)sum + span - 1) / span;
    return horizon + (uint64_t)-sum / span;
}

// Document 02, Req 06: 31 "is given exactly if the span is 0, or if the horizon less the sum divided by the span, rounded
// down, is below 0 or does not fit 64 unsigned bits; otherwise that number is the answer."
enum number latest_asked(uint64_t horizon, int64_t remainders, uint64_t span, uint64_t *moment)
{
    *moment = 0;
    if (span == 0)
        return UNSOUND;
    // The sum divided by the span and rounded up, so that what it leaves of the horizon is rounded down.
    uint64_t size = remainders < 0 ? -(uint64_t)remainders : (uint64_t)remainders;
    signed_wide whole = size / span;
    bool part = size % span != 0;
    signed_wide taken = remainders < 0 ? -whole : whole + part;
    signed_wide left = horizon - taken;
    if (left < 0 || left > UINT64_MAX)
        return UNSOUND;
    *moment = (uint64_t)left;
    return TOLD;
}

// Req 06: "every call that changes a charge or the horizon keeps it true". Nothing is adjusted: both are counted anew.
static void keep_remainders(struct session *s)
{
    s->horizon = session_horizon(s);
    s->remainders = sum_of_remainders(s, s->horizon);
}

// "r + c × p / g"
static struct fraction served_until(const struct session *s, uint32_t i)
{
    const struct stream *m = &s->streams[i];
    uint64_t period = s->table.reservations[i].period;
    return (struct fraction){(wide)m->release * m->granted + m->charge * period, m->granted};
}

uint64_t session_latest_safe(const struct session *s)
{
    return latest_safe(s, session_horizon(s));
}

uint64_t session_filled(const struct session *s, uint64_t stream)
{
    return filled(s, (uint32_t)stream - 1, session_horizon(s));
}

// --- Soundness ---

// "queue places past the length"; the tags of Req 07 join the rule
static bool queue_sound(const struct stream *m)
{
    if (m->length > QUEUE_MAX)
        return false;
    uint64_t rest = 0;
    for (uint64_t j = m->length; j < QUEUE_MAX; j++)
        rest |= m->places[j] | m->tags[j];
    return rest == 0;
}

// "d = r + p", "all deadlines are at most 1,000,000,000,000", "each charge is at most g + 10,000,000 and at least
// W × the expired count"; "What a later request adds to the state joins this rule": with the start of Req 03, at least
// the start and W × the expired count together. No sum wraps, whatever the cells hold.
static bool stream_sound(const struct session *s, uint32_t i)
{
    const struct stream *m = &s->streams[i];
    const struct reservation *r = &s->table.reservations[i];
    return m->granted == granted_budget(&s->table, r)
        && m->deadline <= SESSION_END && m->release <= m->deadline && m->deadline - m->release == r->period
        && m->charge <= m->granted + DURATION_MAX && m->start + (wide)s->table.worst * m->expired <= m->charge
        && queue_sound(m);
}

// "every unused cell is 0 (.. streams past the count ..)"
static bool stream_zero(const struct session *s, uint32_t i)
{
    const struct stream *m = &s->streams[i];
    const struct reservation *r = &s->table.reservations[i];
    return (r->reserved | r->period) == 0
        && (m->granted | m->release | m->deadline | m->charge | m->expired | m->start | m->length) == 0
        && (m->last.charge | m->last.clock | m->last.deadline | m->last.expired | m->last.start) == 0
        && queue_sound(m);
}

// "the stream at the disk, if any, exists and has a slot", "the place while nothing is at the disk" is 0, and so is its tag
static bool disk_sound(const struct session *s, uint64_t horizon)
{
    if (s->disk_stream == 0)
        return (s->disk_place | s->disk_tag) == 0;
    return s->disk_stream <= s->table.count && slot_fits(s, (uint32_t)s->disk_stream - 1, horizon, 1);
}

// Document 02, Req 08: "0 nearest, 1 sweep"
bool is_order(uint64_t number)
{
    return number == ORDER_NEAREST || number == ORDER_SWEEP;
}

// "A session is sound if its table numbers are ones that opening admits; ..", line by line. Gives the horizon as well.
static bool sound(const struct session *s, uint64_t *horizon)
{
    int64_t margin;
    if (admit(&s->table, &margin) != ADMITTED || s->clock > SESSION_END)
        return false;
    // "What a later request adds to the state joins this rule": the margin of Req 05 is span less load of the table.
    if (s->margin != margin)
        return false;
    // The order of Req 08 is one of the two.
    if (!is_order(s->order))
        return false;
    uint32_t count = s->table.count;
    for (uint32_t i = 0; i < count; i++)
        if (!stream_sound(s, i))
            return false;
    for (uint32_t i = count; i < STREAM_MAX; i++)
        if (!stream_zero(s, i))
            return false;
    *horizon = session_horizon(s);
    // "r ≤ h for each stream"
    for (uint32_t i = 0; i < count; i++)
        if (s->streams[i].release > *horizon)
            return false;
    // Both cells of Req 06 join the rule too. The streams are judged before the sum is taken, so that it fits.
    if (s->horizon != *horizon || s->remainders != sum_of_remainders(s, *horizon))
        return false;
    return disk_sound(s, *horizon);
}

// --- Calls ---

// "no session is made, and an all-zero one, which is not sound, stands in its place"; document 02, Req 05: "Opening
// passes it on with 7, the session keeps it when admitted"; Req 08: "Which order a session uses is one choice held in it."
enum number session_open(struct session *s, const struct table *t, uint64_t order, int64_t *margin)
{
    *s = (struct session){0};
    *margin = 0;
    if (!is_order(order))
        return UNSOUND;
    enum number number = admit(t, margin);
    if (number != ADMITTED)
        return number;
    s->order = order;
    s->table.worst = t->worst;
    s->table.span = t->span;
    s->table.padding = t->padding;
    s->table.count = t->count;
    s->margin = *margin;
    for (uint32_t i = 0; i < t->count; i++) {
        s->table.reservations[i] = t->reservations[i];
        s->streams[i].granted = granted_budget(t, &t->reservations[i]);
        s->streams[i].deadline = t->reservations[i].period;
    }
    keep_remainders(s);
    return ADMITTED;
}

// "stream number 0 or above the count"
static bool stream_bad(const struct session *s, uint64_t stream)
{
    return stream == 0 || stream > s->table.count;
}

// "Arrival (stream, place): put at the queue's end."; document 02, Req 07: "Arrival takes both", place and tag
struct reply session_arrival(struct session *s, uint64_t stream, uint64_t place, uint32_t tag)
{
    uint64_t horizon;
    if (!sound(s, &horizon))
        return refusal(UNSOUND);
    if (stream_bad(s, stream))
        return refusal(BAD_STREAM);
    struct stream *m = &s->streams[stream - 1];
    if (m->length == QUEUE_MAX)
        return refusal(QUEUE_FULL);
    m->places[m->length] = place;
    m->tags[m->length] = tag;
    m->length++;
    return answer(ARRIVED, (uint32_t)stream, m->length, 0);
}

// "The request leaves its queue, the others keep their order, the head becomes its place." Each keeps its own tag.
static struct reply send(struct session *s, uint32_t i, uint64_t index)
{
    struct stream *m = &s->streams[i];
    uint64_t place = m->places[index];
    uint32_t tag = m->tags[index];
    m->length--;
    for (uint64_t j = index; j < m->length; j++) {
        m->places[j] = m->places[j + 1];
        m->tags[j] = m->tags[j + 1];
    }
    m->places[m->length] = 0;
    m->tags[m->length] = 0;
    s->head = place;
    s->disk_stream = i + 1;
    s->disk_place = place;
    s->disk_tag = tag;
    return answer(SENT, i + 1, place, tag);
}

static uint64_t distance(uint64_t a, uint64_t b)
{
    return a > b ? a - b : b - a;
}

// How far a place is from the head by the order of the session: the least is sent. "the place nearest the head"; document
// 02, Req 08: "With sweep order .. the smallest place not below the head, and if there is none, the smallest place of all".
// That is how far the head goes if it only goes up, and from the end of 64 bits on from 0.
static uint64_t way_to(const struct session *s, uint64_t place)
{
    return s->order == ORDER_SWEEP ? place - s->head : distance(place, s->head);
}

// A request of the set: its stream (STREAM_MAX for none), its index in that queue, and how far it is from the head.
struct choice {
    uint32_t stream;
    uint64_t index;
    uint64_t far;
};

// "Take the earliest deadline among streams with a filled slot; of the set's requests from streams with that deadline,
// the place nearest the head; ties go to the lower stream, then the earlier arrival."; document 02, Req 08: "ties as before";
// Req 07: "The queue, its order and the choice rule do not look at tags."
static struct choice choose(const struct session *s, uint64_t horizon)
{
    struct choice best = {STREAM_MAX, 0, 0};
    for (uint32_t i = 0; i < s->table.count; i++) {
        const struct stream *m = &s->streams[i];
        if (best.stream != STREAM_MAX && m->deadline > s->streams[best.stream].deadline)
            continue;
        uint64_t set = filled(s, i, horizon);
        for (uint64_t j = 0; j < set; j++) {
            uint64_t far = way_to(s, m->places[j]);
            if (best.stream == STREAM_MAX || m->deadline < s->streams[best.stream].deadline || far < best.far)
                best = (struct choice){i, j, far};
        }
    }
    return best;
}

// Document 02, Req 03: "From now on the new job starts with the old charge less the granted budget, or zero if that is
// negative."
static uint64_t carried(const struct stream *m)
{
    return m->charge > m->granted ? m->charge - m->granted : 0;
}

// "closes its job: the record is written, r becomes d, d grows by p, charge and expired count become 0", where by Req 03
// the charge becomes what is carried, and the record "also keeps what the job started with"
static void close_job(struct stream *m, uint64_t clock, uint64_t period)
{
    m->last = (struct record){m->charge, clock, m->deadline, m->expired, m->start};
    m->release = m->deadline;
    m->deadline += period;
    m->start = carried(m);
    m->charge = m->start;
    m->expired = 0;
}

// "Every stream with d = h closes its job .. The others keep theirs."
static struct reply move(struct session *s, uint64_t horizon)
{
    for (uint32_t i = 0; i < s->table.count; i++)
        if (s->streams[i].deadline == horizon && horizon + s->table.reservations[i].period > SESSION_END)
            return refusal(PAST_END);
    for (uint32_t i = 0; i < s->table.count; i++)
        if (s->streams[i].deadline == horizon)
            close_job(&s->streams[i], s->clock, s->table.reservations[i].period);
    keep_remainders(s);
    return answer(MOVED, 0, session_horizon(s), 0);
}

// "of the stream whose r + c × p / g is least among those with a slot; ties go to the earlier deadline, then the lower
// number"; STREAM_MAX if none has a slot
static uint32_t expiring(const struct session *s, uint64_t horizon)
{
    uint32_t best = STREAM_MAX;
    struct fraction least = {0, 1};
    for (uint32_t i = 0; i < s->table.count; i++) {
        if (!slot_fits(s, i, horizon, 1))
            continue;
        struct fraction until = served_until(s, i);
        if (best == STREAM_MAX || fraction_below(until, least)
            || (!fraction_below(least, until) && s->streams[i].deadline < s->streams[best].deadline)) {
            best = i;
            least = until;
        }
    }
    return best;
}

// "Its charge grows by W, its expired count by 1."
static struct reply expire(struct session *s, uint32_t i)
{
    struct stream *m = &s->streams[i];
    m->charge += s->table.worst;
    m->expired++;
    keep_remainders(s);
    return answer(EXPIRED, i + 1, m->charge, 0);
}

// "Turn, the first that applies": a send, b move, c wait, d expire.
struct reply session_turn(struct session *s)
{
    uint64_t horizon;
    if (!sound(s, &horizon))
        return refusal(UNSOUND);
    if (s->disk_stream != 0)
        return refusal(DISK_BUSY);
    struct choice chosen = choose(s, horizon);
    if (chosen.stream != STREAM_MAX)
        return send(s, chosen.stream, chosen.index);
    uint32_t next = expiring(s, horizon);
    if (next == STREAM_MAX)
        return move(s, horizon);
    uint64_t latest = latest_safe(s, horizon);
    if (s->clock < latest)
        return answer(WAIT, 0, latest, 0);
    return expire(s, next);
}

// "Own turn (stream, index from 0): send that queued request if its index is below the stream's filled slots."
struct reply session_own_turn(struct session *s, uint64_t stream, uint64_t index)
{
    uint64_t horizon;
    if (!sound(s, &horizon))
        return refusal(UNSOUND);
    if (s->disk_stream != 0)
        return refusal(DISK_BUSY);
    if (stream_bad(s, stream))
        return refusal(BAD_STREAM);
    if (index >= filled(s, (uint32_t)stream - 1, horizon))
        return refusal(NOT_IN_SET);
    return send(s, (uint32_t)stream - 1, index);
}

// "Done (duration a): clock and charge of the stream served both grow by a. Overlong if a > W." The tag of the request that
// was at the disk is handed back.
struct reply session_done(struct session *s, uint64_t duration)
{
    uint64_t horizon;
    if (!sound(s, &horizon))
        return refusal(UNSOUND);
    if (s->disk_stream == 0)
        return refusal(DISK_IDLE);
    if (duration == 0 || duration > DURATION_MAX)
        return refusal(BAD_DURATION);
    if (s->clock + duration > SESSION_END)
        return refusal(PAST_END);
    uint32_t stream = (uint32_t)s->disk_stream;
    uint32_t tag = (uint32_t)s->disk_tag;
    struct stream *m = &s->streams[stream - 1];
    s->clock += duration;
    m->charge += duration;
    s->disk_stream = 0;
    s->disk_place = 0;
    s->disk_tag = 0;
    keep_remainders(s);
    return answer(duration > s->table.worst ? DONE_OVERLONG : DONE, stream, m->charge, tag);
}

// "Clock (time): the clock becomes that time. Late exactly if it is above L and above the clock."
struct reply session_clock(struct session *s, uint64_t time)
{
    uint64_t horizon;
    if (!sound(s, &horizon))
        return refusal(UNSOUND);
    if (s->disk_stream != 0)
        return refusal(DISK_BUSY);
    if (time < s->clock)
        return refusal(TIME_BELOW);
    if (time > SESSION_END)
        return refusal(PAST_END);
    bool late = time > latest_safe(s, horizon) && time > s->clock;
    s->clock = time;
    return answer(late ? CLOCK_LATE : CLOCK, 0, time, 0);
}
