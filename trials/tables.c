// Reservation tables: admitted ones with the load at H or close below it, and ones at either side of each limit.
#include "maker.h"

#include <string.h>

// Three tables in four have at most so many distinct periods.
#define FEW_PERIODS 3

static bool is_among(uint64_t period, const uint64_t *pool, uint64_t kinds)
{
    for (uint64_t i = 0; i < kinds; i++)
        if (pool[i] == period)
            return true;
    return false;
}

// Each period of the pool goes to one stream, as far as there are streams, and any of them to each of the others, in any order.
static void share_periods(struct chance *c, struct table *t, const uint64_t *pool, uint64_t kinds)
{
    for (uint32_t i = 0; i < t->count; i++) {
        uint64_t period = pool[i < kinds ? i : below(c, kinds)];
        uint64_t at = below(c, i + 1);
        t->reservations[i].period = t->reservations[at].period;
        t->reservations[at].period = (uint32_t)period;
    }
}

// Periods that are a base times small numbers; H is a common multiple, so each divides it.
static bool make_periods(struct chance *c, struct table *t, uint64_t kinds)
{
    static const uint32_t bases[] = {1000, 1000, 1001, 2500, 10000, 25000, 50000, 250000, 1000000, 20000000, 60000000};
    static const uint32_t factors[] = {1, 1, 2, 3, 4, 5, 6, 8, 10, 12, 30, 60};
    uint64_t base = ONE_OF(c, bases);
    if (percent(c, 40))
        base = PERIOD_MIN + spread(c, 100000);
    else if (percent(c, 20))
        base = PERIOD_MIN + spread(c, PERIOD_MAX - PERIOD_MIN);
    uint64_t pool[STREAM_MAX];
    uint64_t span = base;
    for (uint64_t i = 0; i < kinds; i++) {
        do
            pool[i] = base * ONE_OF(c, factors);
        while (is_among(pool[i], pool, i));
        if (pool[i] > PERIOD_MAX)
            return false;
        uint64_t step = span;
        while (span % pool[i] != 0)
            span += step;
    }
    if (percent(c, 30))
        span *= ONE_OF(c, factors);
    if (span > SPAN_MAX)
        return false;
    if (percent(c, 5))
        span *= SPAN_MAX / span;
    t->span = (uint32_t)span;
    share_periods(c, t, pool, kinds);
    return true;
}

// A worst-case time that leaves each stream 1 µs, or a whole worst-case time, besides its padding; 0 if none does.
static uint64_t make_worst(struct chance *c, const struct table *t, bool whole)
{
    static const uint32_t parts[] = {1, 1, 1, 2, 2, 3, 3, 4, 8, 20, 100, 1000000};
    uint64_t sum = 0;
    uint64_t most = 0;
    for (uint32_t i = 0; i < t->count; i++) {
        uint64_t times = t->span / t->reservations[i].period;
        sum += times;
        most = times > most ? times : most;
    }
    uint64_t room = whole ? t->span : t->span < sum ? 0 : t->span - sum;
    uint64_t worst = room / (most + (padding_of(t) + (whole ? 1 : 0)) * sum);
    if (worst > WORST_MAX)
        worst = percent(c, 70) ? WORST_MAX : worst % WORST_MAX + 1;
    uint64_t part = ONE_OF(c, parts);
    return worst == 0 ? 0 : worst / part == 0 ? 1 : worst / part;
}

// Gives stream i all that fits of `share`, in steps of `unit`.
static void give(struct table *t, uint32_t i, uint64_t share, uint64_t unit)
{
    uint64_t times = t->span / t->reservations[i].period;
    t->reservations[i].reserved += (uint32_t)(share / (times * unit) * unit);
}

// H less the load, for a table whose load is at most H
static uint64_t slack(const struct table *t)
{
    uint64_t load = 0;
    uint64_t most = 0;
    for (uint32_t i = 0; i < t->count; i++) {
        uint64_t times = t->span / t->reservations[i].period;
        load += granted_budget(t, &t->reservations[i]) * times;
        most = times > most ? times : most;
    }
    return t->span - load - t->worst * most;
}

// Shares the slack out: part by part in the streams' order, then what is left to whoever can take it.
static void fill(struct chance *c, struct table *t, uint64_t unit)
{
    if (!percent(c, 25))
        for (uint32_t i = 0; i < t->count; i++)
            give(t, i, below(c, slack(t) + 1) * 2 / t->count, unit);
    if (percent(c, 10))
        return;
    for (uint32_t i = (uint32_t)below(c, t->count); i < t->count; i++)
        give(t, i, slack(t), unit);
    for (uint32_t i = 0; i < t->count; i++)
        give(t, i, slack(t), percent(c, 80) ? unit : 1);
}

// The table of the listing in document 01, and one whose load is H exactly with eight streams.
static void known_table(struct chance *c, struct table *t)
{
    static const struct table listing = {25000, 1000000, 1, 2, {{25000, 250000}, {175000, 500000}}};
    static const struct table eight = {100, 20000, 1, 8, {{9380, 10000}, {20, 20000}, {20, 20000}, {20, 20000},
        {20, 20000}, {20, 20000}, {20, 20000}, {20, 20000}}};
    *t = percent(c, 50) ? listing : eight;
}

void make_table(struct chance *c, struct table *t)
{
    memset(t, 0, sizeof *t);
    if (percent(c, 5)) {
        known_table(c, t);
        return;
    }
    bool many = percent(c, 25);
    uint64_t kinds = many ? FEW_PERIODS + 1 + below(c, STREAM_MAX - FEW_PERIODS) : 1 + below(c, FEW_PERIODS);
    uint64_t least = many ? kinds : 1;
    for (;;) {
        t->count = (uint32_t)(least + below(c, STREAM_MAX + 1 - least));
        t->padding = (uint32_t)below(c, PADDING_MAX + 1);
        if (!make_periods(c, t, kinds))
            continue;
        bool whole = percent(c, 50);
        t->worst = (uint32_t)make_worst(c, t, whole);
        if (t->worst == 0)
            continue;
        for (uint32_t i = 0; i < STREAM_MAX; i++) {
            t->reservations[i].reserved = i >= t->count ? 0 : whole ? t->worst : 1;
            if (i >= t->count)
                t->reservations[i].period = 0;
        }
        fill(c, t, whole ? t->worst : 1);
        return;
    }
}

// The longest periods with one slot to a job: a turn or two move the horizon on, far enough for h × H to need 68 bits.
void make_far_table(struct chance *c, struct table *t)
{
    memset(t, 0, sizeof *t);
    t->worst = WORST_MAX - (uint32_t)below(c, 3);
    t->span = SPAN_MAX;
    t->padding = 1;
    t->count = 1 + (uint32_t)below(c, 2);
    for (uint32_t i = 0; i < t->count; i++) {
        t->reservations[i].reserved = 1 + (uint32_t)below(c, t->worst - 1);
        t->reservations[i].period = percent(c, 80) ? PERIOD_MAX : PERIOD_MAX / 2;
    }
}

// The limits of p and H that need each other: a period of 999 or 60,000,001 with a span that it divides.
static void limit_case(struct chance *c, struct table *t)
{
    static const uint32_t periods[] = {PERIOD_MIN - 1, PERIOD_MIN - 1, PERIOD_MIN, PERIOD_MAX, PERIOD_MAX + 1};
    uint32_t period = ONE_OF(c, periods);
    uint32_t times = 2 + (uint32_t)below(c, SPAN_MAX / period - 1);
    uint32_t reserved = 1 + (uint32_t)below(c, 500);
    uint32_t worst = 1 + (uint32_t)below(c, 50);
    uint32_t padding = (uint32_t)below(c, PADDING_MAX + 1);
    *t = (struct table){worst, period * times, padding, 1, {{reserved, period}}};
}

// The cases that document 01 names, one stream with H = p = 1,000,000 and W 25,000; and with k 0, which stands for 3.
static void named_case(struct chance *c, struct table *t)
{
    static const uint32_t cases[][2] = {{1, 950000}, {1, 950001}, {1, 975000}, {1, 975001}, {3, 900000}, {3, 900001},
        {0, 900000}, {0, 900001}, {0, 925000}, {0, 925001}, {0, 950000}};
    const uint32_t *one = ONE_OF(c, cases);
    *t = (struct table){25000, 1000000, one[0], 1, {{one[1], 1000000}}};
    if (percent(c, 15))
        *t = (struct table){0, 1000000, 1, 0, {{0, 0}}};
}

static void spoil_stream(struct chance *c, struct table *t)
{
    struct reservation *r = &t->reservations[below(c, t->count)];
    uint32_t padded = (uint32_t)(padding_of(t) * t->worst);
    uint32_t periods[] = {0, PERIOD_MIN - 1, PERIOD_MIN, PERIOD_MAX, PERIOD_MAX + 1, r->period + 1, r->period * 2, t->span,
        r->period / 2, UINT32_MAX};
    uint32_t budgets[] = {0, 0, r->period - padded, r->period - padded + 1, r->period - t->worst, UINT32_MAX};
    if (percent(c, 50))
        r->period = ONE_OF(c, periods);
    else
        r->reserved = ONE_OF(c, budgets);
}

// Often two of the three at once: then their order is seen.
static void spoil_numbers(struct chance *c, struct table *t)
{
    static const uint32_t worsts[] = {0, 0, WORST_MIN, WORST_MAX, WORST_MAX + 1, UINT32_MAX};
    static const uint32_t spans[] = {0, SPAN_MIN - 1, SPAN_MIN, SPAN_MAX, SPAN_MAX + 1, UINT32_MAX};
    static const uint32_t paddings[] = {PADDING_MAX, PADDING_MAX + 1, PADDING_MAX + 1, UINT32_MAX};
    if (percent(c, 50))
        t->worst = ONE_OF(c, worsts);
    if (percent(c, 50))
        t->span = ONE_OF(c, spans);
    if (percent(c, 50))
        t->padding = ONE_OF(c, paddings);
}

static void spoil(struct chance *c, struct table *t)
{
    uint64_t sort = below(c, 10);
    if (sort < 2)
        spoil_numbers(c, t);
    else if (sort < 4)
        // One microsecond too much: the load is past H by H / p.
        t->reservations[below(c, t->count)].reserved++;
    else
        spoil_stream(c, t);
}

// One microsecond too much in the longest period, where it adds least: most often the load is then just past H.
static void overload(struct table *t)
{
    struct reservation *longest = t->reservations;
    for (uint32_t i = 1; i < t->count; i++)
        if (t->reservations[i].period > longest->period)
            longest = &t->reservations[i];
    longest->reserved++;
}

// Four to eight streams, each granted its whole period, with the longest span: the load is past H by 2,399,999,400 and
// more, up to 4,799,999,400, which is the most that 7 can tell.
static void crowd(struct chance *c, struct table *t)
{
    memset(t, 0, sizeof *t);
    t->worst = WORST_MAX - 1;
    t->span = SPAN_MAX;
    t->padding = 1;
    t->count = 4 + (uint32_t)below(c, 5);
    for (uint32_t i = 0; i < t->count; i++)
        t->reservations[i] = (struct reservation){1, WORST_MAX};
}

void make_faulty_table(struct chance *c, struct table *t)
{
    if (percent(c, 10)) {
        named_case(c, t);
        return;
    }
    if (percent(c, 10)) {
        if (percent(c, 20))
            crowd(c, t);
        else
            limit_case(c, t);
        return;
    }
    make_table(c, t);
    if (percent(c, 10)) {
        overload(t);
        return;
    }
    for (uint64_t n = 1 + below(c, 3); n > 0; n--)
        spoil(c, t);
    if (percent(c, 8)) {
        t->count = 0;
        memset(t->reservations, 0, sizeof t->reservations);
    }
}
