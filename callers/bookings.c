/* Calls the functions of a booking table with bad input, on tables of two desks that were booked and on changed ones. A refusal leaves every byte
 * as it was, what is not refused is what the second program makes of it, and what is finished is opened. */
#include <stddef.h>
#include <stdio.h>
#include <string.h>

#include "booking.h"
#include "hold.h"
#include "yerbagunt.h"

static unsigned long tried, met[32];

/* The second program's table of a booking table, which has the streams of both desks in one row; none where a count is too large or an unused cell is
 * not 0, to which nothing there corresponds. No byte of a booking table is padding, so that all of it is compared. */
static int to_second(const struct yerbagunt_book *b, struct booking_table *t)
{
    memset(t, 0, sizeof *t);
    t->table.worst = b->worst;
    t->table.span = b->span;
    t->table.padding = b->padding;
    if (b->unused != 0 || b->desks[0].count > STREAM_MAX || b->desks[1].count > STREAM_MAX || b->desks[0].count + b->desks[1].count > STREAM_MAX)
        return 0;
    for (uint64_t d = 0; d < DESK_COUNT; d++) {
        const struct yerbagunt_desk *desk = &b->desks[d];
        t->limits[d] = desk->limit;
        for (uint64_t i = 0; i < STREAM_MAX; i++) {
            if (i >= desk->count && (desk->streams[i].reserved != 0 || desk->streams[i].period != 0))
                return 0;
            if (i < desk->count) {
                t->desks[t->table.count] = d + 1;
                t->table.reservations[t->table.count++] = (struct reservation){desk->streams[i].reserved, desk->streams[i].period};
            }
        }
    }
    return 1;
}

/* Whether a table has the limits of the second program's, and each desk its streams, in their order, and nothing else. */
static int agrees(const struct yerbagunt_book *b, const struct booking_table *t)
{
    struct yerbagunt_book made = {t->table.worst, t->table.span, t->table.padding, 0, {{.limit = t->limits[0]}, {.limit = t->limits[1]}}};
    for (uint32_t i = 0; i < t->table.count; i++) {
        struct yerbagunt_desk *desk = &made.desks[t->desks[i] - 1];
        desk->streams[desk->count++] = (struct yerbagunt_reservation){t->table.reservations[i].reserved, t->table.reservations[i].period};
    }
    return memcmp(b, &made, sizeof made) == 0;
}

/* The bookings that are tried on each table. */
struct trial {
    int adds;
    uint64_t desk, number;
    uint32_t reserved, period;
};

static const struct trial trials[] = {
    {1, 1, 0, 900, 5000}, {1, 2, 0, 900, 5000}, {1, 1, 0, 7800, 10000}, {1, 2, 0, 4000, 20000}, {1, 2, 0, 4001, 20000},
    {1, 1, 0, 0, 10000}, {1, 2, 0, UINT32_MAX, UINT32_MAX}, {1, 1, 0, 1, 0}, {1, 1, 0, 1, 999}, {1, 1, 0, 1, 1000}, {1, 2, 0, 9901, 10000},
    {1, 0, 0, 900, 5000}, {1, 3, 0, 0, 0}, {1, UINT64_MAX, 0, 900, 5000},
    {0, 1, 0, 0, 0}, {0, 1, 1, 0, 0}, {0, 1, 2, 0, 0}, {0, 1, 8, 0, 0}, {0, 1, UINT64_MAX, 0, 0}, {0, 2, 1, 0, 0}, {0, 2, 3, 0, 0}, {0, 2, 9, 0, 0},
    {0, 0, 1, 0, 0}, {0, 3, 1, 0, 0}, {0, UINT64_MAX, 0, 0, 0},
};
#define TRIALS (sizeof trials / sizeof trials[0])

static struct yerbagunt_receipt booked(struct yerbagunt_book *b, const struct trial *t)
{
    return t->adds ? yerbagunt_add(b, t->desk, t->reserved, t->period) : yerbagunt_withdraw(b, t->desk, t->number);
}

static struct booking_reply second(struct booking_table *b, const struct trial *t)
{
    return t->adds ? booking_add(b, t->desk, (struct reservation){t->reserved, t->period}) : booking_withdraw(b, t->desk, t->number);
}

/* One booking on a copy of a table. */
static void try_booking(const struct yerbagunt_book *b, const struct trial *t)
{
    struct yerbagunt_book copy = *b;
    struct booking_table other;
    int known = to_second(b, &other);
    struct booking_reply expected = known ? second(&other, t) : (struct booking_reply){UNSOUND, 0};
    struct yerbagunt_receipt r = booked(&copy, t);
    hold(r.number == expected.number && r.value == expected.value, "a booking has the reply of the second program", r.number);
    if (r.number == YERBAGUNT_OK)
        hold(agrees(&copy, &other), "the table is the second program's then", tried);
    else
        hold(memcmp(&copy, b, sizeof copy) == 0 && r.value == 0, "a refusal leaves every byte as it was", r.number);
    met[r.number % 32]++;
}

/* What is finished is what the second program finishes, and opening admits it, or refuses it by 1 where there is no stream. */
static void try_finishing(const struct yerbagunt_book *b)
{
    struct booking_table other;
    struct table finished;
    enum number expected = to_second(b, &other) ? booking_finish(&other, &finished) : UNSOUND;
    struct yerbagunt_finished f = yerbagunt_finish(*b);
    hold(f.number == (expected == UNSOUND ? YERBAGUNT_UNSOUND : YERBAGUNT_OK), "it is finished, or refused by 31", tried);
    if (f.number != YERBAGUNT_OK) {
        static const struct yerbagunt_reservation none[STREAM_MAX];
        hold(f.count == 0 && memcmp(f.records, none, sizeof none) == 0, "what is refused has no streams", tried);
        return;
    }
    hold(f.count == finished.count && memcmp(f.records, finished.reservations, sizeof f.records) == 0, "desk 1's streams come first", tried);
    struct yerbagunt_opening o = yerbagunt_open(b->worst, b->span, b->padding, (struct yerbagunt_reservations){f.records, f.count}, YERBAGUNT_NEAREST);
    hold(o.number == (f.count == 0 ? YERBAGUNT_COUNT : YERBAGUNT_OK), "what is finished is opened", o.number);
}

static void try_all(const struct yerbagunt_book *b)
{
    for (size_t i = 0; i < TRIALS; i++)
        try_booking(b, &trials[i]);
    try_finishing(b);
    tried++;
}

/* A change in every byte of a table. */
static void try_bytes(const struct yerbagunt_book *b)
{
    static const uint8_t flips[] = {0x01, 0x80, 0xff};
    for (size_t at = 0; at < sizeof *b; at++)
        for (size_t f = 0; f < sizeof flips; f++) {
            struct yerbagunt_book copy = *b;
            ((uint8_t *)&copy)[at] ^= flips[f];
            try_all(&copy);
        }
}

/* Beginning, whatever the table was: at the ends of each range. */
static void beginnings(void)
{
    static const uint32_t worsts[] = {0, 1, 25000, 1000000, 1000001, UINT32_MAX};
    static const uint32_t spans[] = {0, 999, 1000, 600000000, 600000001, UINT32_MAX};
    static const uint32_t paddings[] = {0, 1, 3, 4, UINT32_MAX};
    static const uint64_t limits[DESK_COUNT] = {UINT64_MAX, 0};
    for (size_t w = 0; w < sizeof worsts / sizeof *worsts; w++)
        for (size_t h = 0; h < sizeof spans / sizeof *spans; h++)
            for (size_t k = 0; k < sizeof paddings / sizeof *paddings; k++) {
                struct yerbagunt_book b;
                struct booking_table other;
                memset(&b, 0xff, sizeof b);
                struct booking_reply expected = booking_begin(&other, worsts[w], spans[h], paddings[k], limits);
                struct yerbagunt_receipt r = yerbagunt_begin(&b, worsts[w], spans[h], paddings[k], limits[0], limits[1]);
                hold(r.number == expected.number && r.value == 0 && agrees(&b, &other), "a beginning is the second program's", r.number);
                met[r.number % 32]++;
                try_all(&b);
            }
}

/* A table with W 100, H 20,000 and k 1 that goes through some bookings; each state is tried, and each byte of it changed. */
static void through(const struct trial *bookings, size_t count, uint64_t limit1, uint64_t limit2)
{
    struct yerbagunt_book b;
    yerbagunt_begin(&b, 100, 20000, 1, limit1, limit2);
    try_bytes(&b);
    for (size_t i = 0; i < count; i++) {
        booked(&b, &bookings[i]);
        try_bytes(&b);
        try_all(&b);
    }
}

int main(void)
{
    static const struct trial some[] = {{1, 2, 0, 1900, 10000}, {1, 1, 0, 900, 5000}, {1, 1, 0, 400, 20000}, {0, 1, 1, 0, 0}, {1, 2, 0, 100, 1000}};
    static const struct trial full[] = {{1, 1, 0, 10, 20000}, {1, 1, 0, 20, 20000}, {1, 2, 0, 30, 20000}, {1, 1, 0, 40, 20000}, {1, 2, 0, 50, 20000},
        {1, 2, 0, 60, 20000}, {1, 1, 0, 70, 20000}, {1, 2, 0, 80, 20000}, {0, 2, 2, 0, 0}, {0, 1, 4, 0, 0}};
    beginnings();
    through(some, sizeof some / sizeof *some, 16000, UINT64_MAX);
    through(full, sizeof full / sizeof *full, UINT64_MAX, 4100);
    through(some, 2, 4000, 4000);
    struct yerbagunt_book extreme;
    memset(&extreme, 0xff, sizeof extreme);
    try_all(&extreme);
    memset(&extreme, 0, sizeof extreme);
    try_all(&extreme);
    printf("%lu booking tables, %u bookings each\n", tried, (unsigned)TRIALS);
    for (int n = 0; n < 32; n++)
        if (met[n])
            printf("answer %d: %lu\n", n, met[n]);
    printf("%lu wrong\n", wrong);
    return wrong != 0;
}
