/* The calls over a lent session and the ask, as products in C make them. */
#include "yerbagunt.h"

typedef struct yerbagunt_session image;

static uint32_t worst, span, padding;
static uint64_t order;
static struct yerbagunt_reservation records[YERBAGUNT_STREAMS_MAX];
static size_t count;

static void table_numbers(uint32_t w, uint32_t h, uint32_t k, uint32_t streams, uint64_t by)
{
    worst = w;
    span = h;
    padding = k;
    count = streams;
    order = by;
}

static void table_stream(size_t i, uint32_t reserved, uint32_t period)
{
    records[i] = (struct yerbagunt_reservation){reserved, period};
}

/* Opening hands the session over by value. */
static struct yerbagunt_opening opened(void)
{
    return yerbagunt_open(worst, span, padding, (struct yerbagunt_reservations){records, count}, order);
}

static void prepare(image *session)
{
    *session = opened().session;
}

static uint64_t open_again(void)
{
    struct yerbagunt_opening o = opened();
    return o.number;
}

static uint64_t arrival(image *session, uint64_t stream, uint64_t place, uint32_t tag)
{
    return yerbagunt_arrival(session, stream, place, tag).number;
}

static uint64_t turn(image *session)
{
    return yerbagunt_turn(session).number;
}

static uint64_t own_turn(image *session, uint64_t stream, uint64_t index)
{
    return yerbagunt_own_turn(session, stream, index).number;
}

static uint64_t done(image *session, uint64_t duration)
{
    return yerbagunt_done(session, duration).number;
}

static uint64_t clock(image *session, uint64_t time)
{
    return yerbagunt_clock(session, time).number;
}

static uint64_t latest(const image *session)
{
    return yerbagunt_latest_of(session).at;
}

#include "driver.h"
