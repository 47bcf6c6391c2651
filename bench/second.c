/* The calls of the second program's engine, which keeps its session in place and judges it on each call as well. */
#include "engine.h"

#include <stddef.h>

typedef struct session image;

static struct table table;
static uint64_t order;

static void table_numbers(uint32_t worst, uint32_t span, uint32_t padding, uint32_t count, uint64_t by)
{
    table = (struct table){worst, span, padding, count, {{0, 0}}};
    order = by;
}

static void table_stream(size_t i, uint32_t reserved, uint32_t period)
{
    table.reservations[i] = (struct reservation){reserved, period};
}

static void prepare(image *session)
{
    int64_t margin;
    session_open(session, &table, order, &margin);
}

static uint64_t open_again(void)
{
    image session;
    int64_t margin;
    return session_open(&session, &table, order, &margin);
}

static uint64_t arrival(image *session, uint64_t stream, uint64_t place, uint32_t tag)
{
    return session_arrival(session, stream, place, tag).number;
}

static uint64_t turn(image *session)
{
    return session_turn(session).number;
}

static uint64_t own_turn(image *session, uint64_t stream, uint64_t index)
{
    return session_own_turn(session, stream, index).number;
}

static uint64_t done(image *session, uint64_t duration)
{
    return session_done(session, duration).number;
}

static uint64_t clock(image *session, uint64_t time)
{
    return session_clock(session, time).number;
}

/* This one goes round the table. */
static uint64_t latest(const image *session)
{
    return session_latest_safe(session);
}

#include "driver.h"
