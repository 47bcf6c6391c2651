/* A recorder of two channels: opens a table, queues requests, each with a tag of its own, runs turns and reports what the disk took. While no channel asks, it copies. */
#include <stdio.h>

#include "yerbagunt.h"

#define WORST 25000
#define PIECE (2 * WORST) /* the longest that a piece of the copy takes */

static struct yerbagunt_session session;

static void show(const char *call, struct yerbagunt_reply r)
{
    printf("%-8s answer %2llu stream %llu value %llu clock %llu tag %lu\n", call, (unsigned long long)r.number, (unsigned long long)r.stream,
           (unsigned long long)r.value, (unsigned long long)session.clock, (unsigned long)r.tag);
}

/* The disk: here each request takes 5,000 microseconds, and the seek from one place to another as long again. */
static uint64_t disk(uint64_t place)
{
    static uint64_t at;
    uint64_t taken = at == place ? 5000 : 10000;
    at = place;
    return taken;
}

/* A piece of a background copy is read at one place and written at another, for no channel. */
static uint64_t copy(void)
{
    uint64_t read = disk(300);
    return read + disk(600);
}

int main(void)
{
    const struct yerbagunt_reservation channels[2] = {{25000, 250000}, {175000, 500000}};
    struct yerbagunt_opening opening = yerbagunt_open(WORST, 1000000, 1, (struct yerbagunt_reservations){channels, 2}, YERBAGUNT_NEAREST);
    if (opening.number != YERBAGUNT_OK) { /* with 7 the load is -margin above the span; else margin is 0 */
        printf("refused %llu, margin %lld\n", (unsigned long long)opening.number, (long long)opening.margin);
        return 1;
    }
    session = opening.session;
    printf("admitted, margin %lld of the span %lu\n", (long long)session.margin, (unsigned long)session.span);

    show("arrival", yerbagunt_arrival(&session, 1, 100, 41));
    show("arrival", yerbagunt_arrival(&session, 2, 900, 42));
    show("arrival", yerbagunt_arrival(&session, 2, 900, 43)); /* the same place: the tag tells which one is done */
    show("arrival", yerbagunt_arrival(&session, 3, 7, 44));   /* there is no channel 3 */

    for (int left = 3; left > 0 || yerbagunt_fits(&session, PIECE);) {
        struct yerbagunt_reply turn = yerbagunt_turn(&session);
        show("turn", turn);
        if (turn.number == YERBAGUNT_SENT) { /* the disk serves the place that the turn names */
            show("done", yerbagunt_done(&session, disk(turn.value)));
            left--;
        } else if (turn.number == YERBAGUNT_WAIT && yerbagunt_fits(&session, PIECE)) { /* a piece that is copied now breaks no promise */
            show("copy", yerbagunt_clock(&session, session.clock + copy()));
        } else if (turn.number == YERBAGUNT_WAIT) { /* nothing to do before the latest safe moment */
            show("clock", yerbagunt_clock(&session, turn.value));
        } else if (turn.number < YERBAGUNT_ARRIVED || turn.number == YERBAGUNT_UNSOUND) {
            return 1;
        }
    }

    struct yerbagunt_view view = yerbagunt_view(session);
    printf("clock %llu horizon %llu latest safe moment %llu\n", (unsigned long long)view.clock, (unsigned long long)view.horizon,
           (unsigned long long)view.latest);
    for (uint64_t stream = 1; stream <= session.count; stream++) {
        struct yerbagunt_state state = yerbagunt_stream(session, stream);
        printf("stream %llu charge %llu of %llu\n", (unsigned long long)stream, (unsigned long long)state.stream.charge,
               (unsigned long long)state.stream.granted);
    }
    return 0;
}
