// Reads a session file from standard input and prints the listing that a foreign dispatcher might print of it: each turn that
// sends takes any request of the set, by chance from the seed that its one word names. A refused file has its refusal.
#include "../second/listing.h"
#include "../trials/chance.h"

#include <stdlib.h>

// Of one stream's requests with equal place and tag the earliest goes first.
static uint64_t earliest(const struct stream *m, uint64_t index)
{
    for (uint64_t i = 0; i < index; i++)
        if (m->places[i] == m->places[index] && m->tags[i] == m->tags[index])
            return i;
    return index;
}

// The own turn that sends request `n` of the set, counted from 0 through the queues of all streams.
static struct event own_turn(const struct session *s, uint64_t n)
{
    uint8_t stream = 1;
    for (; n >= session_filled(s, stream); stream++)
        n -= session_filled(s, stream);
    return (struct event){EVENT_OWN_TURN, stream, 0, earliest(&s->streams[stream - 1], n)};
}

// What the foreign dispatcher does at an event.
static struct event chosen(const struct session *s, struct event e, struct chance *c)
{
    uint64_t set = 0;
    for (uint32_t stream = 1; stream <= s->table.count; stream++)
        set += session_filled(s, stream);
    if (e.kind != EVENT_TURN || s->disk_stream != 0 || set == 0)
        return e;
    return own_turn(s, below(c, set));
}

int main(int count, char **words)
{
    static struct run run;
    struct opening o = start_run(&run, stdin);
    struct chance c = {count == 2 ? strtoull(words[1], NULL, 10) : 0};
    if (o.number != ADMITTED) {
        print_line(refused_line(o));
        return 0;
    }
    print_line(header_line());
    for (size_t i = 0; i < run.count; i++) {
        struct event e = run_event_at(&run, i);
        struct reply r = run_event(&run.session, chosen(&run.session, e, &c));
        print_line(event_line(i + 1, e, r, run.session.clock));
    }
    return 0;
}
