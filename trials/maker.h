// What the parts of the maker share: a file in the making, and the three kinds of parts.
#ifndef TRIALS_MAKER_H
#define TRIALS_MAKER_H

#include "../second/engine.h"
#include "chance.h"

#include <stddef.h>

#define EVENT_MAX 4000
#define TABLE_BYTES 16
#define RESERVATION_BYTES 8
#define EVENT_BYTES 16
#define ORDER_BYTES 4

enum { EVENT_ARRIVAL = 1, EVENT_TURN, EVENT_OWN_TURN, EVENT_DONE, EVENT_CLOCK };

struct event {
    uint8_t kind;
    uint8_t stream;
    uint32_t tag;
    uint64_t value;
};

// The order of a session, and whether its file has a third entry that says it; a file without one means nearest.
struct ordering {
    enum order order;
    bool told;
};

// One event more than a file may have, for the file that has too many.
struct trace {
    struct event events[EVENT_MAX + 1];
    size_t count;
};

// A table that opening admits, most often with no slack left.
void make_table(struct chance *c, struct table *t);

// A table whose horizon goes far with few turns.
void make_far_table(struct chance *c, struct table *t);

// A table at or past a limit, perhaps with several faults.
void make_faulty_table(struct chance *c, struct table *t);

// Up to `most` events that follow the state of a session over `t`; any events if `t` is not admitted.
void make_trace(struct chance *c, const struct table *t, enum order order, size_t most, struct trace *trace);

// The same after a late clock and the turns that bring the horizon up to it.
void make_far_trace(struct chance *c, const struct table *t, enum order order, size_t most, struct trace *trace);

// Spoils the file of `*size` bytes in place, within `room` bytes.
void damage(struct chance *c, uint8_t *file, size_t *size, size_t room);

// Writes a number in `width` bytes, little-endian.
void put(uint8_t *at, uint64_t number, size_t width);

// Where entry `i` of the contents stands, counted from 0; and so where a file of `i` entries has its first body.
size_t entry_at(size_t i);

// Writes entry `i`, whose kind is one more.
void put_entry(uint8_t *file, size_t i, size_t offset, size_t length);

// Lays a file out and gives its size, also where the trace is too long.
size_t lay_out(const struct table *t, struct ordering o, const struct trace *trace, uint8_t *file);

#endif
