// The booking table of document 02, Req 10: "Rental and in-house crews book streams into the same table before opening."
#ifndef SECOND_BOOKING_H
#define SECOND_BOOKING_H

#include "engine.h"

#define DESK_COUNT 2

// W, H and k, and the streams of both desks in one row, in the order in which they were booked, whoever's they are. Beside each
// stands the number of its desk, which is 0 past the count.
struct booking_table {
    struct table table;
    uint64_t desks[STREAM_MAX];
    uint64_t limits[DESK_COUNT];
};

// A refusal has the value 0.
struct booking_reply {
    enum number number;
    uint64_t value;
};

// "W, H and k are fixed first", and "both limits are fixed when the table is begun". The limits are those of desk 1 and desk 2.
struct booking_reply booking_begin(
    struct booking_table *b, uint32_t worst, uint32_t span, uint32_t padding, const uint64_t limits[DESK_COUNT]);

// "A desk may add a stream or withdraw one of its own."
struct booking_reply booking_add(struct booking_table *b, uint64_t desk, struct reservation r);
struct booking_reply booking_withdraw(struct booking_table *b, uint64_t desk, uint64_t number);

// TOLD, and the finished table through the pointer; or UNSOUND, and one without anything.
enum number booking_finish(const struct booking_table *b, struct table *finished);

#endif
