// The session of document 01, as document 02 changes it, in place and written a second time: the trials compare it with
// the crates.
#ifndef SECOND_ENGINE_H
#define SECOND_ENGINE_H

#include <stdbool.h>
#include <stdint.h>

#define STREAM_MAX 8
#define QUEUE_MAX 16

#define WORST_MIN 1u
#define WORST_MAX 1000000u
#define SPAN_MIN 1000u
#define SPAN_MAX 600000000u
#define PADDING_MAX 3u
#define PADDING_DEFAULT 3u
#define PERIOD_MIN 1000u
#define PERIOD_MAX 60000000u
#define DURATION_MAX 10000000u
#define SESSION_END 1000000000000u

// "Replies by number"
enum number {
    ADMITTED = 0,
    TOLD = 0,
    BOOKED = 0,
    BAD_COUNT = 1,
    BAD_WORST = 2,
    BAD_SPAN = 3,
    BAD_PADDING = 4,
    BAD_PERIOD = 5,
    BAD_RESERVED = 6,
    OVERLOAD = 7,
    BAD_STREAM = 8,
    QUEUE_FULL = 9,
    DISK_BUSY = 10,
    DISK_IDLE = 11,
    BAD_DURATION = 12,
    TIME_BELOW = 13,
    PAST_END = 14,
    NOT_IN_SET = 15,
    BAD_LAYOUT = 16,
    PAST_LIMIT = 18,
    NOT_BOOKED = 19,
    ARRIVED = 20,
    SENT = 21,
    EXPIRED = 22,
    MOVED = 23,
    WAIT = 24,
    DONE = 25,
    DONE_OVERLONG = 26,
    CLOCK = 27,
    CLOCK_LATE = 28,
    BAD_DESK = 30,
    UNSOUND = 31
};

// Document 02, Req 08: "Which order a session uses is one choice held in it", by its number in a file: "0 nearest, 1 sweep"
enum order { ORDER_NEAREST = 0, ORDER_SWEEP = 1 };

// "per stream: reserved time e and period p"
struct reservation {
    uint32_t reserved;
    uint32_t period;
};

// "one per stream, with three numbers for the whole table": W, H, k. The reservations past the count are zero.
struct table {
    uint32_t worst;
    uint32_t span;
    uint32_t padding;
    uint32_t count;
    struct reservation reservations[STREAM_MAX];
};

// "a record of the last closed job (charge, closing clock, deadline, expired count; all zero before the first)"; document
// 02, Req 03: "The last-job record also keeps what the job started with."
struct record {
    uint64_t charge;
    uint64_t clock;
    uint64_t deadline;
    uint64_t expired;
    uint64_t start;
};

// The start is what the open job started with, 0 at first. Document 02, Req 07: "A queued request becomes a place with a tag
// of 32 bits", both at the same index.
struct stream {
    uint64_t granted;
    uint64_t release;
    uint64_t deadline;
    uint64_t charge;
    uint64_t expired;
    uint64_t start;
    uint64_t length;
    uint64_t places[QUEUE_MAX];
    uint32_t tags[QUEUE_MAX];
    struct record last;
};

// Streams are numbered from 1; stream 0 at the disk stands for none. The margin is H less the load of the table; document
// 02, Req 05: "the session keeps it when admitted". The horizon and the remainders are what Req 06 asks by: "The session
// keeps the sum of remainders, scaled by the span so that it is whole". The order is a number of `enum order`. No member
// leaves a gap, so each byte is a cell's; for this the tag at the disk, of 32 bits, and the order have cells of 64.
struct session {
    struct table table;
    uint64_t order;
    int64_t margin;
    uint64_t horizon;
    int64_t remainders;
    uint64_t clock;
    uint64_t head;
    uint64_t disk_stream;
    uint64_t disk_place;
    uint64_t disk_tag;
    struct stream streams[STREAM_MAX];
};

// A refusal has stream 0 and value 0. The tag is that of the request sent or done, and else 0.
struct reply {
    enum number number;
    uint32_t stream;
    uint64_t value;
    uint32_t tag;
};

// ADMITTED, or the refusal by 2 to 6 of a table with up to eight streams or none. Through the pointer goes the load, which is 0
// without a stream, and with a refusal.
enum number judge_table(const struct table *t, uint64_t *total);

// ADMITTED, or the refusal; a refused opening leaves the all-zero session. Through the pointer goes the margin: not
// negative if admitted, negative with 7, and 0 with every other refusal. A number that is no order is refused by UNSOUND,
// before the table is looked at.
enum number session_open(struct session *s, const struct table *t, uint64_t order, int64_t *margin);

struct reply session_arrival(struct session *s, uint64_t stream, uint64_t place, uint32_t tag);
struct reply session_turn(struct session *s);
struct reply session_own_turn(struct session *s, uint64_t stream, uint64_t index);
struct reply session_done(struct session *s, uint64_t duration);
struct reply session_clock(struct session *s, uint64_t time);

// Document 02, Req 06, the latest safe moment without going round the table: "Asking reads only that sum, the horizon and
// the span". TOLD, and the moment through the pointer; or UNSOUND, and 0. Any three numbers are answered.
enum number latest_asked(uint64_t horizon, int64_t remainders, uint64_t span, uint64_t *moment);

// What the calls judge by, for whoever follows a sound session. They go round the table.
uint64_t session_horizon(const struct session *s);
uint64_t session_latest_safe(const struct session *s);
uint64_t session_filled(const struct session *s, uint64_t stream);
uint32_t padding_of(const struct table *t);
bool is_order(uint64_t number);
uint64_t granted_budget(const struct table *t, const struct reservation *r);

#endif
