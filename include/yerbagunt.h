/* Yerbagunt: one disk shared among up to eight channels.
 *
 * Link libshelf.a (x86-64), from C11 or C++11 on. Times are whole microseconds, streams are counted from 1, places of a queue from 0.
 * Any numbers get a reply. A refusal changes no byte.
 *
 * This is asked of a caller, and nothing else:
 *
 * - Pointers. A pointer is valid for the length beside it, a session's for a session, and a booking table's for a booking table.
 *   Where the length is 0 nothing is read or written, and the pointer may be null. Nowhere else may it be.
 * - No overlap. What one call is lent shares no byte. Only yerbagunt_write, a trace and a buffer, and yerbagunt_salvage, an old file, a buffer and
 *   a list, are lent more than one thing: with the trace or the old file inside the buffer they may answer 0 and leave there what no reader accepts.
 * - Alignment. A session, a booking table and a list of changes stand where C puts them, at a multiple of 8 bytes, and the records of a table at
 *   one of 4. Bytes stand anywhere.
 * - One thread at a time. Until a call returns, no other thread uses its session, its booking table, its buffer or its list, nor writes what else it
 *   was lent. Different ones are used by different threads as you like: the library keeps nothing from one call to the next.
 * - Stack. A call takes up to 16 KB of it. It takes no other memory.
 *
 * A session and a booking table are structs like any other: they may be moved and copied, and a copy goes on from where it was taken. */
#ifndef YERBAGUNT_H
#define YERBAGUNT_H

#include <stddef.h>
#include <stdint.h>

/* The version of this header and of its library. Another major number: the layout of a struct changed, or the answer to some input; read what
 * changed, and compile anew. Another minor number: something was added, and programs go on as they are. Another patch: neither.
 * The numbers of replies keep their meaning through all of them. */
#define YERBAGUNT_VERSION "7.2.0"
#define YERBAGUNT_VERSION_MAJOR 7
#define YERBAGUNT_VERSION_MINOR 2
#define YERBAGUNT_VERSION_PATCH 0

#ifdef __cplusplus
extern "C" {
#define YERBAGUNT_ASSERT static_assert

/* Three functions share their name with a struct. C tells them apart by the word `struct`. In C++ the name is the struct, and before a
 * bracket the function: `yerbagunt_view v = yerbagunt_view(session);`. A pointer to the function is `&yerbagunt_view_of` there, and where
 * the struct stands before a bracket it takes another name, as by `using view = yerbagunt_view;`. What is linked is the same. */
#define yerbagunt_view(...) yerbagunt_view_of(__VA_ARGS__)
#define yerbagunt_stream(...) yerbagunt_stream_of(__VA_ARGS__)
#define yerbagunt_table(...) yerbagunt_table_of(__VA_ARGS__)
#pragma redefine_extname yerbagunt_view_of yerbagunt_view
#pragma redefine_extname yerbagunt_stream_of yerbagunt_stream
#pragma redefine_extname yerbagunt_table_of yerbagunt_table
#else
#define YERBAGUNT_ASSERT _Static_assert
#endif

#define YERBAGUNT_STREAMS_MAX 8
#define YERBAGUNT_QUEUE_MAX 16
#define YERBAGUNT_EVENT_SIZE 16
#define YERBAGUNT_EVENTS_MAX 4000
#define YERBAGUNT_ORDER_SIZE 4 /* of the third body of a file, which says the order */
#define YERBAGUNT_SALVAGED_MAX 64106 /* of a file of two entries: no file that is salvaged is longer */

/* The numbers of replies. Their meaning does not change. */
enum yerbagunt_number {
    YERBAGUNT_OK = 0,          /* opened, shown, told, read, written, salvaged, begun, booked or finished */
    YERBAGUNT_COUNT = 1,       /* no stream, or more than 8; of yerbagunt_add: a ninth */
    YERBAGUNT_WORST = 2,       /* W outside 1 to 1,000,000 */
    YERBAGUNT_SPAN = 3,        /* H outside 1,000 to 600,000,000 */
    YERBAGUNT_PADDING = 4,     /* k above 3 */
    YERBAGUNT_PERIOD = 5,      /* p outside 1,000 to 60,000,000 or not dividing H */
    YERBAGUNT_BUDGET = 6,      /* e = 0 or g > p */
    YERBAGUNT_LOAD = 7,        /* load > H, by -margin of the opening */
    YERBAGUNT_NO_STREAM = 8,   /* stream number 0 or above the count */
    YERBAGUNT_FULL = 9,        /* queue holds 16 */
    YERBAGUNT_BUSY = 10,       /* a request is at the disk */
    YERBAGUNT_IDLE = 11,       /* no request is at the disk */
    YERBAGUNT_DURATION = 12,   /* duration outside 1 to 10,000,000 */
    YERBAGUNT_PAST = 13,       /* time below the clock */
    YERBAGUNT_END = 14,        /* a clock, or a deadline in a move, would pass 1,000,000,000,000 */
    YERBAGUNT_NOT_IN_SET = 15, /* index not in the set */
    YERBAGUNT_LAYOUT = 16,     /* file or event not as laid out; of yerbagunt_salvage: no table to take */
    YERBAGUNT_ROOM = 17,       /* output buffer shorter than the file; of yerbagunt_salvage also: list shorter than the changes */
    YERBAGUNT_LIMIT = 18,      /* the desk's own sum would pass its limit */
    YERBAGUNT_NO_BOOKING = 19, /* the desk has no stream of that number */
    YERBAGUNT_ARRIVED = 20,    /* value: queue length */
    YERBAGUNT_SENT = 21,       /* value: place; with the request's tag */
    YERBAGUNT_EXPIRED = 22,    /* value: charge after */
    YERBAGUNT_MOVED = 23,      /* value: new horizon */
    YERBAGUNT_WAIT = 24,       /* value: latest safe moment */
    YERBAGUNT_DONE = 25,       /* value: charge after; with the request's tag */
    YERBAGUNT_OVERLONG = 26,   /* value: charge after; with the request's tag */
    YERBAGUNT_CLOCK = 27,      /* value: time */
    YERBAGUNT_LATE = 28,       /* value: time */
    YERBAGUNT_NO_DESK = 30,    /* desk not 1 or 2 */
    YERBAGUNT_UNSOUND = 31     /* the session or booking table handed to a call is not sound; of yerbagunt_open: no such order; of yerbagunt_latest: no such moment */
};

/* The order in which a turn takes requests. It chooses among those of the set that belong to the streams with the earliest deadline. The head is
 * the place of the last request sent, and 0 at first. Of requests that are equally near, or for one place, that of the lower stream goes first,
 * and of one stream the one that arrived earlier. The promise is the same in both, and nothing but what a turn sends depends on the order. */
enum yerbagunt_order {
    YERBAGUNT_NEAREST = 0, /* nearest first: the place nearest to the head, above it or below */
    YERBAGUNT_SWEEP = 1    /* sweep (C-SCAN): the smallest place not below the head, and where there is none, the smallest of all */
};

/* A stream's last closed job; all zero before the first. */
struct yerbagunt_job {
    uint64_t charge, closed, deadline, expired;
    uint64_t start; /* of the charge, what the job started with; its own disk time is charge - start - W * expired */
};

struct yerbagunt_stream {
    uint32_t reserved, period;
    uint64_t granted, release, deadline, charge, expired;
    uint64_t start;  /* of the charge, what the open job started with: what the one before it was charged above `granted`, or 0 */
    uint64_t queued; /* the first so many places and tags are used, in order of arrival; the others are 0 */
    uint64_t places[YERBAGUNT_QUEUE_MAX];
    uint32_t tags[YERBAGUNT_QUEUE_MAX]; /* of the requests for these places */
    struct yerbagunt_job last;
};

/* A session. Read its cells as you like; a call answers 31 to one whose cells were changed into what no session is. Only yerbagunt_latest, and
 * what is made of it below, looks at a few cells and judges no other. No byte of it is padding. */
struct yerbagunt_session {
    uint32_t worst, span;
    uint32_t padding; /* k as it was given; 0 stands for 3 */
    uint32_t tag;     /* the tag of the request at the disk, or 0 */
    uint64_t order;   /* as it was given: 0 nearest, 1 sweep; any other number is answered 31 */
    uint64_t count;
    int64_t margin;     /* H less the load, 0 or more; it follows from the table and never changes, and any other number is answered 31 */
    uint64_t horizon;   /* the smallest deadline; any other number is answered 31 */
    int64_t remainders; /* the disk time that all streams are owed up to the horizon, times H; any other number is answered 31 */
    uint64_t clock, head;
    uint64_t served; /* the stream whose request is at the disk, or 0 */
    uint64_t place;  /* and the place of that request, or 0; its tag stands above */
    struct yerbagunt_stream streams[YERBAGUNT_STREAMS_MAX];
};

YERBAGUNT_ASSERT(sizeof(size_t) == 8, "a target with 64-bit sizes");
YERBAGUNT_ASSERT(sizeof(struct yerbagunt_job) == 40, "job");
YERBAGUNT_ASSERT(sizeof(struct yerbagunt_stream) == 296, "stream");
YERBAGUNT_ASSERT(offsetof(struct yerbagunt_stream, granted) == 8, "stream.granted");
YERBAGUNT_ASSERT(offsetof(struct yerbagunt_stream, start) == 48, "stream.start");
YERBAGUNT_ASSERT(offsetof(struct yerbagunt_stream, queued) == 56, "stream.queued");
YERBAGUNT_ASSERT(offsetof(struct yerbagunt_stream, places) == 64, "stream.places");
YERBAGUNT_ASSERT(offsetof(struct yerbagunt_stream, tags) == 192, "stream.tags");
YERBAGUNT_ASSERT(offsetof(struct yerbagunt_stream, last) == 256, "stream.last");
YERBAGUNT_ASSERT(sizeof(struct yerbagunt_session) == 2456, "session");
YERBAGUNT_ASSERT(offsetof(struct yerbagunt_session, tag) == 12, "session.tag");
YERBAGUNT_ASSERT(offsetof(struct yerbagunt_session, order) == 16, "session.order");
YERBAGUNT_ASSERT(offsetof(struct yerbagunt_session, count) == 24, "session.count");
YERBAGUNT_ASSERT(offsetof(struct yerbagunt_session, margin) == 32, "session.margin");
YERBAGUNT_ASSERT(offsetof(struct yerbagunt_session, horizon) == 40, "session.horizon");
YERBAGUNT_ASSERT(offsetof(struct yerbagunt_session, remainders) == 48, "session.remainders");
YERBAGUNT_ASSERT(offsetof(struct yerbagunt_session, clock) == 56, "session.clock");
YERBAGUNT_ASSERT(offsetof(struct yerbagunt_session, head) == 64, "session.head");
YERBAGUNT_ASSERT(offsetof(struct yerbagunt_session, served) == 72, "session.served");
YERBAGUNT_ASSERT(offsetof(struct yerbagunt_session, place) == 80, "session.place");
YERBAGUNT_ASSERT(offsetof(struct yerbagunt_session, streams) == 88, "session.streams");

struct yerbagunt_reservation {
    uint32_t reserved, period;
};

/* Slices that are lent for the time of a call. */
struct yerbagunt_reservations {
    const struct yerbagunt_reservation *records;
    size_t length;
};

struct yerbagunt_bytes {
    const uint8_t *bytes;
    size_t length;
};

struct yerbagunt_buffer {
    uint8_t *bytes;
    size_t length;
};

/* A reply: its number, the stream that it is about (a refused call's own), its value (0 for a refusal), and the tag of the request sent or
 * done. Four bytes of padding follow the tag. */
struct yerbagunt_reply {
    uint64_t number, stream, value;
    uint32_t tag; /* with 21, 25 and 26 the tag of the request, as it was given on arrival; else 0 */
};

/* number 0 and a session; or 31 or 1 to 7 and the all-zero session, which is not sound. */
struct yerbagunt_opening {
    uint64_t number;
    int64_t margin; /* H less the load: with 0 the session's, with 7 below 0, so that the load is -margin above H; with 31 and 1 to 6 it is 0 */
    struct yerbagunt_session session;
};

/* number 0; or 31 beside zeros. */
struct yerbagunt_view {
    uint64_t number, clock, horizon, latest;
    int64_t margin; /* the session's */
};

/* number 0 and a moment; or 31 and 0. */
struct yerbagunt_moment {
    uint64_t number, at;
};

YERBAGUNT_ASSERT(sizeof(struct yerbagunt_reply) == 32, "reply");
YERBAGUNT_ASSERT(offsetof(struct yerbagunt_reply, tag) == 24, "reply.tag");
YERBAGUNT_ASSERT(sizeof(struct yerbagunt_opening) == 2472, "opening");
YERBAGUNT_ASSERT(offsetof(struct yerbagunt_opening, margin) == 8, "opening.margin");
YERBAGUNT_ASSERT(offsetof(struct yerbagunt_opening, session) == 16, "opening.session");
YERBAGUNT_ASSERT(sizeof(struct yerbagunt_view) == 40, "view");
YERBAGUNT_ASSERT(offsetof(struct yerbagunt_view, margin) == 32, "view.margin");
YERBAGUNT_ASSERT(sizeof(struct yerbagunt_moment) == 16, "moment");
YERBAGUNT_ASSERT(offsetof(struct yerbagunt_moment, at) == 8, "moment.at");

struct yerbagunt_state {
    uint64_t number;
    struct yerbagunt_stream stream;
};

YERBAGUNT_ASSERT(sizeof(struct yerbagunt_state) == 304, "state");

struct yerbagunt_closing {
    uint64_t number;
    struct yerbagunt_job job;
};

/* The table of a session file; a padding of 0 is handed over as 0. */
struct yerbagunt_table {
    uint32_t worst, span, padding;
    uint64_t count;
    uint32_t reserved[YERBAGUNT_STREAMS_MAX], period[YERBAGUNT_STREAMS_MAX];
};

/* number 0 and the parts of a session file; or 16 beside zeros. The trace is the bytes from start up to end. */
struct yerbagunt_file {
    uint64_t number, count, start, end, events;
    uint64_t order; /* 0 nearest, 1 sweep; a file of two entries means nearest */
    uint64_t third; /* the length of the third body: 0 in a file of two entries, YERBAGUNT_ORDER_SIZE in one of three */
};

YERBAGUNT_ASSERT(sizeof(struct yerbagunt_file) == 56, "file");
YERBAGUNT_ASSERT(offsetof(struct yerbagunt_file, order) == 40, "file.order");
YERBAGUNT_ASSERT(offsetof(struct yerbagunt_file, third) == 48, "file.third");

struct yerbagunt_written {
    uint64_t number, length;
};

/* What salvaging changed. */
enum yerbagunt_kind {
    YERBAGUNT_CONTENTS = 1, /* the contents table, the first 26 bytes, was rewritten */
    YERBAGUNT_DROPPED = 2,  /* an event was dropped: it is not as laid out, or comes after the first 4,000 that are */
    YERBAGUNT_CUT = 3       /* the tail was cut: fewer bytes than an event has */
};

/* A change, and where in the old file what it took away stands: contents at 0, an event's first byte, or the first byte of the tail. */
struct yerbagunt_change {
    uint64_t kind, position;
};

/* number 0, how long the file is and how many changes are listed; or 16 or 17 beside zeros. */
struct yerbagunt_salvaged {
    uint64_t number, length, changes;
};

YERBAGUNT_ASSERT(sizeof(struct yerbagunt_change) == 16, "change");
YERBAGUNT_ASSERT(offsetof(struct yerbagunt_change, position) == 8, "change.position");
YERBAGUNT_ASSERT(sizeof(struct yerbagunt_salvaged) == 24, "salvaged");
YERBAGUNT_ASSERT(offsetof(struct yerbagunt_salvaged, changes) == 16, "salvaged.changes");

/* Opens a session with W, H, k, the records of a table, of any length, and an order: 31 where the order is neither YERBAGUNT_NEAREST nor
 * YERBAGUNT_SWEEP, whatever the table is; 1 to 7.
 * A stream's granted budget g is e and k times W, where a k of 0 stands for 3. The load is the sum of g * (H / p)
 * over the streams, plus W * (H / smallest p), and the margin is H less the load. Both are exact. */
struct yerbagunt_opening yerbagunt_open(uint32_t worst, uint32_t span, uint32_t padding, struct yerbagunt_reservations table, uint64_t order);

/* Puts a request for a place at the end of a stream's queue: 31, 8, 9; 20. The tag is your own number for it, any of 32 bits, and comes back
 * when the request is sent and when it is done. What is sent, and when, does not depend on it, and two requests may have the same. */
struct yerbagunt_reply yerbagunt_arrival(struct yerbagunt_session *session, uint64_t stream, uint64_t place, uint32_t tag);

/* What the house does next: 31, 10, 14; 21 sent, by the session's order, 23 moved, 24 wait, 22 expired. */
struct yerbagunt_reply yerbagunt_turn(struct yerbagunt_session *session);

/* The caller's own choice from the set, a stream and an index of its queue: 31, 10, 8, 15; 21. */
struct yerbagunt_reply yerbagunt_own_turn(struct yerbagunt_session *session, uint64_t stream, uint64_t index);

/* The request at the disk took so long: 31, 11, 12, 14; 25, or 26 above W. */
struct yerbagunt_reply yerbagunt_done(struct yerbagunt_session *session, uint64_t duration);

/* The time is reported: 31, 10, 13, 14; 27, or 28 after the latest safe moment. */
struct yerbagunt_reply yerbagunt_clock(struct yerbagunt_session *session, uint64_t time);

/* The clock, the horizon, the latest safe moment and the margin: 31. The session is passed by value: nothing of it can change. */
struct yerbagunt_view yerbagunt_view(struct yerbagunt_session session);

/* The latest safe moment from three cells of a session: the horizon less remainders / span, rounded down. 31 comes exactly if the span is 0,
 * or if that number is below 0 or does not fit 64 unsigned bits.
 * A stream is owed (horizon - release) * granted / period - charge, which an overrun may take below 0; `remainders` is the sum over the streams,
 * times the span. So of a session that calls have made the answer is the latest of its view. It looks at three numbers only, and does not
 * judge the session: one that no call has made, to which all other calls answer 31, may get a number here. */
struct yerbagunt_moment yerbagunt_latest(uint64_t horizon, int64_t remainders, uint64_t span);

/* The same of a session's own cells. It may be asked at any time, while a request is at the disk too; nothing is copied, and nothing changes. */
static inline struct yerbagunt_moment yerbagunt_latest_of(const struct yerbagunt_session *session)
{
    return yerbagunt_latest(session->horizon, session->remainders, session->span);
}

/* 1 if a request of your own, such as a piece of a background copy, may have the disk now for at most `length`; else 0. It is 1 exactly if
 * nothing is at the disk, there is a latest safe moment, and the clock and `length` together, which do not wrap, are no later than it.
 * The clock is the session's: if time has passed since the last report, report it before you ask.
 * After a 1, run the request, and when it has ended report the time, before the next turn; requests may arrive meanwhile. If the session is one
 * that calls have made, that report is answered 27 and breaks no promise, whatever is queued. It is not 10, since nothing is at the disk,
 * and 14 only past 1,000,000,000,000, where nothing changes. If the request took longer than `length`, the report may be answered 28. */
static inline int yerbagunt_fits(const struct yerbagunt_session *session, uint64_t length)
{
    struct yerbagunt_moment latest = yerbagunt_latest_of(session);
    return session->served == 0 && latest.number == YERBAGUNT_OK && session->clock <= latest.at && length <= latest.at - session->clock;
}

/* A stream: 31, 8. */
struct yerbagunt_state yerbagunt_stream(struct yerbagunt_session session, uint64_t stream);

/* The last job that a stream closed: 31, 8. */
struct yerbagunt_closing yerbagunt_last_job(struct yerbagunt_session session, uint64_t stream);

/* Reads a session file: 16. The order and every event are judged, and no number of the table but its count; opening judges those. */
struct yerbagunt_file yerbagunt_read(struct yerbagunt_bytes file);

/* The table of a file that was read. */
struct yerbagunt_table yerbagunt_table(struct yerbagunt_bytes file);

/* Writes the file of a table, a trace and an order at the start of a buffer, with a third body of so many bytes: 16, 17. Bytes after the file
 * stay as they were. With a third of 0 the file has two entries, which older programs read too, and no place for an order but nearest; with
 * YERBAGUNT_ORDER_SIZE it has three, and says its order. Any other order or third is 16. To write a file again byte for byte, hand in the order
 * and the third that reading it answered. */
struct yerbagunt_written yerbagunt_write(struct yerbagunt_table table, struct yerbagunt_bytes trace, struct yerbagunt_buffer out, uint64_t order,
                                         uint64_t third);

/* Salvages a broken session file: 16, 17. Of the old file it takes the table body that stands just after two entries, at 26, with its own count,
 * and whole events from there to the end. At the start of the buffer it writes a sound file of two entries, of that table and of the first 4,000
 * events that are as laid out; and at the start of the list, which has so many places, each change, in order of position. What is behind the file
 * and behind the list stays as it was. A file of two entries that yerbagunt_read accepts comes out equal, with no change, and so does one that was
 * salvaged. The numbers of the table are not judged; opening judges those.
 * 16: the first two bytes say 3, the count is above 8, or the table is cut short. 17: the file or the list does not fit. With a buffer of
 * YERBAGUNT_SALVAGED_MAX bytes, or as long as the old file, and a place for every 16 bytes of the old file, rounded down, there is no 17.
 * The list is lent by two arguments: the library does not take a third slice where C puts a struct. */
struct yerbagunt_salvaged yerbagunt_salvage(struct yerbagunt_bytes old, struct yerbagunt_buffer out, struct yerbagunt_change *changes, size_t places);

/* Two booking desks, 1 and 2, on one table, before it is opened. Each has a limit on the sum of g * (H / p) over its own streams, without the last
 * term of the load, and counts its own streams from 1 in order of booking. What a desk is told depends on its own streams and limit, the number of
 * all streams, the load of the whole table and its smallest period, and on nothing else of the other desk. */
struct yerbagunt_desk {
    uint64_t limit; /* any number; a sum that is as large does not pass it */
    uint64_t count; /* the first so many streams are used; the others are 0 */
    struct yerbagunt_reservation streams[YERBAGUNT_STREAMS_MAX];
};

/* A booking table: what yerbagunt_begin makes. Read its cells as you like; every booking answers 31 to a table that breaks 2 to 7 or a desk's limit,
 * or of which an unused cell is not 0. No byte of it is padding. */
struct yerbagunt_book {
    uint32_t worst, span;
    uint32_t padding; /* k as it was given; 0 stands for 3 */
    uint32_t unused;  /* 0 */
    struct yerbagunt_desk desks[2];
};

/* number 0, and how many streams the desk has then (after yerbagunt_begin 0); or the number of a refusal, and 0: 7 comes without the margin. */
struct yerbagunt_receipt {
    uint64_t number, value;
};

/* number 0 and the streams of both desks, desk 1's first; or 31 and none. */
struct yerbagunt_finished {
    uint64_t number;
    struct yerbagunt_reservation records[YERBAGUNT_STREAMS_MAX];
    uint64_t count;
};

YERBAGUNT_ASSERT(sizeof(struct yerbagunt_desk) == 80, "desk");
YERBAGUNT_ASSERT(offsetof(struct yerbagunt_desk, count) == 8, "desk.count");
YERBAGUNT_ASSERT(offsetof(struct yerbagunt_desk, streams) == 16, "desk.streams");
YERBAGUNT_ASSERT(sizeof(struct yerbagunt_book) == 176, "book");
YERBAGUNT_ASSERT(offsetof(struct yerbagunt_book, unused) == 12, "book.unused");
YERBAGUNT_ASSERT(offsetof(struct yerbagunt_book, desks) == 16, "book.desks");
YERBAGUNT_ASSERT(sizeof(struct yerbagunt_receipt) == 16, "receipt");
YERBAGUNT_ASSERT(sizeof(struct yerbagunt_finished) == 80, "finished");
YERBAGUNT_ASSERT(offsetof(struct yerbagunt_finished, records) == 8, "finished.records");
YERBAGUNT_ASSERT(offsetof(struct yerbagunt_finished, count) == 72, "finished.count");

/* Begins a booking table, whatever it was before, with W, H, k and the limits of desk 1 and desk 2: 2, 3, 4, and then it is all zero, which is not
 * sound; 0. */
struct yerbagunt_receipt yerbagunt_begin(struct yerbagunt_book *book, uint32_t worst, uint32_t span, uint32_t padding, uint64_t limit1, uint64_t limit2);

/* A stream more of a desk: 31, 30, 1, 5, 6, 18, 7; 0. */
struct yerbagunt_receipt yerbagunt_add(struct yerbagunt_book *book, uint64_t desk, uint32_t reserved, uint32_t period);

/* One stream less of a desk, by its number among the desk's own; those behind it move up by one: 31, 30, 19; 0. */
struct yerbagunt_receipt yerbagunt_withdraw(struct yerbagunt_book *book, uint64_t desk, uint64_t number);

/* The streams of the finished table: 31. The table is passed by value: nothing of it can change, and bookings may go on. With its W, H and k they
 * are opened as they are, in a yerbagunt_reservations of `records` and `count`: what comes of a sound table is admitted, or refused by 1 if it
 * has no stream. */
struct yerbagunt_finished yerbagunt_finish(struct yerbagunt_book book);

#ifdef __cplusplus
}
#endif

#endif
