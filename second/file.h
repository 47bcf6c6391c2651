// The session file of document 01, as document 02 changes it, and its run, for every program of this folder.
#ifndef SECOND_FILE_H
#define SECOND_FILE_H

#include "engine.h"

#include <stdio.h>

// "Two bytes: number of entries", "entries of 12 bytes: kind, offset, length, four bytes each"; document 02, Req 08: "A third
// entry in the contents table, kind 3, holds four bytes", and a file may have two entries or three.
#define NUMBER_BYTES 2
#define ENTRY_BYTES 12
#define ENTRIES_PLAIN 2
#define ENTRIES_ORDERED 3
#define CONTENTS_BYTES(entries) (NUMBER_BYTES + ENTRY_BYTES * (entries))
#define TABLE_BYTES 16
#define RESERVATION_BYTES 8
#define EVENT_BYTES 16
#define EVENT_MAX 4000
#define ORDER_BYTES 4
#define FILE_MAX \
    (CONTENTS_BYTES(ENTRIES_ORDERED) + TABLE_BYTES + STREAM_MAX * RESERVATION_BYTES + EVENT_MAX * EVENT_BYTES + ORDER_BYTES)

// "Kinds: 1 arrival, 2 turn, 3 own turn, 4 done, 5 clock."
enum kind { EVENT_ARRIVAL = 1, EVENT_TURN, EVENT_OWN_TURN, EVENT_DONE, EVENT_CLOCK };

// The tag is an arrival's, and 0 in every other event.
struct event {
    uint8_t kind;
    uint8_t stream;
    uint32_t tag;
    uint64_t value;
};

// A session file in memory, the session that it opens, and its trace of so many events.
// The file has one byte more than the longest: what fills it is too long, however much would follow.
struct run {
    uint8_t file[FILE_MAX + 1];
    struct session session;
    const uint8_t *trace;
    size_t count;
};

// The number that stands in so many bytes.
uint64_t number_at(const uint8_t *bytes, size_t width);

// Whether the bytes of an event are as laid out.
bool event_sound(const uint8_t *bytes);

// ADMITTED, or the number that reading or opening refuses a file by; and the margin that opening tells, 0 where reading
// refuses.
struct opening {
    enum number number;
    int64_t margin;
};

// Reads a file and opens its session.
struct opening start_run(struct run *run, FILE *in);

// The same of a file by its name. False if it cannot be opened or read; what there is of it is then not as laid out.
bool open_run(struct run *run, const char *name, struct opening *o);

// An event of the trace, by its index from 0.
struct event run_event_at(const struct run *run, size_t index);

struct reply run_event(struct session *s, struct event e);

#endif
