/* Salvages broken session files: small ones with each byte changed and cut at each length, and ones of more events than are kept. What comes out is
 * read and is salvaged to itself, and with what each change took away put back it is the old file. A refusal leaves every byte as it was.
 * What is lent ends where the memory ends: a call that looked behind it would be stopped. */
#include <stddef.h>
#include <stdio.h>
#include <string.h>

#include "hold.h"
#include "yerbagunt.h"

int mprotect(void *, size_t, int);

#define CONTENTS 26 /* of two entries */
#define COUNT_AT 38
#define TABLE 16 /* without its streams */
#define RECORD 8
#define EVENT YERBAGUNT_EVENT_SIZE
#define ROOM 65536 /* for each thing that is lent, and a whole number of pages */
#define BEFORE 64  /* bytes that are watched before each */
#define FILL 0xa5

static unsigned long files, met[32], listed[4];

/* Three rooms, each before memory that nobody may touch. */
static _Alignas(ROOM) uint8_t rooms[3][2][ROOM];

static void bar_ends(void)
{
    for (int i = 0; i < 3; i++)
        hold(mprotect(rooms[i][1], ROOM, 0) == 0, "the memory behind a room is barred", i);
}

/* The last so many bytes of a room. */
static uint8_t *last(int room, size_t length) { return rooms[room][1] - length; }

/* What a call left: its answer, and where the old file, the buffer and the list are that it was lent. */
struct outcome {
    struct yerbagunt_salvaged answer;
    const uint8_t *old, *out;
    const struct yerbagunt_change *list;
};

static struct outcome salvaged(const uint8_t *old, size_t length, size_t room, size_t places)
{
    uint8_t *from = last(0, length), *out = last(1, room);
    struct yerbagunt_change *list = (void *)last(2, places * sizeof *list);
    memcpy(from, old, length);
    memset(out - BEFORE, FILL, BEFORE + room);
    memset((uint8_t *)list - BEFORE, FILL, BEFORE + places * sizeof *list);
    struct yerbagunt_salvaged answer = yerbagunt_salvage((struct yerbagunt_bytes){from, length}, (struct yerbagunt_buffer){out, room}, list, places);
    hold(memcmp(from, old, length) == 0, "the old file is as it was", files);
    met[answer.number & 31]++;
    return (struct outcome){answer, from, out, list};
}

/* Whether all bytes from here up to there are as they were. */
static int untouched(const void *from, const void *to)
{
    for (const uint8_t *at = from; at < (const uint8_t *)to; at++)
        if (*at != FILL)
            return 0;
    return 1;
}

/* Nothing but the first so many bytes of the buffer and places of the list was written. */
static void hold_rest(const struct outcome *o, uint64_t length, uint64_t changes)
{
    hold(untouched(o->out - BEFORE, o->out) && untouched(o->out + length, rooms[1][1]), "the bytes beside the file are as they were", files);
    hold(untouched((const uint8_t *)o->list - BEFORE, o->list) && untouched(o->list + changes, rooms[2][1]), "the places beside the list are as they were", files);
}

static void refused(const uint8_t *old, size_t length, size_t room, size_t places, uint64_t number)
{
    struct outcome o = salvaged(old, length, room, places);
    hold(o.answer.number == number && o.answer.length == 0 && o.answer.changes == 0, "it is refused, beside zeros", number);
    hold_rest(&o, 0, 0);
}

/* How many streams a file says, where it is long enough. */
static uint32_t count_of(const uint8_t *old)
{
    return old[COUNT_AT] | old[COUNT_AT + 1] << 8 | old[COUNT_AT + 2] << 16 | (uint32_t)old[COUNT_AT + 3] << 24;
}

/* Where the events of a file start; or 0 where it is to be refused. */
static size_t start_of(const uint8_t *old, size_t length)
{
    if (length < CONTENTS + TABLE || (old[0] == 3 && old[1] == 0) || count_of(old) > YERBAGUNT_STREAMS_MAX)
        return 0;
    size_t start = CONTENTS + TABLE + RECORD * count_of(old);
    return length < start ? 0 : start;
}

/* Whether an event is as laid out: whether a file of it is written. */
static int is_sound(const uint8_t *event)
{
    static const struct yerbagunt_table none;
    uint8_t out[CONTENTS + TABLE + EVENT];
    return yerbagunt_write(none, (struct yerbagunt_bytes){event, EVENT}, (struct yerbagunt_buffer){out, sizeof out}, YERBAGUNT_NEAREST, 0).number == YERBAGUNT_OK;
}

/* An old file that is put back from the new one and the list: how much of the old one is there, and how much of the new one was taken for it. */
struct back {
    uint8_t bytes[ROOM];
    size_t length, taken;
};

/* What stands in the new file up to a position of the old one. */
static void put_new(struct back *b, const struct outcome *o, size_t position)
{
    size_t more = position - b->length;
    hold(position >= b->length && position <= ROOM && more <= o->answer.length - b->taken, "a change is behind the one before it, and within the file", position);
    if (position < b->length || position > ROOM || more > o->answer.length - b->taken)
        return;
    memcpy(b->bytes + b->length, o->out + b->taken, more);
    b->length += more;
    b->taken += more;
}

static void put_old(struct back *b, const struct outcome *o, size_t many)
{
    memcpy(b->bytes + b->length, o->old + b->length, many);
    b->length += many;
}

/* What one change took away. It is what the change says: contents of other bytes, an event that is not kept, or fewer bytes than one, up to the end. */
static void put_change(struct back *b, const struct outcome *o, size_t i, size_t length, size_t start)
{
    const struct yerbagunt_change *change = &o->list[i];
    size_t left = length - change->position;
    listed[change->kind & 3]++;
    if (change->kind == YERBAGUNT_CONTENTS) {
        hold(i == 0 && change->position == 0, "contents are listed once, at 0", files);
        if (i == 0) {
            put_old(b, o, CONTENTS);
            b->taken = CONTENTS;
        }
        return;
    }
    put_new(b, o, change->position);
    hold(change->position >= start && (change->position - start) % EVENT == 0 && change->position < length, "a change is where an event starts", change->position);
    if (b->length != change->position || change->position >= length)
        return;
    hold(change->kind == (left < EVENT ? YERBAGUNT_CUT : YERBAGUNT_DROPPED), "a whole event is dropped, and the tail cut", change->position);
    hold(left < EVENT || b->taken == start + EVENT * YERBAGUNT_EVENTS_MAX || !is_sound(o->old + change->position), "a sound event is kept, up to the first 4,000", change->position);
    put_old(b, o, left < EVENT ? left : EVENT);
}

static void put_back(const struct outcome *o, size_t length, size_t start)
{
    static struct back b;
    b.length = b.taken = 0;
    for (size_t i = 0; i < o->answer.changes; i++)
        put_change(&b, o, i, length, start);
    put_new(&b, o, length);
    hold(b.length == length && b.taken == o->answer.length && memcmp(b.bytes, o->old, length) == 0, "what each change took away, put back, gives the old file", files);
    int rewritten = o->answer.changes != 0 && o->list[0].kind == YERBAGUNT_CONTENTS;
    hold(rewritten == (memcmp(o->out, o->old, CONTENTS) != 0), "contents are listed exactly if a byte of them changes", files);
}

/* What comes out of a file that is read, or was salvaged, is that file. */
static void hold_equal(const uint8_t *file, size_t length)
{
    struct outcome o = salvaged(file, length, length, 0);
    hold(o.answer.number == YERBAGUNT_OK && o.answer.length == length && o.answer.changes == 0 && memcmp(o.out, file, length) == 0, "a sound file comes out equal, with no change", files);
    hold_rest(&o, length, 0);
}

/* Salvages one file, in as much room as is always enough. Answers what it was told. */
static struct yerbagunt_salvaged try_file(const uint8_t *old, size_t length)
{
    static uint8_t made[ROOM];
    size_t start = start_of(old, length), places = length / EVENT;
    files++;
    if (start == 0) {
        refused(old, length, 0, 0, YERBAGUNT_LAYOUT);
        refused(old, length, length, places, YERBAGUNT_LAYOUT);
        return (struct yerbagunt_salvaged){YERBAGUNT_LAYOUT, 0, 0};
    }
    struct outcome o = salvaged(old, length, length < YERBAGUNT_SALVAGED_MAX ? length : YERBAGUNT_SALVAGED_MAX, places);
    struct yerbagunt_salvaged s = o.answer;
    hold(s.number == YERBAGUNT_OK && s.length <= length && s.changes <= places, "there is room for the file and its list", files);
    if (s.number != YERBAGUNT_OK || s.length > length || s.changes > places)
        return s;
    hold_rest(&o, s.length, s.changes);
    put_back(&o, length, start);
    struct yerbagunt_file read = yerbagunt_read((struct yerbagunt_bytes){o.out, s.length});
    hold(read.number == YERBAGUNT_OK && read.third == 0 && read.start == start && read.end == s.length, "what comes out is read, with two entries", files);
    memcpy(made, o.out, s.length);
    hold_equal(made, s.length);
    if (yerbagunt_read((struct yerbagunt_bytes){old, length}).number == YERBAGUNT_OK)
        hold(s.length == length && s.changes == 0, "a file that is read comes out equal, with no change", files);
    refused(old, length, s.length - 1, places, YERBAGUNT_ROOM);
    if (s.changes != 0)
        refused(old, length, s.length, s.changes - 1, YERBAGUNT_ROOM);
    return s;
}

/* The same in every room: 17 exactly where the file or the list does not fit. */
static void try_rooms(const uint8_t *old, size_t length)
{
    struct yerbagunt_salvaged s = try_file(old, length);
    for (size_t room = 0; room <= s.length + 1; room++)
        for (size_t places = 0; places <= s.changes + 1; places++) {
            if (room < s.length || places < s.changes) {
                refused(old, length, room, places, YERBAGUNT_ROOM);
                continue;
            }
            struct outcome o = salvaged(old, length, room, places);
            hold(memcmp(&o.answer, &s, sizeof s) == 0, "what fits is salvaged", room);
            hold_rest(&o, s.length, s.changes);
        }
}

/* A file of so many streams, and of events of each kind by turns. Answers its length. */
static size_t sound_file(uint8_t *out, uint64_t streams, size_t events)
{
    static const uint8_t kinds[5][EVENT] = {{1, 1, 255, 255, 255, 255, 0, 0, 100}, {2}, {4, 0, 0, 0, 0, 0, 0, 0, 136, 19}, {3, 9, 0, 0, 0, 0, 0, 0, 255, 255, 255, 255, 255, 255, 255, 255}, {5, 0, 0, 0, 0, 0, 0, 0, 40, 154, 1}};
    static uint8_t trace[EVENT * YERBAGUNT_EVENTS_MAX];
    struct yerbagunt_table table = {25000, 1000000, 1, streams, {25000, 175000}, {250000, 500000}};
    for (size_t i = 0; i < events; i++)
        memcpy(trace + EVENT * i, kinds[i % 5], EVENT);
    struct yerbagunt_bytes bytes = {trace, EVENT * events};
    return yerbagunt_write(table, bytes, (struct yerbagunt_buffer){out, ROOM}, YERBAGUNT_NEAREST, 0).length;
}

/* A file with each byte changed, cut at each length, with a torn rest of each length, and both. */
static void try_damage(uint64_t streams, size_t events)
{
    static const uint8_t values[] = {0, 1, 2, 3, 4, 5, 6, 8, 9, 128, 255};
    static uint8_t file[ROOM];
    size_t length = sound_file(file, streams, events);
    hold_equal(file, length);
    memset(file + length, 0xff, EVENT);
    for (size_t cut = 0; cut <= length + EVENT; cut++)
        try_file(file, cut);
    for (size_t at = 0; at < length; at++) {
        uint8_t right = file[at];
        for (size_t i = 0; i < sizeof values; i++) {
            file[at] = values[i];
            try_file(file, length);
            try_file(file, length - (at + i) % EVENT);
            try_file(file, length + i);
        }
        file[at] = right;
    }
}

/* Some files in every room: a sound one, and ones with all changes, with a broken event at each place, and with no event that is sound. */
static void try_every_room(void)
{
    static uint8_t file[ROOM];
    size_t length = sound_file(file, 2, 3), first = length - 3 * EVENT;
    try_rooms(file, length);
    try_rooms(file, length + 1);
    file[14] = 7;
    for (size_t i = 0; i < 3; i++) {
        file[first + EVENT * i] = 9;
        try_rooms(file, length - i);
    }
}

/* More events than are kept: all of them sound, with some broken ones before the 4,000th and behind it, and with a torn rest. */
static void try_many(void)
{
    static uint8_t file[ROOM];
    size_t length = sound_file(file, 1, YERBAGUNT_EVENTS_MAX), first = length - EVENT * YERBAGUNT_EVENTS_MAX;
    hold_equal(file, length);
    memcpy(file + length, file + first, 50 * EVENT);
    struct yerbagunt_salvaged s = try_file(file, length + EVENT);
    hold(s.length == length && s.changes == 1, "of 4,001 events the last is dropped, and the contents are right", 0);
    s = try_file(file, length + 50 * EVENT - 1);
    hold(s.length == length && s.changes == 50, "of 4,049 events 49 are dropped, and the tail is cut", 0);
    for (size_t i = 0; i < 5; i++)
        file[first + 800 * i * EVENT + 6] = 1;
    s = try_file(file, length + 5 * EVENT);
    hold(s.length == length && s.changes == 5, "five more take the place of five broken ones", 0);
    s = try_file(file, length + 9 * EVENT);
    hold(s.length == length && s.changes == 9, "and no more than five", 0);
    s = try_file(file, length + 4 * EVENT);
    hold(s.length == length - EVENT && s.changes == 6, "with four more there are 3,999, and the contents are rewritten", 0);
    for (size_t i = 0; i < YERBAGUNT_EVENTS_MAX; i++)
        file[first + i * EVENT + 7] = 255;
    s = try_file(file, length);
    hold(s.length == first && s.changes == 1 + YERBAGUNT_EVENTS_MAX, "of 4,000 broken events none is kept, and each is listed", 0);
}

/* A file of three entries is not salvaged, nor is one that says another count than its table has streams and ends there. */
static void try_three(void)
{
    static uint8_t file[ROOM];
    struct yerbagunt_table table = {.count = YERBAGUNT_STREAMS_MAX};
    size_t length = yerbagunt_write(table, (struct yerbagunt_bytes){NULL, 0}, (struct yerbagunt_buffer){file, ROOM}, YERBAGUNT_SWEEP, YERBAGUNT_ORDER_SIZE).length;
    hold(yerbagunt_read((struct yerbagunt_bytes){file, length}).third == YERBAGUNT_ORDER_SIZE, "a file of three entries is read", 0);
    hold(try_file(file, length).number == YERBAGUNT_LAYOUT, "a file of three entries is refused", 0);
    length = sound_file(file, 0, 0);
    for (uint32_t bit = 0; bit < 32; bit++) {
        file[COUNT_AT + bit / 8] = 1 << bit % 8;
        hold(try_file(file, length).number == YERBAGUNT_LAYOUT, "a count of streams that are not there is refused", bit);
        file[COUNT_AT + bit / 8] = 0;
    }
}

int main(void)
{
    bar_ends();
    for (uint64_t streams = 0; streams <= YERBAGUNT_STREAMS_MAX; streams++)
        try_damage(streams, streams == 1 ? 5 : streams % 3);
    try_every_room();
    try_many();
    try_three();
    printf("%lu old files\n", files);
    for (int n = 0; n < 32; n++)
        if (met[n])
            printf("answer %d: %lu\n", n, met[n]);
    for (int kind = 0; kind < 4; kind++)
        if (listed[kind])
            printf("change %d: %lu\n", kind, listed[kind]);
    printf("%lu wrong\n", wrong);
    return wrong != 0;
}
