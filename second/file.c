// The layout of the session file, each part from its own sentence.
#include "file.h"

#include <string.h>

// The bodies in the order in which they stand; the kind of each entry is one more.
enum body { BODY_TABLE, BODY_TRACE, BODY_ORDER, BODIES };

// "numbers little-endian"
uint64_t number_at(const uint8_t *bytes, size_t width)
{
    uint64_t number = 0;
    for (size_t i = width; i > 0; i--)
        number = number << 8 | bytes[i - 1];
    return number;
}

static uint32_t four_at(const uint8_t *bytes)
{
    return (uint32_t)number_at(bytes, 4);
}

// "Event: kind, stream, six zero bytes, eight bytes of value."; document 02, Req 07: "In the file an arrival's tag fills the
// first four of the six zero bytes; other events keep zeros, so old files read with tag 0."
static struct event event_at(const uint8_t *bytes)
{
    return (struct event){bytes[0], bytes[1], four_at(bytes + 2), number_at(bytes + 8, 8)};
}

// "Kinds: 1 arrival, 2 turn, 3 own turn, 4 done, 5 clock. Turn has stream 0 and value 0; done and clock have stream 0."
bool event_sound(const uint8_t *bytes)
{
    struct event e = event_at(bytes);
    if (e.kind != EVENT_ARRIVAL && e.tag != 0)
        return false;
    if (number_at(bytes + 6, 2) != 0)
        return false;
    switch (e.kind) {
    case EVENT_ARRIVAL:
    case EVENT_OWN_TURN:
        return true;
    case EVENT_TURN:
        return e.stream == 0 && e.value == 0;
    case EVENT_DONE:
    case EVENT_CLOCK:
        return e.stream == 0;
    default:
        return false;
    }
}

static bool entry_is(const uint8_t *entry, uint32_t kind, uint64_t offset, uint64_t length)
{
    return four_at(entry) == kind && four_at(entry + 4) == offset && four_at(entry + 8) == length;
}

// "Table body: W, H, k, count (0 to 8), four bytes each, then e and p of each stream, four bytes each."
static void read_table(const uint8_t *body, struct table *t)
{
    memset(t, 0, sizeof *t);
    t->worst = four_at(body);
    t->span = four_at(body + 4);
    t->padding = four_at(body + 8);
    t->count = four_at(body + 12);
    for (uint32_t i = 0; i < t->count && i < STREAM_MAX; i++) {
        const uint8_t *r = body + TABLE_BYTES + i * RESERVATION_BYTES;
        t->reservations[i] = (struct reservation){four_at(r), four_at(r + 4)};
    }
}

// How many entries a file has, and where each of its bodies starts: it ends where the next one starts, and the last with
// the file. Of two entries there is no body with the order, and it is as if it were empty.
struct layout {
    size_t entries;
    size_t at[BODIES + 1];
};

// "Entry one is kind 1 (table) .. ; entry two is kind 2 (trace), right after it; the file ends with it."; document 02, Req
// 08: "the first body starts after the last entry". The table's count and the file's end tell where the bodies are.
static bool find_bodies(const uint8_t *file, size_t size, struct layout *l)
{
    l->entries = number_at(file, NUMBER_BYTES);
    if (l->entries != ENTRIES_PLAIN && l->entries != ENTRIES_ORDERED)
        return false;
    size_t order_length = l->entries == ENTRIES_ORDERED ? ORDER_BYTES : 0;
    size_t table_at = CONTENTS_BYTES(l->entries);
    if (size < table_at + TABLE_BYTES + order_length || size > FILE_MAX)
        return false;
    uint32_t count = four_at(file + table_at + 12);
    if (count > STREAM_MAX)
        return false;
    size_t trace_at = table_at + TABLE_BYTES + count * RESERVATION_BYTES;
    if (size < trace_at + order_length)
        return false;
    size_t trace_length = size - order_length - trace_at;
    if (trace_length % EVENT_BYTES != 0 || trace_length / EVENT_BYTES > EVENT_MAX)
        return false;
    l->at[BODY_TABLE] = table_at;
    l->at[BODY_TRACE] = trace_at;
    l->at[BODY_ORDER] = trace_at + trace_length;
    l->at[BODIES] = size;
    return true;
}

// Each byte of the contents has one right value, by the bodies. "Refusals: another value, or the entry in another place than
// last, is 16": the entries stand in the order of their bodies.
static bool contents_sound(const uint8_t *file, const struct layout *l)
{
    for (size_t i = 0; i < l->entries; i++)
        if (!entry_is(file + CONTENTS_BYTES(i), (uint32_t)i + 1, l->at[i], l->at[i + 1] - l->at[i]))
            return false;
    return true;
}

// Req 08: "holds four bytes: 0 nearest, 1 sweep; a file with two entries means nearest"
static uint32_t order_in(const uint8_t *file, const struct layout *l)
{
    return l->entries == ENTRIES_ORDERED ? four_at(file + l->at[BODY_ORDER]) : ORDER_NEAREST;
}

static enum number read_file(struct run *run, size_t size, struct table *t, uint32_t *order)
{
    const uint8_t *file = run->file;
    struct layout l;
    if (size < NUMBER_BYTES || !find_bodies(file, size, &l) || !contents_sound(file, &l))
        return BAD_LAYOUT;
    *order = order_in(file, &l);
    if (!is_order(*order))
        return BAD_LAYOUT;
    for (size_t at = l.at[BODY_TRACE]; at < l.at[BODY_ORDER]; at += EVENT_BYTES)
        if (!event_sound(file + at))
            return BAD_LAYOUT;
    read_table(file + l.at[BODY_TABLE], t);
    run->trace = file + l.at[BODY_TRACE];
    run->count = (l.at[BODY_ORDER] - l.at[BODY_TRACE]) / EVENT_BYTES;
    return ADMITTED;
}

struct opening start_run(struct run *run, FILE *in)
{
    struct table t;
    uint32_t order;
    size_t size = fread(run->file, 1, sizeof run->file, in);
    struct opening o = {read_file(run, size, &t, &order), 0};
    if (o.number == ADMITTED)
        o.number = session_open(&run->session, &t, order, &o.margin);
    return o;
}

bool open_run(struct run *run, const char *name, struct opening *o)
{
    *o = (struct opening){BAD_LAYOUT, 0};
    FILE *in = fopen(name, "rb");
    if (in == NULL)
        return false;
    *o = start_run(run, in);
    bool whole = !ferror(in);
    fclose(in);
    return whole;
}

struct event run_event_at(const struct run *run, size_t index)
{
    return event_at(run->trace + index * EVENT_BYTES);
}

struct reply run_event(struct session *s, struct event e)
{
    switch (e.kind) {
    case EVENT_ARRIVAL:
        return session_arrival(s, e.stream, e.value, e.tag);
    case EVENT_TURN:
        return session_turn(s);
    case EVENT_OWN_TURN:
        return session_own_turn(s, e.stream, e.value);
    case EVENT_DONE:
        return session_done(s, e.value);
    default:
        return session_clock(s, e.value);
    }
}
