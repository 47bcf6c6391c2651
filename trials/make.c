// Writes session files: make SEED FIRST LAST FOLDER gives FOLDER/FIRST to FOLDER/LAST, each from the seed and its index.
#include "maker.h"

#include <stdio.h>
#include <stdlib.h>
#include <string.h>

#define ROOM 70000

void put(uint8_t *at, uint64_t number, size_t width)
{
    for (size_t i = 0; i < width; i++)
        at[i] = (uint8_t)(number >> 8 * i);
}

size_t entry_at(size_t i)
{
    return 2 + 12 * i;
}

void put_entry(uint8_t *file, size_t i, size_t offset, size_t length)
{
    uint8_t *entry = file + entry_at(i);
    put(entry, i + 1, 4);
    put(entry + 4, offset, 4);
    put(entry + 8, length, 4);
}

static size_t put_table(uint8_t *at, const struct table *t)
{
    put(at, t->worst, 4);
    put(at + 4, t->span, 4);
    put(at + 8, t->padding, 4);
    put(at + 12, t->count, 4);
    for (uint32_t i = 0; i < t->count; i++) {
        uint8_t *r = at + TABLE_BYTES + RESERVATION_BYTES * i;
        put(r, t->reservations[i].reserved, 4);
        put(r + 4, t->reservations[i].period, 4);
    }
    return TABLE_BYTES + RESERVATION_BYTES * (size_t)t->count;
}

static size_t put_trace(uint8_t *at, const struct trace *trace)
{
    for (size_t i = 0; i < trace->count; i++, at += EVENT_BYTES) {
        memset(at, 0, EVENT_BYTES);
        at[0] = trace->events[i].kind;
        at[1] = trace->events[i].stream;
        put(at + 2, trace->events[i].tag, 4);
        put(at + 8, trace->events[i].value, 8);
    }
    return EVENT_BYTES * trace->count;
}

size_t lay_out(const struct table *t, struct ordering o, const struct trace *trace, uint8_t *file)
{
    size_t entries = o.told ? 3 : 2;
    size_t table_at = entry_at(entries);
    size_t trace_at = table_at + put_table(file + table_at, t);
    size_t end = trace_at + put_trace(file + trace_at, trace);
    put(file, entries, 2);
    put_entry(file, 0, table_at, trace_at - table_at);
    put_entry(file, 1, trace_at, end - trace_at);
    if (!o.told)
        return end;
    put_entry(file, 2, end, ORDER_BYTES);
    put(file + end, o.order, ORDER_BYTES);
    return end + ORDER_BYTES;
}

// Of twenty files eight have two entries, three a third one that says nearest, and nine one that says sweep. This has a chance
// of its own: a table does not depend on it, nor do events before the order decides one.
static struct ordering pick_ordering(const struct chance *c)
{
    struct chance own = {c->state ^ 0x5851f42d4c957f2du};
    uint64_t sort = below(&own, 20);
    return (struct ordering){sort < 9 ? ORDER_SWEEP : ORDER_NEAREST, sort < 12};
}

// Mostly a few hundred events; now and then none, and all 4,000.
static size_t trace_length(struct chance *c)
{
    if (percent(c, 3))
        return 0;
    if (percent(c, 4))
        return EVENT_MAX;
    if (percent(c, 10))
        return 500 + below(c, 2000);
    return percent(c, 20) ? 1 + below(c, 30) : 50 + below(c, 350);
}

// Of twenty files four have a table at a limit, five are damaged, and the rest run deep.
static size_t make_file(struct chance *c, uint64_t index, uint8_t *file)
{
    static struct trace trace;
    struct table t;
    struct ordering o = pick_ordering(c);
    uint64_t sort = index % 20;
    if (sort < 4) {
        make_faulty_table(c, &t);
        make_trace(c, &t, o.order, below(c, 40), &trace);
        return lay_out(&t, o, &trace, file);
    }
    if (sort >= 9 && percent(c, 2)) {
        make_far_table(c, &t);
        make_far_trace(c, &t, o.order, EVENT_MAX, &trace);
        return lay_out(&t, o, &trace, file);
    }
    make_table(c, &t);
    if (sort >= 9) {
        make_trace(c, &t, o.order, trace_length(c), &trace);
        return lay_out(&t, o, &trace, file);
    }
    // With one event too many the layout is sound but for the number of events.
    bool too_many = percent(c, 4);
    make_trace(c, &t, o.order, too_many ? EVENT_MAX + 1 : percent(c, 5) ? EVENT_MAX : below(c, 60), &trace);
    size_t size = lay_out(&t, o, &trace, file);
    if (!too_many)
        damage(c, file, &size, ROOM);
    return size;
}

static bool write_file(const char *folder, uint64_t index, const uint8_t *file, size_t size)
{
    char name[4096];
    snprintf(name, sizeof name, "%s/%llu", folder, (unsigned long long)index);
    FILE *out = fopen(name, "wb");
    if (out == NULL)
        return false;
    bool written = fwrite(file, 1, size, out) == size;
    return fclose(out) == 0 && written;
}

int main(int count, char **words)
{
    static uint8_t file[ROOM + 200];
    if (count != 5) {
        fprintf(stderr, "make SEED FIRST LAST FOLDER\n");
        return 2;
    }
    uint64_t seed = strtoull(words[1], NULL, 10);
    uint64_t last = strtoull(words[3], NULL, 10);
    for (uint64_t index = strtoull(words[2], NULL, 10); index <= last; index++) {
        struct chance mix = {seed};
        struct chance c = {draw(&mix) + index * 0xd1342543de82ef95u};
        size_t size = make_file(&c, index, file);
        if (!write_file(words[4], index, file, size)) {
            perror(words[4]);
            return 1;
        }
    }
    return 0;
}
