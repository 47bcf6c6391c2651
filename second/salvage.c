// Salvages a broken session file: reads the old file, named by the first word, writes a sound one by the name of the second,
// which must not be there yet, and prints each change by its position in the old file; or `refused 16`, and makes nothing.
#include "file.h"

#include <stdlib.h>
#include <string.h>

// "The tool takes the table body from the place just after two entries"; its count is its fourth number.
#define TABLE_AT CONTENTS_BYTES(ENTRIES_PLAIN)
#define COUNT_AT (TABLE_AT + 12)
#define NEW_MAX (TABLE_AT + TABLE_BYTES + STREAM_MAX * RESERVATION_BYTES + EVENT_MAX * EVENT_BYTES)
#define FIRST_ROOM 65536

// The old file, however long.
struct old_file {
    uint8_t *bytes;
    size_t size;
};

// What comes after the contents is changed by an event that is dropped, or by the tail that is cut.
struct change {
    const char *word;
    size_t position;
};

// The new file, and what is listed of it. The contents are "rewritten (once, at 0, if any of the 26 bytes changes)".
struct salvage {
    uint8_t file[NEW_MAX];
    size_t size;
    bool rewritten;
    struct change *changes;
    size_t count;
};

// --- Salvaging ---

// "uses its own count"
static uint32_t count_in(const struct old_file *old)
{
    return (uint32_t)number_at(old->bytes + COUNT_AT, 4);
}

// Where a table body of so many streams ends, and the trace starts, in the old file as in the new one.
static size_t table_end(uint32_t count)
{
    return TABLE_AT + TABLE_BYTES + (size_t)count * RESERVATION_BYTES;
}

// "If the count is above 8, the table is cut short or the first two bytes say 3 it refuses."
static bool is_refused(const struct old_file *old)
{
    if (old->size < table_end(0))
        return true;
    if (number_at(old->bytes, NUMBER_BYTES) == ENTRIES_ORDERED)
        return true;
    return count_in(old) > STREAM_MAX || old->size < table_end(count_in(old));
}

static void list_change(struct salvage *s, const char *word, size_t position)
{
    s->changes[s->count++] = (struct change){word, position};
}

// "Events that break the layout are dropped .. ; of the sound ones the first 4,000 are kept."
static void take_event(struct salvage *s, const struct old_file *old, size_t at, size_t *kept)
{
    if (!event_sound(old->bytes + at) || *kept == EVENT_MAX) {
        list_change(s, "dropped", at);
        return;
    }
    memcpy(s->file + s->size, old->bytes + at, EVENT_BYTES);
    s->size += EVENT_BYTES;
    (*kept)++;
}

// "takes whole events from there to the end"; a torn rest is dropped too, and listed as "a tail cut"
static void take_trace(struct salvage *s, const struct old_file *old, size_t at)
{
    size_t kept = 0;
    for (; old->size - at >= EVENT_BYTES; at += EVENT_BYTES)
        take_event(s, old, at, &kept);
    if (at < old->size)
        list_change(s, "cut", at);
}

// Writes a number, little-endian, and gives where the next one goes.
static uint8_t *put(uint8_t *at, uint64_t number, size_t width)
{
    for (size_t i = 0; i < width; i++)
        at[i] = (uint8_t)(number >> 8 * i);
    return at + width;
}

static uint8_t *put_entry(uint8_t *at, uint32_t kind, size_t offset, size_t length)
{
    return put(put(put(at, kind, 4), offset, 4), length, 4);
}

// "Entry one is kind 1 (table), at offset 26; entry two is kind 2 (trace), right after it; the file ends with it."
static void put_contents(struct salvage *s, size_t trace_at)
{
    uint8_t *at = put(s->file, ENTRIES_PLAIN, NUMBER_BYTES);
    at = put_entry(at, 1, TABLE_AT, trace_at - TABLE_AT);
    put_entry(at, 2, trace_at, s->size - trace_at);
}

static void salvage(struct salvage *s, const struct old_file *old)
{
    size_t trace_at = table_end(count_in(old));
    memcpy(s->file, old->bytes, trace_at);
    s->size = trace_at;
    take_trace(s, old, trace_at);
    put_contents(s, trace_at);
    s->rewritten = memcmp(s->file, old->bytes, TABLE_AT) != 0;
}

// "lists each change: the byte position in the old file and whether the contents were rewritten .. , an event dropped or a
// tail cut, by position"
static void print_changes(const struct salvage *s)
{
    if (s->rewritten)
        puts("contents 0");
    for (size_t i = 0; i < s->count; i++)
        printf("%s %zu\n", s->changes[i].word, s->changes[i].position);
}

// --- The files ---

// Room that is there; the program ends where there is none.
static void *room_for(void *before, size_t bytes)
{
    void *room = realloc(before, bytes);
    if (room == NULL) {
        fprintf(stderr, "salvage: no room for %zu bytes\n", bytes);
        exit(0);
    }
    return room;
}

// False if the file cannot be opened or read.
static bool read_old(struct old_file *old, const char *name)
{
    FILE *in = fopen(name, "rb");
    if (in == NULL)
        return false;
    size_t room = FIRST_ROOM;
    do {
        room *= 2;
        old->bytes = room_for(old->bytes, room);
        old->size += fread(old->bytes + old->size, 1, room - old->size, in);
    } while (old->size == room);
    bool whole = !ferror(in);
    fclose(in);
    return whole;
}

// False if there is a file of that name already, or if it cannot be written: none is left then.
static bool write_new(const struct salvage *s, const char *name)
{
    FILE *out = fopen(name, "wbx");
    if (out == NULL)
        return false;
    bool written = fwrite(s->file, 1, s->size, out) == s->size;
    written = fclose(out) == 0 && written;
    if (!written)
        remove(name);
    return written;
}

// What cannot be read or written is told on standard error, and nothing is printed.
int main(int count, char **words)
{
    static struct old_file old;
    static struct salvage s;
    if (count != 3) {
        fprintf(stderr, "salvage: name the old file, and the new one that is to be written\n");
        return 0;
    }
    if (!read_old(&old, words[1])) {
        fprintf(stderr, "salvage: cannot read %s\n", words[1]);
        return 0;
    }
    if (is_refused(&old)) {
        puts("refused 16");
        return 0;
    }
    // One change for each event at most, and one for the tail.
    s.changes = room_for(NULL, (old.size / EVENT_BYTES + 1) * sizeof *s.changes);
    salvage(&s, &old);
    if (write_new(&s, words[2]))
        print_changes(&s);
    else
        fprintf(stderr, "salvage: cannot make %s\n", words[2]);
    return 0;
}
