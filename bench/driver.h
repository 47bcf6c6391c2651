/* Makes the last call of a session file many times over in place, each time on the same session, so that its instructions can be counted.
 *
 * Standard input has the number of times in eight bytes, and then the file; of a file without events the table is opened.
 * Prints the number of times and the number of the last reply. With the word `restore` nothing is called: what remains is putting
 * the session back before each call, which is not the call's. With the word `ask` the latest safe moment is asked for in place of the last
 * event, and printed in place of a reply's number; an ask changes nothing, and nothing is put back.
 *
 * Whoever includes this says what a session is (`image`) and has functions that give a reply's number, and one that gives the moment. */
#include <stdio.h>
#include <string.h>

#include "repeat.h"

#define TIMES_BYTES 8
#define ENTRIES_BYTES 2
#define ENTRY_BYTES 12
#define ENTRIES_TOLD 3 /* of a file that says its order; one of two entries means nearest, 0 */
#define ORDER_BYTES 4
#define EVENT_BYTES 16
#define ROOM 65536

static uint8_t input[ROOM];
static image prepared, work;

static uint64_t number_at(size_t at, int width)
{
    uint64_t n = 0;
    for (int i = width - 1; i >= 0; i--)
        n = n << 8 | input[at + i];
    return n;
}

/* The trace of the file: where it starts and where it ends. */
struct trace {
    size_t start, end;
};

/* Hands on the table and the order of a file that ends there. */
static struct trace take_file(size_t end)
{
    size_t entries = number_at(TIMES_BYTES, ENTRIES_BYTES);
    size_t table = TIMES_BYTES + ENTRIES_BYTES + ENTRY_BYTES * entries;
    size_t count = number_at(table + 12, 4);
    size_t trace_end = entries == ENTRIES_TOLD ? end - ORDER_BYTES : end;
    table_numbers(number_at(table, 4), number_at(table + 4, 4), number_at(table + 8, 4), count, number_at(trace_end, (int)(end - trace_end)));
    for (size_t i = 0; i < count; i++)
        table_stream(i, number_at(table + 16 + 8 * i, 4), number_at(table + 20 + 8 * i, 4));
    return (struct trace){table + 16 + 8 * count, trace_end};
}

/* Makes the call of an event so many times, each time on the prepared session, which is left in `work`. */
static uint64_t repeat(size_t event, uint64_t times)
{
    uint64_t stream = input[event + 1], value = number_at(event + 8, 8), number = 0;
    uint32_t tag = (uint32_t)number_at(event + 2, 4);
    switch (input[event]) {
    case 1:
        REPEAT(number = arrival(&work, stream, value, tag));
        break;
    case 2:
        REPEAT(number = turn(&work));
        break;
    case 3:
        REPEAT(number = own_turn(&work, stream, value));
        break;
    case 4:
        REPEAT(number = done(&work, value));
        break;
    default:
        REPEAT(number = clock(&work, value));
    }
    return number;
}

static uint64_t restore_only(uint64_t times)
{
    REPEAT();
    return 0;
}

static uint64_t ask_only(uint64_t times)
{
    uint64_t number = 0;
    work = prepared;
    for (uint64_t i = 0; i < times; i++) {
        KEEP(&work);
        number = latest(&work);
    }
    return number;
}

static uint64_t open_only(uint64_t times)
{
    uint64_t number = 0;
    for (uint64_t i = 0; i < times; i++)
        number = open_again();
    return number;
}

int main(int words, char **word)
{
    const char *instead = words > 1 ? word[1] : "";
    size_t length = fread(input, 1, ROOM, stdin);
    uint64_t times = number_at(0, TIMES_BYTES), number;
    struct trace trace = take_file(length);
    size_t event = trace.start;
    prepare(&prepared);
    for (; event + EVENT_BYTES < trace.end; event += EVENT_BYTES) {
        repeat(event, 1);
        prepared = work;
    }
    if (strcmp(instead, "restore") == 0)
        number = restore_only(times);
    else if (strcmp(instead, "ask") == 0)
        number = ask_only(times);
    else if (event == trace.end)
        number = open_only(times);
    else
        number = repeat(event, times);
    printf("%lu %lu\n", (unsigned long)times, (unsigned long)number);
    return 0;
}
