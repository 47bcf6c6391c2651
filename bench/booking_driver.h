/* Makes a booking many times over in place, each time on the same table, so that its instructions can be counted.
 *
 * Standard input has the number of times in eight bytes, and then a table as a session file has it, whose streams two desks book by turns. The
 * word says what is made so many times: `add` books the last stream, `withdraw` takes back the first one of desk 1, and `finish` finishes the
 * table. With `restore` nothing is called: what remains is putting the table back before each call, which is not the call's.
 * Prints the number of times and the value of the last reply, which is how many streams the desk or the finished table has; a refusal has the
 * status 1.
 *
 * Whoever includes this says what a booking table is (`image`) and what a reply, with a number and a value, and has functions over them. */
#include <stdio.h>
#include <string.h>

#include "repeat.h"

#define STREAMS 8
#define DESKS 2

static struct {
    uint64_t times;
    uint32_t worst, span, padding, count;
    struct {
        uint32_t reserved, period;
    } streams[STREAMS];
} input;

static image prepared, work;

static uint64_t desk_of(uint32_t i)
{
    return 1 + i % DESKS;
}

/* The table with the first so many streams. No desk's limit is below what all of them take. */
static void prepare(uint32_t count)
{
    begin(&prepared, input.worst, input.span, input.padding, input.span);
    for (uint32_t i = 0; i < count; i++)
        add(&prepared, desk_of(i), input.streams[i].reserved, input.streams[i].period);
}

static reply add_last(uint64_t times)
{
    uint32_t last = input.count - 1, reserved = input.streams[last].reserved, period = input.streams[last].period;
    uint64_t desk = desk_of(last);
    reply r = {0, 0};
    prepare(last);
    REPEAT(r = add(&work, desk, reserved, period));
    return r;
}

static reply withdraw_first(uint64_t times)
{
    reply r = {0, 0};
    prepare(input.count);
    REPEAT(r = withdraw(&work, 1, 1));
    return r;
}

static reply finish_all(uint64_t times)
{
    reply r = {0, 0};
    prepare(input.count);
    REPEAT(r = finish(&work));
    return r;
}

static reply restore_only(uint64_t times)
{
    REPEAT();
    return (reply){0, 0};
}

int main(int words, char **word)
{
    const char *what = words > 1 ? word[1] : "";
    reply r;
    fread(&input, 1, sizeof input, stdin);
    if (strcmp(what, "add") == 0)
        r = add_last(input.times);
    else if (strcmp(what, "withdraw") == 0)
        r = withdraw_first(input.times);
    else if (strcmp(what, "finish") == 0)
        r = finish_all(input.times);
    else
        r = restore_only(input.times);
    printf("%lu %lu\n", (unsigned long)input.times, (unsigned long)r.value);
    return r.number != 0;
}
