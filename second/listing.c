// "Else a header, then a line per event, fields parted by one space, numbers in decimal, each line ended by a newline".
#include "listing.h"

#include <inttypes.h>
#include <stdarg.h>

static struct line line_of(const char *form, ...)
{
    struct line l;
    va_list values;
    va_start(values, form);
    l.length = (size_t)vsnprintf(l.text, sizeof l.text, form, values);
    va_end(values);
    return l;
}

// Document 02, Req 07: "the header gets the word `tag`"
struct line header_line(void)
{
    return line_of("event answer stream value clock tag\n");
}

static bool refused(struct reply r)
{
    return r.number < ARRIVED || r.number == UNSOUND;
}

// "its number from 1, the reply, the stream (.. a refused call shows the event's own stream byte), the value (0 for a
// refusal), the clock afterwards"; document 02, Req 07: "The printed line gets a last field, the tag of the request sent or
// done, else 0"
struct line event_line(size_t number, struct event e, struct reply r, uint64_t clock)
{
    uint32_t stream = refused(r) ? e.stream : r.stream;
    return line_of("%zu %d %" PRIu32 " %" PRIu64 " %" PRIu64 " %" PRIu32 "\n", number, (int)r.number, stream, r.value, clock, r.tag);
}

// "If reading or opening refuses it prints `refused N`, nothing more."; document 02, Req 05: "the program prints
// `refused 7 N` with N the amount over the span. Other refusals carry margin 0 and print as before."
struct line refused_line(struct opening o)
{
    if (o.number == OVERLOAD)
        return line_of("refused %d %" PRId64 "\n", (int)o.number, -o.margin);
    return line_of("refused %d\n", (int)o.number);
}

void print_line(struct line l)
{
    fwrite(l.text, 1, l.length, stdout);
}
