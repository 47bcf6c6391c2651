// Reads a session file, named by its one word, and on standard input a listing that another dispatcher printed of it. Prints
// `accepted`, or the number of the first line that does not follow from the state before it, and below it each line that
// could have stood there.
#include "listing.h"

#include <string.h>

// No more requests are queued at once, so that the set has no more.
#define NEXT_MAX (STREAM_MAX * QUEUE_MAX)

// The lines that may stand next, and the call behind each of them.
struct next {
    struct line lines[NEXT_MAX];
    struct event calls[NEXT_MAX];
    size_t count;
};

// Byte for byte, a NUL among them.
static bool same(const struct line *a, const struct line *b)
{
    return a->length == b->length && memcmp(a->text, b->text, a->length) == 0;
}

// Where a line stands among those that may be next; their count if it does not.
static size_t place_of(const struct next *next, const struct line *l)
{
    size_t i = 0;
    while (i < next->count && !same(&next->lines[i], l))
        i++;
    return i;
}

// "each line that could have stood there, once". Lines are the same where "two queued requests of one stream with equal
// place and tag" may be sent. These "are taken in order of arrival": the call that stays is that of the earlier.
static void add(struct next *next, struct line l, struct event call)
{
    if (place_of(next, &l) < next->count)
        return;
    next->lines[next->count] = l;
    next->calls[next->count] = call;
    next->count++;
}

static void add_call(struct next *next, const struct session *s, size_t number, struct event call)
{
    struct session after = *s;
    struct reply r = run_event(&after, call);
    add(next, event_line(number, call, r, after.clock), call);
}

// "any request in the set", and document 01: "the first so many queued requests are the set", of every stream. What a turn
// does that sends one of them is an own turn. "by stream and then queue order"
static void add_set(struct next *next, const struct session *s, size_t number)
{
    for (uint8_t stream = 1; stream <= s->table.count; stream++) {
        uint64_t filled = session_filled(s, stream);
        for (uint64_t index = 0; index < filled; index++)
            add_call(next, s, number, (struct event){EVENT_OWN_TURN, stream, 0, index});
    }
}

// "where a turn's send may be any request in the set": a turn that sends nothing has its one line, and so has every other
// event.
static void find_next(struct next *next, const struct session *s, size_t number, struct event e)
{
    struct session after = *s;
    next->count = 0;
    if (e.kind == EVENT_TURN && run_event(&after, e).number == SENT)
        add_set(next, s, number);
    else
        add_call(next, s, number, e);
}

// The next line of the listing with its newline, or what there is of it where the listing ends, or where it is longer than
// any of ours: neither is the same as one of these.
static struct line read_line(void)
{
    struct line l = {"", 0};
    int byte = 0;
    while (l.length < LINE_ROOM && byte != '\n' && (byte = getchar()) != EOF)
        l.text[l.length++] = (char)byte;
    return l;
}

// Reads a line. The call behind it through the pointer, or false if it is none of those that may be next: "A missing .. or an
// unended line does not follow".
static bool take_line(const struct next *next, struct event *call)
{
    struct line l = read_line();
    size_t i = place_of(next, &l);
    if (i == next->count)
        return false;
    *call = next->calls[i];
    return true;
}

// Reads the listing up to the first line that does not follow, and gives its number, with what may stand there; or 0 if all
// do. "the header is line 1"; "For a refused file the one right line is what our program prints."
static size_t follow(struct run *run, struct opening o, struct next *next)
{
    bool admitted = o.number == ADMITTED;
    size_t events = admitted ? run->count : 0;
    struct event call = {0};
    add(next, admitted ? header_line() : refused_line(o), call);
    if (!take_line(next, &call))
        return 1;
    for (size_t i = 0; i < events; i++) {
        find_next(next, &run->session, i + 1, run_event_at(run, i));
        if (!take_line(next, &call))
            return i + 2;
        run_event(&run->session, call);
    }
    // "a surplus .. line does not follow; below a surplus one nothing is printed"
    next->count = 0;
    return read_line().length == 0 ? 0 : events + 2;
}

// "It prints `accepted`, or the number of the first line that does not follow .. and below it each line that could have stood
// there"
static void print_verdict(size_t line, const struct next *next)
{
    if (line == 0) {
        puts("accepted");
        return;
    }
    printf("%zu\n", line);
    for (size_t i = 0; i < next->count; i++)
        print_line(next->lines[i]);
}

// What cannot be read is told on standard error, and nothing is printed.
int main(int count, char **words)
{
    static struct run run;
    static struct next next;
    struct opening o;
    if (count != 2) {
        fprintf(stderr, "follow: name one session file; the listing is read from standard input\n");
        return 0;
    }
    if (!open_run(&run, words[1], &o)) {
        fprintf(stderr, "follow: cannot read %s\n", words[1]);
        return 0;
    }
    size_t line = follow(&run, o, &next);
    if (ferror(stdin))
        fprintf(stderr, "follow: cannot read standard input\n");
    else
        print_verdict(line, &next);
    return 0;
}
