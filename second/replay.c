// Reads one session file from standard input and prints its listing, or its refusal. With the word `margin` it prints
// what opening answers instead; with `latest` the latest safe moment after opening and after each event, by going round
// the table; and with `kept` the same from what the session keeps for those who ask.
#include "listing.h"

#include <inttypes.h>
#include <string.h>

// The number and the margin that opening answers, or reading: of an admitted table the margin that "the session keeps".
static void print_opening(struct opening o, const struct session *s)
{
    printf("%d %" PRId64 "\n", (int)o.number, o.number == ADMITTED ? s->margin : o.margin);
}

static void print_listing(struct run *run)
{
    print_line(header_line());
    for (size_t i = 0; i < run->count; i++) {
        struct event e = run_event_at(run, i);
        struct reply r = run_event(&run->session, e);
        print_line(event_line(i + 1, e, r, run->session.clock));
    }
}

// "Latest safe moment L", by going round the table
static void print_latest(const struct session *s)
{
    printf("%" PRIu64 "\n", session_latest_safe(s));
}

// The same moment as drivers ask for it, from the numbers that "the session keeps" for them
static void print_kept(const struct session *s)
{
    uint64_t moment;
    enum number number = latest_asked(s->horizon, s->remainders, s->table.span, &moment);
    if (number == TOLD)
        printf("%" PRIu64 "\n", moment);
    else
        printf("refused %d\n", (int)number);
}

// A line after opening, and one after each event.
static void print_moments(struct run *run, void (*print)(const struct session *))
{
    print(&run->session);
    for (size_t i = 0; i < run->count; i++) {
        run_event(&run->session, run_event_at(run, i));
        print(&run->session);
    }
}

int main(int count, char **words)
{
    static struct run run;
    struct opening o = start_run(&run, stdin);
    const char *word = count == 2 ? words[1] : "";
    if (strcmp(word, "margin") == 0)
        print_opening(o, &run.session);
    else if (o.number != ADMITTED)
        print_line(refused_line(o));
    else if (strcmp(word, "latest") == 0)
        print_moments(&run, print_latest);
    else if (strcmp(word, "kept") == 0)
        print_moments(&run, print_kept);
    else
        print_listing(&run);
    return 0;
}
