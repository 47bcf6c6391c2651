// Prints a tally of session files: by file and stream, and then by stream number over all files.
// The files are named as words, or, where there is none, on standard input, one name a line.
#define _POSIX_C_SOURCE 200809L // for getline
#include "listing.h"

#include <inttypes.h>
#include <stdlib.h>
#include <string.h>

// "jobs closed, jobs closed after their deadline, slots expired, total disk time, and the largest single completion"
struct tally {
    uint64_t jobs;
    uint64_t late;
    uint64_t expired;
    uint64_t time;
    uint64_t largest;
};

// "the same per stream number over all files"; without meaning once a sum would have passed 64 bits
struct totals {
    struct tally streams[STREAM_MAX];
    bool passed;
};

// "Every stream with d = h closes its job", as the session stood before the move, whose clock is the closing clock.
static void tally_move(struct tally *streams, const struct session *before)
{
    uint64_t horizon = session_horizon(before);
    for (uint32_t i = 0; i < before->table.count; i++) {
        if (before->streams[i].deadline != horizon)
            continue;
        streams[i].jobs++;
        if (before->clock > horizon)
            streams[i].late++;
    }
}

// "Disk time is what done reported, without expired slots."
static void tally_done(struct tally *t, uint64_t duration)
{
    t->time += duration;
    if (duration > t->largest)
        t->largest = duration;
}

static void tally_event(struct tally *streams, const struct session *before, struct event e, struct reply r)
{
    switch (r.number) {
    case MOVED:
        tally_move(streams, before);
        break;
    case EXPIRED:
        streams[r.stream - 1].expired++;
        break;
    case DONE:
    case DONE_OVERLONG:
        tally_done(&streams[r.stream - 1], e.value);
        break;
    default:
        break;
    }
}

// A file has at most 4,000 events, so that none of its own sums comes near 64 bits.
static void tally_run(struct tally *streams, struct run *run)
{
    for (size_t i = 0; i < run->count; i++) {
        struct session before = run->session;
        struct event e = run_event_at(run, i);
        tally_event(streams, &before, e, run_event(&run->session, e));
    }
}

// False, and the sum as it was, if it would pass 64 bits.
static bool add(uint64_t *sum, uint64_t more)
{
    if (more > UINT64_MAX - *sum)
        return false;
    *sum += more;
    return true;
}

// "counts and times added up, of the largest the largest"
static bool combine(struct tally *total, const struct tally *t)
{
    if (t->largest > total->largest)
        total->largest = t->largest;
    return add(&total->jobs, t->jobs) && add(&total->late, t->late) && add(&total->expired, t->expired)
        && add(&total->time, t->time);
}

static void print_tallies(const struct tally *streams, uint32_t count)
{
    puts("stream jobs late expired time largest");
    for (uint32_t i = 0; i < count; i++) {
        const struct tally *t = &streams[i];
        printf("%" PRIu32 " %" PRIu64 " %" PRIu64 " %" PRIu64 " %" PRIu64 " %" PRIu64 "\n", i + 1, t->jobs, t->late,
            t->expired, t->time, t->largest);
    }
}

// "A refused file gets its number and adds nothing." One that cannot be opened or read is refused, and is told besides.
static void take_file(struct totals *totals, const char *name)
{
    static struct run run;
    struct tally streams[STREAM_MAX] = {0};
    printf("file %s\n", name);
    struct opening o;
    if (!open_run(&run, name, &o))
        fprintf(stderr, "tally: cannot read %s\n", name);
    if (o.number != ADMITTED) {
        print_line(refused_line(o));
        return;
    }
    tally_run(streams, &run);
    print_tallies(streams, run.session.table.count);
    for (uint32_t i = 0; i < STREAM_MAX; i++)
        if (!combine(&totals->streams[i], &streams[i]))
            totals->passed = true;
}

// An empty line is no name.
static void take_names(struct totals *totals)
{
    char *name = NULL;
    size_t room = 0;
    while (getline(&name, &room, stdin) != -1) {
        name[strcspn(name, "\n")] = '\0';
        if (name[0] != '\0')
            take_file(totals, name);
    }
    free(name);
}

int main(int count, char **words)
{
    static struct totals totals;
    for (int i = 1; i < count; i++)
        take_file(&totals, words[i]);
    if (count < 2)
        take_names(&totals);
    if (totals.passed) {
        fprintf(stderr, "tally: a total passes 64 bits\n");
        return 0;
    }
    puts("total");
    print_tallies(totals.streams, STREAM_MAX);
    return 0;
}
