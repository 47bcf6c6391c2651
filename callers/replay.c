/* Replays a session file from standard input by the lent calls of the library, and prints the listing of document 01, with the tags and the `refused 7 N` of document 02. With the word `latest` it prints the latest safe moment instead, asked for after opening and after each event. */
#include <stddef.h>
#include <stdio.h>
#include <string.h>

#include "yerbagunt.h"

#define ROOM 65536

long read(int, void *, size_t);

static uint8_t file[ROOM];

static uint64_t number_at(size_t at, int width)
{
    uint64_t n = 0;
    for (int i = width - 1; i >= 0; i--)
        n = n << 8 | file[at + i];
    return n;
}

static struct yerbagunt_reply call(struct yerbagunt_session *session, size_t event)
{
    uint64_t stream = file[event + 1], value = number_at(event + 8, 8);
    switch (file[event]) {
    case 1:
        return yerbagunt_arrival(session, stream, value, (uint32_t)number_at(event + 2, 4));
    case 2:
        return yerbagunt_turn(session);
    case 3:
        return yerbagunt_own_turn(session, stream, value);
    case 4:
        return yerbagunt_done(session, value);
    default:
        return yerbagunt_clock(session, value);
    }
}

static void print_listing(struct yerbagunt_session *session, const struct yerbagunt_file *parts)
{
    puts("event answer stream value clock tag");
    for (size_t i = 0; i < parts->events; i++) {
        struct yerbagunt_reply r = call(session, parts->start + YERBAGUNT_EVENT_SIZE * i);
        printf("%llu %llu %llu %llu %llu %lu\n", (unsigned long long)i + 1, (unsigned long long)r.number, (unsigned long long)r.stream,
               (unsigned long long)r.value, (unsigned long long)session->clock, (unsigned long)r.tag);
    }
}

static void print_latest(const struct yerbagunt_session *session)
{
    struct yerbagunt_moment latest = yerbagunt_latest_of(session);
    if (latest.number == YERBAGUNT_OK)
        printf("%llu\n", (unsigned long long)latest.at);
    else
        printf("refused %llu\n", (unsigned long long)latest.number);
}

static void print_moments(struct yerbagunt_session *session, const struct yerbagunt_file *parts)
{
    print_latest(session);
    for (size_t i = 0; i < parts->events; i++) {
        call(session, parts->start + YERBAGUNT_EVENT_SIZE * i);
        print_latest(session);
    }
}

int main(int count, char **words)
{
    size_t length = 0;
    for (long got = 1; got > 0 && length < ROOM; length += got)
        if ((got = read(0, file + length, ROOM - length)) < 0)
            return 1;
    struct yerbagunt_bytes bytes = {file, length};
    struct yerbagunt_file parts = yerbagunt_read(bytes);
    if (parts.number != YERBAGUNT_OK) {
        printf("refused %llu\n", (unsigned long long)parts.number);
        return 0;
    }
    struct yerbagunt_table table = yerbagunt_table(bytes);
    struct yerbagunt_reservation records[YERBAGUNT_STREAMS_MAX];
    for (size_t i = 0; i < table.count; i++)
        records[i] = (struct yerbagunt_reservation){table.reserved[i], table.period[i]};
    struct yerbagunt_opening opening = yerbagunt_open(table.worst, table.span, table.padding, (struct yerbagunt_reservations){records, table.count}, parts.order);
    if (opening.number == YERBAGUNT_LOAD) {
        printf("refused %llu %lld\n", (unsigned long long)opening.number, -(long long)opening.margin);
        return 0;
    }
    if (opening.number != YERBAGUNT_OK) {
        printf("refused %llu\n", (unsigned long long)opening.number);
        return 0;
    }
    if (count == 2 && strcmp(words[1], "latest") == 0)
        print_moments(&opening.session, &parts);
    else
        print_listing(&opening.session, &parts);
    return 0;
}
