/* Goes up to the edge of what yerbagunt.h asks of a caller: where it asks nothing more, every call answers as it always does.
 * After each call the latest safe moment is asked for, which the header lets a caller do at any time. */
#include <pthread.h>
#include <stdio.h>
#include <string.h>

#include "hold.h"
#include "yerbagunt.h"

#define STACK 16384 /* what the header says that a call takes */

static const struct yerbagunt_table table = {25000, 1000000, 1, 2, {25000, 175000}, {250000, 500000}};
static const uint8_t trace[32] = {1, 1, 255, 255, 255, 255, 0, 0, 100, 0, 0, 0, 0, 0, 0, 0, 2};
#define EMPTY_LENGTH 74 /* of the file of that table and no event, with three entries */
#define FILE_LENGTH (EMPTY_LENGTH + sizeof trace)

static struct yerbagunt_written written(const uint8_t *from, size_t length, uint8_t *out, size_t room)
{
    return yerbagunt_write(table, (struct yerbagunt_bytes){from, length}, (struct yerbagunt_buffer){out, room}, YERBAGUNT_SWEEP, YERBAGUNT_ORDER_SIZE);
}

/* The file of that table and trace with two entries, of which the contents and the turn are broken, and a torn event behind it: three changes. */
#define BROKEN_LENGTH 91
#define SALVAGED_LENGTH 74
#define CHANGES 3

static void make_broken(uint8_t *file)
{
    yerbagunt_write(table, (struct yerbagunt_bytes){trace, sizeof trace}, (struct yerbagunt_buffer){file, BROKEN_LENGTH - 1}, YERBAGUNT_NEAREST, 0);
    file[2] = file[75] = file[90] = 7;
}

static struct yerbagunt_salvaged salvaged(const uint8_t *old, size_t length, uint8_t *out, size_t room, struct yerbagunt_change *list, size_t places)
{
    return yerbagunt_salvage((struct yerbagunt_bytes){old, length}, (struct yerbagunt_buffer){out, room}, list, places);
}

/* The broken file is salvaged: its arrival is kept, and its changes are listed. */
static void hold_salvaged(const uint8_t *old, uint8_t *out, struct yerbagunt_change *list, unsigned long at)
{
    static const struct yerbagunt_change expected[CHANGES] = {{YERBAGUNT_CONTENTS, 0}, {YERBAGUNT_DROPPED, 74}, {YERBAGUNT_CUT, 90}};
    uint8_t broken[BROKEN_LENGTH], kept[SALVAGED_LENGTH];
    make_broken(broken);
    yerbagunt_write(table, (struct yerbagunt_bytes){trace, 16}, (struct yerbagunt_buffer){kept, sizeof kept}, YERBAGUNT_NEAREST, 0);
    struct yerbagunt_salvaged s = salvaged(old, BROKEN_LENGTH, out, SALVAGED_LENGTH, list, CHANGES);
    hold(s.number == YERBAGUNT_OK && s.length == sizeof kept && s.changes == CHANGES, "a broken file is salvaged", at);
    hold(memcmp(out, kept, sizeof kept) == 0 && memcmp(list, expected, sizeof expected) == 0, "what is kept of it is written, and what is not is listed", at);
    hold(memcmp(old, broken, sizeof broken) == 0, "the old file is as it was", at);
}

/* At every other horizon the second stream is owed half a microsecond beside whole ones. */
static const struct yerbagunt_reservation records[2] = {{25000, 250000}, {175001, 500000}};

static struct yerbagunt_session opened(uint64_t order)
{
    struct yerbagunt_opening o = yerbagunt_open(25000, 1000000, 1, (struct yerbagunt_reservations){records, 2}, order);
    hold(o.number == YERBAGUNT_OK && o.session.order == order, "the table is admitted, in either order", order);
    return o.session;
}

/* What the streams of a session are owed up to its horizon, times H. */
static int64_t owed(const struct yerbagunt_session *session)
{
    int64_t sum = 0;
    for (uint64_t i = 0; i < session->count; i++) {
        const struct yerbagunt_stream *s = &session->streams[i];
        sum += (int64_t)((session->horizon - s->release) * s->granted * (session->span / s->period)) - (int64_t)(s->charge * session->span);
    }
    return sum;
}

/* Hands a call's reply on, after the session that it left was asked for its latest safe moment. */
static struct yerbagunt_reply asked(const struct yerbagunt_session *session, struct yerbagunt_reply reply)
{
    struct yerbagunt_moment latest = yerbagunt_latest_of(session);
    struct yerbagunt_view view = yerbagunt_view(*session);
    int64_t rest = (int64_t)(session->horizon - latest.at) * session->span - session->remainders;
    hold(view.number == YERBAGUNT_OK && session->horizon == view.horizon && session->remainders == owed(session), "a session keeps its horizon and what is owed", reply.number);
    hold(latest.number == YERBAGUNT_OK && latest.at == view.latest, "the moment that is asked for is the one that is shown", reply.number);
    hold(rest >= 0 && rest < session->span, "it is the horizon less what is owed, rounded down once", reply.number);
    hold(session->served == 0 || !yerbagunt_fits(session, 0), "nothing fits while a request is at the disk", reply.number);
    return reply;
}

/* Makes a call or two on a session, and answers the last reply. Another pick makes another call; some run over so far that less than nothing is owed. */
static struct yerbagunt_reply stepped(struct yerbagunt_session *session, uint64_t pick)
{
    struct yerbagunt_reply r = asked(session, pick % 4 == 0 ? yerbagunt_arrival(session, pick % 3, pick % 1000, (uint32_t)pick) : yerbagunt_turn(session));
    if (r.number == YERBAGUNT_SENT)
        return asked(session, yerbagunt_done(session, 1 + pick % (pick % 32 == 1 ? 900000 : 30000)));
    if (r.number == YERBAGUNT_WAIT)
        return asked(session, yerbagunt_clock(session, r.value));
    return r;
}

static uint64_t picked(uint64_t n)
{
    return n * 2654435761 >> 7;
}

/* Makes calls on a session, and answers a number that every reply goes into. Another seed makes other calls. */
static uint64_t worked(struct yerbagunt_session *session, uint64_t seed)
{
    uint64_t sum = 0;
    for (uint64_t n = 0; n < 2000; n++) {
        struct yerbagunt_reply r = stepped(session, picked(seed + n));
        sum = sum * 31 + r.number * 7 + r.stream * 5 + r.value + r.tag;
    }
    return sum;
}

/* Books on a table, and answers a number that every reply goes into. */
static uint64_t booked(struct yerbagunt_book *book)
{
    uint64_t sum = yerbagunt_begin(book, 25000, 1000000, 1, 300000, 500000).number;
    for (uint64_t n = 0; n < 100; n++) {
        uint64_t pick = picked(n);
        struct yerbagunt_receipt r = pick % 3 == 0 ? yerbagunt_withdraw(book, pick % 4, pick % 5) : yerbagunt_add(book, 1 + pick % 2, (uint32_t)(1 + pick % 9000), 1000000);
        sum = sum * 31 + r.number * 7 + r.value;
    }
    struct yerbagunt_finished f = yerbagunt_finish(*book);
    return sum * 31 + f.number * 7 + f.count;
}

/* Pointers: with length 0 a null pointer will do, and one to where nothing is. */
static void nothing_lent(void)
{
    static uint8_t file[FILE_LENGTH], other[FILE_LENGTH];
    const struct yerbagunt_opening none = {.number = YERBAGUNT_COUNT};
    const struct yerbagunt_table empty = {0};
    uint8_t *const pointers[] = {NULL, (uint8_t *)4, (uint8_t *)-1, other};
    for (size_t i = 0; i < sizeof pointers / sizeof pointers[0]; i++) {
        uint8_t *p = pointers[i];
        struct yerbagunt_opening o = yerbagunt_open(25000, 1000000, 1, (struct yerbagunt_reservations){(const void *)p, 0}, YERBAGUNT_SWEEP);
        hold(memcmp(&o, &none, sizeof o) == 0, "a table of no records is refused", i);
        hold(yerbagunt_open(25000, 1000000, 1, (struct yerbagunt_reservations){(const void *)p, 0}, 2).number == YERBAGUNT_UNSOUND, "another order is refused first", i);
        hold(yerbagunt_read((struct yerbagunt_bytes){p, 0}).number == YERBAGUNT_LAYOUT, "no bytes are no file", i);
        struct yerbagunt_table t = yerbagunt_table((struct yerbagunt_bytes){p, 0});
        hold(t.worst == 0 && t.span == 0 && t.padding == 0 && t.count == 0 && memcmp(t.reserved, empty.reserved, 64) == 0, "the table of no bytes is all zero", i);
        hold(written(trace, sizeof trace, p, 0).number == YERBAGUNT_ROOM, "no file fits in no room", i);
        hold(written(p, 0, p, 0).number == YERBAGUNT_ROOM, "no file fits in no room, without a trace too", i);
        hold(written(p, 0, file, sizeof file).length == EMPTY_LENGTH && yerbagunt_read((struct yerbagunt_bytes){file, EMPTY_LENGTH}).number == YERBAGUNT_OK, "a file without events is written", i);
    }
}

/* The same of salvaging, of each of its three. */
static void nothing_salvaged(void)
{
    static uint8_t file[BROKEN_LENGTH], out[BROKEN_LENGTH];
    static struct yerbagunt_change list[CHANGES];
    uint8_t *const pointers[] = {NULL, (uint8_t *)4, (uint8_t *)-1, out};
    for (size_t i = 0; i < sizeof pointers / sizeof pointers[0]; i++) {
        uint8_t *p = pointers[i];
        make_broken(file);
        hold(salvaged(p, 0, p, 0, (void *)p, 0).number == YERBAGUNT_LAYOUT, "of no bytes nothing is salvaged", i);
        hold(salvaged(file, sizeof file, p, 0, list, CHANGES).number == YERBAGUNT_ROOM, "no file fits in no room", i);
        hold(salvaged(file, sizeof file, out, sizeof out, (void *)p, 0).number == YERBAGUNT_ROOM, "no change fits in no place", i);
        hold_salvaged(file, out, list, i);
        memcpy(file, out, SALVAGED_LENGTH);
        hold(salvaged(file, SALVAGED_LENGTH, out, sizeof out, (void *)p, 0).length == SALVAGED_LENGTH, "a sound file takes no place", i);
    }
}

/* No overlap: a trace right before its buffer, and right behind it. */
static void side_by_side(void)
{
    static uint8_t row[32 + FILE_LENGTH + 32], apart[FILE_LENGTH];
    memcpy(row, trace, sizeof trace);
    memcpy(row + 32 + FILE_LENGTH, trace, sizeof trace);
    written(trace, sizeof trace, apart, FILE_LENGTH);
    for (unsigned long behind = 0; behind < 2; behind++) {
        memset(row + 32, 0xa5, FILE_LENGTH);
        struct yerbagunt_written w = written(behind ? row + 32 + FILE_LENGTH : row, sizeof trace, row + 32, FILE_LENGTH);
        hold(w.number == YERBAGUNT_OK && memcmp(row + 32, apart, FILE_LENGTH) == 0, "the file is written beside its trace", behind);
        hold(memcmp(row, trace, 32) == 0 && memcmp(row + 32 + FILE_LENGTH, trace, 32) == 0, "the trace is as it was", behind);
    }
}

/* An old file, its buffer and its list in a row, either way. */
static void in_a_row(void)
{
    static _Alignas(8) struct {
        uint8_t unused[3], first[BROKEN_LENGTH], out[SALVAGED_LENGTH];
        struct yerbagunt_change list[CHANGES];
        uint8_t other[SALVAGED_LENGTH], behind[BROKEN_LENGTH];
    } row;
    make_broken(row.first);
    make_broken(row.behind);
    hold_salvaged(row.first, row.out, row.list, 0);
    memset(row.list, 0, sizeof row.list);
    hold_salvaged(row.behind, row.other, row.list, 1);
    hold(memcmp(row.first, row.behind, BROKEN_LENGTH) == 0 && memcmp(row.out, row.other, SALVAGED_LENGTH) == 0, "what stands beside is as it was", 0);
}

/* Alignment: a session, a booking table and a list of changes at a multiple of 8 and no more, records at one of 4, bytes anywhere. */
static void alignment(void)
{
    static _Alignas(64) struct {
        uint64_t before;
        struct yerbagunt_session session;
    } eight;
    static _Alignas(64) struct {
        uint32_t before;
        struct yerbagunt_reservation records[2];
    } four;
    static _Alignas(64) struct yerbagunt_session usual;
    memcpy(four.records, records, sizeof records);
    usual = opened(YERBAGUNT_NEAREST);
    eight.session = yerbagunt_open(25000, 1000000, 1, (struct yerbagunt_reservations){four.records, 2}, YERBAGUNT_NEAREST).session;
    hold(memcmp(&eight.session, &usual, sizeof usual) == 0, "records at a multiple of 4 are taken", 0);
    hold(worked(&eight.session, 1) == worked(&usual, 1), "a session at a multiple of 8 is called", 0);

    static _Alignas(64) struct {
        uint64_t before;
        struct yerbagunt_book book;
    } booking;
    static _Alignas(64) struct yerbagunt_book usual_book;
    hold(booked(&booking.book) == booked(&usual_book) && memcmp(&booking.book, &usual_book, sizeof usual_book) == 0, "a booking table at a multiple of 8 is booked", 0);

    static _Alignas(64) uint8_t from[64 + sizeof trace], file[64 + FILE_LENGTH], even[FILE_LENGTH];
    written(trace, sizeof trace, even, FILE_LENGTH);
    for (size_t at = 0; at < 64; at++) {
        memcpy(from + at, trace, sizeof trace);
        hold(written(from + at, sizeof trace, file + 64 - at, FILE_LENGTH).number == YERBAGUNT_OK, "a trace and a buffer stand anywhere", at);
        hold(memcmp(file + 64 - at, even, FILE_LENGTH) == 0, "the file is the same anywhere", at);
        struct yerbagunt_bytes bytes = {file + 64 - at, FILE_LENGTH};
        hold(yerbagunt_read(bytes).events == 2 && yerbagunt_table(bytes).period[1] == 500000, "a file is read anywhere", at);
    }

    static _Alignas(64) struct {
        uint64_t before;
        struct yerbagunt_change changes[CHANGES];
    } list;
    static _Alignas(64) uint8_t old[64 + BROKEN_LENGTH], out[64 + SALVAGED_LENGTH];
    for (size_t at = 0; at < 64; at++) {
        make_broken(old + at);
        hold_salvaged(old + at, out + 64 - at, list.changes, at);
    }
}

/* A session with what its thread makes of it. */
struct work {
    struct yerbagunt_session session;
    uint64_t seed, sum;
};

static void *work(void *given)
{
    struct work *w = given;
    w->sum = worked(&w->session, w->seed);
    return NULL;
}

/* One thread at a time: sessions of two threads, one in each order, go on at once, and a session goes from one thread to another. */
static void threads(void)
{
    static struct work alone[2], together[2];
    for (uint64_t round = 0; round < 3; round++) {
        pthread_t thread[2];
        for (int i = 0; i < 2; i++) {
            if (round == 0)
                alone[i].session = together[i].session = opened((uint64_t)i);
            alone[i].seed = together[i].seed = 100 * round + i;
            work(&alone[i]);
        }
        for (int i = 0; i < 2; i++)
            hold(pthread_create(&thread[i], NULL, work, &together[i]) == 0, "a thread is made", round);
        for (int i = 0; i < 2; i++)
            hold(pthread_join(thread[i], NULL) == 0, "a thread ends", round);
        hold(memcmp(alone, together, sizeof alone) == 0, "two threads make of their sessions what one makes of them", round);
    }
    hold(alone[0].sum != alone[1].sum, "two seeds make other calls", 0);
}

/* Asking looks at three cells: a session that no call has made may get a moment. */
static void not_judged(void)
{
    struct yerbagunt_session session = opened(YERBAGUNT_NEAREST), none = {0};
    struct yerbagunt_moment latest = yerbagunt_latest_of(&session), no_moment = yerbagunt_latest_of(&none);
    hold(no_moment.number == YERBAGUNT_UNSOUND && no_moment.at == 0 && !yerbagunt_fits(&none, 0), "the all-zero session has no moment, and nothing fits", 0);
    session.horizon++;
    hold(yerbagunt_view(session).number == YERBAGUNT_UNSOUND && yerbagunt_latest_of(&session).at == latest.at + 1, "a session with another horizon is not sound, and has another moment", 0);
    session.horizon--;
    session.order = 2;
    hold(yerbagunt_view(session).number == YERBAGUNT_UNSOUND && yerbagunt_latest_of(&session).at == latest.at, "a session with another order is not sound, and has its moment", 0);
}

/* A request of the caller's own fits up to the latest safe moment, and is then reported in time. Nothing is at the disk, and no report was late. */
static void own_request(const struct yerbagunt_session *session, unsigned long at)
{
    struct yerbagunt_session in_time = *session, late = *session;
    uint64_t latest = yerbagunt_latest_of(session).at, longest = latest - session->clock;
    hold(yerbagunt_fits(session, longest) && !yerbagunt_fits(session, longest + 1), "a request fits that ends at the latest safe moment, and none that ends later", at);
    hold(!yerbagunt_fits(session, UINT64_MAX), "the end of a request does not wrap", at);
    hold(yerbagunt_clock(&in_time, latest).number == YERBAGUNT_CLOCK && yerbagunt_fits(&in_time, 0), "a request that fits is reported in time", at);
    hold(yerbagunt_clock(&late, latest + 1).number == YERBAGUNT_LATE && !yerbagunt_fits(&late, 0), "a longer one is reported late, and then nothing fits", at);
}

static void own_requests(void)
{
    for (uint64_t order = YERBAGUNT_NEAREST; order <= YERBAGUNT_SWEEP; order++) {
        struct yerbagunt_session session = opened(order);
        for (uint64_t n = 0; n < 2000; n++) {
            stepped(&session, picked(n));
            own_request(&session, n);
        }
    }
}

/* A copy goes on from where it was taken, and its original is none of its concern. */
static void copied(void)
{
    struct yerbagunt_session original = opened(YERBAGUNT_SWEEP), before;
    static uint64_t place[sizeof original / 8];
    worked(&original, 5);
    memcpy(&before, &original, sizeof before);
    memcpy(place, &original, sizeof original);
    uint64_t sum = worked((void *)place, 6);
    hold(memcmp(&original, &before, sizeof before) == 0, "calls on a copy leave the original as it was", 0);
    hold(worked(&original, 6) == sum && memcmp(place, &original, sizeof original) == 0, "a copy goes on as the original does", 0);
}

static uint8_t *edge; /* the end of the stack that `every_call` takes for itself */
static long taken;    /* the most that a call took below it */

static void *every_call(void *file)
{
    struct yerbagunt_session s = opened(YERBAGUNT_NEAREST);
    struct yerbagunt_book book;
    edge = __builtin_alloca(16);
    hold(booked(&book) != 0, "streams are booked", 0);
    worked(&s, 7);
    s = opened(YERBAGUNT_SWEEP);
    worked(&s, 7);
    yerbagunt_own_turn(&s, 1, 0);
    hold(yerbagunt_view(s).number + yerbagunt_stream(s, 1).number + yerbagunt_last_job(s, 1).number == 0, "a session is shown", 0);
    hold(written(trace, sizeof trace, file, FILE_LENGTH).number == YERBAGUNT_OK, "a file is written", 0);
    hold(yerbagunt_read((struct yerbagunt_bytes){file, FILE_LENGTH}).number == YERBAGUNT_OK, "a file is read", 0);
    hold(yerbagunt_table((struct yerbagunt_bytes){file, FILE_LENGTH}).count == 2, "its table is read", 0);
    static uint8_t old[BROKEN_LENGTH], out[SALVAGED_LENGTH];
    static struct yerbagunt_change list[CHANGES];
    make_broken(old);
    hold_salvaged(old, out, list, 0);
    return NULL;
}

/* Stack: every call on a stack that was filled with one number, of which a part is left below. */
static void stack(void)
{
    static _Alignas(4096) uint8_t room[16 * STACK];
    static uint8_t file[FILE_LENGTH];
    pthread_t thread;
    pthread_attr_t own;
    size_t left = 0;
    memset(room, 0xa5, sizeof room);
    pthread_attr_init(&own);
    pthread_attr_setstack(&own, room, sizeof room);
    hold(pthread_create(&thread, &own, every_call, file) == 0 && pthread_join(thread, NULL) == 0, "a thread runs on its own stack", 0);
    while (left < sizeof room && room[left] == 0xa5)
        left++;
    taken = edge - (room + left);
    hold(taken > (long)sizeof(struct yerbagunt_session), "a call takes some of the stack", left);
    hold(taken <= STACK, "a call takes no more of the stack than is said", left);
}

#define TEXT(number) #number
#define JOINED(major, minor, patch) TEXT(major) "." TEXT(minor) "." TEXT(patch)

int main(void)
{
    nothing_lent();
    nothing_salvaged();
    side_by_side();
    in_a_row();
    alignment();
    threads();
    not_judged();
    own_requests();
    copied();
    stack();
    hold(strcmp(YERBAGUNT_VERSION, JOINED(YERBAGUNT_VERSION_MAJOR, YERBAGUNT_VERSION_MINOR, YERBAGUNT_VERSION_PATCH)) == 0, "the version is its three numbers", 0);
    printf("%lu facts, %lu wrong; a call takes up to %ld bytes of stack\n", held, wrong, taken);
    return wrong != 0;
}
