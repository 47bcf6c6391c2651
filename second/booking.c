// The rules of document 02, Req 10, each from its own sentence. The load and the refusals of a table are the engine's.
#include "booking.h"

// "An accepted booking replies 0 and the desk's own count after it; a refused one changes nothing."
static struct booking_reply accepted(uint64_t count)
{
    return (struct booking_reply){BOOKED, count};
}

static struct booking_reply refusal(enum number number)
{
    return (struct booking_reply){number, 0};
}

// "30 (desk not 1 or 2)"
static bool is_desk(uint64_t desk)
{
    return desk >= 1 && desk <= DESK_COUNT;
}

// How many streams a desk has.
static uint64_t own_count(const struct booking_table *b, uint64_t desk)
{
    uint64_t count = 0;
    for (uint32_t i = 0; i < b->table.count; i++)
        if (b->desks[i] == desk)
            count++;
    return count;
}

// "the sum of g × (H / p) over its own streams"
static uint64_t own_sum(const struct booking_table *b, uint64_t desk)
{
    const struct table *t = &b->table;
    uint64_t sum = 0;
    for (uint32_t i = 0; i < t->count; i++)
        if (b->desks[i] == desk)
            sum += granted_budget(t, &t->reservations[i]) * (t->span / t->reservations[i].period);
    return sum;
}

// "Each desk has a limit": a sum that comes to it does not pass it.
static bool within_limit(const struct booking_table *b, uint64_t desk)
{
    return own_sum(b, desk) <= b->limits[desk - 1];
}

// --- Soundness ---

// Each stream is a desk's, and no desk is past its limit.
static bool desks_sound(const struct booking_table *b)
{
    for (uint32_t i = 0; i < b->table.count; i++)
        if (!is_desk(b->desks[i]))
            return false;
    for (uint64_t desk = 1; desk <= DESK_COUNT; desk++)
        if (!within_limit(b, desk))
            return false;
    return true;
}

// "an unused cell is not 0"
static bool rest_zero(const struct booking_table *b)
{
    uint64_t rest = 0;
    for (uint32_t i = b->table.count; i < STREAM_MAX; i++)
        rest |= b->desks[i] | b->table.reservations[i].reserved | b->table.reservations[i].period;
    return rest == 0;
}

// "31 (the table handed in breaks 2 to 7 or a desk's limit, or an unused cell is not 0)". A table without streams has the load 0.
static bool sound(const struct booking_table *b)
{
    uint64_t load;
    return b->table.count <= STREAM_MAX && judge_table(&b->table, &load) == ADMITTED && load <= b->table.span && desks_sound(b)
        && rest_zero(b);
}

// --- Bookings ---

// "Refusals: at the beginning 2, 3, 4, leaving an all-zero table"
struct booking_reply booking_begin(
    struct booking_table *b, uint32_t worst, uint32_t span, uint32_t padding, const uint64_t limits[DESK_COUNT])
{
    uint64_t load;
    struct table empty = {.worst = worst, .span = span, .padding = padding};
    *b = (struct booking_table){0};
    enum number number = judge_table(&empty, &load);
    if (number != ADMITTED)
        return refusal(number);
    b->table = empty;
    for (uint32_t i = 0; i < DESK_COUNT; i++)
        b->limits[i] = limits[i];
    return accepted(0);
}

// "first of all in a booking 31 .. , next 30 (desk not 1 or 2)"
static enum number refusal_first(const struct booking_table *b, uint64_t desk)
{
    if (!sound(b))
        return UNSOUND;
    return is_desk(desk) ? BOOKED : BAD_DESK;
}

// "1 (table full), 5, 6": those that a stream by itself may have are the ones of a table in which it is alone.
static enum number refusal_of_stream(const struct table *t, struct reservation r)
{
    uint64_t load;
    struct table alone = {t->worst, t->span, t->padding, 1, {r}};
    if (t->count == STREAM_MAX)
        return BAD_COUNT;
    return judge_table(&alone, &load);
}

// The table with one stream more.
static struct booking_table with_stream(const struct booking_table *b, uint64_t desk, struct reservation r)
{
    struct booking_table after = *b;
    after.table.reservations[after.table.count] = r;
    after.desks[after.table.count] = desk;
    after.table.count++;
    return after;
}

// "18 (the desk's sum would pass its limit), 7", of the table as it would be
static enum number refusal_of_sums(const struct booking_table *after, uint64_t desk)
{
    uint64_t load;
    if (!within_limit(after, desk))
        return PAST_LIMIT;
    judge_table(&after->table, &load);
    return load > after->table.span ? OVERLOAD : BOOKED;
}

// "then for adding 1 (table full), 5, 6, 18 (the desk's sum would pass its limit), 7"
struct booking_reply booking_add(struct booking_table *b, uint64_t desk, struct reservation r)
{
    enum number number = refusal_first(b, desk);
    if (number != BOOKED)
        return refusal(number);
    number = refusal_of_stream(&b->table, r);
    if (number != ADMITTED)
        return refusal(number);
    struct booking_table after = with_stream(b, desk, r);
    number = refusal_of_sums(&after, desk);
    if (number != BOOKED)
        return refusal(number);
    *b = after;
    return accepted(own_count(b, desk));
}

// "It counts its own streams from 1 in order of booking": where the one of that number stands, or the count of all streams
static uint32_t place_of(const struct booking_table *b, uint64_t desk, uint64_t number)
{
    uint64_t counted = 0;
    for (uint32_t i = 0; i < b->table.count; i++)
        if (b->desks[i] == desk && ++counted == number)
            return i;
    return b->table.count;
}

// "closing up after a withdrawal"
static void close_up(struct booking_table *b, uint32_t place)
{
    uint32_t last = b->table.count - 1;
    for (uint32_t i = place; i < last; i++) {
        b->table.reservations[i] = b->table.reservations[i + 1];
        b->desks[i] = b->desks[i + 1];
    }
    b->table.reservations[last] = (struct reservation){0, 0};
    b->desks[last] = 0;
    b->table.count = last;
}

// "for withdrawing 19 (the desk has no stream of that number)"
struct booking_reply booking_withdraw(struct booking_table *b, uint64_t desk, uint64_t number)
{
    enum number first = refusal_first(b, desk);
    if (first != BOOKED)
        return refusal(first);
    uint32_t place = place_of(b, desk, number);
    if (place == b->table.count)
        return refusal(NOT_BOOKED);
    close_up(b, place);
    return accepted(own_count(b, desk));
}

// "In the finished table desk 1's streams come first, then desk 2's."
enum number booking_finish(const struct booking_table *b, struct table *finished)
{
    *finished = (struct table){0};
    if (!sound(b))
        return UNSOUND;
    finished->worst = b->table.worst;
    finished->span = b->table.span;
    finished->padding = b->table.padding;
    for (uint64_t desk = 1; desk <= DESK_COUNT; desk++)
        for (uint32_t i = 0; i < b->table.count; i++)
            if (b->desks[i] == desk)
                finished->reservations[finished->count++] = b->table.reservations[i];
    return TOLD;
}
