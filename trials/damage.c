// Files that are not as laid out, by one change each; a few changes leave a sound file, and that is judged as well.
#include "maker.h"

#include <string.h>

#define TRACE_OFFSET_AT 18
#define TRACE_LENGTH_AT 22
#define ORDER_KIND_AT 26
#define ORDER_OFFSET_AT 30
#define ORDER_LENGTH_AT 34

static uint64_t get(const uint8_t *at, size_t width)
{
    uint64_t number = 0;
    for (size_t i = width; i > 0; i--)
        number = number << 8 | at[i - 1];
    return number;
}

// Where a sound file has its parts: its number of entries tells where the table starts, and the table's count where that ends.

static bool tells_order(const uint8_t *file)
{
    return get(file, 2) == 3;
}

static size_t order_bytes(const uint8_t *file)
{
    return tells_order(file) ? ORDER_BYTES : 0;
}

static size_t table_at(const uint8_t *file)
{
    return entry_at(get(file, 2));
}

static size_t count_at(const uint8_t *file)
{
    return table_at(file) + 12;
}

static size_t trace_at(const uint8_t *file)
{
    return table_at(file) + TABLE_BYTES + RESERVATION_BYTES * get(file + count_at(file), 4);
}

static size_t longest(const uint8_t *file)
{
    return table_at(file) + TABLE_BYTES + RESERVATION_BYTES * STREAM_MAX + EVENT_BYTES * EVENT_MAX + order_bytes(file);
}

static void change_byte(struct chance *c, uint8_t *at)
{
    *at ^= percent(c, 50) ? (uint8_t)(1u << below(c, 8)) : (uint8_t)(1 + below(c, 255));
}

// The start of an event of the given kinds, or of any event; NULL if there is none.
static uint8_t *find_event(struct chance *c, uint8_t *file, size_t size, uint8_t kind, uint8_t or_kind)
{
    size_t first = trace_at(file);
    size_t events = (size - first) / EVENT_BYTES;
    for (int tries = 0; events > 0 && tries < 64; tries++) {
        uint8_t *event = file + first + below(c, events) * EVENT_BYTES;
        if (kind == 0 || event[0] == kind || event[0] == or_kind)
            return event;
    }
    return NULL;
}

static void spoil_event(struct chance *c, uint8_t *file, size_t size)
{
    static const uint8_t kinds[] = {0, 6, 6, 255};
    uint8_t *any = find_event(c, file, size, 0, 0);
    uint8_t *turn = find_event(c, file, size, EVENT_TURN, EVENT_TURN);
    uint8_t *plain = find_event(c, file, size, EVENT_DONE, EVENT_CLOCK);
    uint8_t *arrival = find_event(c, file, size, EVENT_ARRIVAL, EVENT_ARRIVAL);
    uint8_t other = (uint8_t)(EVENT_TURN + below(c, 4));
    uint8_t *untagged = find_event(c, file, size, other, other);
    switch (below(c, 8)) {
    case 0:
        if (any != NULL)
            any[0] = percent(c, 80) ? ONE_OF(c, kinds) : (uint8_t)draw(c);
        break;
    case 1:
        // One of the six bytes, in the first four of which an arrival has its tag.
        if (any != NULL)
            change_byte(c, any + 2 + below(c, 6));
        break;
    case 2:
        if (arrival != NULL)
            change_byte(c, arrival + 6 + below(c, 2));
        break;
    case 3:
        if (turn != NULL)
            change_byte(c, percent(c, 40) ? turn + 1 : turn + 8 + below(c, 8));
        break;
    case 4:
        if (plain != NULL)
            change_byte(c, plain + 1);
        break;
    default:
        // A tag where none belongs, or a byte beside it.
        if (untagged != NULL)
            change_byte(c, untagged + 2 + below(c, 6));
    }
}

static void lengthen(struct chance *c, uint8_t *file, size_t *size, size_t more)
{
    bool zero = percent(c, 50);
    for (size_t i = 0; i < more; i++)
        file[(*size)++] = zero ? 0 : (uint8_t)draw(c);
}

// Adds to a number of four bytes.
static void add(uint8_t *at, uint64_t more)
{
    put(at, get(at, 4) + more, 4);
}

// So many bytes of a value before what stands at `at`.
static void insert(uint8_t *file, size_t *size, size_t at, uint8_t value, size_t more)
{
    memmove(file + at + more, file + at, *size - at);
    memset(file + at, value, more);
    *size += more;
}

static void drop(uint8_t *file, size_t *size, size_t at, size_t less)
{
    memmove(file + at, file + at + less, *size - at - less);
    *size -= less;
}

// The order, if the file tells it, stands so many bytes further on.
static void shift_order(uint8_t *file, uint64_t more)
{
    if (tells_order(file))
        add(file + ORDER_OFFSET_AT, more);
}

// Bytes that belong to no body between table and trace, with offsets that say so.
static void part_bodies(uint8_t *file, size_t *size, size_t gap)
{
    insert(file, size, trace_at(file), 0, gap);
    add(file + TRACE_OFFSET_AT, gap);
    shift_order(file, gap);
}

// A ninth stream with lengths and offsets that agree with it.
static void ninth_stream(uint8_t *file, size_t *size)
{
    size_t first = trace_at(file);
    size_t more = table_at(file) + TABLE_BYTES + RESERVATION_BYTES * (STREAM_MAX + 1) - first;
    insert(file, size, first, 1, more);
    put(file + count_at(file), STREAM_MAX + 1, 4);
    add(file + 10, more);
    add(file + TRACE_OFFSET_AT, more);
    shift_order(file, more);
}

static void swap_entries(uint8_t *file, size_t one, size_t other)
{
    uint8_t kept[12];
    memcpy(kept, file + entry_at(one), 12);
    memcpy(file + entry_at(one), file + entry_at(other), 12);
    memcpy(file + entry_at(other), kept, 12);
}

// More bytes in the trace, with a length and an offset that agree.
static void lengthen_trace(struct chance *c, uint8_t *file, size_t *size, size_t more)
{
    uint8_t order[ORDER_BYTES];
    size_t last = order_bytes(file);
    *size -= last;
    memcpy(order, file + *size, last);
    lengthen(c, file, size, more);
    memcpy(file + *size, order, last);
    *size += last;
    add(file + TRACE_LENGTH_AT, more);
    shift_order(file, more);
}

static void damage_length(struct chance *c, uint8_t *file, size_t *size, size_t room)
{
    /* about the ends of the contents and of the table's numbers: at two entries 26 and 42, at three 38, 54 and, with the order, 58 */
    static const size_t sizes[] = {0, 1, 2, 25, 26, 41, 37, 38, 53, 57};
    size_t cut;

    switch (below(c, 7)) {
    case 0:
        *size = below(c, *size);
        break;
    case 1:
        cut = ONE_OF(c, sizes);
        *size = cut < *size ? cut : *size;
        break;
    case 2:
        // Whole events cut off, with the old length still in the contents.
        *size -= *size >= 74 ? EVENT_BYTES : 1;
        break;
    case 3:
    case 4:
        lengthen(c, file, size, 1);
        break;
    case 5:
        lengthen(c, file, size, percent(c, 50) ? EVENT_BYTES : 1 + below(c, 40));
        break;
    default:
        // At and past the longest file, with a trace length that agrees.
        lengthen_trace(c, file, size, longest(file) + below(c, 3) - *size);
        if (percent(c, 50))
            lengthen_trace(c, file, size, room - *size);
    }
}

// Another kind, offset or length in the third entry, by one cell.
static void spoil_order_entry(struct chance *c, uint8_t *file, size_t size)
{
    static const uint32_t kinds[] = {0, 1, 2, 4, 3u << 8, 3 | 1u << 24};
    static const uint32_t lengths[] = {0, 3, 5, 8, 16, 4 | 1u << 8, 4 | 1u << 24};
    uint32_t right = (uint32_t)(size - ORDER_BYTES);
    uint32_t offsets[] = {0, right - 1, right + 1, right - EVENT_BYTES, right + ORDER_BYTES, right | 1u << 24, right ^ 1u << 8};
    switch (below(c, 3)) {
    case 0:
        put(file + ORDER_KIND_AT, ONE_OF(c, kinds), 4);
        break;
    case 1:
        put(file + ORDER_OFFSET_AT, ONE_OF(c, offsets), 4);
        break;
    default:
        put(file + ORDER_LENGTH_AT, ONE_OF(c, lengths), 4);
    }
}

// A body of another length than four, most often with an entry that says so.
static void resize_order(struct chance *c, uint8_t *file, size_t *size)
{
    static const size_t lengths[] = {0, 0, 1, 3, 5, 8, 8, 16};
    size_t length = ONE_OF(c, lengths);
    memset(file + *size, 0, EVENT_BYTES);
    *size += length - ORDER_BYTES;
    if (percent(c, 70))
        put(file + ORDER_LENGTH_AT, length, 4);
}

// The order's entry and its body before those of the trace, with offsets that agree.
static void order_before_trace(uint8_t *file, size_t *size)
{
    size_t first = trace_at(file);
    uint64_t order = get(file + *size - ORDER_BYTES, ORDER_BYTES);
    *size -= ORDER_BYTES;
    insert(file, size, first, 0, ORDER_BYTES);
    put(file + first, order, ORDER_BYTES);
    put(file + ORDER_OFFSET_AT, first, 4);
    add(file + TRACE_OFFSET_AT, ORDER_BYTES);
    swap_entries(file, 1, 2);
}

// The order in another place than last, by its entry, by its kind alone or by its body too; or apart from the trace.
static void misplace_order(struct chance *c, uint8_t *file, size_t *size)
{
    size_t other = below(c, 2);
    size_t gap = percent(c, 50) ? EVENT_BYTES : 1 + below(c, 8);
    switch (below(c, 4)) {
    case 0:
        swap_entries(file, other, 2);
        break;
    case 1:
        put(file + entry_at(other), 3, 4);
        put(file + ORDER_KIND_AT, other + 1, 4);
        break;
    case 2:
        order_before_trace(file, size);
        break;
    default:
        insert(file, size, *size - ORDER_BYTES, 0, gap);
        shift_order(file, gap);
    }
}

// The first so many entries say that their bodies stand further on, as if the contents had become longer.
static void shift_bodies(uint8_t *file, size_t entries, uint64_t more)
{
    for (size_t i = 0; i < entries; i++)
        add(file + entry_at(i) + 4, more);
}

// Another number of entries than there are: of three, of two with their bodies, or of four.
static void miscount_entries(struct chance *c, uint8_t *file, size_t *size)
{
    static const uint64_t numbers[] = {0, 1, 2, 2, 4, 3u << 8, 3 | 1u << 8, 2 | 1u << 8};
    size_t one = entry_at(1) - entry_at(0);
    switch (below(c, 4)) {
    case 0:
        *size -= ORDER_BYTES;
        drop(file, size, entry_at(2), one);
        shift_bodies(file, 2, -one);
        break;
    case 1:
        insert(file, size, entry_at(3), 0, one);
        shift_bodies(file, 3, one);
        put_entry(file, 3, *size, 0);
        put(file, percent(c, 50) ? 4 : 3, 2);
        break;
    default:
        put(file, ONE_OF(c, numbers), 2);
    }
}

// What belongs to a third entry, spoilt in a file that has one.
static void spoil_order(struct chance *c, uint8_t *file, size_t *size)
{
    static const uint32_t values[] = {2, 2, 3, 255, 256, 257, 1u << 16, 1u << 24, 1 | 1u << 24, 1u << 31, UINT32_MAX};
    switch (below(c, 10)) {
    case 0:
    case 1:
        spoil_order_entry(c, file, *size);
        break;
    case 2:
    case 3:
        put(file + *size - ORDER_BYTES, ONE_OF(c, values), ORDER_BYTES);
        break;
    case 4:
    case 5:
        resize_order(c, file, size);
        break;
    case 6:
    case 7:
        misplace_order(c, file, size);
        break;
    default:
        miscount_entries(c, file, size);
    }
}

// A body moved, grown or entered where another belongs, with most of the contents in agreement.
static void damage_bodies(struct chance *c, uint8_t *file, size_t *size)
{
    switch (below(c, 4)) {
    case 0:
        part_bodies(file, size, percent(c, 50) ? EVENT_BYTES : 1 + below(c, 8));
        break;
    case 1:
        ninth_stream(file, size);
        break;
    case 2:
        swap_entries(file, 0, 1);
        break;
    default:
        // A trace that starts inside the table and ends where it did.
        add(file + TRACE_OFFSET_AT, -EVENT_BYTES);
        add(file + TRACE_LENGTH_AT, EVENT_BYTES);
    }
}

void damage(struct chance *c, uint8_t *file, size_t *size, size_t room)
{
    if (tells_order(file) && percent(c, 50)) {
        spoil_order(c, file, size);
        return;
    }
    switch (below(c, 14)) {
    case 0:
    case 1:
    case 2:
        // The number of entries a little more often than the other contents.
        change_byte(c, file + (percent(c, 15) ? below(c, 2) : below(c, table_at(file))));
        break;
    case 3:
        change_byte(c, file + count_at(file) + below(c, 4));
        break;
    case 4:
    case 5:
        damage_length(c, file, size, room);
        break;
    case 6:
    case 7:
    case 8:
    case 9:
    case 10:
        spoil_event(c, file, *size);
        break;
    case 11:
        change_byte(c, file + below(c, *size));
        break;
    case 12:
        *size = below(c, 300);
        for (size_t i = 0; i < *size; i++)
            file[i] = (uint8_t)draw(c);
        break;
    default:
        damage_bodies(c, file, size);
    }
}
