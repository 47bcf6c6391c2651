/* The second program's bookings, which judge the table on each call as well. */
#include "booking.h"

typedef struct booking_table image;
typedef struct booking_reply reply;

static void begin(image *book, uint32_t worst, uint32_t span, uint32_t padding, uint64_t limit)
{
    booking_begin(book, worst, span, padding, (uint64_t[DESK_COUNT]){limit, limit});
}

static reply add(image *book, uint64_t desk, uint32_t reserved, uint32_t period)
{
    return booking_add(book, desk, (struct reservation){reserved, period});
}

static reply withdraw(image *book, uint64_t desk, uint64_t number)
{
    return booking_withdraw(book, desk, number);
}

static reply finish(const image *book)
{
    struct table finished;
    enum number number = booking_finish(book, &finished);
    return (reply){number, finished.count};
}

#include "booking_driver.h"
