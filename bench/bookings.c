/* The bookings of the library, as products in C make them. */
#include "yerbagunt.h"

typedef struct yerbagunt_book image;
typedef struct yerbagunt_receipt reply;

static void begin(image *book, uint32_t worst, uint32_t span, uint32_t padding, uint64_t limit)
{
    yerbagunt_begin(book, worst, span, padding, limit, limit);
}

static reply add(image *book, uint64_t desk, uint32_t reserved, uint32_t period)
{
    return yerbagunt_add(book, desk, reserved, period);
}

static reply withdraw(image *book, uint64_t desk, uint64_t number)
{
    return yerbagunt_withdraw(book, desk, number);
}

/* Finishing gets the table by value. */
static reply finish(const image *book)
{
    struct yerbagunt_finished f = yerbagunt_finish(*book);
    return (reply){f.number, f.count};
}

#include "booking_driver.h"
