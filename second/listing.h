// The lines of a listing, each as its bytes, for the programs of this folder that print them or compare them.
#ifndef SECOND_LISTING_H
#define SECOND_LISTING_H

#include "file.h"

// More than any line has: six numbers, the largest of 64 bits.
#define LINE_ROOM 128

// So many bytes, the newline among them.
struct line {
    char text[LINE_ROOM];
    size_t length;
};

struct line header_line(void);

// The line of an event, by its number from 1, with the reply that it got and the clock afterwards.
struct line event_line(size_t number, struct event e, struct reply r, uint64_t clock);

// The one line of a file that is refused.
struct line refused_line(struct opening o);

void print_line(struct line l);

#endif
