/* Salvages a session file many times over, as products in C do, so that its instructions can be counted.
 *
 * Standard input has the number of times in eight bytes, and then the file. Prints the number of times and how many changes are listed. With the
 * word `read` the file is read instead, and it is how many events it has. A refusal has the status 1.
 * Nothing is put back: neither changes the file, and what is written does not depend on what the buffer and the list had in them. */
#include <stdio.h>
#include <string.h>

#include "repeat.h"
#include "yerbagunt.h"

#define ROOM 65536
#define PLACES (ROOM / YERBAGUNT_EVENT_SIZE)

static struct {
    uint64_t times;
    uint8_t file[ROOM];
} input;

/* A number, and how many changes or events there are. */
struct reply {
    uint64_t number, many;
};

static struct reply salvage(struct yerbagunt_bytes old)
{
    static uint8_t out[YERBAGUNT_SALVAGED_MAX];
    static struct yerbagunt_change changes[PLACES];
    struct yerbagunt_salvaged s = yerbagunt_salvage(old, (struct yerbagunt_buffer){out, sizeof out}, changes, PLACES);
    return (struct reply){s.number, s.changes};
}

static struct reply read_only(struct yerbagunt_bytes old)
{
    struct yerbagunt_file f = yerbagunt_read(old);
    return (struct reply){f.number, f.events};
}

int main(int words, char **word)
{
    int reads = words > 1 && strcmp(word[1], "read") == 0;
    struct yerbagunt_bytes old = {input.file, fread(&input, 1, sizeof input, stdin) - sizeof input.times};
    struct reply r = {0, 0};
    for (uint64_t i = 0; i < input.times; i++) {
        KEEP(&input);
        r = reads ? read_only(old) : salvage(old);
    }
    printf("%lu %lu\n", (unsigned long)input.times, (unsigned long)r.many);
    return r.number != 0;
}
