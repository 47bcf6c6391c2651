// Chance that follows from a seed: everything in a file follows from its seed and index.
// C leaves the order of arguments and initializers open, so none of them holds two draws.
#ifndef TRIALS_CHANCE_H
#define TRIALS_CHANCE_H

#include <stdbool.h>
#include <stdint.h>

struct chance {
    uint64_t state;
};

// splitmix64, which is short and the same on every machine.
static inline uint64_t draw(struct chance *c)
{
    uint64_t z = c->state += 0x9e3779b97f4a7c15u;
    z = (z ^ (z >> 30)) * 0xbf58476d1ce4e5b9u;
    z = (z ^ (z >> 27)) * 0x94d049bb133111ebu;
    return z ^ (z >> 31);
}

// 0 to n - 1
static inline uint64_t below(struct chance *c, uint64_t n)
{
    return draw(c) % n;
}

static inline bool percent(struct chance *c, uint64_t n)
{
    return below(c, 100) < n;
}

// 1 to most, small ones as likely as large ones
static inline uint64_t spread(struct chance *c, uint64_t most)
{
    unsigned bits = 1;
    while (bits < 63 && most >> bits != 0)
        bits++;
    uint64_t number = below(c, (uint64_t)1 << (1 + below(c, bits)));
    return number == 0 ? 1 : number > most ? most : number;
}

#define LENGTH(array) (sizeof(array) / sizeof *(array))
#define ONE_OF(c, array) ((array)[below(c, LENGTH(array))])

#endif
