/* Facts that a caller holds the library to, from any thread. */
#pragma once
#include <stdio.h>

static unsigned long held, wrong;

static void hold(int fact, const char *what, unsigned long at)
{
    __atomic_fetch_add(&held, 1, __ATOMIC_RELAXED);
    if (!fact && __atomic_fetch_add(&wrong, 1, __ATOMIC_RELAXED) < 20)
        printf("wrong at %lu: %s\n", at, what);
}
