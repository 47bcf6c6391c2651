/* Makes a call many times over, each time on the same image. There must be `times`, `prepared`, which is the image, and `work`, which is it again
 * before each call. */

/* No store before this is left out by the compiler, and none of it is known after. */
#define KEEP(thing) __asm__ volatile("" : : "r"(thing) : "memory")

#define REPEAT(call)                                  \
    for (uint64_t i = 0; i < times; i++) {            \
        memcpy(&work, &prepared, sizeof work);        \
        KEEP(&work);                                  \
        call;                                         \
        KEEP(&work);                                  \
    }
