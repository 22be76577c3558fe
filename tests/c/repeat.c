/*
 * One call of a replay made again and again: the last of those that OBERKOSZ_CALL (the name of a function) names, which is
 * the OBERKOSZ_PLACE-th of them, OBERKOSZ_TIMES times. Tells on standard error how many nanoseconds one took, the least of
 * batches of eight.
 */
#include "wrapped.h"

#include <stdio.h>
#include <stdlib.h>
#include <string.h>
#include <time.h>

enum { BATCH = 8 };

static long number(const char *name)
{
    const char *said = getenv(name);
    return said ? atol(said) : 0;
}

static long nanoseconds(void)
{
    struct timespec t;
    clock_gettime(CLOCK_MONOTONIC, &t);
    return t.tv_sec * 1000000000 + t.tv_nsec;
}

void measure(struct measured *m, void (*call)(void))
{
    const char *name = getenv("OBERKOSZ_CALL");
    call();
    m->most++;
    if (!name || strcmp(name, m->name) != 0 || (long)m->most != number("OBERKOSZ_PLACE"))
        return;
    long least = -1;
    for (long made = 0; made < number("OBERKOSZ_TIMES"); made += BATCH) {
        long from = nanoseconds();
        for (int k = 0; k < BATCH; k++)
            call();
        long taken = nanoseconds() - from;
        if (least < 0 || taken < least)
            least = taken;
    }
    fprintf(stderr, "%ld nanoseconds\n", least / BATCH);
}
