/*
 * Every call that tests/c/replay.c makes of the library is made by `measure` instead, which may make it on another stack
 * (tests/c/stack.c) or again and again (tests/c/repeat.c). Linked with `ld --wrap` for each function of the library.
 */
#ifndef WRAPPED_H
#define WRAPPED_H

#include <stddef.h>

/* A function of the library, and the most of what is measured of it. */
struct measured {
    const char *name;
    size_t most;
};

/* All of them, for what is told at the end. */
extern struct measured *const all_measured[];
extern const size_t measured_count;

/* Makes the call, at least once. */
void measure(struct measured *m, void (*call)(void));

#endif
