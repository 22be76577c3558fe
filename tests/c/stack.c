/*
 * How much stack each call of the library uses: every call of a replay runs on a painted stack of its own, and what it
 * left unpainted is told on standard error at the end, the most of each function. The copies of a state that is handed in
 * and back by value are in the figure, as they are in a firmware's.
 */
#include "wrapped.h"

#include <stdint.h>
#include <stdio.h>
#include <string.h>
#include <ucontext.h>

enum { STACK = 1 << 20, PAINT = 0x5A };

static uint8_t stack[STACK];
static ucontext_t caller, callee;

void measure(struct measured *m, void (*call)(void))
{
    memset(stack, PAINT, STACK);
    getcontext(&callee);
    callee.uc_stack.ss_sp = stack;
    callee.uc_stack.ss_size = STACK;
    callee.uc_link = &caller;
    makecontext(&callee, call, 0);
    swapcontext(&caller, &callee);
    size_t untouched = 0;
    while (untouched < STACK && stack[untouched] == PAINT)
        untouched++;
    if (m->most < STACK - untouched)
        m->most = STACK - untouched;
}

__attribute__((destructor)) static void tell(void)
{
    for (size_t k = 0; k < measured_count; k++)
        fprintf(stderr, "%-24s %8zu bytes of stack\n", all_measured[k]->name, all_measured[k]->most);
}
