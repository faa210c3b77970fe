/* How much stack a call touches. */
#ifndef HOST_STACK_H
#define HOST_STACK_H

#include <stddef.h>

/*
 * Runs a function on a painted stack of its own, with a page below it that nobody may touch: how many bytes lie from
 * the stack's start to the deepest one touched. What entering that stack takes is counted in.
 */
size_t stack_depth(void (*run)(void *argument), void *argument);

/* Expects that a known depth is measured. */
void stack_expect_measured(void);

#endif
