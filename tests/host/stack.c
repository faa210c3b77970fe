#include "stack.h"

#include "check.h"

#include <stdint.h>
#include <stdio.h>
#include <stdlib.h>
#include <string.h>
#include <sys/mman.h>
#include <ucontext.h>
#include <unistd.h>

/* Far more than a call may take, so that one that takes too much is measured. */
enum { WORDS = 8192, KNOWN = 20000 };

static uint64_t *stack;
static ucontext_t here, there;
static void (*entered)(void *argument);
static void *given;

static void enter(void)
{
    entered(given);
}

/* No two places have the same paint: a copy of painted bytes is seen. */
static uint64_t paint(size_t place)
{
    return (place + 1) * UINT64_C(0xd1342543de82ef95);
}

static void make_stack(void)
{
    size_t page = (size_t)sysconf(_SC_PAGESIZE);
    uint8_t *region = mmap(NULL, page + WORDS * 8, PROT_READ | PROT_WRITE, MAP_PRIVATE | MAP_ANONYMOUS, -1, 0);
    if (region == MAP_FAILED || mprotect(region, page, PROT_NONE) != 0) {
        perror("no stack");
        exit(2);
    }
    stack = (uint64_t *)(void *)(region + page);
}

size_t stack_depth(void (*run)(void *argument), void *argument)
{
    if (stack == NULL) {
        make_stack();
    }
    for (size_t i = 0; i < WORDS; i++) {
        stack[i] = paint(i);
    }
    entered = run;
    given = argument;
    getcontext(&there);
    there.uc_stack.ss_sp = stack;
    there.uc_stack.ss_size = WORDS * 8;
    there.uc_link = &here;
    makecontext(&there, enter, 0);
    swapcontext(&here, &there);
    size_t untouched = 0;
    while (untouched < WORDS && stack[untouched] == paint(untouched)) {
        untouched++;
    }
    return (WORDS - untouched) * 8;
}

static void touch_known(void *argument)
{
    volatile uint8_t bytes[KNOWN];
    bytes[0] = *(uint8_t *)argument;
    *(uint8_t *)argument = bytes[0];
}

void stack_expect_measured(void)
{
    uint8_t byte = 1;
    size_t depth = stack_depth(touch_known, &byte);
    expect("a known depth is measured", depth >= KNOWN && depth < KNOWN + 1000, 1);
}
