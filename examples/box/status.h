/* The status page of a box: what the tables say, asked of the library. */
#ifndef BOX_STATUS_H
#define BOX_STATUS_H

#include "../state.h"

/* Writes the page to a file, whole or not at all, and returns 1. `verified` is how many signatures were verified. */
int write_status(const char *folder, const struct state *state, uint64_t clock, unsigned verified);

#endif
