/* The questions that a host asks of the tables, and what docs/LAYOUT.md says that stands there. */
#ifndef HOST_QUESTIONS_H
#define HOST_QUESTIONS_H

#include "library.h"

/* Asks each question of any tables, at a clock; `index` is a place in each table. */
void questions_try(struct buffer tables, uint64_t clock, uint64_t index);

/* Asks whether the signature matters for a packet call, and makes it with the word no on a copy of its tables. */
void questions_try_signature(const struct use *call);

#endif
