/* What an answer's number says as text. */
#ifndef HOST_ANSWERS_H
#define HOST_ANSWERS_H

#include <stdint.h>

/* The text of a packet call's number is the one that its fields make, with zeros behind it. */
void answers_try(uint64_t number);

/* The same of numbers that no packet call returns. */
void answers_try_odd(void);

#endif
