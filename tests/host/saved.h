/* Saving and loading: each refusal in its order, and what either leaves. */
#ifndef HOST_SAVED_H
#define HOST_SAVED_H

#include "buffer.h"

/* Saves any tables, and loads the file where there is one. */
void saved_try(struct buffer tables, struct buffer tally);

/* Rooms of odd lengths, and files cut, lengthened and spoiled. */
void saved_try_odd(void);

#endif
