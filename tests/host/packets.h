/* The functions that need no relay, on any bytes. */
#ifndef HOST_PACKETS_H
#define HOST_PACKETS_H

#include "buffer.h"

/* Calls each of them on these bytes, and expects what document 01 says of its answer. */
void packets_try(struct buffer packet);

#endif
