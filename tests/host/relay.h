/* A relay of this host, and listed calls on it. */
#ifndef HOST_RELAY_H
#define HOST_RELAY_H

#include "buffer.h"
#include "calls.h"
#include "opinions.h"

struct relay {
    struct buffer tables;
    struct buffer aside; /* a copy of the tables */
    struct buffer tally;
    struct opinion opinion;
};

struct relay relay_new(void);
void relay_free(struct relay *relay);

/* Makes a listed call, and expects the number and the bytes that the list has; and of a second opinion the same. */
void relay_make(struct relay *relay, const struct listed *call);

#endif
