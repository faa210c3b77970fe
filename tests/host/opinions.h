/* Second opinions: one beside a relay of this host, and calls on logs of any bytes. */
#ifndef HOST_OPINIONS_H
#define HOST_OPINIONS_H

#include "buffer.h"
#include "calls.h"

struct opinion {
    struct buffer log;
    unsigned listed;   /* calls that it did not refuse */
    unsigned relays;   /* fresh relays that it was asked along with */
    unsigned full;     /* calls that found 64 listed */
    bool goes_along;   /* whether it was asked all that the relay was since fresh */
};

struct opinion opinion_new(void);

/* Expects, too, that some calls of a long list found 64 listed. */
void opinion_free(struct opinion *opinion);

/* The relay's tables are written by someone else: until the next fresh one nothing is asked. */
void opinion_leave(struct opinion *opinion);

/* Asks what a relay was asked by a listed call, with what it was given, and expects its number and the output that it left. */
void opinion_ask(struct opinion *opinion, const struct listed *call, const struct use *relays);

/* Each call on logs of any bytes: refusal 28 where their count says 64 or more, before all others. */
void opinions_try_odd(void);

#endif
