/* A list of calls, a line each, as independent/src/compare/answered.rs writes it. */
#ifndef HOST_CALLS_H
#define HOST_CALLS_H

#include "buffer.h"
#include "library.h"

/* A call of the library, or what its caller does to the tables in between. */
enum edit { NO_EDIT, PUT_ASIDE, TAKE_BACK, OVERWRITE, COPY, RESIZE };

struct listed {
    enum function function; /* NOTHING for an edit */
    enum edit edit;
    struct buffer bytes;    /* packet, address, map, or what is written */
    uint64_t port, clock, mode, size;
    uint64_t target, grace, penalty; /* of the announce rate */
    bool yes;               /* the signature word, or on */
    uint64_t room;          /* of the output */
    uint8_t fill;
    uint64_t at, from, length;
    uint64_t number, sum;   /* what a call must return, and leave */
};

/* How many lines the first one promises, or 0. */
size_t calls_promised(const char *line);

/* Reads a line. False where it is no call. */
bool calls_read(const char *line, struct listed *call);

#endif
