/* The library's functions, each called in the same way: directly, or on a stack whose depth is measured. */
#ifndef HOST_LIBRARY_H
#define HOST_LIBRARY_H

#include "buffer.h"

#include <stdint.h>

enum function {
    NOTHING, /* an empty call, for what measuring itself takes */
    VERSION,
    TABLE_SIZE,
    CHECK,
    FRESH,
    SET_PORT,
    SET_ANNOUNCE_RATE,
    ADD_LOCAL,
    REMOVE_LOCAL,
    MARK_PATH_UNRESPONSIVE,
    RENUMBER,
    PACKET,
    ANSWER_TEXT,
    OPINION_FRESH,
    OPINION_PACKET,
    OPINION_SET_PORT,
    OPINION_SET_ANNOUNCE_RATE,
    OPINION_ADD_LOCAL,
    OPINION_REMOVE_LOCAL,
    OPINION_MARK_PATH_UNRESPONSIVE,
    OPINION_RENUMBER,
    SAVED_SIZE,
    SAVE_TABLES,
    LOAD_TABLES,
    PORT,
    ANNOUNCE_RATE,
    LOCAL,
    PATH,
    LIVE_PATH,
    LINK,
    LIVE_RETURNS,
    LIVE_HASHES,
    LAST_CLOCK,
    SIGNATURE_MATTERS,
    READ,
    PAYLOAD_START,
    WRITE,
    PACKET_HASH,
    LINK_ID,
    ANNOUNCED_DESTINATION,
    LEAST_ANNOUNCE,
    EMISSION,
    LINE,
    SHA256,
    ANNOUNCE_SIGNING_BYTES,
    BUILD_ANNOUNCE,
    CHECK_RECORDING,
    RECORDING_COUNT,
    RECORDING_ENTRY,
    WRITE_RECORDING,
    REPLAY_ENTRY,
    SURVEY_BEGIN,
    SURVEY_RECORDING,
    SURVEY_LINE,
    FUNCTION_COUNT
};

/* What a function is given; each takes what it needs of it. */
struct use {
    struct buffer input;  /* packet, payload, message, address, map, blob or file; bodies to be written */
    struct buffer parts;  /* or entries to be written */
    struct buffer output; /* or where an answer of a fixed size goes */
    struct buffer tables;
    struct buffer tally;
    struct buffer log;    /* of a second opinion */
    struct buffer keys, name_hash, random, ratchet, app_data, signature; /* of an announce to be built */
    struct buffer start, counts, refusals; /* of a survey, which replays over the tables */
    uint64_t port, clock, mode, index; /* index: of an entry, a place in a table, or an answer */
    uint64_t size;        /* of a port, or that a packet is read at */
    uint64_t target, grace, penalty;   /* of the announce rate */
    size_t room;          /* of the output that a packet call would be lent */
    uint8_t byte;         /* the signature word, on or off, or a header */
};

/* The number that the function returns, 0 where it returns none. */
uint64_t library_call(enum function function, const struct use *use);

/* From now on every call's stack is measured. */
void library_measure(void);

/* Expects that every function was called, and on no more stack than allowed; prints how deep each went. */
void library_end(void);

#endif
