/* The packets of the story, made with the library's own writer. */
#ifndef DEMO_PACKETS_H
#define DEMO_PACKETS_H

#include "haskumye.h"

struct packet {
    uint8_t bytes[HASKUMYE_OUTPUT_SIZE];
    size_t length;
};

/* Ends the story where a call of the library was refused. */
void expect_done(const char *what, unsigned refusal);

/* An announce that was emitted at a clock, and the destination that it announces. */
struct packet announce_at(uint64_t clock, haskumye_address *destination);

/* Data that asks a relay to carry it to a destination. */
struct packet data_for(const haskumye_address *relay, const haskumye_address *destination, const char *text);

/* The receipt for a packet: a proof for the first 16 bytes of its hash. */
struct packet receipt_for(const struct packet *packet);

/* What stands in the header: "data", "announce", "link request" or "receipt". */
const char *kind_of(const struct packet *packet);

#endif
