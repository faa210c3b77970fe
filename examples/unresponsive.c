/*
 * The desk is moved from the cable to the radio, and sends nothing new: its last announce comes round by a repeater. It
 * is told twice: by a host that marks the desk's path once two counts had no receipt, and by one that does not.
 */
#include "haskumye.h"
#include <stdio.h>
#include <stdlib.h>
#include <string.h>

/* The box's own programs are at a port without a wire. */
enum { CABLE = 1, RADIO = 2, PROGRAMS = 15 };
enum { ANNOUNCE = 148, SIGNATURE = 64, REPEATED = 1 /* hops */ };
/* Seconds for each relay between and for the destination; and so many in a row without a receipt are too many. */
enum { WAIT_PER_HOP = 6, LOST = 2 };

struct packet {
    uint8_t bytes[HASKUMYE_OUTPUT_SIZE];
    size_t length;
};

static uint8_t tables[HASKUMYE_TABLE_SIZE];
static haskumye_tally tally;
static const haskumye_address own = {"cold store"}, repeater = {"repeater"};
static haskumye_address desk;
static unsigned desk_is_at; /* a port */

static void expect(int holds, const char *what)
{
    if (!holds) {
        fprintf(stderr, "failed: %s\n", what);
        exit(1);
    }
}

static struct packet written(haskumye_parts parts, const uint8_t *payload, size_t length)
{
    struct packet packet;
    haskumye_written number = haskumye_write(&parts, payload, length, packet.bytes, sizeof packet.bytes);
    expect(HASKUMYE_WRITTEN_REFUSAL(number) == HASKUMYE_REFUSAL_NONE, "writing a packet");
    packet.length = HASKUMYE_WRITTEN_LENGTH(number);
    return packet;
}

static haskumye_answer arrive(const struct packet *packet, unsigned port, uint64_t clock)
{
    uint8_t output[HASKUMYE_OUTPUT_SIZE];
    return haskumye_packet(packet->bytes, packet->length, port, clock, 1, tables, sizeof tables, output, sizeof output,
                           &tally);
}

static void start(void)
{
    static const unsigned ports[] = {CABLE, RADIO, PROGRAMS};
    expect(haskumye_matches_header(), "a library of this header");
    expect(haskumye_fresh(tables, sizeof tables, &own) == HASKUMYE_REFUSAL_NONE, "fresh tables");
    memset(&tally, 0, sizeof tally);
    for (unsigned i = 0; i < sizeof ports / sizeof ports[0]; i++) {
        expect(haskumye_set_port(tables, sizeof tables, ports[i], HASKUMYE_ON, HASKUMYE_MODE_BOUNDARY,
                                 HASKUMYE_LONGEST_PACKET) == 0, "a port");
    }
}

/* The desk's announce: as it sent it, or as the repeater spreads it. */
static void announce(unsigned port, uint64_t clock, uint8_t hops)
{
    static const uint8_t body[ANNOUNCE];
    haskumye_parts parts = {.header = HASKUMYE_PACKET_ANNOUNCE, .hops = hops};
    if (hops > 0) {
        parts.header |= HASKUMYE_HEADER_TYPE_2 | HASKUMYE_HEADER_TRANSPORT;
        parts.relay = repeater;
    }
    haskumye_announced_destination(body, sizeof body, &desk);
    parts.destination = desk;
    struct packet packet = written(parts, body, sizeof body);
    haskumye_text text;
    haskumye_answer_text(arrive(&packet, port, clock), &text);
    printf("  %llu  the desk's announce by port %u: %s\n", (unsigned long long)clock, port, text.bytes);
}

/* The receipt that the desk sends for a packet. */
static struct packet receipt_for(const struct packet *packet)
{
    static const uint8_t signature[SIGNATURE];
    haskumye_parts proof = {.header = HASKUMYE_PACKET_PROOF};
    haskumye_hash hash;
    expect(haskumye_packet_hash(packet->bytes, packet->length, &hash) == HASKUMYE_REFUSAL_NONE, "hashing");
    memcpy(proof.destination.bytes, hash.bytes, sizeof proof.destination.bytes);
    return written(proof, signature, sizeof signature);
}

/* A program's count for the desk. Returns whether its receipt came home. */
static int send_count(unsigned count, uint64_t clock)
{
    haskumye_parts parts = {.header = HASKUMYE_HEADER_TYPE_2 | HASKUMYE_HEADER_TRANSPORT, .relay = own};
    const uint8_t payload[] = {(uint8_t)count};
    parts.destination = desk;
    struct packet packet = written(parts, payload, sizeof payload), receipt = receipt_for(&packet);
    haskumye_answer answer = arrive(&packet, PROGRAMS, clock);
    expect(HASKUMYE_ANSWER_KIND(answer) == HASKUMYE_FORWARD, "a count");
    int there = HASKUMYE_ANSWER_PORT(answer) == desk_is_at;
    int home = there && HASKUMYE_ANSWER_PORT(arrive(&receipt, desk_is_at, clock)) == PROGRAMS;
    printf("  %llu  count %u by port %u: %s\n", (unsigned long long)clock, count, HASKUMYE_ANSWER_PORT(answer),
           home ? "its receipt comes home" : "no receipt");
    return home;
}

/* How long a receipt may take: by the hops of the path. */
static uint64_t longest_wait(uint64_t clock)
{
    haskumye_path_record path;
    expect(haskumye_live_path(tables, sizeof tables, &desk, clock, &path) == HASKUMYE_REFUSAL_NONE, "the desk's path");
    return WAIT_PER_HOP * (path.hops + UINT64_C(1));
}

static void mark_desk(uint64_t clock)
{
    unsigned refusal = haskumye_mark_path_unresponsive(tables, sizeof tables, &desk, clock);
    if (refusal != HASKUMYE_REFUSAL_NO_LIVE_PATH) { /* it expired: then any announce makes a new one */
        expect(refusal == HASKUMYE_REFUSAL_NONE, "marking");
        printf("  %llu  the desk's path is marked\n", (unsigned long long)clock);
    }
}

static void tell(const char *title, int marks)
{
    uint64_t clock = 1000;
    unsigned lost = 0;
    printf("%s\n", title);
    start();
    announce(CABLE, clock, 0);
    for (unsigned count = 1; count <= 4; count++) {
        desk_is_at = count == 1 ? CABLE : RADIO;
        clock += 10;
        lost = send_count(count, clock) ? 0 : lost + 1;
        clock += longest_wait(clock);
        if (marks && lost == LOST) {
            mark_desk(clock);
        }
        if (count == 3) {
            clock += 60;
            announce(RADIO, clock, REPEATED);
        }
    }
}

int main(void)
{
    tell("A host that marks:", 1);
    printf("\n");
    tell("One that does not:", 0);
    return 0;
}
