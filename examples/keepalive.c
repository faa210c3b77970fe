/*
 * A link through one relay, kept alive by the same 20 bytes every minute. It is told twice: with a keepalive's context,
 * and with another one, whose packets are dropped as duplicates for 300 seconds. So it once went with keepalives too.
 */
#include "haskumye.h"
#include <stdio.h>
#include <stdlib.h>
#include <string.h>

/* The terminal asks for the link, and the desk answers. A box closes a link that is silent for two intervals. */
enum { TERMINAL = 1, DESK = 2, INTERVAL = 60, STALE = 2 * INTERVAL, MINUTES = 5 };
/* By the source "Link Communication": context and request byte of a keepalive. */
enum { KEEPALIVE = 0xfa, OTHER_CONTEXT = 0x00, REQUEST = 0xff };
enum { ANNOUNCE = 148, LINK_REQUEST = 64, LINK_PROOF = 96 };

struct packet {
    uint8_t bytes[HASKUMYE_OUTPUT_SIZE];
    size_t length;
};

static uint8_t tables[HASKUMYE_TABLE_SIZE];
static haskumye_tally tally;
static const haskumye_address own = {"cold store"};

static void expect(int holds, const char *what)
{
    if (!holds) {
        fprintf(stderr, "failed: %s\n", what);
        exit(1);
    }
}

static struct packet written(haskumye_parts parts, const uint8_t *payload, size_t length)
{
    struct packet packet;
    haskumye_written number = haskumye_write(&parts, payload, length, packet.bytes, sizeof packet.bytes);
    expect(HASKUMYE_WRITTEN_REFUSAL(number) == HASKUMYE_REFUSAL_NONE, "writing a packet");
    packet.length = HASKUMYE_WRITTEN_LENGTH(number);
    return packet;
}

static haskumye_answer arrive(const struct packet *packet, unsigned port, uint64_t clock)
{
    uint8_t output[HASKUMYE_OUTPUT_SIZE];
    return haskumye_packet(packet->bytes, packet->length, port, clock, 1, tables, sizeof tables, output, sizeof output,
                           &tally);
}

static void start(void)
{
    expect(haskumye_fresh(tables, sizeof tables, &own) == HASKUMYE_REFUSAL_NONE, "fresh tables");
    memset(&tally, 0, sizeof tally);
    for (unsigned port = TERMINAL; port <= DESK; port++) {
        expect(haskumye_set_port(tables, sizeof tables, port, HASKUMYE_ON, HASKUMYE_MODE_BOUNDARY,
                                 HASKUMYE_LONGEST_PACKET) == 0, "a port");
    }
}

/* The relay hears the desk's announce, and carries the terminal's link request and the desk's proof. */
static haskumye_address linked(void)
{
    static const uint8_t body[ANNOUNCE];
    haskumye_parts announce = {.header = HASKUMYE_PACKET_ANNOUNCE};
    haskumye_announced_destination(body, sizeof body, &announce.destination);
    struct packet packet = written(announce, body, sizeof body);
    expect(HASKUMYE_ANSWER_KIND(arrive(&packet, DESK, 1000)) == HASKUMYE_SPREAD, "the announce");

    haskumye_parts request = {.header = HASKUMYE_HEADER_TYPE_2 | HASKUMYE_PACKET_LINK_REQUEST, .relay = own};
    request.destination = announce.destination;
    packet = written(request, body, LINK_REQUEST);
    expect(HASKUMYE_ANSWER_KIND(arrive(&packet, TERMINAL, 1001)) == HASKUMYE_FORWARD, "the link request");

    haskumye_parts proof = {.header = HASKUMYE_DESTINATION_LINK | HASKUMYE_PACKET_PROOF};
    proof.context = HASKUMYE_CONTEXT_LINK_PROOF;
    expect(haskumye_link_id(packet.bytes, packet.length, &proof.destination) == HASKUMYE_REFUSAL_NONE, "the link id");
    packet = written(proof, body, LINK_PROOF);
    expect(HASKUMYE_ANSWER_KIND(arrive(&packet, DESK, 1002)) == HASKUMYE_FORWARD, "the link's proof");
    return proof.destination;
}

/* The terminal sends the packet once a minute. The desk closes a link that it hears nothing of. */
static void tell(const char *title, uint8_t context)
{
    static const uint8_t request[] = {REQUEST};
    haskumye_parts parts = {.header = HASKUMYE_DESTINATION_LINK | HASKUMYE_PACKET_DATA, .context = context};
    start();
    parts.destination = linked();
    struct packet packet = written(parts, request, sizeof request);
    unsigned heard = 0;
    printf("%s\n", title);
    for (unsigned second = 0; second <= MINUTES * INTERVAL; second += INTERVAL) {
        haskumye_answer answer = arrive(&packet, TERMINAL, 1060 + second);
        int forwarded = HASKUMYE_ANSWER_KIND(answer) == HASKUMYE_FORWARD;
        heard = forwarded ? second : heard;
        printf("  after %3u s  %s\n", second, forwarded ? "forward" : "drop 2, duplicate");
        expect(forwarded || HASKUMYE_ANSWER_REASON(answer) == HASKUMYE_REASON_DUPLICATE, "a duplicate");
        if (second - heard >= STALE) {
            printf("  = the desk has heard nothing for %u s, and closes the link\n", second - heard);
            return;
        }
    }
    printf("  = the link lives\n");
}

int main(void)
{
    tell("Keepalives, context fa:", KEEPALIVE);
    printf("\n");
    tell("The same with context 00, which is tested as a duplicate:", OTHER_CONTEXT);
    return 0;
}
