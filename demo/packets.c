#include "packets.h"
#include <stdio.h>
#include <stdlib.h>
#include <string.h>

enum { SIGNATURE = 64, ANNOUNCE = 148 };

void expect_done(const char *what, unsigned refusal)
{
    if (refusal != HASKUMYE_REFUSAL_NONE) {
        fprintf(stderr, "%s: refused %u\n", what, refusal);
        exit(1);
    }
}

static struct packet written(const haskumye_parts *parts, const uint8_t *payload, size_t length)
{
    struct packet packet;
    haskumye_written number = haskumye_write(parts, payload, length, packet.bytes, sizeof packet.bytes);
    expect_done("writing a packet", HASKUMYE_WRITTEN_REFUSAL(number));
    packet.length = HASKUMYE_WRITTEN_LENGTH(number);
    return packet;
}

/* Keys, name hash, blob, signature: nothing is signed here, and the story's hosts take every signature for good. */
struct packet announce_at(uint64_t clock, haskumye_address *destination)
{
    uint8_t payload[ANNOUNCE];
    haskumye_parts parts = {.header = HASKUMYE_PACKET_ANNOUNCE};
    memset(payload, 0xde, sizeof payload);
    for (unsigned i = 0; i < 5; i++) {
        payload[HASKUMYE_ANNOUNCE_EMISSION + i] = (uint8_t)(clock >> (8 * (4 - i)));
    }
    haskumye_announced_destination(payload, sizeof payload, &parts.destination);
    *destination = parts.destination;
    return written(&parts, payload, sizeof payload);
}

struct packet data_for(const haskumye_address *relay, const haskumye_address *destination, const char *text)
{
    haskumye_parts parts = {.header = HASKUMYE_HEADER_TYPE_2 | HASKUMYE_HEADER_TRANSPORT | HASKUMYE_PACKET_DATA};
    parts.relay = *relay;
    parts.destination = *destination;
    return written(&parts, (const uint8_t *)text, strlen(text));
}

struct packet receipt_for(const struct packet *packet)
{
    static const uint8_t signature[SIGNATURE];
    haskumye_parts parts = {.header = HASKUMYE_PACKET_PROOF};
    haskumye_hash hash;
    expect_done("hashing a packet", haskumye_packet_hash(packet->bytes, packet->length, &hash));
    memcpy(parts.destination.bytes, hash.bytes, sizeof parts.destination.bytes);
    return written(&parts, signature, sizeof signature);
}

const char *kind_of(const struct packet *packet)
{
    static const char *const names[] = {"data", "announce", "link request", "receipt"};
    return names[packet->bytes[0] & HASKUMYE_PACKET_KIND];
}
