#include "packets.h"

#include "check.h"
#include "haskumye.h"
#include "library.h"

#include <stdio.h>
#include <string.h>

/* What a buffer holds before a call: a refused one leaves it. */
enum { FILL = 0xa5 };

static bool is_type_2(struct buffer packet)
{
    return packet.length > 0 && packet.bytes[0] & HASKUMYE_HEADER_TYPE_2;
}

/* Document 01's rows 1, 2, 3 and 1, of a packet that is read at a size. */
static unsigned refusal_at(struct buffer packet, uint64_t size)
{
    if (packet.length < HASKUMYE_SHORTEST_PACKET) {
        return HASKUMYE_REFUSAL_TOO_SHORT;
    }
    if (packet.length > size) {
        return HASKUMYE_REFUSAL_TOO_LONG;
    }
    if (packet.bytes[0] & HASKUMYE_HEADER_ACCESS_CODE) {
        return HASKUMYE_REFUSAL_ACCESS_CODE;
    }
    return is_type_2(packet) && packet.length < sizeof(haskumye_parts) ? HASKUMYE_REFUSAL_TOO_SHORT : 0;
}

/* Calls a function that gives an answer of so many bytes, which the caller frees. A packet is read at the longest. */
static struct buffer answer(const char *what, enum function function, struct buffer input, size_t size, uint64_t number)
{
    struct buffer output = buffer_new(size, FILL);
    struct use use = {.input = input, .output = output, .size = HASKUMYE_LONGEST_PACKET};
    expect(what, library_call(function, &use), number);
    return output;
}

static void expect_bytes(const char *what, struct buffer got, const uint8_t *expected, size_t length)
{
    expect(what, got.length >= length && (length == 0 || memcmp(got.bytes, expected, length) == 0), 1);
}

static void expect_unchanged(const char *what, struct buffer got)
{
    struct buffer before = buffer_new(got.length, FILL);
    expect_bytes(what, got, before.bytes, before.length);
    buffer_free(&before);
}

/* SHA-256 of the first bytes of a message. */
static struct buffer digest(struct buffer message, size_t length)
{
    struct buffer part = buffer_copy(message.bytes, length);
    struct buffer hash = answer("SHA-256", SHA256, part, sizeof(haskumye_hash), 0);
    buffer_free(&part);
    return hash;
}

static void try_sha256(struct buffer message)
{
    unsigned refusal = message.length > HASKUMYE_LONGEST_MESSAGE ? HASKUMYE_REFUSAL_TOO_LONG : 0;
    struct buffer hash = answer("SHA-256 of any bytes", SHA256, message, sizeof(haskumye_hash), refusal);
    if (refusal != 0) {
        expect_unchanged("a refused hash", hash);
    }
    buffer_free(&hash);
}

/* A packet that reads is written again from its parts and its payload, into a buffer a little longer than it needs. */
static void try_read_and_write(struct buffer packet, struct buffer payload, unsigned refusal)
{
    struct buffer parts = answer("reading", READ, packet, sizeof(haskumye_parts), refusal);
    if (refusal != 0) {
        expect_unchanged("refused parts", parts);
    } else {
        struct buffer output = buffer_new(HASKUMYE_OUTPUT_SIZE + 1, FILL);
        struct use use = {.input = payload, .parts = parts, .output = output};
        expect("writing", library_call(WRITE, &use), (uint64_t)packet.length << 16);
        expect_bytes("the packet written", output, packet.bytes, packet.length);
        expect("the byte behind", output.bytes[packet.length], FILL);
        buffer_free(&output);
    }
    buffer_free(&parts);
}

/* A packet is read at sizes about its length; 9 for a size that no port has comes first. */
static void try_sizes(struct buffer packet)
{
    const uint64_t sizes[] = {0, 18, 19, 254, 255, 256, 499, 500, 501, 65536 + 255, UINT64_MAX, packet.length - 1,
                              packet.length, packet.length + 1};
    for (size_t i = 0; i < sizeof sizes / sizeof sizes[0]; i++) {
        bool right = sizes[i] >= HASKUMYE_SHORTEST_PACKET && sizes[i] <= HASKUMYE_LONGEST_PACKET;
        unsigned refusal = right ? refusal_at(packet, sizes[i]) : HASKUMYE_REFUSAL_SETTING;
        struct use use = {.input = packet, .output = buffer_new(sizeof(haskumye_parts), FILL), .size = sizes[i]};
        expect("reading at a size", library_call(READ, &use), refusal);
        if (refusal != 0) {
            expect_unchanged("parts refused at a size", use.output);
        }
        buffer_free(&use.output);
    }
}

/* What is hashed of a packet that reads: header modulo 16, destination, context, payload. */
static struct buffer hashed_part(struct buffer packet, struct buffer payload)
{
    struct buffer message = buffer_new(18 + payload.length, 0);
    message.bytes[0] = packet.bytes[0] & 15;
    memcpy(message.bytes + 1, packet.bytes + (is_type_2(packet) ? 18 : 2), 17);
    if (payload.length > 0) {
        memcpy(message.bytes + 18, payload.bytes, payload.length);
    }
    return message;
}

static void try_hashes(struct buffer packet, struct buffer payload, unsigned refusal)
{
    struct buffer hash = answer("packet hash", PACKET_HASH, packet, sizeof(haskumye_hash), refusal);
    struct buffer id = answer("link id", LINK_ID, packet, sizeof(haskumye_address), refusal);
    if (refusal != 0) {
        expect_unchanged("a refused packet hash", hash);
        expect_unchanged("a refused link id", id);
    } else {
        struct buffer message = hashed_part(packet, payload);
        struct buffer whole = digest(message, message.length);
        struct buffer cut = digest(message, payload.length > 64 ? 18 + 64 : message.length);
        expect_bytes("the packet hash", hash, whole.bytes, hash.length);
        expect_bytes("the link id", id, cut.bytes, id.length);
        buffer_free(&message);
        buffer_free(&whole);
        buffer_free(&cut);
    }
    buffer_free(&hash);
    buffer_free(&id);
}

/* The text ends with a line feed, zeros are behind it, and a refusal says its number. */
static void try_line(struct buffer packet, unsigned refusal)
{
    struct buffer text = buffer_new(sizeof(haskumye_text), FILL);
    size_t length = library_call(LINE, &(struct use){.input = packet, .output = text});
    char refused[32];
    int words = snprintf(refused, sizeof(refused), "refused %u\n", refusal);
    expect("the line ends", length > 0 && length <= text.length && text.bytes[length - 1] == '\n', 1);
    uint8_t behind = 0;
    for (size_t i = length; i < text.length; i++) {
        behind |= text.bytes[i];
    }
    expect("zeros behind the line", behind, 0);
    expect("the line is a refusal", length == (size_t)words && memcmp(text.bytes, refused, length) == 0, refusal != 0);
    buffer_free(&text);
}

/* The first 16 of SHA-256(name hash, first 16 of SHA-256(keys)). */
static void try_destination(struct buffer payload)
{
    struct buffer destination = answer("announced destination", ANNOUNCED_DESTINATION, payload, 16, 0);
    if (payload.length >= 74) {
        struct buffer identity = digest(payload, 64);
        struct buffer message = buffer_new(26, 0);
        memcpy(message.bytes, payload.bytes + 64, 10);
        memcpy(message.bytes + 10, identity.bytes, 16);
        struct buffer hash = digest(message, message.length);
        expect_bytes("the announced destination", destination, hash.bytes, destination.length);
        buffer_free(&identity);
        buffer_free(&message);
        buffer_free(&hash);
    }
    buffer_free(&destination);
}

/* The last five bytes of the blob behind keys and name hash. */
static void try_emission(struct buffer payload)
{
    if (payload.length < 84) {
        return;
    }
    struct buffer blob = buffer_copy(payload.bytes + 74, sizeof(haskumye_blob));
    uint64_t emission = 0;
    for (size_t i = 5; i < blob.length; i++) {
        emission = emission << 8 | blob.bytes[i];
    }
    expect("the emission", library_call(EMISSION, &(struct use){.input = blob}), emission);
    buffer_free(&blob);
}

void packets_try(struct buffer packet)
{
    unsigned refusal = refusal_at(packet, HASKUMYE_LONGEST_PACKET);
    try_sizes(packet);
    uint8_t header = packet.length > 0 ? packet.bytes[0] : 0;
    size_t start = is_type_2(packet) ? 35 : 19;
    start = start < packet.length ? start : packet.length;
    expect("payload start", library_call(PAYLOAD_START, &(struct use){.input = packet}), start);
    struct buffer payload = buffer_copy(packet.length > 0 ? packet.bytes + start : NULL, packet.length - start);
    try_sha256(packet);
    try_read_and_write(packet, payload, refusal);
    try_hashes(packet, payload, refusal);
    try_line(packet, refusal);
    try_destination(payload);
    try_emission(payload);
    uint64_t least = header & HASKUMYE_HEADER_CONTEXT_FLAG ? 180 : 148;
    expect("least announce", library_call(LEAST_ANNOUNCE, &(struct use){.byte = header}), least);
    buffer_free(&payload);
}
