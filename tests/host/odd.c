#include "odd.h"

#include "check.h"
#include "haskumye.h"
#include "library.h"
#include "packets.h"
#include "questions.h"

#include <string.h>

/* Where a packet of either type gets its payload, the payload its keys, name hash and blob, and the longest of each. */
static const size_t lengths[] = {0, 1, 18, 19, 34, 35, 83, 93, 99, 103, 109, 119, 481, 482, 500, 501,
                                 HASKUMYE_LONGEST_MESSAGE, HASKUMYE_LONGEST_MESSAGE + 1,
                                 HASKUMYE_TABLE_SIZE - 1, HASKUMYE_TABLE_SIZE, HASKUMYE_TABLE_SIZE + 1};
enum { LENGTHS = sizeof(lengths) / sizeof(lengths[0]) };

static void odd_packets(size_t length)
{
    static const uint8_t headers[] = {0x00, 0x21, 0x40, 0x61, 0x80, 0xc3};
    for (size_t i = 0; i < sizeof(headers); i++) {
        struct buffer packet = buffer_new(length, 0x5a);
        if (length > 0) {
            packet.bytes[0] = headers[i];
        }
        packets_try(packet);
        buffer_free(&packet);
    }
}

/* Refusals 6, 2 and 3 of writing, in this order; the parts are of type 1. */
static void odd_writing(size_t length, size_t room, uint8_t header)
{
    struct use use = {.input = buffer_new(length, 1), .parts = buffer_new(sizeof(haskumye_parts), header),
                      .output = buffer_new(room, 2)};
    uint64_t expected = (uint64_t)(19 + length) << 16;
    if (room < HASKUMYE_OUTPUT_SIZE) {
        expected = HASKUMYE_REFUSAL_OUTPUT;
    } else if (19 + length > HASKUMYE_LONGEST_PACKET) {
        expected = HASKUMYE_REFUSAL_TOO_LONG;
    } else if (header & HASKUMYE_HEADER_ACCESS_CODE) {
        expected = HASKUMYE_REFUSAL_ACCESS_CODE;
    }
    expect("writing", library_call(WRITE, &use), expected);
    buffer_free(&use.input);
    buffer_free(&use.parts);
    buffer_free(&use.output);
}

/* A packet call on a fresh relay, whose ports are all off, where the tables have the size of one. */
static void odd_packet_call(size_t size, size_t length, size_t room)
{
    struct use use = {.input = buffer_new(16, 0), .tables = buffer_new(size, 0), .output = buffer_new(room, 3),
                      .tally = buffer_new(sizeof(haskumye_tally), 4)};
    expect("fresh", library_call(FRESH, &use), size == HASKUMYE_TABLE_SIZE ? 0 : HASKUMYE_REFUSAL_TABLES);
    buffer_free(&use.input);
    use.input = buffer_new(length, 0);
    questions_try_signature(&use);
    uint64_t refusal = HASKUMYE_REFUSAL_ARRIVAL_PORT;
    if (size != HASKUMYE_TABLE_SIZE) {
        refusal = HASKUMYE_REFUSAL_TABLES;
    } else if (room < HASKUMYE_OUTPUT_SIZE) {
        refusal = HASKUMYE_REFUSAL_OUTPUT;
    }
    expect("packet call", library_call(PACKET, &use), refusal << 8);
    buffer_free(&use.input);
    buffer_free(&use.tables);
    buffer_free(&use.output);
    buffer_free(&use.tally);
}

/* Announce rates with one number over its limit, a byte's width and a word's too. */
static void odd_rates(struct use *use, uint64_t refusal)
{
    static const uint64_t rates[][3] = {{HASKUMYE_TARGET_LIMIT + 1, 0, 0}, {0, HASKUMYE_GRACE_LIMIT + 1, 0}, {0, 256, 0},
                                        {0, 0, HASKUMYE_PENALTY_LIMIT + 1}, {UINT64_C(1) << 32, 0, 0},
                                        {UINT64_MAX, UINT64_MAX, UINT64_MAX}};
    struct use odd = *use;
    for (size_t i = 0; i < sizeof rates / sizeof rates[0]; i++) {
        odd.target = rates[i][0];
        odd.grace = rates[i][1];
        odd.penalty = rates[i][2];
        expect("an announce rate over a limit", library_call(SET_ANNOUNCE_RATE, &odd), refusal);
    }
}

/* Sizes outside the range, and such that a port's two bytes, or four, would cut into it. */
static void odd_sizes(struct use *use, uint64_t refusal)
{
    static const uint64_t sizes[] = {0, 18, 501, 65535, 65536 + 255, (UINT64_C(1) << 32) + 500, UINT64_MAX};
    struct use odd = *use;
    for (size_t i = 0; i < sizeof sizes / sizeof sizes[0]; i++) {
        odd.size = sizes[i];
        expect("a size that no port has", library_call(SET_PORT, &odd), refusal);
    }
}

/* The other calls on tables, in an order in which none but removing twice is refused where the size is right. */
static void odd_tables(size_t size)
{
    struct use use = {.tables = buffer_new(size, 0), .input = buffer_new(16, 0), .port = 15, .mode = 2, .byte = 1,
                      .size = 19, .target = HASKUMYE_TARGET_LIMIT, .grace = HASKUMYE_GRACE_LIMIT,
                      .penalty = HASKUMYE_PENALTY_LIMIT};
    bool right = size == HASKUMYE_TABLE_SIZE;
    uint64_t refusal = right ? 0 : HASKUMYE_REFUSAL_TABLES;
    expect("check of zeros", library_call(CHECK, &use), HASKUMYE_REFUSAL_TABLES); /* no relay's ports carry nothing */
    expect("fresh", library_call(FRESH, &use), refusal);
    expect("check", library_call(CHECK, &use), refusal);
    expect("set port", library_call(SET_PORT, &use), refusal);
    odd_sizes(&use, right ? HASKUMYE_REFUSAL_SETTING : refusal);
    expect("set announce rate", library_call(SET_ANNOUNCE_RATE, &use), refusal);
    odd_rates(&use, right ? HASKUMYE_REFUSAL_SETTING : refusal);
    expect("add local", library_call(ADD_LOCAL, &use), refusal);
    expect("remove local", library_call(REMOVE_LOCAL, &use), refusal);
    expect("remove local again", library_call(REMOVE_LOCAL, &use), right ? HASKUMYE_REFUSAL_LOCAL_ADDRESS : refusal);
    expect("mark without a path", library_call(MARK_PATH_UNRESPONSIVE, &use),
           right ? HASKUMYE_REFUSAL_NO_LIVE_PATH : refusal);
    use.clock = HASKUMYE_CLOCK_LIMIT;
    expect("mark at a wrong clock", library_call(MARK_PATH_UNRESPONSIVE, &use),
           right ? HASKUMYE_REFUSAL_CLOCK : refusal);
    expect("no map", library_call(RENUMBER, &use), right ? HASKUMYE_REFUSAL_MAP : refusal);
    for (uint8_t i = 0; i < 16; i++) {
        use.input.bytes[i] = 15 - i;
    }
    expect("renumber", library_call(RENUMBER, &use), refusal);
    expect("table size", library_call(TABLE_SIZE, &use), HASKUMYE_TABLE_SIZE);
    expect("version", library_call(VERSION, &use), HASKUMYE_VERSION);
    questions_try(use.tables, UINT64_MAX, UINT64_MAX);
    buffer_free(&use.tables);
    buffer_free(&use.input);
}

void odd_lengths(void)
{
    for (size_t i = 0; i < LENGTHS; i++) {
        odd_packets(lengths[i]);
        odd_tables(lengths[i]);
        for (size_t j = 0; j < LENGTHS; j++) {
            odd_writing(lengths[i], lengths[j], 0x00);
            odd_writing(lengths[i], lengths[j], 0x80);
            odd_packet_call(lengths[i], lengths[j], 500);
            odd_packet_call(HASKUMYE_TABLE_SIZE, lengths[i], lengths[j]);
        }
    }
}
