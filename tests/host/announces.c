#include "announces.h"

#include "check.h"
#include "haskumye.h"
#include "library.h"

#include <string.h>

/* What the room holds before a call; and each part's byte, so that every part is seen in its place. */
enum { FILL = 0xee, KEYS = 1, NAME_HASH, RANDOM, RATCHET, APP_DATA, SIGNATURE };

/* How long each part is given. */
struct lengths {
    size_t keys, name_hash, random, ratchet, app_data, signature, room;
    uint64_t clock;
};

static const struct lengths right = {.keys = 64, .name_hash = 10, .random = 5, .app_data = 4, .signature = 64,
                                     .room = HASKUMYE_OUTPUT_SIZE, .clock = UINT64_C(0x102030405)};

/* Document 02's refusals of wish 12, in their order: 26, 5, 27, 6. The bytes to sign come without a signature. */
static uint64_t refusal_of(struct lengths given, enum function function)
{
    bool signature = function == ANNOUNCE_SIGNING_BYTES || given.signature == 64;
    if (given.keys != 64 || given.name_hash != 10 || given.random != 5 || !signature ||
        (given.ratchet != 0 && given.ratchet != 32)) {
        return HASKUMYE_REFUSAL_ANNOUNCE_PART;
    }
    if (given.clock >= HASKUMYE_CLOCK_LIMIT) {
        return HASKUMYE_REFUSAL_CLOCK;
    }
    if (given.app_data > 333 - given.ratchet) {
        return HASKUMYE_REFUSAL_ANNOUNCE_TOO_LONG;
    }
    return given.room < HASKUMYE_OUTPUT_SIZE ? HASKUMYE_REFUSAL_OUTPUT : 0;
}

/* The length of a run of one byte, from a place on. */
static size_t run(struct buffer room, size_t at, uint8_t byte)
{
    size_t end = at;
    while (end < room.length && room.bytes[end] == byte) {
        end++;
    }
    return end - at;
}

/* Keys, name hash and blob, from a place on; the place behind them. */
static size_t expect_front(struct lengths given, struct buffer room, size_t at)
{
    uint8_t emission[5];
    for (int i = 0; i < 5; i++) {
        emission[i] = (uint8_t)(given.clock >> (32 - 8 * i));
    }
    expect("keys", run(room, at, KEYS), 64);
    expect("name hash", run(room, at + 64, NAME_HASH), 10);
    static const uint8_t random[5] = {RANDOM, RANDOM, RANDOM, RANDOM, RANDOM};
    expect("random bytes", memcmp(room.bytes + at + 74, random, 5) == 0, 1);
    expect("emission", memcmp(room.bytes + at + 79, emission, 5) == 0, 1);
    return at + 84;
}

/* A part of one byte, from a place on; the place behind it. */
static size_t expect_part(const char *what, struct buffer room, size_t at, uint8_t byte, size_t length)
{
    expect(what, run(room, at, byte), length);
    return at + length;
}

static void expect_written(struct lengths given, struct buffer room, enum function function, uint64_t number)
{
    bool build = function == BUILD_ANNOUNCE;
    haskumye_address destination;
    size_t front = build ? 19 : 16, at = expect_front(given, room, front);
    haskumye_announced_destination(room.bytes + front, 84, &destination);
    expect("destination", memcmp(room.bytes + (build ? 2 : 0), destination.bytes, 16) == 0, 1);
    if (build) {
        expect("header", room.bytes[0], given.ratchet == 0 ? 0x01 : 0x21);
        expect("hops and context", room.bytes[1] + room.bytes[18], 0);
    }
    at = expect_part("ratchet", room, at, RATCHET, given.ratchet);
    at = expect_part("signature", room, at, SIGNATURE, build ? given.signature : 0);
    at = expect_part("application's data", room, at, APP_DATA, given.app_data);
    expect("written", number, (uint64_t)at << 16);
    expect("room behind", run(room, at, FILL), room.length - at);
}

static void try_call(struct lengths given, enum function function)
{
    struct use use = {.keys = buffer_new(given.keys, KEYS), .name_hash = buffer_new(given.name_hash, NAME_HASH),
                      .random = buffer_new(given.random, RANDOM), .ratchet = buffer_new(given.ratchet, RATCHET),
                      .app_data = buffer_new(given.app_data, APP_DATA),
                      .signature = buffer_new(given.signature, SIGNATURE), .output = buffer_new(given.room, FILL),
                      .clock = given.clock};
    uint64_t number = library_call(function, &use), refusal = refusal_of(given, function);
    if (refusal == 0) {
        expect_written(given, use.output, function, number);
    } else {
        expect("a refused announce", number, refusal);
        expect("its room", run(use.output, 0, FILL), given.room);
    }
    struct buffer *lent[] = {&use.keys,     &use.name_hash, &use.random, &use.ratchet,
                             &use.app_data, &use.signature, &use.output};
    for (size_t i = 0; i < sizeof lent / sizeof lent[0]; i++) {
        buffer_free(lent[i]);
    }
}

static void try_lengths(struct lengths given)
{
    try_call(given, ANNOUNCE_SIGNING_BYTES);
    try_call(given, BUILD_ANNOUNCE);
}

/* Each length by itself is odd, with and without a ratchet; then all of them are. */
static void try_odd(size_t odd, size_t ratchet)
{
    struct lengths given[8];
    for (size_t i = 0; i < 8; i++) {
        given[i] = right;
        given[i].ratchet = ratchet;
    }
    given[0].keys = given[1].name_hash = given[2].random = given[3].ratchet = odd;
    given[4].app_data = given[5].signature = given[6].room = odd;
    given[7] = (struct lengths){odd, odd, odd, odd, odd, odd, odd, odd};
    for (size_t i = 0; i < 8; i++) {
        try_lengths(given[i]);
    }
}

void announces_try(void)
{
    static const size_t odd[] = {0,   1,   4,   5,   6,   9,   10,  11,  31,  32,  33,  63,  64,   65,
                                 300, 301, 302, 332, 333, 334, 499, 500, 501, 600, 65535, 65536, 70000};
    static const uint64_t clocks[] = {0, HASKUMYE_CLOCK_LIMIT - 1, HASKUMYE_CLOCK_LIMIT, UINT64_MAX};
    for (size_t i = 0; i < sizeof odd / sizeof odd[0]; i++) {
        try_odd(odd[i], 0);
        try_odd(odd[i], 32);
    }
    for (size_t i = 0; i < sizeof clocks / sizeof clocks[0]; i++) {
        struct lengths given = right;
        given.clock = clocks[i];
        try_lengths(given);
        given.app_data = 334; /* 5 comes before 27, and 27 before 6 */
        given.room = 0;
        try_lengths(given);
    }
}
