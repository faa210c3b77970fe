#include "recordings.h"

#include "check.h"
#include "haskumye.h"
#include "library.h"

#include <string.h>

/* Three packets of no good: each is refused by 4, since all ports of fresh tables are off. */
enum { ENTRIES = 3, CONTENTS = 4 + 13 * ENTRIES, BODIES = 1 + 2 + 3, LENGTH = CONTENTS + BODIES };

static const uint8_t given[ENTRIES][HASKUMYE_ENTRY_WIDTH] = {
    {0, 0, 0, 0, 0, 0, 0, 10, 1, 1, 0, 1},
    {0, 0, 0, 0xff, 0xff, 0xff, 0xff, 0xff, 255, 0, 0, 2},
    {0, 0, 0, 0, 0, 0, 0, 0, 15, 1, 0, 3},
};

/* A copy of a file's first bytes, with one of them changed where `at` is among them. */
static struct buffer cut(const uint8_t *file, size_t length, size_t at, uint8_t change)
{
    struct buffer bytes = buffer_copy(file, length);
    if (at < length) {
        bytes.bytes[at] ^= change;
    }
    return bytes;
}

/* Writes the recording of the given entries into a room of this size. Returns the call's number. */
static uint64_t write_given(size_t entries_length, size_t bodies_length, size_t room, uint8_t *file)
{
    struct use use = {.parts = buffer_copy(given[0], entries_length), .input = buffer_new(bodies_length, 0x5a),
                      .output = buffer_new(room, 0xee)};
    uint64_t number = library_call(WRITE_RECORDING, &use);
    size_t written = HASKUMYE_WRITTEN_LENGTH((haskumye_written)number), left = written;
    while (left < room && use.output.bytes[left] == 0xee) {
        left++;
    }
    expect("room behind a recording", left, room);
    if (file != NULL) {
        memcpy(file, use.output.bytes, written);
    }
    buffer_free(&use.parts);
    buffer_free(&use.input);
    buffer_free(&use.output);
    return number;
}

static void try_writing(uint8_t file[LENGTH])
{
    expect("writing", write_given(sizeof given, BODIES, LENGTH, file), (uint64_t)LENGTH << 16);
    expect("writing nothing", write_given(0, 0, 4, NULL), 4 << 16);
    for (size_t room = 0; room < LENGTH; room++) {
        expect("writing into less room", write_given(sizeof given, BODIES, room, NULL), HASKUMYE_REFUSAL_ROOM);
    }
    for (size_t length = 0; length < sizeof given; length++) {
        expect("entries that lack bytes", write_given(length, BODIES, LENGTH, NULL), HASKUMYE_REFUSAL_FILE_LENGTH);
    }
    expect("a body too short", write_given(sizeof given, BODIES - 1, LENGTH, NULL), HASKUMYE_REFUSAL_FILE_LENGTH);
    expect("bodies too long", write_given(sizeof given, 70000, 0, NULL), HASKUMYE_REFUSAL_FILE_LENGTH);
}

/* The tables of a fresh relay, whose ports are all off. */
static struct buffer fresh_tables(void)
{
    struct use use = {.input = buffer_new(16, 0), .tables = buffer_new(HASKUMYE_TABLE_SIZE, 0)};
    expect("fresh", library_call(FRESH, &use), 0);
    buffer_free(&use.input);
    return use.tables;
}

/* Entry and replay of any bytes: where the entry isn't there, nothing changes; else its place lies within the file. */
static void try_entry(struct buffer file, uint64_t index)
{
    struct use use = {.input = file, .index = index, .output = buffer_new(sizeof(haskumye_entry), 0xee)};
    haskumye_entry entry;
    uint64_t refusal = library_call(RECORDING_ENTRY, &use);
    memcpy(&entry, use.output.bytes, sizeof entry);
    if (refusal == 0) {
        expect("an entry within its file", entry.start <= file.length && entry.length <= file.length - entry.start, 1);
    } else {
        expect("no entry", refusal, HASKUMYE_REFUSAL_FILE_PLACE);
        expect("an untouched entry", entry.clock == entry.length && entry.clock == UINT64_C(0xeeeeeeeeeeeeeeee), 1);
    }
    buffer_free(&use.output);
    use.output = buffer_new(sizeof(haskumye_text), 0xee);
    use.tables = fresh_tables();
    use.tally = buffer_new(sizeof(haskumye_tally), 0);
    uint64_t expected = (uint64_t)(refusal == 0 ? HASKUMYE_REFUSAL_ARRIVAL_PORT : HASKUMYE_REFUSAL_FILE_PLACE) << 8;
    expect("a replayed entry", library_call(REPLAY_ENTRY, &use), expected);
    expect("its line", use.output.bytes[0], refusal == 0 ? '1' + index : 0xee);
    buffer_free(&use.output);
    buffer_free(&use.tables);
    buffer_free(&use.tally);
}

/* Every call on these bytes, which are a recording or are refused. */
static void try_file(struct buffer file, bool whole)
{
    struct use use = {.input = file};
    expect("a recording", library_call(CHECK_RECORDING, &use) == HASKUMYE_REFUSAL_NONE, whole);
    uint64_t count = library_call(RECORDING_COUNT, &use);
    if (whole) {
        expect("the count", count, ENTRIES);
    }
    for (uint64_t index = 0; index < ENTRIES + 1; index++) {
        try_entry(file, index);
    }
    try_entry(file, UINT64_MAX);
}

void recordings_try(void)
{
    uint8_t file[LENGTH];
    try_writing(file);
    for (size_t length = 0; length <= LENGTH; length++) {
        struct buffer bytes = cut(file, length, SIZE_MAX, 0);
        try_file(bytes, length == LENGTH);
        buffer_free(&bytes);
    }
    /* All but clocks, ports and bodies has one value; a signature word has two. */
    for (size_t at = 0; at < CONTENTS; at++) {
        struct buffer bytes = cut(file, LENGTH, at, 0x80);
        try_file(bytes, at >= 4 && (at - 4) % 13 < 6);
        buffer_free(&bytes);
    }
    /* Odd lengths of other bytes: over the longest file, and a count that reaches past the end. */
    for (size_t length = HASKUMYE_RECORDING_SIZE - 1; length <= HASKUMYE_RECORDING_SIZE + 1; length++) {
        struct buffer bytes = buffer_new(length, 1);
        try_file(bytes, false);
        buffer_free(&bytes);
    }
}
