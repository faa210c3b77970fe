#include "surveys.h"

#include "check.h"
#include "haskumye.h"
#include "library.h"

#include <stdbool.h>
#include <stdio.h>
#include <string.h>

/* What buffers hold before a begin; and where the lines of ports and tests begin. */
enum { BEFORE = 0xee, FIRST_PORT = 18, FIRST_TEST = FIRST_PORT + 16 };

/* Two packets by port 3: for the local address, and too short. */
enum { ENTRIES = 2, CONTENTS = 4 + 13 * ENTRIES, PACKET_LENGTH = 19, LENGTH = CONTENTS + PACKET_LENGTH + 1 };
static const uint8_t recording[LENGTH] = {1,  1, 0, 2, 0, 0, 0, 0, 9, 3,         0, 0, 0, 0, CONTENTS, 0, PACKET_LENGTH,
                                          0,  0, 0, 0, 9, 3, 0, 0, 0, 0, LENGTH - 1, 0, 1};

/* The saved file of a relay with port 3 on and the address of zeros for its local one. */
static struct buffer settings(void)
{
    struct use use = {.input = buffer_new(16, 0), .tables = buffer_new(HASKUMYE_TABLE_SIZE, 0), .port = 3,
                      .byte = HASKUMYE_ON, .size = HASKUMYE_LONGEST_PACKET,
                      .tally = buffer_new(sizeof(haskumye_tally), 7), .output = buffer_new(HASKUMYE_SAVED_SIZE, 0)};
    expect("fresh", library_call(FRESH, &use), 0);
    expect("a port", library_call(SET_PORT, &use), 0);
    expect("a local address", library_call(ADD_LOCAL, &use), 0);
    expect("saving", library_call(SAVE_TABLES, &use), (uint64_t)HASKUMYE_SAVED_SIZE << 16);
    buffer_free(&use.input);
    buffer_free(&use.tables);
    buffer_free(&use.tally);
    return use.output;
}

static struct use begun(struct buffer file, uint8_t refusal)
{
    struct use use = {.input = file, .start = buffer_new(HASKUMYE_TABLE_SIZE, BEFORE),
                      .tables = buffer_new(HASKUMYE_TABLE_SIZE, BEFORE),
                      .counts = buffer_new(sizeof(haskumye_survey_counts), BEFORE),
                      .refusals = buffer_new(sizeof(haskumye_survey_refusals), BEFORE),
                      .output = buffer_new(sizeof(haskumye_text), BEFORE)};
    expect("a survey's begin", library_call(SURVEY_BEGIN, &use), refusal);
    uint8_t left = refusal == 0 ? 0 : BEFORE;
    expect("its counts", use.counts.bytes[0] == left && use.counts.bytes[use.counts.length - 1] == left, 1);
    expect("its refusals", use.refusals.bytes[0] == left && use.refusals.bytes[use.refusals.length - 1] == left, 1);
    expect("its tables", refusal == 0 || (use.start.bytes[0] == BEFORE && use.tables.bytes[0] == BEFORE), 1);
    return use;
}

static void end(struct use *use)
{
    buffer_free(&use->start);
    buffer_free(&use->tables);
    buffer_free(&use->counts);
    buffer_free(&use->refusals);
    buffer_free(&use->output);
}

static void try_line(struct use *use, uint64_t place, const char *line)
{
    use->index = place;
    memset(use->output.bytes, BEFORE, use->output.length);
    expect("a line's length", library_call(SURVEY_LINE, use), strlen(line));
    expect("a line", memcmp(use->output.bytes, line, strlen(line) + 1) == 0, 1);
    expect("zeros behind it", use->output.bytes[use->output.length - 1], 0);
}

/* The lines of so many recordings that were counted, and of others that were refused by this. */
static void try_lines(struct use *use, unsigned counted, unsigned others, unsigned refusal)
{
    static const unsigned tests[] = {1, 2, 3, 4, 5, 6, 7, 8, 9, 10, 11, 15, 12, 16, 13};
    char line[HASKUMYE_TEXT_SIZE];
    try_line(use, 0, "survey\n");
    for (unsigned place = 1; place < FIRST_PORT; place++) {
        bool told = place > counted && place <= counted + others;
        snprintf(line, sizeof line, "recording %u refused %u\n", place, refusal);
        try_line(use, place, told ? line : "");
    }
    for (unsigned port = 0; port < HASKUMYE_PORT_COUNT; port++) {
        unsigned came = port == 3 ? counted : 0;
        snprintf(line, sizeof line, "port %u packets %u in %u out 0 dropped 0/1\n", port, came, came * PACKET_LENGTH);
        try_line(use, FIRST_PORT + port, line);
    }
    for (size_t test = 0; test < sizeof tests / sizeof tests[0]; test++) {
        snprintf(line, sizeof line, "reason %u 0\n", tests[test]);
        try_line(use, FIRST_TEST + test, line);
    }
    try_line(use, HASKUMYE_SURVEY_LINES, "");
    try_line(use, UINT64_MAX, "");
}

/* A recording so many times: the seventeenth is refused. */
static void try_many(struct buffer file)
{
    struct buffer bytes = buffer_copy(recording, LENGTH);
    struct use use = begun(file, 0);
    use.input = bytes;
    for (unsigned number = 1; number <= HASKUMYE_RECORDING_LIMIT + 2; number++) {
        bool read = number <= HASKUMYE_RECORDING_LIMIT;
        expect("a recording", library_call(SURVEY_RECORDING, &use), read ? 0 : HASKUMYE_REFUSAL_SURVEY_FULL);
        try_lines(&use, read ? number : HASKUMYE_RECORDING_LIMIT, read ? 0 : 1, HASKUMYE_REFUSAL_SURVEY_FULL);
    }
    end(&use);
    buffer_free(&bytes);
}

/* Recordings that are refused, behind one that is counted. */
static void try_refused(struct buffer file)
{
    static const struct {
        size_t length, at;
        uint8_t refusal;
    } spoiled[] = {{3, 0, HASKUMYE_REFUSAL_FILE_LENGTH},
                   {LENGTH, 0, HASKUMYE_REFUSAL_FILE_KIND},
                   {LENGTH - 1, 4, HASKUMYE_REFUSAL_FILE_PLACE},
                   {LENGTH, 10, HASKUMYE_REFUSAL_SIGNATURE_WORD}};
    for (size_t i = 0; i < sizeof spoiled / sizeof spoiled[0]; i++) {
        struct buffer whole = buffer_copy(recording, LENGTH), bytes = buffer_copy(recording, spoiled[i].length);
        if (spoiled[i].at < bytes.length) {
            bytes.bytes[spoiled[i].at] = 7;
        }
        struct use use = begun(file, 0);
        use.input = whole;
        expect("a recording", library_call(SURVEY_RECORDING, &use), 0);
        use.input = bytes;
        expect("a refused recording", library_call(SURVEY_RECORDING, &use), spoiled[i].refusal);
        try_lines(&use, 1, 1, spoiled[i].refusal);
        end(&use);
        buffer_free(&whole);
        buffer_free(&bytes);
    }
}

void surveys_try(void)
{
    struct buffer file = settings();
    try_many(file);
    try_refused(file);
    for (size_t length = 0; length < HASKUMYE_SAVED_SIZE; length = length * 3 + 1) {
        struct buffer cut = buffer_copy(file.bytes, length);
        struct use use = begun(cut, HASKUMYE_REFUSAL_FILE_LENGTH);
        end(&use);
        buffer_free(&cut);
    }
    file.bytes[1] = 99;
    struct use use = begun(file, HASKUMYE_REFUSAL_FILE_KIND);
    end(&use);
    buffer_free(&file);
}
