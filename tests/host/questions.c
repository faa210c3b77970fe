#include "questions.h"

#include "check.h"
#include "haskumye.h"

#include <string.h>

/* What an answer holds before a question: none and a refusal leave it. */
enum { FILL = 0xa5 };

/* A table: where it starts, and how many records of how many bytes it has; where their expiry stands. */
struct table {
    size_t start, count, width, expiry;
};

static const struct table locals = {100, HASKUMYE_LOCAL_COUNT, 17, 0}, paths = {372, HASKUMYE_PATH_COUNT, 702, 35},
                          links = {45300, HASKUMYE_LINK_COUNT, 30, 22},
                          returns = {47222, HASKUMYE_RETURN_COUNT, 27, 19},
                          hashes = {61048, HASKUMYE_HASH_COUNT, 41, 33};
enum { CLOCK_PLACE = 16, RATE_PLACE = 24, PORTS_PLACE = 36 };

static uint64_t number_at(const uint8_t *bytes)
{
    haskumye_time time;
    memcpy(&time, bytes, sizeof time);
    return haskumye_seconds(time);
}

/* The record at a place, its mark first, or NULL where the place is empty or outside the table. */
static const uint8_t *record_at(struct buffer tables, const struct table *table, uint64_t place)
{
    if (place >= table->count) {
        return NULL;
    }
    const uint8_t *record = tables.bytes + table->start + place * table->width;
    return record[0] == 1 ? record : NULL;
}

static uint64_t live_count(struct buffer tables, const struct table *table, uint64_t clock)
{
    uint64_t live = 0;
    for (size_t i = 0; i < table->count; i++) {
        const uint8_t *record = record_at(tables, table, i);
        live += record != NULL && clock < number_at(record + table->expiry);
    }
    return live;
}

static const uint8_t *live_path_to(struct buffer tables, const uint8_t *destination, uint64_t clock)
{
    for (size_t i = 0; i < paths.count; i++) {
        const uint8_t *path = record_at(tables, &paths, i);
        if (path != NULL && memcmp(path + 1, destination, 16) == 0 && clock < number_at(path + paths.expiry)) {
            return path;
        }
    }
    return NULL;
}

/* Asks, and expects these bytes; or where they are NULL, this number and an untouched answer. */
static void ask(enum function function, struct use use, const uint8_t *told, size_t size, uint64_t number)
{
    uint8_t untouched[sizeof(haskumye_path_record)];
    memset(untouched, FILL, sizeof untouched);
    use.output = buffer_new(size, FILL);
    expect("a question", library_call(function, &use), told == NULL ? number : HASKUMYE_REFUSAL_NONE);
    expect("its answer", memcmp(use.output.bytes, told == NULL ? untouched : told, size) == 0, 1);
    buffer_free(&use.output);
}

static void ask_record(enum function function, const struct use *use, const uint8_t *record, size_t size)
{
    ask(function, *use, record == NULL ? NULL : record + 1, size, HASKUMYE_NONE);
}

static void ask_number(enum function function, const struct use *use, uint64_t number)
{
    ask(function, *use, (const uint8_t *)&number, sizeof number, 0);
}

static void try_refused(const struct use *use)
{
    static const struct {
        enum function function;
        size_t size;
    } questions[] = {{PORT, 4}, {ANNOUNCE_RATE, 12}, {LOCAL, 16}, {PATH, 61}, {LIVE_PATH, 61}, {LINK, 29},
                     {LIVE_RETURNS, 8}, {LIVE_HASHES, 8}, {LAST_CLOCK, 8}};
    for (size_t i = 0; i < sizeof questions / sizeof questions[0]; i++) {
        ask(questions[i].function, *use, NULL, questions[i].size, HASKUMYE_REFUSAL_TABLES);
    }
}

static void try_told(const struct use *use)
{
    struct buffer tables = use->tables;
    const uint8_t *ports = tables.bytes + PORTS_PLACE;
    const uint8_t *port = use->port < HASKUMYE_PORT_COUNT ? ports + sizeof(haskumye_port_settings) * use->port : NULL;
    ask(PORT, *use, port, sizeof(haskumye_port_settings), HASKUMYE_NONE);
    ask(ANNOUNCE_RATE, *use, tables.bytes + RATE_PLACE, sizeof(haskumye_rate_settings), 0);
    ask_record(LOCAL, use, record_at(tables, &locals, use->index), sizeof(haskumye_address));
    ask_record(PATH, use, record_at(tables, &paths, use->index), sizeof(haskumye_path_record));
    ask_record(LINK, use, record_at(tables, &links, use->index), sizeof(haskumye_link_record));
    const uint8_t *path = live_path_to(tables, use->input.bytes, use->clock);
    ask_record(LIVE_PATH, use, path, sizeof(haskumye_path_record));
    ask_number(LIVE_RETURNS, use, live_count(tables, &returns, use->clock));
    ask_number(LIVE_HASHES, use, live_count(tables, &hashes, use->clock));
    ask_number(LAST_CLOCK, use, number_at(tables.bytes + CLOCK_PLACE));
}

void questions_try(struct buffer tables, uint64_t clock, uint64_t index)
{
    struct use use = {.tables = tables, .clock = clock, .index = index, .port = index, .input = buffer_new(16, 0)};
    bool refused = library_call(CHECK, &use) != HASKUMYE_REFUSAL_NONE;
    if (!refused && index < paths.count) { /* the destination of this path, or zeros */
        memcpy(use.input.bytes, tables.bytes + paths.start + index * paths.width + 1, 16);
    }
    struct buffer before = buffer_copy(tables.bytes, tables.length);
    if (refused) {
        try_refused(&use);
    } else {
        try_told(&use);
    }
    expect("tables after questions", tables.length == 0 || memcmp(before.bytes, tables.bytes, tables.length) == 0, 1);
    buffer_free(&before);
    buffer_free(&use.input);
}

/* The word matters exactly where the word no is what drops the packet. */
static uint64_t matters(haskumye_answer answer)
{
    if (HASKUMYE_ANSWER_KIND(answer) == HASKUMYE_REFUSED) {
        return HASKUMYE_ANSWER_REFUSAL(answer);
    }
    bool not_signed = HASKUMYE_ANSWER_KIND(answer) == HASKUMYE_DROP &&
                      HASKUMYE_ANSWER_REASON(answer) == HASKUMYE_REASON_NOT_SIGNED;
    return not_signed ? HASKUMYE_VERIFY : HASKUMYE_REFUSAL_NONE;
}

void questions_try_signature(const struct use *call)
{
    struct use use = *call;
    use.room = call->output.length;
    uint64_t told = library_call(SIGNATURE_MATTERS, &use);
    use.tables = buffer_copy(call->tables.bytes, call->tables.length);
    use.output = buffer_new(call->output.length, FILL);
    use.tally = buffer_new(sizeof(haskumye_tally), 0);
    use.byte = 0;
    expect("whether the signature matters", told, matters(library_call(PACKET, &use)));
    buffer_free(&use.tables);
    buffer_free(&use.output);
    buffer_free(&use.tally);
}
