#include "opinions.h"

#include "check.h"
#include "haskumye.h"
#include "library.h"

#include <string.h>

/* A call walks through all that is listed, under valgrind too: so many fresh relays are enough. */
enum { RELAYS = 40 };

/* In a list with as many, some are called on for long enough to list 64 calls. */
enum { SEVERAL = 20 };

/* Where a log has the number of calls listed. */
enum { COUNT_AT = 16 };

static const struct {
    enum function asked, ask;
} calls[] = {
    {FRESH, OPINION_FRESH},
    {PACKET, OPINION_PACKET},
    {SET_PORT, OPINION_SET_PORT},
    {SET_ANNOUNCE_RATE, OPINION_SET_ANNOUNCE_RATE},
    {ADD_LOCAL, OPINION_ADD_LOCAL},
    {REMOVE_LOCAL, OPINION_REMOVE_LOCAL},
    {MARK_PATH_UNRESPONSIVE, OPINION_MARK_PATH_UNRESPONSIVE},
    {RENUMBER, OPINION_RENUMBER},
};
enum { CALLS = sizeof calls / sizeof calls[0] };

struct opinion opinion_new(void)
{
    return (struct opinion){.log = buffer_new(HASKUMYE_LOG_SIZE, 0xa5)};
}

void opinion_free(struct opinion *opinion)
{
    if (opinion->relays >= SEVERAL) {
        expect("some calls found 64 listed", opinion->full > 0, 1);
    }
    buffer_free(&opinion->log);
}

void opinion_leave(struct opinion *opinion)
{
    opinion->goes_along = false;
}

static enum function named(enum function asked)
{
    for (size_t i = 0; i < CALLS; i++) {
        if (calls[i].asked == asked) {
            return calls[i].ask;
        }
    }
    return NOTHING;
}

/* A packet call's refusal stands in its answer. */
static uint64_t refused(enum function ask, uint64_t refusal)
{
    return ask == OPINION_PACKET ? refusal << 8 : refusal;
}

static bool is_refused(enum function ask, uint64_t number)
{
    return ask == OPINION_PACKET ? HASKUMYE_ANSWER_KIND(number) == HASKUMYE_REFUSED : number != HASKUMYE_REFUSAL_NONE;
}

/* What it has to say where the relay says this: it knows of no expired path. */
static uint64_t told(const struct opinion *opinion, enum function ask, uint64_t number)
{
    if (ask != OPINION_FRESH && opinion->listed >= HASKUMYE_LIST_LIMIT) {
        return refused(ask, HASKUMYE_REFUSAL_LIST_FULL);
    }
    bool expired = ask == OPINION_PACKET && HASKUMYE_ANSWER_KIND(number) == HASKUMYE_DROP &&
                   HASKUMYE_ANSWER_REASON(number) == HASKUMYE_REASON_NO_WAY_ON &&
                   HASKUMYE_ANSWER_CLAUSE(number) == HASKUMYE_NO_WAY_ON_ONLY_EXPIRED;
    return expired ? HASKUMYE_DROP | HASKUMYE_REASON_NO_WAY_ON << 8 | HASKUMYE_NO_WAY_ON_NO_PATH << 16 : number;
}

/* The output starts as the relay's did, and with 64 listed it stays so. */
static void expect_output(const struct opinion *opinion, const struct listed *call, const struct use *use,
                          const struct use *relays)
{
    struct buffer as_lent = buffer_new(call->room, call->fill);
    const struct buffer *expected = opinion->listed < HASKUMYE_LIST_LIMIT ? &relays->output : &as_lent;
    expect("the output of both", sum_of(0, use->output.bytes, use->output.length),
           sum_of(0, expected->bytes, expected->length));
    buffer_free(&as_lent);
}

void opinion_ask(struct opinion *opinion, const struct listed *call, const struct use *relays)
{
    enum function ask = named(call->function);
    if (ask == OPINION_FRESH) {
        opinion->goes_along = call->number == HASKUMYE_REFUSAL_NONE && opinion->relays < RELAYS;
        opinion->relays += opinion->goes_along;
    }
    if (!opinion->goes_along) {
        return;
    }
    struct use use = *relays;
    use.log = opinion->log;
    use.output = buffer_new(call->room, call->fill);
    uint64_t before = sum_of(0, use.log.bytes, use.log.length), number = library_call(ask, &use);
    expect("the second opinion", number, told(opinion, ask, call->number));
    expect_output(opinion, call, &use, relays);
    if (ask == OPINION_FRESH) {
        opinion->listed = 0;
    } else if (is_refused(ask, number)) {
        opinion->full += number == refused(ask, HASKUMYE_REFUSAL_LIST_FULL);
        expect("a refusal leaves the log", sum_of(0, use.log.bytes, use.log.length), before);
    } else {
        opinion->listed++;
    }
    buffer_free(&use.output);
}

/* Of the numbers that are passed each is wrong, so that 28 is seen to come before the others. */
static void try_bytes(uint8_t fill, uint8_t count)
{
    struct use use = {.log = buffer_new(HASKUMYE_LOG_SIZE, fill), .input = buffer_new(16, fill),
                      .output = buffer_new(HASKUMYE_OUTPUT_SIZE, fill), .port = 16, .mode = 3, .clock = UINT64_MAX,
                      .target = UINT64_MAX};
    for (size_t i = 0; i < CALLS; i++) {
        use.log.bytes[COUNT_AT] = count;
        if (calls[i].ask != OPINION_FRESH) {
            uint64_t number = library_call(calls[i].ask, &use);
            uint64_t full = refused(calls[i].ask, HASKUMYE_REFUSAL_LIST_FULL);
            expect("28 where 64 are listed", number == full, count >= HASKUMYE_LIST_LIMIT);
        }
    }
    library_call(OPINION_FRESH, &use);
    use.port = 0;
    expect("a fresh log's port is off", library_call(OPINION_PACKET, &use), HASKUMYE_REFUSAL_ARRIVAL_PORT << 8);
    buffer_free(&use.log);
    buffer_free(&use.input);
    buffer_free(&use.output);
}

void opinions_try_odd(void)
{
    static const uint8_t counts[] = {0, 1, 16, HASKUMYE_LIST_LIMIT - 1, HASKUMYE_LIST_LIMIT, 255};
    for (unsigned fill = 0; fill < 8; fill++) {
        for (size_t i = 0; i < sizeof counts; i++) {
            try_bytes((uint8_t)fill, counts[i]);
        }
        try_bytes((uint8_t)(255 - fill), counts[3]);
    }
}
