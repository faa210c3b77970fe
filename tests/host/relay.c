#include "relay.h"

#include "answers.h"
#include "check.h"
#include "haskumye.h"
#include "questions.h"

#include <string.h>

struct relay relay_new(void)
{
    struct relay relay;
    relay.tables = buffer_new(HASKUMYE_TABLE_SIZE, 0);
    relay.aside = buffer_new(HASKUMYE_TABLE_SIZE, 0);
    relay.tally = buffer_new(sizeof(haskumye_tally), 0);
    relay.opinion = opinion_new();
    return relay;
}

void relay_free(struct relay *relay)
{
    buffer_free(&relay->tables);
    buffer_free(&relay->aside);
    buffer_free(&relay->tally);
    opinion_free(&relay->opinion);
}

static void replace(struct buffer *old, struct buffer new)
{
    buffer_free(old);
    *old = new;
}

static void resize(struct buffer *tables, size_t length)
{
    struct buffer resized = buffer_new(length, 0);
    if (length > 0 && tables->length > 0) {
        memcpy(resized.bytes, tables->bytes, length < tables->length ? length : tables->length);
    }
    replace(tables, resized);
}

static bool lies_within(struct buffer tables, uint64_t at, uint64_t length)
{
    return at <= tables.length && length <= tables.length - at;
}

/* What is to be written or copied outside the tables is not. */
static void edit(struct relay *relay, const struct listed *call)
{
    struct buffer *tables = &relay->tables;
    switch (call->edit) {
    case PUT_ASIDE:
        replace(&relay->aside, buffer_copy(tables->bytes, tables->length));
        break;
    case TAKE_BACK:
        replace(tables, buffer_copy(relay->aside.bytes, relay->aside.length));
        break;
    case OVERWRITE:
        if (lies_within(*tables, call->at, call->bytes.length)) {
            memcpy(tables->bytes + call->at, call->bytes.bytes, call->bytes.length);
        }
        break;
    case COPY:
        if (lies_within(*tables, call->at, call->length) && lies_within(*tables, call->from, call->length)) {
            memmove(tables->bytes + call->at, tables->bytes + call->from, call->length);
        }
        break;
    case RESIZE:
        resize(tables, call->length);
        break;
    case NO_EDIT:
        break;
    }
}

/* 1 is yes, and every other byte no. */
static uint8_t byte_of(bool yes)
{
    static const uint8_t no[] = {0, 2, 128, 255};
    return yes ? 1 : no[check_line() % sizeof(no)];
}

/* The check of the tables refuses them exactly where the call is refused by 7; a fresh relay reads nothing of them. */
static void expect_check(const struct listed *call, const struct use *use)
{
    uint64_t refused = call->function == PACKET ? HASKUMYE_REFUSAL_TABLES << 8 : HASKUMYE_REFUSAL_TABLES;
    if (call->function != FRESH) {
        expect("the check", library_call(CHECK, use), call->number == refused ? HASKUMYE_REFUSAL_TABLES : 0);
    }
}

void relay_make(struct relay *relay, const struct listed *call)
{
    if (call->edit != NO_EDIT) {
        edit(relay, call);
        opinion_leave(&relay->opinion);
        return;
    }
    struct use use = {.input = call->bytes, .tables = relay->tables, .tally = relay->tally, .port = call->port,
                      .clock = call->clock, .mode = call->mode, .size = call->size, .byte = byte_of(call->yes),
                      .target = call->target, .grace = call->grace, .penalty = call->penalty};
    if (call->function == PACKET) {
        use.output = buffer_new(call->room, call->fill);
        questions_try_signature(&use);
    }
    expect_check(call, &use);
    /* Places over each table's end too: ports have 16, paths and links 64. */
    questions_try(relay->tables, call->clock, check_line() % 70);
    uint64_t number = library_call(call->function, &use);
    if (call->function == FRESH && number == 0) {
        memset(relay->tally.bytes, 0, relay->tally.length);
    }
    expect("the number", number, call->number);
    if (call->function == PACKET) {
        answers_try(number);
    }
    uint64_t sum = sum_of(0, use.tables.bytes, use.tables.length);
    sum = sum_of(sum, use.tally.bytes, use.tally.length);
    expect("the bytes left", sum_of(sum, use.output.bytes, use.output.length), call->sum);
    opinion_ask(&relay->opinion, call, &use);
    buffer_free(&use.output);
}
