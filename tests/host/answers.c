#include "answers.h"

#include "check.h"
#include "haskumye.h"
#include "library.h"

#include <stdbool.h>
#include <stdio.h>
#include <string.h>

enum { FILL = 0xa5 };

/* Whether a drop's value is told: by test 3, and by 6.3. */
static bool tells_value(haskumye_answer answer)
{
    unsigned reason = HASKUMYE_ANSWER_REASON(answer), clause = HASKUMYE_ANSWER_CLAUSE(answer);
    return reason == HASKUMYE_REASON_BAD_FORM ||
           (reason == HASKUMYE_REASON_NO_WAY_ON && clause == HASKUMYE_NO_WAY_ON_ONLY_EXPIRED);
}

static void write_drop(haskumye_answer answer, char *text, size_t size)
{
    unsigned clause = HASKUMYE_ANSWER_CLAUSE(answer);
    int length = snprintf(text, size, "drop %u", HASKUMYE_ANSWER_REASON(answer));
    if (clause > 0) {
        length += snprintf(text + length, size - (size_t)length, ".%u", clause);
    }
    if (tells_value(answer)) {
        snprintf(text + length, size - (size_t)length, " %llu", (unsigned long long)HASKUMYE_ANSWER_VALUE(answer));
    }
}

static void write_ports(haskumye_answer answer, char *text, size_t size)
{
    int length = snprintf(text, size, "spread");
    for (unsigned port = 0; port < HASKUMYE_PORT_COUNT; port++) {
        if (HASKUMYE_ANSWER_HAS_PORT(answer, port)) {
            length += snprintf(text + length, size - (size_t)length, " %u", port);
        }
    }
}

static void expect_text(uint64_t number, const haskumye_text *expected)
{
    struct use use = {.index = number, .output = buffer_new(sizeof(haskumye_text), FILL)};
    expect("the length of an answer's text", library_call(ANSWER_TEXT, &use), strlen(expected->bytes));
    expect("an answer's text", memcmp(use.output.bytes, expected->bytes, sizeof *expected) == 0, 1);
    buffer_free(&use.output);
}

void answers_try(uint64_t number)
{
    haskumye_text text = {{0}};
    switch (HASKUMYE_ANSWER_KIND(number)) {
    case HASKUMYE_REFUSED:
        snprintf(text.bytes, sizeof text.bytes, "refused %u", HASKUMYE_ANSWER_REFUSAL(number));
        break;
    case HASKUMYE_DROP:
        write_drop(number, text.bytes, sizeof text.bytes);
        break;
    case HASKUMYE_FORWARD:
        snprintf(text.bytes, sizeof text.bytes, "forward %u", HASKUMYE_ANSWER_PORT(number));
        break;
    case HASKUMYE_SPREAD:
        write_ports(number, text.bytes, sizeof text.bytes);
        break;
    default:
        snprintf(text.bytes, sizeof text.bytes, "%s", haskumye_kind_words(HASKUMYE_ANSWER_KIND(number)));
        break;
    }
    expect_text(number, &text);
}

void answers_try_odd(void)
{
    static const haskumye_text none;
    static const uint64_t above[] = {0, UINT64_MAX << 8, UINT64_C(0xffffffffffff0000)};
    for (uint64_t kind = 6; kind < 256; kind++) {
        for (size_t i = 0; i < sizeof above / sizeof above[0]; i++) {
            expect_text(kind | above[i], &none);
        }
    }
    answers_try(UINT64_C(0xffff0004)); /* spread by every port */
    answers_try((UINT64_C(1) << 61) - (1 << 20) + 0x30601); /* 6.3 with the greatest value */
    answers_try(UINT64_MAX << 8 | HASKUMYE_DROP);
}
