#include "check.h"

#include <inttypes.h>
#include <stdio.h>
#include <string.h>

enum { SHOWN = 5 };

static bool damaged;
static volatile size_t at;
static size_t passed, failed;

void check_damage(void)
{
    damaged = true;
}

void check_at(size_t line)
{
    at = line;
}

size_t check_line(void)
{
    return at;
}

void expect(const char *what, uint64_t got, uint64_t expected)
{
    if (damaged) {
        expected ^= 1;
    }
    if (got == expected) {
        passed++;
        return;
    }
    failed++;
    if (failed <= SHOWN) {
        printf("line %zu, %s: got %" PRIx64 ", expected %" PRIx64 "\n", at, what, got, expected);
    }
}

bool check_end(void)
{
    printf("%zu passed, %zu failed\n", passed, failed);
    return passed > 0 && failed == 0;
}

uint64_t sum_of(uint64_t start, const uint8_t *bytes, size_t length)
{
    for (size_t i = 0; i < length; i += 8) {
        uint8_t part[8] = {0};
        memcpy(part, bytes + i, length - i < 8 ? length - i : 8);
        uint64_t word;
        memcpy(&word, part, 8);
        start = (start ^ word) * UINT64_C(0x9e3779b97f4a7c15);
        start = start << 29 | start >> 35;
    }
    return start;
}
