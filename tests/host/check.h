/* Expectations. Each compares two numbers; where they are damaged, every one must fail. */
#ifndef HOST_CHECK_H
#define HOST_CHECK_H

#include <stdbool.h>
#include <stddef.h>
#include <stdint.h>

/* From now on what is expected is wrong. */
void check_damage(void);

/* The line of the list that is at hand, 0 for none. */
void check_at(size_t line);
size_t check_line(void);

void expect(const char *what, uint64_t got, uint64_t expected);

/* Prints the last line, `N passed, M failed`. Whether some expectation was met and none failed. */
bool check_end(void);

/* Takes bytes into a sum, as the list does: independent/src/compare/answered.rs. */
uint64_t sum_of(uint64_t start, const uint8_t *bytes, size_t length);

#endif
