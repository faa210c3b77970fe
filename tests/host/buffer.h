/* Buffers of exactly the length asked for, each an allocation of its own: a byte touched outside one is noticed. */
#ifndef HOST_BUFFER_H
#define HOST_BUFFER_H

#include <stdbool.h>
#include <stddef.h>
#include <stdint.h>

enum placement {
    ON_HEAP,  /* for AddressSanitizer and valgrind; a buffer of no bytes is NULL */
    ENDS_AT,  /* ends where a page begins that nobody may touch */
    STARTS_AT /* starts where such a page ends */
};

struct buffer {
    uint8_t *bytes;
    size_t length;
};

/* Where every buffer lies from now on. */
void buffer_place(enum placement chosen);

/* A buffer of this byte. */
struct buffer buffer_new(size_t length, uint8_t fill);
struct buffer buffer_copy(const uint8_t *bytes, size_t length);
void buffer_free(struct buffer *buffer);

/* Expects that a byte outside a buffer, touched by the library or by this program, would be noticed. */
void buffer_expect_guarded(void);

#endif
