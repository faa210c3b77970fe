#include "buffer.h"

#include "check.h"
#include "haskumye.h"

#include <stdio.h>
#include <stdlib.h>
#include <string.h>
#include <sys/mman.h>
#include <sys/wait.h>
#include <unistd.h>

static enum placement placement;

static void *or_stop(void *pointer)
{
    if (pointer == NULL || pointer == MAP_FAILED) {
        perror("no memory");
        exit(2);
    }
    return pointer;
}

static size_t page_size(void)
{
    return (size_t)sysconf(_SC_PAGESIZE);
}

/* The pages that a buffer needs, without the two that guard them. */
static size_t pages_for(size_t length)
{
    return (length + page_size() - 1) / page_size() * page_size();
}

void buffer_place(enum placement chosen)
{
    placement = chosen;
}

static uint8_t *guarded(size_t length)
{
    size_t page = page_size(), pages = pages_for(length);
    uint8_t *region = or_stop(mmap(NULL, pages + 2 * page, PROT_NONE, MAP_PRIVATE | MAP_ANONYMOUS, -1, 0));
    if (pages > 0 && mprotect(region + page, pages, PROT_READ | PROT_WRITE) != 0) {
        or_stop(NULL);
    }
    return region + page + (placement == ENDS_AT ? pages - length : 0);
}

struct buffer buffer_new(size_t length, uint8_t fill)
{
    struct buffer buffer = {NULL, length};
    if (placement != ON_HEAP) {
        buffer.bytes = guarded(length);
    } else if (length > 0) {
        buffer.bytes = or_stop(malloc(length));
    }
    if (length > 0) {
        memset(buffer.bytes, fill, length);
    }
    return buffer;
}

struct buffer buffer_copy(const uint8_t *bytes, size_t length)
{
    struct buffer buffer = buffer_new(length, 0);
    if (length > 0) {
        memcpy(buffer.bytes, bytes, length);
    }
    return buffer;
}

void buffer_free(struct buffer *buffer)
{
    if (buffer->bytes == NULL) {
        return;
    }
    if (placement == ON_HEAP) {
        free(buffer->bytes);
    } else {
        size_t page = page_size(), pages = pages_for(buffer->length);
        uint8_t *first = buffer->bytes - (placement == ENDS_AT ? pages - buffer->length : 0);
        munmap(first - page, pages + 2 * page);
    }
    *buffer = (struct buffer){NULL, 0};
}

/* Whether a child that touches the byte at this place of a buffer is stopped. */
static bool is_noticed(struct buffer buffer, ptrdiff_t place)
{
    fflush(NULL);
    pid_t child = fork();
    if (child == 0) {
        haskumye_hash hash;
        if (freopen("/dev/null", "w", stderr) == NULL) {
            _exit(0);
        }
        if (placement == ON_HEAP) {
            /* the archive is not instrumented, this program is */
            (void)((volatile uint8_t *)buffer.bytes)[place];
            _exit(0);
        }
        _exit(haskumye_sha256(buffer.bytes + place, 1, &hash));
    }
    int status = 0;
    waitpid(child, &status, 0);
    return !WIFEXITED(status) || WEXITSTATUS(status) != 0;
}

void buffer_expect_guarded(void)
{
    struct buffer buffer = buffer_new(100, 1);
    if (placement != STARTS_AT) {
        expect("a byte past a buffer is noticed", is_noticed(buffer, 100), 1);
    }
    if (placement != ENDS_AT) {
        expect("a byte before a buffer is noticed", is_noticed(buffer, -1), 1);
    }
    expect("a byte of a buffer may be touched", is_noticed(buffer, 99), 0);
    buffer_free(&buffer);
}
