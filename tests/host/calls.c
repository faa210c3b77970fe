#include "calls.h"

#include <ctype.h>
#include <errno.h>
#include <stdio.h>
#include <stdlib.h>
#include <string.h>

size_t calls_promised(const char *line)
{
    size_t lines = 0;
    return sscanf(line, "# %zu calls", &lines) == 1 ? lines : 0;
}

/* Each of these takes one word of a line and moves on; false where the line has another word there. */

static bool word(const char **at, const char *expected)
{
    const char *start = *at + strspn(*at, " ");
    size_t length = strlen(expected);
    if (strncmp(start, expected, length) != 0 || strchr(" \n", start[length]) == NULL) {
        return false;
    }
    *at = start + length;
    return true;
}

static bool number_in(const char **at, uint64_t *value, int base)
{
    const char *start = *at + strspn(*at, " ");
    char *end;
    errno = 0;
    *value = strtoull(start, &end, base);
    *at = end;
    return isxdigit((unsigned char)*start) && end != start && errno == 0;
}

static bool number(const char **at, uint64_t *value)
{
    return number_in(at, value, 10);
}

static bool truth(const char **at, bool *value)
{
    *value = word(at, "true");
    return *value || word(at, "false");
}

static bool byte(const char **at, uint8_t *value)
{
    uint64_t wide;
    if (!number_in(at, &wide, 16) || wide > 0xff) {
        return false;
    }
    *value = (uint8_t)wide;
    return true;
}

/* Pairs of hexadecimal digits, or a dash for none, into a buffer of that length. */
static bool digits(const char **at, struct buffer *bytes)
{
    const char *start = *at + strspn(*at, " ");
    size_t length = strspn(start, "0123456789abcdef");
    *bytes = buffer_new(length / 2, 0);
    for (size_t i = 0; i + 1 < length; i += 2) {
        const char pair[3] = {start[i], start[i + 1], 0};
        bytes->bytes[i / 2] = (uint8_t)strtoul(pair, NULL, 16);
    }
    *at = start + length;
    return length == 0 ? word(at, "-") : length % 2 == 0;
}

/* Sixteen bytes: the library is given their place alone. */
static bool sixteen(const char **at, struct buffer *bytes)
{
    return digits(at, bytes) && bytes->length == 16;
}

static bool read_setting(const char **at, struct listed *call)
{
    if (word(at, "port")) {
        call->function = SET_PORT;
        return number(at, &call->port) && word(at, "on") && truth(at, &call->yes) && word(at, "mode") &&
               number(at, &call->mode) && word(at, "size") && number(at, &call->size);
    }
    call->function = SET_ANNOUNCE_RATE;
    return word(at, "announce") && word(at, "rate") && word(at, "target") && number(at, &call->target) &&
           word(at, "grace") && number(at, &call->grace) && word(at, "penalty") && number(at, &call->penalty);
}

static bool read_call(const char **at, struct listed *call)
{
    if (word(at, "fresh")) {
        call->function = FRESH;
        return sixteen(at, &call->bytes);
    }
    if (word(at, "packet")) {
        call->function = PACKET;
        return word(at, "port") && number(at, &call->port) && word(at, "clock") && number(at, &call->clock) &&
               word(at, "signature") && truth(at, &call->yes) && word(at, "output") && number(at, &call->room) &&
               word(at, "of") && byte(at, &call->fill) && digits(at, &call->bytes);
    }
    if (word(at, "set")) {
        return read_setting(at, call);
    }
    if (word(at, "mark")) {
        call->function = MARK_PATH_UNRESPONSIVE;
        return sixteen(at, &call->bytes) && word(at, "clock") && number(at, &call->clock);
    }
    if (word(at, "renumber")) {
        call->function = RENUMBER;
        return sixteen(at, &call->bytes);
    }
    call->function = word(at, "add") ? ADD_LOCAL : REMOVE_LOCAL;
    return (call->function == ADD_LOCAL || word(at, "remove")) && word(at, "local") && sixteen(at, &call->bytes);
}

static bool read_edit(const char **at, struct listed *call)
{
    if (word(at, "put")) {
        call->edit = PUT_ASIDE;
        return word(at, "aside");
    }
    if (word(at, "take")) {
        call->edit = TAKE_BACK;
        return word(at, "back");
    }
    if (word(at, "write")) {
        call->edit = OVERWRITE;
        return word(at, "at") && number(at, &call->at) && digits(at, &call->bytes);
    }
    if (word(at, "copy")) {
        call->edit = COPY;
        return number(at, &call->length) && word(at, "from") && number(at, &call->from) && word(at, "to") &&
               number(at, &call->at);
    }
    call->edit = RESIZE;
    return word(at, "resize") && word(at, "to") && number(at, &call->length);
}

bool calls_read(const char *line, struct listed *call)
{
    const char *at = line;
    *call = (struct listed){0};
    if (!read_edit(&at, call)) {
        at = line;
        *call = (struct listed){0};
        if (!read_call(&at, call) || !word(&at, "=") || !number_in(&at, &call->number, 16) ||
            !number_in(&at, &call->sum, 16)) {
            return false;
        }
    }
    return strcmp(at, "\n") == 0;
}
