/*
 * replay MODE FILE [--damage]: makes the listed calls of a file through the library, and calls every other function
 * on their packets and on buffers of odd lengths. Compares each number and all bytes left. The last line is
 * `N passed, M failed`.
 *   heap    each buffer is an allocation of its own: for AddressSanitizer and valgrind
 *   ends    each buffer ends at a page that nobody may touch
 *   starts  each buffer starts behind such a page
 *   stack   as heap, each call on a painted stack: prints how deep each function goes
 */
#include "announces.h"
#include "answers.h"
#include "buffer.h"
#include "check.h"
#include "library.h"
#include "odd.h"
#include "opinions.h"
#include "packets.h"
#include "recordings.h"
#include "calls.h"
#include "relay.h"
#include "saved.h"
#include "surveys.h"

#include <signal.h>
#include <stdio.h>
#include <stdlib.h>
#include <string.h>
#include <unistd.h>

#ifdef __SANITIZE_ADDRESS__
enum { SANITIZED = 1 };
#else
enum { SANITIZED = 0 };
#endif

/* How many lines of the list go by between two savings. */
enum { SAVE_EVERY = 50 };

/* A touched guard page: says where, and stops. */
static void stop(int number)
{
    char text[100];
    int length = snprintf(text, sizeof(text), "line %zu: a byte outside was touched, signal %d\n", check_line(),
                          number);
    if (write(STDERR_FILENO, text, (size_t)length) != length) {
        _exit(3);
    }
    _exit(1);
}

/* The handler has a stack of its own: the call's may be what is used up. */
static void watch(void)
{
    static uint8_t stack[65536];
    struct sigaction action = {.sa_handler = stop, .sa_flags = SA_ONSTACK};
    sigaltstack(&(stack_t){.ss_sp = stack, .ss_size = sizeof(stack)}, NULL);
    sigaction(SIGSEGV, &action, NULL);
    sigaction(SIGBUS, &action, NULL);
}

static bool start(const char *mode)
{
    if (strcmp(mode, "ends") == 0 || strcmp(mode, "starts") == 0) {
        buffer_place(strcmp(mode, "ends") == 0 ? ENDS_AT : STARTS_AT);
        buffer_expect_guarded();
    } else if (strcmp(mode, "heap") == 0 && SANITIZED) {
        buffer_expect_guarded();
    } else if (strcmp(mode, "stack") == 0) {
        library_measure();
    } else if (strcmp(mode, "heap") != 0) {
        return false;
    }
    return true;
}

/* Makes the call of a line, and tries its packet alone. Whether it is a call. */
static bool replay_line(struct relay *relay, const char *line)
{
    struct listed call;
    bool readable = calls_read(line, &call);
    expect("a listed call", readable, 1);
    if (readable) {
        relay_make(relay, &call);
        if (call.function == PACKET) {
            packets_try(call.bytes);
        }
    }
    buffer_free(&call.bytes);
    return readable;
}

static void replay(FILE *file)
{
    char *line = NULL;
    size_t room = 0, lines = 0, promised = 0;
    struct relay relay = relay_new();
    if (getline(&line, &room, file) > 0) {
        promised = calls_promised(line);
    }
    while (getline(&line, &room, file) > 0) {
        check_at(++lines + 1);
        if (!replay_line(&relay, line)) {
            break;
        }
        if (lines % SAVE_EVERY == 0) {
            saved_try(relay.tables, relay.tally);
        }
    }
    check_at(0);
    expect("all lines are there", lines == promised && promised > 0, 1);
    relay_free(&relay);
    free(line);
}

int main(int count, char **words)
{
    bool damage = count == 4 && strcmp(words[3], "--damage") == 0;
    FILE *file = count == 3 || damage ? fopen(words[2], "r") : NULL;
    if (file == NULL) {
        fprintf(stderr, "replay heap|ends|starts|stack FILE [--damage], with a file that can be read\n");
        return 2;
    }
    if (damage) {
        check_damage();
    }
    if (!SANITIZED) {
        watch();
    }
    if (!start(words[1])) {
        fprintf(stderr, "no mode is called %s\n", words[1]);
        return 2;
    }
    replay(file);
    fclose(file);
    odd_lengths();
    answers_try_odd();
    opinions_try_odd();
    announces_try();
    recordings_try();
    saved_try_odd();
    surveys_try();
    library_end();
    return check_end() ? 0 : 1;
}
