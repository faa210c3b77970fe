/*
 * A relay box whose wires are lines of text, so that it can be tried by hand. docs/HOST.md walks through it.
 *
 * Each line of standard input is an event, each line of standard output what the box does:
 *
 *     packet PORT CLOCK SIGNED HEX    a packet came in     send PORT HEX, deliver HEX, drop N: WORDS, kept
 *     port PORT ON MODE SIZE          sets a port          done
 *     local HEX                       adds an address      done
 *     renumber P0 P1 .. P15           renumbers the ports  done
 *
 * A call that the core refuses prints `refused N: WORDS`, and a line that is no event is not acted on. A box with radios
 * puts them in the place of main and transmit.
 */
#include "haskumye.h"
#include <ctype.h>
#include <stdbool.h>
#include <stdio.h>
#include <stdlib.h>
#include <string.h>

/* The relay: its tables and tally live as long as it runs. The output is only read right after a call. */
static uint8_t tables[HASKUMYE_TABLE_SIZE];
static haskumye_tally tally;
static uint8_t output[HASKUMYE_OUTPUT_SIZE];

static const haskumye_address own_address = {{0xb0, 0x0c, 0x5e}};

enum { LINE_SIZE = 2048 };

/* The next number of a line. Where there is none, one that no port, mode, size or clock can be. */
static uint64_t next_number(char **rest)
{
    char *start = *rest;
    uint64_t number = strtoull(start, rest, 10);
    return *rest == start ? UINT64_MAX : number;
}

/* The next bytes of a line, in hex: at most `room`. */
static size_t next_bytes(char **rest, uint8_t *bytes, size_t room)
{
    size_t length = 0;
    char *hex = *rest + strspn(*rest, " ");
    for (; length < room && isxdigit((unsigned char)hex[0]) && isxdigit((unsigned char)hex[1]); hex += 2) {
        char digits[] = {hex[0], hex[1], '\0'};
        bytes[length++] = (uint8_t)strtoul(digits, NULL, 16);
    }
    *rest = hex;
    return length;
}

/* Whether nothing of a line is left: what could not be read must not be judged as something shorter. */
static bool ends(const char *rest)
{
    return rest[strspn(rest, " \r\n")] == '\0';
}

static void print_hex(const uint8_t *bytes, size_t length)
{
    for (size_t i = 0; i < length; i++) {
        printf("%02x", bytes[i]);
    }
    printf("\n");
}

static void print_done(unsigned refusal)
{
    if (refusal == HASKUMYE_REFUSAL_NONE) {
        printf("done\n");
    } else {
        printf("refused %u: %s\n", refusal, haskumye_refusal_words(refusal));
    }
}

/* Here a packet leaves by a radio or a cable. */
static void transmit(unsigned port, size_t length)
{
    printf("send %u ", port);
    print_hex(output, length);
}

static void print_drop(haskumye_answer answer)
{
    haskumye_text text, sentence;
    haskumye_answer_text(answer, &text);  /* drop 6.3 22600 */
    haskumye_sentence(answer, &sentence); /* no path to this destination: the last one ran out at 22600 */
    printf("%s: %s\n", text.bytes, sentence.bytes);
}

static void act(haskumye_answer answer, const uint8_t *packet, size_t length)
{
    switch (HASKUMYE_ANSWER_KIND(answer)) {
    case HASKUMYE_REFUSED:
        print_done(HASKUMYE_ANSWER_REFUSAL(answer));
        break;
    case HASKUMYE_DROP:
        print_drop(answer);
        break;
    case HASKUMYE_DELIVER:
        printf("deliver ");
        print_hex(packet + HASKUMYE_ANSWER_PAYLOAD(answer), length - HASKUMYE_ANSWER_PAYLOAD(answer));
        break;
    case HASKUMYE_FORWARD:
        transmit(HASKUMYE_ANSWER_PORT(answer), HASKUMYE_ANSWER_LENGTH(answer));
        break;
    case HASKUMYE_SPREAD:
        for (unsigned port = 0; port < HASKUMYE_PORT_COUNT; port++) {
            if (HASKUMYE_ANSWER_HAS_PORT(answer, port)) {
                transmit(port, HASKUMYE_ANSWER_LENGTH(answer));
            }
        }
        break;
    case HASKUMYE_KEPT:
        printf("kept\n");
        break;
    }
}

static void on_packet(char *rest)
{
    uint8_t packet[LINE_SIZE / 2]; /* any that a line can hold: the core says which are too long */
    uint64_t port = next_number(&rest);
    uint64_t clock = next_number(&rest);
    uint8_t signed_well = next_number(&rest) == 1;
    size_t length = next_bytes(&rest, packet, sizeof packet);
    if (!ends(rest)) {
        printf("not a packet\n");
        return;
    }
    haskumye_answer answer = haskumye_packet(packet, length, port, clock, signed_well, tables, sizeof tables, output,
                                             sizeof output, &tally);
    act(answer, packet, length);
}

static void on_port(char *rest)
{
    uint64_t port = next_number(&rest);
    uint8_t on = next_number(&rest) == 1 ? HASKUMYE_ON : HASKUMYE_OFF;
    uint64_t mode = next_number(&rest);
    uint64_t size = next_number(&rest);
    if (!ends(rest)) {
        printf("not a port\n");
        return;
    }
    print_done(haskumye_set_port(tables, sizeof tables, port, on, mode, size));
}

static void on_local(char *rest)
{
    haskumye_address address;
    size_t length = next_bytes(&rest, address.bytes, sizeof address.bytes);
    if (length != sizeof address.bytes || !ends(rest)) {
        printf("not an address\n");
        return;
    }
    print_done(haskumye_add_local(tables, sizeof tables, &address));
}

static void on_renumber(char *rest)
{
    haskumye_port_map map;
    for (unsigned i = 0; i < HASKUMYE_PORT_COUNT; i++) {
        uint64_t port = next_number(&rest);
        map.to[i] = port < HASKUMYE_PORT_COUNT ? (uint8_t)port : UINT8_MAX; /* not one-to-one: refused by 8 */
    }
    if (!ends(rest)) {
        printf("not a map\n");
        return;
    }
    print_done(haskumye_renumber(tables, sizeof tables, &map));
}

static void on_line(char *line)
{
    char *rest = line + strcspn(line, " \n");
    if (strncmp(line, "packet ", 7) == 0) {
        on_packet(rest);
    } else if (strncmp(line, "port ", 5) == 0) {
        on_port(rest);
    } else if (strncmp(line, "local ", 6) == 0) {
        on_local(rest);
    } else if (strncmp(line, "renumber ", 9) == 0) {
        on_renumber(rest);
    } else {
        printf("not an event\n");
    }
}

/* Reads a line. One that is too long is passed over whole, and reads as no event. */
static bool next_line(char *line, int size)
{
    if (fgets(line, size, stdin) == NULL) {
        return false;
    }
    if (strchr(line, '\n') == NULL && !feof(stdin)) {
        int sign = getchar();
        while (sign != '\n' && sign != EOF) {
            sign = getchar();
        }
        line[0] = '\0';
    }
    return true;
}

int main(void)
{
    char line[LINE_SIZE];
    if (!haskumye_matches_header()) {
        fprintf(stderr, "the library is of another version than its header\n");
        return 1;
    }
    unsigned refusal = haskumye_fresh(tables, sizeof tables, &own_address);
    if (refusal != HASKUMYE_REFUSAL_NONE) {
        print_done(refusal);
        return 1;
    }
    while (next_line(line, sizeof line)) {
        on_line(line);
    }
    return 0;
}
