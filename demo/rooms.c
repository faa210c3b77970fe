#include "rooms.h"
#include <stdio.h>
#include <stdlib.h>
#include <string.h>

/* Seconds: one passes for each packet that a relay judges. */
static uint64_t now = 1000;

void say(const char *who, const char *what, const char *answer, const char *then)
{
    char line[160];
    snprintf(line, sizeof line, "  %-12s %-32s %-10s %s", who, what, answer, then);
    size_t length = strlen(line);
    while (line[length - 1] == ' ') {
        length--;
    }
    printf("%.*s\n", (int)length, line);
}

void start(struct room *room)
{
    expect_done(room->name, haskumye_fresh(room->tables, sizeof room->tables, &room->own));
    memset(&room->tally, 0, sizeof room->tally);
    for (unsigned i = 0; i < room->wire_count; i++) {
        unsigned port = room->wires[i].port;
        expect_done(room->name, haskumye_set_port(room->tables, sizeof room->tables, port, HASKUMYE_ON,
                                                  HASKUMYE_MODE_BOUNDARY, HASKUMYE_LONGEST_PACKET));
    }
}

void renumber(struct room *room, const haskumye_port_map *map)
{
    expect_done(room->name, haskumye_renumber(room->tables, sizeof room->tables, map));
    for (unsigned i = 0; i < room->wire_count; i++) {
        room->wires[i].port = map->to[room->wires[i].port];
    }
}

static int leaves_by(haskumye_answer answer, const struct wire *wire)
{
    return HASKUMYE_ANSWER_PORT(answer) == wire->port || HASKUMYE_ANSWER_HAS_PORT(answer, wire->port);
}

/* "out by cable (0), radio north (1)"; of a drop, the reason. */
static void describe(const struct room *room, haskumye_answer answer, char *text, size_t size)
{
    size_t length = 0;
    text[0] = '\0';
    if (HASKUMYE_ANSWER_KIND(answer) == HASKUMYE_DROP) {
        snprintf(text, size, "%s", haskumye_reason_words(HASKUMYE_ANSWER_REASON(answer)));
    }
    for (const struct wire *wire = room->wires; wire < room->wires + room->wire_count; wire++) {
        if (leaves_by(answer, wire)) {
            snprintf(text + length, size - length, "%s %s (%u)", length == 0 ? "out by" : ",", wire->name, wire->port);
            length = strlen(text);
        }
    }
}

/* The answer as document 01 writes it. */
static void name_answer(haskumye_answer answer, char *text, size_t size)
{
    const char *kind = haskumye_kind_words(HASKUMYE_ANSWER_KIND(answer));
    switch (HASKUMYE_ANSWER_KIND(answer)) {
    case HASKUMYE_REFUSED: snprintf(text, size, "%s %u", kind, HASKUMYE_ANSWER_REFUSAL(answer)); break;
    case HASKUMYE_DROP: snprintf(text, size, "%s %u", kind, HASKUMYE_ANSWER_REASON(answer)); break;
    default: snprintf(text, size, "%s", kind); break;
    }
}

static void print_answer(const struct room *room, const struct wire *in, const struct packet *packet,
                         haskumye_answer answer)
{
    char what[64], told[16], then[96];
    snprintf(what, sizeof what, "%s in by %s (%u)", kind_of(packet), in->name, in->port);
    name_answer(answer, told, sizeof told);
    describe(room, answer, then, sizeof then);
    say(room->name, what, told, then);
}

static void leave_by(const struct wire *wire, const struct packet *packet)
{
    if (wire->device != NULL) {
        wire->device(packet);
    } else if (wire->room != NULL) {
        arrive(wire->room, wire->room_wire, packet);
    }
}

void arrive(struct room *room, unsigned wire, const struct packet *packet)
{
    struct packet out;
    const struct wire *in = &room->wires[wire];
    haskumye_answer answer = haskumye_packet(packet->bytes, packet->length, in->port, now++, 1, room->tables,
                                             sizeof room->tables, out.bytes, sizeof out.bytes, &room->tally);
    print_answer(room, in, packet, answer);
    if (HASKUMYE_ANSWER_KIND(answer) == HASKUMYE_DELIVER) {
        room->deliver(packet, HASKUMYE_ANSWER_PAYLOAD(answer));
    }
    for (const struct wire *by = room->wires; by < room->wires + room->wire_count; by++) {
        if (leaves_by(answer, by)) {
            out.length = HASKUMYE_ANSWER_LENGTH(answer);
            leave_by(by, &out);
        }
    }
}
