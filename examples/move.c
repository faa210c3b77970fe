/*
 * A relay moves to another shelf: it is saved on the old one while a receipt is under way, and loaded on the new one,
 * where its wires have other ports. The receipt comes home. docs/HOST.md, section 11, goes through it.
 * Usage: move FOLDER, an empty one, which is what is carried from shelf to shelf.
 */
#include "state.h"
#include <stdio.h>
#include <stdlib.h>
#include <string.h>

enum { PAYLOAD = 148, FREE = 255 };

struct wire {
    char name[16];
    uint8_t port, mode;
};

static const struct wire old_shelf[] = {{"cable", 0, HASKUMYE_MODE_BOUNDARY},
                                        {"radio-north", 1, HASKUMYE_MODE_ROAMING},
                                        {"radio-south", 2, HASKUMYE_MODE_ROAMING}};
/* radio-south stays behind, and radio-roof is new: it has the number that radio-south had. */
static const struct wire new_shelf[] = {{"radio-north", 0, HASKUMYE_MODE_ROAMING},
                                        {"radio-roof", 2, HASKUMYE_MODE_ROAMING},
                                        {"cable", 4, HASKUMYE_MODE_BOUNDARY}};
enum { WIRES = 3 };

static const haskumye_address own = {"cold store"}, shelf_terminal = {"the shelf"};

static void expect_done(const char *what, unsigned refusal)
{
    if (refusal != HASKUMYE_REFUSAL_NONE) {
        fprintf(stderr, "%s: refused %u: %s\n", what, refusal, haskumye_refusal_words(refusal));
        exit(1);
    }
}

/* ---- packets: an announce that comes by the cable, a count for it, and the count's receipt ---- */

static size_t write_packet(haskumye_parts parts, size_t payload_length, uint8_t packet[HASKUMYE_OUTPUT_SIZE])
{
    static const uint8_t payload[PAYLOAD];
    haskumye_written written = haskumye_write(&parts, payload, payload_length, packet, HASKUMYE_OUTPUT_SIZE);
    expect_done("writing a packet", HASKUMYE_WRITTEN_REFUSAL(written));
    return HASKUMYE_WRITTEN_LENGTH(written);
}

static void give(struct state *state, haskumye_parts parts, size_t payload_length, unsigned port, uint64_t clock,
                 haskumye_hash *hash)
{
    uint8_t packet[HASKUMYE_OUTPUT_SIZE], output[HASKUMYE_OUTPUT_SIZE];
    size_t length = write_packet(parts, payload_length, packet);
    haskumye_answer answer = haskumye_packet(packet, length, port, clock, 1, state->tables, sizeof state->tables,
                                             output, sizeof output, &state->tally);
    printf("%.16s (%u): %s", state->wires[port], port, haskumye_kind_words(HASKUMYE_ANSWER_KIND(answer)));
    if (HASKUMYE_ANSWER_KIND(answer) == HASKUMYE_FORWARD) {
        printf(" %.16s (%u)", state->wires[HASKUMYE_ANSWER_PORT(answer)], HASKUMYE_ANSWER_PORT(answer));
    }
    printf("\n");
    expect_done("hashing", haskumye_packet_hash(packet, length, hash));
}

/* ---- the old shelf ---- */

static void live_on_old_shelf(struct state *state, haskumye_hash *count_hash)
{
    static const uint8_t payload[PAYLOAD];
    haskumye_parts announce = {.header = HASKUMYE_PACKET_ANNOUNCE};
    haskumye_parts count = {.header = HASKUMYE_HEADER_TYPE_2 | HASKUMYE_HEADER_TRANSPORT, .relay = own};
    haskumye_hash hash;
    expect_done("fresh", haskumye_fresh(state->tables, sizeof state->tables, &own));
    expect_done("a local address", haskumye_add_local(state->tables, sizeof state->tables, &shelf_terminal));
    for (unsigned i = 0; i < WIRES; i++) {
        const struct wire *wire = &old_shelf[i];
        expect_done("a port",
                    haskumye_set_port(state->tables, sizeof state->tables, wire->port, HASKUMYE_ON, wire->mode,
                                      HASKUMYE_LONGEST_PACKET));
        memcpy(state->wires[wire->port], wire->name, sizeof wire->name);
    }
    haskumye_announced_destination(payload, sizeof payload, &announce.destination);
    count.destination = announce.destination;
    give(state, announce, PAYLOAD, 0, 1000, &hash);
    give(state, count, 9, 1, 1001, count_hash);
}

/* ---- the new shelf ---- */

static const struct wire *wire_named(const char *name)
{
    for (unsigned i = 0; i < WIRES; i++) {
        if (name[0] != '\0' && strncmp(new_shelf[i].name, name, sizeof new_shelf[i].name) == 0) {
            return &new_shelf[i];
        }
    }
    return NULL;
}

/* The lowest number that is not taken, and takes it. */
static uint8_t next_free(uint8_t taken[HASKUMYE_PORT_COUNT])
{
    uint8_t number = 0;
    while (taken[number]) {
        number++;
    }
    taken[number] = 1;
    return number;
}

/*
 * Each wire's old port goes to its new one. A port whose wire stayed behind goes where no wire is, so that none
 * inherits what is known of it; ports that never had a wire take the numbers that are left.
 */
static haskumye_port_map map_to_new_shelf(char names[HASKUMYE_PORT_COUNT][16])
{
    haskumye_port_map map;
    uint8_t of_wires[HASKUMYE_PORT_COUNT] = {0}, taken[HASKUMYE_PORT_COUNT] = {0};
    for (unsigned i = 0; i < WIRES; i++) {
        of_wires[new_shelf[i].port] = 1;
    }
    for (unsigned port = 0; port < HASKUMYE_PORT_COUNT; port++) {
        const struct wire *wire = wire_named(names[port]);
        map.to[port] = FREE;
        if (names[port][0] != '\0') {
            map.to[port] = wire != NULL ? wire->port : next_free(of_wires);
            taken[map.to[port]] = 1;
        }
    }
    for (unsigned port = 0; port < HASKUMYE_PORT_COUNT; port++) {
        if (map.to[port] == FREE) {
            map.to[port] = next_free(taken);
        }
    }
    return map;
}

/* Tables and names in one step. */
static void renumber(struct state *state)
{
    char names[HASKUMYE_PORT_COUNT][16];
    haskumye_port_map map = map_to_new_shelf(state->wires);
    expect_done("renumbering", haskumye_renumber(state->tables, sizeof state->tables, &map));
    memcpy(names, state->wires, sizeof names);
    for (unsigned port = 0; port < HASKUMYE_PORT_COUNT; port++) {
        memcpy(state->wires[map.to[port]], names[port], sizeof names[port]);
    }
}

/* Modes and sizes of wires that came along are in the tables. A new wire is set on, a port without its wire off. */
static void set_ports(struct state *state)
{
    for (unsigned port = 0; port < HASKUMYE_PORT_COUNT; port++) {
        if (state->wires[port][0] != '\0' && wire_named(state->wires[port]) == NULL) {
            haskumye_port_settings was;
            expect_done("reading a port", haskumye_port(state->tables, sizeof state->tables, port, &was));
            expect_done("a port",
                        haskumye_set_port(state->tables, sizeof state->tables, port, HASKUMYE_OFF, was.mode,
                                          haskumye_size_number(was.size)));
            printf("%.16s (%u) is off\n", state->wires[port], port);
        }
    }
    for (unsigned i = 0; i < WIRES; i++) {
        const struct wire *wire = &new_shelf[i];
        expect_done("a port",
                    haskumye_set_port(state->tables, sizeof state->tables, wire->port, HASKUMYE_ON, wire->mode,
                                      HASKUMYE_LONGEST_PACKET));
        memcpy(state->wires[wire->port], wire->name, sizeof wire->name);
        printf("%.16s (%u) is on\n", wire->name, wire->port);
    }
}

static void go_on_on_new_shelf(struct state *state, const haskumye_hash *count_hash)
{
    haskumye_parts receipt = {.header = HASKUMYE_PACKET_PROOF};
    haskumye_hash hash;
    uint64_t clock;
    renumber(state);
    set_ports(state);
    unsigned refusal = haskumye_add_local(state->tables, sizeof state->tables, &shelf_terminal);
    printf("the local address: refused %u, so it is there\n", refusal);
    expect_done("the clock", haskumye_last_clock(state->tables, sizeof state->tables, &clock));
    printf("the clock goes on from %llu\n", (unsigned long long)clock);
    memcpy(receipt.destination.bytes, count_hash->bytes, sizeof receipt.destination.bytes);
    give(state, receipt, 64, 4, clock, &hash);
}

int main(int count, char **words)
{
    static struct state old_state, new_state;
    haskumye_hash count_hash;
    if (count != 2 || !haskumye_matches_header()) {
        fprintf(stderr, "usage: move FOLDER, an empty one, with the library of this header\n");
        return 1;
    }
    live_on_old_shelf(&old_state, &count_hash);
    if (!save_state(words[1], &old_state) || load_state(words[1], &new_state) != LOADED) {
        fprintf(stderr, "the state was not saved, or not loaded\n");
        return 1;
    }
    printf("moved\n");
    go_on_on_new_shelf(&new_state, &count_hash);
    if (!save_state(words[1], &new_state)) {
        fprintf(stderr, "the state was not saved\n");
        return 1;
    }
    return 0;
}
