/*
 * The story of a receipt, with the real library. A terminal in the growth room sends a count to the desk, by way of the
 * cold store; before the receipt comes back, the ports of the cold store's relay are renumbered. It is told twice: with
 * haskumye_renumber, and the old way, with the tables emptied and the ports set again by hand.
 */
#include "rooms.h"
#include <stdio.h>
#include <string.h>

enum { PLANTS = 42 };

static void terminal_hears(const struct packet *packet);
static void desk_books(const struct packet *packet, size_t start);

/* The places of the wires below. */
enum { GROWTH_TERMINAL, GROWTH_RADIO };
enum { COLD_CABLE, COLD_RADIO_NORTH, COLD_RADIO_SOUTH };
enum { DESK_CABLE };

static struct room growth_room, cold_store, desk;

static void build_rooms(void)
{
    growth_room = (struct room){
        .name = "growth room",
        .own = {"growth room"},
        .wires = {{.name = "terminal", .device = terminal_hears, .port = 0},
                  {.name = "radio", .room = &cold_store, .room_wire = COLD_RADIO_NORTH, .port = 1}},
        .wire_count = 2,
    };
    cold_store = (struct room){
        .name = "cold store",
        .own = {"cold store"},
        .wires = {{.name = "cable", .room = &desk, .room_wire = DESK_CABLE, .port = 0},
                  {.name = "radio north", .room = &growth_room, .room_wire = GROWTH_RADIO, .port = 1},
                  {.name = "radio south", .port = 2}},
        .wire_count = 3,
    };
    desk = (struct room){
        .name = "desk",
        .own = {"desk"},
        .deliver = desk_books,
        .wires = {{.name = "cable", .room = &cold_store, .room_wire = COLD_CABLE, .port = 0}},
        .wire_count = 1,
    };
    start(&growth_room);
    start(&cold_store);
    start(&desk);
}

/* What the people in the rooms know. */
static struct {
    haskumye_address desk;
    struct packet count; /* as it came to the desk */
    unsigned entries, booked;
    uint64_t announces;
    int has_receipt;
} known;

static void desk_announces(void)
{
    struct packet announce = announce_at(++known.announces, &known.desk);
    unsigned refusal = haskumye_add_local(desk.tables, sizeof desk.tables, &known.desk);
    if (refusal != HASKUMYE_REFUSAL_LOCAL_ADDRESS) { /* the second time it is there already */
        expect_done("desk", refusal);
    }
    say("desk", "announces itself", "", "out by cable");
    arrive(&cold_store, COLD_CABLE, &announce);
}

static void terminal_hears(const struct packet *packet)
{
    int receipt = (packet->bytes[0] & HASKUMYE_PACKET_KIND) == HASKUMYE_PACKET_PROOF;
    known.has_receipt = known.has_receipt || receipt;
    say("terminal", receipt ? "has its receipt" : "knows the way to the desk", "", "");
}

static void someone_types_the_count(void)
{
    char text[48], what[64];
    snprintf(text, sizeof text, "line 7: %d plants, entry %u", PLANTS, ++known.entries);
    snprintf(what, sizeof what, "sends \"%s\"", text);
    struct packet data = data_for(&growth_room.own, &known.desk, text);
    say("terminal", what, "", "");
    arrive(&growth_room, GROWTH_TERMINAL, &data);
}

static void desk_books(const struct packet *packet, size_t start)
{
    char text[48];
    unsigned line, plants;
    snprintf(text, sizeof text, "%.*s", (int)(packet->length - start), (const char *)packet->bytes + start);
    known.count = *packet;
    if (sscanf(text, "line %u: %u plants", &line, &plants) == 2) {
        known.booked += plants;
    }
}

static void desk_answers(void)
{
    struct packet receipt = receipt_for(&known.count);
    say("desk", "books it, sends the receipt", "", "out by cable");
    arrive(&cold_store, COLD_CABLE, &receipt);
}

static const haskumye_port_map new_numbers = {{2, 0, 1, 3, 4, 5, 6, 7, 8, 9, 10, 11, 12, 13, 14, 15}};

static void renumbered_while_it_runs(void)
{
    renumber(&cold_store, &new_numbers);
    say("maintainer", "renumbers the cold store", "", "cable is 2, radio north 0, radio south 1");
}

static void emptied_and_set_by_hand(void)
{
    for (unsigned i = 0; i < cold_store.wire_count; i++) {
        cold_store.wires[i].port = new_numbers.to[cold_store.wires[i].port];
    }
    start(&cold_store);
    say("maintainer", "empties the cold store's tables", "", "cable is 2, radio north 0, radio south 1");
}

static void tell(const char *title, void (*new_ports)(void))
{
    printf("%s\n", title);
    build_rooms();
    memset(&known, 0, sizeof known);
    desk_announces();
    someone_types_the_count();
    new_ports();
    desk_answers();
    if (!known.has_receipt) {
        say("terminal", "has no receipt: it is typed again", "", "");
        desk_announces();
        someone_types_the_count();
        desk_answers();
    }
    printf("  = line 7 carries %u plants; %d were counted\n", known.booked, PLANTS);
}

int main(void)
{
    if (!haskumye_matches_header()) {
        fprintf(stderr, "the library is of another version than its header\n");
        return 1;
    }
    tell("Ports renumbered while the relay runs:", renumbered_while_it_runs);
    printf("\n");
    tell("Ports renumbered the old way:", emptied_and_set_by_hand);
    return 0;
}
