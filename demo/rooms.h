/* Rooms, each with a relay, and the wires between them. A packet on a wire is judged by the relay at its far end. */
#ifndef DEMO_ROOMS_H
#define DEMO_ROOMS_H

#include "packets.h"

enum { MOST_WIRES = 3 };

struct room;

/* What a wire leads to: a wire of another room, or a device, or nobody. */
struct wire {
    const char *name;
    struct room *room;
    unsigned room_wire;
    void (*device)(const struct packet *packet);
    unsigned port; /* the relay's number for this wire */
};

struct room {
    const char *name;
    haskumye_address own;
    void (*deliver)(const struct packet *packet, size_t payload); /* where its payload starts */
    struct wire wires[MOST_WIRES];
    unsigned wire_count;
    uint8_t tables[HASKUMYE_TABLE_SIZE];
    haskumye_tally tally;
};

/* Makes the relay fresh, and switches on the port of each wire. */
void start(struct room *room);

/* Renumbers the relay while it runs: the wire at port i is at port map->to[i] from now on. */
void renumber(struct room *room, const haskumye_port_map *map);

/* A packet comes to a room by a wire, and on from there; each relay that it comes to prints a line. */
void arrive(struct room *room, unsigned wire, const struct packet *packet);

/* One line of the story. */
void say(const char *who, const char *what, const char *answer, const char *then);

#endif
