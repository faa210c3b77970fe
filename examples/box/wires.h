/* A box's wires file: who the box is, and a line for each wire. README.md has the form. */
#ifndef BOX_WIRES_H
#define BOX_WIRES_H

#include "haskumye.h"

enum { NAME_SIZE = 16 };

struct wire {
    char name[NAME_SIZE]; /* stays with the wire, whatever its port's number */
    uint8_t port;
    uint8_t mode;
    uint16_t size;              /* the longest packet that it carries */
    uint16_t listens, sends_to; /* UDP on the loopback interface */
};

struct wires {
    haskumye_address own;
    int has_desk; /* whether packets for `desk_key` are for people at this box */
    uint8_t desk_key;
    unsigned rate_target, rate_grace, rate_penalty; /* the announce rate; 0 without a line for it */
    struct wire wire[HASKUMYE_PORT_COUNT];
    unsigned count;
};

/* Reads a wires file, and returns 1. Where it returns 0, it has said which line it does not understand. */
int read_wires(const char *path, struct wires *wires);

/* The wire at a port, or NULL. */
const struct wire *wire_at(const struct wires *wires, unsigned port);

/*
 * The renumbering that takes the wires' old ports, which `names` has, to their new ones. Ports without a wire take the
 * numbers that are left, rising, so that the map is one-to-one.
 */
haskumye_port_map map_to(const struct wires *wires, char names[HASKUMYE_PORT_COUNT][NAME_SIZE]);

#endif
