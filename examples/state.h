/* What a box keeps over a power cut, and the sealed file that keeps it. docs/HOST.md, section 10, tells why. */
#ifndef EXAMPLES_STATE_H
#define EXAMPLES_STATE_H

#include "haskumye.h"

/* What belongs together: the same tables over other wires send receipts out by the wrong radio. */
struct state {
    uint8_t tables[HASKUMYE_TABLE_SIZE];
    haskumye_tally tally;
    uint64_t last_emission;              /* of the last announce of the box's own */
    char wires[HASKUMYE_PORT_COUNT][16]; /* the wire at each port, by a name that stays, such as a serial number */
};

/* Saves a state in a folder, and returns 1. Where it returns 0, or the power fails, what was saved before is there. */
int save_state(const char *folder, const struct state *state);

enum loaded {
    LOADED,
    NOTHING_SAVED,
    NOT_WHOLE,    /* it can't be read, or isn't as it was saved */
    OTHER_EDITION /* it is whole, and of an edition that this library doesn't know: a newer program saved it */
};

/* Loads what was saved in a folder last. Where it is not LOADED, the state stays. */
enum loaded load_state(const char *folder, struct state *state);

#endif
