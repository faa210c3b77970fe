#include "wires.h"
#include <stdio.h>
#include <string.h>

enum { LINE_SIZE = 512 };

static int mode_of(const char *word)
{
    static const char *const words[] = {"boundary", "access-point", "roaming"};
    for (int mode = 0; mode < 3; mode++) {
        if (strcmp(word, words[mode]) == 0) {
            return mode;
        }
    }
    return -1;
}

const struct wire *wire_at(const struct wires *wires, unsigned port)
{
    for (unsigned i = 0; i < wires->count; i++) {
        if (wires->wire[i].port == port) {
            return &wires->wire[i];
        }
    }
    return NULL;
}

static const struct wire *wire_named(const struct wires *wires, const char *name)
{
    for (unsigned i = 0; i < wires->count; i++) {
        if (strncmp(wires->wire[i].name, name, NAME_SIZE) == 0) {
            return &wires->wire[i];
        }
    }
    return NULL;
}

/* wire NAME PORT MODE LISTENS SENDS-TO [SIZE] */
static int read_wire(const char *line, struct wires *wires)
{
    struct wire wire;
    char mode[LINE_SIZE];
    unsigned port, listens, sends_to, size = HASKUMYE_LONGEST_PACKET;
    memset(&wire, 0, sizeof wire);
    if (sscanf(line, "wire %15s %u %127s %u %u %u", wire.name, &port, mode, &listens, &sends_to, &size) < 5 ||
        mode_of(mode) < 0 || port >= HASKUMYE_PORT_COUNT || wire_at(wires, port) != NULL ||
        wire_named(wires, wire.name) != NULL || listens > UINT16_MAX || sends_to > UINT16_MAX ||
        size < HASKUMYE_SHORTEST_PACKET || size > HASKUMYE_LONGEST_PACKET) {
        return 0;
    }
    wire.port = (uint8_t)port;
    wire.mode = (uint8_t)mode_of(mode);
    wire.size = (uint16_t)size;
    wire.listens = (uint16_t)listens;
    wire.sends_to = (uint16_t)sends_to;
    wires->wire[wires->count++] = wire; /* at most one for each port: there is room */
    return 1;
}

/* announce-rate TARGET GRACE PENALTY */
static int read_rate(const char *line, struct wires *wires)
{
    return sscanf(line, "announce-rate %u %u %u", &wires->rate_target, &wires->rate_grace, &wires->rate_penalty) == 3 &&
           wires->rate_target <= HASKUMYE_TARGET_LIMIT && wires->rate_grace <= HASKUMYE_GRACE_LIMIT &&
           wires->rate_penalty <= HASKUMYE_PENALTY_LIMIT;
}

static int read_line(const char *line, struct wires *wires)
{
    char own[NAME_SIZE + 1];
    unsigned key;
    if (line[strspn(line, " \n")] == '\0' || line[0] == '#') {
        return 1;
    }
    if (sscanf(line, "own %16s", own) == 1) {
        memcpy(wires->own.bytes, own, strlen(own));
        return 1;
    }
    if (sscanf(line, "desk %2x", &key) == 1) {
        wires->has_desk = 1;
        wires->desk_key = (uint8_t)key;
        return 1;
    }
    return strncmp(line, "announce-rate", 13) == 0 ? read_rate(line, wires) : read_wire(line, wires);
}

int read_wires(const char *path, struct wires *wires)
{
    char line[LINE_SIZE];
    int good = 1;
    FILE *file = fopen(path, "r");
    if (file == NULL) {
        perror(path);
        return 0;
    }
    memset(wires, 0, sizeof *wires);
    while (good && fgets(line, sizeof line, file) != NULL) {
        good = read_line(line, wires);
        if (!good) {
            fprintf(stderr, "%s: not understood: %s", path, line);
        }
    }
    fclose(file);
    return good;
}

haskumye_port_map map_to(const struct wires *wires, char names[HASKUMYE_PORT_COUNT][NAME_SIZE])
{
    haskumye_port_map map;
    uint8_t taken[HASKUMYE_PORT_COUNT] = {0};
    unsigned next = 0;
    for (unsigned port = 0; port < HASKUMYE_PORT_COUNT; port++) {
        const struct wire *wire = names[port][0] == '\0' ? NULL : wire_named(wires, names[port]);
        map.to[port] = wire == NULL ? UINT8_MAX : wire->port;
        if (wire != NULL) {
            taken[wire->port] = 1;
        }
    }
    for (unsigned port = 0; port < HASKUMYE_PORT_COUNT; port++) {
        if (map.to[port] == UINT8_MAX) {
            while (taken[next]) {
                next++;
            }
            taken[next] = 1;
            map.to[port] = (uint8_t)next;
        }
    }
    return map;
}
