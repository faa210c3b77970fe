/*
 * Records the packets of a day, each as it was given to the core, in files that a maintainer takes home and replays.
 * A file is written before it would be over 60,000 bytes. Its name has the first packet's clock and a running number,
 * so that names in order are files in order of time: recording-0000000001000-000000.
 */
#ifndef RECORDER_H
#define RECORDER_H

#include "haskumye.h"

/* In a file: four bytes, 13 for each entry, then the packets (docs/LAYOUT.md). */
enum { FILE_HEAD = 4, FILE_ENTRY = 13, MOST_ENTRIES = (HASKUMYE_RECORDING_SIZE - FILE_HEAD) / FILE_ENTRY };

struct recorder {
    const char *folder;
    unsigned files;       /* written so far */
    size_t count;         /* entries that wait to be written, and their packets' bytes */
    size_t bodies_length;
    uint8_t entries[MOST_ENTRIES * HASKUMYE_ENTRY_WIDTH];
    uint8_t bodies[HASKUMYE_RECORDING_SIZE];
};

/* Keeps a packet, with what the packet call was given. Whether it could: a file may have been written for it. */
int record_packet(struct recorder *recorder, const uint8_t *packet, size_t length, uint8_t port, uint64_t clock,
                  uint8_t signed_well);

/* Writes what waits: at the end of the day, and where a power cut must not lose it. Whether it could. */
int record_file(struct recorder *recorder);

#endif
