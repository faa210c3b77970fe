#define _POSIX_C_SOURCE 200809L
#include "recorder.h"
#include <fcntl.h>
#include <inttypes.h>
#include <stdio.h>
#include <string.h>
#include <unistd.h>

static void put_number(uint8_t *place, uint64_t number, unsigned width)
{
    for (unsigned i = 0; i < width; i++) {
        place[i] = (uint8_t)(number >> (8 * (width - 1 - i)));
    }
}

static uint64_t first_clock(const struct recorder *recorder)
{
    uint64_t clock = 0;
    for (unsigned i = 0; i < 8; i++) {
        clock = clock << 8 | recorder->entries[i];
    }
    return clock;
}

/* A clock has 13 digits at most. A name that is taken is never written over. */
static int write_file(const struct recorder *recorder, const uint8_t *file, size_t length)
{
    char path[4096];
    snprintf(path, sizeof path, "%s/recording-%013" PRIu64 "-%06u", recorder->folder, first_clock(recorder),
             recorder->files);
    int descriptor = open(path, O_WRONLY | O_CREAT | O_EXCL | O_CLOEXEC, 0600);
    if (descriptor < 0) {
        return 0;
    }
    int held = write(descriptor, file, length) == (ssize_t)length && fsync(descriptor) == 0;
    return close(descriptor) == 0 && held;
}

int record_file(struct recorder *recorder)
{
    static uint8_t file[HASKUMYE_RECORDING_SIZE];
    if (recorder->count == 0) {
        return 1;
    }
    haskumye_written written =
        haskumye_write_recording(recorder->entries, recorder->count * HASKUMYE_ENTRY_WIDTH, recorder->bodies,
                                 recorder->bodies_length, file, sizeof file);
    if (HASKUMYE_WRITTEN_REFUSAL(written) != HASKUMYE_REFUSAL_NONE ||
        !write_file(recorder, file, HASKUMYE_WRITTEN_LENGTH(written))) {
        return 0;
    }
    recorder->files++;
    recorder->count = 0;
    recorder->bodies_length = 0;
    return 1;
}

/* Whether the file would still be short enough with a packet of this length. */
static int has_room(const struct recorder *recorder, size_t length)
{
    return FILE_HEAD + FILE_ENTRY * (recorder->count + 1) + recorder->bodies_length + length <= HASKUMYE_RECORDING_SIZE;
}

int record_packet(struct recorder *recorder, const uint8_t *packet, size_t length, uint8_t port, uint64_t clock,
                  uint8_t signed_well)
{
    if (clock >= HASKUMYE_CLOCK_LIMIT || FILE_HEAD + FILE_ENTRY + length > HASKUMYE_RECORDING_SIZE) {
        return 0; /* no file can hold it, and the core refuses it */
    }
    if (!has_room(recorder, length) && !record_file(recorder)) {
        return 0;
    }
    uint8_t *entry = recorder->entries + recorder->count * HASKUMYE_ENTRY_WIDTH;
    put_number(entry, clock, 8);
    entry[8] = port;
    entry[9] = signed_well == 1;
    put_number(entry + 10, length, 2);
    memcpy(recorder->bodies + recorder->bodies_length, packet, length);
    recorder->count++;
    recorder->bodies_length += length;
    return 1;
}
