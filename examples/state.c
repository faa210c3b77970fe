#define _POSIX_C_SOURCE 200809L
#include "state.h"
#include <errno.h>
#include <fcntl.h>
#include <stdio.h>
#include <string.h>
#include <unistd.h>

#define SAVED "relay.saved"
#define BEING_SAVED "relay.saved.new"

/* The file: what haskumye_save wrote, then the box's own (last emission, big-endian, and wires), then the seal. */
enum {
    EMISSION_SIZE = 8,
    OWN_SIZE = EMISSION_SIZE + sizeof((struct state *)0)->wires,
    SEAL_SIZE = sizeof(haskumye_hash),
    FILE_SIZE = HASKUMYE_SAVED_SIZE + OWN_SIZE + SEAL_SIZE,
    LONGEST_FILE = HASKUMYE_LONGEST_SAVED + OWN_SIZE + SEAL_SIZE, /* of any edition */
    MOST_PIECES = LONGEST_FILE / HASKUMYE_LONGEST_MESSAGE + 1
};

/* A call hashes at most 65,535 bytes: the seal is the digest of the digests of such pieces, in their order. */
static int seal_of(const uint8_t *bytes, size_t length, haskumye_hash *seal)
{
    haskumye_hash digests[MOST_PIECES];
    size_t count = 0;
    for (size_t at = 0; at < length; at += HASKUMYE_LONGEST_MESSAGE) {
        size_t left = length - at;
        size_t piece = left < HASKUMYE_LONGEST_MESSAGE ? left : HASKUMYE_LONGEST_MESSAGE;
        if (haskumye_sha256(bytes + at, piece, &digests[count++]) != HASKUMYE_REFUSAL_NONE) {
            return 0;
        }
    }
    return haskumye_sha256(digests[0].bytes, count * sizeof digests[0], seal) == HASKUMYE_REFUSAL_NONE;
}

/* ---- saving ---- */

static void put_own(const struct state *state, uint8_t own[OWN_SIZE])
{
    for (unsigned i = 0; i < EMISSION_SIZE; i++) {
        own[i] = (uint8_t)(state->last_emission >> (8 * (EMISSION_SIZE - 1 - i)));
    }
    memcpy(own + EMISSION_SIZE, state->wires, sizeof state->wires);
}

/* The bytes of the file. Returns 0 where no relay has such tables. */
static int make_file(const struct state *state, uint8_t file[FILE_SIZE])
{
    haskumye_hash seal;
    haskumye_saved saved = haskumye_save(state->tables, sizeof state->tables, &state->tally, file, HASKUMYE_SAVED_SIZE);
    if (HASKUMYE_SAVED_REFUSAL(saved) != HASKUMYE_REFUSAL_NONE) {
        return 0;
    }
    put_own(state, file + HASKUMYE_SAVED_SIZE);
    if (!seal_of(file, FILE_SIZE - SEAL_SIZE, &seal)) {
        return 0;
    }
    memcpy(file + FILE_SIZE - SEAL_SIZE, seal.bytes, SEAL_SIZE);
    return 1;
}

static int write_all(int descriptor, const uint8_t *bytes, size_t length)
{
    while (length > 0) {
        ssize_t written = write(descriptor, bytes, length);
        if (written == 0 || (written < 0 && errno != EINTR)) {
            return 0;
        }
        size_t done = written < 0 ? 0 : (size_t)written;
        bytes += done;
        length -= done;
    }
    return 1;
}

/* The disk holds all of the new file before it takes the saved one's name, and the new name before this returns. */
static int replace_saved(int folder, const uint8_t file[FILE_SIZE])
{
    int descriptor = openat(folder, BEING_SAVED, O_WRONLY | O_CREAT | O_TRUNC | O_CLOEXEC, 0600);
    if (descriptor < 0) {
        return 0;
    }
    int held = write_all(descriptor, file, FILE_SIZE) && fsync(descriptor) == 0;
    held = close(descriptor) == 0 && held;
    return held && renameat(folder, BEING_SAVED, folder, SAVED) == 0 && fsync(folder) == 0;
}

int save_state(const char *path, const struct state *state)
{
    uint8_t file[FILE_SIZE];
    if (!make_file(state, file)) {
        return 0;
    }
    int folder = open(path, O_RDONLY | O_DIRECTORY | O_CLOEXEC);
    if (folder < 0) {
        return 0;
    }
    int saved = replace_saved(folder, file);
    close(folder);
    return saved;
}

/* ---- loading ---- */

/* Reads a whole file of at most so many bytes. Returns its length, or -1 where it is longer or can't be read. */
static ssize_t read_all(int descriptor, uint8_t *bytes, size_t most)
{
    size_t length = 0;
    for (;;) {
        uint8_t more;
        ssize_t got = length < most ? read(descriptor, bytes + length, most - length) : read(descriptor, &more, 1);
        if (got == 0) {
            return (ssize_t)length;
        }
        if (length == most || (got < 0 && errno != EINTR)) {
            return -1;
        }
        length += got < 0 ? 0 : (size_t)got;
    }
}

static int is_sealed(const uint8_t *file, size_t length)
{
    haskumye_hash seal;
    return length >= OWN_SIZE + SEAL_SIZE && seal_of(file, length - SEAL_SIZE, &seal) &&
           memcmp(file + length - SEAL_SIZE, seal.bytes, SEAL_SIZE) == 0;
}

static void take_own(const uint8_t own[OWN_SIZE], struct state *state)
{
    state->last_emission = 0;
    for (unsigned i = 0; i < EMISSION_SIZE; i++) {
        state->last_emission = state->last_emission << 8 | own[i];
    }
    memcpy(state->wires, own + EMISSION_SIZE, sizeof state->wires);
}

/* Own part and seal are cut off from behind: what is before them may be of an older edition, and of another length. */
static enum loaded take_file(const uint8_t *file, size_t length, struct state *state)
{
    if (!is_sealed(file, length)) {
        return NOT_WHOLE;
    }
    size_t saved = length - OWN_SIZE - SEAL_SIZE;
    unsigned refusal = haskumye_load(file, saved, state->tables, sizeof state->tables, &state->tally);
    if (refusal != HASKUMYE_REFUSAL_NONE) {
        return refusal == HASKUMYE_REFUSAL_FILE_KIND ? OTHER_EDITION : NOT_WHOLE;
    }
    take_own(file + saved, state);
    return LOADED;
}

enum loaded load_state(const char *path, struct state *state)
{
    static uint8_t file[LONGEST_FILE];
    int folder = open(path, O_RDONLY | O_DIRECTORY | O_CLOEXEC);
    if (folder < 0) {
        return NOT_WHOLE;
    }
    int descriptor = openat(folder, SAVED, O_RDONLY | O_CLOEXEC);
    int nothing = descriptor < 0 && errno == ENOENT;
    close(folder);
    if (descriptor < 0) {
        return nothing ? NOTHING_SAVED : NOT_WHOLE;
    }
    ssize_t length = read_all(descriptor, file, sizeof file);
    close(descriptor);
    return length < 0 ? NOT_WHOLE : take_file(file, (size_t)length, state);
}
