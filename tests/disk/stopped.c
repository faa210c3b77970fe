/*
 * A relay on disk, as examples/state.c keeps it: the writer is stopped before, in and after every system call, each of
 * them fails once, and the power is cut at each of these moments. The old file or the new one is there every time; and
 * a file that lost bytes is not taken for whole.
 * Usage: stopped FOLDER, an empty one. The linker puts the __wrap_ functions in the place of the system's. The last
 * line is `N passed, M failed`.
 */
#include "state.c"
#include <stdlib.h>
#include <sys/mman.h>
#include <sys/stat.h>
#include <sys/wait.h>

enum { PATH_SIZE = 256, SHOWN = 5, NO_STEP = -1 };

static int passed, failed;

static void expect(int holds, const char *what, int step, const char *more)
{
    passed += holds ? 1 : 0;
    failed += holds ? 0 : 1;
    if (!holds && failed <= SHOWN) {
        printf("does not hold: %s, step %d %s\n", what, step, more);
    }
}

static void need(int holds, const char *what)
{
    if (!holds) {
        fprintf(stderr, "stopped: %s\n", what);
        exit(2);
    }
}

/* ---- the system calls of a writer, in a child ---- */

/* How the call at a step ends: the writer is stopped before it, in the middle or after it; or it fails or is short. */
enum ending { BEFORE, MIDDLE, AFTER, FAILS, SHORT, ENDINGS };
static const char *const ending_words[ENDINGS] = {"before", "in the middle", "after", "fails", "is short"};

/* What a writer did, in memory that its parent sees too. */
struct log {
    int step, ends_at;
    enum ending ending;
    int result; /* what save_state returned, NO_STEP where it was stopped */
    int folder, file;
    int flushed, renamed, names_flushed; /* the new file's bytes are on the disk, as is its name */
    char calls[128];
};
static struct log *writer;

int __real_open(const char *path, int flags);
int __real_openat(int folder, const char *path, int flags, mode_t mode);
ssize_t __real_write(int descriptor, const void *bytes, size_t length);
int __real_fsync(int descriptor);
int __real_close(int descriptor);
int __real_renameat(int from_folder, const char *from, int to_folder, const char *to);
int __wrap_open(const char *path, int flags);
int __wrap_openat(int folder, const char *path, int flags, mode_t mode);
ssize_t __wrap_write(int descriptor, const void *bytes, size_t length);
int __wrap_fsync(int descriptor);
int __wrap_close(int descriptor);
int __wrap_renameat(int from_folder, const char *from, int to_folder, const char *to);

/* Whether the call at hand ends in this way. Stops the writer there, if that is what it means. */
static int ends(enum ending ending)
{
    int here = writer != NULL && writer->step == writer->ends_at && writer->ending == ending;
    if (here && ending <= AFTER) {
        _exit(0);
    }
    return here;
}

/* Counts the call. Whether it is to be made: else it fails. */
static int begins(const char *name)
{
    if (writer == NULL) {
        return 1;
    }
    writer->step++;
    strcat(strcat(writer->calls, name), " ");
    ends(BEFORE);
    errno = EIO;
    return !ends(FAILS);
}

int __wrap_open(const char *path, int flags)
{
    int opened = begins("open") ? __real_open(path, flags) : -1;
    if (writer != NULL) {
        writer->folder = opened;
    }
    ends(AFTER);
    return opened;
}

int __wrap_openat(int folder, const char *path, int flags, mode_t mode)
{
    int opened = begins("openat") ? __real_openat(folder, path, flags, mode) : -1;
    if (writer != NULL) {
        writer->file = opened;
    }
    ends(AFTER);
    return opened;
}

ssize_t __wrap_write(int descriptor, const void *bytes, size_t length)
{
    int goes_on = begins("write"), half = writer != NULL && writer->step == writer->ends_at &&
                                          (writer->ending == MIDDLE || writer->ending == SHORT);
    ssize_t written = goes_on ? __real_write(descriptor, bytes, half ? length / 2 : length) : -1;
    ends(MIDDLE);
    ends(AFTER);
    return written;
}

int __wrap_fsync(int descriptor)
{
    int result = begins("fsync") ? __real_fsync(descriptor) : -1;
    if (writer != NULL && result == 0) {
        writer->flushed |= descriptor == writer->file;
        writer->names_flushed |= descriptor == writer->folder && writer->renamed;
    }
    ends(AFTER);
    return result;
}

int __wrap_close(int descriptor)
{
    int goes_on = begins("close"), result = __real_close(descriptor);
    ends(AFTER);
    return goes_on ? result : -1;
}

int __wrap_renameat(int from_folder, const char *from, int to_folder, const char *to)
{
    int result = begins("renameat") ? __real_renameat(from_folder, from, to_folder, to) : -1;
    if (writer != NULL) {
        writer->renamed |= result == 0;
    }
    ends(AFTER);
    return result;
}

/* Saves in a child whose call at a step ends so. What it did is in the log. */
static void save_until(const char *folder, const struct state *state, int ends_at, enum ending ending)
{
    memset(writer, 0, sizeof *writer);
    *writer = (struct log){.step = -1, .ends_at = ends_at, .ending = ending, .result = NO_STEP};
    fflush(NULL);
    pid_t child = fork();
    need(child >= 0, "no second process");
    if (child == 0) {
        writer->result = save_state(folder, state);
        _exit(0);
    }
    waitpid(child, NULL, 0);
}

/* Outside of a save, the calls are the system's alone. */
static enum loaded load_quietly(const char *folder, struct state *state)
{
    struct log *log = writer;
    writer = NULL;
    enum loaded loaded = load_state(folder, state);
    writer = log;
    return loaded;
}

/* ---- files ---- */

struct bytes {
    uint8_t bytes[LONGEST_FILE];
    size_t length;
    int there;
};

static const char *path_of(const char *folder, const char *name)
{
    static char path[PATH_SIZE];
    snprintf(path, sizeof path, "%s/%s", folder, name);
    return path;
}

static void read_file(const char *folder, const char *name, struct bytes *bytes)
{
    FILE *file = fopen(path_of(folder, name), "rb");
    bytes->there = file != NULL;
    bytes->length = file == NULL ? 0 : fread(bytes->bytes, 1, sizeof bytes->bytes, file);
    if (file != NULL) {
        fclose(file);
    }
}

static void put_file(const char *folder, const char *name, const struct bytes *bytes)
{
    remove(path_of(folder, name));
    if (bytes->there) {
        FILE *file = fopen(path_of(folder, name), "wb");
        need(file != NULL && fwrite(bytes->bytes, 1, bytes->length, file) == bytes->length && fclose(file) == 0,
             "a file can't be written");
    }
}

static void use_folder(const char *folder)
{
    mkdir(folder, 0700);
    remove(path_of(folder, SAVED));
    remove(path_of(folder, BEING_SAVED));
}

/* ---- the states that are saved ---- */

static struct state old_state, new_state, loaded_state;

static void make_state(struct state *state, const char *name, uint64_t emission)
{
    haskumye_address own = {{0}};
    memcpy(own.bytes, name, strlen(name));
    need(haskumye_fresh(state->tables, sizeof state->tables, &own) == HASKUMYE_REFUSAL_NONE, "fresh tables");
    need(haskumye_set_port(state->tables, sizeof state->tables, 3, HASKUMYE_ON, HASKUMYE_MODE_ROAMING, 255) == 0,
         "a port");
    need(haskumye_add_local(state->tables, sizeof state->tables, &own) == HASKUMYE_REFUSAL_NONE, "a local address");
    state->tally = (haskumye_tally){.total = 0x01020304, .dropped = 5, .kept = (uint32_t)emission};
    state->last_emission = emission;
    strcpy(state->wires[3], "radio 4711");
}

static int is_state(const struct state *some, const struct state *other)
{
    return memcmp(some->tables, other->tables, sizeof some->tables) == 0 &&
           memcmp(&some->tally, &other->tally, sizeof some->tally) == 0 &&
           some->last_emission == other->last_emission &&
           memcmp(some->wires, other->wires, sizeof some->wires) == 0;
}

/* What may be there: the new state, the old one or, where there was none, nothing. */
static int is_old_or_new(enum loaded loaded, int had_old)
{
    if (loaded == NOTHING_SAVED) {
        return !had_old;
    }
    return loaded == LOADED &&
           (is_state(&loaded_state, &new_state) || (had_old && is_state(&loaded_state, &old_state)));
}

static int is_new(enum loaded loaded)
{
    return loaded == LOADED && is_state(&loaded_state, &new_state);
}

/* ---- a power cut ---- */

/* What a disk may hold of a file that was not flushed: as it was written, nothing, a part, or zeros for some of it. */
enum left { AS_WRITTEN, EMPTY, HALF, HALF_THEN_ZEROS, ZEROS, LEFT };
static const char *const left_words[LEFT] = {"as written", "empty", "half", "half, then zeros", "zeros"};

static void leave(struct bytes *file, enum left left)
{
    size_t kept = left == HALF || left == HALF_THEN_ZEROS ? file->length / 2 : 0;
    if (left == AS_WRITTEN) {
        return;
    }
    memset(file->bytes + kept, 0, file->length - kept);
    file->length = left == EMPTY || left == HALF ? kept : file->length;
}

/* A disk after a power cut: the names are those before the rename or those after it. */
static void expect_after_cut(const char *folder, const struct bytes *old, enum left left, int renamed)
{
    static struct bytes file;
    static const struct bytes none;
    char disk[PATH_SIZE];
    snprintf(disk, sizeof disk, "%s/disk", folder);
    use_folder(disk);
    read_file(folder, writer->renamed ? SAVED : BEING_SAVED, &file);
    leave(&file, left);
    put_file(disk, SAVED, renamed ? &file : old);
    put_file(disk, BEING_SAVED, renamed ? &none : &file);
    enum loaded loaded = load_quietly(disk, &loaded_state);
    expect(is_old_or_new(loaded, old->there), "after a power cut the old file or the new one is there", writer->step,
           left_words[left]);
    if (writer->result == 1) {
        expect(is_new(loaded), "what was saved is there after a power cut", writer->step, left_words[left]);
    }
}

/* Every disk that a power cut at this moment can leave. */
static void cut_power(const char *folder, const struct bytes *old)
{
    for (int left = 0; left < (writer->flushed ? AS_WRITTEN + 1 : LEFT); left++) {
        if (writer->renamed) {
            expect_after_cut(folder, old, (enum left)left, 1);
        }
        if (!writer->names_flushed) {
            expect_after_cut(folder, old, (enum left)left, 0);
        }
    }
}

/* ---- every step ---- */

/* Saves the new state over the old one, if there is one; the call at a step ends so. Whether there was such a step. */
static int try_step(const char *folder, int had_old, int step, enum ending ending)
{
    static struct bytes old;
    use_folder(folder);
    if (had_old) {
        save_until(folder, &old_state, NO_STEP, BEFORE);
    }
    read_file(folder, SAVED, &old);
    save_until(folder, &new_state, step, ending);
    if (writer->step < step) {
        return 0;
    }
    enum loaded loaded = load_quietly(folder, &loaded_state);
    expect(is_old_or_new(loaded, had_old), "the old file or the new one is there", step, ending_words[ending]);
    if (writer->result == 0) {
        expect(writer->renamed || !is_new(loaded), "a save that failed is not there", step, ending_words[ending]);
    }
    if (writer->result == 1) {
        expect(is_new(loaded), "what was saved is there", step, ending_words[ending]);
    }
    cut_power(folder, &old);
    save_until(folder, &new_state, NO_STEP, BEFORE); /* over what the stop left behind */
    loaded = load_quietly(folder, &loaded_state);
    expect(writer->result == 1 && is_new(loaded), "the next save", step, ending_words[ending]);
    return 1;
}

static void try_every_step(const char *folder, int had_old)
{
    for (int ending = 0; ending < ENDINGS; ending++) {
        int step = 0;
        while (try_step(folder, had_old, step, (enum ending)ending)) {
            step++;
        }
        expect(step >= 8, "every step was seen", step, ending_words[ending]);
    }
    save_until(folder, &new_state, NO_STEP, BEFORE);
    expect(strcmp(writer->calls, "open openat write fsync close renameat fsync close ") == 0,
           "the calls in their order", writer->step, writer->calls);
}

/* ---- files that lost bytes ---- */

static void expect_seen(const char *folder, const struct bytes *spoiled, const char *what, size_t at)
{
    put_file(folder, SAVED, spoiled);
    loaded_state = old_state;
    expect(load_quietly(folder, &loaded_state) == NOT_WHOLE, what, (int)at, "");
    expect(is_state(&loaded_state, &old_state), "the state stays", (int)at, what);
}

static void try_losses(const char *folder)
{
    static struct bytes whole, spoiled;
    use_folder(folder);
    save_until(folder, &new_state, NO_STEP, BEFORE);
    read_file(folder, SAVED, &whole);
    /* Closer behind the tables: of what is there the seal alone sees that it changed. */
    for (size_t at = 0; at < whole.length; at += at + 509 < HASKUMYE_TABLE_SIZE ? 509 : 17) {
        spoiled = whole;
        spoiled.length = at;
        expect_seen(folder, &spoiled, "a cut file is seen", at);
        spoiled.length = whole.length;
        memset(spoiled.bytes + at, 0, whole.length - at);
        expect_seen(folder, &spoiled, "a file cut and filled with zeros is seen", at);
        spoiled = whole;
        spoiled.bytes[at] ^= 1;
        expect_seen(folder, &spoiled, "a changed byte is seen", at);
    }
    spoiled = whole;
    spoiled.length = whole.length + 1;
    spoiled.bytes[whole.length] = 0;
    expect_seen(folder, &spoiled, "a byte more is seen", spoiled.length);
    spoiled.length = sizeof spoiled.bytes;
    expect_seen(folder, &spoiled, "the longest file is seen", spoiled.length);
}

/* A file that is whole, of another edition or kind, or with a body that no relay has. */
static void try_sealed(const char *folder, size_t at, uint8_t byte, enum loaded expected)
{
    static struct bytes file;
    haskumye_hash seal;
    use_folder(folder);
    save_until(folder, &new_state, NO_STEP, BEFORE);
    read_file(folder, SAVED, &file);
    file.bytes[at] = byte;
    need(seal_of(file.bytes, file.length - SEAL_SIZE, &seal), "a seal");
    memcpy(file.bytes + file.length - SEAL_SIZE, seal.bytes, SEAL_SIZE);
    put_file(folder, SAVED, &file);
    loaded_state = old_state;
    expect(load_quietly(folder, &loaded_state) == expected, "a whole file that is not taken", (int)at, "");
    expect(is_state(&loaded_state, &old_state), "the state stays", (int)at, "");
}

int main(int count, char **words)
{
    need(count == 2, "stopped FOLDER");
    need(haskumye_matches_header(), "a library of the header's version");
    writer = mmap(NULL, sizeof *writer, PROT_READ | PROT_WRITE, MAP_SHARED | MAP_ANONYMOUS, -1, 0);
    need(writer != MAP_FAILED, "no memory");
    make_state(&old_state, "box 7", 1);
    make_state(&new_state, "box 8", UINT64_C(0x0102030405060708));
    try_every_step(words[1], 1);
    try_every_step(words[1], 0);
    try_losses(words[1]);
    try_sealed(words[1], 1, 255, OTHER_EDITION);
    try_sealed(words[1], 0, 1, OTHER_EDITION);
    try_sealed(words[1], 89, 3, NOT_WHOLE); /* the mode of port 0 */
    use_folder(words[1]);
    save_until(words[1], &new_state, NO_STEP, BEFORE); /* for the same in Python */
    printf("%d passed, %d failed\n", passed, failed);
    return failed == 0 ? 0 : 1;
}
