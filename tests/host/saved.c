#include "saved.h"

#include "check.h"
#include "haskumye.h"
#include "library.h"

#include <string.h>

/* The file as docs/LAYOUT.md has it: head, eight entries of offset and length, then the bodies. */
enum {
    ENTRIES = 8,
    ENTRY_WIDTH = 6,
    CONTENTS = 4 + ENTRY_WIDTH * ENTRIES,
    TALLY_AT = CONTENTS + HASKUMYE_TABLE_SIZE,
    FILL = 0xee
};

static const size_t lengths[ENTRIES] = {36, 64, 272, 44928, 1920, 13826, 41986, 24};

/* What older editions lack: the announce rate behind the last clock, each port's size, and in each path what is kept of
   its announces, its mark, and all blob places but sixteen. */
enum {
    RATE_AT = 24,
    RATE_WIDTH = 12,
    PORTS_AT = RATE_AT + RATE_WIDTH,
    PORT_WIDTH = 4,
    SIZE_AT = 2,
    PATHS_AT = 372,
    PATH_WIDTH = 702,
    EXPIRY_AT = 35,
    LAST_ANNOUNCE_AT = 43,
    UNRESPONSIVE_AT = 60,
    BLOB_COUNT_AT = 61,
    MORE_BLOBS_AT = 222,
    EDITION = 5
};

/* How many bytes of a buffer are this one, from a place on. */
static size_t run(struct buffer buffer, size_t at)
{
    size_t end = at;
    while (end < buffer.length && buffer.bytes[end] == FILL) {
        end++;
    }
    return end - at;
}

static uint64_t number_at(const uint8_t *bytes, size_t width)
{
    uint64_t number = 0;
    for (size_t i = 0; i < width; i++) {
        number = number << 8 | bytes[i];
    }
    return number;
}

static void put_number(uint8_t *bytes, size_t width, uint64_t number)
{
    for (size_t i = 0; i < width; i++) {
        bytes[i] = (uint8_t)(number >> (8 * (width - 1 - i)));
    }
}

static bool same(const uint8_t *some, const uint8_t *others, size_t length)
{
    return length == 0 || memcmp(some, others, length) == 0;
}

/* The tally that a file has at its end is this one. */
static void expect_tally(const uint8_t *file, struct buffer tally)
{
    for (size_t i = 0; i < sizeof(haskumye_tally) / 4; i++) {
        uint32_t count;
        memcpy(&count, tally.bytes + 4 * i, 4);
        expect("a saved count", number_at(file + TALLY_AT + 4 * i, 4), count);
    }
}

static void expect_contents(const uint8_t *file)
{
    size_t place = CONTENTS;
    expect("kind, edition and count", number_at(file, 4), 0x02000008 | EDITION << 16);
    for (size_t i = 0; i < ENTRIES; i++) {
        expect("an offset", number_at(file + 4 + ENTRY_WIDTH * i, 4), place);
        expect("a length", number_at(file + 8 + ENTRY_WIDTH * i, 2), lengths[i]);
        place += lengths[i];
    }
    expect("the file's end", place, HASKUMYE_SAVED_SIZE);
}

/* Loads a file over tables of a size. Where it is refused, tables and tally stay; else both are the file's. */
static void expect_load(const char *what, struct buffer file, size_t size, uint64_t refusal)
{
    struct use use = {.input = file, .tables = buffer_new(size, FILL),
                      .tally = buffer_new(sizeof(haskumye_tally), FILL)};
    expect(what, library_call(LOAD_TABLES, &use), refusal);
    if (refusal == HASKUMYE_REFUSAL_NONE) {
        expect("loaded tables", same(use.tables.bytes, file.bytes + CONTENTS, size), 1);
        expect("a check of loaded tables", library_call(CHECK, &use), 0);
        expect_tally(file.bytes, use.tally);
    } else {
        expect("tables that stay", run(use.tables, 0), size);
        expect("a tally that stays", run(use.tally, 0), use.tally.length);
    }
    buffer_free(&use.tables);
    buffer_free(&use.tally);
}

/* Saves into a room of this size, and expects this refusal. The buffer is the file, empty where there is none. */
static struct buffer save(struct buffer tables, struct buffer tally, size_t room, uint64_t refusal)
{
    struct use use = {.tables = buffer_copy(tables.bytes, tables.length),
                      .tally = buffer_copy(tally.bytes, tally.length),
                      .output = buffer_new(room, FILL)};
    size_t length = refusal == HASKUMYE_REFUSAL_NONE ? HASKUMYE_SAVED_SIZE : 0;
    expect("saving", library_call(SAVE_TABLES, &use), (uint64_t)length << 16 | refusal);
    expect("room behind a saved file", run(use.output, length), room - length);
    expect("saved tables stay", same(use.tables.bytes, tables.bytes, tables.length), 1);
    expect("a saved tally stays", same(use.tally.bytes, tally.bytes, tally.length), 1);
    struct buffer file = buffer_copy(use.output.bytes, length);
    buffer_free(&use.tables);
    buffer_free(&use.tally);
    buffer_free(&use.output);
    return file;
}

void saved_try(struct buffer tables, struct buffer tally)
{
    struct use use = {.tables = tables};
    uint64_t refusal = library_call(CHECK, &use);
    struct buffer file = save(tables, tally, HASKUMYE_SAVED_SIZE, refusal);
    if (refusal == HASKUMYE_REFUSAL_NONE) {
        expect_contents(file.bytes);
        expect("the tables in a file", same(file.bytes + CONTENTS, tables.bytes, tables.length), 1);
        expect_tally(file.bytes, tally);
        expect_load("loading", file, HASKUMYE_TABLE_SIZE, 0);
    }
    buffer_free(&file);
}

/* A path that is used, marked, and holds a blob; its spare places hold bytes too. */
static void put_path(uint8_t *path)
{
    for (uint8_t i = 0; i < EXPIRY_AT; i++) {
        path[i] = (uint8_t)(1 + i % 15);
    }
    put_number(path + EXPIRY_AT, 8, 0x102030405);
    put_number(path + LAST_ANNOUNCE_AT, 8, 0x504030201);
    path[LAST_ANNOUNCE_AT + 8] = 6;
    put_number(path + LAST_ANNOUNCE_AT + 9, 8, 0x607080900);
    put_number(path + UNRESPONSIVE_AT, 2, 0x0101);
    for (size_t i = BLOB_COUNT_AT + 1; i < PATH_WIDTH; i++) {
        path[i] = (uint8_t)(1 + i % 251);
    }
}

/* Tables that are no fresh relay's: every byte of the own address and of the tally is another. */
static struct buffer make_tables(struct buffer *tally)
{
    struct use use = {.input = buffer_new(16, 0), .tables = buffer_new(HASKUMYE_TABLE_SIZE, 0), .port = 9, .byte = 1,
                      .mode = 2, .size = 255, .target = 0x10203, .grace = 0xfd, .penalty = 0x90807};
    for (uint8_t i = 0; i < 16; i++) {
        use.input.bytes[i] = (uint8_t)(0xa0 + i);
    }
    expect("fresh", library_call(FRESH, &use), 0);
    expect("set port", library_call(SET_PORT, &use), 0);
    expect("set announce rate", library_call(SET_ANNOUNCE_RATE, &use), 0);
    expect("add local", library_call(ADD_LOCAL, &use), 0);
    put_path(use.tables.bytes + PATHS_AT);
    *tally = buffer_new(sizeof(haskumye_tally), 0);
    for (uint8_t i = 0; i < tally->length; i++) {
        tally->bytes[i] = (uint8_t)(1 + i);
    }
    buffer_free(&use.input);
    return use.tables;
}

static void try_rooms(struct buffer tables, struct buffer tally)
{
    static const size_t rooms[] = {0, 1, 3, 4, CONTENTS, HASKUMYE_TABLE_SIZE, HASKUMYE_SAVED_SIZE - 1,
                                   HASKUMYE_SAVED_SIZE, HASKUMYE_SAVED_SIZE + 1, HASKUMYE_SAVED_SIZE + 70000};
    struct buffer lacking = {tables.bytes, tables.length - 1};
    for (size_t i = 0; i < sizeof rooms / sizeof rooms[0]; i++) {
        uint64_t refusal = rooms[i] < HASKUMYE_SAVED_SIZE ? HASKUMYE_REFUSAL_ROOM : 0;
        struct buffer file = save(tables, tally, rooms[i], refusal);
        buffer_free(&file);
        file = save(lacking, tally, rooms[i], HASKUMYE_REFUSAL_TABLES); /* 7 comes before 25 */
        buffer_free(&file);
    }
}

/* A load of a copy of the file's first bytes, and zeros behind them, over tables of odd sizes: 25 comes last. */
static void load_resized(struct buffer file, size_t length, uint64_t refusal)
{
    static const size_t sizes[] = {0, HASKUMYE_TABLE_SIZE - 1, HASKUMYE_TABLE_SIZE, HASKUMYE_TABLE_SIZE + 1};
    struct buffer resized = buffer_new(length, 0);
    if (length > 0) {
        memcpy(resized.bytes, file.bytes, length < file.length ? length : file.length);
    }
    for (size_t i = 0; i < sizeof sizes / sizeof sizes[0]; i++) {
        uint64_t size_refusal = sizes[i] == HASKUMYE_TABLE_SIZE ? 0 : HASKUMYE_REFUSAL_ROOM;
        expect_load("a file of some length", resized, sizes[i], refusal != 0 ? refusal : size_refusal);
    }
    buffer_free(&resized);
}

/* The same with one number of the file changed. */
static void load_changed(struct buffer file, size_t at, size_t width, uint64_t number, uint64_t refusal)
{
    uint64_t was = number_at(file.bytes + at, width);
    put_number(file.bytes + at, width, number);
    load_resized(file, file.length, refusal);
    put_number(file.bytes + at, width, was);
}

static void try_heads(struct buffer file)
{
    static const uint8_t editions[] = {0, EDITION + 1, 128, 255};
    load_changed(file, 0, 1, 1, HASKUMYE_REFUSAL_FILE_KIND);
    load_changed(file, 0, 1, 0, HASKUMYE_REFUSAL_FILE_KIND);
    for (size_t i = 0; i < sizeof editions; i++) {
        load_changed(file, 1, 1, editions[i], HASKUMYE_REFUSAL_FILE_KIND);
    }
    for (uint8_t older = 1; older < EDITION; older++) {
        load_changed(file, 1, 1, older, HASKUMYE_REFUSAL_FILE_BODY); /* longer bodies than it has */
    }
    load_changed(file, 2, 2, ENTRIES - 1, HASKUMYE_REFUSAL_FILE_LENGTH);
    load_changed(file, 2, 2, 0, HASKUMYE_REFUSAL_FILE_LENGTH);
    load_changed(file, 2, 2, 0xffff, HASKUMYE_REFUSAL_FILE_LENGTH);
    /* A count that adds up: of no entries, and of seven, in a file that lacks an entry and the tally. */
    static uint8_t empty[] = {2, EDITION, 0, 0};
    expect_load("a file of no entries", (struct buffer){empty, sizeof empty}, 0, HASKUMYE_REFUSAL_FILE_PLACE);
    put_number(file.bytes + 2, 2, ENTRIES - 1);
    load_resized(file, file.length - ENTRY_WIDTH - lengths[ENTRIES - 1], HASKUMYE_REFUSAL_FILE_PLACE);
    put_number(file.bytes + 2, 2, ENTRIES);
}

/* Each entry: another offset, another length that adds up no more, and one that does since the next body gives way. */
static void try_entries(struct buffer file)
{
    for (size_t i = 0; i < ENTRIES; i++) {
        size_t at = 4 + ENTRY_WIDTH * i, other = (i + 1) % ENTRIES, other_at = 4 + ENTRY_WIDTH * other;
        uint64_t offset = number_at(file.bytes + at, 4);
        load_changed(file, at, 4, offset + 1, HASKUMYE_REFUSAL_FILE_PLACE);
        load_changed(file, at, 4, number_at(file.bytes + other_at, 4), HASKUMYE_REFUSAL_FILE_PLACE);
        load_changed(file, at + 4, 2, lengths[i] - 1, HASKUMYE_REFUSAL_FILE_LENGTH);
        load_changed(file, at + 4, 2, lengths[i] + 1, HASKUMYE_REFUSAL_FILE_LENGTH);
        if (other > 0) {
            put_number(file.bytes + at + 4, 2, lengths[i] - 1);
            put_number(file.bytes + other_at + 4, 2, lengths[other] + 1);
            load_resized(file, file.length, HASKUMYE_REFUSAL_FILE_PLACE); /* the next offset is no longer right */
            load_changed(file, other_at, 4, number_at(file.bytes + other_at, 4) - 1, HASKUMYE_REFUSAL_FILE_BODY);
            put_number(file.bytes + at + 4, 2, lengths[i]);
            put_number(file.bytes + other_at + 4, 2, lengths[other]);
        }
    }
}

/* A byte of each body that breaks a clause of refusal 7; the own address and the tally may be any bytes. */
static void try_bodies(struct buffer file)
{
    static const struct {
        size_t at, width;
        uint64_t number, refusal;
    } changes[] = {
        {CONTENTS, 8, UINT64_MAX, 0},                                     /* own address */
        {CONTENTS + 16, 8, UINT64_C(1099511627776) + 604799, 0},          /* last clock */
        {CONTENTS + 16, 8, UINT64_C(1099511627776) + 604800, HASKUMYE_REFUSAL_FILE_BODY},
        {CONTENTS + RATE_AT, 4, HASKUMYE_TARGET_LIMIT, 0},                /* the announce rate */
        {CONTENTS + RATE_AT, 4, HASKUMYE_TARGET_LIMIT + 1, HASKUMYE_REFUSAL_FILE_BODY},
        {CONTENTS + RATE_AT + 4, 4, HASKUMYE_GRACE_LIMIT + 1, HASKUMYE_REFUSAL_FILE_BODY},
        {CONTENTS + RATE_AT + 8, 4, HASKUMYE_PENALTY_LIMIT + 1, HASKUMYE_REFUSAL_FILE_BODY},
        {88, 1, 2, HASKUMYE_REFUSAL_FILE_BODY},                           /* port 0's mark */
        {89, 1, 3, HASKUMYE_REFUSAL_FILE_BODY},                           /* its mode */
        {90, 2, 19, 0},                                                   /* its size */
        {90, 2, 18, HASKUMYE_REFUSAL_FILE_BODY},
        {90, 2, 501, HASKUMYE_REFUSAL_FILE_BODY},
        {152 - 2, 2, 0, HASKUMYE_REFUSAL_FILE_BODY},                      /* that of port 15, which is off */
        {152 + 17, 1, 2, HASKUMYE_REFUSAL_FILE_BODY},                     /* the mark of local address 1 */
        {152 + 18, 1, 1, HASKUMYE_REFUSAL_FILE_BODY},                     /* a byte of it, which is unused */
        {424, 1, 2, HASKUMYE_REFUSAL_FILE_BODY},                          /* paths */
        {424 + UNRESPONSIVE_AT, 1, 0, 0},                                 /* whether one is marked */
        {424 + UNRESPONSIVE_AT, 1, 2, HASKUMYE_REFUSAL_FILE_BODY},
        {424 + UNRESPONSIVE_AT, 1, 255, HASKUMYE_REFUSAL_FILE_BODY},
        {424 + BLOB_COUNT_AT, 1, 0, HASKUMYE_REFUSAL_FILE_BODY},          /* how many blobs it holds */
        {424 + BLOB_COUNT_AT, 1, 17, 0},
        {424 + BLOB_COUNT_AT, 1, 64, 0},
        {424 + BLOB_COUNT_AT, 1, 65, HASKUMYE_REFUSAL_FILE_BODY},
        {45352 - 1, 1, 1, HASKUMYE_REFUSAL_FILE_BODY},
        {45352, 1, 2, HASKUMYE_REFUSAL_FILE_BODY},                        /* links */
        {47272 - 1, 1, 1, HASKUMYE_REFUSAL_FILE_BODY},
        {47272, 2, HASKUMYE_RETURN_COUNT - 1, 0},                         /* the ring place of return records */
        {47272, 2, HASKUMYE_RETURN_COUNT, HASKUMYE_REFUSAL_FILE_BODY},
        {61098 - 1, 1, 1, HASKUMYE_REFUSAL_FILE_BODY},
        {61098, 2, HASKUMYE_HASH_COUNT - 1, 0},                           /* that of hashes */
        {61098, 2, HASKUMYE_HASH_COUNT, HASKUMYE_REFUSAL_FILE_BODY},
        {TALLY_AT - 1, 1, 1, HASKUMYE_REFUSAL_FILE_BODY},
        {TALLY_AT, 8, UINT64_MAX, 0},
    };
    for (size_t i = 0; i < sizeof changes / sizeof changes[0]; i++) {
        load_changed(file, changes[i].at, changes[i].width, changes[i].number, changes[i].refusal);
    }
}

/* Whether a byte of the tables is one of a port's size. */
static bool is_size(size_t place)
{
    return place >= PORTS_AT && place < PORTS_AT + HASKUMYE_PORT_COUNT * PORT_WIDTH &&
           (place - PORTS_AT) % PORT_WIDTH >= SIZE_AT;
}

/* The edition that brought a byte of the tables. */
static uint8_t brought_by(size_t place)
{
    if (place >= RATE_AT && place < RATE_AT + RATE_WIDTH) {
        return 2;
    }
    if (is_size(place)) {
        return 5;
    }
    if (place < PATHS_AT || place >= PATHS_AT + HASKUMYE_PATH_COUNT * PATH_WIDTH) {
        return 1;
    }
    size_t at = (place - PATHS_AT) % PATH_WIDTH;
    if (at >= MORE_BLOBS_AT) {
        return 4;
    }
    return at == UNRESPONSIVE_AT ? 3 : at >= LAST_ANNOUNCE_AT && at < UNRESPONSIVE_AT ? 2 : 1;
}

/* Where a byte of the tables stands in an edition's file. */
static size_t place_in(uint8_t edition, size_t place)
{
    size_t at = CONTENTS;
    for (size_t i = 0; i < place; i++) {
        at += brought_by(i) <= edition;
    }
    return at;
}

/* The head and the contents of the same relay's file in an older edition. Returns the file's size. */
static size_t put_old_contents(const uint8_t *file, uint8_t *old, uint8_t edition)
{
    size_t place = CONTENTS, section = 0;
    memcpy(old, file, CONTENTS);
    old[1] = edition;
    for (size_t i = 0; i < ENTRIES; i++) {
        size_t length = 0;
        for (size_t at = section; at < section + lengths[i]; at++) {
            length += brought_by(at) <= edition;
        }
        put_number(old + 4 + ENTRY_WIDTH * i, 4, place);
        put_number(old + 8 + ENTRY_WIDTH * i, 2, length);
        place += length;
        section += lengths[i];
    }
    return place;
}

/* What a load makes of a byte that an edition lacks: of a port's size 500, else 0. */
static uint8_t unsaved(size_t place)
{
    static const uint8_t longest[] = {HASKUMYE_LONGEST_PACKET / 256, HASKUMYE_LONGEST_PACKET % 256};
    return is_size(place) ? longest[(place - PORTS_AT) % PORT_WIDTH - SIZE_AT] : 0;
}

/* The bodies, and the tables that a load makes of them. */
static void put_old_bodies(const uint8_t *file, uint8_t *old, uint8_t *tables, uint8_t edition)
{
    size_t end = CONTENTS;
    for (size_t i = 0; i < HASKUMYE_TABLE_SIZE; i++) {
        bool there = brought_by(i) <= edition;
        tables[i] = there ? file[CONTENTS + i] : unsaved(i);
        if (there) {
            old[end++] = tables[i];
        }
    }
    memcpy(old + end, file + TALLY_AT, sizeof(haskumye_tally));
}

/* A path of editions 1 to 3 holds one to sixteen blobs, later ones up to 64. */
static void try_counts(struct use *use, uint8_t edition)
{
    static const uint8_t counts[] = {0, 1, 16, 17, 64, 65, 255};
    uint8_t *count = use->input.bytes + place_in(edition, PATHS_AT + BLOB_COUNT_AT), was = *count;
    uint8_t most = edition < 4 ? 16 : 64;
    for (size_t i = 0; i < sizeof counts; i++) {
        *count = counts[i];
        expect("its blobs", library_call(LOAD_TABLES, use),
               counts[i] >= 1 && counts[i] <= most ? 0 : HASKUMYE_REFUSAL_FILE_BODY);
    }
    *count = was;
}

static void try_older(struct buffer file, uint8_t edition)
{
    static uint8_t old[HASKUMYE_SAVED_SIZE];
    size_t size = put_old_contents(file.bytes, old, edition);
    struct use use = {.tables = buffer_new(HASKUMYE_TABLE_SIZE, FILL),
                      .tally = buffer_new(sizeof(haskumye_tally), FILL)};
    struct buffer expected = buffer_new(HASKUMYE_TABLE_SIZE, FILL);
    put_old_bodies(file.bytes, old, expected.bytes, edition);
    use.input = buffer_copy(old, size);
    expect("loading an older edition", library_call(LOAD_TABLES, &use), 0);
    expect("its tables", same(use.tables.bytes, expected.bytes, HASKUMYE_TABLE_SIZE), 1);
    expect_tally(file.bytes, use.tally);
    try_counts(&use, edition);
    for (uint8_t other = 1; other <= EDITION; other++) {
        use.input.bytes[1] = other;
        expect("its bodies in another edition", library_call(LOAD_TABLES, &use),
               other == edition ? 0 : HASKUMYE_REFUSAL_FILE_BODY);
    }
    buffer_free(&use.input);
    buffer_free(&use.tables);
    buffer_free(&use.tally);
    buffer_free(&expected);
}

void saved_try_odd(void)
{
    struct buffer tally, tables = make_tables(&tally);
    saved_try(tables, tally);
    try_rooms(tables, tally);
    struct buffer file = save(tables, tally, HASKUMYE_SAVED_SIZE, 0);
    load_resized(file, file.length, 0);
    for (size_t length = 0; length <= CONTENTS; length++) {
        load_resized(file, length, HASKUMYE_REFUSAL_FILE_LENGTH);
    }
    load_resized(file, file.length - 1, HASKUMYE_REFUSAL_FILE_LENGTH);
    load_resized(file, file.length + 1, HASKUMYE_REFUSAL_FILE_LENGTH);
    load_resized(file, HASKUMYE_LONGEST_SAVED + 1, HASKUMYE_REFUSAL_FILE_LENGTH);
    try_heads(file);
    try_entries(file);
    try_bodies(file);
    for (uint8_t older = 1; older < EDITION; older++) {
        try_older(file, older);
    }
    expect("the size of a saved file", library_call(SAVED_SIZE, &(struct use){0}), HASKUMYE_SAVED_SIZE);
    buffer_free(&file);
    buffer_free(&tables);
    buffer_free(&tally);
}
