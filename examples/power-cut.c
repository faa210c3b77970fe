/*
 * What the library's load sees of a saved relay that lost bytes, and what the seal of state.c sees.
 * Usage: power-cut FOLDER, an empty one.
 */
#include "state.h"
#include <stdio.h>
#include <stdlib.h>
#include <string.h>

enum { BEHIND = 8 + 256 + 32, FILE_SIZE = HASKUMYE_SAVED_SIZE + BEHIND }; /* the box's own and the seal */

static struct state state;

static void expect(int holds, const char *what)
{
    if (!holds) {
        fprintf(stderr, "failed: %s\n", what);
        exit(1);
    }
}

static void make_state(void)
{
    static const haskumye_address own = {"box 7"}, desk = {"the desk"};
    uint8_t *tables = state.tables;
    expect(haskumye_fresh(tables, HASKUMYE_TABLE_SIZE, &own) == HASKUMYE_REFUSAL_NONE, "fresh tables");
    expect(haskumye_set_port(tables, HASKUMYE_TABLE_SIZE, 3, HASKUMYE_ON, HASKUMYE_MODE_ROAMING,
                             HASKUMYE_LONGEST_PACKET) == 0, "a port");
    expect(haskumye_add_local(tables, HASKUMYE_TABLE_SIZE, &desk) == HASKUMYE_REFUSAL_NONE, "a local address");
    strcpy(state.wires[3], "radio 4711");
}

/* Bytes of the file become zeros. Returns the refusal that the library gives of the saved part then. */
static unsigned lose(const char *folder, size_t from, size_t to)
{
    static uint8_t bytes[FILE_SIZE], tables[HASKUMYE_TABLE_SIZE];
    haskumye_tally tally;
    char path[4096];
    snprintf(path, sizeof path, "%s/relay.saved", folder);
    FILE *file = fopen(path, "r+b");
    expect(file != NULL && fread(bytes, 1, FILE_SIZE, file) == FILE_SIZE, "reading the file");
    memset(bytes + from, 0, to - from);
    rewind(file);
    expect(fwrite(bytes, 1, FILE_SIZE, file) == FILE_SIZE && fclose(file) == 0, "writing the file");
    return haskumye_load(bytes, HASKUMYE_SAVED_SIZE, tables, sizeof tables, &tally);
}

static void show(const char *folder, const char *what, size_t from, size_t to)
{
    static const char *const words[] = {"loaded", "nothing saved", "not whole", "other edition"};
    static struct state loaded;
    expect(save_state(folder, &state), "saving");
    unsigned refusal = lose(folder, from, to);
    printf("%-42s  haskumye_load: %2u  load_state: %s\n", what, refusal, words[load_state(folder, &loaded)]);
}

int main(int count, char **words)
{
    expect(count == 2, "power-cut FOLDER");
    expect(haskumye_matches_header(), "a library of the header's version");
    make_state();
    show(words[1], "nothing lost", 0, 0);
    show(words[1], "zeros alone", 0, FILE_SIZE);
    show(words[1], "cut before the ports, then zeros", 88, FILE_SIZE);
    show(words[1], "cut before the local addresses, then zeros", 152, FILE_SIZE);
    show(words[1], "one byte of a local address", 153, 154);
    show(words[1], "the mark of a port, so that it is off", 100, 101);
    return 0;
}
