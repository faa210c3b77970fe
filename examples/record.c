/*
 * A relay box that records its day, and a maintainer who replays it: each answer is the one that was given.
 * Usage: record FOLDER, an empty one. The day's packets are made up here; a box with radios has them.
 */
#define _POSIX_C_SOURCE 200809L
#include "recorder.h"
#include <dirent.h>
#include <stdio.h>
#include <stdlib.h>
#include <string.h>

enum { DAY = 300, SHOWN = 3 };

static const haskumye_address own = {"box 7"}, desk = {"the desk"};

static struct recorder recorder;
static haskumye_answer answers[DAY];

static void expect(int holds, const char *what)
{
    if (!holds) {
        fprintf(stderr, "failed: %s\n", what);
        exit(1);
    }
}

/* The tables that the day starts with: a recording says what came in, so a replay starts from the same. */
static void set_up(uint8_t tables[HASKUMYE_TABLE_SIZE])
{
    expect(haskumye_fresh(tables, HASKUMYE_TABLE_SIZE, &own) == HASKUMYE_REFUSAL_NONE, "fresh tables");
    expect(haskumye_set_port(tables, HASKUMYE_TABLE_SIZE, 3, HASKUMYE_ON, HASKUMYE_MODE_ROAMING,
                             HASKUMYE_LONGEST_PACKET) == 0, "a port");
    expect(haskumye_add_local(tables, HASKUMYE_TABLE_SIZE, &desk) == HASKUMYE_REFUSAL_NONE, "a local address");
}

/* Counts for the desk, every third of them again, which is a duplicate; and now and then noise. */
static size_t next_packet(unsigned number, uint8_t packet[HASKUMYE_OUTPUT_SIZE])
{
    const haskumye_parts parts = {.header = HASKUMYE_PACKET_DATA, .destination = desk};
    char text[401];
    snprintf(text, sizeof text, "%-400u", number - number % 3 / 2);
    haskumye_written written =
        haskumye_write(&parts, (const uint8_t *)text, strlen(text), packet, HASKUMYE_OUTPUT_SIZE);
    expect(HASKUMYE_WRITTEN_REFUSAL(written) == HASKUMYE_REFUSAL_NONE, "writing a packet");
    return number % 50 == 49 ? 7 : HASKUMYE_WRITTEN_LENGTH(written);
}

static void live_through_the_day(void)
{
    static uint8_t tables[HASKUMYE_TABLE_SIZE], packet[HASKUMYE_OUTPUT_SIZE], output[HASKUMYE_OUTPUT_SIZE];
    haskumye_tally tally = {0};
    set_up(tables);
    for (unsigned i = 0; i < DAY; i++) {
        uint64_t clock = 1000 + 60 * (uint64_t)i;
        size_t length = next_packet(i, packet);
        expect(record_packet(&recorder, packet, length, 3, clock, 0), "recording a packet");
        answers[i] = haskumye_packet(packet, length, 3, clock, 0, tables, sizeof tables, output, sizeof output, &tally);
    }
    expect(record_file(&recorder), "recording the end of the day");
}

/* Replays a file from these tables on. How many entries it has. */
static unsigned replay(const uint8_t *file, size_t length, unsigned before, uint8_t *tables, haskumye_tally *tally)
{
    size_t count = haskumye_recording_count(file, length);
    expect(haskumye_check_recording(file, length) == HASKUMYE_REFUSAL_NONE, "a recording");
    for (size_t i = 0; i < count; i++) {
        haskumye_text line;
        haskumye_answer answer = haskumye_replay_entry(file, length, i, tables, HASKUMYE_TABLE_SIZE, tally, &line);
        expect(answer == answers[before + i], "the answer that was given");
        if (i < SHOWN) {
            printf("  %s", line.bytes);
        }
    }
    return (unsigned)count;
}

static size_t read_file(const char *name, uint8_t bytes[HASKUMYE_RECORDING_SIZE + 1])
{
    char path[4096];
    snprintf(path, sizeof path, "%s/%s", recorder.folder, name);
    FILE *file = fopen(path, "rb");
    expect(file != NULL, path);
    size_t length = fread(bytes, 1, HASKUMYE_RECORDING_SIZE + 1, file);
    fclose(file);
    return length;
}

static int is_recording(const struct dirent *entry)
{
    return strncmp(entry->d_name, "recording-", 10) == 0;
}

/* Names in order are files in order of time. */
static void replay_the_day(void)
{
    static uint8_t tables[HASKUMYE_TABLE_SIZE], bytes[HASKUMYE_RECORDING_SIZE + 1];
    struct dirent **names;
    haskumye_tally tally = {0};
    unsigned replayed = 0;
    int files = scandir(recorder.folder, &names, is_recording, alphasort);
    expect(files == (int)recorder.files, "an empty folder before");
    set_up(tables);
    for (int i = 0; i < files; i++) {
        size_t length = read_file(names[i]->d_name, bytes);
        printf("%s, %zu bytes\n", names[i]->d_name, length);
        replayed += replay(bytes, length, replayed, tables, &tally);
        free(names[i]);
    }
    free(names);
    expect(replayed == DAY, "all packets of the day");
    printf("%u answers, as they were given\n", replayed);
}

int main(int count, char **words)
{
    expect(haskumye_matches_header(), "a library of the header's version");
    expect(count == 2, "record FOLDER");
    recorder.folder = words[1];
    live_through_the_day();
    replay_the_day();
    return 0;
}
