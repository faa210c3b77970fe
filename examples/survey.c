/*
 * Surveys a site's recordings through the library, and prints what the program `survey` prints.
 * Usage: survey SETTINGS RECORDING.., each a file. SETTINGS is a saved relay.
 */
#include "haskumye.h"
#include <stdio.h>

/* One byte more than the longest file that a call takes, so that a longer one is refused. */
static uint8_t file[HASKUMYE_LONGEST_SAVED + 1];
static haskumye_tables start, work;
static haskumye_survey_counts counts;
static haskumye_survey_refusals refusals;

/* The length of a file's bytes, which stand at the start of `file`; 0 where it cannot be read. */
static size_t read_file(const char *name)
{
    FILE *from = fopen(name, "rb");
    if (from == NULL) {
        perror(name);
        return 0;
    }
    size_t length = fread(file, 1, sizeof file, from);
    fclose(from);
    return length;
}

int main(int argument_count, char **arguments)
{
    size_t length = argument_count > 1 ? read_file(arguments[1]) : 0;
    uint8_t refusal = haskumye_survey_begin(file, length, &start, &work, &counts, &refusals);
    if (refusal != HASKUMYE_REFUSAL_NONE) {
        printf("settings refused %u\n", refusal);
        return 1;
    }
    for (int i = 2; i < argument_count && refusal != HASKUMYE_REFUSAL_SURVEY_FULL; i++) {
        length = read_file(arguments[i]);
        refusal = haskumye_survey_recording(file, length, &start, &work, &counts, &refusals);
    }
    for (unsigned place = 0; place < HASKUMYE_SURVEY_LINES; place++) {
        haskumye_text line;
        haskumye_survey_line(&counts, &refusals, place, &line);
        fputs(line.bytes, stdout);
    }
    return 0;
}
