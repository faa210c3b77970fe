/*
 * The header in C and in C++: it compiles without a warning, its accessors give the fields of an answer, and every call
 * takes NULL where the length is 0. With NARROW, WRITTEN, WIDE, SHORT or IGNORED it does not compile. The last line is
 * `N passed, M failed`. `header words` prints the words of every number, as bindings/words has them.
 */
#include "haskumye.h"
#include <stdio.h>
#include <string.h>

static int passed, failed;

static void check(int holds, const char *what)
{
    if (holds) {
        passed++;
    } else {
        failed++;
        printf("does not hold: %s\n", what);
    }
}

#define CHECK(condition) check((condition) ? 1 : 0, #condition)

static void check_accessors(void)
{
    const haskumye_answer refused = UINT64_C(0x0b00), drop = UINT64_C(0x0d01), forward = UINT64_C(0x0013000f0003),
                          spread = UINT64_C(0x01f480010004), deliver = UINT64_C(0x0023000000000002);
    CHECK(HASKUMYE_ANSWER_KIND(refused) == HASKUMYE_REFUSED);
    CHECK(HASKUMYE_ANSWER_REFUSAL(refused) == HASKUMYE_REFUSAL_LOCAL_ADDRESS);
    CHECK(HASKUMYE_ANSWER_KIND(drop) == HASKUMYE_DROP);
    CHECK(HASKUMYE_ANSWER_REASON(drop) == HASKUMYE_REASON_NO_ROOM);
    CHECK(HASKUMYE_ANSWER_KIND(forward) == HASKUMYE_FORWARD);
    CHECK(HASKUMYE_ANSWER_PORT(forward) == 15 && HASKUMYE_ANSWER_LENGTH(forward) == 19);
    CHECK(HASKUMYE_ANSWER_KIND(spread) == HASKUMYE_SPREAD && HASKUMYE_ANSWER_LENGTH(spread) == 500);
    CHECK(HASKUMYE_ANSWER_PORTS(spread) == 0x8001);
    CHECK(HASKUMYE_ANSWER_HAS_PORT(spread, 0) && !HASKUMYE_ANSWER_HAS_PORT(spread, 1));
    CHECK(HASKUMYE_ANSWER_HAS_PORT(spread, 15));
    CHECK(HASKUMYE_ANSWER_KIND(deliver) == HASKUMYE_DELIVER && HASKUMYE_ANSWER_PAYLOAD(deliver) == 35);
    CHECK(HASKUMYE_ANSWER_PORT(spread) == HASKUMYE_NO_PORT && HASKUMYE_ANSWER_PORT(deliver) == HASKUMYE_NO_PORT);
    CHECK(HASKUMYE_ANSWER_PORTS(forward) == 0 && !HASKUMYE_ANSWER_HAS_PORT(forward, 0));
    haskumye_answer next = drop;
    CHECK(HASKUMYE_ANSWER_KIND(next++) == HASKUMYE_DROP && next == drop + 1); /* evaluated once */
    next = forward;
    CHECK(HASKUMYE_ANSWER_PORT(next++) == 15 && next == forward + 1);
    CHECK(HASKUMYE_ANSWER_LENGTH(deliver) == 0 && HASKUMYE_ANSWER_PAYLOAD(forward) == 0);
    CHECK(HASKUMYE_WRITTEN_REFUSAL(6) == HASKUMYE_REFUSAL_OUTPUT && HASKUMYE_WRITTEN_LENGTH(19u << 16) == 19);
    const haskumye_saved saved = UINT64_C(103108) << 16, not_saved = HASKUMYE_REFUSAL_ROOM;
    CHECK(HASKUMYE_SAVED_REFUSAL(saved) == HASKUMYE_REFUSAL_NONE && HASKUMYE_SAVED_LENGTH(saved) == 103108);
    CHECK(HASKUMYE_SAVED_REFUSAL(not_saved) == HASKUMYE_REFUSAL_ROOM && HASKUMYE_SAVED_LENGTH(not_saved) == 0);
}

/* Clause, value and sentence of a drop: 6.3 with the greatest value that fits, and 3.4; and of what is none. */
static void check_reasons(void)
{
    static haskumye_text text;
    const uint64_t greatest = (UINT64_C(1) << 41) - 1;
    const haskumye_answer expired = greatest << 20 | 0x30601, kept = 5, refused = UINT64_C(0x0700);
    const haskumye_answer cut = UINT64_C(148) << 20 | 0x40301;
    CHECK(HASKUMYE_ANSWER_REASON(expired) == HASKUMYE_REASON_NO_WAY_ON);
    CHECK(HASKUMYE_ANSWER_CLAUSE(expired) == HASKUMYE_NO_WAY_ON_ONLY_EXPIRED);
    CHECK(HASKUMYE_ANSWER_VALUE(expired) == greatest);
    CHECK(HASKUMYE_ANSWER_CLAUSE(cut) == HASKUMYE_BAD_FORM_ANNOUNCE_TOO_SHORT && HASKUMYE_ANSWER_VALUE(cut) == 148);
    CHECK(HASKUMYE_ANSWER_LENGTH(expired) == 0 && HASKUMYE_ANSWER_PAYLOAD(expired) == 0);
    CHECK(HASKUMYE_ANSWER_PORTS(expired) == 0 && HASKUMYE_ANSWER_PORT(expired) == HASKUMYE_NO_PORT);
    CHECK(HASKUMYE_ANSWER_CLAUSE(kept | 0x30000) == 0 && HASKUMYE_ANSWER_VALUE(kept | greatest << 20) == 0);
    CHECK(haskumye_sentence(expired, &text) == strlen(text.bytes));
    CHECK(strcmp(text.bytes, "no path to this destination: the last one ran out at 2199023255551") == 0);
    CHECK(haskumye_sentence(cut, &text) == strlen(text.bytes));
    CHECK(strcmp(text.bytes, "an announce whose payload is under 148 bytes") == 0);
    CHECK(haskumye_sentence(UINT64_C(0x30601), &text) > 0 && strstr(text.bytes, " at 0") != NULL);
    CHECK(haskumye_sentence(kept, &text) == 4 && strcmp(text.bytes, "kept") == 0);
    CHECK(haskumye_sentence(refused, &text) == strlen(haskumye_refusal_words(HASKUMYE_REFUSAL_TABLES)));
    CHECK(haskumye_answer_text(expired, &text) == 22 && strcmp(text.bytes, "drop 6.3 2199023255551") == 0);
    CHECK(haskumye_answer_text(cut, &text) == 12 && strcmp(text.bytes, "drop 3.4 148") == 0);
    CHECK(haskumye_answer_text(kept, &text) == 4 && text.bytes[HASKUMYE_TEXT_SIZE - 1] == '\0');
}

/* The sentence of each reason and clause that has one. The value has up to thirteen digits, and a zero follows. */
static void print_sentences(void)
{
    for (unsigned number = 0; number < 256 * 16; number++) {
        const char *words = haskumye_reason_sentence(number / 16, number % 16);
        if (strcmp(words, "unknown") == 0 || strlen(words) + 13 > HASKUMYE_TEXT_SIZE) {
            continue;
        }
        if (number / 16 == HASKUMYE_REASON_BAD_FORM || number / 16 == HASKUMYE_REASON_NO_WAY_ON) {
            printf("sentence %u.%u %s\n", number / 16, number % 16, words);
        } else if (number % 16 == 0) {
            printf("sentence %u %s\n", number / 16, words);
        }
    }
}

/* The words of each number under 256 that has some. */
static void print_words(const char *list, const char *words_of(unsigned number))
{
    for (unsigned number = 0; number < 256; number++) {
        if (strcmp(words_of(number), "unknown") != 0) {
            printf("%s %u %s\n", list, number, words_of(number));
        }
    }
}

static void check_packet_calls(void)
{
    static haskumye_parts parts;
    static haskumye_hash hash;
    static haskumye_address address;
    static haskumye_blob blob;
    static haskumye_text text;
    static uint8_t output[HASKUMYE_OUTPUT_SIZE];
    CHECK(haskumye_read(NULL, 0, HASKUMYE_LONGEST_PACKET, &parts) == HASKUMYE_REFUSAL_TOO_SHORT);
    CHECK(haskumye_read(NULL, 0, HASKUMYE_SHORTEST_PACKET - 1, &parts) == HASKUMYE_REFUSAL_SETTING);
    CHECK(haskumye_read(output, 20, HASKUMYE_SHORTEST_PACKET, &parts) == HASKUMYE_REFUSAL_TOO_LONG);
    CHECK(haskumye_payload_start(NULL, 0) == 0);
    CHECK(haskumye_write(&parts, NULL, 0, NULL, 0) == HASKUMYE_REFUSAL_OUTPUT);
    CHECK(HASKUMYE_WRITTEN_LENGTH(haskumye_write(&parts, NULL, 0, output, sizeof output)) == HASKUMYE_SHORTEST_PACKET);
    CHECK(haskumye_packet_hash(NULL, 0, &hash) == HASKUMYE_REFUSAL_TOO_SHORT);
    CHECK(haskumye_link_id(NULL, 0, &address) == HASKUMYE_REFUSAL_TOO_SHORT);
    CHECK(address.bytes[0] == 0 && hash.bytes[0] == 0);
    haskumye_announced_destination(NULL, 0, &address);
    CHECK(haskumye_least_announce(HASKUMYE_PACKET_ANNOUNCE) == 148);
    CHECK(haskumye_emission(&blob) == 0);
    CHECK(haskumye_line(NULL, 0, &text) == 10);
    CHECK(haskumye_sha256(NULL, 0, &hash) == HASKUMYE_REFUSAL_NONE && hash.bytes[0] == 0xe3);
}

static void check_relay_calls(void)
{
    static haskumye_address address;
    static haskumye_port_map map;
    static haskumye_tally tally;
    static uint8_t tables[HASKUMYE_TABLE_SIZE], output[HASKUMYE_OUTPUT_SIZE], packet[HASKUMYE_LONGEST_PACKET];
    CHECK(haskumye_table_size() == HASKUMYE_TABLE_SIZE);
    CHECK(haskumye_version() == HASKUMYE_VERSION);
    CHECK(haskumye_matches_header());
    CHECK(haskumye_fresh(NULL, 0, &address) == HASKUMYE_REFUSAL_TABLES);
    CHECK(haskumye_check_tables(NULL, 0) == HASKUMYE_REFUSAL_TABLES);
    CHECK(haskumye_set_port(NULL, 0, 0, HASKUMYE_ON, HASKUMYE_MODE_BOUNDARY, 500) == HASKUMYE_REFUSAL_TABLES);
    CHECK(haskumye_set_announce_rate(NULL, 0, 0, 0, 0) == HASKUMYE_REFUSAL_TABLES);
    CHECK(haskumye_add_local(NULL, 0, &address) == HASKUMYE_REFUSAL_TABLES);
    CHECK(haskumye_remove_local(NULL, 0, &address) == HASKUMYE_REFUSAL_TABLES);
    CHECK(haskumye_mark_path_unresponsive(NULL, 0, &address, 0) == HASKUMYE_REFUSAL_TABLES);
    CHECK(haskumye_renumber(NULL, 0, &map) == HASKUMYE_REFUSAL_TABLES);
    haskumye_answer answer = haskumye_packet(NULL, 0, 0, 0, 0, NULL, 0, NULL, 0, &tally);
    CHECK(HASKUMYE_ANSWER_REFUSAL(answer) == HASKUMYE_REFUSAL_TABLES);
    CHECK(haskumye_check_tables(tables, sizeof tables) == HASKUMYE_REFUSAL_TABLES); /* zeros are no relay */
    CHECK(haskumye_fresh(tables, sizeof tables, &address) == 0);
    CHECK(haskumye_check_tables(tables, sizeof tables) == HASKUMYE_REFUSAL_NONE);
    CHECK(haskumye_set_port(tables, sizeof tables, 0, HASKUMYE_ON, HASKUMYE_MODE_ROAMING, 255) == 0);
    CHECK(haskumye_set_port(tables, sizeof tables, 0, HASKUMYE_ON, 0, 18) == HASKUMYE_REFUSAL_SETTING);
    CHECK(haskumye_set_port(tables, sizeof tables, 0, HASKUMYE_ON, 0, 65536 + 255) == HASKUMYE_REFUSAL_SETTING);
    CHECK(haskumye_mark_path_unresponsive(tables, sizeof tables, &address, 1) == HASKUMYE_REFUSAL_NO_LIVE_PATH);
    CHECK(haskumye_mark_path_unresponsive(tables, sizeof tables, &address, HASKUMYE_CLOCK_LIMIT) ==
          HASKUMYE_REFUSAL_CLOCK);
    answer = haskumye_packet(NULL, 0, 0, 0, 0, tables, sizeof tables, NULL, 0, &tally);
    CHECK(HASKUMYE_ANSWER_REFUSAL(answer) == HASKUMYE_REFUSAL_OUTPUT);
    answer = haskumye_packet(NULL, 0, 0, 0, 0, tables, sizeof tables, output, sizeof output, &tally);
    CHECK(HASKUMYE_ANSWER_REFUSAL(answer) == HASKUMYE_REFUSAL_TOO_SHORT);
    answer = haskumye_packet(packet, 256, 0, 0, 0, tables, sizeof tables, output, sizeof output, &tally);
    CHECK(HASKUMYE_ANSWER_REFUSAL(answer) == HASKUMYE_REFUSAL_TOO_LONG);
    answer = haskumye_packet(packet, 255, 0, 0, 0, tables, sizeof tables, output, sizeof output, &tally);
    CHECK(HASKUMYE_ANSWER_KIND(answer) == HASKUMYE_DROP);
}

static void check_opinion_calls(void)
{
    static haskumye_log log;
    static const haskumye_address address = {{1}};
    static haskumye_port_map map;
    static uint8_t output[HASKUMYE_OUTPUT_SIZE], packet[HASKUMYE_SHORTEST_PACKET];
    haskumye_opinion_fresh(&log, &address);
    CHECK(haskumye_opinion_set_port(&log, 0, HASKUMYE_ON, HASKUMYE_MODE_ROAMING, 18) == HASKUMYE_REFUSAL_SETTING);
    CHECK(haskumye_opinion_set_port(&log, 256, HASKUMYE_ON, HASKUMYE_MODE_ROAMING, 255) == HASKUMYE_REFUSAL_SETTING);
    CHECK(haskumye_opinion_set_port(&log, 0, HASKUMYE_ON, HASKUMYE_MODE_ROAMING, 255) == HASKUMYE_REFUSAL_NONE);
    CHECK(haskumye_opinion_set_announce_rate(&log, 0, 255, 0) == HASKUMYE_REFUSAL_SETTING);
    CHECK(haskumye_opinion_remove_local(&log, &address) == HASKUMYE_REFUSAL_LOCAL_ADDRESS);
    CHECK(haskumye_opinion_add_local(&log, &address) == HASKUMYE_REFUSAL_NONE);
    CHECK(haskumye_opinion_mark_path_unresponsive(&log, &address, 1) == HASKUMYE_REFUSAL_NO_LIVE_PATH);
    CHECK(haskumye_opinion_renumber(&log, &map) == HASKUMYE_REFUSAL_MAP);
    haskumye_answer answer = haskumye_opinion_packet(NULL, 0, 0, 0, 0, &log, NULL, 0);
    CHECK(HASKUMYE_ANSWER_REFUSAL(answer) == HASKUMYE_REFUSAL_OUTPUT);
    answer = haskumye_opinion_packet(packet, sizeof packet, 0, 0, 0, &log, output, sizeof output);
    CHECK(HASKUMYE_ANSWER_KIND(answer) == HASKUMYE_DROP);
    for (int listed = 3; listed < HASKUMYE_LIST_LIMIT; listed++) {
        CHECK(haskumye_opinion_set_announce_rate(&log, 0, 0, 0) == HASKUMYE_REFUSAL_NONE);
    }
    CHECK(haskumye_opinion_set_announce_rate(&log, 0, 255, 0) == HASKUMYE_REFUSAL_LIST_FULL);
    answer = haskumye_opinion_packet(NULL, 0, 0, 0, 0, &log, NULL, 0);
    CHECK(HASKUMYE_ANSWER_REFUSAL(answer) == HASKUMYE_REFUSAL_LIST_FULL);
}

static void check_saving_calls(void)
{
    static const haskumye_address address = {{1}};
    static haskumye_tally tally = {1, 2, 3, 4, 5, 6}, other;
    static uint8_t tables[HASKUMYE_TABLE_SIZE], room[HASKUMYE_SAVED_SIZE], others[HASKUMYE_TABLE_SIZE];
    CHECK(haskumye_saved_size() == HASKUMYE_SAVED_SIZE);
    CHECK(haskumye_save(NULL, 0, &tally, NULL, 0) == HASKUMYE_REFUSAL_TABLES);
    CHECK(haskumye_load(NULL, 0, NULL, 0, &tally) == HASKUMYE_REFUSAL_FILE_LENGTH);
    CHECK(haskumye_fresh(tables, sizeof tables, &address) == 0);
    CHECK(haskumye_save(tables, sizeof tables, &tally, NULL, 0) == HASKUMYE_REFUSAL_ROOM);
    haskumye_saved saved = haskumye_save(tables, sizeof tables, &tally, room, sizeof room);
    CHECK(HASKUMYE_SAVED_REFUSAL(saved) == 0 && HASKUMYE_SAVED_LENGTH(saved) == HASKUMYE_SAVED_SIZE);
    CHECK(haskumye_load(room, sizeof room, NULL, 0, &other) == HASKUMYE_REFUSAL_ROOM && other.total == 0);
    CHECK(haskumye_load(room, sizeof room, others, sizeof others, &other) == HASKUMYE_REFUSAL_NONE);
    CHECK(memcmp(tables, others, sizeof tables) == 0 && memcmp(&tally, &other, sizeof tally) == 0);
}

static void check_questions(void)
{
    static const haskumye_address address = {{0}};
    static const haskumye_time time = {{0, 0, 0, 1, 2, 3, 4, 5}};
    static haskumye_address local;
    static const haskumye_setting setting = {{1, 2, 3, 4}};
    static const haskumye_size size = {{1, 255}};
    static haskumye_port_settings port;
    static haskumye_rate_settings rate;
    static haskumye_path_record path;
    static haskumye_link_record link;
    static uint64_t number;
    static uint8_t tables[HASKUMYE_TABLE_SIZE];
    CHECK(haskumye_seconds(time) == UINT64_C(0x102030405));
    CHECK(haskumye_setting_number(setting) == UINT32_C(0x1020304));
    CHECK(haskumye_size_number(size) == 511);
    CHECK(haskumye_port(NULL, 0, 0, &port) == HASKUMYE_REFUSAL_TABLES);
    CHECK(haskumye_announce_rate(NULL, 0, &rate) == HASKUMYE_REFUSAL_TABLES);
    CHECK(haskumye_local(NULL, 0, 0, &local) == HASKUMYE_REFUSAL_TABLES);
    CHECK(haskumye_path(NULL, 0, 0, &path) == HASKUMYE_REFUSAL_TABLES);
    CHECK(haskumye_live_path(NULL, 0, &address, 0, &path) == HASKUMYE_REFUSAL_TABLES);
    CHECK(haskumye_link(NULL, 0, 0, &link) == HASKUMYE_REFUSAL_TABLES);
    CHECK(haskumye_live_returns(NULL, 0, 0, &number) == HASKUMYE_REFUSAL_TABLES);
    CHECK(haskumye_live_hashes(NULL, 0, 0, &number) == HASKUMYE_REFUSAL_TABLES);
    CHECK(haskumye_last_clock(NULL, 0, &number) == HASKUMYE_REFUSAL_TABLES);
    CHECK(haskumye_signature_matters(NULL, 0, 0, 0, NULL, 0, 0) == HASKUMYE_REFUSAL_TABLES);
    CHECK(haskumye_fresh(tables, sizeof tables, &address) == 0);
    CHECK(haskumye_set_port(tables, sizeof tables, 2, HASKUMYE_ON, HASKUMYE_MODE_ROAMING, 258) == 0);
    CHECK(haskumye_port(tables, sizeof tables, 2, &port) == 0 && port.on == 1 && port.mode == HASKUMYE_MODE_ROAMING);
    CHECK(haskumye_size_number(port.size) == 258);
    CHECK(haskumye_port(tables, sizeof tables, 16, &port) == HASKUMYE_NONE && port.on == 1);
    CHECK(haskumye_port(tables, sizeof tables, 0, &port) == 0 && haskumye_size_number(port.size) == 500);
    CHECK(haskumye_set_announce_rate(tables, sizeof tables, 3600, 5, HASKUMYE_PENALTY_LIMIT) == 0);
    CHECK(haskumye_set_announce_rate(tables, sizeof tables, 3600, 256, 0) == HASKUMYE_REFUSAL_SETTING);
    CHECK(haskumye_announce_rate(tables, sizeof tables, &rate) == 0 && haskumye_setting_number(rate.target) == 3600);
    CHECK(haskumye_setting_number(rate.grace) == 5 && haskumye_setting_number(rate.penalty) == 604800);
    CHECK(haskumye_local(tables, sizeof tables, 0, &local) == HASKUMYE_NONE);
    CHECK(haskumye_path(tables, sizeof tables, 63, &path) == HASKUMYE_NONE);
    CHECK(haskumye_live_path(tables, sizeof tables, &address, 0, &path) == HASKUMYE_NONE);
    CHECK(haskumye_link(tables, sizeof tables, 0, &link) == HASKUMYE_NONE);
    number = 1;
    CHECK(haskumye_live_returns(tables, sizeof tables, 0, &number) == 0 && number == 0);
    CHECK(haskumye_last_clock(tables, sizeof tables, &number) == 0 && number == 0);
    CHECK(haskumye_signature_matters(NULL, 0, 2, 0, tables, sizeof tables, 500) == HASKUMYE_REFUSAL_TOO_SHORT);
}

static void check_announce_calls(void)
{
    static const uint8_t zeros[64] = {0};
    static uint8_t room[HASKUMYE_OUTPUT_SIZE];
    haskumye_written written =
        haskumye_announce_signing_bytes(NULL, 0, NULL, 0, NULL, 0, 0, NULL, 0, NULL, 0, NULL, 0);
    CHECK(written == HASKUMYE_REFUSAL_ANNOUNCE_PART);
    written = haskumye_build_announce(NULL, 0, NULL, 0, NULL, 0, 0, NULL, 0, NULL, 0, NULL, 0, NULL, 0);
    CHECK(written == HASKUMYE_REFUSAL_ANNOUNCE_PART);
    written = haskumye_announce_signing_bytes(zeros, 64, zeros, 10, zeros, 5, 0, NULL, 0, NULL, 0, NULL, 0);
    CHECK(written == HASKUMYE_REFUSAL_OUTPUT);
    written = haskumye_announce_signing_bytes(zeros, 64, zeros, 10, zeros, 5, 0, NULL, 0, NULL, 0, room, sizeof room);
    CHECK(HASKUMYE_WRITTEN_REFUSAL(written) == HASKUMYE_REFUSAL_NONE && HASKUMYE_WRITTEN_LENGTH(written) == 100);
    written = haskumye_build_announce(zeros, 64, zeros, 10, zeros, 5, 0, zeros, 32, NULL, 0, zeros, 64, room,
                                      sizeof room);
    CHECK(HASKUMYE_WRITTEN_REFUSAL(written) == HASKUMYE_REFUSAL_NONE && HASKUMYE_WRITTEN_LENGTH(written) == 199);
    CHECK(room[0] == (HASKUMYE_HEADER_CONTEXT_FLAG | HASKUMYE_PACKET_ANNOUNCE));
}

static void check_recording_calls(void)
{
    static haskumye_entry entry;
    static haskumye_tally tally;
    static haskumye_text line;
    static const uint8_t empty[] = {1, 1, 0, 0};
    static uint8_t room[sizeof empty];
    CHECK(haskumye_check_recording(NULL, 0) == HASKUMYE_REFUSAL_FILE_LENGTH);
    CHECK(haskumye_check_recording(empty, sizeof empty) == HASKUMYE_REFUSAL_NONE);
    CHECK(haskumye_recording_count(NULL, 0) == 0);
    CHECK(haskumye_recording_entry(NULL, 0, 0, &entry) == HASKUMYE_REFUSAL_FILE_PLACE);
    CHECK(haskumye_write_recording(NULL, 0, NULL, 0, NULL, 0) == HASKUMYE_REFUSAL_ROOM);
    CHECK(HASKUMYE_WRITTEN_LENGTH(haskumye_write_recording(NULL, 0, NULL, 0, room, sizeof room)) == sizeof empty);
    CHECK(memcmp(room, empty, sizeof empty) == 0);
    haskumye_answer answer = haskumye_replay_entry(NULL, 0, 0, NULL, 0, &tally, &line);
    CHECK(HASKUMYE_ANSWER_REFUSAL(answer) == HASKUMYE_REFUSAL_FILE_PLACE && line.bytes[0] == 0);
}

/* What must not compile: a field of a number that is of another call, and a call whose refusal is ignored. */
#ifdef NARROW
unsigned narrow(void);
unsigned narrow(void)
{
    return HASKUMYE_ANSWER_REFUSAL(haskumye_check_tables(NULL, 0));
}
#endif
#ifdef WRITTEN
unsigned written(void);
unsigned written(void)
{
    return HASKUMYE_ANSWER_REFUSAL(haskumye_write(NULL, NULL, 0, NULL, 0));
}
#endif
#ifdef WIDE
unsigned wide(void);
unsigned wide(void)
{
    return HASKUMYE_WRITTEN_REFUSAL(haskumye_packet(NULL, 0, 0, 0, 0, NULL, 0, NULL, 0, NULL));
}
#endif
#ifdef SHORT
unsigned short_number(void);
unsigned short_number(void)
{
    return HASKUMYE_SAVED_REFUSAL(haskumye_write(NULL, NULL, 0, NULL, 0));
}
#endif
#ifdef IGNORED
void ignored(void);
void ignored(void)
{
    haskumye_sha256(NULL, 0, NULL);
}
#endif

int main(int count, char **words)
{
    if (count == 2 && strcmp(words[1], "words") == 0) {
        print_words("refusal", haskumye_refusal_words);
        print_words("reason", haskumye_reason_words);
        print_sentences();
        print_words("kind", haskumye_kind_words);
        print_words("mode", haskumye_mode_words);
        return 0;
    }
    check_accessors();
    check_reasons();
    check_packet_calls();
    check_relay_calls();
    check_opinion_calls();
    check_saving_calls();
    check_questions();
    check_announce_calls();
    check_recording_calls();
    printf("%d passed, %d failed\n", passed, failed);
    return failed == 0 ? 0 : 1;
}
