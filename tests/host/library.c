#include "library.h"

#include "check.h"
#include "haskumye.h"
#include "stack.h"

#include <stdbool.h>
#include <stdio.h>

/* No call may touch more stack. */
enum { STACK_LIMIT = 16384 };

static uint64_t nothing(const struct use *use)
{
    (void)use;
    return 0;
}

static uint64_t version(const struct use *use)
{
    (void)use;
    return haskumye_version();
}

static uint64_t table_size(const struct use *use)
{
    (void)use;
    return haskumye_table_size();
}

static uint64_t check(const struct use *use)
{
    return haskumye_check_tables(use->tables.bytes, use->tables.length);
}

static uint64_t fresh(const struct use *use)
{
    return haskumye_fresh(use->tables.bytes, use->tables.length, (const haskumye_address *)use->input.bytes);
}

static uint64_t set_port(const struct use *use)
{
    return haskumye_set_port(use->tables.bytes, use->tables.length, use->port, use->byte, use->mode, use->size);
}

static uint64_t set_announce_rate(const struct use *use)
{
    return haskumye_set_announce_rate(use->tables.bytes, use->tables.length, use->target, use->grace, use->penalty);
}

static uint64_t add_local(const struct use *use)
{
    return haskumye_add_local(use->tables.bytes, use->tables.length, (const haskumye_address *)use->input.bytes);
}

static uint64_t remove_local(const struct use *use)
{
    return haskumye_remove_local(use->tables.bytes, use->tables.length, (const haskumye_address *)use->input.bytes);
}

static uint64_t mark_path_unresponsive(const struct use *use)
{
    return haskumye_mark_path_unresponsive(use->tables.bytes, use->tables.length,
                                           (const haskumye_address *)use->input.bytes, use->clock);
}

static uint64_t renumber(const struct use *use)
{
    return haskumye_renumber(use->tables.bytes, use->tables.length, (const haskumye_port_map *)use->input.bytes);
}

static uint64_t packet(const struct use *use)
{
    return haskumye_packet(use->input.bytes, use->input.length, use->port, use->clock, use->byte, use->tables.bytes,
                           use->tables.length, use->output.bytes, use->output.length,
                           (haskumye_tally *)(void *)use->tally.bytes);
}

static uint64_t answer_text(const struct use *use)
{
    return haskumye_answer_text(use->index, (haskumye_text *)use->output.bytes);
}

static uint64_t opinion_fresh(const struct use *use)
{
    haskumye_opinion_fresh((haskumye_log *)use->log.bytes, (const haskumye_address *)use->input.bytes);
    return 0;
}

static uint64_t opinion_packet(const struct use *use)
{
    return haskumye_opinion_packet(use->input.bytes, use->input.length, use->port, use->clock, use->byte,
                                   (haskumye_log *)use->log.bytes, use->output.bytes, use->output.length);
}

static uint64_t opinion_set_port(const struct use *use)
{
    return haskumye_opinion_set_port((haskumye_log *)use->log.bytes, use->port, use->byte, use->mode, use->size);
}

static uint64_t opinion_set_announce_rate(const struct use *use)
{
    return haskumye_opinion_set_announce_rate((haskumye_log *)use->log.bytes, use->target, use->grace, use->penalty);
}

static uint64_t opinion_add_local(const struct use *use)
{
    return haskumye_opinion_add_local((haskumye_log *)use->log.bytes, (const haskumye_address *)use->input.bytes);
}

static uint64_t opinion_remove_local(const struct use *use)
{
    return haskumye_opinion_remove_local((haskumye_log *)use->log.bytes, (const haskumye_address *)use->input.bytes);
}

static uint64_t opinion_mark_path_unresponsive(const struct use *use)
{
    return haskumye_opinion_mark_path_unresponsive((haskumye_log *)use->log.bytes,
                                                   (const haskumye_address *)use->input.bytes, use->clock);
}

static uint64_t opinion_renumber(const struct use *use)
{
    return haskumye_opinion_renumber((haskumye_log *)use->log.bytes, (const haskumye_port_map *)use->input.bytes);
}

static uint64_t saved_size(const struct use *use)
{
    (void)use;
    return haskumye_saved_size();
}

static uint64_t save_tables(const struct use *use)
{
    return haskumye_save(use->tables.bytes, use->tables.length, (const haskumye_tally *)(void *)use->tally.bytes,
                         use->output.bytes, use->output.length);
}

static uint64_t load_tables(const struct use *use)
{
    return haskumye_load(use->input.bytes, use->input.length, use->tables.bytes, use->tables.length,
                         (haskumye_tally *)(void *)use->tally.bytes);
}

static uint64_t port(const struct use *use)
{
    return haskumye_port(use->tables.bytes, use->tables.length, use->port, (haskumye_port_settings *)use->output.bytes);
}

static uint64_t announce_rate(const struct use *use)
{
    return haskumye_announce_rate(use->tables.bytes, use->tables.length, (haskumye_rate_settings *)use->output.bytes);
}

static uint64_t local(const struct use *use)
{
    return haskumye_local(use->tables.bytes, use->tables.length, use->index, (haskumye_address *)use->output.bytes);
}

static uint64_t path(const struct use *use)
{
    return haskumye_path(use->tables.bytes, use->tables.length, use->index, (haskumye_path_record *)use->output.bytes);
}

static uint64_t live_path(const struct use *use)
{
    return haskumye_live_path(use->tables.bytes, use->tables.length, (const haskumye_address *)use->input.bytes,
                              use->clock, (haskumye_path_record *)use->output.bytes);
}

static uint64_t link_at(const struct use *use)
{
    return haskumye_link(use->tables.bytes, use->tables.length, use->index, (haskumye_link_record *)use->output.bytes);
}

static uint64_t live_returns(const struct use *use)
{
    return haskumye_live_returns(use->tables.bytes, use->tables.length, use->clock,
                                 (uint64_t *)(void *)use->output.bytes);
}

static uint64_t live_hashes(const struct use *use)
{
    return haskumye_live_hashes(use->tables.bytes, use->tables.length, use->clock,
                                (uint64_t *)(void *)use->output.bytes);
}

static uint64_t last_clock(const struct use *use)
{
    return haskumye_last_clock(use->tables.bytes, use->tables.length, (uint64_t *)(void *)use->output.bytes);
}

static uint64_t signature_matters(const struct use *use)
{
    return haskumye_signature_matters(use->input.bytes, use->input.length, use->port, use->clock, use->tables.bytes,
                                      use->tables.length, use->room);
}

static uint64_t read_parts(const struct use *use)
{
    return haskumye_read(use->input.bytes, use->input.length, use->size, (haskumye_parts *)use->output.bytes);
}

static uint64_t payload_start(const struct use *use)
{
    return haskumye_payload_start(use->input.bytes, use->input.length);
}

static uint64_t write_packet(const struct use *use)
{
    return haskumye_write((const haskumye_parts *)use->parts.bytes, use->input.bytes, use->input.length,
                          use->output.bytes, use->output.length);
}

static uint64_t packet_hash(const struct use *use)
{
    return haskumye_packet_hash(use->input.bytes, use->input.length, (haskumye_hash *)use->output.bytes);
}

static uint64_t link_id(const struct use *use)
{
    return haskumye_link_id(use->input.bytes, use->input.length, (haskumye_address *)use->output.bytes);
}

static uint64_t announced_destination(const struct use *use)
{
    haskumye_announced_destination(use->input.bytes, use->input.length, (haskumye_address *)use->output.bytes);
    return 0;
}

static uint64_t least_announce(const struct use *use)
{
    return haskumye_least_announce(use->byte);
}

static uint64_t emission(const struct use *use)
{
    return haskumye_emission((const haskumye_blob *)use->input.bytes);
}

static uint64_t line(const struct use *use)
{
    return haskumye_line(use->input.bytes, use->input.length, (haskumye_text *)use->output.bytes);
}

static uint64_t sha256(const struct use *use)
{
    return haskumye_sha256(use->input.bytes, use->input.length, (haskumye_hash *)use->output.bytes);
}

static uint64_t announce_signing_bytes(const struct use *use)
{
    return haskumye_announce_signing_bytes(use->keys.bytes, use->keys.length, use->name_hash.bytes,
                                           use->name_hash.length, use->random.bytes, use->random.length, use->clock,
                                           use->ratchet.bytes, use->ratchet.length, use->app_data.bytes,
                                           use->app_data.length, use->output.bytes, use->output.length);
}

static uint64_t build_announce(const struct use *use)
{
    return haskumye_build_announce(use->keys.bytes, use->keys.length, use->name_hash.bytes, use->name_hash.length,
                                   use->random.bytes, use->random.length, use->clock, use->ratchet.bytes,
                                   use->ratchet.length, use->app_data.bytes, use->app_data.length,
                                   use->signature.bytes, use->signature.length, use->output.bytes, use->output.length);
}

static uint64_t check_recording(const struct use *use)
{
    return haskumye_check_recording(use->input.bytes, use->input.length);
}

static uint64_t recording_count(const struct use *use)
{
    return haskumye_recording_count(use->input.bytes, use->input.length);
}

static uint64_t recording_entry(const struct use *use)
{
    return haskumye_recording_entry(use->input.bytes, use->input.length, use->index,
                                    (haskumye_entry *)(void *)use->output.bytes);
}

static uint64_t write_recording(const struct use *use)
{
    return haskumye_write_recording(use->parts.bytes, use->parts.length, use->input.bytes, use->input.length,
                                    use->output.bytes, use->output.length);
}

static uint64_t replay_entry(const struct use *use)
{
    return haskumye_replay_entry(use->input.bytes, use->input.length, use->index, use->tables.bytes, use->tables.length,
                                 (haskumye_tally *)(void *)use->tally.bytes, (haskumye_text *)use->output.bytes);
}

static uint64_t survey_begin(const struct use *use)
{
    return haskumye_survey_begin(use->input.bytes, use->input.length, (haskumye_tables *)use->start.bytes,
                                 (haskumye_tables *)use->tables.bytes,
                                 (haskumye_survey_counts *)(void *)use->counts.bytes,
                                 (haskumye_survey_refusals *)use->refusals.bytes);
}

static uint64_t survey_recording(const struct use *use)
{
    return haskumye_survey_recording(use->input.bytes, use->input.length, (const haskumye_tables *)use->start.bytes,
                                     (haskumye_tables *)use->tables.bytes,
                                     (haskumye_survey_counts *)(void *)use->counts.bytes,
                                     (haskumye_survey_refusals *)use->refusals.bytes);
}

static uint64_t survey_line(const struct use *use)
{
    return haskumye_survey_line((const haskumye_survey_counts *)(void *)use->counts.bytes,
                                (const haskumye_survey_refusals *)use->refusals.bytes, use->index,
                                (haskumye_text *)use->output.bytes);
}

static const struct {
    const char *name;
    uint64_t (*call)(const struct use *use);
} functions[FUNCTION_COUNT] = {
    [NOTHING] = {"(an empty call)", nothing},
    [VERSION] = {"haskumye_version", version},
    [TABLE_SIZE] = {"haskumye_table_size", table_size},
    [CHECK] = {"haskumye_check_tables", check},
    [FRESH] = {"haskumye_fresh", fresh},
    [SET_PORT] = {"haskumye_set_port", set_port},
    [SET_ANNOUNCE_RATE] = {"haskumye_set_announce_rate", set_announce_rate},
    [ADD_LOCAL] = {"haskumye_add_local", add_local},
    [REMOVE_LOCAL] = {"haskumye_remove_local", remove_local},
    [MARK_PATH_UNRESPONSIVE] = {"haskumye_mark_path_unresponsive", mark_path_unresponsive},
    [RENUMBER] = {"haskumye_renumber", renumber},
    [PACKET] = {"haskumye_packet", packet},
    [ANSWER_TEXT] = {"haskumye_answer_text", answer_text},
    [OPINION_FRESH] = {"haskumye_opinion_fresh", opinion_fresh},
    [OPINION_PACKET] = {"haskumye_opinion_packet", opinion_packet},
    [OPINION_SET_PORT] = {"haskumye_opinion_set_port", opinion_set_port},
    [OPINION_SET_ANNOUNCE_RATE] = {"haskumye_opinion_set_announce_rate", opinion_set_announce_rate},
    [OPINION_ADD_LOCAL] = {"haskumye_opinion_add_local", opinion_add_local},
    [OPINION_REMOVE_LOCAL] = {"haskumye_opinion_remove_local", opinion_remove_local},
    [OPINION_MARK_PATH_UNRESPONSIVE] = {"haskumye_opinion_mark_path_unresponsive", opinion_mark_path_unresponsive},
    [OPINION_RENUMBER] = {"haskumye_opinion_renumber", opinion_renumber},
    [SAVED_SIZE] = {"haskumye_saved_size", saved_size},
    [SAVE_TABLES] = {"haskumye_save", save_tables},
    [LOAD_TABLES] = {"haskumye_load", load_tables},
    [PORT] = {"haskumye_port", port},
    [ANNOUNCE_RATE] = {"haskumye_announce_rate", announce_rate},
    [LOCAL] = {"haskumye_local", local},
    [PATH] = {"haskumye_path", path},
    [LIVE_PATH] = {"haskumye_live_path", live_path},
    [LINK] = {"haskumye_link", link_at},
    [LIVE_RETURNS] = {"haskumye_live_returns", live_returns},
    [LIVE_HASHES] = {"haskumye_live_hashes", live_hashes},
    [LAST_CLOCK] = {"haskumye_last_clock", last_clock},
    [SIGNATURE_MATTERS] = {"haskumye_signature_matters", signature_matters},
    [READ] = {"haskumye_read", read_parts},
    [PAYLOAD_START] = {"haskumye_payload_start", payload_start},
    [WRITE] = {"haskumye_write", write_packet},
    [PACKET_HASH] = {"haskumye_packet_hash", packet_hash},
    [LINK_ID] = {"haskumye_link_id", link_id},
    [ANNOUNCED_DESTINATION] = {"haskumye_announced_destination", announced_destination},
    [LEAST_ANNOUNCE] = {"haskumye_least_announce", least_announce},
    [EMISSION] = {"haskumye_emission", emission},
    [LINE] = {"haskumye_line", line},
    [SHA256] = {"haskumye_sha256", sha256},
    [ANNOUNCE_SIGNING_BYTES] = {"haskumye_announce_signing_bytes", announce_signing_bytes},
    [BUILD_ANNOUNCE] = {"haskumye_build_announce", build_announce},
    [CHECK_RECORDING] = {"haskumye_check_recording", check_recording},
    [RECORDING_COUNT] = {"haskumye_recording_count", recording_count},
    [RECORDING_ENTRY] = {"haskumye_recording_entry", recording_entry},
    [WRITE_RECORDING] = {"haskumye_write_recording", write_recording},
    [REPLAY_ENTRY] = {"haskumye_replay_entry", replay_entry},
    [SURVEY_BEGIN] = {"haskumye_survey_begin", survey_begin},
    [SURVEY_RECORDING] = {"haskumye_survey_recording", survey_recording},
    [SURVEY_LINE] = {"haskumye_survey_line", survey_line},
};

static bool measuring;
static size_t calls[FUNCTION_COUNT], deepest[FUNCTION_COUNT];

/* A call that is made on another stack. */
struct away {
    enum function function;
    const struct use *use;
    uint64_t number;
};

static void make(void *argument)
{
    struct away *away = argument;
    away->number = functions[away->function].call(away->use);
}

uint64_t library_call(enum function function, const struct use *use)
{
    struct away away = {function, use, 0};
    calls[function]++;
    if (!measuring) {
        make(&away);
        return away.number;
    }
    size_t depth = stack_depth(make, &away);
    if (depth > deepest[function]) {
        deepest[function] = depth;
    }
    return away.number;
}

void library_measure(void)
{
    measuring = true;
    stack_expect_measured();
}

void library_end(void)
{
    library_call(NOTHING, &(struct use){0});
    for (int i = 0; i < FUNCTION_COUNT; i++) {
        expect(functions[i].name, calls[i] > 0, 1);
        if (measuring) {
            printf("%-39s %6zu bytes of stack\n", functions[i].name, deepest[i]);
            expect("a call within the stack allowed", deepest[i] <= STACK_LIMIT, 1);
        }
    }
}
