/*
 * A relay and its second opinion, asked the same, call by call, with the first difference shown. It can't come: that
 * both answer alike is proved. The second opinion lists 64 calls; then it refuses every one by 28.
 */
#include "haskumye.h"
#include <stdio.h>
#include <stdlib.h>
#include <string.h>

enum { GROWTH_ROOM = 1, COLD_STORE = 2, DESK = 3, SIZE = 300, ANNOUNCE = 148, RECEIPT = 64 };

struct packet {
    uint8_t bytes[HASKUMYE_OUTPUT_SIZE];
    size_t length;
};

static uint8_t tables[HASKUMYE_TABLE_SIZE];
static haskumye_tally tally;
static haskumye_log list;
static const haskumye_address own = {"cold store"}, desk = {"desk"};
static unsigned asked, accepted;

static void stop(const char *what)
{
    fprintf(stderr, "%s\n", what);
    exit(1);
}

/* What the second opinion says where the relay says this: it has no slots in which an expired path could lie. */
static haskumye_answer plain(haskumye_answer answer)
{
    int expired = HASKUMYE_ANSWER_KIND(answer) == HASKUMYE_DROP &&
                  HASKUMYE_ANSWER_REASON(answer) == HASKUMYE_REASON_NO_WAY_ON &&
                  HASKUMYE_ANSWER_CLAUSE(answer) == HASKUMYE_NO_WAY_ON_ONLY_EXPIRED;
    return expired ? HASKUMYE_DROP | HASKUMYE_REASON_NO_WAY_ON << 8 | HASKUMYE_NO_WAY_ON_NO_PATH << 16 : answer;
}

/* Shows what both answered to a packet, but where it has no name; stops where they differ. */
static void tell_packet(const char *what, haskumye_answer answer, haskumye_answer opinion, int same_output)
{
    haskumye_text texts[2];
    haskumye_answer_text(answer, &texts[0]);
    haskumye_answer_text(opinion, &texts[1]);
    asked++;
    accepted += HASKUMYE_ANSWER_KIND(answer) != HASKUMYE_REFUSED;
    if (plain(answer) != opinion || !same_output) {
        printf("%2u %s, but by the second opinion %s\n", asked, texts[0].bytes, texts[1].bytes);
        stop("the first difference");
    }
    if (what == NULL) {
        return;
    }
    if (answer != opinion) {
        printf("%2u %-34s %s, by the second opinion %s\n", asked, what, texts[0].bytes, texts[1].bytes);
    } else {
        printf("%2u %-34s %s\n", asked, what, texts[0].bytes);
    }
}

static void ask_packet(const char *what, const struct packet *packet, unsigned port, uint64_t clock)
{
    uint8_t outputs[2][HASKUMYE_OUTPUT_SIZE] = {{0}};
    haskumye_answer answer = haskumye_packet(packet->bytes, packet->length, port, clock, 1, tables, sizeof tables,
                                             outputs[0], sizeof outputs[0], &tally);
    haskumye_answer opinion = haskumye_opinion_packet(packet->bytes, packet->length, port, clock, 1, &list, outputs[1],
                                                      sizeof outputs[1]);
    tell_packet(what, answer, opinion, memcmp(outputs[0], outputs[1], sizeof outputs[0]) == 0);
}

/* The same of a call that answers with a refusal, or 0. */
static void tell(const char *what, uint8_t refusal, uint8_t opinion)
{
    asked++;
    accepted += refusal == HASKUMYE_REFUSAL_NONE;
    if (refusal != opinion) {
        printf("%2u %-34s %u, but by the second opinion %u\n", asked, what, refusal, opinion);
        stop("the first difference");
    }
    if (refusal == HASKUMYE_REFUSAL_NONE) {
        printf("%2u %-34s done\n", asked, what);
    } else {
        printf("%2u %-34s refused %u\n", asked, what, refusal);
    }
}

static struct packet written(haskumye_parts parts, const uint8_t *payload, size_t length)
{
    struct packet packet;
    haskumye_written number = haskumye_write(&parts, payload, length, packet.bytes, sizeof packet.bytes);
    if (HASKUMYE_WRITTEN_REFUSAL(number) != HASKUMYE_REFUSAL_NONE) {
        stop("a packet that can't be written");
    }
    packet.length = HASKUMYE_WRITTEN_LENGTH(number);
    return packet;
}

static struct packet announce(uint8_t emission, haskumye_address *destination)
{
    uint8_t payload[ANNOUNCE] = {0};
    payload[HASKUMYE_ANNOUNCE_EMISSION + 4] = emission;
    haskumye_announced_destination(payload, sizeof payload, destination);
    return written((haskumye_parts){.header = HASKUMYE_PACKET_ANNOUNCE, .destination = *destination}, payload,
                   sizeof payload);
}

static struct packet counted(const haskumye_address *destination, uint8_t plants)
{
    haskumye_parts parts = {.header = HASKUMYE_HEADER_TYPE_2 | HASKUMYE_PACKET_DATA, .relay = own};
    parts.destination = *destination;
    return written(parts, &plants, sizeof plants);
}

static struct packet receipt_for(const struct packet *packet)
{
    static const uint8_t payload[RECEIPT];
    haskumye_parts parts = {.header = HASKUMYE_PACKET_PROOF};
    haskumye_hash hash;
    if (haskumye_packet_hash(packet->bytes, packet->length, &hash) != HASKUMYE_REFUSAL_NONE) {
        stop("a packet without a hash");
    }
    memcpy(parts.destination.bytes, hash.bytes, sizeof parts.destination.bytes);
    return written(parts, payload, sizeof payload);
}

static void set_up(void)
{
    if (haskumye_fresh(tables, sizeof tables, &own) != HASKUMYE_REFUSAL_NONE) {
        stop("no fresh relay");
    }
    haskumye_opinion_fresh(&list, &own);
    for (unsigned port = GROWTH_ROOM; port <= DESK; port++) {
        tell("a port is set", haskumye_set_port(tables, sizeof tables, port, HASKUMYE_ON, HASKUMYE_MODE_ROAMING, SIZE),
             haskumye_opinion_set_port(&list, port, HASKUMYE_ON, HASKUMYE_MODE_ROAMING, SIZE));
    }
    tell("a port that there is not", haskumye_set_port(tables, sizeof tables, 16, HASKUMYE_ON, 0, SIZE),
         haskumye_opinion_set_port(&list, 16, HASKUMYE_ON, 0, SIZE));
    tell("one announce in a minute", haskumye_set_announce_rate(tables, sizeof tables, 60, 0, 100),
         haskumye_opinion_set_announce_rate(&list, 60, 0, 100));
    tell("a local address", haskumye_add_local(tables, sizeof tables, &desk),
         haskumye_opinion_add_local(&list, &desk));
}

/* The desk's station announces itself, is sent a count, and its receipt comes back after the ports were renumbered. */
static haskumye_address morning(void)
{
    static const haskumye_port_map map = {{0, 2, 1, 3, 4, 5, 6, 7, 8, 9, 10, 11, 12, 13, 14, 15}};
    haskumye_address station;
    struct packet packet = announce(1, &station);
    ask_packet("an announce", &packet, DESK, 1000);
    ask_packet("the same again", &packet, COLD_STORE, 1001);
    packet = announce(2, &station);
    ask_packet("one too soon", &packet, DESK, 1002);
    packet = counted(&station, 42);
    ask_packet("a count for it", &packet, GROWTH_ROOM, 1003);
    tell("the ports are renumbered", haskumye_renumber(tables, sizeof tables, &map),
         haskumye_opinion_renumber(&list, &map));
    packet = receipt_for(&packet);
    ask_packet("the receipt", &packet, DESK, 1004);
    ask_packet("by a port that is off", &packet, 9, 1005);
    tell("no receipt: the path is marked", haskumye_mark_path_unresponsive(tables, sizeof tables, &station, 1010),
         haskumye_opinion_mark_path_unresponsive(&list, &station, 1010));
    packet = announce(1, &station);
    ask_packet("the first announce, another way", &packet, GROWTH_ROOM, 1011);
    packet = counted(&station, 43);
    ask_packet("a count goes that way", &packet, COLD_STORE, 1012);
    return station;
}

int main(void)
{
    set_up();
    haskumye_address station = morning();
    struct packet packet = counted(&station, 44);
    ask_packet("a count after the path ran out", &packet, COLD_STORE, 30000);
    for (uint8_t plants = 0; accepted < HASKUMYE_LIST_LIMIT; plants++) {
        packet = written((haskumye_parts){.destination = desk}, &plants, sizeof plants);
        ask_packet(plants == 0 ? "counts for the desk" : NULL, &packet, GROWTH_ROOM, 30001);
    }
    printf("..\n%u answers of %u agreed, output bytes too; %u calls are listed\n", asked, asked, accepted);

    uint8_t output[HASKUMYE_OUTPUT_SIZE];
    haskumye_text text;
    haskumye_answer answer = haskumye_opinion_packet(packet.bytes, packet.length, GROWTH_ROOM, 30002, 1, &list, output,
                                                     sizeof output);
    haskumye_sentence(answer, &text);
    printf("the next call: refused %u, %s\n", HASKUMYE_ANSWER_REFUSAL(answer), text.bytes);
    return 0;
}
