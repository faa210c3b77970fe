/*
 * A relay box: UDP on the loopback interface in the place of radios and cables. README.md tells how it is used.
 *
 *     box FOLDER    FOLDER/wires says which wires there are; the box keeps its state and its status page there too
 *
 * SIGHUP reads the wires again and renumbers the ports while the box runs, SIGUSR1 writes the status page, SIGTERM
 * saves and ends. Nothing is signed here: a box with keys verifies in `signed_well`, only where the core asks for it.
 */
#define _GNU_SOURCE
#include "status.h"
#include "wires.h"
#include <arpa/inet.h>
#include <poll.h>
#include <signal.h>
#include <stdio.h>
#include <stdlib.h>
#include <string.h>
#include <sys/socket.h>
#include <time.h>
#include <unistd.h>

enum { FRAME_SIZE = 2048, PATH_SIZE = 256, SIGNATURE = 64, ANNOUNCE = 148, SAVE_EVERY = 300 /* seconds */ };

static struct state state;
static struct wires wires;
static struct pollfd sockets[HASKUMYE_PORT_COUNT]; /* of wire i: wires keep their order while the box runs */
static uint8_t output[HASKUMYE_OUTPUT_SIZE];
static unsigned verified;
static const char *folder;
static uint64_t clock_at_start;
static time_t started, saved;

static volatile sig_atomic_t wires_changed, page_wanted, ended;

static void on_signal(int number)
{
    wires_changed |= number == SIGHUP;
    page_wanted |= number == SIGUSR1;
    ended |= number == SIGTERM;
}

static void give_up(const char *what)
{
    fprintf(stderr, "box: %s\n", what);
    exit(1);
}

static void expect_done(const char *what, unsigned refusal)
{
    if (refusal != HASKUMYE_REFUSAL_NONE) {
        fprintf(stderr, "box: %s: refused %u: %s\n", what, refusal, haskumye_refusal_words(refusal));
        exit(1);
    }
}

static time_t monotonic_seconds(void)
{
    struct timespec now;
    clock_gettime(CLOCK_MONOTONIC, &now);
    return now.tv_sec;
}

/* Seconds that never go back: from where the relay was when the box started. */
static uint64_t clock_now(void)
{
    return clock_at_start + (uint64_t)(monotonic_seconds() - started);
}

/* ---- what leaves ---- */

static void send_by(const struct wire *wire, const uint8_t *bytes, size_t length)
{
    struct sockaddr_in to = {.sin_family = AF_INET, .sin_port = htons(wire->sends_to)};
    to.sin_addr.s_addr = htonl(INADDR_LOOPBACK);
    sendto(sockets[wire - wires.wire].fd, bytes, length, 0, (struct sockaddr *)&to, sizeof to); /* lost, as by radio */
}

static void transmit(unsigned port, size_t length)
{
    const struct wire *wire = wire_at(&wires, port);
    if (wire != NULL) {
        printf(" %s (%u)", wire->name, port);
        send_by(wire, output, length);
    }
}

static void transmit_by_each(haskumye_answer answer)
{
    for (unsigned port = 0; port < HASKUMYE_PORT_COUNT; port++) {
        if (HASKUMYE_ANSWER_HAS_PORT(answer, port)) {
            transmit(port, HASKUMYE_ANSWER_LENGTH(answer));
        }
    }
}

static size_t write_packet(const haskumye_parts *parts, const uint8_t *payload, size_t length, uint8_t *packet)
{
    haskumye_written written = haskumye_write(parts, payload, length, packet, HASKUMYE_OUTPUT_SIZE);
    expect_done("writing a packet", HASKUMYE_WRITTEN_REFUSAL(written));
    return HASKUMYE_WRITTEN_LENGTH(written);
}

/* The receipt for a delivered packet goes back by the wire that it came in by. */
static void send_receipt(const struct wire *wire, const uint8_t *packet, size_t length)
{
    static const uint8_t signature[SIGNATURE];
    uint8_t receipt[HASKUMYE_OUTPUT_SIZE];
    haskumye_parts parts = {.header = HASKUMYE_PACKET_PROOF};
    haskumye_hash hash;
    expect_done("hashing", haskumye_packet_hash(packet, length, &hash));
    memcpy(parts.destination.bytes, hash.bytes, sizeof parts.destination.bytes);
    send_by(wire, receipt, write_packet(&parts, signature, sizeof signature, receipt));
}

/* ---- what comes in ---- */

/* The host's word. Verifying costs fifty times a packet call, so it is asked only where the word is read. */
static uint8_t signed_well(const struct wire *wire, const uint8_t *packet, size_t length, uint64_t clock)
{
    if (haskumye_signature_matters(packet, length, wire->port, clock, state.tables, sizeof state.tables,
                                   sizeof output) != HASKUMYE_VERIFY) {
        return 0;
    }
    verified++;
    return 1;
}

/* A refusal or a drop: `drop 6.3 22600: no path to this destination: the last one ran out at 22600`. */
static void print_why(haskumye_answer answer)
{
    haskumye_text text, sentence;
    haskumye_answer_text(answer, &text);
    haskumye_sentence(answer, &sentence);
    printf("%s: %s", text.bytes, sentence.bytes);
}

static void act(const struct wire *wire, haskumye_answer answer, const uint8_t *packet, size_t length)
{
    size_t payload = HASKUMYE_ANSWER_PAYLOAD(answer);
    printf("%s (%u) ", wire->name, wire->port);
    switch (HASKUMYE_ANSWER_KIND(answer)) {
    case HASKUMYE_REFUSED:
    case HASKUMYE_DROP:
        print_why(answer);
        break;
    case HASKUMYE_DELIVER:
        printf("deliver %.*s", (int)(length - payload), (const char *)packet + payload);
        send_receipt(wire, packet, length);
        break;
    case HASKUMYE_FORWARD:
        printf("forward");
        transmit(HASKUMYE_ANSWER_PORT(answer), HASKUMYE_ANSWER_LENGTH(answer));
        break;
    case HASKUMYE_SPREAD:
        printf("spread");
        transmit_by_each(answer);
        break;
    default:
        printf("kept");
        break;
    }
    printf("\n");
}

static void take_in(const struct wire *wire, int socket)
{
    uint8_t packet[FRAME_SIZE]; /* longer than any packet: the core says which are too long */
    ssize_t length = recv(socket, packet, sizeof packet, MSG_DONTWAIT);
    if (length < 0) {
        return;
    }
    uint64_t clock = clock_now();
    uint8_t word = signed_well(wire, packet, (size_t)length, clock);
    act(wire,
        haskumye_packet(packet, (size_t)length, wire->port, clock, word, state.tables, sizeof state.tables, output,
                        sizeof output, &state.tally),
        packet, (size_t)length);
}

/* ---- the state ---- */

/* A box that cannot save goes on: what is lost then is lost only if the power is. */
static int save(void)
{
    saved = monotonic_seconds();
    if (!save_state(folder, &state)) {
        fprintf(stderr, "box: the state could not be saved\n");
        return 0;
    }
    return 1;
}

static int read_wires_file(struct wires *into)
{
    char path[PATH_SIZE];
    snprintf(path, sizeof path, "%s/wires", folder);
    return read_wires(path, into);
}

static void set_announce_rate(const struct wires *from)
{
    expect_done("setting the announce rate",
                haskumye_set_announce_rate(state.tables, sizeof state.tables, from->rate_target, from->rate_grace,
                                           from->rate_penalty));
}

/* Ports by their new numbers, wires and tables in one step: between two packets nothing else is under way. */
static void renumber(void)
{
    struct wires changed;
    char names[HASKUMYE_PORT_COUNT][NAME_SIZE];
    if (!read_wires_file(&changed)) {
        return; /* the box goes on with the numbers that it has */
    }
    haskumye_port_map map = map_to(&changed, state.wires);
    expect_done("renumbering", haskumye_renumber(state.tables, sizeof state.tables, &map));
    set_announce_rate(&changed);
    for (unsigned i = 0; i < wires.count; i++) {
        wires.wire[i].port = map.to[wires.wire[i].port];
    }
    memcpy(names, state.wires, sizeof names);
    for (unsigned port = 0; port < HASKUMYE_PORT_COUNT; port++) {
        memcpy(state.wires[map.to[port]], names[port], NAME_SIZE);
    }
    save();
    printf("renumbered\n");
}

/* A wire has the port that it had, whatever the file says: only a renumbering gives it another. */
static void take_saved_ports(void)
{
    for (unsigned i = 0; i < wires.count; i++) {
        for (unsigned port = 0; port < HASKUMYE_PORT_COUNT; port++) {
            if (strncmp(state.wires[port], wires.wire[i].name, NAME_SIZE) == 0) {
                wires.wire[i].port = (uint8_t)port;
            }
        }
    }
}

/* A port with a wire is on. One whose wire is gone is off, and keeps mode, size and name until the wire comes back. */
static void set_ports(void)
{
    unsigned set = 0;
    for (unsigned port = 0; port < HASKUMYE_PORT_COUNT; port++) {
        const struct wire *wire = wire_at(&wires, port);
        haskumye_port_settings settings;
        expect_done("reading a port", haskumye_port(state.tables, sizeof state.tables, port, &settings));
        unsigned size = haskumye_size_number(settings.size);
        settings.on = HASKUMYE_OFF;
        if (wire != NULL) {
            settings.on = HASKUMYE_ON;
            settings.mode = wire->mode;
            size = wire->size;
            memcpy(state.wires[port], wire->name, NAME_SIZE);
            set++;
        }
        expect_done("setting a port",
                    haskumye_set_port(state.tables, sizeof state.tables, port, settings.on, settings.mode, size));
    }
    if (set != wires.count) {
        give_up("a new wire has the port of another: give it a free one");
    }
}

static void restore(void)
{
    enum loaded loaded = load_state(folder, &state);
    if (loaded == OTHER_EDITION) {
        give_up("a newer box saved the state: start that one, or take the file away");
    }
    if (loaded == NOT_WHOLE) {
        fprintf(stderr, "box: the saved state is not whole: starting fresh\n");
    }
    if (loaded != LOADED) {
        memset(&state, 0, sizeof state);
        expect_done("fresh", haskumye_fresh(state.tables, sizeof state.tables, &wires.own));
    }
    take_saved_ports();
    set_ports();
    set_announce_rate(&wires);
    expect_done("reading the clock", haskumye_last_clock(state.tables, sizeof state.tables, &clock_at_start));
    started = monotonic_seconds();
    printf("%s at clock %llu\n", loaded == LOADED ? "restored" : "fresh", (unsigned long long)clock_at_start);
}

/* ---- the desk: an address of this box's own, announced by every wire ---- */

/* The wall clock's time, or one more than the last emission where that is not later. */
static uint64_t next_emission(void)
{
    uint64_t now = (uint64_t)time(NULL);
    state.last_emission = now > state.last_emission ? now : state.last_emission + 1;
    return state.last_emission;
}

static void announce_desk(void)
{
    uint8_t payload[ANNOUNCE], announce[HASKUMYE_OUTPUT_SIZE];
    haskumye_parts parts = {.header = HASKUMYE_PACKET_ANNOUNCE};
    uint64_t emission = next_emission();
    memset(payload, wires.desk_key, sizeof payload);
    for (unsigned i = 0; i < 5; i++) {
        payload[HASKUMYE_ANNOUNCE_EMISSION + i] = (uint8_t)(emission >> (8 * (4 - i)));
    }
    haskumye_announced_destination(payload, sizeof payload, &parts.destination);
    unsigned refusal = haskumye_add_local(state.tables, sizeof state.tables, &parts.destination);
    if (refusal != HASKUMYE_REFUSAL_LOCAL_ADDRESS) { /* after a restart it is there already */
        expect_done("adding the desk", refusal);
    }
    size_t length = write_packet(&parts, payload, sizeof payload, announce);
    for (unsigned i = 0; i < wires.count; i++) {
        send_by(&wires.wire[i], announce, length);
    }
}

/* ---- the loop ---- */

static void open_socket(unsigned i)
{
    struct sockaddr_in at = {.sin_family = AF_INET, .sin_port = htons(wires.wire[i].listens)};
    at.sin_addr.s_addr = htonl(INADDR_LOOPBACK);
    int opened = socket(AF_INET, SOCK_DGRAM | SOCK_CLOEXEC, 0);
    if (opened < 0 || bind(opened, (struct sockaddr *)&at, sizeof at) != 0) {
        perror(wires.wire[i].name);
        exit(1);
    }
    sockets[i] = (struct pollfd){.fd = opened, .events = POLLIN};
}

static void do_what_was_asked(void)
{
    if (wires_changed) {
        wires_changed = 0;
        renumber();
    }
    if (page_wanted) {
        page_wanted = 0;
        if (!write_status(folder, &state, clock_now(), verified)) {
            perror("status");
        }
    }
}

/* Signals are let in only while the box waits, so that none comes between a look at its flag and the wait. */
static void run(const sigset_t *waiting)
{
    static const struct timespec longest = {.tv_sec = SAVE_EVERY};
    while (!ended) {
        do_what_was_asked();
        if (monotonic_seconds() - saved >= SAVE_EVERY) {
            save();
        }
        if (ppoll(sockets, wires.count, &longest, waiting) <= 0) {
            continue;
        }
        for (unsigned i = 0; i < wires.count; i++) {
            if (sockets[i].revents & POLLIN) {
                take_in(&wires.wire[i], sockets[i].fd);
            }
        }
    }
}

static void catch_signals(sigset_t *waiting)
{
    static const int caught[] = {SIGHUP, SIGUSR1, SIGTERM};
    struct sigaction action = {.sa_handler = on_signal};
    sigset_t held;
    sigemptyset(&held);
    for (unsigned i = 0; i < sizeof caught / sizeof caught[0]; i++) {
        sigaddset(&held, caught[i]);
        sigaction(caught[i], &action, NULL);
    }
    sigprocmask(SIG_BLOCK, &held, waiting);
    for (unsigned i = 0; i < sizeof caught / sizeof caught[0]; i++) {
        sigdelset(waiting, caught[i]);
    }
}

int main(int count, char **arguments)
{
    sigset_t waiting;
    if (count != 2) {
        give_up("usage: box FOLDER");
    }
    if (!haskumye_matches_header()) {
        give_up("the library is of another version than its header");
    }
    folder = arguments[1];
    setvbuf(stdout, NULL, _IOLBF, 0);
    catch_signals(&waiting);
    if (!read_wires_file(&wires)) {
        give_up("no wires");
    }
    for (unsigned i = 0; i < wires.count; i++) {
        open_socket(i);
    }
    restore();
    if (wires.has_desk) {
        announce_desk();
    }
    save(); /* ports, addresses and the emission are set: a power cut must not take them back */
    run(&waiting);
    if (!save()) {
        return 1;
    }
    printf("saved\n");
    return 0;
}
