/*
 * The story of a receipt with three boxes, each a process of its own, on the loopback interface.
 *
 *     story BOX FOLDER    BOX is the program box; FOLDER is empty, and gets a folder for each box
 *     story loopback      says whether there is UDP on the loopback interface
 *
 * This program is the terminal in the growth room, and the maintainer. The cold store is renumbered while a count is on
 * its way, and is stopped and started again later; both times the receipt comes home. It ends by itself: what does not
 * happen within ten seconds is told as such.
 */
#define _GNU_SOURCE
#include "haskumye.h"
#include <arpa/inet.h>
#include <errno.h>
#include <fcntl.h>
#include <signal.h>
#include <stdio.h>
#include <stdlib.h>
#include <string.h>
#include <sys/prctl.h>
#include <sys/socket.h>
#include <sys/stat.h>
#include <sys/time.h>
#include <sys/wait.h>
#include <unistd.h>

enum { GROWTH, COLD, DESK, BOXES };
enum { TERMINAL, GROWTH_TERMINAL, GROWTH_RADIO, COLD_NORTH, COLD_CABLE, COLD_SOUTH, DESK_CABLE, NOWHERE, PLACES };
enum { PATH_SIZE = 256, FRAME_SIZE = 2048, TRIES = 1000, WAIT_US = 10000 };

static const char *const names[BOXES] = {"growth", "cold", "desk"};
static const char *program, *folder;
static pid_t boxes[BOXES];
static int terminal;
static unsigned udp[PLACES];

/* Ended by SIGTERM, a box has said all that it did. */
static void stop_all(int signal_number)
{
    for (int i = 0; i < BOXES; i++) {
        if (boxes[i] > 0) {
            kill(boxes[i], signal_number);
            waitpid(boxes[i], NULL, 0);
            boxes[i] = 0;
        }
    }
}

static void fail(const char *what)
{
    printf("did not happen: %s\n", what);
    stop_all(SIGKILL);
    exit(1);
}

static void path_of(int box, const char *file, char path[PATH_SIZE])
{
    snprintf(path, PATH_SIZE, "%s/%s/%s", folder, names[box], file);
}

/* ---- wires ---- */

static struct sockaddr_in loopback(unsigned number)
{
    struct sockaddr_in address = {.sin_family = AF_INET, .sin_port = htons((uint16_t)number)};
    address.sin_addr.s_addr = htonl(INADDR_LOOPBACK);
    return address;
}

/* A socket at the next free number from `from` on, or -1 where there is no UDP on the loopback interface. */
static int socket_from(unsigned *from)
{
    int opened = socket(AF_INET, SOCK_DGRAM | SOCK_CLOEXEC, 0);
    for (; opened >= 0; (*from)++) {
        struct sockaddr_in at = loopback(*from);
        if (bind(opened, (struct sockaddr *)&at, sizeof at) == 0) {
            return opened;
        }
        if (errno != EADDRINUSE) {
            close(opened);
            return -1;
        }
    }
    return -1;
}

/*
 * All but the terminal's socket are closed again, for the boxes. The system gives programs that ask for any number one
 * of 32768 and more; these are lower, so that none takes one of them before its box does.
 */
static void choose_numbers(void)
{
    int opened[PLACES];
    struct timeval limit = {.tv_sec = 10};
    unsigned next = 20000 + (unsigned)getpid() % 1000 * PLACES;
    for (int i = 0; i < PLACES; i++) {
        opened[i] = socket_from(&next);
        if (opened[i] < 0) {
            fail("UDP on the loopback interface");
        }
        udp[i] = next++;
    }
    terminal = opened[TERMINAL];
    setsockopt(terminal, SOL_SOCKET, SO_RCVTIMEO, &limit, sizeof limit);
    for (int i = TERMINAL + 1; i < PLACES; i++) {
        close(opened[i]);
    }
    /* Where the interface is down, a socket is there and nothing comes. */
    struct sockaddr_in to = loopback(udp[TERMINAL]);
    char byte = 0;
    if (sendto(terminal, &byte, 1, 0, (struct sockaddr *)&to, sizeof to) != 1 || recv(terminal, &byte, 1, 0) != 1) {
        fail("UDP on the loopback interface");
    }
}

static FILE *wires_of(int box)
{
    char path[PATH_SIZE];
    snprintf(path, sizeof path, "%s/%s", folder, names[box]);
    mkdir(path, 0700);
    path_of(box, "wires", path);
    FILE *file = fopen(path, "w");
    if (file == NULL) {
        fail("a wires file");
    }
    return file;
}

static void wire_cold_store(unsigned cable, unsigned north, unsigned south)
{
    FILE *file = wires_of(COLD);
    fprintf(file, "own cold-store\nannounce-rate 3600 5 7200\n");
    fprintf(file, "wire cable %u boundary %u %u\n", cable, udp[COLD_CABLE], udp[DESK_CABLE]);
    fprintf(file, "wire radio-north %u roaming %u %u\n", north, udp[COLD_NORTH], udp[GROWTH_RADIO]);
    fprintf(file, "wire radio-south %u roaming %u %u 255\n", south, udp[COLD_SOUTH], udp[NOWHERE]);
    fclose(file);
}

static void wire_the_others(void)
{
    FILE *file = wires_of(GROWTH);
    fprintf(file, "own growth-room\n");
    fprintf(file, "wire terminal 0 access-point %u %u\n", udp[GROWTH_TERMINAL], udp[TERMINAL]);
    fprintf(file, "wire radio 1 roaming %u %u\n", udp[GROWTH_RADIO], udp[COLD_NORTH]);
    fclose(file);
    file = wires_of(DESK);
    fprintf(file, "own desk\ndesk de\n");
    fprintf(file, "wire cable 0 boundary %u %u\n", udp[DESK_CABLE], udp[COLD_CABLE]);
    fclose(file);
}

/* ---- boxes ---- */

static void start_box(int box)
{
    char log[PATH_SIZE], own[PATH_SIZE];
    path_of(box, "log", log);
    snprintf(own, sizeof own, "%s/%s", folder, names[box]);
    boxes[box] = fork();
    if (boxes[box] == 0) {
        prctl(PR_SET_PDEATHSIG, SIGKILL); /* however the story ends, its boxes end with it */
        int to = open(log, O_WRONLY | O_CREAT | O_APPEND, 0600);
        dup2(to, STDOUT_FILENO);
        execl(program, program, own, (char *)NULL);
        _exit(127);
    }
    if (boxes[box] < 0) {
        fail("starting a box");
    }
}

/* A line without what a clock says in it, so that each run prints the same. */
static void print_line(int box, const char *line)
{
    const char *expiry = strstr(line, " expires");
    size_t length = expiry == NULL ? strcspn(line, "\n") : (size_t)(expiry - line);
    printf("  %-7s%.*s\n", names[box], (int)length, line);
}

/* How many lines of a file contain the words; those lines are printed where they are wanted. */
static int lines_with(int box, const char *file_name, const char *words, int printed)
{
    char path[PATH_SIZE], line[PATH_SIZE];
    int found = 0;
    path_of(box, file_name, path);
    FILE *file = fopen(path, "r");
    while (file != NULL && fgets(line, sizeof line, file) != NULL) {
        if (strstr(line, words) != NULL) {
            found++;
            if (printed) {
                print_line(box, line);
            }
        }
    }
    if (file != NULL) {
        fclose(file);
    }
    return found;
}

/* Waits until a box has said something for the n-th time. */
static void wait_for(int box, const char *words, int n)
{
    for (int i = 0; i < TRIES; i++) {
        if (lines_with(box, "log", words, 0) >= n) {
            return;
        }
        usleep(WAIT_US);
    }
    fail(words);
}

/* ---- the terminal ---- */

static size_t hear(uint8_t *packet, unsigned kind, const char *what)
{
    for (;;) {
        ssize_t length = recv(terminal, packet, FRAME_SIZE, 0);
        if (length < HASKUMYE_SHORTEST_PACKET) {
            fail(what);
        }
        if ((packet[0] & HASKUMYE_PACKET_KIND) == kind) {
            return (size_t)length;
        }
    }
}

/* Sends a count to the desk, and notes its hash, to which the receipt is addressed. */
static void send_count(const haskumye_address *desk, const char *text, haskumye_hash *hash)
{
    uint8_t packet[HASKUMYE_OUTPUT_SIZE];
    haskumye_parts parts = {.header = HASKUMYE_HEADER_TYPE_2 | HASKUMYE_HEADER_TRANSPORT | HASKUMYE_PACKET_DATA,
                            .relay = {"growth-room"},
                            .destination = *desk};
    struct sockaddr_in to = loopback(udp[GROWTH_TERMINAL]);
    haskumye_written written = haskumye_write(&parts, (const uint8_t *)text, strlen(text), packet, sizeof packet);
    size_t length = HASKUMYE_WRITTEN_LENGTH(written);
    if (HASKUMYE_WRITTEN_REFUSAL(written) != HASKUMYE_REFUSAL_NONE ||
        haskumye_packet_hash(packet, length, hash) != HASKUMYE_REFUSAL_NONE ||
        sendto(terminal, packet, length, 0, (struct sockaddr *)&to, sizeof to) < 0) {
        fail("a count");
    }
    printf("terminal sends \"%s\"\n", text);
}

static void expect_receipt(const haskumye_hash *hash)
{
    uint8_t packet[FRAME_SIZE];
    haskumye_parts parts;
    size_t length = hear(packet, HASKUMYE_PACKET_PROOF, "the receipt");
    if (haskumye_read(packet, length, HASKUMYE_LONGEST_PACKET, &parts) != HASKUMYE_REFUSAL_NONE ||
        memcmp(parts.destination.bytes, hash->bytes, sizeof parts.destination.bytes) != 0) {
        fail("the receipt for this count");
    }
    printf("terminal has its receipt\n");
}

/* ---- the story ---- */

static haskumye_address desk_announces(void)
{
    uint8_t packet[FRAME_SIZE];
    haskumye_parts parts;
    wait_for(GROWTH, "fresh", 1);
    wait_for(COLD, "fresh", 1);
    start_box(DESK);
    size_t length = hear(packet, HASKUMYE_PACKET_ANNOUNCE, "the desk's announce");
    if (haskumye_read(packet, length, HASKUMYE_LONGEST_PACKET, &parts) != HASKUMYE_REFUSAL_NONE) {
        fail("the desk's address");
    }
    printf("terminal knows the way to the desk\n");
    return parts.destination;
}

/* The desk's box is held while the cold store is renumbered, so that the receipt comes after it. */
static void renumbered_while_it_runs(const haskumye_address *desk)
{
    haskumye_hash hash;
    kill(boxes[DESK], SIGSTOP);
    send_count(desk, "line 7: 42 plants", &hash);
    wait_for(COLD, "forward", 1);
    wire_cold_store(2, 0, 1);
    kill(boxes[COLD], SIGHUP);
    wait_for(COLD, "renumbered", 1);
    printf("maintainer renumbers the cold store: cable is 2, radio-north 0, radio-south 1\n");
    kill(boxes[DESK], SIGCONT);
    expect_receipt(&hash);
}

static void stopped_and_started_again(const haskumye_address *desk)
{
    haskumye_hash hash;
    kill(boxes[COLD], SIGTERM);
    waitpid(boxes[COLD], NULL, 0);
    start_box(COLD);
    wait_for(COLD, "restored", 1);
    printf("maintainer stops the cold store, and starts it again\n");
    send_count(desk, "line 8: 17 plants", &hash);
    expect_receipt(&hash);
}

static void look_at_the_page(int box)
{
    char path[PATH_SIZE];
    path_of(box, "status", path);
    kill(boxes[box], SIGUSR1);
    for (int i = 0; i < TRIES && access(path, R_OK) != 0; i++) {
        usleep(WAIT_US);
    }
    printf("status page:\n");
    lines_with(box, "status", "", 1);
    if (lines_with(box, "status", "receipts under way 0", 0) != 1) {
        fail("the status page");
    }
}

int main(int count, char **arguments)
{
    if (count == 2 && strcmp(arguments[1], "loopback") == 0) {
        choose_numbers();
        return 0;
    }
    if (count != 3 || !haskumye_matches_header()) {
        fprintf(stderr, "usage: story BOX FOLDER, with the library of this header\n");
        return 1;
    }
    program = arguments[1];
    folder = arguments[2];
    alarm(60);
    setvbuf(stdout, NULL, _IOLBF, 0);
    choose_numbers();
    wire_cold_store(0, 1, 2);
    wire_the_others();
    start_box(GROWTH);
    start_box(COLD);
    haskumye_address desk = desk_announces();
    renumbered_while_it_runs(&desk);
    stopped_and_started_again(&desk);
    look_at_the_page(GROWTH);
    look_at_the_page(COLD);
    stop_all(SIGTERM);
    printf("what the boxes did:\n");
    for (int i = 0; i < BOXES; i++) {
        lines_with(i, "log", "(", 1);
    }
    return 0;
}
