#include "status.h"
#include <stdio.h>

enum { PATH_SIZE = 256 };

static void print_address(FILE *page, const haskumye_address *address)
{
    for (unsigned i = 0; i < sizeof address->bytes; i++) {
        fprintf(page, "%02x", address->bytes[i]);
    }
}

/* How long a record lives on, or that it does not. */
static void print_expiry(FILE *page, haskumye_time expiry, uint64_t clock)
{
    uint64_t seconds = haskumye_seconds(expiry);
    if (clock < seconds) {
        fprintf(page, " expires in %llu s\n", (unsigned long long)(seconds - clock));
    } else {
        fprintf(page, " expired\n");
    }
}

static void print_ports(FILE *page, const struct state *state)
{
    haskumye_port_settings port;
    for (unsigned i = 0; i < HASKUMYE_PORT_COUNT; i++) {
        if (haskumye_port(state->tables, sizeof state->tables, i, &port) == HASKUMYE_REFUSAL_NONE && port.on) {
            fprintf(page, "port %u %s %.16s", i, haskumye_mode_words(port.mode), state->wires[i]);
            if (haskumye_size_number(port.size) < HASKUMYE_LONGEST_PACKET) {
                fprintf(page, " up to %u bytes", haskumye_size_number(port.size));
            }
            fprintf(page, "\n");
        }
    }
}

static void print_rate(FILE *page, const struct state *state)
{
    haskumye_rate_settings rate;
    if (haskumye_announce_rate(state->tables, sizeof state->tables, &rate) == HASKUMYE_REFUSAL_NONE &&
        haskumye_setting_number(rate.target) > 0) {
        fprintf(page, "announce rate target %u grace %u penalty %u\n", haskumye_setting_number(rate.target),
                haskumye_setting_number(rate.grace), haskumye_setting_number(rate.penalty));
    }
}

static void print_locals(FILE *page, const struct state *state)
{
    haskumye_address address;
    for (unsigned i = 0; i < HASKUMYE_LOCAL_COUNT; i++) {
        if (haskumye_local(state->tables, sizeof state->tables, i, &address) == HASKUMYE_REFUSAL_NONE) {
            fprintf(page, "local ");
            print_address(page, &address);
            fprintf(page, "\n");
        }
    }
}

/* Whether the destination announces too often, and for how long it is not heard. */
static void print_blocked(FILE *page, const haskumye_path_record *path, uint64_t clock)
{
    uint64_t until = haskumye_seconds(path->blocked_until);
    if (path->violations > 0) {
        fprintf(page, " violations %u", path->violations);
    }
    if (clock < until) {
        fprintf(page, " blocked for %llu s", (unsigned long long)(until - clock));
    }
}

static void print_paths(FILE *page, const struct state *state, uint64_t clock)
{
    haskumye_path_record path;
    for (unsigned i = 0; i < HASKUMYE_PATH_COUNT; i++) {
        if (haskumye_path(state->tables, sizeof state->tables, i, &path) == HASKUMYE_REFUSAL_NONE) {
            fprintf(page, "path ");
            print_address(page, &path.destination);
            fprintf(page, " hops %u port %u%s", path.hops, path.port, path.unresponsive ? " unresponsive" : "");
            print_blocked(page, &path, clock);
            print_expiry(page, path.expiry, clock);
        }
    }
}

static void print_links(FILE *page, const struct state *state, uint64_t clock)
{
    haskumye_link_record link;
    for (unsigned i = 0; i < HASKUMYE_LINK_COUNT; i++) {
        if (haskumye_link(state->tables, sizeof state->tables, i, &link) == HASKUMYE_REFUSAL_NONE) {
            fprintf(page, "link ");
            print_address(page, &link.id);
            fprintf(page, " ports %u and %u%s", link.asking, link.answering, link.proved ? "" : " not proved");
            print_expiry(page, link.expiry, clock);
        }
    }
}

static void print_counts(FILE *page, const struct state *state, uint64_t clock, unsigned verified)
{
    const haskumye_tally *tally = &state->tally;
    uint64_t receipts, hashes;
    if (haskumye_live_returns(state->tables, sizeof state->tables, clock, &receipts) == HASKUMYE_REFUSAL_NONE &&
        haskumye_live_hashes(state->tables, sizeof state->tables, clock, &hashes) == HASKUMYE_REFUSAL_NONE) {
        fprintf(page, "receipts under way %llu\npackets remembered %llu\n", (unsigned long long)receipts,
                (unsigned long long)hashes);
    }
    fprintf(page, "packets %u dropped %u delivered %u forwarded %u spread %u kept %u\n", tally->total, tally->dropped,
            tally->delivered, tally->forwarded, tally->spread, tally->kept);
    fprintf(page, "signatures verified %u\n", verified);
}

int write_status(const char *folder, const struct state *state, uint64_t clock, unsigned verified)
{
    char being_written[PATH_SIZE], name[PATH_SIZE];
    snprintf(being_written, sizeof being_written, "%s/status.new", folder);
    snprintf(name, sizeof name, "%s/status", folder);
    FILE *page = fopen(being_written, "w");
    if (page == NULL) {
        return 0;
    }
    print_ports(page, state);
    print_rate(page, state);
    print_locals(page, state);
    print_paths(page, state, clock);
    print_links(page, state, clock);
    print_counts(page, state, clock, verified);
    return fclose(page) == 0 && rename(being_written, name) == 0;
}
