/*
 * The desk announces itself, with a real Ed25519 (OpenSSL's libcrypto), and a relay elsewhere verifies the announce,
 * takes it in and spreads it. One that another key signed is dropped by 9. Seeds and random bytes are fixed, so that it
 * prints the same each time: a box keeps its seeds secret, and takes the random bytes from the system.
 */
#include "haskumye.h"
#include <openssl/evp.h>
#include <stdio.h>
#include <stdlib.h>
#include <string.h>

enum { KEY = 32, KEYS = 64, NAME_HASH = 10, RANDOM = 5, RATCHET = 32, SIGNATURE = 64 };
enum { DESK = 1, ROOM = 2, CLOCK = 1000 }; /* the relay's ports and its clock */

struct bytes {
    uint8_t bytes[HASKUMYE_OUTPUT_SIZE];
    size_t length;
};

/* The parts of an announce. */
struct announce {
    const uint8_t *keys, *name_hash, *random, *ratchet, *app_data;
    size_t ratchet_length, app_data_length;
    uint64_t emission;
};

static void expect(int holds, const char *what)
{
    if (!holds) {
        fprintf(stderr, "failed: %s\n", what);
        exit(1);
    }
}

/* A private key of libcrypto, and its public key. */
static EVP_PKEY *key_of(int kind, const char *seed, uint8_t public[KEY])
{
    uint8_t private[KEY] = {0};
    size_t length = KEY;
    memcpy(private, seed, strlen(seed));
    EVP_PKEY *key = EVP_PKEY_new_raw_private_key(kind, NULL, private, sizeof private);
    expect(key != NULL && EVP_PKEY_get_raw_public_key(key, public, &length) == 1, "a key of a seed");
    return key;
}

static void sign(EVP_PKEY *key, const struct bytes *message, uint8_t signature[SIGNATURE])
{
    size_t length = SIGNATURE;
    EVP_MD_CTX *context = EVP_MD_CTX_new();
    expect(EVP_DigestSignInit(context, NULL, NULL, NULL, key) == 1, "a key that signs");
    expect(EVP_DigestSign(context, signature, &length, message->bytes, message->length) == 1, "signing");
    EVP_MD_CTX_free(context);
}

static int verified(const uint8_t public[KEY], const struct bytes *message, const uint8_t signature[SIGNATURE])
{
    EVP_PKEY *key = EVP_PKEY_new_raw_public_key(EVP_PKEY_ED25519, NULL, public, KEY);
    EVP_MD_CTX *context = EVP_MD_CTX_new();
    int good = key != NULL && EVP_DigestVerifyInit(context, NULL, NULL, NULL, key) == 1 &&
               EVP_DigestVerify(context, signature, SIGNATURE, message->bytes, message->length) == 1;
    EVP_MD_CTX_free(context);
    EVP_PKEY_free(key);
    return good;
}

/* The bytes that are signed of these parts. */
static struct bytes signing_bytes(const struct announce *parts)
{
    struct bytes signing;
    haskumye_written written = haskumye_announce_signing_bytes(
        parts->keys, KEYS, parts->name_hash, NAME_HASH, parts->random, RANDOM, parts->emission, parts->ratchet,
        parts->ratchet_length, parts->app_data, parts->app_data_length, signing.bytes, sizeof signing.bytes);
    expect(HASKUMYE_WRITTEN_REFUSAL(written) == HASKUMYE_REFUSAL_NONE, "laying out the bytes to sign");
    signing.length = HASKUMYE_WRITTEN_LENGTH(written);
    return signing;
}

/* The announce of these parts, signed by a key. */
static struct bytes built(const struct announce *parts, EVP_PKEY *key)
{
    uint8_t signature[SIGNATURE];
    struct bytes signing = signing_bytes(parts), packet;
    sign(key, &signing, signature);
    haskumye_written written = haskumye_build_announce(
        parts->keys, KEYS, parts->name_hash, NAME_HASH, parts->random, RANDOM, parts->emission, parts->ratchet,
        parts->ratchet_length, parts->app_data, parts->app_data_length, signature, sizeof signature, packet.bytes,
        sizeof packet.bytes);
    expect(HASKUMYE_WRITTEN_REFUSAL(written) == HASKUMYE_REFUSAL_NONE, "building the announce");
    packet.length = HASKUMYE_WRITTEN_LENGTH(written);
    return packet;
}

/*
 * Whether an announce that came in is signed well. The parts are the packet's own; its destination is not among them,
 * since the core itself tests that it belongs to the keys.
 */
static int signed_well(const struct bytes *packet)
{
    size_t start = haskumye_payload_start(packet->bytes, packet->length), length = packet->length - start;
    const uint8_t *payload = packet->bytes + start;
    if (length < haskumye_least_announce(packet->bytes[0])) {
        return 0;
    }
    haskumye_blob blob;
    memcpy(blob.bytes, payload + HASKUMYE_ANNOUNCE_BLOB, sizeof blob.bytes);
    struct announce parts = {.keys = payload + HASKUMYE_ANNOUNCE_KEYS,
                             .name_hash = payload + HASKUMYE_ANNOUNCE_NAME_HASH,
                             .random = payload + HASKUMYE_ANNOUNCE_BLOB,
                             .ratchet = payload + HASKUMYE_ANNOUNCE_BLOB + sizeof blob.bytes,
                             .emission = haskumye_emission(&blob)};
    parts.ratchet_length = packet->bytes[0] & HASKUMYE_HEADER_CONTEXT_FLAG ? RATCHET : 0;
    const uint8_t *signature = parts.ratchet + parts.ratchet_length;
    parts.app_data = signature + SIGNATURE;
    parts.app_data_length = (size_t)(payload + length - parts.app_data);
    struct bytes signing = signing_bytes(&parts);
    return verified(parts.keys + KEY, &signing, signature);
}

static void print_line(const struct bytes *packet)
{
    haskumye_text text;
    haskumye_line(packet->bytes, packet->length, &text);
    printf("  %s", text.bytes);
}

/* The relay takes a packet in by the desk's port. It verifies only what the core asks for. */
static void take_in(const char *title, const struct bytes *packet, uint8_t *tables, haskumye_tally *tally)
{
    struct bytes output;
    uint8_t asked = haskumye_signature_matters(packet->bytes, packet->length, DESK, CLOCK, tables, HASKUMYE_TABLE_SIZE,
                                               sizeof output.bytes);
    uint8_t word = asked == HASKUMYE_VERIFY && signed_well(packet);
    haskumye_answer answer = haskumye_packet(packet->bytes, packet->length, DESK, CLOCK, word, tables,
                                             HASKUMYE_TABLE_SIZE, output.bytes, sizeof output.bytes, tally);
    unsigned kind = HASKUMYE_ANSWER_KIND(answer), reason = HASKUMYE_ANSWER_REASON(answer);
    const char *found = asked != HASKUMYE_VERIFY ? "not asked for" : word ? "right" : "wrong";
    printf("%s: signature %s, ", title, found);
    if (kind == HASKUMYE_SPREAD) {
        output.length = HASKUMYE_ANSWER_LENGTH(answer);
        printf("spread%s\n", HASKUMYE_ANSWER_HAS_PORT(answer, ROOM) ? " by port 2" : "");
        print_line(&output);
    } else {
        expect(kind == HASKUMYE_DROP, "a spread or a drop");
        printf("drop %u, %s\n", reason, haskumye_reason_words(reason));
    }
}

int main(void)
{
    static const char name[] = "counting.desk";
    static const uint8_t random[RANDOM] = {0x5a, 0x01, 0x02, 0x03, 0x04};
    static const haskumye_address own = {"cold store"};
    static uint8_t tables[HASKUMYE_TABLE_SIZE];
    static haskumye_tally tally;
    uint8_t keys[KEYS], unused[KEY];
    haskumye_hash name_hash;
    EVP_PKEY *encrypting = key_of(EVP_PKEY_X25519, "the desk, encrypting", keys);
    EVP_PKEY *desk = key_of(EVP_PKEY_ED25519, "the desk, signing", keys + KEY);
    EVP_PKEY *other = key_of(EVP_PKEY_ED25519, "somebody else", unused);

    expect(haskumye_sha256((const uint8_t *)name, strlen(name), &name_hash) == 0, "the name's hash");
    struct announce parts = {.keys = keys, .name_hash = name_hash.bytes, .random = random, .emission = 1700000000};
    parts.app_data = (const uint8_t *)"Desk";
    parts.app_data_length = 4;
    struct bytes announce = built(&parts, desk), wrong = built(&parts, other);
    printf("the desk signs %zu bytes, and sends %zu:\n", signing_bytes(&parts).length, announce.length);
    print_line(&announce);

    expect(haskumye_fresh(tables, sizeof tables, &own) == HASKUMYE_REFUSAL_NONE, "fresh tables");
    for (unsigned port = DESK; port <= ROOM; port++) {
        expect(haskumye_set_port(tables, sizeof tables, port, HASKUMYE_ON, HASKUMYE_MODE_BOUNDARY,
                                 HASKUMYE_LONGEST_PACKET) == 0, "a port");
    }
    take_in("signed by another key", &wrong, tables, &tally);
    take_in("signed by the desk", &announce, tables, &tally);
    take_in("the same again", &announce, tables, &tally);
    EVP_PKEY_free(encrypting);
    EVP_PKEY_free(desk);
    EVP_PKEY_free(other);
    return 0;
}
