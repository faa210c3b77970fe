/*
 * Haskumye: the proved deciding core of a Reticulum relay, for a host in C or C++.
 *
 * A relay is one buffer, its tables, and one tally. The host owns both; the core allocates nothing, keeps nothing
 * between calls and calls nothing but memcpy, memmove and memset. docs/HOST.md embeds it step by step;
 * docs/scope/01-scope.md ("document 01") has the rules.
 *
 * Buffers. A buffer is a pointer and a length, of any alignment. Any length is safe, 0 too, and then the pointer may
 * be NULL. Where a struct stands instead, its size is fixed and its pointer must not be NULL. The buffers of one call
 * must not overlap. A call reads and writes only the buffers it is given, and keeps no pointer to them.
 *
 * Refusals. A refused call returns the refusal's number and changes nothing: no byte of tables, tally, output or
 * answer struct. Every value of every number is safe; one that document 01 does not allow is refused, but for `on` and
 * `signed_well`: there 1 is yes, and every other value is no.
 *
 * Threads. Calls on one relay's tables are made one at a time. Calls on different relays may run side by side.
 *
 * The host's own work:
 * - signatures: Ed25519, of announces and link proofs; the core takes the host's word, and reads it only for those
 *   (section 9 of docs/HOST.md has what is signed, and with whose key);
 * - access codes: a packet behind one (header bit 7) is refused by 3: take the code off first, put one on what leaves;
 * - framing: a call takes one whole packet, and what leaves is one whole packet for each port named;
 * - timers: nothing happens by itself. The clock comes with each packet, and an expired record counts as none;
 * - encryption, links that end at this relay, and receipts for its own packets.
 */
#ifndef HASKUMYE_H
#define HASKUMYE_H

#include <stddef.h>
#include <stdint.h>

#ifdef __cplusplus
#define HASKUMYE_ASSERT_SIZE(type, size) static_assert(sizeof(type) == (size), #type " has padding")
#define HASKUMYE_CAST(type, value) static_cast<type>(value)
extern "C" {
#else
#define HASKUMYE_ASSERT_SIZE(type, size) _Static_assert(sizeof(type) == (size), #type " has padding")
#define HASKUMYE_CAST(type, value) ((type)(value))
#endif

/* Marks a call whose result may be a refusal: the compiler warns where it is ignored. */
#if defined(__cplusplus) && __cplusplus >= 201703L
#define HASKUMYE_CHECKED [[nodiscard]]
#elif defined(__GNUC__)
#define HASKUMYE_CHECKED __attribute__((warn_unused_result))
#else
#define HASKUMYE_CHECKED
#endif

#define HASKUMYE_VERSION 6 /* of this interface: it rises where a host has to be changed or compiled again */

/* Sizes, in bytes unless another unit is named. */
#define HASKUMYE_TABLE_SIZE 103032 /* a relay's tables, exactly; haskumye_table_size() says the same */
#define HASKUMYE_OUTPUT_SIZE 500  /* the least output buffer, however short the packet */
#define HASKUMYE_SHORTEST_PACKET 19 /* 35 in type 2; a port's least size */
#define HASKUMYE_LONGEST_PACKET 500 /* a port's greatest size, which a fresh relay's ports have */
#define HASKUMYE_LONGEST_MESSAGE 65535 /* for haskumye_sha256 */
#define HASKUMYE_TEXT_SIZE 160  /* a line of haskumye_line, haskumye_replay_entry or a survey, an answer's text */
#define HASKUMYE_RECORDING_SIZE 60000 /* the longest recording */
#define HASKUMYE_ENTRY_WIDTH 12 /* an entry as haskumye_write_recording takes it */
#define HASKUMYE_SAVED_SIZE 103108 /* what haskumye_save writes, exactly; haskumye_saved_size() says the same */
#define HASKUMYE_LONGEST_SAVED 524332 /* no saved file of any edition is longer */
#define HASKUMYE_LOG_SIZE 32721 /* a second opinion's log, exactly */

/* Limits: how many of each a relay has room for. */
#define HASKUMYE_PORT_COUNT 16    /* ports 0 to 15 */
#define HASKUMYE_LOCAL_COUNT 16   /* local addresses */
#define HASKUMYE_PATH_COUNT 64    /* destinations with a live path */
#define HASKUMYE_LINK_COUNT 64    /* links */
#define HASKUMYE_RETURN_COUNT 512 /* receipts under way */
#define HASKUMYE_HASH_COUNT 1024  /* remembered packets */
#define HASKUMYE_CLOCK_LIMIT UINT64_C(1099511627776) /* seconds: every clock is below 2^40 */
#define HASKUMYE_LIST_LIMIT 64    /* accepted calls that a second opinion lists */

/* Of a survey. */
#define HASKUMYE_RECORDING_LIMIT 16 /* recordings that are read */
#define HASKUMYE_SURVEY_LINES 49    /* places of lines, 0 to 48 */
#define HASKUMYE_COUNTER_COUNT 79
#define HASKUMYE_REFUSAL_COUNT 18

/* The announce rate is set to these at most. */
#define HASKUMYE_TARGET_LIMIT 86400 /* seconds: a day */
#define HASKUMYE_GRACE_LIMIT 254
#define HASKUMYE_PENALTY_LIMIT 604800 /* seconds: seven days */

/* What a question answers beside a refusal and 0. */
#define HASKUMYE_NONE 255   /* there is none: an empty place or one outside the table, no port, no live path */
#define HASKUMYE_VERIFY 255 /* haskumye_signature_matters: verify the signature before the packet call */

/* Whether a port carries packets. */
#define HASKUMYE_OFF 0
#define HASKUMYE_ON 1

/* A port's mode, which decides how long a path through it lives. */
enum haskumye_mode {
    HASKUMYE_MODE_BOUNDARY = 0,     /* 604,800 s */
    HASKUMYE_MODE_ACCESS_POINT = 1, /* 86,400 s */
    HASKUMYE_MODE_ROAMING = 2       /* 21,600 s */
};

/* The header byte: bits 7 to 4, then the destination kind in bits 3 and 2, then the packet kind in bits 1 and 0. */
#define HASKUMYE_HEADER_ACCESS_CODE 0x80
#define HASKUMYE_HEADER_TYPE_2 0x40       /* a relay address stands before the destination */
#define HASKUMYE_HEADER_CONTEXT_FLAG 0x20 /* in an announce: it carries a ratchet */
#define HASKUMYE_HEADER_TRANSPORT 0x10    /* read by haskumye_line alone; what is spread has it set */

#define HASKUMYE_DESTINATION_KIND 0x0c /* the mask of the next four */
#define HASKUMYE_DESTINATION_SINGLE 0x00
#define HASKUMYE_DESTINATION_GROUP 0x04
#define HASKUMYE_DESTINATION_PLAIN 0x08
#define HASKUMYE_DESTINATION_LINK 0x0c

#define HASKUMYE_PACKET_KIND 0x03 /* the mask of the next four */
#define HASKUMYE_PACKET_DATA 0x00
#define HASKUMYE_PACKET_ANNOUNCE 0x01
#define HASKUMYE_PACKET_LINK_REQUEST 0x02
#define HASKUMYE_PACKET_PROOF 0x03

#define HASKUMYE_CONTEXT_LINK_PROOF 0xff /* a proof of kind link with this context is a link proof */

/*
 * Where an announce's payload has its parts: two keys of 32 bytes (X25519, then Ed25519), a name hash of 10, and a blob
 * of 10, which is five random bytes and the emission time in seconds, five bytes, big-endian. Behind the blob come the
 * ratchet (32 bytes, with the context flag alone), the signature (64) and the application's data.
 */
#define HASKUMYE_ANNOUNCE_KEYS 0
#define HASKUMYE_ANNOUNCE_NAME_HASH 64
#define HASKUMYE_ANNOUNCE_BLOB 74
#define HASKUMYE_ANNOUNCE_EMISSION 79

/* The numbered refusals. Calls that return a plain number return one of these. */
enum haskumye_refusal {
    HASKUMYE_REFUSAL_NONE = 0,
    HASKUMYE_REFUSAL_TOO_SHORT = 1,       /* a packet under 19 bytes, or type 2 under 35 */
    HASKUMYE_REFUSAL_TOO_LONG = 2,        /* a packet over the arrival port's size or the given one, or over 500 bytes
                                             where there is none; a message over 65,535 */
    HASKUMYE_REFUSAL_ACCESS_CODE = 3,     /* the access code bit is set */
    HASKUMYE_REFUSAL_ARRIVAL_PORT = 4,    /* the arrival port is over 15, or off */
    HASKUMYE_REFUSAL_CLOCK = 5,           /* the clock is 2^40 or more, or below the last accepted one */
    HASKUMYE_REFUSAL_OUTPUT = 6,          /* the output buffer is under 500 bytes */
    HASKUMYE_REFUSAL_TABLES = 7,          /* the tables' length is wrong, or no relay has these bytes */
    HASKUMYE_REFUSAL_MAP = 8,             /* the renumbering map is not one-to-one on 0..15 */
    HASKUMYE_REFUSAL_SETTING = 9,         /* setting a port over 15, an unknown mode, or a rate over its limit; a size
                                             outside 19 to 500 */
    HASKUMYE_REFUSAL_LOCAL_FULL = 10,     /* a 17th local address */
    HASKUMYE_REFUSAL_LOCAL_ADDRESS = 11,  /* adding a local address already there, or removing one not there */
    HASKUMYE_REFUSAL_NO_LIVE_PATH = 12,   /* marking a destination that has no live path */
    HASKUMYE_REFUSAL_FILE_LENGTH = 20,    /* a recording over 60,000 bytes, or shorter than its contents; a saved file
                                             of another length than its contents add up to */
    HASKUMYE_REFUSAL_FILE_KIND = 21,      /* another kind of file, or an edition that this library does not know */
    HASKUMYE_REFUSAL_FILE_PLACE = 22,     /* an offset, a length or the file's end breaks the rule; no such entry; a
                                             saved file of another count than 8 */
    HASKUMYE_REFUSAL_SIGNATURE_WORD = 23, /* a signature word that is neither 0 nor 1 */
    HASKUMYE_REFUSAL_FILE_BODY = 24,      /* a saved body of wrong size, or with bytes that no relay has */
    HASKUMYE_REFUSAL_ROOM = 25,           /* too little room for what is to be written; loading: not the tables' size */
    HASKUMYE_REFUSAL_ANNOUNCE_PART = 26,  /* a key, name hash, random, ratchet or signature of wrong length */
    HASKUMYE_REFUSAL_ANNOUNCE_TOO_LONG = 27, /* an announce over 500 bytes once built */
    HASKUMYE_REFUSAL_LIST_FULL = 28,      /* a call of a second opinion that has listed 64 */
    HASKUMYE_REFUSAL_SURVEY_FULL = 29     /* a 17th recording of a survey */
};

/* What a packet call answers: HASKUMYE_ANSWER_KIND. */
enum haskumye_kind {
    HASKUMYE_REFUSED = 0, /* HASKUMYE_ANSWER_REFUSAL says why; nothing changed */
    HASKUMYE_DROP = 1,    /* HASKUMYE_ANSWER_REASON says why, and _CLAUSE and _VALUE more; the packet was accepted */
    HASKUMYE_DELIVER = 2, /* for a local address; the payload is the packet from HASKUMYE_ANSWER_PAYLOAD on */
    HASKUMYE_FORWARD = 3, /* send the output's first HASKUMYE_ANSWER_LENGTH bytes by HASKUMYE_ANSWER_PORT */
    HASKUMYE_SPREAD = 4,  /* send them by each port of HASKUMYE_ANSWER_PORTS */
    HASKUMYE_KEPT = 5     /* an announce was taken in, and nothing leaves */
};

/* Why a packet was dropped: the number of document 01's first test that held. 14 is not used again. */
enum haskumye_reason {
    HASKUMYE_REASON_NOT_OURS = 1,       /* type 2 for another relay */
    HASKUMYE_REASON_DUPLICATE = 2,      /* its hash was remembered less than 300 s ago */
    HASKUMYE_REASON_BAD_FORM = 3,       /* one of haskumye_bad_form */
    HASKUMYE_REASON_OWN_ANNOUNCE = 4,   /* an announce of a local address */
    HASKUMYE_REASON_TOO_MANY_HOPS = 5,  /* 128 or more */
    HASKUMYE_REASON_NO_WAY_ON = 6,      /* one of haskumye_no_way_on */
    HASKUMYE_REASON_ALREADY_KNOWN = 7,  /* a link request or link proof again */
    HASKUMYE_REASON_WRONG_SIDE = 8,     /* in by another port, or with other hops, than its link or return record has */
    HASKUMYE_REASON_NOT_SIGNED = 9,     /* the host's word on the signature was no */
    HASKUMYE_REASON_REPLAY = 10,        /* an announce whose blob is stored in its path */
    HASKUMYE_REASON_NOT_BETTER = 11,    /* an announce neither emitted later nor of fewer hops than its path */
    HASKUMYE_REASON_PORT_OFF = 12,      /* the port to leave by */
    HASKUMYE_REASON_NO_ROOM = 13,       /* for a new path or link */
    HASKUMYE_REASON_RATE_LIMITED = 15,  /* an announce too soon after the last; tested after 11, before 12 */
    HASKUMYE_REASON_TOO_LONG_FOR_PORT = 16 /* longer than the port to leave by carries; tested after 12, before 13 */
};

/* The clause of test 3 that a packet's form breaks, the first in document 01's order: HASKUMYE_ANSWER_CLAUSE. */
enum haskumye_bad_form {
    HASKUMYE_BAD_FORM_TYPE_TWO_PROOF = 1,        /* a proof of type 2 */
    HASKUMYE_BAD_FORM_TYPE_TWO_OF_KIND_LINK = 2, /* another packet of kind link of type 2 */
    HASKUMYE_BAD_FORM_ANNOUNCE_NOT_SINGLE = 3,   /* an announce not of kind single */
    HASKUMYE_BAD_FORM_ANNOUNCE_TOO_SHORT = 4,    /* an announce's payload under 148, or 180 with the context flag */
    HASKUMYE_BAD_FORM_ANNOUNCE_OF_ANOTHER = 5,   /* an announce whose keys give another destination */
    HASKUMYE_BAD_FORM_REQUEST_OF_KIND_LINK = 6,  /* a link request of kind link */
    HASKUMYE_BAD_FORM_REQUEST_TOO_SHORT = 7,     /* a link request's payload under 64 */
    HASKUMYE_BAD_FORM_LINK_PROOF_LENGTH = 8      /* a link proof's payload neither 96 nor 99 */
};

/* The case of test 6: HASKUMYE_ANSWER_CLAUSE. */
enum haskumye_no_way_on {
    HASKUMYE_NO_WAY_ON_NOT_ASKING = 1,   /* data or a link request of type 1 */
    HASKUMYE_NO_WAY_ON_NO_PATH = 2,      /* no path record of the destination */
    HASKUMYE_NO_WAY_ON_ONLY_EXPIRED = 3, /* expired ones alone: the value is their greatest expiry */
    HASKUMYE_NO_WAY_ON_NO_LINK = 4,      /* no live link */
    HASKUMYE_NO_WAY_ON_NOT_PROVED = 5,   /* a link that is not proved yet */
    HASKUMYE_NO_WAY_ON_NO_RETURN = 6     /* a proof, and no live return record */
};

/*
 * The fields of a packet call's answer, and of no other call's number. Bits 0 to 15 say the kind, and the refusal or
 * reason; what bits 16 to 63 hold goes by them. Read a field only for the kind it is named with: of another one the
 * port is HASKUMYE_NO_PORT, the ports are none, and clause, value, length and payload are 0. A drop's value is the
 * least payload length that would have served (3.4, 3.7, 3.8), or when the last path ran out (6.3); else 0.
 */
typedef uint64_t haskumye_answer;

#define HASKUMYE_NO_PORT 0xffff

/* The answer itself. A number of another width, such as another call's refusal, does not compile. */
#define HASKUMYE_ANSWER(answer) ((answer) + 0 * sizeof(char[sizeof(answer) == sizeof(haskumye_answer) ? 1 : -1]))

#define HASKUMYE_ANSWER_BITS(answer, from, mask) HASKUMYE_CAST(unsigned, HASKUMYE_ANSWER(answer) >> (from) & (mask))
#define HASKUMYE_ANSWER_KIND(answer) HASKUMYE_ANSWER_BITS(answer, 0, 0xff)
#define HASKUMYE_ANSWER_REFUSAL(answer) HASKUMYE_ANSWER_BITS(answer, 8, 0xff)        /* refused */
#define HASKUMYE_ANSWER_REASON(answer) HASKUMYE_ANSWER_BITS(answer, 8, 0xff)         /* drop */
#define HASKUMYE_ANSWER_CLAUSE(answer) haskumye_answer_clause(HASKUMYE_ANSWER(answer)) /* drop; 0: of none */
#define HASKUMYE_ANSWER_VALUE(answer) haskumye_answer_value(HASKUMYE_ANSWER(answer))   /* drop: a uint64_t */
#define HASKUMYE_ANSWER_PAYLOAD(answer) haskumye_answer_payload(HASKUMYE_ANSWER(answer)) /* deliver */
#define HASKUMYE_ANSWER_PORT(answer) haskumye_answer_port(HASKUMYE_ANSWER(answer))   /* forward */
#define HASKUMYE_ANSWER_PORTS(answer) haskumye_answer_ports(HASKUMYE_ANSWER(answer)) /* spread: bit i is port i */
#define HASKUMYE_ANSWER_HAS_PORT(answer, port) (HASKUMYE_ANSWER_PORTS(answer) >> (port) & 1u) /* spread: port 0 to 15 */
#define HASKUMYE_ANSWER_LENGTH(answer) haskumye_answer_length(HASKUMYE_ANSWER(answer)) /* forward, spread */

static inline unsigned haskumye_answer_clause(haskumye_answer answer)
{
    unsigned clause = HASKUMYE_ANSWER_BITS(answer, 16, 0xf);
    return HASKUMYE_ANSWER_KIND(answer) == HASKUMYE_DROP ? clause : 0;
}

static inline uint64_t haskumye_answer_value(haskumye_answer answer)
{
    uint64_t value = answer >> 20 & UINT64_C(0x1ffffffffff);
    return HASKUMYE_ANSWER_KIND(answer) == HASKUMYE_DROP ? value : 0;
}

static inline size_t haskumye_answer_payload(haskumye_answer answer)
{
    size_t payload = HASKUMYE_CAST(size_t, answer >> 48);
    return HASKUMYE_ANSWER_KIND(answer) == HASKUMYE_DELIVER ? payload : 0;
}

static inline size_t haskumye_answer_length(haskumye_answer answer)
{
    size_t length = HASKUMYE_CAST(size_t, answer >> 32 & 0xffff);
    unsigned kind = HASKUMYE_ANSWER_KIND(answer);
    return kind == HASKUMYE_FORWARD || kind == HASKUMYE_SPREAD ? length : 0;
}

static inline unsigned haskumye_answer_port(haskumye_answer answer)
{
    unsigned port = HASKUMYE_ANSWER_BITS(answer, 16, 0xffff);
    return HASKUMYE_ANSWER_KIND(answer) == HASKUMYE_FORWARD ? port : HASKUMYE_NO_PORT;
}

static inline unsigned haskumye_answer_ports(haskumye_answer answer)
{
    unsigned ports = HASKUMYE_ANSWER_BITS(answer, 16, 0xffff);
    return HASKUMYE_ANSWER_KIND(answer) == HASKUMYE_SPREAD ? ports : 0;
}

/* The fields of a writing call's number: a refusal, 0 for none, and the length written. */
typedef uint32_t haskumye_written;

/* The number itself. One of another width, such as a packet call's answer, does not compile. */
#define HASKUMYE_WRITTEN(written) ((written) + 0 * sizeof(char[sizeof(written) == sizeof(haskumye_written) ? 1 : -1]))

#define HASKUMYE_WRITTEN_REFUSAL(written) HASKUMYE_CAST(unsigned, HASKUMYE_WRITTEN(written) & 0xffff)
#define HASKUMYE_WRITTEN_LENGTH(written) HASKUMYE_CAST(size_t, HASKUMYE_WRITTEN(written) >> 16)

/* The fields of haskumye_save's number: a refusal, 0 for none, and the length written. */
typedef uint64_t haskumye_saved;

/* The number itself. One of another width, such as a writing call's, does not compile. */
#define HASKUMYE_SAVED(saved) ((saved) + 0 * sizeof(char[sizeof(saved) == sizeof(haskumye_saved) ? 1 : -1]))

#define HASKUMYE_SAVED_REFUSAL(saved) HASKUMYE_CAST(unsigned, HASKUMYE_SAVED(saved) & 0xffff)
#define HASKUMYE_SAVED_LENGTH(saved) HASKUMYE_CAST(size_t, HASKUMYE_SAVED(saved) >> 16)

/* Bytes of a fixed number cross in a struct of exactly that size. */
typedef struct {
    uint8_t bytes[16];
} haskumye_address;

typedef struct {
    uint8_t bytes[32];
} haskumye_hash;

typedef struct {
    uint8_t bytes[10];
} haskumye_blob;

/* The parts of a packet. In type 1 the relay address reads as zeros, and writing ignores it. */
typedef struct {
    uint8_t header;
    uint8_t hops;
    haskumye_address relay;
    haskumye_address destination;
    uint8_t context;
} haskumye_parts;

/* An entry of a recording. Its packet is the file's part of that length, from that start on. */
typedef struct {
    uint64_t clock;
    uint64_t port;
    uint64_t signed_well; /* the host's word on the signature: 1 is yes */
    uint64_t start;
    uint64_t length;
} haskumye_entry;

/* Port i becomes port to[i]. */
typedef struct {
    uint8_t to[16];
} haskumye_port_map;

/* A line of text. Zeros fill what is left, so a zero always follows it. */
typedef struct {
    char bytes[HASKUMYE_TEXT_SIZE];
} haskumye_text;

/* What a second opinion keeps. Its bytes are its own; any bytes are a log. */
typedef struct {
    uint8_t bytes[HASKUMYE_LOG_SIZE];
} haskumye_log;

/* A time or clock in seconds, big-endian, so that the structs below have no padding: haskumye_seconds says it. */
typedef struct {
    uint8_t bytes[8];
} haskumye_time;

static inline uint64_t haskumye_seconds(haskumye_time time)
{
    uint64_t seconds = 0;
    for (size_t i = 0; i < sizeof time.bytes; i++) {
        seconds = seconds << 8 | time.bytes[i];
    }
    return seconds;
}

/* A port's size in bytes, big-endian: haskumye_size_number says it. */
typedef struct {
    uint8_t bytes[2];
} haskumye_size;

static inline unsigned haskumye_size_number(haskumye_size size)
{
    return size.bytes[0] * 256u + size.bytes[1];
}

typedef struct {
    uint8_t on;         /* HASKUMYE_ON or HASKUMYE_OFF */
    uint8_t mode;       /* one of haskumye_mode */
    haskumye_size size; /* the longest packet that it carries */
} haskumye_port_settings;

/* A setting's number, big-endian: haskumye_setting_number says it. */
typedef struct {
    uint8_t bytes[4];
} haskumye_setting;

static inline uint32_t haskumye_setting_number(haskumye_setting setting)
{
    uint32_t number = 0;
    for (size_t i = 0; i < sizeof setting.bytes; i++) {
        number = number << 8 | setting.bytes[i];
    }
    return number;
}

/* How often a destination may announce itself. With a target of 0 there is no limit. */
typedef struct {
    haskumye_setting target;  /* the least seconds between two of its announces */
    haskumye_setting grace;   /* how many violations are let through */
    haskumye_setting penalty; /* seconds that it is blocked for beyond the target */
} haskumye_rate_settings;

/* A path. It is live while the clock is below its expiry. */
typedef struct {
    haskumye_address destination;
    uint8_t port;
    uint8_t hops;              /* relays between the destination and this one */
    haskumye_address next_hop; /* the relay address that its announce came with, or the destination */
    haskumye_time expiry;
    haskumye_time last_announce; /* the clock of its last accepted announce */
    uint8_t violations;          /* announces sooner than the target after it, less those forgiven; 255 at most */
    haskumye_time blocked_until; /* while the clock is below, its announces are dropped by 15 */
    uint8_t unresponsive;        /* 1 where the host marked it, and no announce was taken in since; else 0 */
    uint8_t blob_count;
} haskumye_path_record;

/* A link that leads through this relay. It is live while the clock is below its expiry. */
typedef struct {
    haskumye_address id;
    uint8_t asking;         /* the port of the side that asked for it */
    uint8_t answering;      /* the port of the side that it leads to */
    uint8_t taken_hops;     /* relays between the asking side and this one */
    uint8_t remaining_hops; /* relays between this one and the answering side */
    uint8_t proved;         /* 1 or 0 */
    haskumye_time expiry;
} haskumye_link_record;

/* The packet calls since fresh, each count modulo 2^32: all that were not refused, and those of each answer. */
typedef struct {
    uint32_t total;
    uint32_t dropped;
    uint32_t delivered;
    uint32_t forwarded;
    uint32_t spread;
    uint32_t kept;
} haskumye_tally;

/* Tables in a struct, of exactly their size. */
typedef struct {
    uint8_t bytes[HASKUMYE_TABLE_SIZE];
} haskumye_tables;

/*
 * A survey's counters: packets, bytes in, bytes out and packets dropped of the sixteen ports, then the drops by each
 * test, 1 to 11, 15, 12, 16, 13.
 */
typedef struct {
    uint64_t counters[HASKUMYE_COUNTER_COUNT];
} haskumye_survey_counts;

/* Of a survey's recordings: at 0 how many were read, at n the refusal of the nth or 0, at 17 that of a 17th. */
typedef struct {
    uint8_t refusals[HASKUMYE_REFUSAL_COUNT];
} haskumye_survey_refusals;

HASKUMYE_ASSERT_SIZE(haskumye_address, 16);
HASKUMYE_ASSERT_SIZE(haskumye_hash, 32);
HASKUMYE_ASSERT_SIZE(haskumye_blob, 10);
HASKUMYE_ASSERT_SIZE(haskumye_parts, 35);
HASKUMYE_ASSERT_SIZE(haskumye_entry, 40);
HASKUMYE_ASSERT_SIZE(haskumye_port_map, 16);
HASKUMYE_ASSERT_SIZE(haskumye_text, HASKUMYE_TEXT_SIZE);
HASKUMYE_ASSERT_SIZE(haskumye_log, HASKUMYE_LOG_SIZE);
HASKUMYE_ASSERT_SIZE(haskumye_tally, 24);
HASKUMYE_ASSERT_SIZE(haskumye_time, 8);
HASKUMYE_ASSERT_SIZE(haskumye_size, 2);
HASKUMYE_ASSERT_SIZE(haskumye_port_settings, 4);
HASKUMYE_ASSERT_SIZE(haskumye_setting, 4);
HASKUMYE_ASSERT_SIZE(haskumye_rate_settings, 12);
HASKUMYE_ASSERT_SIZE(haskumye_path_record, 61);
HASKUMYE_ASSERT_SIZE(haskumye_link_record, 29);
HASKUMYE_ASSERT_SIZE(haskumye_tables, HASKUMYE_TABLE_SIZE);
HASKUMYE_ASSERT_SIZE(haskumye_survey_counts, 8 * HASKUMYE_COUNTER_COUNT);
HASKUMYE_ASSERT_SIZE(haskumye_survey_refusals, HASKUMYE_REFUSAL_COUNT);

/* ---- Which library this is. ---- */

/* HASKUMYE_VERSION and HASKUMYE_TABLE_SIZE, as the library was built. */
uint32_t haskumye_version(void);
size_t haskumye_table_size(void);

/* Whether the library that was linked is this header's: a host asks it before any other call. */
static inline int haskumye_matches_header(void)
{
    return haskumye_version() == HASKUMYE_VERSION && haskumye_table_size() == HASKUMYE_TABLE_SIZE;
}

/* ---- A relay. A call that returns uint8_t returns a refusal, 0 for none. ---- */

/*
 * Makes the tables of a fresh relay: its own address, every port off and boundary, with size 500, clock 0, all else
 * empty. What the buffer held does not matter. Refusal: 7, for the length alone. A buffer of zeros is no relay: every
 * other call refuses it by 7.
 * The tally is not lent here: the host sets it to zeros with this call, so that it counts since fresh. From other
 * numbers it would count on from there.
 */
HASKUMYE_CHECKED uint8_t haskumye_fresh(uint8_t *tables, size_t length, const haskumye_address *own);

/* Refusal 7 where these bytes are no relay's tables, else 0. Every call but fresh makes this test itself. */
HASKUMYE_CHECKED uint8_t haskumye_check_tables(const uint8_t *tables, size_t length);

/*
 * Sets a port on or off, its mode, one of haskumye_mode, and its size: the longest packet that it carries, in bytes,
 * from HASKUMYE_SHORTEST_PACKET to HASKUMYE_LONGEST_PACKET. Every value but HASKUMYE_ON, such as the 4 of `flags & 4`,
 * switches the port off and is not refused. Records that name the port stay. Refusals: 7, 9.
 */
HASKUMYE_CHECKED uint8_t haskumye_set_port(uint8_t *tables, size_t length, uint64_t port, uint8_t on, uint64_t mode,
                                           uint64_t size);

/*
 * Sets how often every destination may announce itself. An announce under `target` seconds after the last accepted one
 * is a violation. One that makes more than `grace` of them is dropped by 15, and so are all until `target` and
 * `penalty` seconds after that last one. A target of 0, as a fresh relay has, makes none. Paths stay, blocked ones too.
 * Refusals: 7, 9.
 */
HASKUMYE_CHECKED uint8_t haskumye_set_announce_rate(uint8_t *tables, size_t length, uint64_t target, uint64_t grace,
                                                    uint64_t penalty);

/* Adds an address whose packets are delivered here. The relay's own address is not one of them. Refusals: 7, 11, 10. */
HASKUMYE_CHECKED uint8_t haskumye_add_local(uint8_t *tables, size_t length, const haskumye_address *address);

/* Removes one. Refusals: 7, 11. */
HASKUMYE_CHECKED uint8_t haskumye_remove_local(uint8_t *tables, size_t length, const haskumye_address *address);

/*
 * Marks a destination's live path unresponsive: what was sent by it was not answered. Packets still go by it. Of the
 * destination's announces, one emitted no earlier than the newest held is no longer dropped by 2, 10, 11 or 15, though
 * it came before; the first that is taken in leads the path its way, and takes the mark off. Marking twice does no more
 * than once, and no call takes a mark off. The clock is one as packet calls have, and from then on the last accepted.
 * Refusals: 7, 5, 12.
 */
HASKUMYE_CHECKED uint8_t haskumye_mark_path_unresponsive(uint8_t *tables, size_t length,
                                                         const haskumye_address *destination, uint64_t clock);

/*
 * Renumbers the ports while the relay runs: every stored port becomes its image, and each port's settings move with it.
 * Nothing is forgotten. From then on the host passes, and is told, the new numbers, for what waits in its queues too: a
 * packet given with an old one may be dropped, and is a duplicate if it comes again. Refusals: 7, 8.
 */
HASKUMYE_CHECKED uint8_t haskumye_renumber(uint8_t *tables, size_t length, const haskumye_port_map *map);

/*
 * Judges a packet that came in by a port at a clock. signed_well is the host's word on its signature: 1 is yes,
 * anything else no; it is read only for announces and link proofs. What leaves stands at the output's start; the bytes
 * behind it, and all of them where nothing leaves, stay as they were. Refusals, in this order: 7, 6, 4, 5, 1 (under 19
 * bytes), 2 (over the port's size), 3, 1 (type 2 under 35).
 */
HASKUMYE_CHECKED haskumye_answer haskumye_packet(const uint8_t *packet, size_t length, uint64_t port, uint64_t clock,
                                                 uint8_t signed_well, uint8_t *tables, size_t size, uint8_t *output,
                                                 size_t room, haskumye_tally *tally);

/*
 * An answer as text, with its numbers: `drop 6.3 22600`, `forward 4`, `spread 1 5`, `refused 1`. These are the words of
 * a replay's line, without a line feed. Returns their length, 0 for a number whose kind is none of haskumye_kind.
 */
size_t haskumye_answer_text(haskumye_answer answer, haskumye_text *text);

/*
 * ---- The second opinion: the calls of a relay, answered from the list of accepted ones alone. ----
 * For checking: an engine without tables, slow and short, that is proved to answer as the relay does from fresh on,
 * output bytes too, while fewer than HASKUMYE_LIST_LIMIT calls are listed. One thing it need not know: where a relay
 * drops by 6.3 it says 6.2. It lists each call that it does not refuse, drops and settings too, and forgets none: with
 * 64 listed every call is refused by 28, before all other refusals, until the next fresh. It has no load, save or
 * replay, no questions and no tally.
 * Each call takes what the relay's call of that name takes, but for the log in the place of the tables, and refuses as
 * that one does, but for 28 in the place of 7.
 */

/* Makes a log in which nothing is listed. What it held does not matter. */
void haskumye_opinion_fresh(haskumye_log *log, const haskumye_address *own);

/* The answer to a packet, as haskumye_packet gives it. Refusals, in this order: 28, 6, 4, 5, 1, 2, 3, 1. */
HASKUMYE_CHECKED haskumye_answer haskumye_opinion_packet(const uint8_t *packet, size_t length, uint64_t port,
                                                         uint64_t clock, uint8_t signed_well, haskumye_log *log,
                                                         uint8_t *output, size_t room);

/* Refusals: 28, 9. */
HASKUMYE_CHECKED uint8_t haskumye_opinion_set_port(haskumye_log *log, uint64_t port, uint8_t on, uint64_t mode,
                                                   uint64_t size);
HASKUMYE_CHECKED uint8_t haskumye_opinion_set_announce_rate(haskumye_log *log, uint64_t target, uint64_t grace,
                                                            uint64_t penalty);

/* Refusals: 28, 11, 10 of adding; 28, 11 of removing. */
HASKUMYE_CHECKED uint8_t haskumye_opinion_add_local(haskumye_log *log, const haskumye_address *address);
HASKUMYE_CHECKED uint8_t haskumye_opinion_remove_local(haskumye_log *log, const haskumye_address *address);

/* Refusals: 28, 5, 12. */
HASKUMYE_CHECKED uint8_t haskumye_opinion_mark_path_unresponsive(haskumye_log *log, const haskumye_address *destination,
                                                                 uint64_t clock);

/* Refusals: 28, 8. */
HASKUMYE_CHECKED uint8_t haskumye_opinion_renumber(haskumye_log *log, const haskumye_port_map *map);

/*
 * ---- Saved files: a relay's tables and tally in one file, which this library and later ones load. ----
 * docs/LAYOUT.md has the file. It has no checksum: put one behind it on a disk, and cut that off before a load
 * (section 10 of docs/HOST.md).
 */

/* HASKUMYE_SAVED_SIZE, as the library was built. */
size_t haskumye_saved_size(void);

/*
 * Writes tables and tally as a file at the room's start; bytes behind it stay, and so do tables and tally. Returns a
 * number of two fields: HASKUMYE_SAVED_REFUSAL (7, 25 in this order; 0 for none) and HASKUMYE_SAVED_LENGTH.
 */
HASKUMYE_CHECKED haskumye_saved haskumye_save(const uint8_t *tables, size_t tables_length, const haskumye_tally *tally,
                                              uint8_t *room, size_t room_length);

/*
 * Sets tables and tally to what a saved file of this edition or an older one holds; what they held does not matter.
 * `file_length` is that of the saved file alone, without what a host put behind it. Refusals: 20, 21, 22, 24, 25.
 */
HASKUMYE_CHECKED uint8_t haskumye_load(const uint8_t *file, size_t file_length, uint8_t *tables, size_t tables_length,
                                       haskumye_tally *tally);

/*
 * ---- Questions: what the tables hold. They change nothing but what is lent for the answer. ----
 * Each returns 0 where that now holds the answer; HASKUMYE_NONE where there is none, or refusal 7, and then it stays as
 * it was. A record that expired is told too, by haskumye_path and haskumye_link, until another takes its place.
 */

/* A port's settings. None: a number over 15. */
HASKUMYE_CHECKED uint8_t haskumye_port(const uint8_t *tables, size_t length, uint64_t port,
                                       haskumye_port_settings *settings);

/* The announce rate's settings. Never none. */
HASKUMYE_CHECKED uint8_t haskumye_announce_rate(const uint8_t *tables, size_t length, haskumye_rate_settings *settings);

/* The local address at a place, 0 to 15. Removing one leaves its place empty. */
HASKUMYE_CHECKED uint8_t haskumye_local(const uint8_t *tables, size_t length, uint64_t place,
                                        haskumye_address *address);

/* The path at a place, 0 to 63, live or not. */
HASKUMYE_CHECKED uint8_t haskumye_path(const uint8_t *tables, size_t length, uint64_t place,
                                       haskumye_path_record *path);

/* A destination's live path at a clock, which may be any number. */
HASKUMYE_CHECKED uint8_t haskumye_live_path(const uint8_t *tables, size_t length, const haskumye_address *destination,
                                            uint64_t clock, haskumye_path_record *path);

/* The link at a place, 0 to 63, live or not. */
HASKUMYE_CHECKED uint8_t haskumye_link(const uint8_t *tables, size_t length, uint64_t place,
                                       haskumye_link_record *link);

/* How many receipts are under way at a clock, and how many packets are remembered. Never none. */
HASKUMYE_CHECKED uint8_t haskumye_live_returns(const uint8_t *tables, size_t length, uint64_t clock, uint64_t *count);
HASKUMYE_CHECKED uint8_t haskumye_live_hashes(const uint8_t *tables, size_t length, uint64_t clock, uint64_t *count);

/*
 * The last accepted clock, of packets and of marks, 0 in a fresh relay: after a restart the clock goes on from there.
 * Never none.
 */
HASKUMYE_CHECKED uint8_t haskumye_last_clock(const uint8_t *tables, size_t length, uint64_t *clock);

/*
 * Whether the packet call with the same arguments, and an output of `room` bytes, would read the word on the signature.
 * HASKUMYE_VERIFY: it would, so verify the signature first. 0: its answer is the same with either word. Else the
 * refusal that it would give.
 */
HASKUMYE_CHECKED uint8_t haskumye_signature_matters(const uint8_t *packet, size_t length, uint64_t port, uint64_t clock,
                                                    const uint8_t *tables, size_t size, size_t room);

/* ---- Packets. ---- */

/*
 * Reads the parts of a packet that is no longer than a size, from HASKUMYE_SHORTEST_PACKET to HASKUMYE_LONGEST_PACKET:
 * a port's, or the greatest. Returns a refusal (9, 1, 2, 3, in this order), or 0.
 */
HASKUMYE_CHECKED uint8_t haskumye_read(const uint8_t *packet, size_t length, uint64_t size, haskumye_parts *parts);

/*
 * Where the payload starts: it is the packet from there on. Never over the length, whatever the bytes. Of a packet that
 * was delivered, HASKUMYE_ANSWER_PAYLOAD says the same.
 */
size_t haskumye_payload_start(const uint8_t *packet, size_t length);

/*
 * Writes a packet at the output's start; bytes behind it stay. Returns a number of two fields:
 * HASKUMYE_WRITTEN_REFUSAL (6, 2, 3; 0 for none) and HASKUMYE_WRITTEN_LENGTH.
 */
HASKUMYE_CHECKED haskumye_written haskumye_write(const haskumye_parts *parts, const uint8_t *payload, size_t length,
                                                 uint8_t *output, size_t room);

/* The packet hash. A receipt for a packet is addressed to its first 16 bytes. Returns a refusal (1, 2, 3), or 0. */
HASKUMYE_CHECKED uint8_t haskumye_packet_hash(const uint8_t *packet, size_t length, haskumye_hash *hash);

/* The id of the link that a link request asks for; a packet of any kind has one. Returns a refusal (1, 2, 3), or 0. */
HASKUMYE_CHECKED uint8_t haskumye_link_id(const uint8_t *packet, size_t length, haskumye_address *id);

/*
 * The destination that an announce's keys and name hash give (payload bytes 0 to 73): equal to the packet's own in an
 * honest one. Of a shorter payload the bytes that are there count.
 */
void haskumye_announced_destination(const uint8_t *payload, size_t length, haskumye_address *destination);

/* The least payload of an announce with this header: 148, or 180 with the context flag. */
size_t haskumye_least_announce(uint8_t header);

/* The emission time, in seconds, of an announce's blob. */
uint64_t haskumye_emission(const haskumye_blob *blob);

/* A packet as one line of words, or `refused` and the number; a line feed ends it. Returns its length. */
size_t haskumye_line(const uint8_t *packet, size_t length, haskumye_text *text);

/* SHA-256. Returns refusal 2 for a message over HASKUMYE_LONGEST_MESSAGE, or 0. */
HASKUMYE_CHECKED uint8_t haskumye_sha256(const uint8_t *message, size_t length, haskumye_hash *out);

/*
 * ---- Announces of the box's own addresses: what the host signs, and the packet with its signature. ----
 * Both take the same parts: keys of 64 bytes (X25519, then Ed25519), a name hash of 10, 5 random bytes, the clock that
 * becomes the emission time, a ratchet of 32 bytes or of none, and the application's data, up to 333 bytes, with a
 * ratchet 301. Both write at the room's start; bytes behind stay. Each returns a number of two fields:
 * HASKUMYE_WRITTEN_REFUSAL (26, 5, 27, 6 in this order; 0 for none) and HASKUMYE_WRITTEN_LENGTH.
 */

/*
 * The bytes to sign: destination, keys, name hash, blob, ratchet, application's data. Refused as building is with the
 * same parts and a signature of 64 bytes.
 */
HASKUMYE_CHECKED haskumye_written haskumye_announce_signing_bytes(
    const uint8_t *keys, size_t keys_length, const uint8_t *name_hash, size_t name_hash_length, const uint8_t *random,
    size_t random_length, uint64_t clock, const uint8_t *ratchet, size_t ratchet_length, const uint8_t *app_data,
    size_t app_data_length, uint8_t *room, size_t room_length);

/* The announce: header 01, or 21 with a ratchet; hops and context 0. The signature, 64 bytes, is not verified. */
HASKUMYE_CHECKED haskumye_written haskumye_build_announce(
    const uint8_t *keys, size_t keys_length, const uint8_t *name_hash, size_t name_hash_length, const uint8_t *random,
    size_t random_length, uint64_t clock, const uint8_t *ratchet, size_t ratchet_length, const uint8_t *app_data,
    size_t app_data_length, const uint8_t *signature, size_t signature_length, uint8_t *room, size_t room_length);

/* ---- Recordings: a day's packets in a file, and what a relay answers to each. docs/LAYOUT.md has the file. ---- */

/* The refusal of a file that is no recording (20, 21, 22, 23), or 0. */
HASKUMYE_CHECKED uint8_t haskumye_check_recording(const uint8_t *file, size_t length);

/* How many entries the file says it has; 0 where it is too short to say. */
size_t haskumye_recording_count(const uint8_t *file, size_t length);

/* Entry `index`, counted from 0. Refusal 22, and the struct stays, where the file does not have it, body and all. */
HASKUMYE_CHECKED uint8_t haskumye_recording_entry(const uint8_t *file, size_t length, uint64_t index,
                                                  haskumye_entry *entry);

/*
 * Writes a recording at the room's start; bytes behind it stay. `entries` has HASKUMYE_ENTRY_WIDTH bytes for each
 * packet: clock 8, port 1, signature word 1 (0 or 1), length 2, all big-endian; `bodies` has the packets, one after
 * another. Returns a number of two fields: HASKUMYE_WRITTEN_REFUSAL (23, 5, 20, 25 in this order, each over all
 * entries; 20 also where entries and bodies do not add up; 0 for none) and HASKUMYE_WRITTEN_LENGTH.
 */
HASKUMYE_CHECKED haskumye_written haskumye_write_recording(const uint8_t *entries, size_t entries_length,
                                                           const uint8_t *bodies, size_t bodies_length, uint8_t *room,
                                                           size_t room_length);

/*
 * Makes the packet call of entry `index` on tables and tally, with an output of its own, and gives its answer and its
 * line (`1 forward 4`, counted from 1; a line feed ends it). An entry that the core refuses has a line too, and the
 * replay goes on with the next. Refusal 22, and nothing changes, where there is no such entry. A replay is a check of
 * the file, then this call for each of its entries in order.
 */
HASKUMYE_CHECKED haskumye_answer haskumye_replay_entry(const uint8_t *file, size_t length, uint64_t index,
                                                       uint8_t *tables, size_t size, haskumye_tally *tally,
                                                       haskumye_text *line);

/*
 * ---- Surveys: what up to 16 recordings come to, by port and by reason, in a text of lines. ----
 * The host lends what lasts from call to call: the tables that each recording starts from, tables to replay over, the
 * counters and the recordings' refusals. A survey is a begin, the recordings in order, then its lines.
 */

/*
 * Begins a survey by a saved file, of which own address, ports, announce rate and local addresses count: each recording
 * finds a fresh relay with these. Returns a refusal (20, 21, 22, 24), and then all stays, or 0.
 */
HASKUMYE_CHECKED uint8_t haskumye_survey_begin(const uint8_t *file, size_t length, haskumye_tables *start,
                                               haskumye_tables *work, haskumye_survey_counts *counts,
                                               haskumye_survey_refusals *refusals);

/*
 * Replays a recording from the start, and counts what it comes to. A refusal (29 for a 17th, which is not read; else
 * 20, 21, 22, 23) is noted for the recording's line, and nothing is counted; or 0.
 */
HASKUMYE_CHECKED uint8_t haskumye_survey_recording(const uint8_t *file, size_t length, const haskumye_tables *start,
                                                   haskumye_tables *work, haskumye_survey_counts *counts,
                                                   haskumye_survey_refusals *refusals);

/*
 * The line at a place of the text, below HASKUMYE_SURVEY_LINES: `survey`, those of recordings, ports and tests, as
 * `port 3 packets 10 in 900 out 450 dropped 1/5`; a line feed ends it. Returns its length: 0 at the place of a
 * recording that was not refused, and past the last.
 */
size_t haskumye_survey_line(const haskumye_survey_counts *counts, const haskumye_survey_refusals *refusals,
                            uint64_t place, haskumye_text *line);

/* ---- Words for numbers: bindings/words has all of them, for every language. ---- */

/* Words for a refusal, as `refused 7: tables of wrong size, or with bytes that no relay has`. */
static inline const char *haskumye_refusal_words(unsigned refusal)
{
    switch (refusal) {
    case HASKUMYE_REFUSAL_TOO_SHORT: return "length under 19, or type 2 under 35";
    case HASKUMYE_REFUSAL_TOO_LONG: return "length over the port's size, or over 500 (hashing: over 65,535)";
    case HASKUMYE_REFUSAL_ACCESS_CODE: return "access code bit set";
    case HASKUMYE_REFUSAL_ARRIVAL_PORT: return "arrival port over 15, or off";
    case HASKUMYE_REFUSAL_CLOCK: return "clock 2^40 or more, or below the last accepted clock";
    case HASKUMYE_REFUSAL_OUTPUT: return "output buffer under 500 bytes";
    case HASKUMYE_REFUSAL_TABLES: return "tables of wrong size, or with bytes that no relay has";
    case HASKUMYE_REFUSAL_MAP: return "renumbering map not one-to-one on 0..15";
    case HASKUMYE_REFUSAL_SETTING:
        return "setting a port over 15, an unknown mode, a size outside 19 to 500 or an announce rate over its limit";
    case HASKUMYE_REFUSAL_LOCAL_FULL: return "adding a 17th local address";
    case HASKUMYE_REFUSAL_LOCAL_ADDRESS: return "adding a local address already there, or removing one not there";
    case HASKUMYE_REFUSAL_NO_LIVE_PATH: return "marking a destination that has no live path";
    case HASKUMYE_REFUSAL_FILE_LENGTH: return "file too long or shorter than its contents (saved: another length)";
    case HASKUMYE_REFUSAL_FILE_KIND: return "kind or edition";
    case HASKUMYE_REFUSAL_FILE_PLACE: return "offset, length, count or file end that breaks the rule";
    case HASKUMYE_REFUSAL_SIGNATURE_WORD: return "signature word";
    case HASKUMYE_REFUSAL_FILE_BODY: return "saved body of wrong size, or with bytes that no relay has";
    case HASKUMYE_REFUSAL_ROOM: return "too little room (loading: not the tables' size)";
    case HASKUMYE_REFUSAL_ANNOUNCE_PART: return "key, name, random, ratchet or signature of wrong length";
    case HASKUMYE_REFUSAL_ANNOUNCE_TOO_LONG: return "announce over 500 once built";
    case HASKUMYE_REFUSAL_LIST_FULL: return "the second opinion lists 64 calls already";
    case HASKUMYE_REFUSAL_SURVEY_FULL: return "a 17th recording of a survey";
    default: return "unknown";
    }
}

/* Words for a reason, as `drop 6: no way on`. */
static inline const char *haskumye_reason_words(unsigned reason)
{
    switch (reason) {
    case HASKUMYE_REASON_NOT_OURS: return "not ours";
    case HASKUMYE_REASON_DUPLICATE: return "duplicate";
    case HASKUMYE_REASON_BAD_FORM: return "bad form";
    case HASKUMYE_REASON_OWN_ANNOUNCE: return "own announce";
    case HASKUMYE_REASON_TOO_MANY_HOPS: return "hops 128 or more";
    case HASKUMYE_REASON_NO_WAY_ON: return "no way on";
    case HASKUMYE_REASON_ALREADY_KNOWN: return "already known";
    case HASKUMYE_REASON_WRONG_SIDE: return "wrong side";
    case HASKUMYE_REASON_NOT_SIGNED: return "signature word no";
    case HASKUMYE_REASON_REPLAY: return "replay";
    case HASKUMYE_REASON_NOT_BETTER: return "not better";
    case HASKUMYE_REASON_PORT_OFF: return "port off";
    case HASKUMYE_REASON_NO_ROOM: return "no room";
    case HASKUMYE_REASON_RATE_LIMITED: return "announced too often";
    case HASKUMYE_REASON_TOO_LONG_FOR_PORT: return "too long for the port";
    default: return "unknown";
    }
}

/* Words for an answer's kind. */
static inline const char *haskumye_kind_words(unsigned kind)
{
    switch (kind) {
    case HASKUMYE_REFUSED: return "refused";
    case HASKUMYE_DROP: return "drop";
    case HASKUMYE_DELIVER: return "deliver";
    case HASKUMYE_FORWARD: return "forward";
    case HASKUMYE_SPREAD: return "spread";
    case HASKUMYE_KEPT: return "kept";
    default: return "unknown";
    }
}

/* Words for a port's mode. */
static inline const char *haskumye_mode_words(unsigned mode)
{
    switch (mode) {
    case HASKUMYE_MODE_BOUNDARY: return "boundary";
    case HASKUMYE_MODE_ACCESS_POINT: return "access point";
    case HASKUMYE_MODE_ROAMING: return "roaming";
    default: return "unknown";
    }
}

/* The sentence of a clause of test 3, with # for the value. */
static inline const char *haskumye_bad_form_sentence(unsigned clause)
{
    switch (clause) {
    case HASKUMYE_BAD_FORM_TYPE_TWO_PROOF: return "a proof that names a relay: no proof is of type 2";
    case HASKUMYE_BAD_FORM_TYPE_TWO_OF_KIND_LINK: return "a packet of a link that names a relay: none is of type 2";
    case HASKUMYE_BAD_FORM_ANNOUNCE_NOT_SINGLE: return "an announce whose destination is not of kind single";
    case HASKUMYE_BAD_FORM_ANNOUNCE_TOO_SHORT: return "an announce whose payload is under # bytes";
    case HASKUMYE_BAD_FORM_ANNOUNCE_OF_ANOTHER: return "an announce whose destination does not belong to its keys";
    case HASKUMYE_BAD_FORM_REQUEST_OF_KIND_LINK: return "a link request whose destination is a link";
    case HASKUMYE_BAD_FORM_REQUEST_TOO_SHORT: return "a link request whose payload is under # bytes";
    case HASKUMYE_BAD_FORM_LINK_PROOF_LENGTH: return "a link proof whose payload is not # bytes, nor three more";
    default: return "unknown";
    }
}

/* The sentence of a case of test 6, with # for the value. */
static inline const char *haskumye_no_way_on_sentence(unsigned clause)
{
    switch (clause) {
    case HASKUMYE_NO_WAY_ON_NOT_ASKING: return "it asks no relay to carry it, and is not for this box";
    case HASKUMYE_NO_WAY_ON_NO_PATH: return "no path to this destination: none is held";
    case HASKUMYE_NO_WAY_ON_ONLY_EXPIRED: return "no path to this destination: the last one ran out at #";
    case HASKUMYE_NO_WAY_ON_NO_LINK: return "no such link: it ran out, or never led through here";
    case HASKUMYE_NO_WAY_ON_NOT_PROVED: return "this link is not proved yet";
    case HASKUMYE_NO_WAY_ON_NO_RETURN:
        return "nobody waits for this receipt: it is late, or its packet did not go through here";
    default: return "unknown";
    }
}

/* The sentence of a reason and its clause, with # for the value. */
static inline const char *haskumye_reason_sentence(unsigned reason, unsigned clause)
{
    switch (reason) {
    case HASKUMYE_REASON_BAD_FORM: return haskumye_bad_form_sentence(clause);
    case HASKUMYE_REASON_NO_WAY_ON: return haskumye_no_way_on_sentence(clause);
    case HASKUMYE_REASON_NOT_OURS: return "another relay is asked to carry it";
    case HASKUMYE_REASON_DUPLICATE: return "the same packet came less than 300 s ago";
    case HASKUMYE_REASON_OWN_ANNOUNCE: return "an announce of this box's own came back";
    case HASKUMYE_REASON_TOO_MANY_HOPS: return "128 relays or more carried it";
    case HASKUMYE_REASON_ALREADY_KNOWN: return "this link is known already";
    case HASKUMYE_REASON_WRONG_SIDE: return "it came by another port, or with other hops, than its way has";
    case HASKUMYE_REASON_NOT_SIGNED: return "its signature was not found good";
    case HASKUMYE_REASON_REPLAY: return "this announce was taken in before";
    case HASKUMYE_REASON_NOT_BETTER: return "an announce no newer than the one held, by no shorter way";
    case HASKUMYE_REASON_PORT_OFF: return "the port to leave by is off";
    case HASKUMYE_REASON_NO_ROOM: return "no room for another path or link";
    case HASKUMYE_REASON_RATE_LIMITED: return "this destination announces itself too often";
    case HASKUMYE_REASON_TOO_LONG_FOR_PORT: return "it is too long for the port to leave by";
    default: return "unknown";
    }
}

/* A number's digits at a place. Returns how many they are. */
static inline size_t haskumye_put_digits(uint64_t number, char *at)
{
    size_t count = 1;
    for (uint64_t rest = number; rest >= 10; rest /= 10) {
        count++;
    }
    for (size_t i = count; i > 0; i--) {
        at[i - 1] = HASKUMYE_CAST(char, '0' + number % 10);
        number /= 10;
    }
    return count;
}

/*
 * An answer in words for people: of a drop its sentence, with the value filled in (`no path to this destination: the
 * last one ran out at 22600`), of a refusal its words, of another the kind's. Returns the length. haskumye_answer_text
 * gives the numbers that go before it in a log.
 */
static inline size_t haskumye_sentence(haskumye_answer answer, haskumye_text *text)
{
    const char *words = haskumye_kind_words(HASKUMYE_ANSWER_KIND(answer));
    size_t length = 0;
    if (HASKUMYE_ANSWER_KIND(answer) == HASKUMYE_REFUSED) {
        words = haskumye_refusal_words(HASKUMYE_ANSWER_REFUSAL(answer));
    } else if (HASKUMYE_ANSWER_KIND(answer) == HASKUMYE_DROP) {
        words = haskumye_reason_sentence(HASKUMYE_ANSWER_REASON(answer), HASKUMYE_ANSWER_CLAUSE(answer));
    }
    for (; *words != '\0'; words++) {
        if (*words == '#') {
            length += haskumye_put_digits(HASKUMYE_ANSWER_VALUE(answer), text->bytes + length);
        } else {
            text->bytes[length++] = *words;
        }
    }
    for (size_t i = length; i < HASKUMYE_TEXT_SIZE; i++) {
        text->bytes[i] = '\0';
    }
    return length;
}

#ifdef __cplusplus
}
#endif

#endif
