//! The numbers of documents 01 and 02, each in one place.

/// "16 ports, 0 to 15, each on or off and boundary, access point or roaming."
pub const PORT_COUNT: usize = 16;
/// "64 paths, 16 stored blobs each." Wish 8: "Store 64 per path."
pub const PATH_COUNT: usize = 64;
pub const BLOB_LIMIT: usize = 64;
/// "Refusal 7 reads 1..64, 1..16 in older files."
pub const OLDER_BLOB_LIMIT: usize = 16;
/// "64 links."
pub const LINK_COUNT: usize = 64;
/// "512 return records."
pub const RETURN_COUNT: usize = 512;
/// "1,024 remembered hashes."
pub const HASH_COUNT: usize = 1_024;
/// "16 local addresses, a new one in the lowest empty place."
pub const LOCAL_COUNT: usize = 16;
/// "Clock in seconds, below 2^40."
pub const CLOCK_LIMIT: u64 = 1 << 40;
/// "time over 2^40 + 604,799"
pub const LATEST: u64 = CLOCK_LIMIT + 604_799;

/// "length over 500", and "output buffer under 500 bytes"
pub const LONGEST: usize = 500;
/// Wish 11: "Each port gets a size from 19 to 500"
pub const LEAST_SIZE: usize = 19;
pub const GREATEST_SIZE: usize = LONGEST;
/// "Hops 128 or more."
pub const HOPS_LIMIT: u8 = 128;

/// "Path lifetime by the arrival port: boundary 604,800 s, access point 86,400, roaming 21,600"
pub const BOUNDARY_LIFETIME: u64 = 604_800;
pub const ACCESS_POINT_LIFETIME: u64 = 86_400;
pub const ROAMING_LIFETIME: u64 = 21_600;
/// "Remembered hash 300 s."
pub const HASH_LIFETIME: u64 = 300;
/// "Return record 1,800 s (house number)."
pub const RETURN_LIFETIME: u64 = 1_800;
/// "Unproved link 6 × (remaining hops + 1) s (house number)": of each hop.
pub const HOP_LIFETIME: u64 = 6;
/// "proved link 720 s, renewed by each packet carried."
pub const PROVED_LIFETIME: u64 = 720;

/// "announce payload under 148 (180 with the context flag)"
pub const ANNOUNCE_LENGTH: usize = 148;
pub const RATCHET_LENGTH: usize = 32;
/// A link request's "payload cut to 64 bytes": its public keys.
pub const LINK_KEYS: usize = 64;
/// "a link proof (a proof of kind link, context 0xFF) whose payload isn't 96 or 99"
pub const LINK_PROOF: u8 = 0xff;
pub const LINK_PROOF_LENGTHS: [usize; 2] = [96, 99];

/// Wish 5: "Target, grace and penalty are at most 86,400, 254 and 604,800"
pub const TARGET_LIMIT: u64 = 86_400;
pub const GRACE_LIMIT: u64 = 254;
pub const PENALTY_LIMIT: u64 = 604_800;
/// "refusal 7's bound is 2^40 + 691,199 for blocked-until, 2^40 - 1 for the last announce"
pub const LATEST_BLOCK: u64 = CLOCK_LIMIT + 691_199;
pub const LATEST_ANNOUNCE: u64 = CLOCK_LIMIT - 1;
/// "Violations stop at 255."
pub const VIOLATIONS_LIMIT: u8 = 255;

/// Wish 14: "reads up to 16 recordings one after another"
pub const RECORDING_LIMIT: usize = 16;

/// Wish 2: "context 0x01, 0x03, 0x05, 0x08, 0x0E or 0xFA". Source 003 names them: a resource, its request and its proof, a cache request,
/// channel data, a keepalive.
pub const EXEMPT_CONTEXTS: [u8; 6] = [0x01, 0x03, 0x05, 0x08, 0x0e, 0xfa];
