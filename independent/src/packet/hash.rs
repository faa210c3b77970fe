//! Packet hashes and link ids.

use super::{address, Address, PacketHash, Parts};
use crate::limits::{LINK_KEYS, LONGEST};
use crate::rules::Rules;
use crate::sha256::Sha256;

/// What is hashed before the payload.
pub const HEAD: usize = 18;

/// The packet hash of a packet that reads.
pub fn packet_hash<R: Rules>(rules: &R, sha: &Sha256, parts: &Parts, payload: &[u8]) -> PacketHash {
    let mut message = [0; LONGEST];
    let end = HEAD + payload.len();
    message[..HEAD].copy_from_slice(&rules.hashed_head(parts));
    message[HEAD..end].copy_from_slice(payload);
    sha.digest(&message[..end])
}

/// "Packet hash: SHA-256 of (header modulo 16), destination, context, payload, in that order."
pub fn hashed_head(parts: &Parts) -> [u8; HEAD] {
    let mut head = [0; HEAD];
    head[0] = parts.header.0 % 16;
    head[1..17].copy_from_slice(&parts.destination);
    head[17] = parts.context;
    head
}

/// "Link id (007): the same over a link request with its payload cut to 64 bytes, first 16 bytes of the result."
pub fn link_id<R: Rules>(rules: &R, sha: &Sha256, parts: &Parts, payload: &[u8]) -> Address {
    let covered = rules.link_id_covers(payload.len());
    address(&packet_hash(rules, sha, parts, &payload[..covered])[..16])
}

/// How much of a payload the link id covers.
pub fn link_id_covers(length: usize) -> usize {
    length.min(LINK_KEYS)
}
