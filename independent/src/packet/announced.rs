//! What an announce's payload holds: 64 key bytes, ten of the name hash, a blob, a ratchet or none, the signature, and what the application
//! adds.

use super::{address, Address, Parts};
use crate::limits::{ANNOUNCE_LENGTH, RATCHET_LENGTH};
use crate::rules::Rules;
use crate::sha256::Sha256;
use std::ops::Range;

pub const KEYS: Range<usize> = 0..64;
pub const NAME_HASH: Range<usize> = 64..74;
/// "Blob: payload bytes 74..83"
pub const BLOB: Range<usize> = 74..84;

/// "announce payload under 148 (180 with the context flag)"
pub fn least_announce<R: Rules>(rules: &R, parts: &Parts) -> usize {
    ANNOUNCE_LENGTH + if rules.has_ratchet(parts) { RATCHET_LENGTH } else { 0 }
}

/// The context flag tells of a ratchet.
pub fn has_ratchet(parts: &Parts) -> bool {
    parts.header.context_flag()
}

/// "the first 16 of SHA-256(name hash ‖ identity hash), identity hash being the first 16 of SHA-256(the 64 key bytes) (008 decides over
/// 009)"
pub fn destination(sha: &Sha256, keys: &[u8], name_hash: &[u8]) -> Address {
    let mut message = [0; 26];
    let (name, end) = (name_hash.len(), name_hash.len() + 16);
    message[..name].copy_from_slice(name_hash);
    message[name..end].copy_from_slice(&sha.digest(keys)[..16]);
    address(&sha.digest(&message[..end])[..16])
}

/// A blob is "five random, five of emission time, big-endian."
pub fn emission(blob: &[u8]) -> u64 {
    blob[5..10].iter().fold(0, |time, byte| time << 8 | u64::from(*byte))
}
