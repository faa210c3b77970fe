//! Refusal 7's test once more, tuned: records as arrays of known width, whose zeros are tested by whole words, short ones sixteen at once; and what
//! an announce looks for among a path's blobs, as arrays too.

use super::check::{is_port, rate_allowed, stored_size_allowed};
use super::{link, path, port, remembered, returned, ring_place, size, time, AnnounceRate, BLOB, HASHES, HASH_PLACE, LAST_CLOCK, TIME};
use super::{LINKS, LOCALS, PATHS, PORTS, RETURNS, RETURN_PLACE, SIZE};
use crate::limits::{BLOB_LIMIT, LATEST, LATEST_ANNOUNCE, LATEST_BLOCK};

/// Records that are passed at once where all are zeros.
const GROUP: usize = 16;
/// An emission's bytes are the last five of a blob.
const EMISSION: u64 = (1 << 40) - 1;

pub fn tables_allowed(tables: &[u8]) -> bool {
    tables.len() == SIZE
        && time(tables, LAST_CLOCK) <= LATEST
        && rate_allowed(&AnnounceRate::read(tables))
        && tables[PORTS.bytes()]
            .as_chunks()
            .0
            .iter()
            .all(|settings: &[u8; port::WIDTH]| settings[port::ON] <= 1 && settings[port::MODE] <= 2 && stored_size_allowed(size(settings)))
        && records_allowed(&tables[LOCALS.bytes()], |_: &[u8; LOCALS.width]| true)
        && records_allowed(&tables[PATHS.records.bytes()], |path: &[u8; path::WIDTH]| {
            is_port(path[path::PORT])
                && path[path::BLOB_COUNT].wrapping_sub(1) < BLOB_LIMIT as u8
                && time(path, path::EXPIRY) <= LATEST
                && time(path, path::LAST_ANNOUNCE) <= LATEST_ANNOUNCE
                && time(path, path::BLOCKED_UNTIL) <= LATEST_BLOCK
                && path[path::UNRESPONSIVE] <= 1
        })
        && groups_allowed::<{ GROUP * link::WIDTH }, { link::WIDTH }>(&tables[LINKS.records.bytes()], |link| {
            is_port(link[link::ASKING] | link[link::ANSWERING]) && link[link::PROVED] <= 1 && time(link, link::EXPIRY) <= LATEST
        })
        && ring_place(tables, RETURN_PLACE) < RETURNS.records.count
        && groups_allowed::<{ GROUP * returned::WIDTH }, { returned::WIDTH }>(&tables[RETURNS.records.bytes()], |record| {
            is_port(record[returned::ARRIVAL] | record[returned::LEAVING]) && time(record, returned::EXPIRY) <= LATEST
        })
        && ring_place(tables, HASH_PLACE) < HASHES.records.count
        && groups_allowed::<{ GROUP * remembered::WIDTH }, { remembered::WIDTH }>(&tables[HASHES.records.bytes()], |hash| {
            time(hash, remembered::EXPIRY) <= LATEST
        })
}

/// Every record is used and its fields are allowed, or all zeros.
fn records_allowed<const WIDTH: usize>(records: &[u8], fields: impl Fn(&[u8; WIDTH]) -> bool) -> bool {
    records.as_chunks().0.iter().all(|record| if record[0] == 1 { fields(record) } else { is_zero(record) })
}

/// The same in groups, of which one that is all zeros is passed at once.
fn groups_allowed<const GROUP: usize, const WIDTH: usize>(records: &[u8], fields: impl Fn(&[u8; WIDTH]) -> bool) -> bool {
    let groups: &[[u8; GROUP]] = records.as_chunks().0;
    groups.iter().all(|group| group[0] == 0 && is_zero(group) || records_allowed(group, &fields))
}

/// Are all bytes zeros? By words of sixteen, the last of them over the end.
fn is_zero<const WIDTH: usize>(bytes: &[u8; WIDTH]) -> bool {
    let word = |bytes: &[u8; 16]| u128::from_ne_bytes(*bytes);
    let last = word(bytes.last_chunk().expect("a word"));
    bytes.as_chunks().0.iter().fold(last, |all, bytes| all | word(bytes)) == 0
}

/// The blobs that a path holds.
fn held(path: &[u8]) -> &[[u8; BLOB]] {
    let places: &[[u8; BLOB]] = path[path::BLOBS..].as_chunks().0;
    &places[..usize::from(path[path::BLOB_COUNT])]
}

/// Does a path hold a blob? Four at once.
pub fn holds(blob: &[u8], path: &[u8]) -> bool {
    let blob: &[u8; BLOB] = blob.try_into().expect("a blob");
    let (fours, rest) = held(path).as_chunks::<4>();
    fours.iter().any(|four| four.iter().fold(false, |found, stored| found | (stored == blob))) || rest.contains(blob)
}

pub fn greatest_emission(path: &[u8]) -> u64 {
    held(path).iter().fold(0, |greatest, blob| greatest.max(time(blob, BLOB - TIME) & EMISSION))
}
