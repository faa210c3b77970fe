//! Refusal 7.

use super::{faults, Changes, Fault};
use crate::limits::{BLOB_LIMIT, CLOCK_LIMIT, LATEST};
use crate::rules::*;
use crate::tables::{blobs, path, BLOB, PATHS, SIZE};

/// A mark of 2 is yes.
fn two_is_yes(mark: u8) -> Option<bool> {
    if mark == 2 {
        Some(true)
    } else {
        check::used_mark(mark)
    }
}

fn has_double_path(tables: &[u8]) -> bool {
    let used = || PATHS.records.iter(tables).filter(|path| path[0] == 1);
    used().enumerate().any(|(i, path)| used().skip(i + 1).any(|other| other[1..17] == path[1..17]))
}

faults! {
    MarkTwoAllowed: "a mark of 2 is allowed"
    breaks "a used, proved or port-on mark neither yes nor no" {
        used_mark = |_, mark| two_is_yes(mark),
    }
    ProvedTwoAllowed: "a proved mark of 2 is allowed"
    breaks "a used, proved or port-on mark neither yes nor no" {
        proved_mark = |_, mark| two_is_yes(mark),
    }
    PortOnTwoAllowed: "a port-on mark of 2 is allowed"
    breaks "a used, proved or port-on mark neither yes nor no" {
        on_mark = |_, mark| two_is_yes(mark),
    }
    UnusedUnread: "an unused record may hold anything"
    breaks "an unused record not all zeros" {
        unused_allowed = |_, _| true,
    }
    SpareBlobsZero: "spare blob places of a used record must be zero"
    breaks "tables of wrong size, or a stored port over 15, ring place outside its ring, mode unknown" {
        path_allowed = |rules, path| {
            let spare = path::BLOBS + blobs(path).count() * BLOB;
            check::path_allowed(rules, path) && check::all_zero(&path[spare..])
        },
    }
    StoredHopsLimited: "stored hops over 127 are refused"
    breaks "tables of wrong size, or a stored port over 15, ring place outside its ring, mode unknown" {
        path_allowed = |rules, path| check::path_allowed(rules, path) && path[path::HOPS] <= 127,
    }
    BlobCountZeroAllowed: "a used path may hold no blob"
    breaks "blob count outside 1..16 in a used record" {
        blob_count_allowed = |_, count| usize::from(count) <= BLOB_LIMIT,
    }
    BlobCountLimitRefused: "a path with 64 blobs is refused"
    breaks "Refusal 7 reads 1..64" {
        blob_count_allowed = |_, count| check::blob_count_allowed(count) && usize::from(count) != BLOB_LIMIT,
    }
    LastRingPlaceRefused: "the ring's last place is outside it"
    breaks "ring place outside its ring" {
        ring_place_allowed = |_, place, count| check::ring_place_allowed(place, count - 1),
    }
    TimeBoundLoose: "a time of 2^40 + 604,800 is allowed"
    breaks "time over 2^40 + 604,799" {
        time_allowed = |_, time| time <= LATEST + 1,
    }
    LastClockBelowLimit: "a last clock of 2^40 or more is refused"
    breaks "time over 2^40 + 604,799" {
        last_clock_allowed = |_, clock| clock < CLOCK_LIMIT,
    }
    LastClockUnchecked: "the last clock may be any time"
    breaks "time over 2^40 + 604,799" {
        last_clock_allowed = |_, _| true,
    }
    DoubleKeysRefused: "two used paths of one destination are refused"
    breaks "If lent tables hold two live records of one key, the lower place counts." {
        tables_allowed = |rules, tables| check::tables_allowed(rules, tables) && !has_double_path(tables),
    }
    AsLongTables: "longer tables are allowed"
    breaks "tables of wrong size" {
        size_allowed = |_, size| size >= SIZE,
    }
}
