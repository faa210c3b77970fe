//! Wish 8: 64 blobs.

use super::{faults, Changes, Fault, With};
use crate::limits::{BLOB_LIMIT, OLDER_BLOB_LIMIT};
use crate::rules::*;
use crate::tables::{blobs, path, BLOB};

/// Where the seventeenth blob place stands in a path.
const BEHIND_SIXTEEN: usize = path::BLOBS + OLDER_BLOB_LIMIT * BLOB;

/// The blobs that a path held before there were 64, and the newest as many.
fn first_sixteen(path: &[u8]) -> impl Iterator<Item = &[u8]> {
    blobs(path).take(OLDER_BLOB_LIMIT)
}

fn newest_sixteen(path: &[u8]) -> impl Iterator<Item = &[u8]> {
    blobs(path).skip(blobs(path).count().saturating_sub(OLDER_BLOB_LIMIT))
}

fn greatest<'a>(rules: &With, blobs: impl Iterator<Item = &'a [u8]>) -> u64 {
    blobs.map(|blob| rules.emission(blob)).max().unwrap_or(0)
}

fn is_past_sixteen(path: &[u8]) -> bool {
    blobs(path).count() >= OLDER_BLOB_LIMIT
}

faults! {
    SixteenStored: "with 16 blobs held the one stored longest ago goes"
    breaks "Store 64 per path." {
        store_blob = |_, blob, path| {
            if is_past_sixteen(path) {
                let held = path::BLOBS..path::BLOBS + blobs(path).count() * BLOB;
                path[held].copy_within(BLOB.., 0);
                path[path::BLOB_COUNT] -= 1;
            }
            announces::store_blob(blob, path);
        },
    }
    SixteenMoved: "with 64 blobs held only the first sixteen places move up"
    breaks "with 16 held, the one stored longest ago goes." {
        store_blob = |_, blob, path| {
            let behind = path[BEHIND_SIXTEEN..path::WIDTH - BLOB].to_vec();
            let full = blobs(path).count() == BLOB_LIMIT;
            announces::store_blob(blob, path);
            if full {
                path[BEHIND_SIXTEEN..path::WIDTH - BLOB].copy_from_slice(&behind);
            }
        },
    }
    FirstSixteenSearched: "replay compares the sixteen blobs stored first"
    breaks "Replay: the announce's blob is stored in its live path." {
        is_replay = |_, blob, path| first_sixteen(path).any(|stored| stored == blob),
    }
    NewestSixteenSearched: "replay compares the sixteen blobs stored last"
    breaks "Replay: the announce's blob is stored in its live path." {
        is_replay = |_, blob, path| newest_sixteen(path).any(|stored| stored == blob),
    }
    GreatestOfFirstSixteen: "the greatest emission is that of the sixteen blobs stored first"
    breaks "emission not above the greatest among stored blobs" {
        greatest_emission = |rules, path| greatest(rules, first_sixteen(path)),
    }
    GreatestOfNewestSixteen: "the greatest emission is that of the sixteen blobs stored last"
    breaks "emission not above the greatest among stored blobs" {
        greatest_emission = |rules, path| greatest(rules, newest_sixteen(path)),
    }
    HeldAmongFirstSixteen: "a blob stored behind the sixteenth is stored once more"
    breaks "a blob already stored isn't stored twice." {
        holds_blob = |_, blob, path| marks::is_marked(path) && first_sixteen(path).any(|stored| stored == blob),
    }
    NewPathBehindSixteenKept: "a new path leaves what lies behind the slot's sixteenth blob place"
    breaks "spare blob places zero" {
        clear_slot = |_, record| record[..BEHIND_SIXTEEN].fill(0),
    }
    SixteenAllowed: "a path with more than 16 blobs is refused"
    breaks "Refusal 7 reads 1..64" {
        blob_count_allowed = |_, count| (1..=OLDER_BLOB_LIMIT).contains(&usize::from(count)),
    }
    CountOf65Allowed: "a path may say that it holds 65 blobs"
    breaks "Refusal 7 reads 1..64" {
        blob_count_allowed = |_, count| (1..=BLOB_LIMIT + 1).contains(&usize::from(count)),
        store_blob = |_, blob, path| {
            path[path::BLOB_COUNT] = path[path::BLOB_COUNT].min(BLOB_LIMIT as u8);
            announces::store_blob(blob, path);
        },
    }
}
