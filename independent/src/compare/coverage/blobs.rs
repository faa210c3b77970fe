//! What announces find among a path's blobs, and what becomes of them.

use crate::answer::{Answer, Reason, Verdict};
use crate::engine::{Call, Outcome};
use crate::limits::{BLOB_LIMIT, LONGEST, OLDER_BLOB_LIMIT};
use crate::packet::{self, announced};
use crate::relay::marks::is_marked;
use crate::rules::AsWritten;
use crate::tables::{self, blobs, is_used, path, BLOB, PATHS};

/// What the tables held before an announce: of its live path, or of the slot that a new one takes.
pub enum Held {
    Known(Known),
    /// Does the slot hold anything behind its sixteenth blob place?
    New(bool),
}

pub struct Known {
    marked: bool,
    count: usize,
    /// Where the announce's blob is stored, and whether a spare place holds it.
    place: Option<usize>,
    spare: bool,
    /// Its emission, and the greatest of the sixteen blobs that were stored first and of those that were stored last.
    emission: u64,
    of_first: u64,
    of_newest: u64,
}

/// Where the seventeenth blob place stands.
const BEHIND: usize = path::BLOBS + OLDER_BLOB_LIMIT * BLOB;

impl Held {
    pub fn before(call: &Call, tables: &[u8]) -> Option<Self> {
        let Call::Packet(call) = call else { return None };
        let parts = packet::read(&AsWritten, &call.packet, LONGEST).ok()?;
        let blob = call.packet[packet::payload_place(&call.packet)..].get(announced::BLOB)?;
        if !parts.header.is_announce() || tables.len() != tables::SIZE {
            return None;
        }
        let known = tables::find(&PATHS, tables, &parts.destination, call.clock);
        let slot = known.or_else(|| PATHS.free(tables, call.clock))?;
        let record = PATHS.records.get(tables, slot);
        Some(if known.is_some() { Held::Known(Known::of(record, blob)) } else { Held::New(!is_zero(&record[BEHIND..])) })
    }
}

impl Known {
    fn of(record: &[u8], blob: &[u8]) -> Self {
        let count = blobs(record).count();
        let greatest = |skipped: usize| blobs(record).skip(skipped).take(OLDER_BLOB_LIMIT).map(announced::emission).max().unwrap_or(0);
        Self {
            marked: is_marked(record),
            count,
            place: blobs(record).position(|stored| stored == blob),
            spare: record[path::BLOBS..].chunks_exact(BLOB).skip(count).any(|place| place == blob),
            emission: announced::emission(blob),
            of_first: greatest(0),
            of_newest: greatest(count.saturating_sub(OLDER_BLOB_LIMIT)),
        }
    }

    fn behind_sixteen(&self) -> bool {
        self.place.is_some_and(|place| place >= OLDER_BLOB_LIMIT)
    }
}

fn is_zero(bytes: &[u8]) -> bool {
    bytes.iter().all(|byte| *byte == 0)
}

/// Does a used path hold anything in spare places behind the sixteenth?
pub fn has_spare_blobs(tables: &[u8]) -> bool {
    let spare = |record: &[u8]| path::BLOBS + BLOB * usize::from(record[path::BLOB_COUNT]).clamp(OLDER_BLOB_LIMIT, BLOB_LIMIT);
    tables.len() == tables::SIZE && PATHS.records.iter(tables).any(|record| is_used(record) && !is_zero(&record[spare(record)..]))
}

type Branch = (&'static str, fn(&Known, Verdict) -> bool);

/// Was it stored?
fn stored(held: &Known, verdict: Verdict) -> bool {
    accepted(verdict) && held.place.is_none()
}

fn accepted(verdict: Verdict) -> bool {
    matches!(verdict, Verdict::Spread(_) | Verdict::Kept)
}

fn replayed(verdict: Verdict) -> bool {
    verdict == Verdict::Drop(Reason::Replay)
}

const BRANCHES: &[Branch] = &[
    ("the 17th is stored", |held, verdict| stored(held, verdict) && held.count == OLDER_BLOB_LIMIT),
    ("the 64th is stored", |held, verdict| stored(held, verdict) && held.count == BLOB_LIMIT - 1),
    ("with 64 held the oldest goes", |held, verdict| stored(held, verdict) && held.count == BLOB_LIMIT),
    ("one of a spare place is stored", |held, verdict| stored(held, verdict) && held.spare),
    ("replay of the first of 64", |held, verdict| replayed(verdict) && held.count == BLOB_LIMIT && held.place == Some(0)),
    ("replay of the last of 64", |held, verdict| replayed(verdict) && held.place == Some(BLOB_LIMIT - 1)),
    ("replay of one behind the sixteenth", |held, verdict| replayed(verdict) && held.behind_sixteen()),
    ("replay of one before the newest sixteen", |held, verdict| {
        replayed(verdict) && held.place.is_some_and(|place| place + OLDER_BLOB_LIMIT < held.count)
    }),
    ("not better than one behind the sixteenth alone", |held, verdict| {
        verdict == Verdict::Drop(Reason::NotBetter) && held.emission > held.of_first
    }),
    ("not better than one before the newest sixteen alone", |held, verdict| {
        verdict == Verdict::Drop(Reason::NotBetter) && held.emission > held.of_newest
    }),
    ("a marked path's behind the sixteenth isn't stored twice", |held, verdict| held.marked && accepted(verdict) && held.behind_sixteen()),
];

/// How often each branch was taken.
#[derive(Default)]
pub struct Blobs {
    branches: [usize; BRANCHES.len()],
    /// New paths in slots that held something behind the sixteenth place, and saves of tables that hold something in such spare places.
    new: usize,
    pub saves: usize,
}

impl Blobs {
    pub fn count(&mut self, held: &Held, outcome: &Outcome) {
        let Outcome::Judged(Answer { verdict, .. }) = outcome else { return };
        match held {
            Held::New(behind) => self.new += usize::from(*behind && accepted(*verdict)),
            Held::Known(held) => {
                for (times, (_, takes)) in self.branches.iter_mut().zip(BRANCHES) {
                    *times += usize::from(takes(held, *verdict));
                }
            }
        }
    }

    /// Each branch in words, and how often it was taken.
    pub fn reached(&self) -> Vec<(String, usize)> {
        let branches = BRANCHES.iter().zip(self.branches).map(|((what, _), times)| (*what, times));
        let others = [("a new path clears places behind the sixteenth", self.new), ("a save with such spare places", self.saves)];
        branches.chain(others).map(|(what, times)| (format!("blobs: {what}"), times)).collect()
    }
}
