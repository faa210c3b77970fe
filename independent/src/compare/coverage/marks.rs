//! What announces for marked paths find, and what becomes of them.

use crate::answer::{Answer, Reason, Verdict};
use crate::engine::{Call, Outcome};
use crate::limits::LONGEST;
use crate::packet::{self, announced, hash, Address, DestinationKind};
use crate::relay::marks::is_marked;
use crate::rules::AsWritten;
use crate::sha256::Sha256;
use crate::tables::{self, blobs, has_key, RateEntry, HASHES, PATHS};
use std::cmp::Ordering;

/// What the tables held before an announce of kind single for a live marked path: another live path of its destination, its hash, its blob, greater
/// emissions, a block.
pub struct Marked {
    of_two: bool,
    remembered: bool,
    stored: bool,
    /// Its emission beside the greatest stored.
    emission: Option<Ordering>,
    blocked: bool,
}

impl Marked {
    pub fn before(sha: &Sha256, call: &Call, tables: &[u8]) -> Option<Self> {
        let Call::Packet(call) = call else { return None };
        let parts = packet::read(&AsWritten, &call.packet, LONGEST).ok()?;
        if !parts.header.is_announce() || parts.header.destination_kind() != DestinationKind::Single || tables.len() != tables::SIZE {
            return None;
        }
        let path = PATHS.records.get(tables, tables::find(&PATHS, tables, &parts.destination, call.clock)?);
        let payload = &call.packet[packet::payload_place(&call.packet)..];
        let hash = hash::packet_hash(&AsWritten, sha, &parts, payload);
        let greatest = blobs(path).map(announced::emission).max()?;
        let blob = payload.get(announced::BLOB);
        is_marked(path).then(|| Self {
            of_two: PATHS.records.iter(tables).filter(|path| is_of(path, &parts.destination, call.clock)).nth(1).is_some(),
            remembered: tables::find(&HASHES, tables, &hash, call.clock).is_some(),
            stored: blob.is_some_and(|blob| blobs(path).any(|stored| stored == blob)),
            emission: blob.map(|blob| announced::emission(blob).cmp(&greatest)),
            blocked: call.clock < RateEntry::read(path).blocked_until,
        })
    }
}

/// Is a path live, and of this destination?
fn is_of(path: &[u8], destination: &Address, clock: u64) -> bool {
    has_key(path, destination) && PATHS.is_live(path, clock)
}

type Branch = (&'static str, fn(&Marked, Verdict) -> bool);

fn accepted(verdict: Verdict) -> bool {
    matches!(verdict, Verdict::Spread(_) | Verdict::Kept)
}

fn older(found: &Marked) -> bool {
    found.emission == Some(Ordering::Less)
}

const BRANCHES: &[Branch] = &[
    ("revived by a duplicate", |found, verdict| accepted(verdict) && found.remembered),
    ("revived by an equal emission, its blob stored", |found, verdict| accepted(verdict) && found.stored),
    ("revived by an equal emission, its blob new", |found, verdict| {
        accepted(verdict) && !found.stored && found.emission == Some(Ordering::Equal)
    }),
    ("revived by a newer emission", |found, verdict| accepted(verdict) && found.emission == Some(Ordering::Greater)),
    ("revived while blocked", |found, verdict| accepted(verdict) && found.blocked),
    ("revived by an older emission", |found, verdict| accepted(verdict) && older(found)),
    ("kept", |_, verdict| verdict == Verdict::Kept),
    ("the lower of two revived", |found, verdict| accepted(verdict) && found.of_two),
    ("older and dropped by 10", |found, verdict| older(found) && verdict == Verdict::Drop(Reason::Replay)),
    ("older and dropped by 11", |found, verdict| older(found) && verdict == Verdict::Drop(Reason::NotBetter)),
    ("older and dropped by 15", |found, verdict| older(found) && verdict == Verdict::Drop(Reason::TooOften)),
    ("a duplicate dropped by 3", |found, verdict| found.remembered && matches!(verdict, Verdict::Drop(Reason::BadForm { .. }))),
    ("a duplicate dropped by 4", |found, verdict| found.remembered && verdict == Verdict::Drop(Reason::OwnAnnounce)),
    ("a duplicate dropped by 5", |found, verdict| found.remembered && verdict == Verdict::Drop(Reason::TooManyHops)),
    ("a new one dropped by 9, and remembered", |found, verdict| !found.remembered && verdict == Verdict::Drop(Reason::BadSignature)),
    ("a duplicate dropped by 9", |found, verdict| found.remembered && verdict == Verdict::Drop(Reason::BadSignature)),
];

/// How often each branch was taken, and the answers to marks.
#[derive(Default)]
pub struct Marks {
    branches: [usize; BRANCHES.len()],
    /// By refusals' numbers, 0 for none.
    pub marks: [usize; 13],
}

impl Marks {
    pub fn count(&mut self, found: &Marked, outcome: &Outcome) {
        let Outcome::Judged(Answer { verdict, .. }) = outcome else { return };
        for (times, (_, takes)) in self.branches.iter_mut().zip(BRANCHES) {
            *times += usize::from(takes(found, *verdict));
        }
    }

    /// Each branch in words, and how often it was taken.
    pub fn reached(&self) -> Vec<(String, usize)> {
        BRANCHES.iter().zip(self.branches).map(|((what, _), times)| (format!("marked path: {what}"), times)).collect()
    }

    /// The same of the answers to marks.
    pub fn reached_calls(&self) -> Vec<(String, usize)> {
        [0, 5, 7, 12].map(|number| (format!("mark: {}", super::answer(number)), self.marks[number])).to_vec()
    }
}
