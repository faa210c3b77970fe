//! What test 15 finds, and what it makes of it.

use crate::answer::{Answer, Reason, Verdict};
use crate::engine::{Call, Outcome};
use crate::limits::{LONGEST, VIOLATIONS_LIMIT};
use crate::packet;
use crate::rules::AsWritten;
use crate::tables::{self, AnnounceRate, RateEntry, PATHS};

/// An announce's clock, and what the tables held before it: the settings, and the entry of its live path.
pub struct Found {
    clock: u64,
    rate: AnnounceRate,
    entry: Option<RateEntry>,
}

impl Found {
    pub fn before(call: &Call, tables: &[u8]) -> Option<Self> {
        let Call::Packet(call) = call else { return None };
        let parts = packet::read(&AsWritten, &call.packet, LONGEST).ok()?;
        if !parts.header.is_announce() || tables.len() != tables::SIZE {
            return None;
        }
        let place = tables::find(&PATHS, tables, &parts.destination, call.clock);
        let entry = place.map(|place| RateEntry::read(PATHS.records.get(tables, place)));
        Some(Self { clock: call.clock, rate: AnnounceRate::read(tables), entry })
    }
}

/// An entry under settings at a clock, and whether the announce was dropped.
type Branch = (&'static str, fn(u64, &AnnounceRate, &RateEntry, bool) -> bool);

fn blocked(clock: u64, entry: &RateEntry) -> bool {
    clock < entry.blocked_until
}

/// A violation of an entry that isn't blocked.
fn violated(clock: u64, rate: &AnnounceRate, entry: &RateEntry) -> bool {
    !blocked(clock, entry) && clock < entry.last + rate.target
}

const BRANCHES: &[Branch] = &[
    ("blocked", |clock, _, entry, dropped| dropped && blocked(clock, entry)),
    ("a second before its block ends", |clock, _, entry, dropped| dropped && clock + 1 == entry.blocked_until),
    ("as its block ends", |clock, _, entry, dropped| !dropped && clock == entry.blocked_until && clock > 0),
    ("a violation within the grace", |clock, rate, entry, dropped| !dropped && violated(clock, rate, entry)),
    ("a violation above the grace", |clock, rate, entry, dropped| dropped && violated(clock, rate, entry)),
    ("a violation that reaches the grace", |clock, rate, entry, dropped| {
        !dropped && violated(clock, rate, entry) && u64::from(entry.violations) + 1 == rate.grace
    }),
    ("a violation one above the grace", |clock, rate, entry, dropped| {
        dropped && violated(clock, rate, entry) && u64::from(entry.violations) == rate.grace
    }),
    ("a violation at grace 0", |clock, rate, entry, dropped| dropped && violated(clock, rate, entry) && rate.grace == 0),
    ("a violation at 255", |clock, rate, entry, dropped| dropped && violated(clock, rate, entry) && entry.violations == VIOLATIONS_LIMIT),
    ("a second before the target", |clock, rate, entry, _| violated(clock, rate, entry) && clock + 1 == entry.last + rate.target),
    ("at the target", |clock, rate, entry, dropped| !dropped && rate.target > 0 && clock == entry.last + rate.target),
    ("a violation forgiven", |clock, rate, entry, dropped| !dropped && !violated(clock, rate, entry) && entry.violations > 0),
    ("no violation to forgive", |clock, rate, entry, dropped| {
        !dropped && rate.target > 0 && !violated(clock, rate, entry) && entry.violations == 0
    }),
    ("a last announce later than the clock", |clock, _, entry, _| !blocked(clock, entry) && entry.last > clock),
    ("the same with target 0", |clock, rate, entry, _| !blocked(clock, entry) && entry.last > clock && rate.target == 0),
    ("blocked with target 0", |clock, rate, entry, dropped| dropped && blocked(clock, entry) && rate.target == 0),
];

/// How often each branch was taken.
#[derive(Default)]
pub struct Rates {
    branches: [usize; BRANCHES.len()],
    new: usize,
}

impl Rates {
    /// Counts an announce that came to test 15.
    pub fn count(&mut self, found: &Found, outcome: &Outcome) {
        let Outcome::Judged(Answer { verdict, .. }) = outcome else { return };
        let dropped = *verdict == Verdict::Drop(Reason::TooOften);
        if !dropped && !matches!(verdict, Verdict::Spread(_) | Verdict::Kept) {
            return;
        }
        let Some(entry) = &found.entry else {
            self.new += usize::from(found.rate.target > 0);
            return;
        };
        for (times, (_, takes)) in self.branches.iter_mut().zip(BRANCHES) {
            *times += usize::from(takes(found.clock, &found.rate, entry, dropped));
        }
    }

    /// Each branch in words, and how often it was taken.
    pub fn reached(&self) -> Vec<(String, usize)> {
        let branches = BRANCHES.iter().zip(self.branches).map(|((what, _), times)| (format!("test 15: {what}"), times));
        branches.chain([("test 15: no live path".to_string(), self.new)]).collect()
    }
}
