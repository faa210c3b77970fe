//! The comparisons, a module for each subject.

pub mod announcing;
pub mod answered;
mod answers;
pub mod coverage;
pub mod faults;
pub mod listed;
pub mod lockstep;
pub mod opinion;
pub mod packet;
pub mod recording;
mod relay;
mod renumbering;
pub mod saved;
mod sha256;
pub mod shrink;
pub mod survey;
pub mod tables;

use crate::engine::Call;
use crate::faults::Fault;
use crate::traffic::{Asking, Traffic};

/// What a run is asked for. Each subject reads the same options.
pub struct Options {
    pub seed: u64,
    /// How many random cases.
    pub count: usize,
    /// How many calls on a relay, beside questions.
    pub calls: usize,
    /// The calls on a relay themselves, where they are given.
    pub list: Option<Vec<Call>>,
    /// One fault alone, where a subject tries faults.
    pub fault: Option<Fault>,
    /// Damage every expectation, so that every comparison must fail.
    pub damage: bool,
}

impl Default for Options {
    /// What the gate runs.
    fn default() -> Self {
        Self { seed: 1, count: 2_000, calls: 200_000, list: None, fault: None, damage: false }
    }
}

impl Options {
    /// Is traffic long enough to reach everything? Shorter runs show a difference again.
    fn is_long(&self) -> bool {
        self.list.is_none() && self.calls >= Self::default().calls
    }

    /// The calls that relays are compared on: those given, or random ones with questions among them.
    fn traffic(&self) -> Box<dyn Iterator<Item = Call> + '_> {
        match &self.list {
            Some(calls) => Box::new(calls.iter().cloned()),
            None => Box::new(Asking::new(self.seed, Traffic::new(self.seed).take(self.calls))),
        }
    }
}

pub type Subject = (&'static str, fn(&Options, &mut Tally));

/// A new subject is a module above and a line here.
pub const SUBJECTS: &[Subject] = &[
    ("sha256", sha256::run),
    ("packet", packet::run),
    ("announcing", announcing::run),
    ("answers", answers::run),
    ("tables", tables::run),
    ("relay", relay::run),
    ("renumbering", renumbering::run),
    ("recording", recording::run),
    ("saved", saved::run),
    ("survey", survey::run),
    ("opinion", opinion::run),
    ("faults", faults::run),
];

/// What a call of the core returned, as a number, and the buffer that it was lent, after it.
#[derive(Clone, Debug, PartialEq, Eq)]
pub struct Called {
    pub number: u64,
    pub buffer: Vec<u8>,
}

impl Called {
    pub fn new(number: impl Into<u64>, buffer: &[u8]) -> Self {
        Self { number: number.into(), buffer: buffer.to_vec() }
    }

    /// Wrong in the number or in a bit of the buffer, by turns.
    fn damaged(mut self, turn: usize) -> Self {
        match self.buffer.len() {
            length if length > 0 && turn % 3 == 1 => self.buffer[turn % length] ^= 1 << (turn % 8),
            _ => self.number ^= 1,
        }
        self
    }
}

/// Counts comparisons, and shows the first few that fail.
pub struct Tally {
    pub passed: usize,
    pub failed: usize,
    shown: usize,
}

impl Default for Tally {
    fn default() -> Self {
        Self { passed: 0, failed: 0, shown: 5 }
    }
}

impl Tally {
    /// One that shows nothing.
    pub fn silent() -> Self {
        Self { shown: 0, ..Self::default() }
    }

    /// Compares two calls. With `--damage` what is expected is wrong.
    pub fn call(&mut self, what: &str, got: Called, expected: Called, damage: bool) {
        let turn = self.passed + self.failed;
        let expected = if damage { expected.damaged(turn) } else { expected };
        if got == expected {
            self.passed += 1;
        } else {
            self.fail(&format!("{what}: got {got:02x?}, expected {expected:02x?}"));
        }
    }

    /// The same of long buffers: only the first byte that differs is shown.
    pub fn long_call(&mut self, what: &str, got: Called, expected: Called, damage: bool) {
        let turn = self.passed + self.failed;
        let expected = if damage { expected.damaged(turn) } else { expected };
        if got == expected {
            self.passed += 1;
            return;
        }
        let place = got.buffer.iter().zip(&expected.buffer).position(|(a, b)| a != b);
        let left = place.map_or(String::new(), |at| format!(", what it left first differs at byte {at}"));
        self.fail(&format!("{what}: got {:x}, expected {:x}{left}", got.number, expected.number));
    }

    /// Something that must hold; damaged, nothing does.
    pub fn holds(&mut self, what: &str, holds: bool, damage: bool) {
        if holds && !damage {
            self.passed += 1;
        } else {
            self.fail(&format!("{what}: it doesn't hold"));
        }
    }

    /// Counts a comparison that failed.
    pub fn fail(&mut self, what: &str) {
        self.failed += 1;
        if self.failed <= self.shown {
            println!("{what}");
        }
    }
}
