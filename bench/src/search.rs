//! The search for a duplicate among 1,024 live hashes. No program exports it alone, so two calls are compared that do all else alike:
//! one whose duplicate stands in the last place, and one with it in the first. The difference is the time to pass 1,023 hashes that are
//! not the packet's. Beside them a plain search in C, which compares from the first byte on, over the same tables.

use crate::kinds::{data_again, Call};
use crate::measure::{best, Report};
use crate::scene::{hash_of, Scene, CLOCK};
use crate::state::{agreed, Independent, State, PROGRAMS};
use haskumye_independent::packet::PacketHash;
use haskumye_independent::rules::Tuned;
use haskumye_independent::samples::Fill;
use haskumye_independent::tables::{set_key, HASHES};
use std::hint::black_box;
use std::time::Instant;

extern "C" {
    fn plain_search(records: *const u8, count: usize, hash: *const u8, clock: u64) -> usize;
}

/// Calls that one turn makes. A duplicate leaves the tables as they were, so all are made on one relay.
const CALLS: usize = 8;

/// The hashes that the packet's is not.
#[derive(Clone, Copy)]
enum Others {
    Random,
    /// They share its first 31 bytes, and not its last.
    Sharing,
}

/// A packet that is a duplicate, and full tables that hold its hash at a place.
struct Duplicate {
    call: Call,
    hash: PacketHash,
    state: State,
    relay: Independent,
}

impl Duplicate {
    fn at(place: usize, others: Others) -> Self {
        let mut scene = Scene::new(Fill::Full);
        let call = data_again(&mut scene);
        let hash = hash_of(&call.packet);
        for other in 0..HASHES.records.count {
            let mut key = hash;
            match others {
                _ if other == place => {}
                Others::Random => key = scene.random.array(),
                Others::Sharing => key[31] = key[31].wrapping_add(1 + (other % 255) as u8),
            }
            set_key(HASHES.records.get_mut(&mut scene.tables, other), &key);
        }
        let duplicate = Self { call, hash, state: State::new(scene.tables), relay: Independent::new(Tuned) };
        agreed(&duplicate.state, &duplicate.call);
        assert_eq!(duplicate.plain(), place);
        duplicate
    }

    fn plain(&self) -> usize {
        let records = &self.state.tables[HASHES.records.bytes()];
        // SAFETY: the C function reads the records and the 32 bytes of the hash.
        unsafe { plain_search(records.as_ptr(), HASHES.records.count, black_box(&self.hash).as_ptr(), CLOCK) }
    }

    /// A packet call by the core or by the independent relay, or a plain search.
    fn make(&mut self, program: usize) {
        match PROGRAMS.get(program) {
            Some(program) => program(&mut self.relay, &self.call, &mut self.state),
            None => drop(black_box(self.plain())),
        }
    }
}

/// Nanoseconds with the duplicate in the first place, then with it in the last, of each program.
fn time(others: Others) -> [f64; 6] {
    let mut duplicates = [Duplicate::at(0, others), Duplicate::at(HASHES.records.count - 1, others)];
    best(CALLS, |turn| {
        let start = Instant::now();
        for _ in 0..CALLS {
            duplicates[turn / 3].make(turn % 3);
        }
        start.elapsed()
    })
}

/// What the last place costs beyond the first.
pub fn difference(times: &[f64]) -> Vec<f64> {
    let (first, last) = times.split_at(3);
    first.iter().zip(last).map(|(first, last)| last - first).collect()
}

pub fn run(report: &mut Report) {
    let title = "Duplicate search: 1,023 live hashes passed; C is a plain search that compares from the first byte on";
    report.table(title, "hashes", &["C"]);
    report.line_of("search, random hashes", || time(Others::Random), difference);
    report.line_of("search, first 31 bytes shared", || time(Others::Sharing), difference);
}
