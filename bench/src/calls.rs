//! Packet calls of each kind, over tables that are empty, half full and full of live records.

use crate::kinds::{keepalive_and_hashed, Call, KINDS};
use crate::measure::{best, Report};
use crate::scene::Scene;
use crate::state::{agreed, Independent, State, PROGRAMS};
use haskumye_independent::rules::Tuned;
use haskumye_independent::samples::Fill;
use std::time::Instant;

/// Which records the tables hold.
const TITLE: &str = "Packet calls, over tables that are empty, half full and full of live records. The record that a packet needs stands
behind all others of its table; empty tables hold it alone. A new path or link takes the first free place, in full
tables the last, which is expired.";

/// Beside the core's keepalive, the independent relay's, and the core on the other packet.
const KEEPALIVES: &str = "Keepalives: packets of kind link with context fa, which are not hashed. Beside them, under hash, the core on
link packets of the same length, which are: hash / core is to be 1.20 or better.";

/// Core and independent relay, by their places among the programs.
pub const CORE: usize = 0;
const INDEPENDENT: usize = 1;

pub const FILLS: [(&str, Fill); 3] = [("empty", Fill::Empty), ("half", Fill::FirstHalf), ("full", Fill::Full)];

/// A call changes the tables, so a turn makes one call on each of so many copies, restored before it outside the time that counts.
/// All copies (8 of 101 KiB) lie in a second-level cache of 1 MiB, where a busy relay's tables lie too; no first-level cache holds one.
pub const COPIES: usize = 8;

/// Nanoseconds of each call on the program beside it.
fn time<const N: usize>(before: &State, timed: [(usize, &Call); N]) -> [f64; N] {
    let after = timed.map(|(_, call)| agreed(before, call));
    let mut relay = Independent::new(Tuned);
    let mut copies = vec![before.clone(); COPIES];
    best(COPIES, |turn| {
        let (program, call) = timed[turn];
        copies.iter_mut().for_each(|copy| copy.restore(before));
        let start = Instant::now();
        copies.iter_mut().for_each(|copy| PROGRAMS[program](&mut relay, call, copy));
        let time = start.elapsed();
        assert!(copies[COPIES - 1] == after[turn], "a timed call did something else");
        time
    })
}

pub fn run(report: &mut Report) {
    report.table(TITLE, &format!("{:<33}{:>5}  tables", "kind", "bytes"), &[]);
    for (name, kind) in KINDS {
        for (filled, fill) in FILLS {
            let mut scene = Scene::new(fill);
            let call = kind(&mut scene);
            let what = format!("{name:<33}{:>5}  {filled}", call.packet.len());
            report.line(&what, || time(&State::new(scene.tables), [(CORE, &call), (INDEPENDENT, &call)]));
        }
    }
}

pub fn run_keepalives(report: &mut Report) {
    report.table(KEEPALIVES, &format!("{:<33}{:>5}  tables", "kind", "bytes"), &["hash"]);
    for (filled, fill) in FILLS {
        let mut scene = Scene::new(fill);
        let [keepalive, hashed] = keepalive_and_hashed(&mut scene);
        let what = format!("{:<33}{:>5}  {filled}", "keepalive", keepalive.packet.len());
        let timed = [(CORE, &keepalive), (INDEPENDENT, &keepalive), (CORE, &hashed)];
        report.line(&what, || time(&State::new(scene.tables), timed));
    }
}
