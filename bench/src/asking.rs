//! Whether the signature word matters, asked of a duplicate announce, whose signature no host has to verify; beside it the packet call.

use crate::calls::{COPIES, CORE, FILLS};
use crate::kinds::{announce_duplicate, Call};
use crate::measure::{best, Report};
use crate::scene::Scene;
use crate::state::{agreed, arrival, Independent, State, PROGRAMS};
use haskumye_independent::core;
use haskumye_independent::limits::LONGEST;
use haskumye_independent::relay::Arrival;
use haskumye_independent::rules::{Rules, Tuned};
use std::hint::black_box;
use std::time::Instant;

const TITLE: &str = "Whether the signature word matters, asked of a duplicate announce. Rust makes its packet call twice, on copies of the
tables; under call, the core's packet call on the same announce.";

/// Asked so: it doesn't.
fn ask_core(call: &Call, tables: &[u8]) {
    let Arrival { packet, port, clock, .. } = black_box(arrival(call));
    assert_eq!(core::signature_matters(packet, port, clock, black_box(tables), LONGEST), 0);
}

fn ask_independent(relay: &Independent, call: &Call, tables: &[u8]) {
    let asked = relay.rules.signature_matters(&relay.sha, black_box(tables), LONGEST, &black_box(arrival(call)));
    assert_eq!(asked, Ok(false));
}

/// Nanoseconds of the question by core and independent relay, and of the core's packet call.
fn time(before: &State, call: &Call) -> [f64; 3] {
    let after = agreed(before, call);
    let mut relay = Independent::new(Tuned);
    let mut copies = vec![before.clone(); COPIES];
    best(COPIES, |turn| {
        copies.iter_mut().for_each(|copy| copy.restore(before));
        let start = Instant::now();
        match turn {
            0 => copies.iter().for_each(|copy| ask_core(call, &copy.tables)),
            1 => copies.iter().for_each(|copy| ask_independent(&relay, call, &copy.tables)),
            _ => copies.iter_mut().for_each(|copy| PROGRAMS[CORE](&mut relay, call, copy)),
        }
        let time = start.elapsed();
        let expected = if turn < 2 { before } else { &after };
        assert!(copies[COPIES - 1] == *expected, "a timed call did something else");
        time
    })
}

pub fn run(report: &mut Report) {
    report.table(TITLE, &format!("{:<33}{:>5}  tables", "kind", "bytes"), &["call"]);
    for (filled, fill) in FILLS {
        let mut scene = Scene::new(fill);
        let call = announce_duplicate(&mut scene);
        let what = format!("{:<33}{:>5}  {filled}", "announce, duplicate, asked", call.packet.len());
        report.line(&what, || time(&State::new(scene.tables), &call));
    }
}
