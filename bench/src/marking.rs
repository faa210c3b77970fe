//! Marking a destination's live path, which stands behind all others.

use crate::calls::{COPIES, FILLS};
use crate::measure::{best, Report};
use crate::scene::{Scene, CLOCK};
use haskumye_independent::core;
use haskumye_independent::packet::Address;
use haskumye_independent::rules::{Rules, Tuned};
use haskumye_independent::tables::{path, PATHS};
use std::hint::black_box;
use std::time::Instant;

const TITLE: &str = "Marking a path unresponsive";
const DESTINATION: Address = [0x2a; 16];

fn mark_core(tables: &mut [u8]) {
    assert_eq!(core::mark_path_unresponsive(tables, black_box(&DESTINATION), black_box(CLOCK)), 0);
}

fn mark_independent(tables: &mut [u8]) {
    assert_eq!(Tuned.mark_unresponsive(tables, black_box(&DESTINATION), black_box(CLOCK)), Ok(()));
}

/// Nanoseconds of a mark by core and independent relay.
fn time(before: &[u8]) -> [f64; 2] {
    let programs = [mark_core, mark_independent];
    let [after, other] = programs.map(|mark| {
        let mut tables = before.to_vec();
        mark(&mut tables);
        tables
    });
    assert!(after == other && after != *before, "the programs differ, or mark nothing");
    let mut copies = vec![before.to_vec(); COPIES];
    best(COPIES, |turn| {
        copies.iter_mut().for_each(|copy| copy.copy_from_slice(before));
        let start = Instant::now();
        copies.iter_mut().for_each(|copy| programs[turn](copy));
        let time = start.elapsed();
        assert!(copies[COPIES - 1] == after, "a timed call did something else");
        time
    })
}

pub fn run(report: &mut Report) {
    report.table(TITLE, "tables", &[]);
    for (filled, fill) in FILLS {
        let mut scene = Scene::new(fill);
        scene.put(&PATHS, &DESTINATION, &[(path::UNRESPONSIVE, 0)]);
        report.line(&format!("mark, {filled}"), || time(&scene.tables));
    }
}
