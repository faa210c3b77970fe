//! Refusal 7's check on tables that are filled in four ways: the core, the independent Rust tuned the same way, and one bare pass over
//! the same bytes, which sums them as words of eight and is what memory allows.

use crate::measure::{best, turn, Pass, Report};
use haskumye_independent::core;
use haskumye_independent::random::Random;
use haskumye_independent::samples::{filled, Fill};
use haskumye_independent::tables::tuned;

/// Checks that one turn makes.
const CHECKS: usize = 8;

const FILLS: [(&str, Fill); 4] = [
    ("check, empty", Fill::Empty),
    ("check, first half used", Fill::FirstHalf),
    ("check, random half used", Fill::RandomHalf),
    ("check, full", Fill::Full),
];

fn bare(tables: &[u8]) -> u64 {
    tables.as_chunks().0.iter().fold(0, |sum, word| u64::wrapping_add(sum, u64::from_ne_bytes(*word)))
}

pub fn run(report: &mut Report) {
    let core: Pass<u64> = &|tables| u64::from(core::check(tables) == 0);
    let rust: Pass<u64> = &|tables| u64::from(tuned::tables_allowed(tables));
    let passes = [core, rust, &bare];
    report.table("Check of the tables (refusal 7), and a bare pass over their bytes", "tables", &["bare"]);
    let mut random = Random::new(1);
    for (name, fill) in FILLS {
        let tables = filled(&mut random, fill);
        assert!(core(&tables) == 1 && rust(&tables) == 1, "the tables are refused");
        report.line(name, || best::<3>(CHECKS, |pass| turn(passes[pass], &tables, CHECKS)));
    }
}
