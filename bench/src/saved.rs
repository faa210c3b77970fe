//! Saving and loading over tables that are filled in three ways; beside them a bare copy of as many bytes.

use crate::measure::{best, Report};
use haskumye_independent::engine::SavedCalls;
use haskumye_independent::linked::Core;
use haskumye_independent::random::Random;
use haskumye_independent::relay::Relay;
use haskumye_independent::rules::Tuned;
use haskumye_independent::samples::{filled, Fill};
use haskumye_independent::saved::LENGTH;
use haskumye_independent::tables::SIZE;
use std::hint::black_box;
use std::time::{Duration, Instant};

/// Calls that one turn makes.
const CALLS: usize = 8;

/// The time of a turn.
fn turn(mut call: impl FnMut()) -> Duration {
    let start = Instant::now();
    (0..CALLS).for_each(|_| call());
    start.elapsed()
}

fn saving(tables: &[u8]) -> [f64; 3] {
    let (relay, mut room) = (Relay::new(Tuned), vec![0; LENGTH]);
    let programs: [&dyn SavedCalls; 2] = [&Core, &relay];
    best(CALLS, |program| match programs.get(program) {
        Some(program) => turn(|| assert_eq!(program.save(black_box(tables), &[7; 6], &mut room), (LENGTH as u64) << 16)),
        None => turn(|| black_box(&mut room)[..SIZE].copy_from_slice(black_box(tables))),
    })
}

fn loading(file: &[u8], tables: &[u8]) -> [f64; 3] {
    let (relay, mut loaded) = (Relay::new(Tuned), vec![0; SIZE]);
    let programs: [&dyn SavedCalls; 2] = [&Core, &relay];
    best(CALLS, |program| match programs.get(program) {
        Some(program) => {
            let time = turn(|| assert_eq!(program.load(black_box(file), &mut loaded, &mut [0; 6]), 0));
            assert!(loaded == tables, "a timed load did something else");
            time
        }
        None => turn(|| black_box(&mut loaded).copy_from_slice(&black_box(file)[..SIZE])),
    })
}

pub fn run(report: &mut Report) {
    report.table("Saving and loading, and a bare copy of the tables", "tables", &["copy"]);
    let mut random = Random::new(1);
    for (name, fill) in [("empty", Fill::Empty), ("half", Fill::FirstHalf), ("full", Fill::Full)] {
        let tables = filled(&mut random, fill);
        let mut file = vec![0; LENGTH];
        Core.save(&tables, &[7; 6], &mut file);
        report.line(&format!("save, {name}"), || saving(&tables));
        report.line(&format!("load, {name}"), || loading(&file, &tables));
    }
}
