//! Relays on the same traffic, and how often it reaches each refusal, reason and verdict.

use super::coverage::Coverage;
use super::lockstep::{compare, step, Difference};
use super::shrink::again;
use super::{Options, Tally};
use crate::engine::{Call, Engine, Run};
use crate::linked::Core;
use crate::relay::Relay;
use crate::rules::Tuned;

/// Each that can be reached is reached at least so often.
const LEAST: usize = 100;
/// Long runs say how far they are once in so many calls.
const PROGRESS: usize = 200_000;

pub fn run(options: &Options, tally: &mut Tally) {
    compare_with("tuned check", || Relay::new(Tuned), options, tally);
    let coverage = compare_with("core", || Core, options, tally);
    let asked = [coverage.reached_replies(), coverage.reached_matters()].concat();
    let rates = [coverage.reached_rates(), coverage.reached_settings(), coverage.reached_reasons()].concat();
    let marks = [coverage.reached_marks(), coverage.reached_mark_calls(), coverage.reached_blobs(), coverage.reached_sizes()].concat();
    for (what, times) in [coverage.reached(), rates, marks, asked, coverage.files.reached()].concat() {
        println!("{what}: {times}");
        if options.is_long() {
            tally.holds(&format!("{what} is reached at least {LEAST} times"), times >= LEAST, options.damage);
        }
    }
}

/// Compares an engine with the independent relay after every call, until they differ.
fn compare_with<E: Engine>(name: &str, engine: impl Fn() -> E, options: &Options, tally: &mut Tally) -> Coverage {
    let (mut got, mut expected) = (Run::new(engine()), Run::new(Relay::as_written()));
    let mut coverage = Coverage::default();
    for (number, call) in options.traffic().enumerate() {
        let calls = number + 1;
        let lines = step(&mut got, &mut expected, &call, &mut coverage, options.damage.then_some(number));
        if lines.is_empty() {
            tally.passed += 1;
        } else {
            tally.fail(&format!("{name}: {}", Difference { calls, call, lines }));
            if !options.damage {
                let differs = |calls: &[Call]| compare(calls.iter().cloned(), engine(), Relay::as_written()).map(|first| first.calls);
                println!("{}", again("relay", options, calls, differs));
                break;
            }
        }
        if calls % PROGRESS == 0 {
            println!("{name}: {calls} calls, seed {}", options.seed);
        }
    }
    coverage
}
