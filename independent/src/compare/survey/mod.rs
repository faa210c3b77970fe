//! Surveys: the text of the proved program, of the library and of the independent program on the same settings and recordings, whole and damaged, byte
//! for byte.

mod reached;
mod samples;

use super::{Called, Options, Tally};
use crate::engine::SurveyCalls;
use crate::linked::Core;
use crate::programs::SurveyProgram;
use crate::relay::Relay;
use crate::rules::Tuned;
use reached::Reached;
use samples::{aimed, Case, Cases};

/// Each thing that a text can tell is told at least so often.
const LEAST: usize = 100;
/// In runs of at least so many random cases, that is.
const ENOUGH: usize = 2_000;
/// So many surveys where one difference is looked for.
const FEW: usize = 60;

fn surveyed(program: &dyn SurveyCalls, case: &Case) -> Called {
    Called::new(0u8, program.survey(&case.settings, &case.recordings).as_bytes())
}

/// Those aimed at an edge, and so many of random traffic.
fn cases(seed: u64, count: usize) -> impl Iterator<Item = Case> {
    aimed().into_iter().chain(Cases::new(seed).take(count))
}

/// Do two programs differ on surveys?
pub fn programs_differ(got: &dyn SurveyCalls, expected: &dyn SurveyCalls) -> bool {
    cases(1, FEW).any(|case| surveyed(got, &case) != surveyed(expected, &case))
}

pub fn run(options: &Options, tally: &mut Tally) {
    let (program, own) = (SurveyProgram::default(), Relay::new(Tuned));
    let mut reached = Reached::default();
    for (number, case) in cases(options.seed, options.count).enumerate() {
        let expected = surveyed(&own, &case);
        reached.count(case.recordings.len(), &String::from_utf8_lossy(&expected.buffer));
        let what = format!("survey {number}, of {} recordings", case.recordings.len());
        tally.long_call(&format!("{what}, by the program"), surveyed(&program, &case), expected.clone(), options.damage);
        tally.long_call(&format!("{what}, by the library"), surveyed(&Core, &case), expected, options.damage);
    }
    for (what, times) in reached.reached() {
        println!("{what}: {times}");
        if options.count >= ENOUGH {
            tally.holds(&format!("{what} at least {LEAST} times"), times >= LEAST, options.damage);
        }
    }
}
