//! A packet call after 63 others since fresh: on the core, on the independent relay, and on the second opinion, which walks through the list.

use crate::kinds::{data_without_path, Call};
use crate::measure::{best, Report};
use crate::scene::{Scene, CLOCK, OWN};
use crate::state::{agreed, Independent, State, PROGRAMS};
use haskumye::raw::{Log, LOG_SIZE};
use haskumye_independent::core;
use haskumye_independent::limits::{LONGEST, PORT_COUNT};
use haskumye_independent::rules::Tuned;
use haskumye_independent::samples::Fill;
use std::hint::black_box;
use std::time::{Duration, Instant};

/// So many calls are listed before the one that is timed: the ports' settings, and data that has no way on.
const LISTED: usize = 63;

const TITLE: &str = "A packet call after 63 others since fresh, data that has no way on; under list, the second opinion's,
which has no tables and works out each answer from the list.";

/// A relay and a second opinion that took the same calls.
struct Both {
    state: State,
    log: Box<Log>,
}

fn opine(log: &mut Log, call: &Call) -> u64 {
    let mut output = [0xee; LONGEST];
    core::opinion_packet(black_box(&call.packet), call.port.into(), CLOCK, 1, log, &mut output)
}

impl Both {
    fn new(scene: &mut Scene) -> Self {
        let mut log: Box<Log> = vec![0; LOG_SIZE].into_boxed_slice().try_into().expect("bytes of that number");
        core::opinion_fresh(&mut log, &OWN);
        for port in 0..PORT_COUNT as u64 {
            assert_eq!(core::opinion_set_port(&mut log, port, 1, port % 3, LONGEST as u64), 0);
        }
        let mut state = State::new(scene.tables.clone());
        for _ in PORT_COUNT..LISTED {
            let call = data_without_path(scene);
            PROGRAMS[0](&mut Independent::new(Tuned), &call, &mut state);
            assert_eq!(opine(&mut log, &call) % 256, 1, "a drop");
        }
        Self { state, log }
    }

    fn time(&self, call: &Call) -> [f64; 3] {
        let after = agreed(&self.state, call);
        let (mut relay, mut state, mut log) = (Independent::new(Tuned), self.state.clone(), self.log.clone());
        best(1, |program| {
            state.restore(&self.state);
            log.copy_from_slice(&self.log[..]);
            let start = Instant::now();
            match PROGRAMS.get(program) {
                Some(program) => program(&mut relay, call, &mut state),
                None => drop(black_box(opine(&mut log, call))),
            }
            let time: Duration = start.elapsed();
            assert!(program == 2 || state == after, "a timed call did something else");
            time
        })
    }
}

pub fn run(report: &mut Report) {
    report.table(TITLE, "kind", &["list"]);
    let mut scene = Scene::new(Fill::Empty);
    let both = Both::new(&mut scene);
    let call = data_without_path(&mut scene);
    report.line("data, no way on, 63 listed", || both.time(&call));
}
