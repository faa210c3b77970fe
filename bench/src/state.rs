//! A relay's bytes, and a packet call on them by the core and by the independent relay.

use crate::kinds::Call;
use crate::scene::CLOCK;
use haskumye_independent::answer::Tally;
use haskumye_independent::core;
use haskumye_independent::engine::{Engine, Outcome};
use haskumye_independent::limits::LONGEST;
use haskumye_independent::linked::Core;
use haskumye_independent::relay::{Arrival, Relay};
use haskumye_independent::rules::Tuned;
use std::hint::black_box;

/// All that a call may change.
#[derive(Clone, PartialEq)]
pub struct State {
    pub tables: Vec<u8>,
    tally: Tally,
    output: [u8; LONGEST],
}

impl State {
    pub fn new(tables: Vec<u8>) -> Self {
        Self { tables, tally: [0; 6], output: [0xee; LONGEST] }
    }

    pub fn restore(&mut self, from: &State) {
        self.tables.copy_from_slice(&from.tables);
        self.tally = from.tally;
        self.output = from.output;
    }
}

/// The independent relay, which tests refusal 7 by its tuned check.
pub type Independent = Relay<Tuned>;

/// The core keeps nothing between calls and leaves the independent relay alone.
pub type Program = fn(&mut Independent, &Call, &mut State);

/// The core, then the independent relay.
pub const PROGRAMS: [Program; 2] = [on_core, on_independent];

pub fn arrival(call: &Call) -> Arrival<'_> {
    Arrival { packet: &call.packet, port: u64::from(call.port), clock: CLOCK, signature: true }
}

fn on_core(_: &mut Independent, call: &Call, state: &mut State) {
    let Arrival { packet, port, clock, signature } = black_box(arrival(call));
    black_box(core::packet(packet, port, clock, u8::from(signature), &mut state.tables, &mut state.output, &mut state.tally));
}

fn on_independent(relay: &mut Independent, call: &Call, state: &mut State) {
    let _ = black_box(relay.packet(&mut state.tables, &mut state.tally, &mut state.output, &black_box(arrival(call))));
}

/// What a call leaves. Both programs must agree on the answer and on every byte, and the answer must be the one that the call was made for.
pub fn agreed(before: &State, call: &Call) -> State {
    let make = |engine: &mut dyn Engine| {
        let mut state = before.clone();
        let outcome = engine.packet(&mut state.tables, &mut state.tally, &mut state.output, &arrival(call));
        (outcome, state)
    };
    let (outcome, after) = make(&mut Core);
    assert!((outcome, after.clone()) == make(&mut Relay::new(Tuned)), "the programs differ");
    let answered = match outcome {
        Outcome::Judged(answer) => Ok(answer.verdict),
        Outcome::Refused(number) => Err(number),
        _ => panic!("a packet call answers"),
    };
    assert_eq!(answered, call.expected.map_err(|refusal| refusal.number()));
    after
}
