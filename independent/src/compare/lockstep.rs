//! Two engines on the same calls: after every call the answer, the whole output, all tables and the tally are compared.

use super::answers::Text;
use super::coverage::Coverage;
use crate::engine::{encoded, Call, Engine, Outcome, Run};
use crate::tables::{Section, HASHES, LINKS, LOCALS, PATHS, PORTS, RATE, RETURNS};
use std::fmt;

/// The first call on which two engines differ.
pub struct Difference {
    /// How many calls show it.
    pub calls: usize,
    pub call: Call,
    pub lines: Vec<String>,
}

impl fmt::Display for Difference {
    fn fmt(&self, f: &mut fmt::Formatter) -> fmt::Result {
        write!(f, "call {} differs: {}", self.calls, self.call)?;
        self.lines.iter().try_for_each(|line| write!(f, "\n    {line}"))
    }
}

/// Makes one call on both sides; lines that say what differs, none if nothing does. Damage, by turns, is for this comparison alone.
pub fn step<A: Engine, B: Engine>(
    got: &mut Run<A>,
    expected: &mut Run<B>,
    call: &Call,
    coverage: &mut Coverage,
    damage: Option<usize>,
) -> Vec<String> {
    let before = coverage.before(call, &expected.tables, &expected.file);
    let outcomes = (got.make(call), expected.make(call));
    if let Some(outcome) = &outcomes.1 {
        coverage.after(call, outcome, &before);
    }
    let Some(turn) = damage else {
        let lines = differences(got, expected, outcomes);
        return if lines.is_empty() { text_difference(got, expected, call, outcomes.0) } else { lines };
    };
    if turn % 4 == 3 {
        return differences(got, expected, (outcomes.0, Some(other_than(outcomes.1))));
    }
    expected.damage(turn);
    let lines = differences(got, expected, outcomes);
    expected.damage(turn);
    lines
}

fn other_than(outcome: Option<Outcome>) -> Outcome {
    if outcome == Some(Outcome::Done) {
        Outcome::Refused(0)
    } else {
        Outcome::Done
    }
}

/// What differs after a call. The lines are written only if something does.
fn differences<A: Engine, B: Engine>(got: &Run<A>, expected: &Run<B>, outcomes: (Option<Outcome>, Option<Outcome>)) -> Vec<String> {
    let mut lines = Vec::new();
    if outcomes.0 != outcomes.1 {
        lines.push(format!("answer: got {:?}, expected {:?}", outcomes.0, outcomes.1));
    }
    if got.tally != expected.tally {
        lines.push(format!("tally: got {:?}, expected {:?}", got.tally, expected.tally));
    }
    if let Some(line) = first_difference("output", &got.output, &expected.output) {
        lines.push(line);
    }
    if let Some(line) = first_difference("tables", &got.tables, &expected.tables) {
        lines.push(line);
    }
    lines
}

/// What differs in the text of a packet call's answer, whose number is the same on both sides.
fn text_difference<A: Engine, B: Engine>(got: &Run<A>, expected: &Run<B>, call: &Call, outcome: Option<Outcome>) -> Vec<String> {
    let (Call::Packet(call), Some(outcome)) = (call, outcome) else { return Vec::new() };
    let number = encoded(&outcome, &call.packet);
    let (got, expected) = (Text::of(&got.engine, number), Text::of(&expected.engine, number));
    if got == expected {
        return Vec::new();
    }
    vec![format!("text of {number:x}: got {got:?}, expected {expected:?}")]
}

fn first_difference(what: &str, got: &[u8], expected: &[u8]) -> Option<String> {
    if got == expected {
        return None;
    }
    let same = got.iter().zip(expected).take_while(|(a, b)| a == b).count();
    let byte = |bytes: &[u8]| bytes.get(same).map_or("nothing".to_string(), |byte| format!("{byte:02x}"));
    let place = if what == "tables" { table_place(same) } else { String::new() };
    let (got_byte, expected_byte) = (byte(got), byte(expected));
    Some(format!("{what}: first differ at byte {same}{place}: got {got_byte}, expected {expected_byte}"))
}

/// Where a byte of the tables stands.
fn table_place(at: usize) -> String {
    let sections: [(&str, &Section); 7] = [
        ("announce rate", &RATE),
        ("port", &PORTS),
        ("local address", &LOCALS),
        ("path", &PATHS.records),
        ("link", &LINKS.records),
        ("return record", &RETURNS.records),
        ("hash", &HASHES.records),
    ];
    let named = sections.iter().find(|(_, section)| section.bytes().contains(&at));
    named.map_or(String::new(), |(name, section)| {
        let within = at - section.start;
        format!(", {name} {} byte {}", within / section.width, within % section.width)
    })
}

/// Runs two engines on calls until they differ.
pub fn compare<A: Engine, B: Engine>(calls: impl Iterator<Item = Call>, got: A, expected: B) -> Option<Difference> {
    let (mut got, mut expected) = (Run::new(got), Run::new(expected));
    let mut coverage = Coverage::default();
    for (number, call) in calls.enumerate() {
        let lines = step(&mut got, &mut expected, &call, &mut coverage, None);
        if !lines.is_empty() {
            return Some(Difference { calls: number + 1, call, lines });
        }
    }
    None
}
