//! Calls with their answers, for hosts in other languages. The first line says how many there are; then each is a line, as in any list of calls, and
//! behind ` = ` stand the number that the library's function must return and the sum of all bytes that it must leave, both in hexadecimal. They are
//! the independent relay's.

use super::{listed, Options};
use crate::engine::{encoded, Call, Engine, Outcome, Run};
use crate::relay::Relay;
use crate::traffic::Traffic;
use std::path::Path;

/// Takes bytes into a sum, eight at a time, little-endian, the last ones filled up with zeros. Each step is one-to-one in the sum and in the word, so
/// that one changed word always changes the end.
fn sum(start: u64, bytes: &[u8]) -> u64 {
    bytes.chunks(8).fold(start, |sum, part| {
        let mut word = [0; 8];
        word[..part.len()].copy_from_slice(part);
        (sum ^ u64::from_le_bytes(word)).wrapping_mul(0x9e37_79b9_7f4a_7c15).rotate_left(29)
    })
}

/// The sum of the tables and the tally after a call, and of a packet call's output.
fn left_by(call: &Call, run: &Run<impl Engine>) -> u64 {
    let tally: Vec<u8> = run.tally.iter().flat_map(|counter| counter.to_le_bytes()).collect();
    let output = if matches!(call, Call::Packet(_)) { &run.output[..] } else { &[] };
    [&run.tables, &tally, output].into_iter().fold(0, sum)
}

fn number(call: &Call, outcome: &Outcome) -> u64 {
    match (call, outcome) {
        (Call::Packet(call), _) => encoded(outcome, &call.packet),
        (_, Outcome::Refused(number)) => u64::from(*number),
        _ => 0,
    }
}

/// Writes the calls that the options name, with what the independent relay makes of them.
pub fn write(options: &Options, path: &Path) -> Result<usize, String> {
    let calls: Vec<Call> = match &options.list {
        Some(list) => list.iter().filter(|call| call.is_for_hosts()).cloned().collect(),
        None => Traffic::for_hosts(options.seed).take(options.calls).filter(Call::is_for_hosts).collect(),
    };
    let mut run = Run::new(Relay::as_written());
    let lines = calls.iter().map(|call| match run.make(call) {
        Some(outcome) => format!("{call} = {:x} {:016x}", number(call, &outcome), left_by(call, &run)),
        None => call.to_string(),
    });
    let first = format!("# {} calls of seed {}", calls.len(), options.seed);
    listed::write_lines(path, std::iter::once(first).chain(lines))?;
    Ok(calls.len())
}
