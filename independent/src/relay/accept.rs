//! The packet call: which are accepted, and what every accepted packet changes. "A drop is not a refusal: the packet was accepted and
//! judged."

use super::{Arrival, Packet};
use crate::answer::{Answer, Refusal, Tally, Verdict, When};
use crate::limits::{CLOCK_LIMIT, LONGEST, PORT_COUNT};
use crate::packet;
use crate::rules::Rules;
use crate::sha256::Sha256;
use crate::tables::check::checked;
use crate::tables::{last_clock, port_on, port_size, set_last_clock};

/// "Each returns its number alone and changes nothing."
pub fn packet_call<R: Rules>(
    rules: &R,
    sha: &Sha256,
    tables: &mut [u8],
    tally: &mut Tally,
    output: &mut [u8],
    arrival: &Arrival,
) -> Result<Answer, Refusal> {
    let mut packet = accept(rules, sha, tables, output, arrival)?;
    let answer = rules.judge(&mut packet, tables, output).unwrap_or_else(|reason| Answer::silent(Verdict::Drop(reason)));
    rules.settle(answer.verdict, packet.clock, tables, tally);
    Ok(answer)
}

/// Refusals 7, 6, 4, 5, 1, 2, 3, 1: "Tests run in this row order, each call making those that concern it".
fn accept<'a, R: Rules>(rules: &R, sha: &'a Sha256, tables: &[u8], output: &[u8], arrival: &Arrival<'a>) -> Result<Packet<'a>, Refusal> {
    checked(rules, tables)?;
    rules.arrival_refusal(tables, output.len(), arrival)?;
    let bytes = arrival.packet;
    let parts = packet::read(rules, bytes, rules.arrival_size(arrival.port as u8, tables))?;
    let payload = &bytes[rules.payload_place(bytes)..];
    let Arrival { port, clock, signature, .. } = *arrival;
    Ok(Packet { bytes, parts, payload, port: port as u8, clock, signature, hash: [0; 32], sha })
}

/// Refusals 6, 4, 5.
pub fn arrival_refusal<R: Rules>(rules: &R, tables: &[u8], room: usize, arrival: &Arrival) -> Result<(), Refusal> {
    Refusal::SmallOutput.when(rules.output_too_small(room))?;
    Refusal::ArrivalPort.when(rules.port_refused(arrival.port, tables))?;
    Refusal::Clock.when(rules.clock_refused(arrival.clock, last_clock(tables)))
}

/// Wish 11: "Reading a packet is now against the arrival port's size".
pub fn arrival_size(port: u8, tables: &[u8]) -> usize {
    port_size(tables, port)
}

/// "output buffer under 500 bytes"
pub fn output_too_small(room: usize) -> bool {
    room < LONGEST
}

/// "arrival port over 15, or off"
pub fn port_refused(port: u64, tables: &[u8]) -> bool {
    port >= PORT_COUNT as u64 || !port_on(tables, port as u8)
}

/// "clock 2^40 or more, or below the last accepted clock"
pub fn clock_refused(clock: u64, last: u64) -> bool {
    clock >= CLOCK_LIMIT || clock < last
}

/// "every accepted packet, dropped or not, counts and sets the last clock."
pub fn settle<R: Rules>(rules: &R, verdict: Verdict, clock: u64, tables: &mut [u8], tally: &mut Tally) {
    rules.count(tally, verdict);
    set_last_clock(tables, clock);
}
