//! Return records: what forwarded data leaves, and tests 6, 8, 12 and 16 of the ordinary proofs that go back by them.

use super::{outgoing, Packet};
use crate::answer::{no_way_on, Answer, NoWay, Reason, When};
use crate::limits::RETURN_LIFETIME;
use crate::packet::{address, Address};
use crate::rules::Rules;
use crate::tables::{has_key, take_ring_place, Path, Return, RETURNS, RETURN_PLACE};

/// "Data forwarded so makes a return record (first 16 of packet hash, arrival port, leaving port) in the next ring place, and any other
/// live one of the same key is emptied."
pub fn make_return<R: Rules>(rules: &R, packet: &Packet, path: &Path, tables: &mut [u8]) {
    let made = rules.return_of(packet, path);
    let place = rules.return_place(tables);
    for (other, record) in RETURNS.records.iter_mut(tables).enumerate() {
        if other != place && rules.is_emptied(&made.key, packet.clock, record) {
            record.fill(0);
        }
    }
    made.write(RETURNS.records.get_mut(tables, place));
}

pub fn return_of(packet: &Packet, path: &Path) -> Return {
    Return { key: address(&packet.hash[..16]), arrival: packet.port, leaving: path.port, expiry: packet.clock + RETURN_LIFETIME }
}

pub fn return_place(tables: &mut [u8]) -> usize {
    take_ring_place(tables, RETURN_PLACE, &RETURNS)
}

#[inline]
pub fn is_emptied(key: &Address, clock: u64, record: &[u8]) -> bool {
    has_key(record, key) && RETURNS.is_live(record, clock)
}

/// "6. No way on": "for an ordinary proof (any other kind), no live return record whose key is the destination." "6.6 no live return record."
pub fn ordinary_proof<R: Rules>(rules: &R, packet: &Packet, tables: &mut [u8], output: &mut [u8]) -> Result<Answer, Reason> {
    let place = rules.find(&RETURNS, tables, &packet.parts.destination, packet.clock).ok_or(no_way_on(NoWay::NoReturn))?;
    let record = Return::read(RETURNS.records.get(tables, place));
    rules.proof_tests(packet, &record)?;
    let leaving = rules.way_back(&record);
    rules.leaving_tests(packet, leaving, packet.bytes.len(), tables)?;
    rules.end_return(RETURNS.records.get_mut(tables, place));
    Ok(outgoing::forward_unchanged(rules, packet, leaving, output))
}

/// Test 8: "An ordinary proof must come in by the record's leaving port".
pub fn proof_tests(packet: &Packet, record: &Return) -> Result<(), Reason> {
    Reason::WrongSide.when(packet.port != record.leaving)
}

/// "it goes out by its arrival port"
pub fn way_back(record: &Return) -> u8 {
    record.arrival
}

/// "and the record is emptied. A dropped one leaves the record."
pub fn end_return(record: &mut [u8]) {
    record.fill(0);
}
