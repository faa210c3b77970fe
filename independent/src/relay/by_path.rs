//! Data and link requests not of kind link, which go by a path: tests 6, 7, 12, 16 and 13.

use super::{outgoing, Packet};
use crate::answer::{no_way_on, Answer, NoWay, Reason, When};
use crate::packet::{hash, Address};
use crate::rules::Rules;
use crate::tables::{has_key, path, time, Path, PATHS};

/// "Data forwarded so makes a return record".
pub fn data<R: Rules>(rules: &R, packet: &Packet, tables: &mut [u8], output: &mut [u8]) -> Result<Answer, Reason> {
    let path = rules.path_to(packet, tables)?;
    rules.leaving_tests(packet, path.port, rules.length_by_path(packet, &path), tables)?;
    rules.make_return(packet, &path, tables);
    Ok(outgoing::forward_by_path(rules, packet, &path, output))
}

/// "A forwarded link request makes a link record, in the lowest slot empty or expired."
pub fn link_request<R: Rules>(rules: &R, packet: &Packet, tables: &mut [u8], output: &mut [u8]) -> Result<Answer, Reason> {
    let path = rules.path_to(packet, tables)?;
    let id = hash::link_id(rules, packet.sha, &packet.parts, packet.payload);
    let slot = rules.request_tests(packet, &id, &path, tables)?;
    rules.make_link(packet, &id, &path, slot, tables);
    Ok(outgoing::forward_by_path(rules, packet, &path, output))
}

/// "6. No way on: a type 1 data packet or link request not of kind link; a type 2 one without a live path"
pub fn path_to<R: Rules>(rules: &R, packet: &Packet, tables: &[u8]) -> Result<Path, Reason> {
    no_way_on(NoWay::NotAsking).when(rules.not_to_be_relayed(packet))?;
    let place = rules.live_path(packet, tables).ok_or_else(|| no_path(rules, packet, tables))?;
    Ok(Path::read(PATHS.records.get(tables, place)))
}

/// "6.2 no path record; 6.3 only expired path records lying in their slots, with the greatest expiry"
fn no_path<R: Rules>(rules: &R, packet: &Packet, tables: &[u8]) -> Reason {
    let expiry = rules.greatest_expiry(packet, tables);
    no_way_on(expiry.map_or(NoWay::NoPath, |expiry| NoWay::OnlyExpired { expiry }))
}

/// Over all of the destination's records, of which none is live.
pub fn greatest_expiry(packet: &Packet, tables: &[u8]) -> Option<u64> {
    expiries(packet, tables).max()
}

/// Those of the destination's records, by their places.
pub fn expiries<'a>(packet: &'a Packet, tables: &'a [u8]) -> impl Iterator<Item = u64> + 'a {
    let records = PATHS.records.iter(tables).filter(|record| has_key(record, &packet.parts.destination));
    records.map(|record| time(record, path::EXPIRY))
}

pub fn not_to_be_relayed(packet: &Packet) -> bool {
    !packet.header().type_2()
}

pub fn live_path<R: Rules>(rules: &R, packet: &Packet, tables: &[u8]) -> Option<usize> {
    rules.find(&PATHS, tables, &packet.parts.destination, packet.clock)
}

/// Tests 7, 12, 16 and 13 of a link request: the slot that its link takes.
pub fn request_tests<R: Rules>(rules: &R, packet: &Packet, id: &Address, path: &Path, tables: &[u8]) -> Result<usize, Reason> {
    Reason::AlreadyKnown.when(rules.is_known_link(id, packet.clock, tables))?;
    rules.leaving_tests(packet, path.port, rules.length_by_path(packet, path), tables)?;
    rules.link_slot(packet.clock, tables).ok_or(Reason::NoRoom)
}
