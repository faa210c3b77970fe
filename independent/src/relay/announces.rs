//! Announces: tests 9, 10, 11, 15 and 13, and the path that an accepted one leaves.

use super::Packet;
use crate::answer::{Answer, Reason, When};
use crate::limits::{ACCESS_POINT_LIFETIME, BLOB_LIMIT, BOUNDARY_LIFETIME, ROAMING_LIFETIME};
use crate::packet::announced;
use crate::rules::Rules;
use crate::tables::{blobs, path, Mode, Path, Port, RateEntry, BLOB, PATHS, PORTS};

/// "An accepted announce (no test drops it)" leaves a path and is spread.
pub fn announce<R: Rules>(rules: &R, packet: &Packet, tables: &mut [u8], output: &mut [u8]) -> Result<Answer, Reason> {
    let known = rules.find(&PATHS, tables, &packet.parts.destination, packet.clock);
    rules.announce_tests(packet, known.map(|place| PATHS.records.get(tables, place)))?;
    let entry = rate_entry(rules, packet, known, tables)?;
    let place = rules.path_slot(packet, known, tables).ok_or(Reason::NoRoom)?;
    rules.store_path(packet, known.is_some(), place, tables);
    rules.store_rate(packet.clock, &entry, PATHS.records.get_mut(tables, place));
    Ok(rules.spread(packet, tables, output))
}

/// What the announce leaves of its destination's rate entry: by test 15, where that is made.
fn rate_entry<R: Rules>(rules: &R, packet: &Packet, known: Option<usize>, tables: &mut [u8]) -> Result<RateEntry, Reason> {
    match known.map(|place| PATHS.records.get(tables, place)) {
        Some(path) if rules.revives(packet, path) => Ok(rules.revived_entry(path)),
        _ => rules.test_15(packet.clock, known, tables),
    }
}

/// Tests 9, 10 and 11; `known` is the record of a live path. "9. Signature word no, for announces and link proofs."
pub fn announce_tests<R: Rules>(rules: &R, packet: &Packet, known: Option<&[u8]>) -> Result<(), Reason> {
    Reason::BadSignature.when(!packet.signature)?;
    let Some(path) = known.filter(|path| !rules.revives(packet, path)) else { return Ok(()) };
    Reason::Replay.when(rules.is_replay(blob(packet), path))?;
    Reason::NotBetter.when(rules.not_better(packet, path))
}

pub fn blob<'a>(packet: &Packet<'a>) -> &'a [u8] {
    &packet.payload[announced::BLOB]
}

/// "10. Replay: the announce's blob is stored in its live path."
pub fn is_replay(blob: &[u8], path: &[u8]) -> bool {
    blobs(path).any(|stored| stored == blob)
}

/// "11. Not better: emission not above the greatest among stored blobs, and hops not below the stored hops."
pub fn not_better<R: Rules>(rules: &R, packet: &Packet, path: &[u8]) -> bool {
    not_newer(rules, packet, path) && not_nearer(packet, path)
}

pub fn not_newer<R: Rules>(rules: &R, packet: &Packet, path: &[u8]) -> bool {
    rules.emission(blob(packet)) <= rules.greatest_emission(path)
}

pub fn not_nearer(packet: &Packet, path: &[u8]) -> bool {
    packet.parts.hops >= path[path::HOPS]
}

pub fn greatest_emission<R: Rules>(rules: &R, path: &[u8]) -> u64 {
    blobs(path).map(|blob| rules.emission(blob)).max().unwrap_or(0)
}

/// "13. No room: a new path or link, and no slot empty or expired." "A known path keeps its slot; a new one overwrites the lowest slot
/// empty or expired"
pub fn path_slot(packet: &Packet, known: Option<usize>, tables: &[u8]) -> Option<usize> {
    known.or_else(|| PATHS.free(tables, packet.clock))
}

/// It "sets arrival port, hops, expiry, and next hop (relay address, or the destination if type 1), and adds its blob".
pub fn store_path<R: Rules>(rules: &R, packet: &Packet, known: bool, place: usize, tables: &mut [u8]) {
    let mode = Port::read(PORTS.get(tables, usize::from(packet.port))).mode;
    let record = PATHS.records.get_mut(tables, place);
    if !known {
        rules.clear_slot(record);
    }
    rules.path_of(packet, mode).write(record);
    if !rules.holds_blob(blob(packet), record) {
        rules.store_blob(blob(packet), record);
    }
    rules.clear_mark(record);
}

/// In a new path's slot, "spare blob places zero".
pub fn clear_slot(record: &mut [u8]) {
    record.fill(0);
}

pub fn path_of<R: Rules>(rules: &R, packet: &Packet, mode: Mode) -> Path {
    let destination = packet.parts.destination;
    let next_hop = if packet.header().type_2() { packet.parts.relay } else { destination };
    Path { destination, port: packet.port, hops: packet.parts.hops, next_hop, expiry: packet.clock + rules.path_lifetime(mode) }
}

/// "Path lifetime by the arrival port: boundary 604,800 s, access point 86,400, roaming 21,600"
pub fn path_lifetime(mode: Mode) -> u64 {
    match mode {
        Mode::Boundary => BOUNDARY_LIFETIME,
        Mode::AccessPoint => ACCESS_POINT_LIFETIME,
        Mode::Roaming => ROAMING_LIFETIME,
    }
}

/// "with 16 held, the one stored longest ago goes": with 64, since Wish 8.
pub fn store_blob(blob: &[u8], path: &mut [u8]) {
    let count = usize::from(path[path::BLOB_COUNT]);
    let places = &mut path[path::BLOBS..];
    if count == BLOB_LIMIT {
        places.copy_within(BLOB.., 0);
        places[(BLOB_LIMIT - 1) * BLOB..].copy_from_slice(blob);
    } else {
        places[count * BLOB..(count + 1) * BLOB].copy_from_slice(blob);
        path[path::BLOB_COUNT] += 1;
    }
}
