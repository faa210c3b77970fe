//! "Tests in order; the first that holds gives the drop." Tests 1 to 5 are made of every packet; then each kind has its own.

use super::{by_path, Packet};
use crate::answer::{Answer, Reason, Verdict, When};
use crate::limits::{EXEMPT_CONTEXTS, HASH_LIFETIME, HOPS_LIMIT};
use crate::packet::{hash, Address, Header, PacketHash, PacketKind};
use crate::rules::Rules;
use crate::tables::{self, find_local, set_key, set_time, take_ring_place, HASHES, HASH_PLACE};

pub fn judge<R: Rules>(rules: &R, packet: &mut Packet, tables: &mut [u8], output: &mut [u8]) -> Result<Answer, Reason> {
    if rules.first_tests(packet, tables)? {
        return Ok(Answer::silent(Verdict::Deliver));
    }
    match packet.header().packet_kind() {
        PacketKind::Announce => rules.announce(packet, tables, output),
        _ if packet.header().to_link() => rules.link_packet(packet, tables, output),
        PacketKind::Proof => rules.ordinary_proof(packet, tables, output),
        PacketKind::Data => by_path::data(rules, packet, tables, output),
        PacketKind::LinkRequest => by_path::link_request(rules, packet, tables, output),
    }
}

/// Tests 1 to 5: is the packet delivered here?
pub fn first_tests<R: Rules>(rules: &R, packet: &mut Packet, tables: &mut [u8]) -> Result<bool, Reason> {
    test_1(rules, packet, tables)?;
    rules.test_2(packet, tables)?;
    test_3(rules, packet)?;
    if test_4(rules, packet, tables)? {
        return Ok(true);
    }
    test_5(rules, packet)?;
    Ok(false)
}

pub fn test_1<R: Rules>(rules: &R, packet: &Packet, tables: &[u8]) -> Result<(), Reason> {
    Reason::NotOurs.when(rules.not_ours(packet, tables))
}

/// "1. Not ours: type 2, not an announce, relay address not our own."
pub fn not_ours(packet: &Packet, tables: &[u8]) -> bool {
    packet.header().type_2() && !packet.header().is_announce() && packet.parts.relay != tables::own(tables)
}

/// "Otherwise the hash is now remembered in the next ring place, the oldest's once 1,024 are held. Drops 1 and 2 remember nothing".
/// Exempt packets "are no longer tested as duplicates nor remembered." So nothing asks for their hash. Of an announce that skips the test
/// "(its hash is remembered if it isn't already live)".
pub fn test_2<R: Rules>(rules: &R, packet: &mut Packet, tables: &mut [u8]) -> Result<(), Reason> {
    if rules.is_exempt(packet) {
        return Ok(());
    }
    packet.hash = packet_hash(rules, packet);
    if !rules.is_duplicate(&packet.hash, packet.clock, tables) {
        rules.remember(&packet.hash, packet.clock, tables);
        return Ok(());
    }
    Reason::Duplicate.when(!rules.skips_test_2(packet, tables))
}

/// "Packets of kind link with context 0x01, 0x03, 0x05, 0x08, 0x0E or 0xFA": of any packet kind and type.
pub fn is_exempt(packet: &Packet) -> bool {
    packet.header().to_link() && EXEMPT_CONTEXTS.contains(&packet.parts.context)
}

pub fn packet_hash<R: Rules>(rules: &R, packet: &Packet) -> PacketHash {
    hash::packet_hash(rules, packet.sha, &packet.parts, packet.payload)
}

/// "2. Duplicate: equal to a live remembered hash."
pub fn is_duplicate<R: Rules>(rules: &R, hash: &PacketHash, clock: u64, tables: &[u8]) -> bool {
    rules.find(&HASHES, tables, hash, clock).is_some()
}

pub fn remember(hash: &PacketHash, clock: u64, tables: &mut [u8]) {
    let place = take_ring_place(tables, HASH_PLACE, &HASHES);
    write_hash(hash, clock, HASHES.records.get_mut(tables, place));
}

pub fn write_hash(hash: &PacketHash, clock: u64, record: &mut [u8]) {
    set_key(record, hash);
    set_time(record, HASHES.expiry, clock + HASH_LIFETIME);
}

/// "3. Bad form", with "the first failing clause" and "the least payload length that would have served".
pub fn test_3<R: Rules>(rules: &R, packet: &Packet) -> Result<(), Reason> {
    let Some(clause) = rules.failing_clause(packet) else { return Ok(()) };
    Err(Reason::BadForm { clause, least: rules.least_length(clause, packet) as u64 })
}

/// "4. Own announce: destination local. Data and link requests to a local address, kind link excepted, are delivered here"
pub fn test_4<R: Rules>(rules: &R, packet: &Packet, tables: &[u8]) -> Result<bool, Reason> {
    let local = rules.is_local(&packet.parts.destination, tables);
    Reason::OwnAnnounce.when(local && packet.header().is_announce())?;
    Ok(local && rules.is_delivered(packet.header()))
}

pub fn is_local(destination: &Address, tables: &[u8]) -> bool {
    find_local(tables, destination).is_some()
}

/// "Data and link requests to a local address, kind link excepted"
pub fn is_delivered(header: Header) -> bool {
    matches!(header.packet_kind(), PacketKind::Data | PacketKind::LinkRequest) && !header.to_link()
}

pub fn test_5<R: Rules>(rules: &R, packet: &Packet) -> Result<(), Reason> {
    Reason::TooManyHops.when(rules.too_many_hops(packet.parts.hops))
}

/// "5. Hops 128 or more."
pub fn too_many_hops(hops: u8) -> bool {
    hops >= HOPS_LIMIT
}
