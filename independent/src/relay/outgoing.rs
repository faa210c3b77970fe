//! What leaves. "Bytes of the output past the packet, and all of it when nothing leaves, stay."

use super::Packet;
use crate::answer::{Answer, Reason, Verdict, When};
use crate::limits::PORT_COUNT;
use crate::packet::{self, Header, Parts, START_1, START_2};
use crate::rules::Rules;
use crate::tables::{self, port_on, port_size, Path};

/// Tests 12 and 16 of a packet that would leave by a port with this length: "drop 16, after 12."
pub fn leaving_tests<R: Rules>(rules: &R, packet: &Packet, port: u8, length: usize, tables: &[u8]) -> Result<(), Reason> {
    test_12(port, tables)?;
    test_16(rules, packet, port, length, tables)
}

/// "12. Port off: the port to leave by. Announces skip this."
pub fn test_12(port: u8, tables: &[u8]) -> Result<(), Reason> {
    Reason::PortOff.when(!port_on(tables, port))
}

/// Wish 11: "A packet, as rewritten, too long for the port it would leave by is dropped".
pub fn test_16<R: Rules>(rules: &R, packet: &Packet, port: u8, length: usize, tables: &[u8]) -> Result<(), Reason> {
    Reason::TooLongForPort.when(!rules.fits(packet, port, length, tables))
}

/// Is so much no longer than a port carries?
pub fn fits(_: &Packet, port: u8, length: usize, tables: &[u8]) -> bool {
    length <= port_size(tables, port)
}

/// "The announce is spread: type 2, our own address, hops + 1". "If that set is empty or the result exceeds 500, the answer is Kept and the
/// output stays." What exceeds 500 fits no port.
pub fn spread<R: Rules>(rules: &R, packet: &Packet, tables: &[u8], output: &mut [u8]) -> Answer {
    let ports = rules.spread_ports(packet, tables);
    if ports == 0 {
        return Answer::silent(Verdict::Kept);
    }
    Answer { verdict: Verdict::Spread(ports), length: put_spread(rules, packet, tables, output) }
}

/// It is spread "to all ports on but the arrival port." Wish 11: "a spread leaves such ports out, and is Kept if none remains."
pub fn spread_ports<R: Rules>(rules: &R, packet: &Packet, tables: &[u8]) -> u16 {
    port_set(|port| is_other_on(packet, port, tables) && rules.fits(packet, port, spread_length(packet), tables))
}

/// Is a port on, and not the arrival port?
pub fn is_other_on(packet: &Packet, port: u8, tables: &[u8]) -> bool {
    port_on(tables, port) && port != packet.port
}

pub fn port_set(holds: impl Fn(u8) -> bool) -> u16 {
    (0..PORT_COUNT as u8).filter(|port| holds(*port)).fold(0, |ports, port| ports | 1 << port)
}

/// "When a packet grows, its payload is written behind the new address, from byte 35 on."
pub fn spread_length(packet: &Packet) -> usize {
    START_2 + packet.payload.len()
}

pub fn put_spread<R: Rules>(rules: &R, packet: &Packet, tables: &[u8], output: &mut [u8]) -> usize {
    let header = rules.spread_header(packet.header());
    let parts = Parts { header, hops: packet.parts.hops + 1, relay: tables::own(tables), ..packet.parts };
    packet::put(&parts, packet.payload, output)
}

/// "bits 6 and 4 set, low six otherwise as received"
pub fn spread_header(header: Header) -> Header {
    Header(header.0 & 0x3f | 0x50)
}

/// "Data and link requests leave by the path's port, which may be the arrival port, hops + 1. Stored hops 0: as type 1, header modulo 16.
/// Otherwise type 2, header kept, relay address = next hop."
pub fn forward_by_path<R: Rules>(rules: &R, packet: &Packet, path: &Path, output: &mut [u8]) -> Answer {
    let mut parts = Parts { hops: packet.parts.hops + 1, ..packet.parts };
    if rules.is_last_hop(path.hops) {
        parts.header = rules.last_hop_header(parts.header);
    } else {
        parts.relay = path.next_hop;
    }
    Answer { verdict: Verdict::Forward(path.port), length: packet::put(&parts, packet.payload, output) }
}

/// How long it is then: as it came in, or without the relay address.
pub fn length_by_path<R: Rules>(rules: &R, packet: &Packet, path: &Path) -> usize {
    let start = if rules.is_last_hop(path.hops) { START_1 } else { START_2 };
    start + packet.payload.len()
}

pub fn is_last_hop(stored: u8) -> bool {
    stored == 0
}

pub fn last_hop_header(header: Header) -> Header {
    Header(header.0 % 16)
}

pub fn forward_unchanged<R: Rules>(rules: &R, packet: &Packet, port: u8, output: &mut [u8]) -> Answer {
    rules.put_unchanged(packet, output);
    Answer { verdict: Verdict::Forward(port), length: packet.bytes.len() }
}

/// "Link packets and proofs are forwarded with hops + 1 and otherwise unchanged."
pub fn put_unchanged(packet: &Packet, output: &mut [u8]) {
    output[..packet.bytes.len()].copy_from_slice(packet.bytes);
    output[1] = packet.parts.hops + 1;
}
