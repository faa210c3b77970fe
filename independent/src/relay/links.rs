//! Links: what a request leaves, and tests 6 to 9, 12 and 16 of data and proofs of kind link.

use super::{outgoing, Packet};
use crate::answer::{no_way_on, Answer, NoWay, Reason, When};
use crate::limits::{HOP_LIFETIME, PROVED_LIFETIME};
use crate::packet::Address;
use crate::rules::Rules;
use crate::tables::{Link, Path, LINKS};

/// Which side of a link a packet comes from.
#[derive(Clone, Copy, Debug, PartialEq, Eq)]
pub enum Side {
    Asking,
    Answering,
}

/// "7. Already known: link request whose id is live"
pub fn is_known_link<R: Rules>(rules: &R, id: &Address, clock: u64, tables: &[u8]) -> bool {
    rules.find(&LINKS, tables, id, clock).is_some()
}

/// "13. No room: a new path or link, and no slot empty or expired."
pub fn link_slot(clock: u64, tables: &[u8]) -> Option<usize> {
    LINKS.free(tables, clock)
}

pub fn make_link<R: Rules>(rules: &R, packet: &Packet, id: &Address, path: &Path, slot: usize, tables: &mut [u8]) {
    rules.link_of(packet, id, path).write(LINKS.records.get_mut(tables, slot));
}

/// "Taken hops (the request's) and remaining hops (the path's) are kept apart". "Unproved link 6 × (remaining hops + 1) s (house number)"
pub fn link_of(packet: &Packet, id: &Address, path: &Path) -> Link {
    let expiry = packet.clock + HOP_LIFETIME * (u64::from(path.hops) + 1);
    Link { id: *id, asking: packet.port, answering: path.port, taken: packet.parts.hops, remaining: path.hops, proved: false, expiry }
}

/// "6. No way on": "for kind link, no live link". "6.4 no live link": of a link proof too.
pub fn link_packet<R: Rules>(rules: &R, packet: &Packet, tables: &mut [u8], output: &mut [u8]) -> Result<Answer, Reason> {
    let place = rules.find(&LINKS, tables, &packet.parts.destination, packet.clock).ok_or(no_way_on(NoWay::NoLink))?;
    let mut link = Link::read(LINKS.records.get(tables, place));
    let side = rules.link_tests(packet, &link)?;
    let leaving = opposite(side, &link);
    rules.leaving_tests(packet, leaving, packet.bytes.len(), tables)?;
    rules.carry(packet, &mut link);
    link.write(LINKS.records.get_mut(tables, place));
    Ok(outgoing::forward_unchanged(rules, packet, leaving, output))
}

/// Tests 6 to 9 against a live link: the side that the packet comes from.
pub fn link_tests<R: Rules>(rules: &R, packet: &Packet, link: &Link) -> Result<Side, Reason> {
    no_way_on(NoWay::NotProved).when(!rules.carries(packet, link))?;
    Reason::AlreadyKnown.when(rules.is_proved_again(packet, link))?;
    let side = rules.test_8(packet, link)?;
    Reason::BadSignature.when(rules.link_proof_unsigned(packet))?;
    Ok(side)
}

/// Test 6, of a live link: "(a proved one, except for a link proof)". So "6.5 link not proved yet" is never a link proof's.
pub fn carries(packet: &Packet, link: &Link) -> bool {
    link.proved || packet.parts.is_link_proof()
}

/// Test 7: "link proof for a proved link."
pub fn is_proved_again(packet: &Packet, link: &Link) -> bool {
    link.proved && packet.parts.is_link_proof()
}

/// "8. Wrong side (below)." "A link proof must come from the answering side"
pub fn test_8<R: Rules>(rules: &R, packet: &Packet, link: &Link) -> Result<Side, Reason> {
    let side = rules.side(packet, link).ok_or(Reason::WrongSide)?;
    Reason::WrongSide.when(packet.parts.is_link_proof() && side == Side::Asking)?;
    Ok(side)
}

/// "A link packet of kind data or proof from the answering port with hops = remaining leaves by the asking port; else from the asking port
/// with hops = taken, by the answering port; else wrong side."
pub fn side(packet: &Packet, link: &Link) -> Option<Side> {
    if is_from_answering(packet, link) {
        Some(Side::Answering)
    } else if is_from_asking(packet, link) {
        Some(Side::Asking)
    } else {
        None
    }
}

fn is_from_answering(packet: &Packet, link: &Link) -> bool {
    packet.port == link.answering && packet.parts.hops == link.remaining
}

pub fn is_from_asking(packet: &Packet, link: &Link) -> bool {
    packet.port == link.asking && packet.parts.hops == link.taken
}

/// "9. Signature word no, for announces and link proofs."
pub fn link_proof_unsigned(packet: &Packet) -> bool {
    packet.parts.is_link_proof() && !packet.signature
}

pub fn opposite(side: Side, link: &Link) -> u8 {
    match side {
        Side::Answering => link.asking,
        Side::Asking => link.answering,
    }
}

/// A link proof "marks the link proved"; "proved link 720 s, renewed by each packet carried."
pub fn carry(packet: &Packet, link: &mut Link) {
    link.proved |= packet.parts.is_link_proof();
    link.expiry = packet.clock + PROVED_LIFETIME;
}
