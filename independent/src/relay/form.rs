//! Test 3, clause by clause.

use super::Packet;
use crate::answer::Clause;
use crate::limits::{LINK_KEYS, LINK_PROOF_LENGTHS};
use crate::packet::announced::{least_announce, KEYS, NAME_HASH};
use crate::packet::DestinationKind;
use crate::rules::Rules;

/// "Bad form names the first failing clause of test 3 (3.1 to 3.8, a link request having two)": in document 01's order, so that the
/// destination is worked out only of a payload that is long enough for it.
pub fn failing_clause<R: Rules>(rules: &R, packet: &Packet) -> Option<Clause> {
    Clause::ALL.iter().copied().find(|clause| fails(rules, *clause, packet))
}

pub fn fails<R: Rules>(rules: &R, clause: Clause, packet: &Packet) -> bool {
    match clause {
        Clause::TypeTwoProof => rules.type_2_proof(packet),
        Clause::TypeTwoLink => rules.type_2_link(packet),
        Clause::AnnounceNotSingle => rules.announce_not_single(packet),
        Clause::AnnounceTooShort => rules.announce_too_short(packet),
        Clause::AnnounceOfAnother => rules.announce_of_another(packet),
        Clause::RequestOfKindLink => rules.request_of_kind_link(packet),
        Clause::RequestTooShort => rules.request_too_short(packet),
        Clause::LinkProofLength => rules.link_proof_length(packet),
    }
}

/// "the least payload length that would have served, or 0 where length isn't the fault." Of a link proof's two lengths it is the lesser, also
/// where the payload is longer.
pub fn least_length<R: Rules>(rules: &R, clause: Clause, packet: &Packet) -> usize {
    match clause {
        Clause::AnnounceTooShort => least_announce(rules, &packet.parts),
        Clause::RequestTooShort => LINK_KEYS,
        Clause::LinkProofLength => LINK_PROOF_LENGTHS[0],
        _ => 0,
    }
}

/// "type 2 proof"
pub fn type_2_proof(packet: &Packet) -> bool {
    packet.header().type_2() && packet.header().is_proof()
}

/// "any type 2 packet of kind link"
pub fn type_2_link(packet: &Packet) -> bool {
    packet.header().type_2() && packet.header().to_link()
}

/// "announce not of kind single"
pub fn announce_not_single(packet: &Packet) -> bool {
    packet.header().is_announce() && packet.header().destination_kind() != DestinationKind::Single
}

/// "announce payload under 148 (180 with the context flag)"
pub fn announce_too_short<R: Rules>(rules: &R, packet: &Packet) -> bool {
    packet.header().is_announce() && packet.payload.len() < least_announce(rules, &packet.parts)
}

/// "announce destination not the first 16 of SHA-256(name hash ‖ identity hash)"
pub fn announce_of_another<R: Rules>(rules: &R, packet: &Packet) -> bool {
    packet.header().is_announce()
        && rules.destination(packet.sha, &packet.payload[KEYS], &packet.payload[NAME_HASH]) != packet.parts.destination
}

/// "link request of kind link"
pub fn request_of_kind_link(packet: &Packet) -> bool {
    packet.header().is_link_request() && packet.header().to_link()
}

/// "or payload under 64"
pub fn request_too_short(packet: &Packet) -> bool {
    packet.header().is_link_request() && packet.payload.len() < LINK_KEYS
}

/// "a link proof (a proof of kind link, context 0xFF) whose payload isn't 96 or 99."
pub fn link_proof_length(packet: &Packet) -> bool {
    packet.parts.is_link_proof() && !LINK_PROOF_LENGTHS.contains(&packet.payload.len())
}
