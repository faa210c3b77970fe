//! Links: tests 6 to 9 and 13, the records that requests leave, and what packets change in them.

use super::{faults, Changes, Fault, With};
use crate::limits::{HOP_LIFETIME, PROVED_LIFETIME};
use crate::rules::*;
use crate::tables::LINKS;

/// Judges a link packet, and changes its link if it was dropped for this reason.
fn judged_and(
    reason: Reason,
    change: impl Fn(&mut Link),
    rules: &With,
    packet: &Packet,
    tables: &mut [u8],
    output: &mut [u8],
) -> Result<Answer, Reason> {
    let answer = links::link_packet(rules, packet, tables, output);
    let place = rules.find(&LINKS, tables, &packet.parts.destination, packet.clock);
    if let (true, Some(place)) = (answer == Err(reason), place) {
        let record = LINKS.records.get_mut(tables, place);
        let mut link = Link::read(record);
        change(&mut link);
        link.write(record);
    }
    answer
}

faults! {
    KnownOnlyIfProved: "a link request is already known only where the link is proved"
    breaks "Already known: link request whose id is live" {
        is_known_link = |rules, id, clock, tables| {
            let place = rules.find(&LINKS, tables, id, clock);
            place.is_some_and(|place| Link::read(LINKS.records.get(tables, place)).proved)
        },
    }
    ExpiredLinkKnown: "an expired link's id is already known"
    breaks "Already known: link request whose id is live" {
        is_known_link = |_, id, _, tables| LINKS.records.iter(tables).any(|record| tables::has_key(record, id)),
    }
    ExpiredLinkTaken: "an expired link's slot is taken"
    breaks "Treating an expired slot as taken." {
        link_slot = |_, _, tables| LINKS.records.empty(tables),
    }
    ReturnByRequest: "a forwarded link request makes a return record"
    breaks "Data forwarded so makes a return record" {
        make_link = |rules, packet, id, path, slot, tables| {
            links::make_link(rules, packet, id, path, slot, tables);
            rules.make_return(packet, path, tables);
        },
    }
    LinkLifetimeByTaken: "an unproved link lives by the taken hops"
    breaks "Unproved link 6 × (remaining hops + 1) s (house number)" {
        link_of = |_, packet, id, path| {
            let expiry = packet.clock + HOP_LIFETIME * (u64::from(packet.parts.hops) + 1);
            Link { expiry, ..links::link_of(packet, id, path) }
        },
    }
    LinkLifetimeShort: "an unproved link lives 6 s for each remaining hop, without one more"
    breaks "Unproved link 6 × (remaining hops + 1) s (house number)" {
        link_of = |_, packet, id, path| {
            let expiry = packet.clock + HOP_LIFETIME * u64::from(path.hops);
            Link { expiry, ..links::link_of(packet, id, path) }
        },
    }
    UnprovedLinkCarries: "a link that isn't proved carries packets"
    breaks "for kind link, no live link (a proved one, except for a link proof)" {
        carries = |_, _, _| true,
    }
    OtherProofBeforeLinkProof: "a proof of kind link with another context goes over a link not yet proved"
    breaks "for kind link, no live link (a proved one, except for a link proof)" {
        carries = |_, packet, link| link.proved || packet.header().is_proof(),
    }
    LinkProofTwice: "a link proof for a proved link goes on"
    breaks "link proof for a proved link." {
        is_proved_again = |_, _, _| false,
    }
    SideBeforeKnown: "test 8 is made before test 7"
    breaks "Tests in order; the first that holds gives the drop." {
        link_tests = |rules, packet, link| match links::link_tests(rules, packet, link) {
            Err(Reason::AlreadyKnown) if rules.test_8(packet, link).is_err() => Err(Reason::WrongSide),
            side => side,
        },
    }
    SignatureBeforeSide: "test 9 is made before test 8"
    breaks "Tests in order; the first that holds gives the drop." {
        test_8 = |rules, packet, link| {
            Reason::BadSignature.when(rules.link_proof_unsigned(packet))?;
            links::test_8(rules, packet, link)
        },
    }
    LinkProofByAnySide: "a link proof may come from the asking side"
    breaks "A link proof must come from the answering side" {
        test_8 = |rules, packet, link| rules.side(packet, link).ok_or(Reason::WrongSide),
    }
    HopsAfterIncrement: "hops are compared after the increment"
    breaks "A link packet of kind data or proof from the answering port with hops = remaining leaves by the asking port" {
        side = |_, packet, link| links::side(&Packet { parts: Parts { hops: packet.parts.hops + 1, ..packet.parts }, ..*packet }, link),
    }
    HopsSwapped: "taken hops are compared with the answering side, remaining hops with the asking side"
    breaks "one is compared only with packets from the asking side, the other only with packets from the answering side." {
        side = |_, packet, link| links::side(packet, &Link { taken: link.remaining, remaining: link.taken, ..*link }),
    }
    AnsweringHopsUnread: "hops from the answering side aren't compared"
    breaks "A link packet of kind data or proof from the answering port with hops = remaining leaves by the asking port" {
        side = |_, packet, link| links::side(packet, &Link { remaining: packet.parts.hops, ..*link }),
    }
    AskingSideFirst: "the asking side is tested first"
    breaks "else from the asking port with hops = taken, by the answering port" {
        side = |_, packet, link| if links::is_from_asking(packet, link) { Some(Side::Asking) } else { links::side(packet, link) },
    }
    LinkProofUnsigned: "the signature word isn't read for link proofs"
    breaks "Signature word no, for announces and link proofs." {
        link_proof_unsigned = |_, _| false,
    }
    LinkProofNeverShortens: "a link proof never brings the expiry nearer"
    breaks "proved link 720 s, renewed by each packet carried." {
        carry = |_, packet, link| {
            let before = if packet.parts.is_link_proof() { link.expiry } else { 0 };
            links::carry(packet, link);
            link.expiry = link.expiry.max(before);
        },
    }
    LinkNotRenewed: "packets from the asking side don't renew the link"
    breaks "proved link 720 s, renewed by each packet carried." {
        carry = |rules, packet, link| {
            if rules.side(packet, link) == Some(Side::Answering) {
                links::carry(packet, link);
            }
        },
    }
    DroppedRenewsLink: "a packet from the wrong side renews the link"
    breaks "proved link 720 s, renewed by each packet carried." {
        link_packet = |rules, packet, tables, output| {
            judged_and(Reason::WrongSide, |link| link.expiry = packet.clock + PROVED_LIFETIME, rules, packet, tables, output)
        },
    }
    PortOffProves: "a link proof that test 12 drops marks the link proved"
    breaks "A link proof must come from the answering side; it marks the link proved." {
        link_packet = |rules, packet, tables, output| {
            judged_and(Reason::PortOff, |link| link.proved |= packet.parts.is_link_proof(), rules, packet, tables, output)
        },
    }
    BadProofProves: "a link proof with the signature word no marks the link proved"
    breaks "Signature word no, for announces and link proofs." {
        link_packet = |rules, packet, tables, output| {
            judged_and(Reason::BadSignature, |link| link.proved = true, rules, packet, tables, output)
        },
    }
}
