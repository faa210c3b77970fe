//! Wish 10: which clause of test 3 and which case of test 6 is told, with which number, and in which words.

use super::{faults, Changes, Fault, With};
use crate::limits::{ANNOUNCE_LENGTH, LINK_KEYS};
use crate::packet::announced::{least_announce, NAME_HASH};
use crate::rules::*;
use crate::tables::{has_key, is_used, path, time, LINKS, PATHS};

/// The failing clauses that can be read, in order.
fn failing<'a>(rules: &'a With, packet: &'a Packet) -> impl DoubleEndedIterator<Item = Clause> + 'a {
    let read = |clause: &Clause| *clause != Clause::AnnounceOfAnother || packet.payload.len() >= NAME_HASH.end;
    Clause::ALL.iter().copied().filter(read).filter(|clause| form::fails(rules, *clause, packet))
}

/// Another case in the place of one of them.
fn told_as(from: NoWay, to: NoWay, reason: Reason) -> Reason {
    if reason == no_way_on(from) {
        no_way_on(to)
    } else {
        reason
    }
}

/// Does an expired link of the packet's id lie in its slot?
fn link_lies(packet: &Packet, tables: &[u8]) -> bool {
    LINKS.records.iter(tables).any(|record| has_key(record, &packet.parts.destination))
}

/// The reason's numbers, cut behind the first so many.
fn first_words(reason: Reason, count: usize) -> String {
    let words = replaying::reason_words(reason);
    words.split(' ').take(count).collect::<Vec<_>>().join(" ")
}

faults! {
    LastClauseNamed: "the last failing clause is named"
    breaks "Bad form names the first failing clause of test 3" {
        failing_clause = |rules, packet| failing(rules, packet).next_back(),
    }
    LengthNamedFirst: "a clause of length is named before others"
    breaks "Bad form names the first failing clause of test 3" {
        failing_clause = |rules, packet| {
            let first = form::failing_clause(rules, packet)?;
            Some(failing(rules, packet).find(|clause| form::least_length(rules, *clause, packet) > 0).unwrap_or(first))
        },
    }
    KindsBeforeTypes: "a link request of kind link is 3.6 in type 2 too"
    breaks "any type 2 packet of kind link" {
        failing_clause = |rules, packet| {
            let first = form::failing_clause(rules, packet)?;
            let request = packet.header().is_link_request() && packet.header().to_link();
            Some(if request { Clause::RequestOfKindLink } else { first })
        },
    }
    RequestHasOneClause: "a link request has one clause, 3.6"
    breaks "3.1 to 3.8, a link request having two" {
        failing_clause = |rules, packet| match form::failing_clause(rules, packet)? {
            Clause::RequestTooShort => Some(Clause::RequestOfKindLink),
            clause => Some(clause),
        },
    }
    RatchetNotCounted: "the least length of an announce is 148 with the context flag too"
    breaks "announce payload under 148 (180 with the context flag)" {
        least_length = |rules, clause, packet| match clause {
            Clause::AnnounceTooShort => ANNOUNCE_LENGTH,
            _ => form::least_length(rules, clause, packet),
        },
    }
    LongerProofAsked: "the least length of a link proof is 99"
    breaks "the least payload length that would have served" {
        least_length = |rules, clause, packet| match clause {
            Clause::LinkProofLength => 99,
            _ => form::least_length(rules, clause, packet),
        },
    }
    NextProofAsked: "of a link proof of 97 or 98 bytes the next length is told"
    breaks "the least payload length that would have served" {
        least_length = |rules, clause, packet| match clause {
            Clause::LinkProofLength if (97..99).contains(&packet.payload.len()) => 99,
            _ => form::least_length(rules, clause, packet),
        },
    }
    LongProofNotAsked: "of a link proof that is too long 0 is told"
    breaks "the least payload length that would have served, or 0 where length isn't the fault." {
        least_length = |rules, clause, packet| match clause {
            Clause::LinkProofLength if packet.payload.len() > 99 => 0,
            _ => form::least_length(rules, clause, packet),
        },
    }
    LengthAlwaysTold: "of announces and link requests the least length is told where it isn't the fault too"
    breaks "or 0 where length isn't the fault." {
        least_length = |rules, clause, packet| match clause {
            Clause::AnnounceOfAnother | Clause::AnnounceNotSingle => least_announce(rules, &packet.parts),
            Clause::RequestOfKindLink => LINK_KEYS,
            _ => form::least_length(rules, clause, packet),
        },
    }
    MissingLengthTold: "how many bytes lack is told"
    breaks "the least payload length that would have served" {
        least_length = |rules, clause, packet| form::least_length(rules, clause, packet).saturating_sub(packet.payload.len()),
    }
    FirstExpiryTold: "the expiry of the lowest expired record is told"
    breaks "6.3 only expired path records lying in their slots, with the greatest expiry" {
        greatest_expiry = |_, packet, tables| by_path::expiries(packet, tables).next(),
    }
    LastExpiryTold: "the expiry of the highest expired record is told"
    breaks "6.3 only expired path records lying in their slots, with the greatest expiry" {
        greatest_expiry = |_, packet, tables| by_path::expiries(packet, tables).last(),
    }
    LeastExpiryTold: "the least expiry is told"
    breaks "6.3 only expired path records lying in their slots, with the greatest expiry" {
        greatest_expiry = |_, packet, tables| by_path::expiries(packet, tables).min(),
    }
    ExpiredUntold: "an expired path is no path record"
    breaks "6.3 only expired path records lying in their slots, with the greatest expiry" {
        greatest_expiry = |_, _, _| None,
    }
    OthersExpiryTold: "expired paths of other destinations count too"
    breaks "6.2 no path record" {
        greatest_expiry = |_, packet, tables| {
            let records = PATHS.records.iter(tables).filter(|record| is_used(record) && !PATHS.is_live(record, packet.clock));
            records.map(|record| time(record, path::EXPIRY)).max()
        },
    }
    UnusedPathsTold: "unused slots are expired paths to the address of zeros"
    breaks "An unused or emptied record is all zeros" {
        greatest_expiry = |_, packet, tables| {
            let empty = packet.parts.destination == [0; 16] && PATHS.records.empty(tables).is_some();
            by_path::greatest_expiry(packet, tables).or(empty.then_some(0))
        },
    }
    ExpiryZeroUntold: "an expiry of 0 is none"
    breaks "6.3 only expired path records lying in their slots, with the greatest expiry" {
        greatest_expiry = |_, packet, tables| by_path::greatest_expiry(packet, tables).filter(|expiry| *expiry > 0),
    }
    ExpiryCut: "an expiry is told in 32 bits"
    breaks "6.3 only expired path records lying in their slots, with the greatest expiry" {
        greatest_expiry = |_, packet, tables| by_path::greatest_expiry(packet, tables).map(|expiry| expiry % (1 << 32)),
    }
    AgeTold: "how long ago the last path expired is told"
    breaks "6.3 only expired path records lying in their slots, with the greatest expiry" {
        greatest_expiry = |_, packet, tables| by_path::greatest_expiry(packet, tables).map(|expiry| packet.clock - expiry.min(packet.clock)),
    }
    PathBeforeType: "a type 1 packet without a path is told so"
    breaks "6.1 type 1 packet not asking to be relayed" {
        path_to = |rules, packet, tables| {
            let path = by_path::path_to(rules, packet, tables);
            let lost = rules.find(&PATHS, tables, &packet.parts.destination, packet.clock).is_none();
            path.map_err(|reason| if lost { told_as(NoWay::NotAsking, NoWay::NoPath, reason) } else { reason })
        },
    }
    LostProofNotProved: "a link proof without a live link is 6.5"
    breaks "6.4 no live link" {
        link_packet = |rules, packet, tables, output| {
            let answer = links::link_packet(rules, packet, tables, output);
            let proof = packet.parts.is_link_proof();
            answer.map_err(|reason| if proof { told_as(NoWay::NoLink, NoWay::NotProved, reason) } else { reason })
        },
    }
    ExpiredLinkNotProved: "a link that expired before it was proved is 6.5"
    breaks "6.4 no live link" {
        link_packet = |rules, packet, tables, output| {
            let answer = links::link_packet(rules, packet, tables, output);
            let lies = link_lies(packet, tables);
            answer.map_err(|reason| if lies { told_as(NoWay::NoLink, NoWay::NotProved, reason) } else { reason })
        },
    }
    UnprovedIsNoLink: "a link not proved yet is no live link"
    breaks "6.5 link not proved yet" {
        link_packet = |rules, packet, tables, output| {
            links::link_packet(rules, packet, tables, output).map_err(|reason| told_as(NoWay::NotProved, NoWay::NoLink, reason))
        },
    }
    LostLinkProofNoReturn: "a proof of kind link without a live link is 6.6"
    breaks "for an ordinary proof (any other kind), no live return record whose key is the destination." {
        link_packet = |rules, packet, tables, output| {
            let answer = links::link_packet(rules, packet, tables, output);
            let proof = packet.header().is_proof();
            answer.map_err(|reason| if proof { told_as(NoWay::NoLink, NoWay::NoReturn, reason) } else { reason })
        },
    }
    LostReceiptNoPath: "an ordinary proof without a return record is 6.2"
    breaks "6.6 no live return record." {
        ordinary_proof = |rules, packet, tables, output| {
            returns::ordinary_proof(rules, packet, tables, output).map_err(|reason| told_as(NoWay::NoReturn, NoWay::NoPath, reason))
        },
    }
    ZeroUnsaid: "a length of 0 isn't printed"
    breaks "`2 drop 3.1 0`" {
        reason_words = |_, reason| {
            let zero = matches!(reason, Reason::BadForm { least: 0, .. });
            first_words(reason, if zero { 1 } else { 2 })
        },
    }
    ExpiryUnsaid: "an expiry isn't printed"
    breaks "`2 drop 6.3 22600`" {
        reason_words = |_, reason| first_words(reason, if reason.number() == 6 { 1 } else { 2 }),
    }
    ZeroSaid: "of every case of test 6 a number is printed"
    breaks "`2 drop 6.1`" {
        reason_words = |_, reason| match reason.clause() {
            Some((clause, None)) => format!("{}.{clause} 0", reason.number()),
            _ => replaying::reason_words(reason),
        },
    }
    ClausesUnsaid: "a line has the reason's number alone, as document 01's"
    breaks "Replay lines: `2 drop 3.4 148`" {
        reason_words = |_, reason| reason.number().to_string(),
    }
    LongExpiryUnsaid: "an expiry is printed in 32 bits"
    breaks "`2 drop 6.3 22600`" {
        reason_words = |_, reason| match reason {
            Reason::NoWayOn { case: NoWay::OnlyExpired { expiry } } => format!("6.3 {}", expiry as u32),
            _ => replaying::reason_words(reason),
        },
    }
}
