//! Wish 2: which packets are neither tested as duplicates nor remembered.

use super::{faults, Changes, Fault};
use crate::limits::EXEMPT_CONTEXTS;
use crate::packet::PacketKind;
use crate::rules::*;
use crate::tables::{take_ring_place, HASHES, HASH_PLACE};

/// The rule without one of its contexts.
fn exempt_but(context: u8, packet: &Packet) -> bool {
    judge::is_exempt(packet) && packet.parts.context != context
}

/// The rule with more contexts.
fn exempt_or(packet: &Packet, more: impl Fn(u8) -> bool) -> bool {
    judge::is_exempt(packet) || packet.header().to_link() && more(packet.parts.context)
}

faults! {
    ResourceNotExempt: "context 01, a resource, isn't exempt"
    breaks "Packets of kind link with context 0x01, 0x03, 0x05, 0x08, 0x0E or 0xFA" {
        is_exempt = |_, packet| exempt_but(0x01, packet),
    }
    ResourceRequestNotExempt: "context 03, a resource's request, isn't exempt"
    breaks "Packets of kind link with context 0x01, 0x03, 0x05, 0x08, 0x0E or 0xFA" {
        is_exempt = |_, packet| exempt_but(0x03, packet),
    }
    ResourceProofNotExempt: "context 05, a resource's proof, isn't exempt"
    breaks "Packets of kind link with context 0x01, 0x03, 0x05, 0x08, 0x0E or 0xFA" {
        is_exempt = |_, packet| exempt_but(0x05, packet),
    }
    CacheRequestNotExempt: "context 08, a cache request, isn't exempt"
    breaks "Packets of kind link with context 0x01, 0x03, 0x05, 0x08, 0x0E or 0xFA" {
        is_exempt = |_, packet| exempt_but(0x08, packet),
    }
    ChannelNotExempt: "context 0e, channel data, isn't exempt"
    breaks "Packets of kind link with context 0x01, 0x03, 0x05, 0x08, 0x0E or 0xFA" {
        is_exempt = |_, packet| exempt_but(0x0e, packet),
    }
    KeepaliveNotExempt: "context fa, a keepalive, isn't exempt"
    breaks "A keepalive is the same bytes each time, so within 300 s the second drops as a duplicate and the link dies." {
        is_exempt = |_, packet| exempt_but(0xfa, packet),
    }
    ResourceContextsExempt: "contexts 01 to 07, all of resources, are exempt"
    breaks "Packets of kind link with context 0x01, 0x03, 0x05, 0x08, 0x0E or 0xFA" {
        is_exempt = |_, packet| exempt_or(packet, |context| (0x01..=0x07).contains(&context)),
    }
    LinkContextsExempt: "contexts fa to fe, all of links but link proofs, are exempt"
    breaks "Packets of kind link with context 0x01, 0x03, 0x05, 0x08, 0x0E or 0xFA" {
        is_exempt = |_, packet| exempt_or(packet, |context| (0xfa..=0xfe).contains(&context)),
    }
    LinkProofExempt: "link proofs are exempt"
    breaks "Packets of kind link with context 0x01, 0x03, 0x05, 0x08, 0x0E or 0xFA" {
        is_exempt = |_, packet| judge::is_exempt(packet) || packet.parts.is_link_proof(),
    }
    ExemptOfAnyKind: "packets of any destination kind are exempt"
    breaks "Packets of kind link" {
        is_exempt = |_, packet| EXEMPT_CONTEXTS.contains(&packet.parts.context),
    }
    OnlyDataExempt: "proofs, announces and link requests aren't exempt"
    breaks "Packets of kind link" {
        is_exempt = |_, packet| judge::is_exempt(packet) && packet.header().packet_kind() == PacketKind::Data,
    }
    OnlyTypeOneExempt: "type 2 packets aren't exempt"
    breaks "Packets of kind link" {
        is_exempt = |_, packet| judge::is_exempt(packet) && !packet.header().type_2(),
    }
    ExemptTested: "exempt packets are tested as duplicates, though not remembered"
    breaks "are no longer tested as duplicates nor remembered." {
        test_2 = |rules, packet, tables| {
            let hash = judge::packet_hash(rules, packet);
            Reason::Duplicate.when(rules.is_duplicate(&hash, packet.clock, tables))?;
            judge::test_2(rules, packet, tables)
        },
    }
    ExemptRemembered: "exempt packets are remembered, though not tested as duplicates"
    breaks "are no longer tested as duplicates nor remembered." {
        test_2 = |rules, packet, tables| {
            if rules.is_exempt(packet) {
                rules.remember(&judge::packet_hash(rules, packet), packet.clock, tables);
            }
            judge::test_2(rules, packet, tables)
        },
    }
    ExemptMovesRing: "an exempt packet takes a ring place and leaves it as it is"
    breaks "are no longer tested as duplicates nor remembered." {
        test_2 = |rules, packet, tables| {
            if rules.is_exempt(packet) {
                take_ring_place(tables, HASH_PLACE, &HASHES);
            }
            judge::test_2(rules, packet, tables)
        },
    }
    DroppedExemptRemembered: "an exempt packet that a later test drops is remembered"
    breaks "are no longer tested as duplicates nor remembered." {
        judge = |rules, packet, tables, output| {
            let judged = judge::judge(rules, packet, tables, output);
            if rules.is_exempt(packet) && judged.is_err_and(|reason| reason != Reason::NotOurs) {
                rules.remember(&judge::packet_hash(rules, packet), packet.clock, tables);
            }
            judged
        },
    }
    ExemptIsOurs: "test 1 isn't made of exempt packets"
    breaks "The other tests stand" {
        not_ours = |rules, packet, tables| !rules.is_exempt(packet) && judge::not_ours(packet, tables),
    }
    ExemptOfAnyForm: "an exempt packet of type 2 is of good form"
    breaks "The other tests stand" {
        type_2_link = |rules, packet| !rules.is_exempt(packet) && form::type_2_link(packet),
    }
    ExemptOfAnyHops: "an exempt packet may have any hops below 255"
    breaks "The other tests stand" {
        first_tests = |rules, packet, tables| {
            let tested = judge::first_tests(rules, packet, tables);
            let goes_on = rules.is_exempt(packet) && tested == Err(Reason::TooManyHops) && packet.parts.hops < 255;
            if goes_on { Ok(false) } else { tested }
        },
    }
}
