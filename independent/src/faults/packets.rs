//! Reading, writing, hashes, and what announces hold.

use super::{faults, Changes, Fault};
use crate::rules::*;

faults! {
    AccessCodeBeforeLength: "refusal 3 is tested before refusal 2"
    breaks "Tests run in this row order" {
        read_refusal = |_, packet, longest| {
            Refusal::AccessCode.when(packet.len() >= packet::START_1 && Header(packet[0]).access_code())?;
            packet::read_refusal(packet, longest)
        },
    }
    LongestRefused: "a packet of 500 bytes is too long"
    breaks "length over 500" {
        read_refusal = |_, packet, longest| packet::read_refusal(packet, longest - 1),
    }
    ReaderSizeLast: "the reader tests 9 after 1 and 2"
    breaks "9 also for a size outside the range, first in the reader" {
        read_at = |rules, packet, size| match packet::read_at(rules, packet, size) {
            Err(Refusal::Setting) => {
                rules.read_refusal(packet, size as usize)?;
                Err(Refusal::Setting)
            }
            parts => parts,
        },
    }
    ReaderSizeOver500: "the reader takes a size over 500 for 500"
    breaks "9 also for a size outside the range, first in the reader" {
        read_at = |rules, packet, size| packet::read_at(rules, packet, size.min(500)),
    }
    ReaderSizeUnread: "the reader reads at 500 whatever size it is given"
    breaks "Callers of the packet reader say which size they mean" {
        read_at = |rules, packet, size| packet::read_at(rules, packet, if rules.size_refused(size) { size } else { 500 }),
    }
    ReaderSizeUnder35: "the reader refuses sizes under 35 by 9"
    breaks "9 also for a size outside the range, first in the reader" {
        read_at = |rules, packet, size| packet::read_at(rules, packet, if size < 35 { 0 } else { size }),
    }
    TypeTwoLengthBeforeAccessCode: "type 2 under 35 is tested before refusal 3"
    breaks "Tests run in this row order" {
        read_refusal = |_, packet, longest| match packet::read_refusal(packet, longest) {
            Err(Refusal::AccessCode) if packet.len() < Header(packet[0]).payload_start() => Err(Refusal::TooShort),
            refusal => refusal,
        },
    }
    RelayAfterDestination: "the relay address stands behind the destination, as sources 001 and 003 draw it"
    breaks "the reference implementation puts it first, and so does this page." {
        parts = |_, packet| match packet::parts(packet) {
            parts if parts.header.type_2() => Parts { relay: parts.destination, destination: parts.relay, ..parts },
            parts => parts,
        },
    }
    PayloadFrom34: "type 2's payload begins with the context"
    breaks "context, payload from 35" {
        payload_place = |_, packet| {
            let place = packet::payload_place(packet);
            if place == packet::START_2 { place - 1 } else { place }
        },
    }
    WritingLengthBeforeRoom: "writing tests refusal 2 before refusal 6"
    breaks "it refuses 6, 2 and 3 as below" {
        write_refusal = |_, parts, payload, room| {
            Refusal::TooLong.when(packet::write_refusal(parts, payload, room.max(500)) == Err(Refusal::TooLong))?;
            packet::write_refusal(parts, payload, room)
        },
    }
    WholeHeaderHashed: "the packet hash takes the whole header"
    breaks "SHA-256 of (header modulo 16), destination, context, payload, in that order." {
        hashed_head = |_, parts| {
            let mut head = hash::hashed_head(parts);
            head[0] = parts.header.0;
            head
        },
    }
    ContextNotHashed: "the packet hash leaves out the context"
    breaks "SHA-256 of (header modulo 16), destination, context, payload, in that order." {
        hashed_head = |_, parts| hash::hashed_head(&Parts { context: 0, ..*parts }),
    }
    LinkIdNotCut: "the link id covers a link request's whole payload"
    breaks "the same over a link request with its payload cut to 64 bytes" {
        link_id_covers = |_, length| length,
    }
    RatchetFromContext: "the context byte tells of a ratchet, as in source 000"
    breaks "Taking the ratchet from the context byte (000's code) instead of the flag bit." {
        has_ratchet = |_, parts| parts.context == 1,
    }
    IdentityBeforeName: "the destination is hashed from the identity hash and then the name hash"
    breaks "announce destination not the first 16 of SHA-256(name hash ‖ identity hash)" {
        destination = |_, sha, keys, name_hash| {
            let message = [&sha.digest(keys)[..16], name_hash].concat();
            packet::address(&sha.digest(&message)[..16])
        },
    }
    EmissionLittleEndian: "the emission is little-endian"
    breaks "five of emission time, big-endian." {
        emission = |_, blob| blob[5..10].iter().rev().fold(0, |time, byte| time << 8 | u64::from(*byte)),
    }
}
