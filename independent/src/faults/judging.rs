//! Tests 1 to 5, and what is remembered.

use super::{faults, Changes, Fault};
use crate::limits::{HOPS_LIMIT, LINK_KEYS, LINK_PROOF, LINK_PROOF_LENGTHS};
use crate::packet::{DestinationKind, PacketKind};
use crate::rules::*;
use crate::tables::{HASHES, HASH_PLACE};

/// Takes the hash remembered last out again.
fn forget(tables: &mut [u8]) {
    let count = HASHES.records.count;
    let place = (tables::ring_place(tables, HASH_PLACE) + count - 1) % count;
    HASHES.records.get_mut(tables, place).fill(0);
    tables::set_ring_place(tables, HASH_PLACE, place);
}

faults! {
    AnnounceNotOurs: "test 1 is made of announces too"
    breaks "Not ours: type 2, not an announce, relay address not our own." {
        not_ours = |_, packet, tables| packet.header().type_2() && packet.parts.relay != tables::own(tables),
    }
    NotOursRemembers: "drop 1 remembers the hash"
    breaks "Drops 1 and 2 remember nothing" {
        first_tests = |rules, packet, tables| {
            if rules.not_ours(packet, tables) {
                rules.remember(&judge::packet_hash(rules, packet), packet.clock, tables);
            }
            judge::first_tests(rules, packet, tables)
        },
    }
    DuplicateBeforeOurs: "test 2 is made before test 1"
    breaks "Tests in order; the first that holds gives the drop." {
        first_tests = |rules, packet, tables| {
            let hash = judge::packet_hash(rules, packet);
            Reason::Duplicate.when(!rules.is_exempt(packet) && rules.is_duplicate(&hash, packet.clock, tables))?;
            judge::first_tests(rules, packet, tables)
        },
    }
    FormBeforeDuplicate: "test 3 is made before test 2"
    breaks "Tests in order; the first that holds gives the drop." {
        test_2 = |rules, packet, tables| {
            judge::test_3(rules, packet)?;
            judge::test_2(rules, packet, tables)
        },
    }
    LocalBeforeForm: "test 4 is made before test 3"
    breaks "Tests in order; the first that holds gives the drop." {
        first_tests = |rules, packet, tables| {
            judge::test_1(rules, packet, tables)?;
            rules.test_2(packet, tables)?;
            if judge::test_4(rules, packet, tables)? {
                return Ok(true);
            }
            judge::test_3(rules, packet)?;
            judge::test_5(rules, packet)?;
            Ok(false)
        },
    }
    HopsBeforeLocal: "test 5 is made before test 4"
    breaks "Tests in order; the first that holds gives the drop." {
        first_tests = |rules, packet, tables| {
            judge::test_1(rules, packet, tables)?;
            rules.test_2(packet, tables)?;
            judge::test_3(rules, packet)?;
            judge::test_5(rules, packet)?;
            judge::test_4(rules, packet, tables)
        },
    }
    DuplicateRenews: "a duplicate renews the remembered hash"
    breaks "Drops 1 and 2 remember nothing" {
        test_2 = |rules, packet, tables| {
            let tested = judge::test_2(rules, packet, tables);
            if let (Err(_), Some(place)) = (tested, rules.find(&HASHES, tables, &packet.hash, packet.clock)) {
                judge::write_hash(&packet.hash, packet.clock, HASHES.records.get_mut(tables, place));
            }
            tested
        },
    }
    DuplicateRemembers: "a duplicate is remembered once more"
    breaks "Drops 1 and 2 remember nothing" {
        test_2 = |rules, packet, tables| {
            let tested = judge::test_2(rules, packet, tables);
            if tested.is_err() {
                rules.remember(&packet.hash, packet.clock, tables);
            }
            tested
        },
    }
    HigherPlaceCounts: "of two live records of one key the higher place counts"
    breaks "If lent tables hold two live records of one key, the lower place counts." {
        find = |_, table, tables, key, clock| {
            table.records.iter(tables).rposition(|record| tables::has_key(record, key) && table.is_live(record, clock))
        },
    }
    HashLivesAtExpiry: "a remembered hash is live at its expiry"
    breaks "A record is live while clock < its expiry" {
        is_duplicate = |rules, hash, clock, tables| judge::is_duplicate(rules, hash, clock.saturating_sub(1), tables),
    }
    ExpiredHashReused: "a hash goes to the lowest expired place"
    breaks "Otherwise the hash is now remembered in the next ring place" {
        remember = |_, hash, clock, tables| {
            let expired = |record: &[u8]| tables::is_used(record) && !HASHES.is_live(record, clock);
            match HASHES.records.iter(tables).position(expired) {
                Some(place) => judge::write_hash(hash, clock, HASHES.records.get_mut(tables, place)),
                None => judge::remember(hash, clock, tables),
            }
        },
    }
    HashesStopAtLimit: "no hash is remembered once 1,024 are held"
    breaks "the oldest's once 1,024 are held." {
        remember = |_, hash, clock, tables| {
            if HASHES.records.empty(tables).is_some() {
                judge::remember(hash, clock, tables);
            }
        },
    }
    BadFormForgotten: "drop 3 doesn't remember the hash"
    breaks "Drops 1 and 2 remember nothing" {
        first_tests = |rules, packet, tables| {
            let tested = judge::first_tests(rules, packet, tables);
            if matches!(tested, Err(Reason::BadForm { .. })) && !rules.is_exempt(packet) {
                forget(tables);
            }
            tested
        },
    }
    DeliveredForgotten: "a delivered packet isn't remembered"
    breaks "Otherwise the hash is now remembered" {
        first_tests = |rules, packet, tables| {
            let tested = judge::first_tests(rules, packet, tables);
            if tested == Ok(true) {
                forget(tables);
            }
            tested
        },
    }
    TypeTwoProofAllowed: "a type 2 proof is of good form"
    breaks "type 2 proof" {
        type_2_proof = |_, _| false,
    }
    TypeTwoLinkAllowed: "a type 2 packet of kind link is of good form"
    breaks "any type 2 packet of kind link" {
        type_2_link = |_, _| false,
    }
    AnnounceOfAnyKind: "an announce may be of any kind"
    breaks "announce not of kind single" {
        announce_not_single = |_, _| false,
    }
    DestinationUnchecked: "an announce's destination isn't compared with its keys and name"
    breaks "announce destination not the first 16 of SHA-256(name hash ‖ identity hash)" {
        announce_of_another = |_, _| false,
    }
    RequestOfKindLinkAllowed: "a link request of kind link is of good form"
    breaks "link request of kind link" {
        request_of_kind_link = |_, _| false,
    }
    RequestOfKeysAlone: "a link request's payload must be 64 bytes"
    breaks "link request of kind link, or payload under 64" {
        request_too_short = |_, packet| packet.header().is_link_request() && packet.payload.len() != LINK_KEYS,
    }
    ShortProofRefused: "a link proof of 96 bytes is of bad form, as in source 007's code"
    breaks "whose payload isn't 96 or 99." {
        link_proof_length = |_, packet| packet.parts.is_link_proof() && packet.payload.len() != 99,
    }
    LinkProofOfAnyLength: "a link proof of any length is of good form"
    breaks "whose payload isn't 96 or 99." {
        link_proof_length = |_, _| false,
    }
    LinkProofByContext: "a proof of any kind with context ff must have a link proof's length"
    breaks "a link proof (a proof of kind link, context 0xFF)" {
        link_proof_length = |_, packet| {
            let context = packet.header().is_proof() && packet.parts.context == LINK_PROOF;
            context && !LINK_PROOF_LENGTHS.contains(&packet.payload.len())
        },
    }
    OwnAddressLocal: "our own relay address is a local address"
    breaks "Own announce: destination local." {
        is_local = |_, destination, tables| judge::is_local(destination, tables) || *destination == tables::own(tables),
    }
    LocalProofDelivered: "a proof to a local address is delivered"
    breaks "Data and link requests to a local address, kind link excepted, are delivered here" {
        is_delivered = |_, header| judge::is_delivered(header) || header.is_proof(),
    }
    LocalLinkDelivered: "data of kind link to a local address is delivered"
    breaks "Data and link requests to a local address, kind link excepted, are delivered here" {
        is_delivered = |_, header| matches!(header.packet_kind(), PacketKind::Data | PacketKind::LinkRequest),
    }
    GroupNotDelivered: "only kind single is delivered"
    breaks "Data and link requests to a local address, kind link excepted, are delivered here" {
        is_delivered = |_, header| judge::is_delivered(header) && header.destination_kind() == DestinationKind::Single,
    }
    HopsLimitHigher: "hops 128 go on"
    breaks "Hops 128 or more." {
        too_many_hops = |_, hops| hops > HOPS_LIMIT,
    }
}
