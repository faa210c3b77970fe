//! Announces of our own.

use super::{faults, Changes, Fault};
use crate::limits::{CLOCK_LIMIT, LONGEST};
use crate::rules::*;

faults! {
    SignatureLast: "the signature stands behind the app data"
    breaks "announce payload under 148 (180 with the context flag)" {
        own_payload = |rules, own, signature| {
            let payload = announcing::own_payload(rules, &Own { app_data: &[], ..*own }, &[]);
            [&payload, own.app_data, signature].concat()
        },
    }
    DestinationUnsigned: "the destination isn't signed"
    breaks "destination, keys, name hash, blob, ratchet if any, app data, by source document 000." {
        signed = |rules, destination, own| announcing::signed(rules, destination, own).split_off(16),
    }
    RatchetUnsigned: "the ratchet isn't signed"
    breaks "destination, keys, name hash, blob, ratchet if any, app data, by source document 000." {
        signed = |rules, destination, own| announcing::signed(rules, destination, &Own { ratchet: &[], ..*own }),
    }
    EmissionFirst: "the emission time stands before the random bytes"
    breaks "five random, five of emission time, big-endian." {
        own_blob = |_, own| {
            let mut blob = announcing::own_blob(own);
            blob.rotate_left(5);
            blob
        },
    }
    RatchetUnflagged: "an announce with a ratchet has header 01"
    breaks "Header 01, or 21 with a ratchet" {
        own_parts = |_, destination, own| Parts { header: Header(0x01), ..announcing::own_parts(destination, own) },
    }
    OwnClockFirst: "5 is tested before 26"
    breaks "in that order, the buffer untouched." {
        announcing_refusal = |rules, own, signature, room| {
            Refusal::Clock.when(own.clock >= CLOCK_LIMIT)?;
            announcing::announcing_refusal(rules, own, signature, room)
        },
    }
    OwnRoomFirst: "6 is tested before 27"
    breaks "in that order, the buffer untouched." {
        announcing_refusal = |rules, own, signature, room| match announcing::announcing_refusal(rules, own, signature, room) {
            Err(Refusal::AnnounceLength) => Err(if room < LONGEST { Refusal::SmallOutput } else { Refusal::AnnounceLength }),
            refusal => refusal,
        },
    }
    SigningWithoutSignature: "for the signing bytes, 27 doesn't count the signature"
    breaks "27 an announce over 500 once built" {
        announcing_refusal = |rules, own, signature, room| {
            let counted = own.app_data.len().saturating_sub(if signature.is_none() { 64 } else { 0 });
            announcing::announcing_refusal(rules, &Own { app_data: &own.app_data[..counted], ..*own }, signature, room)
        },
    }
    OwnAnnounceOf501: "an announce of 501 bytes is built"
    breaks "27 an announce over 500 once built" {
        announce_grown = |_, own| announcing::announce_grown(&Own { app_data: &own.app_data[own.app_data.len().min(1)..], ..*own }),
    }
    ShortRatchetTaken: "a ratchet may be shorter"
    breaks "26 key, name, random, ratchet or signature of wrong length" {
        wrong_lengths = |_, own| announcing::wrong_lengths(&Own { ratchet: &[], ..*own }) || own.ratchet.len() > 32,
    }
}
