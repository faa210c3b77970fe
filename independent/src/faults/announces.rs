//! Announces: tests 9, 10, 11 and 13, and the paths that they leave.

use super::{faults, Changes, Fault, With};
use crate::limits::BLOB_LIMIT;
use crate::rules::*;
use crate::tables::{blobs, path, BLOB, PATHS};

fn is_full(path: &[u8]) -> bool {
    blobs(path).count() == BLOB_LIMIT
}

/// Takes out one of the blobs that a path holds; its spare places stay.
fn remove_blob(path: &mut [u8], place: usize) {
    let held = path::BLOBS..path::BLOBS + blobs(path).count() * BLOB;
    path[held].copy_within((place + 1) * BLOB.., place * BLOB);
    path[path::BLOB_COUNT] -= 1;
}

/// The place of the blob whose emission is the least.
fn lowest_emission(rules: &With, path: &[u8]) -> usize {
    let emissions = blobs(path).map(|blob| rules.emission(blob)).enumerate();
    emissions.min_by_key(|(_, emission)| *emission).map_or(0, |(place, _)| place)
}

faults! {
    SignatureAfterReplay: "test 9 is made after tests 10 and 11"
    breaks "Tests in order; the first that holds gives the drop." {
        announce_tests = |rules, packet, known| {
            announces::announce_tests(rules, &Packet { signature: true, ..*packet }, known)?;
            announces::announce_tests(rules, packet, known)
        },
    }
    LastBlobOnly: "replay compares only the newest blob"
    breaks "Replay: the announce's blob is stored in its live path." {
        is_replay = |_, blob, path| blobs(path).last() == Some(blob),
    }
    SpareBlobsCount: "what spare blob places hold counts"
    breaks "Replay: the announce's blob is stored in its live path." {
        is_replay = |_, blob, path| path[path::BLOBS..].chunks_exact(BLOB).any(|place| place == blob),
    }
    LastBlobEmission: "the emission is compared with the newest blob's"
    breaks "emission not above the greatest among stored blobs" {
        greatest_emission = |rules, path| blobs(path).last().map_or(0, |blob| rules.emission(blob)),
    }
    GoneBlobsCount: "the greatest emission counts blobs that are gone"
    breaks "emission not above the greatest among stored blobs" {
        greatest_emission = |rules, path| {
            let ever = rules.greatest_ever.borrow().get(&Path::read(path).destination).copied().unwrap_or(0);
            announces::greatest_emission(rules, path).max(ever)
        },
        store_blob = |rules, blob, path| {
            let before = if blobs(path).count() > 0 { rules.greatest_emission(path) } else { 0 };
            rules.greatest_ever.borrow_mut().insert(Path::read(path).destination, before.max(rules.emission(blob)));
            announces::store_blob(blob, path);
        },
    }
    EqualEmissionBetter: "an equal emission is better"
    breaks "emission not above the greatest among stored blobs" {
        not_better = |rules, packet, path| {
            announces::not_better(rules, packet, path) && rules.emission(announces::blob(packet)) != rules.greatest_emission(path)
        },
    }
    EqualHopsBetter: "equal hops are better"
    breaks "hops not below the stored hops." {
        not_better = |rules, packet, path| announces::not_better(rules, packet, path) && packet.parts.hops != path[path::HOPS],
    }
    BothMustBeBetter: "an announce must have a newer emission and fewer hops"
    breaks "Not better: emission not above the greatest among stored blobs, and hops not below the stored hops." {
        not_better = |rules, packet, path| announces::not_newer(rules, packet, path) || announces::not_nearer(packet, path),
    }
    KnownPathNeedsRoom: "a known path needs room too"
    breaks "No room: a new path or link, and no slot empty or expired. It isn't given otherwise." {
        path_slot = |_, packet, known, tables| announces::path_slot(packet, None, tables).map(|free| known.unwrap_or(free)),
    }
    ExpiredPathTaken: "an expired path's slot is taken"
    breaks "Treating an expired slot as taken." {
        path_slot = |_, _, known, tables| known.or_else(|| PATHS.records.empty(tables)),
    }
    NewPathOwnSlot: "a new path takes its destination's expired slot"
    breaks "a new one overwrites the lowest slot empty or expired" {
        path_slot = |_, packet, known, tables| {
            let own = PATHS.records.iter(tables).position(|record| tables::has_key(record, &packet.parts.destination));
            announces::path_slot(packet, known.or(own), tables)
        },
    }
    NewPathSpareKept: "a new path leaves the slot's spare blob places"
    breaks "spare blob places zero" {
        clear_slot = |_, record| record[..path::BLOBS].fill(0),
    }
    KeptForgotten: "a kept announce stores no path"
    breaks "the answer is Kept and the output stays." {
        announce = |rules, packet, tables, output| {
            let before = tables[PATHS.records.bytes()].to_vec();
            let answer = announces::announce(rules, packet, tables, output)?;
            if answer.verdict == Verdict::Kept {
                tables[PATHS.records.bytes()].copy_from_slice(&before);
            }
            Ok(answer)
        },
    }
    LifetimesByTable: "path lifetimes by source 001's table"
    breaks "(code in 001; its table says otherwise and loses)" {
        path_lifetime = |_, mode| match mode {
            Mode::Boundary => 604_800,
            Mode::AccessPoint => 172_800,
            Mode::Roaming => 3_600,
        },
    }
    ModesSwapped: "mode 1 is roaming and 2 access point"
    breaks "boundary 604,800 s, access point 86,400, roaming 21,600" {
        path_lifetime = |_, mode| announces::path_lifetime(match mode {
            Mode::Boundary => Mode::Boundary,
            Mode::AccessPoint => Mode::Roaming,
            Mode::Roaming => Mode::AccessPoint,
        }),
    }
    ExpiryNeverShrinks: "a path's expiry never shrinks"
    breaks "sets arrival port, hops, expiry, and next hop" {
        store_path = |rules, packet, known, place, tables| {
            let before = Path::read(PATHS.records.get(tables, place)).expiry;
            announces::store_path(rules, packet, known, place, tables);
            let record = PATHS.records.get_mut(tables, place);
            let path = Path::read(record);
            if known {
                Path { expiry: path.expiry.max(before), ..path }.write(record);
            }
        },
    }
    NextHopDestination: "the next hop of a type 2 announce is its destination"
    breaks "next hop (relay address, or the destination if type 1)" {
        path_of = |rules, packet, mode| Path { next_hop: packet.parts.destination, ..announces::path_of(rules, packet, mode) },
    }
    PathHopsIncremented: "a path's stored hops are those after the increment"
    breaks "sets arrival port, hops, expiry, and next hop" {
        path_of = |rules, packet, mode| Path { hops: packet.parts.hops + 1, ..announces::path_of(rules, packet, mode) },
    }
    BlobsStopAtLimit: "no blob is stored once there are 64, as in source 000"
    breaks "Ceasing to store blobs at the limit, as 000 does." {
        store_blob = |_, blob, path| {
            if !is_full(path) {
                announces::store_blob(blob, path);
            }
        },
    }
    LowestEmissionGoes: "at the limit the blob of the lowest emission goes"
    breaks "with 16 held, the one stored longest ago goes." {
        store_blob = |rules, blob, path| {
            if is_full(path) {
                remove_blob(path, lowest_emission(rules, path));
            }
            announces::store_blob(blob, path);
        },
    }
}
