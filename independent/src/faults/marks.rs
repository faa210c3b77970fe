//! Wish 6: dead paths.

use super::{faults, Changes, Fault, With};
use crate::packet::DestinationKind;
use crate::rules::*;
use crate::tables::{blobs, has_key, last_clock, path, set_last_clock, BLOB, HASHES, PATHS};

/// The live path of a packet's destination.
fn known(rules: &With, packet: &Packet, tables: &[u8]) -> Option<usize> {
    rules.find(&PATHS, tables, &packet.parts.destination, packet.clock)
}

fn marked<'a>(rules: &With, packet: &Packet, tables: &'a [u8]) -> Option<&'a [u8]> {
    known(rules, packet, tables).map(|place| PATHS.records.get(tables, place)).filter(|path| marks::is_marked(path))
}

/// Makes one test more of an announce that revives a marked path.
fn tested_too(
    rules: &With,
    packet: &Packet,
    path: Option<&[u8]>,
    test: fn(&With, &Packet, &[u8]) -> Result<(), Reason>,
) -> Result<(), Reason> {
    announces::announce_tests(rules, packet, path)?;
    match path {
        Some(path) if marks::revives(rules, packet, path) => test(rules, packet, path),
        _ => Ok(()),
    }
}

/// Judges an announce, and marks the path again where it was marked and the answer is so.
fn marked_again(rules: &With, packet: &Packet, tables: &mut [u8], output: &mut [u8], so: fn(Verdict) -> bool) -> Result<Answer, Reason> {
    let was = marked(rules, packet, tables).is_some();
    let answer = announces::announce(rules, packet, tables, output)?;
    if let (true, true, Some(place)) = (was, so(answer.verdict), known(rules, packet, tables)) {
        marks::set_mark(PATHS.records.get_mut(tables, place));
    }
    Ok(answer)
}

faults! {
    MarkStaysOnKept: "a kept announce leaves the mark"
    breaks "Acceptance clears the mark." {
        announce = |rules, packet, tables, output| marked_again(rules, packet, tables, output, |verdict| verdict == Verdict::Kept),
    }
    MarkStaysOnSpread: "a spread announce leaves the mark"
    breaks "Acceptance clears the mark." {
        announce = |rules, packet, tables, output| marked_again(rules, packet, tables, output, |verdict| verdict != Verdict::Kept),
    }
    OlderLeavesMark: "an accepted announce with an older emission leaves the mark"
    breaks "Acceptance clears the mark." {
        announce = |rules, packet, tables, output| {
            let revives = marked(rules, packet, tables).is_some_and(|path| rules.revives(packet, path));
            if revives {
                announces::announce(rules, packet, tables, output)
            } else {
                marked_again(rules, packet, tables, output, |_| true)
            }
        },
    }
    OlderRevives: "tests 10, 11 and 15 aren't made of an older emission either"
    breaks "tests 10, 11 and 15 aren't made if its emission is at least the greatest stored" {
        revives = |_, _, path| marks::is_marked(path),
    }
    EqualDoesNotRevive: "tests 10, 11 and 15 are made of an emission equal to the greatest"
    breaks "tests 10, 11 and 15 aren't made if its emission is at least the greatest stored" {
        revives = |rules, packet, path| {
            marks::revives(rules, packet, path) && rules.emission(announces::blob(packet)) > rules.greatest_emission(path)
        },
    }
    NewestBlobRevives: "the emission is compared with that of the blob stored last"
    breaks "tests 10, 11 and 15 aren't made if its emission is at least the greatest stored" {
        revives = |rules, packet, path| {
            let last = blobs(path).last().map_or(0, |blob| rules.emission(blob));
            marks::is_marked(path) && rules.emission(announces::blob(packet)) >= last
        },
    }
    ReplayStillTested: "test 10 is made for a marked path"
    breaks "tests 10, 11 and 15 aren't made if its emission is at least the greatest stored" {
        announce_tests = |rules, packet, path| tested_too(rules, packet, path, |rules, packet, path| {
            Reason::Replay.when(rules.is_replay(announces::blob(packet), path))
        }),
    }
    BetterStillTested: "test 11 is made for a marked path"
    breaks "tests 10, 11 and 15 aren't made if its emission is at least the greatest stored" {
        announce_tests = |rules, packet, path| tested_too(rules, packet, path, |rules, packet, path| {
            Reason::NotBetter.when(rules.not_better(packet, path))
        }),
    }
    RateStillTested: "test 15 is made for a marked path"
    breaks "tests 10, 11 and 15 aren't made if its emission is at least the greatest stored" {
        announce = |rules, packet, tables, output| {
            if let (Some(_), true) = (marked(rules, packet, tables), packet.signature) {
                let place = known(rules, packet, tables);
                if rules.revives(packet, PATHS.records.get(tables, place.expect("a live path"))) {
                    rules.test_15(packet.clock, place, tables)?;
                }
            }
            announces::announce(rules, packet, tables, output)
        },
    }
    SignatureNotTested: "test 9 isn't made for a marked path"
    breaks "tests 10, 11 and 15 aren't made if its emission is at least the greatest stored" {
        announce = |rules, packet, tables, output| {
            let signature = packet.signature || marked(rules, packet, tables).is_some();
            announces::announce(rules, &Packet { signature, ..*packet }, tables, output)
        },
    }
    BlobStoredTwice: "a blob already stored is stored once more"
    breaks "a blob already stored isn't stored twice." {
        holds_blob = |_, _, _| false,
    }
    BlobMovedUp: "a blob already stored goes to the newest place"
    breaks "a blob already stored isn't stored twice." {
        store_path = |rules, packet, known, place, tables| {
            let blob = announces::blob(packet);
            let path = PATHS.records.get_mut(tables, place);
            let count = blobs(path).count();
            let held = if known { blobs(path).position(|stored| stored == blob) } else { None };
            if let (Some(held), true) = (held, marks::is_marked(path)) {
                path[path::BLOBS + held * BLOB..path::BLOBS + count * BLOB].rotate_left(BLOB);
            }
            announces::store_path(rules, packet, known, place, tables);
        },
    }
    MarkedStillDuplicate: "test 2 is made of an announce for a marked path"
    breaks "For a marked path an announce of kind single skips test 2" {
        skips_test_2 = |_, _, _| false,
    }
    MarkedForgotten: "an announce for a marked path isn't remembered"
    breaks "(its hash is remembered if it isn't already live)" {
        test_2 = |rules, packet, tables| {
            packet.hash = judge::packet_hash(rules, packet);
            if rules.skips_test_2(packet, tables) { Ok(()) } else { judge::test_2(rules, packet, tables) }
        },
    }
    MarkedRememberedAgain: "an announce for a marked path is remembered once more"
    breaks "(its hash is remembered if it isn't already live)" {
        test_2 = |rules, packet, tables| {
            let tested = judge::test_2(rules, packet, tables);
            let hash = packet.hash;
            let places = HASHES.records.iter(tables).filter(|record| has_key(record, &hash)).count();
            if tested.is_ok() && places > 0 && rules.skips_test_2(packet, tables) && !remembered_now(&hash, packet.clock, tables) {
                rules.remember(&hash, packet.clock, tables);
            }
            tested
        },
    }
    MarkedRenewsHash: "an announce for a marked path renews its remembered hash"
    breaks "(its hash is remembered if it isn't already live)" {
        test_2 = |rules, packet, tables| {
            let tested = judge::test_2(rules, packet, tables);
            let place = rules.find(&HASHES, tables, &packet.hash, packet.clock);
            if let (Ok(()), Some(place)) = (tested, place) {
                judge::write_hash(&packet.hash, packet.clock, HASHES.records.get_mut(tables, place));
            }
            tested
        },
    }
    MarkedMustBeOfForm: "an announce of bad form for a marked path doesn't skip test 2"
    breaks "For a marked path an announce of kind single skips test 2" {
        skips_test_2 = |rules, packet, tables| marks::skips_test_2(rules, packet, tables) && form::failing_clause(rules, packet).is_none(),
    }
    AnyKindSkips: "an announce of any kind skips test 2"
    breaks "For a marked path an announce of kind single skips test 2" {
        skips_test_2 = |rules, packet, tables| packet.header().is_announce() && marked(rules, packet, tables).is_some(),
    }
    AnyPacketSkips: "any packet of kind single to a marked destination skips test 2"
    breaks "For a marked path an announce of kind single skips test 2" {
        skips_test_2 = |rules, packet, tables| {
            packet.header().destination_kind() == DestinationKind::Single && marked(rules, packet, tables).is_some()
        },
    }
    RevivedStartsAnew: "an announce that revives a path clears its violations and its block"
    breaks "Where 15 isn't made, the last accepted announce moves and Wish 5's other fields stay." {
        revived_entry = |_, _| RateEntry::default(),
    }
    RevivedForgives: "an announce that revives a path has a violation forgiven"
    breaks "Where 15 isn't made, the last accepted announce moves and Wish 5's other fields stay." {
        revived_entry = |rules, path| {
            let entry = marks::revived_entry(path);
            RateEntry { violations: rules.forgiven(entry.violations), ..entry }
        },
    }
    RevivedLastStays: "an announce that revives a path leaves the last accepted announce"
    breaks "Where 15 isn't made, the last accepted announce moves and Wish 5's other fields stay." {
        announce = |rules, packet, tables, output| {
            let before = marked(rules, packet, tables).filter(|path| rules.revives(packet, path)).map(RateEntry::read);
            let answer = announces::announce(rules, packet, tables, output)?;
            if let (Some(entry), Some(place)) = (before, known(rules, packet, tables)) {
                entry.write(PATHS.records.get_mut(tables, place));
            }
            Ok(answer)
        },
    }
    MarkedNoWay: "a marked path is no way on"
    breaks "Let the host mark a destination's live path unresponsive." {
        live_path = |rules, packet, tables| {
            by_path::live_path(rules, packet, tables).filter(|place| !marks::is_marked(PATHS.records.get(tables, *place)))
        },
    }
    MarkLeavesClock: "a mark doesn't set the last clock"
    breaks "An accepted mark sets the last clock." {
        settle_mark = |_, _, _| {},
    }
    RefusedMarkSetsClock: "a mark without a live path sets the last clock"
    breaks "An accepted mark sets the last clock." {
        mark_unresponsive = |rules, tables, destination, clock| {
            let marked = marks::mark_unresponsive(rules, tables, destination, clock);
            if marked == Err(Refusal::NoLivePath) {
                set_last_clock(tables, clock);
            }
            marked
        },
    }
    MarkPathFirst: "12 is tested before 5"
    breaks "12, marking with no live path, after 5" {
        mark_unresponsive = |rules, tables, destination, clock| match marks::mark_unresponsive(rules, tables, destination, clock) {
            Err(Refusal::Clock) if rules.path_to_mark(destination, clock, tables).is_none() => Err(Refusal::NoLivePath),
            marked => marked,
        },
    }
    ExpiredMarked: "an expired path is marked"
    breaks "12, marking with no live path, after 5" {
        path_to_mark = |rules, destination, clock, tables| {
            let expired = || PATHS.records.iter(tables).position(|record| has_key(record, destination));
            marks::path_to_mark(rules, destination, clock, tables).or_else(expired)
        },
    }
    LiveAtLastClock: "whether a path to mark is live is asked at the last clock"
    breaks "12, marking with no live path, after 5" {
        path_to_mark = |rules, destination, _, tables| marks::path_to_mark(rules, destination, last_clock(tables), tables),
    }
    HigherMarked: "of two live paths the higher is marked"
    breaks "If lent tables hold two live records of one key, the lower place counts." {
        path_to_mark = |_, destination, clock, tables| {
            PATHS.records.iter(tables).rposition(|record| has_key(record, destination) && PATHS.is_live(record, clock))
        },
    }
    MarkTwiceUnmarks: "a second mark takes the mark away"
    breaks "Let the host mark a destination's live path unresponsive." {
        set_mark = |_, path| path[path::UNRESPONSIVE] ^= 1,
    }
    NewPathMarked: "a new path in a marked one's slot is marked"
    breaks "Acceptance clears the mark." {
        clear_slot = |_, record| {
            let mark = record[path::UNRESPONSIVE];
            announces::clear_slot(record);
            record[path::UNRESPONSIVE] = mark;
        },
        clear_mark = |_, path| {
            if blobs(path).count() > 1 {
                marks::clear_mark(path);
            }
        },
    }
    UnresponsiveTwoAllowed: "an unresponsive mark of 2 is allowed"
    breaks "7 also for a mark neither yes nor no." {
        unresponsive_mark = |_, mark| if mark == 2 { Some(false) } else { check::unresponsive_mark(mark) },
    }
}

/// Is a hash's record of this very clock?
fn remembered_now(hash: &PacketHash, clock: u64, tables: &[u8]) -> bool {
    let mut records = HASHES.records.iter(tables).filter(|record| has_key(record, hash));
    records.any(|record| tables::time(record, HASHES.expiry) == clock + crate::limits::HASH_LIFETIME)
}
