//! Dead paths: document 02's Wish 6.

use crate::host::{announce, bad_form, destination, packet_hash, to_station, Host, OWN};
use haskumye_independent::answer::{Clause, Reason, Verdict};
use haskumye_independent::engine::Outcome;
use haskumye_independent::tables::{self, path, AnnounceRate, RateEntry, HASHES, HASH_PLACE, PATHS};

crate::on_both_programs!(
    marking(MarkLeavesClock),
    refusals_of_a_mark_come_in_order(MarkPathFirst),
    a_refused_mark_changes_nothing(RefusedMarkSetsClock),
    live_at_the_marks_own_clock(LiveAtLastClock),
    no_live_path(ExpiredMarked),
    of_two_live_paths_the_lower(HigherMarked),
    marking_twice(MarkTwiceUnmarks),
    the_same_announce_revives(MarkedStillDuplicate),
    a_live_hash_is_not_renewed(MarkedRenewsHash),
    a_live_hash_is_not_remembered_again(MarkedRememberedAgain),
    the_hash_is_remembered(MarkedForgotten),
    a_short_or_forged_one_is_never_a_duplicate(MarkedMustBeOfForm),
    an_unsigned_one_is_never_a_duplicate(SignatureNotTested),
    only_announces_of_kind_single(AnyKindSkips),
    only_announces(AnyPacketSkips),
    an_equal_emission_revives(EqualDoesNotRevive),
    a_stored_blob_stays_where_it_is(BlobMovedUp),
    a_stored_blob_is_not_stored_twice(BlobStoredTwice),
    an_older_emission_is_tested(OlderRevives),
    an_older_emission_clears_the_mark_too(OlderLeavesMark),
    test_11_is_not_made(BetterStillTested),
    test_15_is_not_made(RateStillTested),
    a_running_block_goes_on(RevivedStartsAnew),
    the_last_announce_moves(RevivedLastStays),
    kept_clears_the_mark(MarkStaysOnKept),
    packets_still_go_by_a_marked_path(MarkedNoWay),
    a_new_path_is_unmarked(NewPathMarked),
    a_mark_is_yes_or_no(UnresponsiveTwoAllowed),
    renumbering_leaves_the_mark(RenumberingBackwards),
);

const SPREAD: Verdict = Verdict::Spread(0b1110);

fn mark(host: &mut Host, station: u8, clock: u64) -> Outcome {
    host.program.mark_unresponsive(&mut host.tables, &destination(station), clock)
}

/// Station 1 has a path by port 0 of hops 3 and one blob of emission 5, marked at clock 20.
fn marked(host: &mut Host) {
    assert_eq!(host.verdict(&announce(1, 0x01, 3, 5, 200), 0, 10), SPREAD);
    assert_eq!(mark(host, 1, 20), Outcome::Done);
}

fn is_marked(host: &Host) -> bool {
    host.path(0)[path::UNRESPONSIVE] == 1
}

fn marking(host: &mut Host) {
    assert_eq!(host.verdict(&announce(1, 0x01, 3, 5, 200), 0, 10), SPREAD);
    let (mut expected, tally) = (host.tables.clone(), host.tally);
    assert_eq!(mark(host, 1, 20), Outcome::Done);
    expected[PATHS.records.start + path::UNRESPONSIVE] = 1;
    tables::set_last_clock(&mut expected, 20);
    assert!(host.tables == expected);
    assert_eq!(host.tally, tally);
    assert_eq!(host.call(&announce(2, 0x01, 3, 5, 200), 0, 19, true), Outcome::Refused(5));
}

/// Each beside faults of all later ones.
fn refusals_of_a_mark_come_in_order(host: &mut Host) {
    marked(host);
    let before = host.tables.clone();
    assert_eq!(host.program.mark_unresponsive(&mut host.tables[1..], &destination(9), 1 << 40), Outcome::Refused(7));
    for clock in [0, 19, 1 << 40, u64::MAX] {
        assert_eq!(mark(host, 9, clock), Outcome::Refused(5));
        assert_eq!(mark(host, 1, clock), Outcome::Refused(5));
    }
    assert_eq!(mark(host, 9, 20), Outcome::Refused(12));
    assert!(host.tables == before);
}

fn a_refused_mark_changes_nothing(host: &mut Host) {
    marked(host);
    let before = host.tables.clone();
    assert_eq!(mark(host, 9, 50), Outcome::Refused(12));
    assert!(host.tables == before);
    assert_eq!(host.verdict(&announce(2, 0x01, 3, 5, 200), 0, 20), SPREAD);
}

/// A roaming path, announced at 10, lives until 21,609.
fn live_at_the_marks_own_clock(host: &mut Host) {
    host.verdict(&announce(1, 0x01, 3, 5, 200), 1, 10);
    assert_eq!(mark(host, 1, 21_610), Outcome::Refused(12));
    assert_eq!(mark(host, 1, 21_609), Outcome::Done);
    assert_eq!(tables::last_clock(&host.tables), 21_609);
}

fn no_live_path(host: &mut Host) {
    host.verdict(&announce(1, 0x01, 3, 5, 200), 1, 10);
    host.verdict(&to_station(1, 0x40, 0, b"a"), 0, 30_000);
    assert_eq!(mark(host, 1, 30_000), Outcome::Refused(12));
    assert!(!is_marked(host));
    assert_eq!(host.program.mark_unresponsive(&mut host.tables, &[0; 16], 30_000), Outcome::Refused(12));
    assert_eq!(host.program.mark_unresponsive(&mut host.tables, &OWN, 30_000), Outcome::Refused(12));
}

fn of_two_live_paths_the_lower(host: &mut Host) {
    host.verdict(&announce(1, 0x01, 3, 5, 200), 0, 10);
    let record = host.path(0).to_vec();
    host.tables[PATHS.records.range(9)].copy_from_slice(&record);
    assert_eq!(mark(host, 1, 10), Outcome::Done);
    assert_eq!(host.path(9), record);
    assert!(is_marked(host));
}

fn marking_twice(host: &mut Host) {
    marked(host);
    assert_eq!(mark(host, 1, 30), Outcome::Done);
    assert!(is_marked(host));
    assert_eq!(tables::last_clock(&host.tables), 30);
}

/// The very packet that came at clock 10, by another port: its hash is live, its blob is stored, it is no better.
fn the_same_announce_revives(host: &mut Host) {
    marked(host);
    assert_eq!(host.verdict(&announce(1, 0x01, 3, 5, 200), 2, 30), Verdict::Spread(0b1011));
    assert!(!is_marked(host));
    assert_eq!(host.path(0)[path::PORT], 2);
    assert_eq!(tables::time(host.path(0), path::EXPIRY), 86_430);
    assert_eq!(host.verdict(&announce(1, 0x01, 3, 5, 200), 2, 30), Verdict::Drop(Reason::Duplicate));
}

fn a_live_hash_is_not_renewed(host: &mut Host) {
    marked(host);
    let ring = host.tables[HASH_PLACE..].to_vec();
    assert_eq!(host.verdict(&announce(1, 0x01, 3, 5, 200), 0, 309), SPREAD);
    assert!(host.tables[HASH_PLACE..] == ring);
    assert_eq!(host.verdict(&announce(1, 0x01, 3, 5, 200), 0, 309), Verdict::Drop(Reason::Duplicate));
    assert_eq!(host.verdict(&announce(1, 0x01, 3, 5, 200), 0, 310), Verdict::Drop(Reason::Replay));
}

fn a_live_hash_is_not_remembered_again(host: &mut Host) {
    marked(host);
    assert_eq!(host.verdict(&announce(1, 0x01, 3, 5, 200), 0, 100), SPREAD);
    assert_eq!(tables::ring_place(&host.tables, HASH_PLACE), 1);
}

/// Also when a later test drops the announce: once the mark is gone, both are duplicates.
fn the_hash_is_remembered(host: &mut Host) {
    marked(host);
    let (older, newer) = (announce(1, 0x01, 3, 4, 200), announce(1, 0x01, 3, 6, 200));
    assert_eq!(host.verdict(&older, 0, 20), Verdict::Drop(Reason::NotBetter));
    assert_eq!(host.verdict(&newer, 0, 20), SPREAD);
    assert_eq!(tables::ring_place(&host.tables, HASH_PLACE), 3);
    for (place, packet) in [(1, &older), (2, &newer)] {
        assert_eq!(HASHES.records.get(&host.tables, place)[1..33], packet_hash(packet));
        assert_eq!(host.verdict(packet, 0, 20), Verdict::Drop(Reason::Duplicate));
    }
}

fn a_short_or_forged_one_is_never_a_duplicate(host: &mut Host) {
    marked(host);
    let short = announce(1, 0x01, 3, 6, 19 + 147);
    let mut forged = announce(1, 0x01, 3, 6, 200);
    forged[19] ^= 1;
    for (packet, bad) in [(short, bad_form(Clause::AnnounceTooShort, 148)), (forged, bad_form(Clause::AnnounceOfAnother, 0))] {
        for _ in 0..3 {
            assert_eq!(host.verdict(&packet, 0, 20), bad);
        }
    }
    assert_eq!(tables::ring_place(&host.tables, HASH_PLACE), 3);
    assert!(is_marked(host));
}

fn an_unsigned_one_is_never_a_duplicate(host: &mut Host) {
    marked(host);
    for _ in 0..3 {
        assert_eq!(host.judged(&announce(1, 0x01, 3, 6, 200), 0, 20, false), Verdict::Drop(Reason::BadSignature));
    }
    assert_eq!(tables::ring_place(&host.tables, HASH_PLACE), 2);
    assert_eq!(host.verdict(&announce(1, 0x01, 3, 6, 200), 0, 20), SPREAD);
}

fn only_announces_of_kind_single(host: &mut Host) {
    marked(host);
    let group = announce(1, 0x05, 3, 6, 200);
    assert_eq!(host.verdict(&group, 0, 20), bad_form(Clause::AnnounceNotSingle, 0));
    assert_eq!(host.verdict(&group, 0, 20), Verdict::Drop(Reason::Duplicate));
}

fn only_announces(host: &mut Host) {
    marked(host);
    let data = to_station(1, 0x40, 0, b"a");
    assert_eq!(host.verdict(&data, 1, 20), Verdict::Forward(0));
    assert_eq!(host.verdict(&data, 1, 20), Verdict::Drop(Reason::Duplicate));
}

/// In another packet, with more hops, and another blob.
fn an_equal_emission_revives(host: &mut Host) {
    marked(host);
    let mut other = announce(1, 0x01, 9, 5, 210);
    other[19 + 74] ^= 1;
    assert_eq!(host.verdict(&other, 0, 20), SPREAD);
    assert!(!is_marked(host));
    assert_eq!((host.path(0)[path::HOPS], host.path(0)[path::BLOB_COUNT]), (9, 2));
    assert_eq!(host.path(0)[path::BLOBS + 10..path::BLOBS + 20], other[19 + 74..19 + 84]);
}

/// The greatest among three, which isn't the newest: the list stays, order included.
fn a_stored_blob_stays_where_it_is(host: &mut Host) {
    for (emission, hops) in [(7, 9), (8, 9), (6, 5)] {
        assert_eq!(host.verdict(&announce(1, 0x01, hops, emission, 200), 0, 10), SPREAD);
    }
    let blobs = host.path(0)[path::BLOB_COUNT..].to_vec();
    assert_eq!(mark(host, 1, 10), Outcome::Done);
    assert_eq!(host.verdict(&announce(1, 0x01, 20, 8, 201), 0, 10), SPREAD);
    assert_eq!(host.path(0)[path::BLOB_COUNT..], blobs);
    assert_eq!(host.path(0)[path::HOPS], 20);
}

fn a_stored_blob_is_not_stored_twice(host: &mut Host) {
    marked(host);
    let blobs = host.path(0)[path::BLOB_COUNT..].to_vec();
    assert_eq!(host.verdict(&announce(1, 0x01, 9, 5, 210), 0, 20), SPREAD);
    assert_eq!(host.path(0)[path::BLOB_COUNT..], blobs);
}

/// Below the greatest, tests 10, 11 and 15 are made.
fn an_older_emission_is_tested(host: &mut Host) {
    let rate = AnnounceRate { target: 60, grace: 0, penalty: 0 };
    for (emission, hops) in [(7, 9), (6, 5)] {
        assert_eq!(host.verdict(&announce(1, 0x01, hops, emission, 200), 0, 10), SPREAD);
    }
    assert_eq!(mark(host, 1, 10), Outcome::Done);
    assert_eq!(host.program.set_announce_rate(&mut host.tables, &rate), Outcome::Done);
    assert_eq!(host.verdict(&announce(1, 0x01, 4, 6, 201), 0, 10), Verdict::Drop(Reason::Replay));
    assert_eq!(host.verdict(&announce(1, 0x01, 5, 5, 201), 0, 10), Verdict::Drop(Reason::NotBetter));
    assert_eq!(host.verdict(&announce(1, 0x01, 4, 5, 201), 0, 10), Verdict::Drop(Reason::TooOften));
    assert!(is_marked(host));
}

fn an_older_emission_clears_the_mark_too(host: &mut Host) {
    marked(host);
    assert_eq!(host.verdict(&announce(1, 0x01, 2, 4, 200), 0, 20), SPREAD);
    assert!(!is_marked(host));
    assert_eq!(host.path(0)[path::BLOB_COUNT], 2);
}

fn test_11_is_not_made(host: &mut Host) {
    marked(host);
    let mut other = announce(1, 0x01, 3, 5, 200);
    other[19 + 74] ^= 1;
    assert_eq!(host.verdict(&other, 0, 20), SPREAD);
}

/// The entry of the first path.
fn entry(host: &Host) -> (u64, u8, u64) {
    let RateEntry { last, violations, blocked_until } = RateEntry::read(host.path(0));
    (last, violations, blocked_until)
}

/// Blocked until 1,070, and marked.
fn blocked(host: &mut Host) {
    let rate = AnnounceRate { target: 60, grace: 0, penalty: 1_000 };
    assert_eq!(host.program.set_announce_rate(&mut host.tables, &rate), Outcome::Done);
    assert_eq!(host.verdict(&announce(1, 0x01, 3, 5, 200), 0, 10), SPREAD);
    assert_eq!(host.verdict(&announce(1, 0x01, 3, 6, 200), 0, 11), Verdict::Drop(Reason::TooOften));
    assert_eq!(entry(host), (10, 1, 1_070));
    assert_eq!(mark(host, 1, 12), Outcome::Done);
}

fn test_15_is_not_made(host: &mut Host) {
    blocked(host);
    assert_eq!(host.verdict(&announce(1, 0x01, 3, 7, 200), 0, 13), SPREAD);
    assert!(!is_marked(host));
}

/// Against the next announce.
fn a_running_block_goes_on(host: &mut Host) {
    blocked(host);
    assert_eq!(host.verdict(&announce(1, 0x01, 3, 7, 200), 0, 13), SPREAD);
    assert_eq!(entry(host), (13, 1, 1_070));
    assert_eq!(host.verdict(&announce(1, 0x01, 3, 8, 200), 0, 1_069), Verdict::Drop(Reason::TooOften));
    assert_eq!(host.verdict(&announce(1, 0x01, 3, 9, 200), 0, 1_070), SPREAD);
    assert_eq!(entry(host), (1_070, 0, 1_070));
}

fn the_last_announce_moves(host: &mut Host) {
    marked(host);
    assert_eq!(entry(host), (10, 0, 0));
    assert_eq!(host.verdict(&announce(1, 0x01, 3, 5, 200), 0, 25), SPREAD);
    assert_eq!(entry(host), (25, 0, 0));
}

fn kept_clears_the_mark(host: &mut Host) {
    marked(host);
    assert_eq!(host.verdict(&announce(1, 0x01, 3, 6, 485), 0, 20), Verdict::Kept);
    assert!(!is_marked(host));
}

fn packets_still_go_by_a_marked_path(host: &mut Host) {
    marked(host);
    assert_eq!(host.verdict(&to_station(1, 0x40, 0, b"a"), 1, 20), Verdict::Forward(0));
    assert_eq!(host.verdict(&to_station(1, 0x42, 0, &[7; 64]), 1, 20), Verdict::Forward(0));
    assert!(is_marked(host));
}

/// An expired record keeps its mark; what takes its slot has none.
fn a_new_path_is_unmarked(host: &mut Host) {
    host.verdict(&announce(1, 0x01, 3, 5, 200), 1, 10);
    assert_eq!(mark(host, 1, 20), Outcome::Done);
    host.verdict(&to_station(1, 0x40, 0, b"a"), 0, 30_000);
    assert!(is_marked(host));
    assert_eq!(host.verdict(&announce(1, 0x01, 3, 5, 200), 0, 30_000), SPREAD);
    assert!(!is_marked(host));
    assert_eq!(host.verdict(&announce(1, 0x01, 3, 5, 200), 0, 30_000), Verdict::Drop(Reason::Duplicate));
}

fn a_mark_is_yes_or_no(host: &mut Host) {
    marked(host);
    for (mark, allowed) in [(0, true), (1, true), (2, false), (255, false)] {
        host.tables[PATHS.records.start + path::UNRESPONSIVE] = mark;
        assert_eq!(host.program.check(&host.tables), allowed);
    }
}

fn renumbering_leaves_the_mark(host: &mut Host) {
    marked(host);
    assert_eq!(host.renumber(&std::array::from_fn(|port| (port as u8 + 3) % 16)), Outcome::Done);
    assert_eq!(host.path(0)[path::PORT], 3);
    assert!(is_marked(host));
    assert_eq!(host.verdict(&announce(1, 0x01, 3, 5, 200), 3, 20), Verdict::Spread(0b111_0000));
}
