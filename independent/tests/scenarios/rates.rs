//! Chatty destinations: document 02's Wish 5, and its edges.

use crate::host::{announce, destination, Host};
use haskumye_independent::answer::{Reason, Verdict};
use haskumye_independent::engine::Outcome;
use haskumye_independent::limits::{LATEST_ANNOUNCE, LATEST_BLOCK};
use haskumye_independent::tables::{self, path, rate, AnnounceRate, RateEntry, HASH_PLACE, PATHS, RATE};

crate::on_both_programs!(
    a_second_before_the_target_and_at_it(ViolationAtTarget),
    grace_0_blocks_at_once(GraceCountedBefore),
    violations_at_the_grace_and_one_above(GraceBlocks),
    a_block_ends_at_blocked_until(BlockedAtItsEnd),
    a_block_is_counted_from_the_last_announce(BlockFromClock),
    violations_stop_at_255(ViolationsWrap),
    a_last_announce_above_the_clock(TimeSinceSaturates),
    a_last_announce_far_above_the_clock(TimeSinceWraps),
    settings_changed_in_between(RateSettingClears),
    a_block_outlives_its_settings(RateOffAtZero),
    a_violation_within_the_grace_is_kept(ForgivenWithinGrace),
    one_violation_is_forgiven(AllForgiven),
    a_rate_drop_changes_two_fields_alone(RateDropMovesLast),
    while_blocked_nothing_of_the_path_changes(BlockedCounts),
    blocked_until_stays_after_acceptance(BlockOverCleared),
    a_destination_without_a_live_path_starts_with_none(ExpiredEntryGoesOn),
    a_kept_announce_is_accepted(KeptLeavesLast),
    it_is_tested_after_11(RateBeforeBetter),
    it_is_tested_after_10(RateBeforeReplay),
    it_is_tested_after_9(RateBeforeSignature),
    with_target_0_no_announce_comes_too_often(ViolationAtTarget),
    settings_at_their_limits_and_over(RateLimitsRefused),
    settings_of_more_than_four_bytes(RateSettingsCut),
    bounds_of_stored_settings(StoredRateUnchecked),
    bounds_of_a_paths_entry(BlockLikeTimes),
);

const SPREAD: Verdict = Verdict::Spread(0b1110);
const TOO_OFTEN: Verdict = Verdict::Drop(Reason::TooOften);

fn set_rate(host: &mut Host, target: u64, grace: u64, penalty: u64) -> Outcome {
    host.program.set_announce_rate(&mut host.tables, &AnnounceRate { target, grace, penalty })
}

fn rated(target: u64, grace: u64, penalty: u64, host: &mut Host) {
    assert_eq!(set_rate(host, target, grace, penalty), Outcome::Done);
}

/// A newer announce of station 1 by port 0: its emission is its number.
fn announced(host: &mut Host, number: u64, clock: u64) -> Verdict {
    host.verdict(&announce(1, 0x01, 3, number, 200), 0, clock)
}

/// The rate entry of the first path.
fn entry(host: &Host) -> (u64, u8, u64) {
    let RateEntry { last, violations, blocked_until } = RateEntry::read(host.path(0));
    (last, violations, blocked_until)
}

/// Lends the first path another entry.
fn lend(host: &mut Host, last: u64, violations: u8, blocked_until: u64) {
    RateEntry { last, violations, blocked_until }.write(PATHS.records.get_mut(&mut host.tables, 0));
}

fn a_second_before_the_target_and_at_it(host: &mut Host) {
    rated(60, 0, 10, host);
    assert_eq!(announced(host, 1, 100), SPREAD);
    assert_eq!(entry(host), (100, 0, 0));
    assert_eq!(announced(host, 2, 160), SPREAD);
    assert_eq!(entry(host), (160, 0, 0));
    assert_eq!(announced(host, 3, 219), TOO_OFTEN);
    assert_eq!(entry(host), (160, 1, 230));
}

fn grace_0_blocks_at_once(host: &mut Host) {
    rated(60, 0, 0, host);
    assert_eq!(announced(host, 1, 100), SPREAD);
    assert_eq!(announced(host, 2, 100), TOO_OFTEN);
    assert_eq!(entry(host), (100, 1, 160));
}

fn violations_at_the_grace_and_one_above(host: &mut Host) {
    rated(60, 2, 10, host);
    assert_eq!(announced(host, 1, 100), SPREAD);
    assert_eq!(announced(host, 2, 101), SPREAD);
    assert_eq!(announced(host, 3, 102), SPREAD);
    assert_eq!(entry(host), (102, 2, 0));
    assert_eq!(announced(host, 4, 103), TOO_OFTEN);
    assert_eq!(entry(host), (102, 3, 172));
}

/// Then the rule goes on: a violation is forgiven, or another block follows.
fn a_block_ends_at_blocked_until(host: &mut Host) {
    rated(60, 0, 10, host);
    assert_eq!(announced(host, 1, 100), SPREAD);
    assert_eq!(announced(host, 2, 101), TOO_OFTEN);
    assert_eq!(announced(host, 3, 169), TOO_OFTEN);
    assert_eq!(entry(host), (100, 1, 170));
    assert_eq!(announced(host, 4, 170), SPREAD);
    assert_eq!(entry(host), (170, 0, 170));
    assert_eq!(announced(host, 5, 229), TOO_OFTEN);
    assert_eq!(entry(host), (170, 1, 240));
}

fn a_block_is_counted_from_the_last_announce(host: &mut Host) {
    rated(60, 0, 604_800, host);
    assert_eq!(announced(host, 1, 100), SPREAD);
    assert_eq!(announced(host, 2, 130), TOO_OFTEN);
    assert_eq!(entry(host), (100, 1, 604_960));
}

fn violations_stop_at_255(host: &mut Host) {
    rated(60, 254, 10, host);
    assert_eq!(announced(host, 1, 100), SPREAD);
    lend(host, 100, 253, 0);
    assert_eq!(announced(host, 2, 101), SPREAD);
    assert_eq!(entry(host), (101, 254, 0));
    assert_eq!(announced(host, 3, 102), TOO_OFTEN);
    assert_eq!(entry(host), (101, 255, 171));
    lend(host, 101, 255, 0);
    assert_eq!(announced(host, 4, 103), TOO_OFTEN);
    assert_eq!(entry(host), (101, 255, 171));
    lend(host, 43, 255, 0);
    assert_eq!(announced(host, 5, 103), SPREAD);
    assert_eq!(entry(host), (103, 254, 0));
}

/// "clock < last + target", whatever the target.
fn a_last_announce_above_the_clock(host: &mut Host) {
    rated(0, 1, 7, host);
    assert_eq!(announced(host, 1, 100), SPREAD);
    lend(host, 101, 0, 0);
    assert_eq!(announced(host, 2, 100), SPREAD);
    assert_eq!(entry(host), (100, 1, 0));
    lend(host, 101, 1, 0);
    assert_eq!(announced(host, 3, 100), TOO_OFTEN);
    assert_eq!(entry(host), (101, 2, 108));
}

fn a_last_announce_far_above_the_clock(host: &mut Host) {
    rated(86_400, 0, 604_800, host);
    assert_eq!(announced(host, 1, 100), SPREAD);
    lend(host, LATEST_ANNOUNCE, 0, 0);
    assert_eq!(announced(host, 2, 100), TOO_OFTEN);
    assert_eq!(entry(host), (LATEST_ANNOUNCE, 1, LATEST_BLOCK));
    assert!(host.program.check(&host.tables));
}

/// The records stay, and the next announce goes by what is set then.
fn settings_changed_in_between(host: &mut Host) {
    rated(60, 1, 10, host);
    assert_eq!(announced(host, 1, 100), SPREAD);
    assert_eq!(announced(host, 2, 110), SPREAD);
    let paths = host.tables[PATHS.records.bytes()].to_vec();
    rated(5, 0, 1, host);
    assert!(host.tables[PATHS.records.bytes()] == paths);
    assert_eq!(entry(host), (110, 1, 0));
    assert_eq!(announced(host, 3, 115), SPREAD);
    assert_eq!(entry(host), (115, 0, 0));
    rated(600, 0, 1, host);
    assert_eq!(announced(host, 4, 125), TOO_OFTEN);
    assert_eq!(entry(host), (115, 1, 716));
}

fn a_block_outlives_its_settings(host: &mut Host) {
    rated(60, 0, 10, host);
    assert_eq!(announced(host, 1, 100), SPREAD);
    assert_eq!(announced(host, 2, 101), TOO_OFTEN);
    rated(0, 0, 0, host);
    assert_eq!(announced(host, 3, 169), TOO_OFTEN);
    assert_eq!(announced(host, 4, 170), SPREAD);
    assert_eq!(entry(host), (170, 0, 170));
}

fn a_violation_within_the_grace_is_kept(host: &mut Host) {
    rated(60, 3, 10, host);
    for (number, clock) in [(1, 100), (2, 100), (3, 159)] {
        assert_eq!(announced(host, number, clock), SPREAD);
    }
    assert_eq!(entry(host), (159, 2, 0));
}

fn one_violation_is_forgiven(host: &mut Host) {
    rated(60, 9, 10, host);
    for number in 1..=4 {
        assert_eq!(announced(host, number, 100), SPREAD);
    }
    for (number, violations) in [(5, 2), (6, 1), (7, 0), (8, 0)] {
        let clock = 60 * number;
        assert_eq!(announced(host, number, clock), SPREAD);
        assert_eq!(entry(host), (clock, violations, 0));
    }
}

/// Besides what every drop changes: the hash, the tally, the last clock.
fn a_rate_drop_changes_two_fields_alone(host: &mut Host) {
    rated(60, 0, 10, host);
    assert_eq!(announced(host, 1, 100), SPREAD);
    let before = host.path(0).to_vec();
    let other = announce(1, 0x41, 1, 2, 250);
    assert_eq!(host.verdict(&other, 2, 130), TOO_OFTEN);
    let mut expected = before.clone();
    expected[path::VIOLATIONS] = 1;
    tables::set_time(&mut expected, path::BLOCKED_UNTIL, 170);
    assert_eq!(host.path(0), expected);
    assert_eq!(host.tally, [2, 1, 0, 0, 1, 0]);
    assert_eq!(tables::last_clock(&host.tables), 130);
    assert_eq!(tables::ring_place(&host.tables, HASH_PLACE), 2);
    assert_eq!(host.verdict(&other, 2, 130), Verdict::Drop(Reason::Duplicate));
}

fn while_blocked_nothing_of_the_path_changes(host: &mut Host) {
    rated(60, 0, 100, host);
    assert_eq!(announced(host, 1, 100), SPREAD);
    assert_eq!(announced(host, 2, 101), TOO_OFTEN);
    let blocked = host.path(0).to_vec();
    for (number, clock) in [(3, 101), (4, 159), (5, 160), (6, 259)] {
        assert_eq!(announced(host, number, clock), TOO_OFTEN);
        assert_eq!(host.path(0), blocked);
    }
}

fn blocked_until_stays_after_acceptance(host: &mut Host) {
    rated(60, 0, 0, host);
    assert_eq!(announced(host, 1, 100), SPREAD);
    assert_eq!(announced(host, 2, 101), TOO_OFTEN);
    assert_eq!(announced(host, 3, 500), SPREAD);
    assert_eq!(entry(host), (500, 0, 160));
}

/// Also where an expired record of it lay in the slot.
fn a_destination_without_a_live_path_starts_with_none(host: &mut Host) {
    rated(86_400, 0, 604_800, host);
    assert_eq!(host.verdict(&announce(1, 0x01, 3, 1, 200), 1, 100), Verdict::Spread(0b1101));
    assert_eq!(host.verdict(&announce(1, 0x01, 3, 2, 200), 1, 101), TOO_OFTEN);
    assert_eq!(entry(host), (100, 1, 691_300));
    assert_eq!(host.verdict(&announce(1, 0x01, 3, 3, 200), 1, 21_699), TOO_OFTEN);
    assert_eq!(host.verdict(&announce(1, 0x01, 3, 4, 200), 1, 21_700), Verdict::Spread(0b1101));
    assert_eq!(host.path(0)[1..17], destination(1));
    assert_eq!(entry(host), (21_700, 0, 0));
    assert_eq!(host.verdict(&announce(2, 0x01, 3, 4, 200), 1, 21_700), Verdict::Spread(0b1101));
}

fn a_kept_announce_is_accepted(host: &mut Host) {
    rated(60, 5, 10, host);
    assert_eq!(announced(host, 1, 100), SPREAD);
    assert_eq!(host.verdict(&announce(1, 0x01, 3, 2, 485), 0, 110), Verdict::Kept);
    assert_eq!(entry(host), (110, 1, 0));
    assert_eq!(announced(host, 3, 165), SPREAD);
    assert_eq!(entry(host), (165, 2, 0));
}

fn it_is_tested_after_11(host: &mut Host) {
    rated(60, 0, 10, host);
    assert_eq!(announced(host, 5, 100), SPREAD);
    assert_eq!(announced(host, 4, 101), Verdict::Drop(Reason::NotBetter));
    assert_eq!(entry(host), (100, 0, 0));
    assert_eq!(announced(host, 6, 101), TOO_OFTEN);
    assert_eq!(host.verdict(&announce(1, 0x01, 3, 4, 210), 0, 102), Verdict::Drop(Reason::NotBetter));
}

fn it_is_tested_after_10(host: &mut Host) {
    rated(60, 0, 10, host);
    assert_eq!(announced(host, 5, 100), SPREAD);
    assert_eq!(host.verdict(&announce(1, 0x01, 2, 5, 201), 0, 101), Verdict::Drop(Reason::Replay));
    assert_eq!(entry(host), (100, 0, 0));
}

fn it_is_tested_after_9(host: &mut Host) {
    rated(60, 0, 10, host);
    assert_eq!(announced(host, 5, 100), SPREAD);
    assert_eq!(host.judged(&announce(1, 0x01, 3, 6, 200), 0, 101, false), Verdict::Drop(Reason::BadSignature));
    assert_eq!(entry(host), (100, 0, 0));
}

fn with_target_0_no_announce_comes_too_often(host: &mut Host) {
    assert_eq!(host.tables[RATE.bytes()], [0; 12]);
    for number in 1..=20 {
        assert_eq!(announced(host, number, 100), SPREAD);
        assert_eq!(entry(host), (100, 0, 0));
    }
}

fn settings_at_their_limits_and_over(host: &mut Host) {
    rated(86_400, 254, 604_800, host);
    assert_eq!(host.tables[RATE.bytes()], [0, 1, 0x51, 0x80, 0, 0, 0, 254, 0, 9, 0x3a, 0x80]);
    let before = host.tables.clone();
    for (target, grace, penalty) in [(86_401, 0, 0), (0, 255, 0), (0, 0, 604_801), (u64::MAX, u64::MAX, u64::MAX)] {
        assert_eq!(set_rate(host, target, grace, penalty), Outcome::Refused(9));
    }
    let other = AnnounceRate { target: 86_401, grace: 0, penalty: 0 };
    assert_eq!(host.program.set_announce_rate(&mut host.tables[1..], &other), Outcome::Refused(7));
    assert!(host.tables == before);
    rated(0, 0, 0, host);
    assert_eq!(host.tables[RATE.bytes()], [0; 12]);
    host.renumber(&std::array::from_fn(|port| 15 - port as u8));
    assert_eq!(host.tables[RATE.bytes()], [0; 12]);
}

fn settings_of_more_than_four_bytes(host: &mut Host) {
    for wide in [1 << 32, (1 << 32) + 60, 1 << 63] {
        for (target, grace, penalty) in [(wide, 0, 0), (0, wide, 0), (0, 0, wide)] {
            assert_eq!(set_rate(host, target, grace, penalty), Outcome::Refused(9));
        }
    }
}

fn bounds_of_stored_settings(host: &mut Host) {
    for (at, limit) in [(rate::TARGET, 86_400u32), (rate::GRACE, 254), (rate::PENALTY, 604_800)] {
        for (number, allowed) in [(0, true), (limit, true), (limit + 1, false), (u32::MAX, false)] {
            let mut tables = host.tables.clone();
            tables[RATE.start + at..][..4].copy_from_slice(&number.to_be_bytes());
            assert_eq!(host.program.check(&tables), allowed);
        }
    }
}

fn bounds_of_a_paths_entry(host: &mut Host) {
    assert_eq!(announced(host, 1, 100), SPREAD);
    for (last, violations, blocked_until, allowed) in [
        (0, 255, 0, true),
        (LATEST_ANNOUNCE, 0, LATEST_BLOCK, true),
        (LATEST_ANNOUNCE + 1, 0, 0, false),
        (0, 0, LATEST_BLOCK + 1, false),
        (u64::MAX, 0, 0, false),
        (0, 0, u64::MAX, false),
    ] {
        lend(host, last, violations, blocked_until);
        assert_eq!(host.program.check(&host.tables), allowed);
    }
}
