//! Wish 5: chatty destinations.

use super::{faults, Changes, Fault, With};
use crate::limits::{GRACE_LIMIT, LATEST, LATEST_ANNOUNCE, LATEST_BLOCK, PENALTY_LIMIT, TARGET_LIMIT};
use crate::rules::*;
use crate::tables::{has_key, PATHS};

/// Makes test 15 of a path's entry, and then changes what it leaves.
fn left_otherwise(
    rules: &With,
    clock: u64,
    known: Option<usize>,
    tables: &mut [u8],
    otherwise: impl Fn(RateEntry, RateEntry) -> RateEntry,
) -> Result<RateEntry, Reason> {
    let entry = |tables: &[u8]| known.map(|place| RateEntry::read(PATHS.records.get(tables, place)));
    let before = entry(tables);
    let tested = rate::test_15(rules, clock, known, tables);
    if let (Some(before), Some(after), Some(place)) = (before, entry(tables), known) {
        otherwise(before, after).write(PATHS.records.get_mut(tables, place));
    }
    tested
}

/// Announce tests with test 15 made before some of them.
fn rate_first(
    rules: &With,
    packet: &Packet,
    known: Option<usize>,
    tables: &mut [u8],
    output: &mut [u8],
    signature: bool,
) -> Result<Answer, Reason> {
    Reason::BadSignature.when(signature && !packet.signature)?;
    rules.test_15(packet.clock, known, &mut tables.to_vec()).map_err(|reason| {
        let _ = rules.test_15(packet.clock, known, tables);
        reason
    })?;
    announces::announce(rules, packet, tables, output)
}

fn live_path(rules: &With, packet: &Packet, tables: &[u8]) -> Option<usize> {
    rules.find(&PATHS, tables, &packet.parts.destination, packet.clock)
}

faults! {
    BlockedAtItsEnd: "an announce is dropped at blocked-until too"
    breaks "While clock < blocked-until, drop." {
        is_blocked = |_, clock, entry| clock <= entry.blocked_until,
    }
    BlockedCounts: "an announce that comes while blocked adds a violation"
    breaks "While clock < blocked-until, drop." {
        test_15 = |rules, clock, known, tables| left_otherwise(rules, clock, known, tables, |before, after| {
            let blocked = rate::is_blocked(clock, &before);
            RateEntry { violations: if blocked { rate::one_violation_more(before.violations) } else { after.violations }, ..after }
        }),
    }
    BlockGrows: "an announce that comes while blocked begins the block anew"
    breaks "While clock < blocked-until, drop." {
        test_15 = |rules, clock, known, tables| {
            let penalty = AnnounceRate::read(tables).penalty;
            left_otherwise(rules, clock, known, tables, |before, after| {
                let end = if rate::is_blocked(clock, &before) { after.blocked_until.max(clock + penalty) } else { after.blocked_until };
                RateEntry { blocked_until: end.min(LATEST_BLOCK), ..after }
            })
        },
    }
    ViolationAtTarget: "an announce at last + target is a violation"
    breaks "Otherwise clock < last + target adds a violation" {
        is_violation = |_, clock, rate, entry| clock <= entry.last + rate.target,
    }
    TimeSinceWraps: "the seconds since the last announce are compared with the target, modulo 2^64"
    breaks "Otherwise clock < last + target adds a violation" {
        is_violation = |_, clock, rate, entry| clock.wrapping_sub(entry.last) < rate.target,
    }
    TimeSinceSaturates: "the seconds since the last announce are compared with the target, none where it is later"
    breaks "Otherwise clock < last + target adds a violation" {
        is_violation = |_, clock, rate, entry| clock.saturating_sub(entry.last) < rate.target,
    }
    RateOffAtZero: "with target 0 nothing is blocked or forgiven"
    breaks "While clock < blocked-until, drop." {
        test_15 = |rules, clock, known, tables| match known {
            Some(place) if AnnounceRate::read(tables).target == 0 => Ok(RateEntry::read(PATHS.records.get(tables, place))),
            _ => rate::test_15(rules, clock, known, tables),
        },
    }
    GraceBlocks: "as many violations as the grace block"
    breaks "one above the grace blocks until last + target + penalty and drops" {
        above_grace = |_, violations, rate| u64::from(violations) >= rate.grace,
    }
    GraceCountedBefore: "the violations before this one are compared with the grace"
    breaks "one above the grace blocks until last + target + penalty and drops" {
        above_grace = |_, violations, rate| u64::from(violations) > rate.grace + 1,
    }
    BlockFromClock: "a block is counted from the clock"
    breaks "blocks until last + target + penalty and drops" {
        block_end = |_, clock, rate, _| clock + rate.target + rate.penalty,
    }
    BlockWithoutTarget: "a block ends at last + penalty"
    breaks "blocks until last + target + penalty and drops" {
        block_end = |_, _, rate, entry| entry.last + rate.penalty,
    }
    ForgivenWithinGrace: "a violation within the grace is forgiven at once"
    breaks "else one violation, if any, is forgiven." {
        test_15 = |rules, clock, known, tables| {
            let before = known.map_or(0, |place| RateEntry::read(PATHS.records.get(tables, place)).violations);
            let entry = rate::test_15(rules, clock, known, tables)?;
            Ok(RateEntry { violations: entry.violations.min(before), ..entry })
        },
    }
    AllForgiven: "all violations are forgiven at once"
    breaks "else one violation, if any, is forgiven." {
        forgiven = |_, _| 0,
    }
    NoneForgiven: "no violation is forgiven"
    breaks "else one violation, if any, is forgiven." {
        forgiven = |_, violations| violations,
    }
    ViolationsWrap: "violations go on to 256, which the byte holds as 0"
    breaks "Violations stop at 255." {
        one_violation_more = |_, violations| violations.wrapping_add(1),
    }
    ViolationsStopAtGrace: "violations stop one above the greatest grace but one"
    breaks "Violations stop at 255." {
        one_violation_more = |_, violations| rate::one_violation_more(violations).min(GRACE_LIMIT as u8),
    }
    RateDropMovesLast: "a rate drop moves the last announce"
    breaks "A rate drop changes violations and blocked-until alone, besides what every drop changes." {
        test_15 = |rules, clock, known, tables| {
            let dropped = rate::test_15(rules, clock, known, tables);
            if let (Err(_), Some(place)) = (dropped, known) {
                let path = PATHS.records.get_mut(tables, place);
                RateEntry { last: clock, ..RateEntry::read(path) }.write(path);
            }
            dropped
        },
    }
    RateDropForgotten: "a rate drop changes nothing of the path"
    breaks "A rate drop changes violations and blocked-until alone, besides what every drop changes." {
        test_15 = |rules, clock, known, tables| left_otherwise(rules, clock, known, tables, |before, _| before),
    }
    BlockOverCleared: "an accepted announce sets blocked-until to 0"
    breaks "A rate drop changes violations and blocked-until alone" {
        store_rate = |_, clock, entry, path| rate::store_rate(clock, &RateEntry { blocked_until: 0, ..*entry }, path),
    }
    NewLastZero: "a new path's last announce is 0"
    breaks "Last accepted announce, violations and blocked-until live in the path record" {
        store_rate = |_, clock, entry, path| {
            let new = *entry == RateEntry::default();
            rate::store_rate(if new { 0 } else { clock }, entry, path);
        },
    }
    KeptLeavesLast: "a kept announce leaves the last announce as it was"
    breaks "Last accepted announce, violations and blocked-until live in the path record" {
        announce = |rules, packet, tables, output| {
            let known = live_path(rules, packet, tables);
            let last = known.map_or(0, |place| RateEntry::read(PATHS.records.get(tables, place)).last);
            let answer = announces::announce(rules, packet, tables, output)?;
            if let (Verdict::Kept, Some(place)) = (answer.verdict, live_path(rules, packet, tables)) {
                let path = PATHS.records.get_mut(tables, place);
                RateEntry { last, ..RateEntry::read(path) }.write(path);
            }
            Ok(answer)
        },
    }
    ExpiredEntryGoesOn: "a destination's expired record hands on its violations and its block"
    breaks "a destination with no live path is let through and starts with none." {
        announce = |rules, packet, tables, output| {
            let expired = PATHS.records.iter(tables).find(|record| has_key(record, &packet.parts.destination)).map(RateEntry::read);
            let known = live_path(rules, packet, tables);
            let answer = announces::announce(rules, packet, tables, output)?;
            if let (None, Some(entry), Some(place)) = (known, expired, live_path(rules, packet, tables)) {
                rate::store_rate(packet.clock, &entry, PATHS.records.get_mut(tables, place));
            }
            Ok(answer)
        },
    }
    RateBeforeBetter: "test 15 is made before test 11"
    breaks "drop 15, tested after 11." {
        announce = |rules, packet, tables, output| match announces::announce(rules, packet, tables, output) {
            Err(Reason::NotBetter) => {
                let known = live_path(rules, packet, tables);
                rules.test_15(packet.clock, known, tables).and(Err(Reason::NotBetter))
            }
            judged => judged,
        },
    }
    RateBeforeReplay: "test 15 is made before test 10"
    breaks "drop 15, tested after 11." {
        announce = |rules, packet, tables, output| {
            let known = live_path(rules, packet, tables);
            rate_first(rules, packet, known, tables, output, true)
        },
    }
    RateBeforeSignature: "test 15 is made before test 9"
    breaks "drop 15, tested after 11." {
        announce = |rules, packet, tables, output| {
            let known = live_path(rules, packet, tables);
            rate_first(rules, packet, known, tables, output, false)
        },
    }
    RateSettingClears: "setting the announce rate clears the paths' violations"
    breaks "target interval, grace and penalty, set for the relay." {
        set_announce_rate = |rules, tables, rate| {
            rate::set_announce_rate(rules, tables, rate)?;
            for path in PATHS.records.iter_mut(tables).filter(|path| tables::is_used(path)) {
                RateEntry { violations: 0, ..RateEntry::read(path) }.write(path);
            }
            Ok(())
        },
    }
    RateLimitsRefused: "settings at their limits are refused"
    breaks "Target, grace and penalty are at most 86,400, 254 and 604,800" {
        rate_refused = |_, rate| rate.target >= TARGET_LIMIT || rate.grace >= GRACE_LIMIT || rate.penalty >= PENALTY_LIMIT,
    }
    RateSettingsCut: "of a setting only its last four bytes are read"
    breaks "9 also for settings over these" {
        set_announce_rate = |rules, tables, rate| {
            let cut = |number: u64| number & 0xffff_ffff;
            let rate = AnnounceRate { target: cut(rate.target), grace: cut(rate.grace), penalty: cut(rate.penalty) };
            rate::set_announce_rate(rules, tables, &rate)
        },
    }
    GraceOf255Set: "a grace of 255 is allowed"
    breaks "Target, grace and penalty are at most 86,400, 254 and 604,800" {
        rate_refused = |_, rate| rate.grace != 255 && rate::rate_refused(rate),
        rate_allowed = |_, rate| rate.grace == 255 || check::rate_allowed(rate),
    }
    StoredRateUnchecked: "stored settings may be any"
    breaks "2^40 - 1 for the last announce, and these for settings." {
        rate_allowed = |_, _| true,
    }
    LastAnnounceLikeTimes: "a last announce is bounded as other times are"
    breaks "refusal 7's bound is 2^40 + 691,199 for blocked-until, 2^40 - 1 for the last announce" {
        last_announce_allowed = |_, time| time <= LATEST,
    }
    LastAnnounceLimitAllowed: "a last announce at 2^40 is allowed"
    breaks "2^40 - 1 for the last announce" {
        last_announce_allowed = |_, time| time <= LATEST_ANNOUNCE + 1,
    }
    BlockLikeTimes: "blocked-until is bounded as other times are"
    breaks "refusal 7's bound is 2^40 + 691,199 for blocked-until" {
        block_allowed = |_, time| time <= LATEST,
    }
    BlockBoundLoose: "a blocked-until of 2^40 + 691,200 is allowed"
    breaks "refusal 7's bound is 2^40 + 691,199 for blocked-until" {
        block_allowed = |_, time| time <= LATEST_BLOCK + 1,
    }
}
