//! Wish 5, chatty destinations: the announce rate's settings, and test 15.

use crate::answer::{Reason, Refusal, When};
use crate::limits::{GRACE_LIMIT, PENALTY_LIMIT, TARGET_LIMIT, VIOLATIONS_LIMIT};
use crate::rules::Rules;
use crate::tables::check::checked;
use crate::tables::{AnnounceRate, RateEntry, PATHS};

/// Refusals 7, 9: "9 also for settings over these". No record changes.
pub fn set_announce_rate<R: Rules>(rules: &R, tables: &mut [u8], rate: &AnnounceRate) -> Result<(), Refusal> {
    checked(rules, tables)?;
    Refusal::Setting.when(rules.rate_refused(rate))?;
    rate.write(tables);
    Ok(())
}

/// "Target, grace and penalty are at most 86,400, 254 and 604,800"
pub fn rate_refused(rate: &AnnounceRate) -> bool {
    rate.target > TARGET_LIMIT || rate.grace > GRACE_LIMIT || rate.penalty > PENALTY_LIMIT
}

/// "drop 15, tested after 11." What the announce of a destination leaves of its entry, `known` being its live path: "a destination with no
/// live path is let through and starts with none." "A rate drop changes violations and blocked-until alone, besides what every drop changes."
pub fn test_15<R: Rules>(rules: &R, clock: u64, known: Option<usize>, tables: &mut [u8]) -> Result<RateEntry, Reason> {
    let Some(place) = known else { return Ok(RateEntry::default()) };
    let rate = AnnounceRate::read(tables);
    let path = PATHS.records.get_mut(tables, place);
    rate_rule(rules, clock, &rate, RateEntry::read(path)).map_err(|dropped| {
        dropped.write(path);
        Reason::TooOften
    })
}

/// "While clock < blocked-until, drop. Otherwise clock < last + target adds a violation, and one above the grace blocks until last + target
/// + penalty and drops; else one violation, if any, is forgiven." The entry after it, of an announce that goes on or that is dropped.
pub fn rate_rule<R: Rules>(rules: &R, clock: u64, rate: &AnnounceRate, entry: RateEntry) -> Result<RateEntry, RateEntry> {
    if rules.is_blocked(clock, &entry) {
        return Err(entry);
    }
    if !rules.is_violation(clock, rate, &entry) {
        return Ok(RateEntry { violations: rules.forgiven(entry.violations), ..entry });
    }
    let violations = rules.one_violation_more(entry.violations);
    if rules.above_grace(violations, rate) {
        return Err(RateEntry { violations, blocked_until: rules.block_end(clock, rate, &entry), ..entry });
    }
    Ok(RateEntry { violations, ..entry })
}

pub fn is_blocked(clock: u64, entry: &RateEntry) -> bool {
    clock < entry.blocked_until
}

/// The last announce may be later than the clock in lent tables, and is a violation then whatever the target.
pub fn is_violation(clock: u64, rate: &AnnounceRate, entry: &RateEntry) -> bool {
    clock < entry.last + rate.target
}

/// "Violations stop at 255."
pub fn one_violation_more(violations: u8) -> u8 {
    if violations == VIOLATIONS_LIMIT {
        violations
    } else {
        violations + 1
    }
}

pub fn above_grace(violations: u8, rate: &AnnounceRate) -> bool {
    u64::from(violations) > rate.grace
}

pub fn block_end(_: u64, rate: &AnnounceRate, entry: &RateEntry) -> u64 {
    entry.last + rate.target + rate.penalty
}

pub fn forgiven(violations: u8) -> u8 {
    violations.saturating_sub(1)
}

/// "Last accepted announce": this one. The block, which is over, stays.
pub fn store_rate(clock: u64, entry: &RateEntry, path: &mut [u8]) {
    RateEntry { last: clock, ..*entry }.write(path);
}
