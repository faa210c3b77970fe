//! Refusal 7, clause by clause: "tables of wrong size, or a stored port over 15, ring place outside its ring, mode unknown, blob count
//! outside 1..16 in a used record, another count over its table, a used, proved or port-on mark neither yes nor no, an unused record not
//! all zeros, or time over 2^40 + 604,799". No other count is stored than blob counts, which Wish 8 lets be 64.

use super::{last_clock, link, path, port, ring_place, size, time, AnnounceRate, Mode, RateEntry, Section, Table};
use super::{HASHES, HASH_PLACE, LINKS, LOCALS, PATHS, PORTS, RETURNS, RETURN_PLACE, SIZE};
use crate::answer::{Refusal, When};
use crate::limits::{BLOB_LIMIT, GRACE_LIMIT, GREATEST_SIZE, LATEST, LATEST_ANNOUNCE, LATEST_BLOCK, LEAST_SIZE, PENALTY_LIMIT};
use crate::limits::{PORT_COUNT, TARGET_LIMIT};
use crate::rules::Rules;

/// Refusal 7 where tables are not allowed.
pub fn checked<R: Rules>(rules: &R, tables: &[u8]) -> Result<(), Refusal> {
    Refusal::Tables.when(!rules.tables_allowed(tables))
}

/// Do tables have their size and break no clause?
pub fn tables_allowed<R: Rules>(rules: &R, tables: &[u8]) -> bool {
    let any = |_: &[u8]| true;
    rules.size_allowed(tables.len())
        && rules.last_clock_allowed(last_clock(tables))
        && rules.rate_allowed(&AnnounceRate::read(tables))
        && PORTS.iter(tables).all(|settings| rules.port_allowed(settings))
        && records_allowed(rules, tables, &LOCALS, any)
        && table_allowed(rules, tables, &PATHS, |path| rules.path_allowed(path))
        && table_allowed(rules, tables, &LINKS, |link| rules.proved_mark(link[link::PROVED]).is_some())
        && rules.ring_place_allowed(ring_place(tables, RETURN_PLACE), RETURNS.records.count)
        && table_allowed(rules, tables, &RETURNS, any)
        && rules.ring_place_allowed(ring_place(tables, HASH_PLACE), HASHES.records.count)
        && table_allowed(rules, tables, &HASHES, any)
}

/// Records with an expiry: those in use have stored ports, a time and their other fields allowed.
fn table_allowed<R: Rules>(rules: &R, tables: &[u8], table: &Table, others: impl Fn(&[u8]) -> bool) -> bool {
    records_allowed(rules, tables, &table.records, |record| {
        table.ports.iter().all(|port| is_port(record[*port])) && rules.time_allowed(time(record, table.expiry)) && others(record)
    })
}

/// Each record is unused and all zeros, or used and its fields are allowed.
fn records_allowed<R: Rules>(rules: &R, tables: &[u8], section: &Section, fields: impl Fn(&[u8]) -> bool) -> bool {
    section.iter(tables).all(|record| match rules.used_mark(record[0]) {
        Some(true) => fields(record),
        Some(false) => rules.unused_allowed(record),
        None => false,
    })
}

/// "tables of wrong size"
pub fn size_allowed(size: usize) -> bool {
    size == SIZE
}

/// "a stored port over 15"
#[inline]
pub fn is_port(byte: u8) -> bool {
    usize::from(byte) < PORT_COUNT
}

/// "ring place outside its ring"
pub fn ring_place_allowed(place: usize, count: usize) -> bool {
    place < count
}

/// A port's settings, whether it is on or off.
pub fn port_allowed<R: Rules>(rules: &R, settings: &[u8]) -> bool {
    rules.on_mark(settings[port::ON]).is_some() && mode_known(settings[port::MODE]) && rules.stored_size_allowed(size(settings))
}

/// Wish 11: "7 for a stored one", a size outside 19 to 500.
pub fn stored_size_allowed(size: usize) -> bool {
    (LEAST_SIZE..=GREATEST_SIZE).contains(&size)
}

/// "mode unknown"
fn mode_known(mode: u8) -> bool {
    Mode::from_number(u64::from(mode)).is_some()
}

/// What a path holds beside its port and its expiry.
pub fn path_allowed<R: Rules>(rules: &R, path: &[u8]) -> bool {
    let RateEntry { last, blocked_until, .. } = RateEntry::read(path);
    rules.blob_count_allowed(path[path::BLOB_COUNT])
        && rules.last_announce_allowed(last)
        && rules.block_allowed(blocked_until)
        && rules.unresponsive_mark(path[path::UNRESPONSIVE]).is_some()
}

/// "blob count outside 1..16 in a used record": "Refusal 7 reads 1..64".
pub fn blob_count_allowed(count: u8) -> bool {
    (1..=BLOB_LIMIT).contains(&usize::from(count))
}

/// "refusal 7's bound is 2^40 + 691,199 for blocked-until, 2^40 - 1 for the last announce, and these for settings." Violations are a byte.
pub fn block_allowed(time: u64) -> bool {
    time <= LATEST_BLOCK
}

pub fn last_announce_allowed(time: u64) -> bool {
    time <= LATEST_ANNOUNCE
}

/// "Target, grace and penalty are at most 86,400, 254 and 604,800"
pub fn rate_allowed(rate: &AnnounceRate) -> bool {
    rate.target <= TARGET_LIMIT && rate.grace <= GRACE_LIMIT && rate.penalty <= PENALTY_LIMIT
}

/// "a used, proved or port-on mark neither yes nor no"
fn yes_or_no(mark: u8) -> Option<bool> {
    match mark {
        0 => Some(false),
        1 => Some(true),
        _ => None,
    }
}

pub fn used_mark(mark: u8) -> Option<bool> {
    yes_or_no(mark)
}

pub fn proved_mark(mark: u8) -> Option<bool> {
    yes_or_no(mark)
}

pub fn on_mark(mark: u8) -> Option<bool> {
    yes_or_no(mark)
}

/// Wish 6: "7 also for a mark neither yes nor no."
pub fn unresponsive_mark(mark: u8) -> Option<bool> {
    yes_or_no(mark)
}

/// "an unused record not all zeros"
pub fn unused_allowed(record: &[u8]) -> bool {
    all_zero(record)
}

/// Without an early end, so that it is a pass over whole words.
#[inline]
pub fn all_zero(bytes: &[u8]) -> bool {
    bytes.iter().fold(0, |all, byte| all | byte) == 0
}

/// "time over 2^40 + 604,799"
pub fn time_allowed(time: u64) -> bool {
    time <= LATEST
}

/// The last clock is a time like any other.
pub fn last_clock_allowed<R: Rules>(rules: &R, clock: u64) -> bool {
    rules.time_allowed(clock)
}
