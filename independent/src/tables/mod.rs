//! The tables in their bytes, as docs/LAYOUT.md draws them: one section behind the other, without a gap.

pub mod check;
mod record;
pub mod tuned;

pub use record::{blobs, AnnounceRate, Link, Mode, Path, Port, RateEntry, Return, BLOB};

use crate::limits::{BLOB_LIMIT, HASH_COUNT, LINK_COUNT, LOCAL_COUNT, PATH_COUNT, PORT_COUNT, RETURN_COUNT};
use crate::packet::Address;
use std::ops::Range;
use std::slice::{ChunksExact, ChunksExactMut};

/// A record begins with its mark, and then its key; times have eight bytes, ring places two.
const KEY: usize = 1;
const ADDRESS: usize = 16;
const TIME: usize = 8;
const PLACE: usize = 2;
/// A setting of the announce rate has four bytes.
const SETTING: usize = 4;

/// The announce rate's settings, which are no record.
pub mod rate {
    use super::SETTING;
    pub const TARGET: usize = 0;
    pub const GRACE: usize = TARGET + SETTING;
    pub const PENALTY: usize = GRACE + SETTING;
    pub const WIDTH: usize = PENALTY + SETTING;
}

/// The settings of a port, which are no record. A size has two bytes.
pub mod port {
    pub const ON: usize = 0;
    pub const MODE: usize = ON + 1;
    pub const SIZE: usize = MODE + 1;
    pub const WIDTH: usize = SIZE + 2;
}

/// The fields of a path record.
pub mod path {
    use super::*;
    pub const PORT: usize = KEY + ADDRESS;
    pub const HOPS: usize = PORT + 1;
    pub const NEXT_HOP: usize = HOPS + 1;
    pub const EXPIRY: usize = NEXT_HOP + ADDRESS;
    pub const LAST_ANNOUNCE: usize = EXPIRY + TIME;
    pub const VIOLATIONS: usize = LAST_ANNOUNCE + TIME;
    pub const BLOCKED_UNTIL: usize = VIOLATIONS + 1;
    pub const UNRESPONSIVE: usize = BLOCKED_UNTIL + TIME;
    pub const BLOB_COUNT: usize = UNRESPONSIVE + 1;
    pub const BLOBS: usize = BLOB_COUNT + 1;
    pub const WIDTH: usize = BLOBS + BLOB_LIMIT * BLOB;
}

/// The fields of a link record.
pub mod link {
    use super::*;
    pub const ASKING: usize = KEY + ADDRESS;
    pub const ANSWERING: usize = ASKING + 1;
    pub const TAKEN: usize = ANSWERING + 1;
    pub const REMAINING: usize = TAKEN + 1;
    pub const PROVED: usize = REMAINING + 1;
    pub const EXPIRY: usize = PROVED + 1;
    pub const WIDTH: usize = EXPIRY + TIME;
}

/// The fields of a return record.
pub mod returned {
    use super::*;
    pub const ARRIVAL: usize = KEY + ADDRESS;
    pub const LEAVING: usize = ARRIVAL + 1;
    pub const EXPIRY: usize = LEAVING + 1;
    pub const WIDTH: usize = EXPIRY + TIME;
}

/// The fields of a remembered hash.
pub mod remembered {
    use super::*;
    pub const HASH: usize = 32;
    pub const EXPIRY: usize = KEY + HASH;
    pub const WIDTH: usize = EXPIRY + TIME;
}

/// Records of one width, one after another.
pub struct Section {
    pub start: usize,
    pub width: usize,
    pub count: usize,
}

/// A section of records that have a key and an expiry.
pub struct Table {
    pub records: Section,
    /// Where the expiry stands in a record, and where ports do.
    pub expiry: usize,
    pub ports: &'static [usize],
    /// `lowest_live` of its numbers.
    search: fn(&[u8], &[u8], u64) -> Option<usize>,
}

const fn table<const WIDTH: usize, const KEY: usize, const EXPIRY: usize>(start: usize, count: usize, ports: &'static [usize]) -> Table {
    Table { records: Section { start, width: WIDTH, count }, expiry: EXPIRY, ports, search: lowest_live::<WIDTH, KEY, EXPIRY> }
}

pub const OWN: Range<usize> = 0..ADDRESS;
pub const LAST_CLOCK: usize = OWN.end;
pub const RATE: Section = Section { start: LAST_CLOCK + TIME, width: rate::WIDTH, count: 1 };
pub const PORTS: Section = Section { start: RATE.end(), width: port::WIDTH, count: PORT_COUNT };
pub const LOCALS: Section = Section { start: PORTS.end(), width: KEY + ADDRESS, count: LOCAL_COUNT };
pub const PATHS: Table = table::<{ path::WIDTH }, ADDRESS, { path::EXPIRY }>(LOCALS.end(), PATH_COUNT, &[path::PORT]);
pub const LINKS: Table =
    table::<{ link::WIDTH }, ADDRESS, { link::EXPIRY }>(PATHS.records.end(), LINK_COUNT, &[link::ASKING, link::ANSWERING]);
/// Where the ring places stand: the index of the record that is written next.
pub const RETURN_PLACE: usize = LINKS.records.end();
pub const RETURNS: Table = table::<{ returned::WIDTH }, ADDRESS, { returned::EXPIRY }>(
    RETURN_PLACE + PLACE,
    RETURN_COUNT,
    &[returned::ARRIVAL, returned::LEAVING],
);
pub const HASH_PLACE: usize = RETURNS.records.end();
pub const HASHES: Table = table::<{ remembered::WIDTH }, { remembered::HASH }, { remembered::EXPIRY }>(HASH_PLACE + PLACE, HASH_COUNT, &[]);
pub const SIZE: usize = HASHES.records.end();

impl Section {
    const fn end(&self) -> usize {
        self.start + self.count * self.width
    }

    pub fn range(&self, place: usize) -> Range<usize> {
        let start = self.start + place * self.width;
        start..start + self.width
    }

    pub fn bytes(&self) -> Range<usize> {
        self.start..self.end()
    }

    pub fn get<'a>(&self, tables: &'a [u8], place: usize) -> &'a [u8] {
        &tables[self.range(place)]
    }

    pub fn get_mut<'a>(&self, tables: &'a mut [u8], place: usize) -> &'a mut [u8] {
        &mut tables[self.range(place)]
    }

    pub fn iter<'a>(&self, tables: &'a [u8]) -> ChunksExact<'a, u8> {
        tables[self.bytes()].chunks_exact(self.width)
    }

    pub fn iter_mut<'a>(&self, tables: &'a mut [u8]) -> ChunksExactMut<'a, u8> {
        tables[self.bytes()].chunks_exact_mut(self.width)
    }

    /// The lowest place that is empty.
    pub fn empty(&self, tables: &[u8]) -> Option<usize> {
        self.iter(tables).position(|record| !is_used(record))
    }
}

impl Table {
    /// "A record is live while clock < its expiry; one that isn't live counts as no record."
    #[inline]
    pub fn is_live(&self, record: &[u8], clock: u64) -> bool {
        is_live(record, self.expiry, clock)
    }

    /// The lowest place that is empty or expired.
    pub fn free(&self, tables: &[u8], clock: u64) -> Option<usize> {
        self.records.iter(tables).position(|record| !self.is_live(record, clock))
    }
}

/// The place of the live record of a key: "If lent tables hold two live records of one key, the lower place counts."
#[inline]
pub fn find(table: &Table, tables: &[u8], key: &[u8], clock: u64) -> Option<usize> {
    (table.search)(&tables[table.records.bytes()], key, clock)
}

/// The lowest live record of a key. The compiler knows the widths, so that it compares keys by words; it stays out of its callers, so that
/// the loop is the same for each.
#[inline(never)]
fn lowest_live<const WIDTH: usize, const KEY: usize, const EXPIRY: usize>(records: &[u8], key: &[u8], clock: u64) -> Option<usize> {
    let key: [u8; KEY] = key.try_into().expect("a key of the table");
    let records: &[[u8; WIDTH]] = records.as_chunks().0;
    records.iter().position(|record| has_key(record, &key) && is_live(record, EXPIRY, clock))
}

#[inline]
pub fn is_used(record: &[u8]) -> bool {
    record[0] != 0
}

/// Is a record in use, and of this key?
#[inline]
pub fn has_key(record: &[u8], key: &[u8]) -> bool {
    is_used(record) && record[KEY..KEY + key.len()] == *key
}

#[inline]
fn is_live(record: &[u8], expiry: usize, clock: u64) -> bool {
    is_used(record) && clock < time(record, expiry)
}

#[inline]
pub fn time(bytes: &[u8], at: usize) -> u64 {
    u64::from_be_bytes(bytes[at..at + TIME].try_into().expect("eight bytes"))
}

/// A setting of the announce rate.
pub fn setting(bytes: &[u8], at: usize) -> u64 {
    u32::from_be_bytes(bytes[at..at + SETTING].try_into().expect("four bytes")).into()
}

pub fn set_setting(bytes: &mut [u8], at: usize, number: u64) {
    bytes[at..at + SETTING].copy_from_slice(&(number as u32).to_be_bytes());
}

pub fn set_time(bytes: &mut [u8], at: usize, time: u64) {
    bytes[at..at + TIME].copy_from_slice(&time.to_be_bytes());
}

/// Makes a record used, under this key.
pub fn set_key(record: &mut [u8], key: &[u8]) {
    record[0] = 1;
    record[KEY..KEY + key.len()].copy_from_slice(key);
}

pub fn ring_place(tables: &[u8], at: usize) -> usize {
    usize::from(u16::from_be_bytes([tables[at], tables[at + 1]]))
}

pub fn set_ring_place(tables: &mut [u8], at: usize, place: usize) {
    tables[at..at + PLACE].copy_from_slice(&(place as u16).to_be_bytes());
}

/// Gives the ring's next place and moves the ring on by one.
pub fn take_ring_place(tables: &mut [u8], at: usize, ring: &Table) -> usize {
    let place = ring_place(tables, at);
    set_ring_place(tables, at, (place + 1) % ring.records.count);
    place
}

pub fn own(tables: &[u8]) -> Address {
    tables[OWN].try_into().expect("sixteen bytes")
}

pub fn last_clock(tables: &[u8]) -> u64 {
    time(tables, LAST_CLOCK)
}

pub fn set_last_clock(tables: &mut [u8], clock: u64) {
    set_time(tables, LAST_CLOCK, clock);
}

pub fn port_on(tables: &[u8], port: u8) -> bool {
    PORTS.get(tables, usize::from(port))[port::ON] == 1
}

/// How long a packet a port carries.
#[inline]
pub fn port_size(tables: &[u8], port: u8) -> usize {
    size(PORTS.get(tables, usize::from(port)))
}

/// The size among a port's settings.
#[inline]
pub fn size(settings: &[u8]) -> usize {
    usize::from(u16::from_be_bytes([settings[port::SIZE], settings[port::SIZE + 1]]))
}

/// The place of a local address, of two equal ones the lower.
pub fn find_local(tables: &[u8], address: &Address) -> Option<usize> {
    LOCALS.iter(tables).position(|record| has_key(record, address))
}

#[cfg(test)]
mod tests {
    use super::*;

    /// Where docs/LAYOUT.md says that each section begins.
    #[test]
    fn the_layout_is_the_drawn_one() {
        assert_eq!([RATE.start, PORTS.start, LOCALS.start, PATHS.records.start, LINKS.records.start], [24, 36, 100, 372, 45_300]);
        assert_eq!([RETURN_PLACE, RETURNS.records.start, HASH_PLACE, HASHES.records.start], [47_220, 47_222, 61_046, 61_048]);
        assert_eq!(
            [PATHS, LINKS, RETURNS, HASHES].map(|table| (table.records.width, table.expiry)),
            [(702, 35), (30, 22), (27, 19), (41, 33)]
        );
        assert_eq!([path::LAST_ANNOUNCE, path::VIOLATIONS, path::BLOCKED_UNTIL], [43, 51, 52]);
        assert_eq!([path::UNRESPONSIVE, path::BLOB_COUNT, path::BLOBS], [60, 61, 62]);
        assert_eq!([port::ON, port::MODE, port::SIZE, port::WIDTH], [0, 1, 2, 4]);
        assert_eq!(SIZE, 103_032);
    }
}
