//! The editions of the file. A body is the tables' section as it was in the edition's day, and the tally: "Each body's layout is yours to
//! fix, later fields too; write it down."

use super::{BODIES, CONTENTS, TALLY};
use crate::limits::{BLOB_LIMIT, GREATEST_SIZE, OLDER_BLOB_LIMIT};
use crate::tables::{Section, BLOB, HASHES, HASH_PLACE, LINKS, LOCALS, PATHS, PORTS, RETURNS, RETURN_PLACE, SIZE};
use std::borrow::Cow;

/// A field that an edition adds to every record of a body: where it stands there, and what it is where it was not saved yet.
pub struct Added {
    pub body: usize,
    pub at: usize,
    pub unsaved: &'static [u8],
}

/// What each edition adds to the one before.
pub const EDITIONS: &[&[Added]] = &[
    // 1
    &[],
    // 2: "edition 1 and a fresh relay have settings and new fields at 0."
    &[Added { body: OWN, at: 24, unsaved: &[0; 12] }, Added { body: PATH, at: 43, unsaved: &[0; 17] }],
    // 3: "older ones load unmarked."
    &[Added { body: PATH, at: 60, unsaved: &[0] }],
    // 4: "Editions 1 to 3 of saved tables load with what they hold": sixteen blob places, the first of 64.
    &[Added { body: PATH, at: 222, unsaved: &[0; (BLOB_LIMIT - OLDER_BLOB_LIMIT) * BLOB] }],
    // 5: "older ones load with 500".
    &[Added { body: PORT, at: 2, unsaved: &(GREATEST_SIZE as u16).to_be_bytes() }],
];
/// The first edition with 64 blobs.
const MORE_BLOBS: u8 = 4;
/// The places of the bodies whose records grow.
const OWN: usize = 0;
const PORT: usize = 1;
pub const PATH: usize = 3;
/// The edition that is saved.
pub const CURRENT: u8 = EDITIONS.len() as u8;

/// A body of the current edition: the bytes before its records, how many it has, and their width.
struct Body {
    head: usize,
    count: usize,
    width: usize,
}

const fn section(section: &Section) -> Body {
    Body { head: 0, count: section.count, width: section.width }
}

/// With the ring's place before the records.
const fn ring(place: usize, ring: &Section) -> Body {
    Body { head: ring.start - place, count: ring.count, width: ring.width }
}

const ALL: [Body; BODIES] = [
    Body { head: 0, count: 1, width: PORTS.start },
    section(&PORTS),
    section(&LOCALS),
    section(&PATHS.records),
    section(&LINKS.records),
    ring(RETURN_PLACE, &RETURNS.records),
    ring(HASH_PLACE, &HASHES.records),
    Body { head: 0, count: 1, width: TALLY },
];

/// The bytes before a body's records, and how many it has.
pub fn records(body: usize) -> (usize, usize) {
    (ALL[body].head, ALL[body].count)
}

/// The fields of a body that later editions added, the earlier first.
fn added_later(edition: u8, body: usize) -> impl Iterator<Item = &'static Added> {
    EDITIONS[usize::from(edition)..].iter().copied().flatten().filter(move |added| added.body == body)
}

/// How wide a record of a body was.
fn width(edition: u8, body: usize) -> usize {
    ALL[body].width - added_later(edition, body).map(|added| added.unsaved.len()).sum::<usize>()
}

/// How long each body of an edition is.
pub fn lengths(edition: u8) -> [usize; BODIES] {
    std::array::from_fn(|body| ALL[body].head + ALL[body].count * width(edition, body))
}

/// Where a field stands in an edition's file: in which record of a body, and where in a record of today.
pub fn place(edition: u8, body: usize, record: usize, at: usize) -> usize {
    let before: usize = lengths(edition)[..body].iter().sum();
    let later: usize = added_later(edition, body).filter(|added| added.at < at).map(|added| added.unsaved.len()).sum();
    CONTENTS + before + ALL[body].head + record * width(edition, body) + at - later
}

/// How many blobs a path of an edition's file holds at most: "Refusal 7 reads 1..64, 1..16 in older files."
pub fn blob_limit(edition: u8) -> usize {
    if edition < MORE_BLOBS {
        OLDER_BLOB_LIMIT
    } else {
        BLOB_LIMIT
    }
}

/// Today's tables of the bodies that an edition saved.
pub fn tables_now(edition: u8, bodies: &[u8]) -> Cow<'_, [u8]> {
    if edition == CURRENT {
        return Cow::Borrowed(&bodies[..SIZE]);
    }
    let (mut tables, mut rest) = (Vec::with_capacity(SIZE), bodies);
    for (body, length) in lengths(edition)[..BODIES - 1].iter().enumerate() {
        let (bytes, behind) = rest.split_at(*length);
        let (head, records) = bytes.split_at(ALL[body].head);
        tables.extend(head);
        records.chunks_exact(width(edition, body)).for_each(|record| tables.extend(record_now(edition, body, record)));
        rest = behind;
    }
    Cow::Owned(tables)
}

/// A record with the fields that later editions added.
fn record_now(edition: u8, body: usize, record: &[u8]) -> Vec<u8> {
    let mut record = record.to_vec();
    for added in added_later(edition, body) {
        record.splice(added.at..added.at, added.unsaved.iter().copied());
    }
    record
}

#[cfg(test)]
mod tests {
    use super::*;
    use crate::tables::path;

    /// What docs/LAYOUT.md says of each edition.
    #[test]
    fn the_bodies_are_the_drawn_ones() {
        assert_eq!(CURRENT, 5);
        assert_eq!(lengths(1), [24, 32, 272, 13_056, 1_920, 13_826, 41_986, 24]);
        assert_eq!(lengths(2), [36, 32, 272, 14_144, 1_920, 13_826, 41_986, 24]);
        assert_eq!(lengths(3), [36, 32, 272, 14_208, 1_920, 13_826, 41_986, 24]);
        assert_eq!(lengths(4), [36, 32, 272, 44_928, 1_920, 13_826, 41_986, 24]);
        assert_eq!(lengths(5), [36, 64, 272, 44_928, 1_920, 13_826, 41_986, 24]);
        assert_eq!(super::super::LENGTH, 103_108);
    }

    /// The blob count of the second path, and the last hash's last byte.
    #[test]
    fn fields_stand_where_they_were() {
        assert_eq!([1, 2, 3, 4, 5].map(|edition| place(edition, PATH, 1, path::BLOB_COUNT)), [627, 673, 675, 1_155, 1_187]);
        assert_eq!([1, 2, 3, 4, 5].map(|edition| place(edition, 6, 1_023, 40)), [71_167, 72_267, 72_331, 103_051, 103_083]);
    }
}
