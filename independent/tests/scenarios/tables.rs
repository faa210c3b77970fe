//! Refusal 7, clause by clause.

use crate::host::{Host, OWN};
use haskumye_independent::engine::Outcome;
use haskumye_independent::limits::LATEST;
use haskumye_independent::tables::{link, path, returned, HASHES, HASH_PLACE, LAST_CLOCK, LINKS, LOCALS, PATHS, PORTS};
use haskumye_independent::tables::{RETURNS, RETURN_PLACE, SIZE};

crate::on_both_programs!(
    fresh_tables(FreshPortsOn),
    the_size(AsLongTables),
    ports_and_rings_and_the_last_clock(LastRingPlaceRefused),
    every_byte_of_an_unused_record_is_zero(UnusedUnread),
    marks_are_yes_or_no(MarkTwoAllowed),
    fields_of_used_records(BlobCountZeroAllowed),
    times_of_used_records(TimeBoundLoose),
);

/// Fresh tables, whatever the bytes were before.
fn fresh(host: &mut Host) -> Vec<u8> {
    let mut tables = vec![0xee; SIZE];
    assert_eq!(host.program.fresh(&mut tables, &mut [0; 6], &OWN), Outcome::Done);
    tables
}

/// Do fresh tables with these bytes written pass?
fn passes(host: &mut Host, writes: &[(usize, &[u8])]) -> bool {
    let mut tables = fresh(host);
    for (at, bytes) in writes {
        tables[*at..*at + bytes.len()].copy_from_slice(bytes);
    }
    host.program.check(&tables)
}

fn fresh_tables(host: &mut Host) {
    let tables = fresh(host);
    assert!(host.program.check(&tables));
    assert_eq!(tables[..16], OWN);
    assert!(PORTS.iter(&tables).all(|settings| settings == [0, 0, 1, 0xf4]));
    assert!(tables[16..PORTS.start].iter().chain(&tables[LOCALS.start..]).all(|byte| *byte == 0));
    let mut small = vec![3; SIZE - 1];
    assert_eq!(host.program.fresh(&mut small, &mut [0; 6], &OWN), Outcome::Refused(7));
    assert!(small.iter().all(|byte| *byte == 3));
}

fn the_size(host: &mut Host) {
    for (size, allowed) in [(0, false), (SIZE - 1, false), (SIZE, true), (SIZE + 1, false)] {
        let mut tables = fresh(host);
        tables.resize(size, 0);
        assert_eq!(host.program.check(&tables), allowed);
    }
}

fn ports_and_rings_and_the_last_clock(host: &mut Host) {
    let port = PORTS.range(15).start;
    assert!(passes(host, &[(port, &[1, 2])]));
    assert!(!passes(host, &[(port, &[2, 0])]));
    assert!(!passes(host, &[(port, &[0, 3])]));
    for (at, count) in [(RETURN_PLACE, 512u16), (HASH_PLACE, 1_024)] {
        assert!(passes(host, &[(at, &(count - 1).to_be_bytes())]));
        assert!(!passes(host, &[(at, &count.to_be_bytes())]));
    }
    assert!(passes(host, &[(LAST_CLOCK, &LATEST.to_be_bytes())]));
    assert!(!passes(host, &[(LAST_CLOCK, &(LATEST + 1).to_be_bytes())]));
}

fn every_byte_of_an_unused_record_is_zero(host: &mut Host) {
    for section in [&LOCALS, &PATHS.records, &LINKS.records, &RETURNS.records, &HASHES.records] {
        for place in [0, section.count - 1] {
            for at in section.range(place).skip(1) {
                assert!(!passes(host, &[(at, &[1])]));
            }
        }
    }
}

fn marks_are_yes_or_no(host: &mut Host) {
    let blob_count = PATHS.records.range(0).start + path::BLOB_COUNT;
    for section in [&LOCALS, &PATHS.records, &LINKS.records, &RETURNS.records, &HASHES.records] {
        let at = section.range(0).start;
        let count: &[(usize, &[u8])] = if at == PATHS.records.start { &[(blob_count, &[1])] } else { &[] };
        assert!(passes(host, &[&[(at, &[1u8][..])], count].concat()));
        assert!(!passes(host, &[&[(at, &[2u8][..])], count].concat()));
    }
    let link = LINKS.records.range(5).start;
    assert!(passes(host, &[(link, &[1]), (link + link::PROVED, &[1])]));
    assert!(!passes(host, &[(link, &[1]), (link + link::PROVED, &[2])]));
}

fn fields_of_used_records(host: &mut Host) {
    let at = PATHS.records.range(63).start;
    for (port, count, allowed) in [(15, 64, true), (0, 1, true), (0, 17, true), (16, 1, false), (0, 0, false), (0, 65, false)] {
        let path: &[(usize, &[u8])] = &[(at, &[1]), (at + path::PORT, &[port, 255]), (at + path::BLOB_COUNT, &[count, 1])];
        assert_eq!(passes(host, path), allowed);
    }
    for (table, fields) in [(&LINKS, [link::ASKING, link::ANSWERING]), (&RETURNS, [returned::ARRIVAL, returned::LEAVING])] {
        let at = table.records.range(5).start;
        for field in fields {
            assert!(passes(host, &[(at, &[1]), (at + field, &[15])]));
            assert!(!passes(host, &[(at, &[1]), (at + field, &[16])]));
        }
    }
}

fn times_of_used_records(host: &mut Host) {
    for table in [&PATHS, &LINKS, &RETURNS, &HASHES] {
        let at = table.records.range(1).start;
        // a path holds a blob
        let blob_count = PATHS.records.range(1).start + path::BLOB_COUNT;
        let count: &[(usize, &[u8])] = if at < LINKS.records.start { &[(blob_count, &[1])] } else { &[] };
        for (time, allowed) in [(0, true), (LATEST, true), (LATEST + 1, false), (u64::MAX, false)] {
            let record: &[(usize, &[u8])] = &[(at, &[1]), (at + table.expiry, &time.to_be_bytes())];
            assert_eq!(passes(host, &[record, count].concat()), allowed);
        }
    }
}
