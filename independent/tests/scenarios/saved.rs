//! Saved tables: document 02's Wish 4.

use crate::host::{announce, lost, to_station, type_1, Host, OWN};
use haskumye_independent::answer::{NoWay, Tally};
use haskumye_independent::engine::Outcome;
use haskumye_independent::limits::LATEST;
use haskumye_independent::tables::{link, path, AnnounceRate, HASHES, HASH_PLACE, LAST_CLOCK, LINKS, LOCALS, PATHS, PORTS};
use haskumye_independent::tables::{RATE, RETURNS, RETURN_PLACE, SIZE};

crate::on_both_programs!(
    a_file_to_the_byte(TallyReversed),
    loading_gives_all_bytes_back(SpareBlobsNotSaved),
    expired_records_and_ring_places(ExpiredNotSaved),
    refusals_of_a_save_come_in_order(SavingRoomFirst),
    room_for_a_save(SavingRoomShort),
    refusals_of_a_load_come_in_order(SavedKindFirst),
    places_before_bodies(BodiesBeforePlaces),
    short_files(SavedPlacesFirst),
    cut_and_longer_files(SavedEndMisplaced),
    other_counts(OtherCountTooLong),
    kinds_and_editions(EditionZeroLoaded),
    newer_editions(NewerEditionLoaded),
    every_offset(LastOffsetUnread),
    bodies_of_wrong_length(BodyLengthMisplaced),
    every_clause_of_refusal_7(BodiesUnchecked),
    any_own_address_and_tally(TallyMustAddUp),
    tables_of_another_size(LargerRoomLoaded),
    what_the_tables_held_is_not_read(LoadingRoomRead),
    a_refused_load_changes_nothing(LoadedBeforeChecked),
    the_relay_goes_on_from_what_was_loaded(LaterClockKept),
    edition_1_has_no_announce_rate(OlderRateStays),
    paths_of_edition_1(OlderPathsAnnouncedNow),
    other_lengths_of_edition_1(OlderEditionRefused),
    a_kept_file_of_edition_2(OlderLoadsMarked),
    a_kept_file_of_edition_3(OlderBlobsLast),
);

/// Offset and length of the bodies, as docs/LAYOUT.md has them.
const BODIES: [(usize, usize); 8] = [
    (52, 36), // own address, last clock, announce rate
    (88, 64),
    (152, 272),
    (424, 44_928),
    (45_352, 1_920),
    (47_272, 13_826),
    (61_098, 41_986),
    (TALLY_AT, 24),
];
const EDITION: u8 = 5;
const PORTS_AT: usize = 88;
const TALLY_AT: usize = 103_084;
const LENGTH: usize = 103_108;
/// Where the 17th blob place of a path stands: older files end here.
const BEHIND_16: usize = path::BLOBS + 160;
const TALLY: Tally = [0x0102_0304, 1, 2, 3, 4, u32::MAX];

fn save(host: &Host, room: usize) -> (u64, Vec<u8>) {
    let mut room = vec![0xee; room];
    let number = host.program.save(&host.tables, &host.tally, &mut room);
    (number, room)
}

/// The file of the host's tables and tally.
fn saved(host: &Host) -> Vec<u8> {
    let (number, file) = save(host, LENGTH);
    assert_eq!(number, (LENGTH as u64) << 16);
    file
}

/// Loads into tables and a tally of other bytes, which stay where it is refused.
fn load(host: &Host, file: &[u8]) -> u8 {
    let (mut tables, mut tally) = (vec![0xee; SIZE], [0xeeee; 6]);
    let refusal = host.program.load(file, &mut tables, &mut tally);
    if refusal > 0 {
        assert!(tables.iter().all(|byte| *byte == 0xee));
        assert_eq!(tally, [0xeeee; 6]);
    }
    refusal
}

/// The same of a file with bytes written into it.
fn load_changed(host: &Host, file: &[u8], writes: &[(usize, &[u8])]) -> u8 {
    let mut file = file.to_vec();
    for (at, bytes) in writes {
        file[*at..*at + bytes.len()].copy_from_slice(bytes);
    }
    load(host, &file)
}

/// The contents of a file of this edition whose bodies have these lengths.
fn contents(lengths: &[usize]) -> Vec<u8> {
    let mut bytes = vec![2, EDITION, 0, lengths.len() as u8];
    let mut offset = 4 + 6 * lengths.len();
    for length in lengths {
        bytes.extend((offset as u32).to_be_bytes());
        bytes.extend((*length as u16).to_be_bytes());
        offset += length;
    }
    bytes
}

fn a_file_to_the_byte(host: &mut Host) {
    assert_eq!(host.program.saved_size(), LENGTH);
    host.verdict(&announce(1, 0x01, 2, 5, 200), 3, 10);
    host.tally = TALLY;
    let (number, room) = save(host, LENGTH + 3);
    assert_eq!(number, (LENGTH as u64) << 16);
    assert_eq!(room[..4], [2, EDITION, 0, 8]);
    for (entry, (offset, length)) in room[4..52].chunks_exact(6).zip(BODIES) {
        assert_eq!(entry, [&(offset as u32).to_be_bytes()[..], &(length as u16).to_be_bytes()].concat());
    }
    assert!(room[52..TALLY_AT] == host.tables);
    assert_eq!(room[TALLY_AT..LENGTH], [1, 2, 3, 4, 0, 0, 0, 1, 0, 0, 0, 2, 0, 0, 0, 3, 0, 0, 0, 4, 255, 255, 255, 255]);
    assert_eq!(room[LENGTH..], [0xee; 3]);
}

/// A path of one blob whose spare places hold others, which counts for nothing and is saved all the same.
fn loading_gives_all_bytes_back(host: &mut Host) {
    host.verdict(&announce(1, 0x01, 2, 5, 200), 3, 10);
    host.verdict(&to_station(1, 0x42, 0, &[7; 64]), 0, 11);
    host.add_local(&[9; 16]);
    let spare = PATHS.records.range(0).end - 1;
    host.tables[spare] = 77;
    host.tally = TALLY;
    let file = saved(host);
    let (mut tables, mut tally) = (vec![0xee; SIZE], [0; 6]);
    assert_eq!(host.program.load(&file, &mut tables, &mut tally), 0);
    assert!(tables == host.tables);
    assert_eq!(tally, TALLY);
    (host.tables, host.tally) = (tables, tally);
    assert!(saved(host) == file);
}

fn expired_records_and_ring_places(host: &mut Host) {
    host.verdict(&announce(1, 0x01, 2, 5, 200), 1, 10);
    host.verdict(&to_station(1, 0x40, 0, b"a"), 0, 11);
    host.verdict(&type_1(0, 0, [9; 16], 0, b"x"), 0, 700_000);
    let file = saved(host);
    assert_eq!(file[52 + PATHS.records.start], 1);
    assert_eq!(file[52 + RETURNS.records.start], 1);
    assert_eq!(file[52 + RETURN_PLACE..][..2], [0, 1]);
    assert_eq!(file[52 + HASH_PLACE..][..2], [0, 3]);
    assert!(file[52..TALLY_AT] == host.tables);
}

fn refusals_of_a_save_come_in_order(host: &mut Host) {
    host.tables[PORTS.start] = 2;
    for room in [0, LENGTH - 1, LENGTH] {
        assert_eq!(save(host, room), (7, vec![0xee; room]));
    }
    host.tables[PORTS.start] = 1;
    assert_eq!(save(host, LENGTH - 1).0, 25);
    let mut room = vec![0xee; LENGTH];
    assert_eq!(host.program.save(&host.tables[1..], &TALLY, &mut room), 7);
    assert!(room.iter().all(|byte| *byte == 0xee));
}

fn room_for_a_save(host: &mut Host) {
    for room in [0, 1, 52, LENGTH - 24, LENGTH - 1] {
        assert_eq!(save(host, room), (25, vec![0xee; room]));
    }
    for more in [0, 1, 1_000] {
        let (number, room) = save(host, LENGTH + more);
        assert_eq!(number, (LENGTH as u64) << 16);
        assert_eq!(room[LENGTH..], vec![0xee; more]);
    }
}

/// Each beside faults of all later ones.
fn refusals_of_a_load_come_in_order(host: &mut Host) {
    let mut file = saved(host);
    file[PORTS_AT] = 2;
    file[10] ^= 1;
    file[1] = EDITION + 1;
    file.push(0);
    let load = |file: &[u8]| host.program.load(file, &mut vec![0; SIZE - 1], &mut [0; 6]);
    assert_eq!(load(&file), 20);
    file.pop();
    assert_eq!(load(&file), 21);
    file[1] = EDITION;
    assert_eq!(load(&file), 22);
    file[10] ^= 1;
    assert_eq!(load(&file), 24);
    file[PORTS_AT] = 1;
    assert_eq!(load(&file), 25);
}

fn places_before_bodies(host: &mut Host) {
    let file = saved(host);
    assert_eq!(load_changed(host, &file, &[(PORTS_AT, &[2])]), 24);
    assert_eq!(load_changed(host, &file, &[(PORTS_AT, &[2]), (7, &[53])]), 22);
    let lengths = BODIES.map(|(_, length)| length);
    let other = [&contents(&lengths[..7])[..], &vec![255; SIZE]].concat();
    assert_eq!(load(host, &other), 22);
}

/// A file of four bytes has a count, and one that is shorter has none.
fn short_files(host: &mut Host) {
    for length in 0..4 {
        assert_eq!(load(host, &[2, 1, 0][..length.min(3)]), 20);
    }
    assert_eq!(load(host, &[2, 1, 0, 0]), 22);
    assert_eq!(load(host, &[2, 9, 0, 0]), 21);
    assert_eq!(load(host, &[1, 1, 0, 0]), 21);
    assert_eq!(load(host, &[2, 1, 0, 1]), 20);
    assert_eq!(load(host, &[2, 1, 0, 1, 0, 0, 0, 10, 0, 0]), 22);
    assert_eq!(load(host, &[2, 1, 0, 1, 0, 0, 0, 10, 0, 1]), 20);
    assert_eq!(load(host, &[1, 1, 0, 1, 0, 0, 0, 10, 0]), 20);
}

fn cut_and_longer_files(host: &mut Host) {
    let mut file = saved(host);
    for length in [0, 3, 51, 52, 60_000, LENGTH - 24, LENGTH - 1] {
        assert_eq!(load(host, &file[..length]), 20);
    }
    file.push(0);
    assert_eq!(load(host, &file), 20);
    file.resize(2 * LENGTH, 0);
    assert_eq!(load(host, &file), 20);
}

/// With the file's length as it was, and as that count adds up to.
fn other_counts(host: &mut Host) {
    let file = saved(host);
    for count in [0, 7, 9, 255] {
        assert_eq!(load_changed(host, &file, &[(3, &[count])]), 20);
    }
    assert_eq!(load_changed(host, &file, &[(2, &[1])]), 20);
    let mut lengths: Vec<usize> = BODIES.iter().map(|(_, length)| *length).collect();
    lengths.push(0);
    assert_eq!(load(host, &[&contents(&lengths)[..], &file[52..]].concat()), 22);
    assert_eq!(load(host, &[&contents(&lengths[..7])[..], &file[52..TALLY_AT]].concat()), 22);
}

fn kinds_and_editions(host: &mut Host) {
    let file = saved(host);
    assert_eq!(load(host, &file), 0);
    for kind in [0, 1, 3, 255] {
        assert_eq!(load_changed(host, &file, &[(0, &[kind])]), 21);
    }
    assert_eq!(load_changed(host, &file, &[(1, &[0])]), 21);
}

fn newer_editions(host: &mut Host) {
    let file = saved(host);
    for edition in [EDITION + 1, EDITION + 2, 128, 255] {
        assert_eq!(load_changed(host, &file, &[(1, &[edition])]), 21);
    }
}

/// Each a little off, and each two in each other's place.
fn every_offset(host: &mut Host) {
    let file = saved(host);
    let offset = |body: usize| &file[4 + 6 * body..][..4];
    for body in 0..8 {
        assert_eq!(load_changed(host, &file, &[(7 + 6 * body, &[file[7 + 6 * body] ^ 1])]), 22);
        assert_eq!(load_changed(host, &file, &[(4 + 6 * body, &[1])]), 22);
        for other in 0..body {
            assert_eq!(load_changed(host, &file, &[(4 + 6 * body, offset(other)), (4 + 6 * other, offset(body))]), 22);
        }
    }
}

/// One byte shorter or longer, with right offsets; and two of them, so that the file's length stays.
fn bodies_of_wrong_length(host: &mut Host) {
    let bodies = saved(host)[52..].to_vec();
    let right: Vec<usize> = BODIES.iter().map(|(_, length)| *length).collect();
    for body in 0..8 {
        let mut lengths = right.clone();
        lengths[body] -= 1;
        assert_eq!(load(host, &[&contents(&lengths)[..], &bodies[1..]].concat()), 24);
        lengths[(body + 1) % 8] += 1;
        assert_eq!(load(host, &[&contents(&lengths)[..], &bodies].concat()), 24);
        lengths[body] += 1;
        assert_eq!(load(host, &[&contents(&lengths)[..], &bodies, &[0]].concat()), 24);
    }
}

fn every_clause_of_refusal_7(host: &mut Host) {
    host.verdict(&announce(1, 0x01, 2, 5, 200), 3, 10);
    host.verdict(&to_station(1, 0x42, 0, &[7; 64]), 0, 11);
    host.verdict(&to_station(1, 0x40, 0, b"a"), 0, 11);
    let file = saved(host);
    let late = (LATEST + 1).to_be_bytes();
    let broken: [(usize, &[u8]); 18] = [
        (LAST_CLOCK, &late),
        (PORTS.start, &[2]),
        (PORTS.start + 1, &[3]),
        (PORTS.start + 2, &[0, 18]),
        (PORTS.range(15).start + 2, &[1, 0xf5]),
        (PATHS.records.start, &[2]),
        (PATHS.records.start + path::PORT, &[16]),
        (PATHS.records.start + path::BLOB_COUNT, &[0]),
        (PATHS.records.start + path::BLOB_COUNT, &[65]),
        (PATHS.records.start + path::EXPIRY, &late),
        (PATHS.records.start + path::UNRESPONSIVE, &[2]),
        (PATHS.records.range(1).end - 1, &[1]),
        (LINKS.records.start + link::ANSWERING, &[16]),
        (LINKS.records.start + link::PROVED, &[2]),
        (RETURN_PLACE, &[2, 0]),
        (RETURNS.records.start + RETURNS.expiry, &late),
        (HASH_PLACE, &[4, 0]),
        (HASHES.records.range(1_023).end - 1, &[1]),
    ];
    for (at, bytes) in broken {
        assert_eq!(load_changed(host, &file, &[(52 + at, bytes)]), 24, "{at}");
    }
    assert_eq!(load_changed(host, &file, &[(52 + LAST_CLOCK, &LATEST.to_be_bytes())]), 0);
}

fn any_own_address_and_tally(host: &mut Host) {
    let file = saved(host);
    assert_eq!(load_changed(host, &file, &[(52, &[0; 16]), (TALLY_AT, &[255; 24])]), 0);
    assert_eq!(load_changed(host, &file, &[(52, &[255; 16]), (TALLY_AT + 3, &[1])]), 0);
}

fn tables_of_another_size(host: &mut Host) {
    let file = saved(host);
    for size in [0, 1, SIZE - 1, SIZE + 1, LENGTH] {
        let mut tables = vec![0xee; size];
        assert_eq!(host.program.load(&file, &mut tables, &mut [0; 6]), 25);
        assert!(tables.iter().all(|byte| *byte == 0xee));
    }
}

fn what_the_tables_held_is_not_read(host: &mut Host) {
    let file = saved(host);
    for byte in [0, 1, 255] {
        let mut tables = vec![byte; SIZE];
        assert_eq!(host.program.load(&file, &mut tables, &mut [byte.into(); 6]), 0);
        assert!(tables == host.tables);
    }
}

/// The fault is in the last record, and all before it differs from what the tables held.
fn a_refused_load_changes_nothing(host: &mut Host) {
    let mut file = saved(host);
    file[52 + SIZE - 1] = 1;
    assert_eq!(load(host, &file), 24);
}

/// Its clock goes back to the file's; so do the ring, the ports and the tally, which counts on.
fn the_relay_goes_on_from_what_was_loaded(host: &mut Host) {
    let packet = type_1(0, 0, [9; 16], 0, b"x");
    host.verdict(&type_1(0, 0, [9; 16], 0, b"before"), 0, 10);
    let file = saved(host);
    assert_eq!(host.verdict(&packet, 0, 50), lost(NoWay::NotAsking));
    host.set_port(0, false, 0);
    assert_eq!(host.program.load(&file, &mut host.tables, &mut host.tally), 0);
    assert_eq!(host.tally, [1, 1, 0, 0, 0, 0]);
    assert_eq!(host.tables[..24], [&OWN[..], &10u64.to_be_bytes()].concat());
    assert_eq!(host.call(&packet, 0, 9, true), Outcome::Refused(5));
    assert_eq!(host.verdict(&packet, 0, 10), lost(NoWay::NotAsking));
    assert_eq!(host.tally, [2, 2, 0, 0, 0, 0]);
}

/// What the program of edition 1 saved.
const EDITION_1: &[u8] = include_bytes!("../../../tests/saved/edition-1.saved");

/// The tables of edition 1's file, loaded into tables that had an announce rate.
fn loaded_1(host: &mut Host) -> &[u8] {
    let rate = AnnounceRate { target: 60, grace: 3, penalty: 10 };
    assert_eq!(host.program.set_announce_rate(&mut host.tables, &rate), Outcome::Done);
    assert_eq!(host.program.load(EDITION_1, &mut host.tables, &mut host.tally), 0);
    &host.tables
}

/// On and mode are those of an older file, and each size is 500.
fn expect_ports(tables: &[u8], older: &[u8]) {
    for (settings, older) in PORTS.iter(tables).zip(older.chunks_exact(2)) {
        assert_eq!(settings, [older[0], older[1], 1, 0xf4]);
    }
}

/// All else is in the file, byte for byte.
fn edition_1_has_no_announce_rate(host: &mut Host) {
    let tables = loaded_1(host);
    assert_eq!(tables[..24], EDITION_1[52..76]);
    assert_eq!(tables[RATE.bytes()], [0; 12]);
    expect_ports(tables, &EDITION_1[76..108]);
    assert!(tables[LOCALS.start..PATHS.records.start] == EDITION_1[108..380]);
    assert!(tables[LINKS.records.start..] == EDITION_1[13_436..71_168]);
    let counters = EDITION_1[71_168..].chunks_exact(4).map(|bytes| u32::from_be_bytes(bytes.try_into().expect("four bytes")));
    assert_eq!(host.tally.to_vec(), counters.collect::<Vec<_>>());
    assert_eq!(saved(host)[1], EDITION);
}

fn paths_of_edition_1(host: &mut Host) {
    let tables = loaded_1(host);
    for (path, older) in PATHS.records.iter(tables).zip(EDITION_1[380..13_436].chunks_exact(204)) {
        assert_eq!(path[..path::LAST_ANNOUNCE], older[..43]);
        assert_eq!(path[path::LAST_ANNOUNCE..path::BLOB_COUNT], [0; 18]);
        assert_eq!(path[path::BLOB_COUNT..BEHIND_16], older[43..]);
        assert_eq!(path[BEHIND_16..], [0; 480]);
    }
}

/// Each edition has its own bodies' lengths.
fn other_lengths_of_edition_1(host: &mut Host) {
    let file = saved(host);
    assert_eq!(load(host, EDITION_1), 0);
    assert_eq!(load_changed(host, &file, &[(1, &[1])]), 24);
    assert_eq!(load_changed(host, EDITION_1, &[(1, &[EDITION])]), 24);
    assert_eq!(load_changed(host, EDITION_1, &[(76, &[2])]), 24);
}

/// What the program of edition 2 saved: its records lack the mark alone, and no path is marked.
fn a_kept_file_of_edition_2(host: &mut Host) {
    let file = include_bytes!("../../../tests/saved/edition-2.saved");
    assert_eq!(host.program.load(file, &mut host.tables, &mut host.tally), 0);
    let tables = &host.tables;
    assert!(tables[..PORTS.start] == file[52..88]);
    expect_ports(tables, &file[88..120]);
    assert!(tables[LOCALS.start..PATHS.records.start] == file[120..392]);
    assert!(tables[LINKS.records.start..] == file[14_536..72_268]);
    for (path, older) in PATHS.records.iter(tables).zip(file[392..14_536].chunks_exact(221)) {
        assert_eq!(path[..path::UNRESPONSIVE], older[..60]);
        assert_eq!(path[path::UNRESPONSIVE], 0);
        assert_eq!(path[path::BLOB_COUNT..BEHIND_16], older[60..]);
        assert_eq!(path[BEHIND_16..], [0; 480]);
    }
}

/// What the program of edition 3 saved: its records lack 48 blob places alone, and some paths are marked.
fn a_kept_file_of_edition_3(host: &mut Host) {
    let file = include_bytes!("../../../tests/saved/edition-3.saved");
    assert_eq!(host.program.load(file, &mut host.tables, &mut host.tally), 0);
    let tables = &host.tables;
    assert!(tables[..PORTS.start] == file[52..88]);
    expect_ports(tables, &file[88..120]);
    assert!(tables[LOCALS.start..PATHS.records.start] == file[120..392]);
    assert!(tables[LINKS.records.start..] == file[14_600..72_332]);
    for (path, older) in PATHS.records.iter(tables).zip(file[392..14_600].chunks_exact(222)) {
        assert_eq!(path[..BEHIND_16], *older);
        assert_eq!(path[BEHIND_16..], [0; 480]);
    }
    assert!(PATHS.records.iter(tables).any(|path| path[path::UNRESPONSIVE] == 1));
}
