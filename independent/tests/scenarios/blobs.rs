//! More blobs: document 02's Wish 8.

use crate::host::{announce, destination, Host};
use haskumye_independent::answer::{Reason, Verdict};
use haskumye_independent::engine::Outcome;
use haskumye_independent::saved::LENGTH;
use haskumye_independent::tables::{path, BLOB, PATHS, SIZE};

crate::on_both_programs!(
    a_path_holds_64_blobs(SixteenStored),
    of_65_the_oldest_goes(SixteenMoved),
    each_of_64_is_a_replay(FirstSixteenSearched),
    the_oldest_of_64_is_a_replay(NewestSixteenSearched),
    the_greatest_emission_behind_the_sixteenth(GreatestOfFirstSixteen),
    the_greatest_emission_stored_first(GreatestOfNewestSixteen),
    a_blob_behind_the_sixteenth_is_not_stored_twice(HeldAmongFirstSixteen),
    a_new_path_has_zeros_behind_its_blob(NewPathBehindSixteenKept),
    counts_up_to_64(SixteenAllowed),
    no_count_of_65(CountOf65Allowed),
    a_saved_path_of_64_blobs(CurrentBlobsUpTo16),
    spare_places_are_saved(BehindSixteenNotSaved),
    older_files_hold_up_to_16(OlderBlobsUpTo64),
    of_edition_3_too(ThirdEditionBlobsUpTo64),
    more_are_not_left_out(OlderCountCut),
    older_blobs_come_first(OlderBlobsLast),
    older_spare_places(OlderSpareBlobsLost),
    zeros_behind_older_blobs(OlderRestStays),
);

const SPREAD: Verdict = Verdict::Spread(0b1110);
const REPLAY: Verdict = Verdict::Drop(Reason::Replay);
const NOT_BETTER: Verdict = Verdict::Drop(Reason::NotBetter);

/// Files of older editions, where their paths begin, how wide those are, and where the blob count stands in one.
const OLDER: [(&[u8], usize, usize, usize); 3] = [
    (include_bytes!("../../../tests/saved/edition-1.saved"), 380, 204, 43),
    (include_bytes!("../../../tests/saved/edition-2.saved"), 392, 221, 60),
    (include_bytes!("../../../tests/saved/edition-3.saved"), 392, 222, 61),
];

/// Station 1 announces itself once for each emission, from port 0 with three hops.
fn announced(host: &mut Host, emissions: impl IntoIterator<Item = u64>) {
    for emission in emissions {
        assert_eq!(host.verdict(&announce(1, 0x01, 3, emission, 200), 0, 10), SPREAD, "{emission}");
    }
}

/// The blob that `announce` writes for an emission below 256.
fn blob(emission: u64) -> [u8; BLOB] {
    let byte = emission as u8;
    [byte, byte, byte, byte, byte, 0, 0, 0, 0, byte]
}

/// The first path's blobs and its spare places.
fn stored(host: &Host) -> (&[u8], &[u8]) {
    let record = host.path(0);
    record[path::BLOBS..].split_at(usize::from(record[path::BLOB_COUNT]) * BLOB)
}

fn a_path_holds_64_blobs(host: &mut Host) {
    for count in 1..=64 {
        announced(host, [count]);
        let (held, spare) = stored(host);
        assert_eq!(held, (1..=count).map(blob).collect::<Vec<_>>().concat());
        assert!(spare.iter().all(|byte| *byte == 0));
    }
}

fn of_65_the_oldest_goes(host: &mut Host) {
    announced(host, 1..=66);
    let (held, spare) = stored(host);
    assert_eq!(held, (3..=66).map(blob).collect::<Vec<_>>().concat());
    assert!(spare.is_empty());
}

/// With fewer hops, so that nothing but its blob drops it.
fn each_of_64_is_a_replay(host: &mut Host) {
    announced(host, 1..=64);
    for emission in 1..=64 {
        assert_eq!(host.verdict(&announce(1, 0x01, 0, emission, 201), 0, 10), REPLAY, "{emission}");
    }
}

/// And no longer once another is stored.
fn the_oldest_of_64_is_a_replay(host: &mut Host) {
    announced(host, 1..=64);
    assert_eq!(host.verdict(&announce(1, 0x01, 0, 1, 201), 0, 10), REPLAY);
    announced(host, [65]);
    assert_eq!(host.verdict(&announce(1, 0x01, 2, 1, 202), 0, 10), SPREAD);
}

/// Fewer hops each time, so that older emissions are stored: the greatest is the seventeenth.
fn the_greatest_emission_behind_the_sixteenth(host: &mut Host) {
    for (emission, hops) in (1..=16).chain([100]).chain(17..=20).zip((10..=30).rev()) {
        assert_eq!(host.verdict(&announce(1, 0x01, hops, emission, 200), 0, 10), SPREAD, "{emission}");
    }
    assert_eq!(stored(host).0[16 * BLOB..17 * BLOB], blob(100));
    assert_eq!(host.verdict(&announce(1, 0x01, 10, 99, 200), 0, 10), NOT_BETTER);
    assert_eq!(host.verdict(&announce(1, 0x01, 10, 101, 200), 0, 10), SPREAD);
}

/// Before 63 others it counts; with one more it is gone.
fn the_greatest_emission_stored_first(host: &mut Host) {
    for (emission, hops) in [100].into_iter().chain(1..=63).zip((40..=103).rev()) {
        assert_eq!(host.verdict(&announce(1, 0x01, hops, emission, 200), 0, 10), SPREAD, "{emission}");
    }
    assert_eq!(host.path(0)[path::BLOB_COUNT], 64);
    assert_eq!(host.verdict(&announce(1, 0x01, 40, 99, 200), 0, 10), NOT_BETTER);
    assert_eq!(host.verdict(&announce(1, 0x01, 39, 64, 200), 0, 10), SPREAD);
    assert_eq!(host.verdict(&announce(1, 0x01, 39, 98, 200), 0, 10), SPREAD);
}

fn a_blob_behind_the_sixteenth_is_not_stored_twice(host: &mut Host) {
    announced(host, 1..=40);
    assert_eq!(host.program.mark_unresponsive(&mut host.tables, &destination(1), 10), Outcome::Done);
    let before = host.path(0)[path::BLOB_COUNT..].to_vec();
    assert_eq!(host.verdict(&announce(1, 0x01, 3, 40, 201), 0, 10), SPREAD);
    assert_eq!(host.path(0)[path::BLOB_COUNT..], before);
}

/// In the slot of an expired path that held 64.
fn a_new_path_has_zeros_behind_its_blob(host: &mut Host) {
    announced(host, 1..=64);
    assert_eq!(host.verdict(&announce(2, 0x01, 3, 7, 200), 0, 1_000_000), SPREAD);
    assert_eq!(stored(host), (&blob(7)[..], &[0; 630][..]));
}

/// Does refusal 7 let the first path hold so many blobs?
fn allowed(host: &mut Host, count: u8) -> bool {
    host.tables[PATHS.records.start + path::BLOB_COUNT] = count;
    host.program.check(&host.tables)
}

fn counts_up_to_64(host: &mut Host) {
    announced(host, [1]);
    assert!((1..=64).all(|count| allowed(host, count)));
}

fn no_count_of_65(host: &mut Host) {
    announced(host, [1]);
    assert!([0].into_iter().chain(65..=255).all(|count| !allowed(host, count)));
}

fn saved(host: &Host) -> Vec<u8> {
    let mut file = vec![0; LENGTH];
    assert_eq!(host.program.save(&host.tables, &host.tally, &mut file), (LENGTH as u64) << 16);
    file
}

/// Loads into the host's tables.
fn load(host: &mut Host, file: &[u8]) -> u8 {
    host.program.load(file, &mut host.tables, &mut host.tally)
}

fn a_saved_path_of_64_blobs(host: &mut Host) {
    announced(host, 1..=64);
    let (file, before) = (saved(host), host.tables.clone());
    host.tables.fill(0xee);
    assert_eq!(load(host, &file), 0);
    assert!(host.tables == before);
}

/// All 63 of a path that holds one blob.
fn spare_places_are_saved(host: &mut Host) {
    announced(host, [1]);
    let spare = PATHS.records.range(0).start + path::BLOBS + BLOB..PATHS.records.range(0).end;
    spare.clone().for_each(|at| host.tables[at] = at as u8);
    let (file, before) = (saved(host), host.tables.clone());
    assert!(file[52..52 + SIZE] == before);
    host.tables.fill(0xee);
    assert_eq!(load(host, &file), 0);
    assert!(host.tables == before);
}

/// An older file with another blob count in its first path, which is used.
fn counted(file: &[u8], at: usize, count: u8) -> Vec<u8> {
    let mut file = file.to_vec();
    file[at] = count;
    file
}

fn older_files_hold_up_to_16(host: &mut Host) {
    for (file, paths, _, count) in OLDER {
        assert_eq!(file[paths], 1);
        for held in 1..=16 {
            assert_eq!(load(host, &counted(file, paths + count, held)), 0, "{held}");
            assert_eq!(host.path(0)[path::BLOB_COUNT], held);
        }
        for held in [0, 17, 18, 32, 63, 64, 65, 255] {
            assert_eq!(load(host, &counted(file, paths + count, held)), 24, "{held}");
        }
    }
}

fn of_edition_3_too(host: &mut Host) {
    let (file, paths, _, count) = OLDER[2];
    assert_eq!(load(host, &counted(file, paths + count, 16)), 0);
    assert_eq!(load(host, &counted(file, paths + count, 17)), 24);
}

/// A refused load changes nothing.
fn more_are_not_left_out(host: &mut Host) {
    let before = host.tables.clone();
    for (file, paths, _, count) in OLDER {
        assert_eq!(load(host, &counted(file, paths + count, 64)), 24);
        assert!(host.tables == before);
    }
}

fn older_blobs_come_first(host: &mut Host) {
    for (file, paths, width, count) in OLDER {
        assert_eq!(load(host, file), 0);
        for (place, older) in file[paths..].chunks_exact(width).take(64).enumerate() {
            assert_eq!(host.path(place)[path::BLOB_COUNT..][..161], older[count..]);
        }
    }
}

/// What a place behind the held ones holds is loaded as it is.
fn older_spare_places(host: &mut Host) {
    for (file, paths, width, count) in OLDER {
        let (mut file, last) = (file.to_vec(), paths + width - 1);
        assert!(file[paths + count] < 16);
        file[last] = 77;
        assert_eq!(load(host, &file), 0);
        assert_eq!(host.path(0)[path::BLOBS + 159], 77);
    }
}

fn zeros_behind_older_blobs(host: &mut Host) {
    for (file, ..) in OLDER {
        host.tables.fill(0xee);
        assert_eq!(load(host, file), 0);
        assert!((0..64).all(|place| host.path(place)[path::BLOBS + 160..] == [0; 480]));
    }
}
