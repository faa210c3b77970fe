//! Wish 4: the file of saved tables, saving and loading.

use super::{faults, Changes, Fault};
use crate::files::contents_of;
use crate::limits::{BLOB_LIMIT, CLOCK_LIMIT, OLDER_BLOB_LIMIT};
use crate::recording::{count, number, LONGEST_FILE};
use crate::rules::*;
use crate::saved::editions::CURRENT;
use crate::saved::{contents, BODIES, CONTENTS, LENGTH, TALLY};
use crate::tables::{blobs, is_used, last_clock, path, set_last_clock, set_ring_place, BLOB, OWN, SIZE};
use crate::tables::{port, HASHES, HASH_PLACE, LINKS, PATHS, PORTS, RATE, RETURNS, RETURN_PLACE};

/// Saves other tables than those that are given.
fn put_others(tables: &[u8], tally: &Tally, room: &mut [u8], other: impl Fn(&mut [u8])) {
    let mut tables = tables.to_vec();
    other(&mut tables);
    saving::put_saved(&tables, tally, room);
}

/// Loads, and puts back some of what the tables held.
fn put_but(file: &[u8], tables: &mut [u8], tally: &mut Tally, back: impl Fn(&[u8], &mut [u8])) {
    let before = tables.to_vec();
    loading::put_loaded(file, tables, tally);
    back(&before, tables);
}

/// Loads, and changes each path of an older file, with what the tables held in its place.
fn older_paths(file: &[u8], tables: &mut [u8], tally: &mut Tally, change: impl Fn(&[u8], &mut [u8])) {
    put_but(file, tables, tally, |before, tables| {
        if file[1] < 4 {
            PATHS.records.iter(before).zip(PATHS.records.iter_mut(tables)).for_each(|(before, path)| change(before, path));
        }
    });
}

/// An older file whose paths hold 16 blobs at most.
fn with_counts_cut(file: &[u8]) -> Vec<u8> {
    let mut file = file.to_vec();
    let edition = file.get(1).copied().unwrap_or(CURRENT);
    for record in (0..PATHS.records.count).filter(|_| (1..4).contains(&edition)) {
        let count = file.get_mut(editions::place(edition, editions::PATH, record, path::BLOB_COUNT));
        count.into_iter().filter(|count| usize::from(**count) <= BLOB_LIMIT).for_each(|count| *count = (*count).min(16));
    }
    file
}

fn clear_spare_blobs(tables: &mut [u8]) {
    for record in PATHS.records.iter_mut(tables) {
        let held = blobs(record).count();
        record[path::BLOBS + held * BLOB..].fill(0);
    }
}

fn clear_expired(tables: &mut [u8]) {
    let clock = last_clock(tables);
    for table in [&PATHS, &LINKS, &RETURNS, &HASHES] {
        table.records.iter_mut(tables).filter(|record| !table.is_live(record, clock)).for_each(|record| record.fill(0));
    }
}

/// A file with more entries than eight, without the others and their bodies.
fn first_eight(file: &[u8]) -> Vec<u8> {
    let start = contents(count(file));
    if start <= CONTENTS || loading::saved_length_refused(file) {
        return file.to_vec();
    }
    let lengths: Vec<usize> = loading::entries(file).take(BODIES).map(|(_, length)| length).collect();
    [contents_of(file[1], &lengths), file[start..][..lengths.iter().sum()].to_vec()].concat()
}

fn adds_up(tally: &[u8]) -> bool {
    let counters: Vec<u64> = tally.chunks_exact(4).map(number).collect();
    counters[0] == counters[1..].iter().sum()
}

faults! {
    SavedKindFirst: "a load tests 21 before 20"
    breaks "Refusals: 20 as said, 21 and 22 as in Wish 1" {
        loading_refusal = |rules, file, tables| {
            Refusal::FileKind.when(rules.saved_kind_refused(file))?;
            loading::loading_refusal(rules, file, tables)
        },
    }
    SavedPlacesFirst: "a load tests 22 before 21"
    breaks "Refusals: 20 as said, 21 and 22 as in Wish 1" {
        loading_refusal = |rules, file, tables| {
            Refusal::FileLength.when(rules.saved_length_refused(file))?;
            Refusal::FilePlaces.when(rules.saved_places_refused(file))?;
            loading::loading_refusal(rules, file, tables)
        },
    }
    BodiesBeforePlaces: "a load tests 24 before 22"
    breaks "21 and 22 as in Wish 1, 24 body breaks refusal 7's rules, size too" {
        loading_refusal = |rules, file, tables| match loading::loading_refusal(rules, file, tables) {
            Err(Refusal::FilePlaces) if rules.bodies_refused(file) => Err(Refusal::FileBody),
            refusal => refusal,
        },
    }
    LoadingRoomFirst: "a load tests 25 before 24"
    breaks "24 body breaks refusal 7's rules, size too, 25 room too small, or for a load not the tables' size" {
        loading_refusal = |rules, file, tables| match loading::loading_refusal(rules, file, tables) {
            Err(Refusal::FileBody) if rules.loading_room_refused(tables) => Err(Refusal::Room),
            refusal => refusal,
        },
    }
    EditionZeroLoaded: "edition 0 is loaded, as the first"
    breaks "21 kind or edition" {
        saved_kind_refused = |_, file| loading::saved_kind_refused(file) && !matches!(file, [2, 0, ..]),
    }
    NewerEditionLoaded: "a newer edition is loaded as the current one"
    breaks "21 kind or edition" {
        load = |rules, file, tables, tally| {
            let mut file = file.to_vec();
            file.iter_mut().skip(1).take(1).for_each(|edition| *edition = CURRENT.min(*edition));
            loading::load(rules, &file, tables, tally)
        },
    }
    OlderEditionRefused: "an older edition is refused by 21"
    breaks "edition 1 and a fresh relay have settings and new fields at 0." {
        saved_kind_refused = |_, file| loading::saved_kind_refused(file) || file[1] < CURRENT,
    }
    OlderRateStays: "a file of edition 1 leaves the announce rate as it was"
    breaks "edition 1 and a fresh relay have settings and new fields at 0." {
        put_loaded = |_, file, tables, tally| put_but(file, tables, tally, |before, tables| {
            if file[1] == 1 {
                tables[RATE.bytes()].copy_from_slice(&before[RATE.bytes()]);
            }
        }),
    }
    OlderPathsAnnouncedNow: "the paths of a file of edition 1 were last announced at its last clock"
    breaks "edition 1 and a fresh relay have settings and new fields at 0." {
        put_loaded = |_, file, tables, tally| put_but(file, tables, tally, |_, tables| {
            let last = last_clock(tables);
            for path in PATHS.records.iter_mut(tables).filter(|path| file[1] == 1 && is_used(path)) {
                RateEntry { last, ..RateEntry::read(path) }.write(path);
            }
        }),
    }
    OlderLoadsMarked: "the paths of an older file are marked"
    breaks "saved tables take edition 3, older ones load unmarked." {
        put_loaded = |_, file, tables, tally| put_but(file, tables, tally, |_, tables| {
            for path in PATHS.records.iter_mut(tables).filter(|path| file[1] < 3 && is_used(path)) {
                marks::set_mark(path);
            }
        }),
    }
    OlderBlobsUpTo64: "a path of an older file may hold 64 blobs"
    breaks "1..16 in older files." {
        blob_limit = |_, _| BLOB_LIMIT,
    }
    ThirdEditionBlobsUpTo64: "a path of a file of edition 3 may hold 64 blobs"
    breaks "Editions 1 to 3 of saved tables load with what they hold" {
        blob_limit = |_, edition| editions::blob_limit(edition + 1),
    }
    CurrentBlobsUpTo16: "a path of any file holds 16 blobs at most"
    breaks "Refusal 7 reads 1..64, 1..16 in older files." {
        blob_limit = |_, _| OLDER_BLOB_LIMIT,
    }
    OlderCountCut: "more blobs than 16 of an older file's path are left out"
    breaks "1..16 in older files." {
        load = |rules, file, tables, tally| loading::load(rules, &with_counts_cut(file), tables, tally),
    }
    OlderBlobsLast: "the blobs of an older file come to the last places"
    breaks "Editions 1 to 3 of saved tables load with what they hold" {
        put_loaded = |_, file, tables, tally| older_paths(file, tables, tally, |_, path| {
            path[path::BLOBS..].rotate_right(OLDER_BLOB_LIMIT * BLOB);
        }),
    }
    OlderSpareBlobsLost: "spare blob places of an older file load as zeros"
    breaks "Editions 1 to 3 of saved tables load with what they hold" {
        put_loaded = |_, file, tables, tally| older_paths(file, tables, tally, |_, path| {
            let held = blobs(path).count();
            path[path::BLOBS + held * BLOB..].fill(0);
        }),
    }
    OlderRestStays: "behind the sixteen blob places of an older file the tables keep what they held"
    breaks "Editions 1 to 3 of saved tables load with what they hold" {
        put_loaded = |_, file, tables, tally| older_paths(file, tables, tally, |before, path| {
            let behind = path::BLOBS + OLDER_BLOB_LIMIT * BLOB;
            path[behind..].copy_from_slice(&before[behind..]);
        }),
    }
    BehindSixteenNotSaved: "spare blob places behind the sixteenth are saved as zeros"
    breaks "Saving and loading give equal tables byte for byte" {
        put_saved = |_, tables, tally, room| put_others(tables, tally, room, |tables| {
            for record in PATHS.records.iter_mut(tables) {
                let held = blobs(record).count().max(OLDER_BLOB_LIMIT);
                record[path::BLOBS + held * BLOB..].fill(0);
            }
        }),
    }
    OlderSizesShortest: "the ports of an older file load with size 19"
    breaks "older ones load with 500" {
        put_loaded = |_, file, tables, tally| put_but(file, tables, tally, |_, tables| {
            if file[1] < 5 {
                PORTS.iter_mut(tables).for_each(|settings| Port { size: 19, ..Port::read(settings) }.write(settings));
            }
        }),
    }
    OlderSizesStay: "an older file leaves the ports' sizes as they were"
    breaks "older ones load with 500" {
        put_loaded = |_, file, tables, tally| put_but(file, tables, tally, |before, tables| {
            for (settings, was) in PORTS.iter_mut(tables).zip(PORTS.iter(before)).filter(|_| file[1] < 5) {
                settings[port::SIZE..].copy_from_slice(&was[port::SIZE..]);
            }
        }),
    }
    OlderOffPortsZero: "the ports of an older file that are off load with size 0"
    breaks "older ones load with 500" {
        put_loaded = |_, file, tables, tally| put_but(file, tables, tally, |_, tables| {
            for settings in PORTS.iter_mut(tables).filter(|settings| file[1] < 5 && settings[port::ON] == 0) {
                settings[port::SIZE..].fill(0);
            }
        }),
    }
    SavedAsFourth: "a save is still of edition 4"
    breaks "Saved tables take edition 5" {
        put_saved = |_, tables, tally, room| {
            saving::put_saved(tables, tally, room);
            room[1] = 4;
        },
    }
    RecordingLoaded: "a file of kind 1 is loaded"
    breaks "Save and load in the recordings' shape with kind byte 2" {
        saved_kind_refused = |_, file| file.first() != Some(&1) && loading::saved_kind_refused(file) || file[1] == 0 || file[1] > CURRENT,
    }
    SavedFileLimited: "a saved file over 60,000 bytes is too long"
    breaks "No 60,000 limit here" {
        saved_length_refused = |_, file| loading::saved_length_refused(file) || file.len() > LONGEST_FILE,
    }
    SavedEndMisplaced: "a file that is longer or shorter than its bodies is refused by 22, as a recording is"
    breaks "20 is any length but what the contents, by the file's own count, add up to." {
        saved_length_refused = |_, file| loading::saved_length_refused(file) && file.len() < contents(count(file)).max(4),
        saved_places_refused = |rules, file| loading::saved_length_refused(file) || loading::saved_places_refused(rules, file),
    }
    OtherCountTooLong: "another count than 8 is refused by 20"
    breaks "eight entries (another count is 22)" {
        saved_length_refused = |_, file| loading::saved_length_refused(file) || count(file) != BODIES,
    }
    MoreEntriesLoaded: "entries behind the eighth are skipped"
    breaks "eight entries (another count is 22)" {
        load = |rules, file, tables, tally| loading::load(rules, &first_eight(file), tables, tally),
    }
    BodyLengthMisplaced: "a body of wrong length is refused by 22"
    breaks "24 body breaks refusal 7's rules, size too" {
        offsets_run = |rules, file| loading::offsets_run(file) && (count(file) != BODIES || rules.body_lengths_allowed(file)),
    }
    LastOffsetUnread: "the last body's offset isn't looked at"
    breaks "22 offset, length or file end that breaks the rule" {
        offsets_run = |_, file| {
            let place = |body: usize| CONTENTS + loading::entries(file).take(body).map(|(_, length)| length).sum::<usize>();
            loading::entries(file).take(BODIES - 1).enumerate().all(|(body, (offset, _))| offset == place(body))
        },
    }
    BodiesUnchecked: "bodies of the right lengths are loaded, whatever they hold"
    breaks "24 body breaks refusal 7's rules, size too" {
        bodies_refused = |rules, file| !rules.body_lengths_allowed(file),
    }
    TallyMustAddUp: "a tally whose answers don't add up to its total is refused by 24"
    breaks "24 body breaks refusal 7's rules, size too" {
        bodies_refused = |rules, file| loading::bodies_refused(rules, file) || !adds_up(&file[file.len() - TALLY..]),
    }
    LoadedClockLimited: "a last clock of 2^40 or more is refused by 24"
    breaks "24 body breaks refusal 7's rules, size too" {
        bodies_refused = |rules, file| {
            loading::bodies_refused(rules, file) || last_clock(&file[CONTENTS..]) >= CLOCK_LIMIT
        },
    }
    LoadingRoomRead: "a load refuses by 25 where the tables that it is lent break refusal 7"
    breaks "for a load not the tables' size, what it held unread" {
        loading_room_refused = |rules, tables| !rules.tables_allowed(tables),
    }
    LargerRoomLoaded: "a load takes more room than the tables have"
    breaks "for a load not the tables' size, what it held unread" {
        loading_room_refused = |_, tables| tables.len() < SIZE,
        put_loaded = |_, file, tables, tally| loading::put_loaded(file, &mut tables[..SIZE], tally),
    }
    LoadedBeforeChecked: "a load writes the tables before it has checked the last body"
    breaks "Tables and room stay." {
        load = |rules, file, tables, tally| {
            let refused = loading::load(rules, file, tables, tally);
            let first = CONTENTS..CONTENTS + 24;
            if refused == Err(Refusal::FileBody) && file.len() >= first.end && tables.len() == SIZE {
                tables[..24].copy_from_slice(&file[first]);
            }
            refused
        },
    }
    OwnAddressKept: "a load leaves the own address"
    breaks "own address and last clock, ports, local addresses, paths, links, returns, hashes, tally, in that order" {
        put_loaded = |_, file, tables, tally| put_but(file, tables, tally, |before, tables| tables[OWN].copy_from_slice(&before[OWN])),
    }
    LaterClockKept: "a load leaves a last clock that is later"
    breaks "After a load, demands 2 and 3 start again from the saved tables, last clock included" {
        put_loaded = |_, file, tables, tally| {
            put_but(file, tables, tally, |before, tables| set_last_clock(tables, last_clock(before).max(last_clock(tables))));
        },
    }
    LoadedTallyZero: "a load sets the tally to zeros"
    breaks "and the saved tally, which counts on" {
        put_loaded = |_, file, tables, tally| {
            loading::put_loaded(file, tables, tally);
            *tally = [0; 6];
        },
    }
    TallyReversed: "the tally's numbers are little-endian"
    breaks "all big-endian." {
        put_saved = |_, tables, tally, room| saving::put_saved(tables, &tally.map(u32::swap_bytes), room),
        put_loaded = |_, file, tables, tally| {
            loading::put_loaded(file, tables, tally);
            *tally = tally.map(u32::swap_bytes);
        },
    }
    SpareBlobsNotSaved: "spare blob places are saved as zeros"
    breaks "Saving and loading give equal tables byte for byte" {
        put_saved = |_, tables, tally, room| put_others(tables, tally, room, clear_spare_blobs),
    }
    ExpiredNotSaved: "expired records are saved as empty ones"
    breaks "Saving and loading give equal tables byte for byte" {
        put_saved = |_, tables, tally, room| put_others(tables, tally, room, clear_expired),
    }
    RingPlacesNotSaved: "the rings' places are saved as 0"
    breaks "Saving and loading give equal tables byte for byte" {
        put_saved = |_, tables, tally, room| {
            put_others(tables, tally, room, |tables| [RETURN_PLACE, HASH_PLACE].iter().for_each(|at| set_ring_place(tables, *at, 0)));
        },
    }
    UsedPathsFirst: "used paths are saved before the empty places"
    breaks "Saving and loading give equal tables byte for byte" {
        put_saved = |_, tables, tally, room| {
            put_others(tables, tally, room, |tables| {
                let mut records: Vec<Vec<u8>> = PATHS.records.iter(tables).map(<[u8]>::to_vec).collect();
                records.sort_by_key(|record| !is_used(record));
                tables[PATHS.records.bytes()].copy_from_slice(&records.concat());
            });
        },
    }
    SavedUnchecked: "tables that break refusal 7 are saved"
    breaks "saving gives 7, then 25." {
        save = |rules, tables, tally, room| {
            Refusal::Tables.when(tables.len() != SIZE)?;
            Refusal::Room.when(rules.saving_room_refused(room.len()))?;
            rules.put_saved(tables, tally, room);
            Ok(LENGTH)
        },
    }
    SavingRoomFirst: "a save tests 25 before 7"
    breaks "saving gives 7, then 25." {
        save = |rules, tables, tally, room| {
            Refusal::Room.when(rules.saving_room_refused(room.len()))?;
            saving::save(rules, tables, tally, room)
        },
    }
    SavingRoomMustFit: "a save refuses more room than the file takes"
    breaks "25 room too small" {
        saving_room_refused = |_, room| room != LENGTH,
    }
    SavingRoomShort: "a save takes room that is too small by one byte, and leaves the tally's last out"
    breaks "25 room too small" {
        saving_room_refused = |_, room| room < LENGTH - 1,
        put_saved = |_, tables, tally, room| {
            let mut whole = room.to_vec();
            whole.resize(room.len().max(LENGTH), 0);
            saving::put_saved(tables, tally, &mut whole);
            room.copy_from_slice(&whole[..room.len()]);
        },
    }
    SavingRoomCleared: "a save fills the rest of the room with zeros"
    breaks "Tables and room stay." {
        put_saved = |_, tables, tally, room| {
            saving::put_saved(tables, tally, room);
            room[LENGTH..].fill(0);
        },
    }
}
