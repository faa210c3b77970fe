//! Recordings: document 02's Wish 1.

use crate::host::{announce, recorded, replay, to_station, type_1, Host};
use haskumye_independent::core::LINE;
use haskumye_independent::engine::Outcome;
use haskumye_independent::packet::Address;

crate::on_both_programs!(
    a_file_written_by_hand_reads_and_writes_again(ClockInFourBytes),
    refusals_of_a_file_come_in_order(WordsBeforePlaces),
    refusals_of_a_writing_come_in_order(ClockBeforeWord),
    a_file_of_60_000_bytes_is_taken(LongestFileRefused),
    a_file_without_entries_is_taken(EmptyRecordingRefused),
    the_six_lines(StopsAtRefusal),
    the_ports_of_a_spread_rise(PortsFalling),
    broken_tables_refuse_every_entry(StopsAtRefusal),
    a_step_outside_the_file_changes_nothing(NextBody),
);

const LOCAL: Address = [9; 16];

/// Two entries: at clock 01 02 03 04 05 by port 7, signed, three bytes; at clock 10 by port 255, unsigned, none.
const FILE: [u8; 33] = [
    1, 1, 0, 2, // kind, edition, count
    1, 2, 3, 4, 5, 7, 1, 0, 0, 0, 30, 0, 3, // the first entry
    0, 0, 0, 0, 10, 255, 0, 0, 0, 0, 33, 0, 0, // the second
    b'a', b'b', b'c',
];
const ENTRIES: [u8; 24] = [0, 0, 0, 1, 2, 3, 4, 5, 7, 1, 0, 3, 0, 0, 0, 0, 0, 0, 0, 10, 255, 0, 0, 0];

/// The bytes of FILE with some of them changed.
fn changed(changes: &[(usize, u8)]) -> Vec<u8> {
    let mut file = FILE.to_vec();
    changes.iter().for_each(|(at, byte)| file[*at] = *byte);
    file
}

fn a_file_written_by_hand_reads_and_writes_again(host: &mut Host) {
    let mut fields = [0; 5];
    assert_eq!((host.program.check_recording(&FILE), host.program.recording_count(&FILE)), (0, 2));
    assert_eq!(host.program.recording_entry(&FILE, 0, &mut fields), 0);
    assert_eq!(fields, [0x01_0203_0405, 7, 1, 30, 3]);
    assert_eq!(host.program.recording_entry(&FILE, 1, &mut fields), 0);
    assert_eq!(fields, [10, 255, 0, 33, 0]);
    for index in [2, 3, u64::MAX] {
        assert_eq!(host.program.recording_entry(&FILE, index, &mut fields), 22);
        assert_eq!(fields, [10, 255, 0, 33, 0]);
    }
    let mut room = [0xee; 40];
    assert_eq!(host.program.write_recording(&ENTRIES, b"abc", &mut room), 33 << 16);
    assert_eq!((&room[..33], &room[33..]), (&FILE[..], &[0xee; 7][..]));
}

/// Each beside faults of all later ones; 22 of the last entry before 23 of the first.
fn refusals_of_a_file_come_in_order(host: &mut Host) {
    let all = [(0, 2), (1, 2), (10, 2), (28, 1)];
    for (file, refusal) in [
        (changed(&all)[..29].to_vec(), 20),
        (changed(&[&all[..], &[(3, 3)]].concat())[..33].to_vec(), 20),
        (changed(&all), 21),
        (changed(&all[1..]), 21),
        (changed(&all[2..]), 22),
        (changed(&all[2..3]), 23),
        (FILE[..32].to_vec(), 22),
        ([&FILE[..], &[0]].concat(), 22),
        (vec![], 20),
        (vec![1, 1, 0], 20),
    ] {
        assert_eq!(host.program.check_recording(&file), refusal, "{file:?}");
        assert_eq!(replay(host, &file), format!("refused {refusal}\n"));
    }
    assert_eq!(host.tally, [0; 6]);
}

fn refusals_of_a_writing_come_in_order(host: &mut Host) {
    let mut entries = ENTRIES;
    let write = |entries: &[u8], bodies: &[u8], room: usize| {
        let mut buffer = vec![0xee; room];
        let number = host.program.write_recording(entries, bodies, &mut buffer);
        assert!(buffer.iter().all(|byte| *byte == 0xee));
        number
    };
    // a clock of the first entry, the word of the last, too few bodies, too little room
    entries[2] = 1;
    entries[21] = 2;
    assert_eq!(write(&entries, b"ab", 31), 23);
    entries[21] = 0;
    assert_eq!(write(&entries, b"ab", 31), 5);
    entries[2] = 0;
    assert_eq!(write(&entries, b"ab", 31), 20);
    assert_eq!(write(&entries, b"abcd", 100), 20);
    assert_eq!(write(&entries[..23], b"abc", 100), 20);
    assert_eq!(write(&entries, b"abc", 32), 25);
    assert_eq!(write(&[], &[], 3), 25);
}

fn a_file_of_60_000_bytes_is_taken(host: &mut Host) {
    for (body, refusal) in [(59_983, 0), (59_984, 20)] {
        let entry = [&[0, 0, 0, 0, 0, 0, 0, 5, 0, 0][..], &(body as u16).to_be_bytes()].concat();
        let mut room = vec![0; 70_000];
        let number = host.program.write_recording(&entry, &vec![7; body], &mut room);
        assert_eq!(number, if refusal == 0 { 60_000 << 16 } else { 20 });
    }
    let mut file = vec![0; 60_000];
    file[..17].copy_from_slice(&[1, 1, 0, 1, 0, 0, 0, 0, 5, 0, 0, 0, 0, 0, 17, 0xea, 0x4f]);
    assert_eq!(host.program.check_recording(&file), 0);
    assert_eq!(replay(host, &file), "1 refused 2\n");
    file.push(0);
    (file[15], file[16]) = (0xea, 0x50);
    assert_eq!(host.program.check_recording(&file), 20);
}

fn a_file_without_entries_is_taken(host: &mut Host) {
    assert_eq!(host.program.check_recording(&[1, 1, 0, 0]), 0);
    assert_eq!(replay(host, &[1, 1, 0, 0]), "");
    assert_eq!(recorded(host, &[]), [1, 1, 0, 0]);
}

/// One of each answer, in another order than the words have them, and a refusal in between.
fn the_six_lines(host: &mut Host) {
    host.add_local(&LOCAL);
    let (first, long) = (announce(1, 0x01, 0, 5, 200), announce(2, 0x01, 0, 5, 485));
    let data = to_station(1, 0x40, 0, b"a");
    let file = recorded(
        host,
        &[
            (10, 1, 1, &first),
            (10, 2, 0, &data),
            (10, 0, 0, &[0; 18]),
            (11, 0, 0, &type_1(0x00, 0, LOCAL, 0, b"b")),
            (11, 3, 1, &long),
            (12, 2, 0, &data),
            (11, 0, 1, &data),
            (12, 9, 1, &data),
        ],
    );
    let lines = "1 spread 0 2 3\n2 forward 1\n3 refused 1\n4 deliver\n5 kept\n6 drop 2\n7 refused 5\n8 refused 4\n";
    assert_eq!(replay(host, &file), lines);
    assert_eq!(host.tally, [5, 1, 1, 1, 1, 1]);
}

fn the_ports_of_a_spread_rise(host: &mut Host) {
    for port in [4, 9, 10, 15] {
        host.set_port(port, true, 0);
    }
    let file = recorded(host, &[(10, 2, 1, &announce(1, 0x01, 0, 5, 200))]);
    let mut line = [0xee; LINE];
    let answer = host.program.replay_entry(&file, 0, &mut host.tables, &mut host.tally, &mut line);
    assert!(matches!(answer, Outcome::Judged(_)));
    let text = b"1 spread 0 1 3 4 9 10 15\n";
    assert_eq!(line[..text.len()], text[..]);
    assert_eq!(line[text.len()..], [0; LINE][text.len()..]);
}

/// Tables that refusal 7 names, by their size or their bytes: the file's own refusals come first.
fn broken_tables_refuse_every_entry(host: &mut Host) {
    assert_eq!(host.program.replay(&FILE, &mut host.tables[1..], &mut host.tally), "1 refused 7\n2 refused 7\n");
    host.tables[24] = 2;
    let before = host.tables.clone();
    assert_eq!(replay(host, &FILE), "1 refused 7\n2 refused 7\n");
    assert_eq!(replay(host, &FILE[..32]), "refused 22\n");
    assert!(host.tables == before);
    assert_eq!(host.tally, [0; 6]);
}

fn a_step_outside_the_file_changes_nothing(host: &mut Host) {
    let before = host.tables.clone();
    let mut line = [0xee; LINE];
    // no third entry, and a second body outside the file
    for (file, index) in [(FILE.to_vec(), 2), (changed(&[(29, 1)]), 1), (FILE[..4].to_vec(), 0), (vec![], 0), (FILE.to_vec(), u64::MAX)] {
        let answer = host.program.replay_entry(&file, index, &mut host.tables, &mut host.tally, &mut line);
        assert_eq!(answer, Outcome::Refused(22));
    }
    assert_eq!(line, [0xee; LINE]);
    assert!(host.tables == before);
    // the first entry's body, of three bytes, and the second's, of none
    let mut fields = [0; 5];
    host.program.recording_entry(&FILE, 0, &mut fields);
    assert_eq!((fields[3], fields[4]), (30, 3));
}
