//! Ports that carry less: document 02's Wish 11.

use crate::host::{announce, destination, link_id, lost, return_key, to_station, type_1, Host, BEFORE};
use haskumye_independent::answer::{Answer, NoWay, Reason, Verdict};
use haskumye_independent::engine::Outcome;
use haskumye_independent::relay::asking::Question;
use haskumye_independent::relay::Arrival;
use haskumye_independent::saved::LENGTH;
use haskumye_independent::tables::{self, port, HASH_PLACE, LINKS, PORTS, RETURNS, RETURN_PLACE, SIZE};

crate::on_both_programs!(
    a_size_is_set_with_its_port(SizeSetOnce),
    sizes_from_19_to_500(SizesEndsRefused),
    no_other_size(SizeOf501Set),
    not_18_either(SizeOf18Set),
    wide_numbers_are_refused(SizeCut),
    a_fresh_relay_carries_500(FreshSizeShortest),
    tables_of_zeros_are_refused(StoredSizeUnchecked),
    stored_sizes_of_ports_that_are_off(OffSizeUnchecked),
    a_size_is_told(SizeToldReversed),
    a_size_moves_with_its_port(RenumberingLeavesSizes),
    packets_in_by_a_port(SizeNotReadAgainst),
    as_long_as_the_arrival_port_carries(ArrivalSizeItselfRefused),
    the_output_has_500_bytes_still(OutputByArrivalSize),
    a_long_range_radio(LeavesAtAnyLength),
    one_byte_too_long_out(EqualSizeTooLong),
    the_leaving_ports_size_counts(ArrivalSizeForLeaving),
    the_last_hop_makes_it_short_enough(LengthAsItCameIn),
    a_port_that_is_off_comes_first(SizeBeforePortOff),
    no_room_comes_later(RoomBeforeSize),
    a_known_link_comes_first(SizeBeforeKnown),
    a_drop_as_every_other(TooLongWritten),
    no_return_record_is_made(TooLongMakesReturn),
    no_link_is_made(TooLongMakesLink),
    no_link_is_renewed_or_proved(TooLongRenewsLink),
    no_return_record_is_emptied(TooLongEmptiesReturn),
    a_spread_leaves_ports_out(SpreadAtAnySize),
    only_one_port_fits(SpreadIfLargestFits),
    not_all_need_fit(SpreadIfAllFit),
    a_spread_by_its_length_then(SpreadByLengthIn),
    kept_if_none_fits(AnnounceDroppedBySize),
    deliveries_leave_by_no_port(SizeNotReadAgainst),
    the_reader_at_each_size(ReaderSizeUnread),
    the_readers_9_comes_first(ReaderSizeLast),
    the_reader_takes_no_size_over_500(ReaderSizeOver500),
    the_reader_takes_small_sizes(ReaderSizeUnder35),
    what_is_written_is_read_at_any_size_no_smaller(ReaderSizeUnder35),
    a_save_is_of_edition_5(SavedAsFourth),
    older_files_load_with_500(OlderSizesShortest),
    whatever_the_tables_had(OlderSizesStay),
    of_ports_that_are_off_too(OlderOffPortsZero),
);

/// The sizes of the edges.
const EDGES: [usize; 6] = [19, 254, 255, 256, 499, 500];
const TOO_LONG: Verdict = Verdict::Drop(Reason::TooLongForPort);

/// Sets a port on, with the mode that the host gave it and a size.
fn resize(host: &mut Host, port: u64, size: usize) {
    let mode = host.tables[PORTS.range(port as usize).start + port::MODE];
    assert_eq!(host.program.set_port(&mut host.tables, port, true, mode.into(), size as u64), Outcome::Done);
}

fn size(host: &Host, port: u8) -> usize {
    tables::port_size(&host.tables, port)
}

fn a_size_is_set_with_its_port(host: &mut Host) {
    for (on, mode, size) in [(true, 2, 255), (false, 1, 500), (true, 0, 19), (true, 0, 258)] {
        assert_eq!(host.program.set_port(&mut host.tables, 15, on, mode, size), Outcome::Done);
        assert_eq!(host.tables[PORTS.range(15)], [u8::from(on), mode as u8, (size / 256) as u8, size as u8]);
    }
}

fn sizes_from_19_to_500(host: &mut Host) {
    for size in 19..=500 {
        assert_eq!(host.program.set_port(&mut host.tables, 3, true, 0, size), Outcome::Done, "{size}");
        assert!(host.program.check(&host.tables));
    }
}

/// The port stays as it was.
fn refused(host: &mut Host, size: u64) {
    let before = host.tables.clone();
    for (port, mode) in [(0, 0), (15, 2), (16, 0), (0, 3)] {
        assert_eq!(host.program.set_port(&mut host.tables, port, true, mode, size), Outcome::Refused(9), "{size}");
    }
    assert!(host.tables == before);
    assert_eq!(host.program.set_port(&mut host.tables[1..], 0, true, 0, size), Outcome::Refused(7));
}

fn no_other_size(host: &mut Host) {
    [501, 502, 511, 512].into_iter().for_each(|size| refused(host, size));
}

fn not_18_either(host: &mut Host) {
    (0..19).for_each(|size| refused(host, size));
}

fn wide_numbers_are_refused(host: &mut Host) {
    [1 << 16, (1 << 16) + 255, (1 << 32) + 500, u64::MAX].into_iter().for_each(|size| refused(host, size));
}

fn a_fresh_relay_carries_500(host: &mut Host) {
    let mut fresh = vec![0xee; SIZE];
    assert_eq!(host.program.fresh(&mut fresh, &mut [0; 6], &[7; 16]), Outcome::Done);
    assert!((0..16).all(|port| tables::port_size(&fresh, port) == 500));
    assert!(PORTS.iter(&fresh).all(|settings| settings == [0, 0, 1, 0xf4]));
}

/// A host that forgot to make its tables fresh sees it at once.
fn tables_of_zeros_are_refused(host: &mut Host) {
    host.tables.fill(0);
    assert!(!host.program.check(&host.tables));
    assert_eq!(host.call(&type_1(0, 0, [9; 16], 0, b"x"), 0, 10, true), Outcome::Refused(7));
}

fn stored_sizes_of_ports_that_are_off(host: &mut Host) {
    for (port, stored) in [(4, 18u16), (4, 501), (15, 0), (15, u16::MAX), (0, 18), (0, 501)] {
        let at = PORTS.range(port).start + port::SIZE;
        let before = host.tables.clone();
        host.tables[at..at + 2].copy_from_slice(&stored.to_be_bytes());
        assert_eq!((port, stored, host.program.check(&host.tables)), (port, stored, false));
        host.tables = before;
    }
}

fn a_size_is_told(host: &mut Host) {
    resize(host, 1, 0x0102);
    for (port, told) in [(1, [1, 2, 1, 2]), (0, [1, 0, 1, 0xf4]), (9, [0, 0, 1, 0xf4])] {
        let mut reply = [0xee; 4];
        assert_eq!(host.program.ask(&mut host.tables, &Question::Port(port), &mut reply), Outcome::Done);
        assert_eq!(reply, told);
    }
}

fn a_size_moves_with_its_port(host: &mut Host) {
    resize(host, 1, 255);
    assert_eq!(host.renumber(&std::array::from_fn(|port| (port as u8 + 3) % 16)), Outcome::Done);
    assert_eq!((size(host, 1), size(host, 4)), (500, 255));
    assert_eq!(host.call(&type_1(0, 0, [9; 16], 0, &[0; 237]), 4, 10, true), Outcome::Refused(2));
}

/// One byte too long is refused by 2, after 1 and before 3, and nothing changes.
fn packets_in_by_a_port(host: &mut Host) {
    for size in EDGES {
        resize(host, 1, size);
        let before = host.tables.clone();
        for length in [size + 1, size + 2, 501] {
            for header in [0x00, 0x40, 0x80] {
                let mut packet = vec![9; length];
                packet[0] = header;
                assert_eq!(host.call(&packet, 1, 10, true), Outcome::Refused(2), "{length} at {size}");
            }
        }
        assert_eq!(host.call(&[0x80; 18], 1, 10, true), Outcome::Refused(1));
        assert!(host.tables == before);
    }
    assert_eq!((host.output, host.tally), (BEFORE, [0; 6]));
}

fn as_long_as_the_arrival_port_carries(host: &mut Host) {
    for size in EDGES {
        resize(host, 1, size);
        let packet = type_1(0, 0, [9; 16], size as u8, &vec![0; size - 19]);
        let dropped = Outcome::Judged(Answer::silent(lost(NoWay::NotAsking)));
        assert_eq!(host.call(&packet, 1, 10, true), dropped, "{size}");
        assert_eq!(host.call(&[&[0x80], &packet[1..]].concat(), 1, 10, true), Outcome::Refused(3));
    }
    resize(host, 1, 19);
    assert_eq!(host.call(&[0x40; 19], 1, 10, true), Outcome::Refused(1));
}

fn the_output_has_500_bytes_still(host: &mut Host) {
    resize(host, 1, 255);
    let arrival = Arrival { packet: &type_1(0, 0, [9; 16], 0, b"x"), port: 1, clock: 10, signature: true };
    for room in [0, 255, 499] {
        assert_eq!(host.lend(0, room, arrival), Outcome::Refused(6));
    }
}

/// A destination behind a radio that takes 255 bytes.
fn a_long_range_radio(host: &mut Host) {
    host.verdict(&announce(1, 0x01, 3, 5, 200), 1, 10);
    resize(host, 1, 255);
    assert_eq!(host.verdict(&to_station(1, 0x40, 0, &[1; 220]), 0, 11), Verdict::Forward(1));
    assert_eq!(host.verdict(&to_station(1, 0x40, 0, &[1; 221]), 0, 11), TOO_LONG);
    assert_eq!(host.verdict(&to_station(1, 0x40, 0, &[1; 465]), 0, 11), TOO_LONG);
    resize(host, 1, 500);
    assert_eq!(host.verdict(&to_station(1, 0x40, 0, &[2; 465]), 0, 11), Verdict::Forward(1));
}

/// A path of three hops: what leaves is as long as what came in.
fn one_byte_too_long_out(host: &mut Host) {
    host.verdict(&announce(1, 0x01, 3, 5, 200), 1, 10);
    for size in EDGES.into_iter().filter(|size| *size > 35) {
        resize(host, 1, size);
        assert_eq!(host.verdict(&to_station(1, 0x40, 0, &vec![1; size - 35]), 0, 11), Verdict::Forward(1), "{size}");
        if size < 500 {
            assert_eq!(host.verdict(&to_station(1, 0x40, 0, &vec![2; size - 34]), 0, 11), TOO_LONG, "{size}");
        }
    }
}

/// In by a port that carries less, out by one that carries more; and the other way round.
fn the_leaving_ports_size_counts(host: &mut Host) {
    host.verdict(&announce(1, 0x01, 3, 5, 200), 1, 10);
    resize(host, 0, 100);
    assert_eq!(host.verdict(&to_station(1, 0x40, 0, &[1; 65]), 0, 11), Verdict::Forward(1));
    resize(host, 0, 500);
    resize(host, 1, 99);
    assert_eq!(host.verdict(&to_station(1, 0x40, 0, &[2; 65]), 0, 11), TOO_LONG);
}

/// It loses sixteen bytes there: data of 271 and a link request of 115 fit ports of 255 and 99.
fn the_last_hop_makes_it_short_enough(host: &mut Host) {
    host.verdict(&announce(1, 0x01, 0, 5, 200), 1, 10);
    resize(host, 1, 255);
    assert_eq!(host.verdict(&to_station(1, 0x40, 0, &[1; 236]), 0, 11), Verdict::Forward(1));
    assert_eq!(host.verdict(&to_station(1, 0x40, 0, &[1; 237]), 0, 11), TOO_LONG);
    resize(host, 1, 99);
    assert_eq!(host.verdict(&to_station(1, 0x42, 0, &[1; 80]), 0, 11), Verdict::Forward(1));
    assert_eq!(host.verdict(&to_station(1, 0x42, 0, &[2; 81]), 0, 11), TOO_LONG);
    resize(host, 1, 19);
    assert_eq!(host.verdict(&to_station(1, 0x40, 0, &[]), 0, 11), Verdict::Forward(1));
    assert_eq!(host.verdict(&to_station(1, 0x40, 0, &[1]), 0, 11), TOO_LONG);
}

fn a_port_that_is_off_comes_first(host: &mut Host) {
    host.verdict(&announce(1, 0x01, 3, 5, 200), 1, 10);
    assert_eq!(host.program.set_port(&mut host.tables, 1, false, 2, 50), Outcome::Done);
    assert_eq!(host.verdict(&to_station(1, 0x40, 0, &[1; 100]), 0, 11), Verdict::Drop(Reason::PortOff));
    assert_eq!(host.verdict(&to_station(1, 0x42, 0, &[1; 100]), 0, 11), Verdict::Drop(Reason::PortOff));
}

fn no_room_comes_later(host: &mut Host) {
    host.verdict(&announce(1, 0x41, 100, 5, 200), 3, 10);
    for number in 0..64 {
        assert_eq!(host.verdict(&to_station(1, 0x42, 0, &[number; 64]), 0, 10), Verdict::Forward(3));
    }
    resize(host, 3, 99);
    assert_eq!(host.verdict(&to_station(1, 0x42, 0, &[64; 64]), 0, 10), Verdict::Drop(Reason::NoRoom));
    assert_eq!(host.verdict(&to_station(1, 0x42, 0, &[64; 65]), 0, 10), TOO_LONG);
}

fn a_known_link_comes_first(host: &mut Host) {
    host.verdict(&announce(1, 0x41, 3, 5, 200), 3, 10);
    assert_eq!(host.verdict(&to_station(1, 0x42, 0, &[1; 64]), 0, 10), Verdict::Forward(3));
    resize(host, 3, 99);
    assert_eq!(host.verdict(&to_station(1, 0x42, 0, &[1; 67]), 0, 10), Verdict::Drop(Reason::AlreadyKnown));
}

/// Hash, tally and last clock are as for every drop, and the output stays.
fn a_drop_as_every_other(host: &mut Host) {
    host.verdict(&announce(1, 0x01, 3, 5, 200), 1, 10);
    resize(host, 1, 50);
    (host.output, host.tally) = (BEFORE, [0; 6]);
    let packet = to_station(1, 0x40, 0, &[1; 100]);
    assert_eq!(host.verdict(&packet, 0, 77), TOO_LONG);
    assert_eq!((host.output, host.tally), (BEFORE, [1, 1, 0, 0, 0, 0]));
    assert_eq!((tables::last_clock(&host.tables), tables::ring_place(&host.tables, HASH_PLACE)), (77, 2));
    assert_eq!(host.verdict(&packet, 0, 77), Verdict::Drop(Reason::Duplicate));
}

fn no_return_record_is_made(host: &mut Host) {
    host.verdict(&announce(1, 0x01, 3, 5, 200), 1, 10);
    resize(host, 1, 50);
    assert_eq!(host.verdict(&to_station(1, 0x40, 0, &[1; 100]), 0, 11), TOO_LONG);
    assert_eq!(tables::ring_place(&host.tables, RETURN_PLACE), 0);
    assert!(host.tables[RETURNS.records.bytes()].iter().all(|byte| *byte == 0));
}

fn no_link_is_made(host: &mut Host) {
    host.verdict(&announce(1, 0x01, 3, 5, 200), 1, 10);
    resize(host, 1, 50);
    assert_eq!(host.verdict(&to_station(1, 0x42, 0, &[1; 100]), 0, 11), TOO_LONG);
    assert!(host.tables[LINKS.records.bytes()].iter().all(|byte| *byte == 0));
}

/// A proof of 115 bytes by a port that carries 114, then data of 100 by one that carries 99.
fn no_link_is_renewed_or_proved(host: &mut Host) {
    host.verdict(&announce(1, 0x41, 2, 5, 200), 3, 10);
    let request = to_station(1, 0x42, 4, &[1; 67]);
    let id = link_id(&request);
    assert_eq!(host.verdict(&request, 0, 100), Verdict::Forward(3));
    let before = LINKS.records.get(&host.tables, 0).to_vec();
    resize(host, 0, 114);
    assert_eq!(host.verdict(&type_1(0x0f, 2, id, 0xff, &[4; 96]), 3, 101), TOO_LONG);
    assert_eq!(LINKS.records.get(&host.tables, 0), before);
    resize(host, 0, 115);
    assert_eq!(host.verdict(&type_1(0x0f, 2, id, 0xff, &[5; 96]), 3, 102), Verdict::Forward(0));
    let before = LINKS.records.get(&host.tables, 0).to_vec();
    resize(host, 3, 99);
    assert_eq!(host.verdict(&type_1(0x0c, 4, id, 0, &[6; 81]), 0, 103), TOO_LONG);
    assert_eq!(LINKS.records.get(&host.tables, 0), before);
    assert_eq!(host.verdict(&type_1(0x0c, 4, id, 0, &[7; 80]), 0, 104), Verdict::Forward(3));
}

/// It waits for a receipt that fits.
fn no_return_record_is_emptied(host: &mut Host) {
    host.verdict(&announce(1, 0x01, 2, 5, 200), 3, 10);
    let data = to_station(1, 0x40, 0, b"a");
    host.verdict(&data, 0, 20);
    let key = return_key(&data);
    resize(host, 0, 82);
    assert_eq!(host.verdict(&type_1(0x03, 0, key, 0, &[1; 64]), 3, 21), TOO_LONG);
    assert_eq!(host.verdict(&type_1(0x03, 0, key, 0, &[1; 63]), 3, 21), Verdict::Forward(0));
    assert_eq!(host.verdict(&type_1(0x03, 0, key, 0, &[2; 63]), 3, 21), lost(NoWay::NoReturn));
}

/// Of 200 bytes as it comes in, an announce of type 1 has 216 when it leaves.
fn a_spread_leaves_ports_out(host: &mut Host) {
    for (port, size) in [(1, 215), (2, 216), (3, 500)] {
        resize(host, port, size);
    }
    let answer = host.call(&announce(1, 0x01, 3, 5, 200), 0, 10, true);
    assert_eq!(answer, Outcome::Judged(Answer { verdict: Verdict::Spread(0b1100), length: 216 }));
}

fn only_one_port_fits(host: &mut Host) {
    for (port, size) in [(1, 19), (2, 255), (3, 254)] {
        resize(host, port, size);
    }
    assert_eq!(host.verdict(&announce(1, 0x01, 3, 5, 239), 0, 10), Verdict::Spread(0b0100));
}

fn not_all_need_fit(host: &mut Host) {
    resize(host, 2, 100);
    assert_eq!(host.verdict(&announce(1, 0x41, 3, 5, 200), 0, 10), Verdict::Spread(0b1010));
}

fn a_spread_by_its_length_then(host: &mut Host) {
    resize(host, 1, 200);
    assert_eq!(host.verdict(&announce(1, 0x01, 3, 5, 200), 0, 10), Verdict::Spread(0b1100));
    assert_eq!(host.verdict(&announce(1, 0x41, 3, 6, 200), 0, 10), Verdict::Spread(0b1110));
}

/// It is accepted: its path is there, and counts as kept.
fn kept_if_none_fits(host: &mut Host) {
    [1, 2, 3].into_iter().for_each(|port| resize(host, port, 215));
    assert_eq!(host.verdict(&announce(1, 0x01, 3, 5, 200), 0, 10), Verdict::Kept);
    assert_eq!((host.output, host.tally), (BEFORE, [1, 0, 0, 0, 0, 1]));
    assert_eq!(host.path(0)[1..17], destination(1));
    assert_eq!(host.verdict(&announce(1, 0x01, 3, 5, 200), 0, 310), Verdict::Drop(Reason::Replay));
}

/// As long as the arrival port carries them, and no longer.
fn deliveries_leave_by_no_port(host: &mut Host) {
    assert_eq!(host.add_local(&[9; 16]), Outcome::Done);
    [0, 1, 2, 3].into_iter().for_each(|port| resize(host, port, 119));
    assert_eq!(host.verdict(&type_1(0, 0, [9; 16], 0, &[0; 100]), 0, 10), Verdict::Deliver);
    assert_eq!(host.call(&type_1(0, 0, [9; 16], 0, &[0; 101]), 0, 10, true), Outcome::Refused(2));
}

/// The refusal of a reading, 0 for none.
fn read(host: &Host, header: u8, length: usize, size: u64) -> u8 {
    let mut packet = vec![0; length];
    packet.iter_mut().take(1).for_each(|first| *first = header);
    host.program.read(&packet, size, &mut [0; 35])
}

fn the_reader_at_each_size(host: &mut Host) {
    for size in EDGES {
        for (header, length, refusal) in [(0x00, 18, 1), (0x00, size, 0), (0x80, size, 3), (0x00, size + 1, 2), (0x80, size + 1, 2)] {
            assert_eq!(read(host, header, length, size as u64), refusal, "{length} bytes of {header:02x} at {size}");
        }
    }
}

fn the_readers_9_comes_first(host: &mut Host) {
    for size in [0, 18, 501, 65_536 + 255, u64::MAX] {
        for length in [0, 18, 19, 500, 501] {
            assert_eq!(read(host, 0x80, length, size), 9);
        }
    }
}

fn the_reader_takes_no_size_over_500(host: &mut Host) {
    assert_eq!(read(host, 0x00, 19, 500), 0);
    assert_eq!(read(host, 0x00, 19, 501), 9);
}

fn the_reader_takes_small_sizes(host: &mut Host) {
    assert_eq!(read(host, 0x00, 19, 19), 0);
    assert_eq!(read(host, 0x40, 19, 19), 1);
    assert_eq!(read(host, 0x40, 35, 34), 2);
    assert_eq!(read(host, 0x40, 34, 34), 1);
}

fn what_is_written_is_read_at_any_size_no_smaller(host: &mut Host) {
    for packet in [type_1(0x00, 1, [3; 16], 4, b""), type_1(0x21, 1, [3; 16], 4, &[5; 180]), to_station(1, 0x42, 7, &[8; 465])] {
        let mut whole = [0; 35];
        assert_eq!(host.program.read(&packet, 500, &mut whole), 0);
        for size in packet.len()..=500 {
            let mut parts = [0xee; 35];
            assert_eq!((host.program.read(&packet, size as u64, &mut parts), parts), (0, whole));
        }
    }
}

fn saved(host: &Host) -> Vec<u8> {
    let mut file = vec![0; LENGTH];
    assert_eq!(host.program.save(&host.tables, &host.tally, &mut file), (LENGTH as u64) << 16);
    file
}

/// A program of the edition before refuses it: by its editions, 5 is newer.
fn a_save_is_of_edition_5(host: &mut Host) {
    resize(host, 1, 255);
    let (file, before) = (saved(host), host.tables.clone());
    assert_eq!(file[..2], [2, 5]);
    host.tables.fill(0);
    assert_eq!(host.program.load(&file, &mut host.tables, &mut host.tally), 0);
    assert!(host.tables == before);
}

const OLDER: [&[u8]; 4] = [
    include_bytes!("../../../tests/saved/edition-1.saved"),
    include_bytes!("../../../tests/saved/edition-2.saved"),
    include_bytes!("../../../tests/saved/edition-3.saved"),
    include_bytes!("../../../tests/saved/edition-4.saved"),
];

/// Loads each older file.
fn each_older(host: &mut Host, holds: fn(&[u8]) -> bool) {
    for file in OLDER {
        [0, 1, 2, 3].into_iter().for_each(|port| resize(host, port, 255));
        assert_eq!(host.program.load(file, &mut host.tables, &mut host.tally), 0);
        assert_eq!(PORTS.iter(&host.tables).filter(|settings| holds(settings)).count(), 16, "edition {}", file[1]);
    }
}

fn older_files_load_with_500(host: &mut Host) {
    each_older(host, |settings| tables::size(settings) == 500);
}

fn whatever_the_tables_had(host: &mut Host) {
    each_older(host, |settings| settings[port::SIZE..] == [1, 0xf4]);
}

fn of_ports_that_are_off_too(host: &mut Host) {
    each_older(host, |settings| settings[port::ON] == 1 || tables::size(settings) == 500);
    assert!(PORTS.iter(&host.tables).any(|settings| settings[port::ON] == 0));
    assert!(host.program.check(&host.tables));
}
