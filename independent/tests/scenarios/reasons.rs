//! Reasons that help on a ladder: document 02's Wish 10, and its edges.

use crate::host::{announce, bad_form, destination, link_id, lost, recorded, replay, to_station, type_1, Host, OWN};
use haskumye_independent::answer::{Clause, NoWay, Reason, Verdict};
use haskumye_independent::core::LINE;
use haskumye_independent::engine::{encoded, Outcome};
use haskumye_independent::limits::{CLOCK_LIMIT, LATEST};
use haskumye_independent::packet::{encode, Address, Header, Parts};
use haskumye_independent::tables::{path, set_time, Link, Path, LINKS, PATHS};

crate::on_both_programs!(
    a_type_2_proof_is_3_1(LastClauseNamed),
    a_type_2_packet_of_kind_link_is_3_2(KindsBeforeTypes),
    an_announce_not_of_kind_single_is_3_3(LengthNamedFirst),
    a_short_announce_is_3_4(RatchetNotCounted),
    an_announce_of_other_keys_is_3_5(LengthAlwaysTold),
    a_link_request_has_two_clauses(RequestHasOneClause),
    a_link_proof_of_other_length_is_3_8(NextProofAsked),
    a_long_link_proof_is_3_8_with_96(LongProofNotAsked),
    a_link_proof_asks_for_96(LongerProofAsked),
    the_length_is_not_what_lacks(MissingLengthTold),
    a_packet_not_asking_is_6_1(PathBeforeType),
    no_path_record_is_6_2(UnusedPathsTold),
    expired_paths_of_others_do_not_count(OthersExpiryTold),
    an_expired_path_is_6_3(ExpiredUntold),
    the_greatest_expiry_is_told_wherever_it_lies(FirstExpiryTold),
    the_greatest_expiry_is_not_the_last(LastExpiryTold),
    the_greatest_expiry_is_not_the_least(LeastExpiryTold),
    an_overwritten_slot_is_no_record(AgeTold),
    an_expiry_of_0_is_told(ExpiryZeroUntold),
    expiries_of_40_bits(ExpiryCut),
    no_live_link_is_6_4(ExpiredLinkNotProved),
    a_link_proof_without_a_link_is_6_4(LostProofNotProved),
    a_link_not_proved_is_6_5(UnprovedIsNoLink),
    a_proof_of_kind_link_is_never_6_6(LostLinkProofNoReturn),
    no_return_record_is_6_6(LostReceiptNoPath),
    the_four_lines(ZeroUnsaid),
    lines_with_an_expiry(ExpiryUnsaid),
    lines_without_a_number(ZeroSaid),
    lines_of_all_other_reasons(ClausesUnsaid),
    lines_of_long_expiries(LongExpiryUnsaid),
    a_reason_changes_nothing_else(ExpiredUntold),
);

/// A type 2 packet under our own address.
fn type_2(header: u8, destination: Address, context: u8, payload: &[u8]) -> Vec<u8> {
    encode(&Parts { header: Header(header), hops: 0, relay: OWN, destination, context }, payload)
}

/// The verdict on a packet of this form at clock 10.
fn formed(host: &mut Host, packet: &[u8]) -> Verdict {
    host.verdict(packet, 0, 10)
}

/// Type 2 data to a station at a clock, other data each time.
fn sent(host: &mut Host, station: u8, clock: u64) -> Verdict {
    let number = host.tally[0].to_be_bytes();
    host.verdict(&to_station(station, 0x40, 0, &number), 0, clock)
}

fn expired(expiry: u64) -> Verdict {
    lost(NoWay::OnlyExpired { expiry })
}

/// Lends a path of a station at a place.
fn lend(host: &mut Host, place: usize, station: u8, expiry: u64) {
    let record = PATHS.records.get_mut(&mut host.tables, place);
    Path { destination: destination(station), port: 3, hops: 2, next_hop: [7; 16], expiry }.write(record);
    record[path::BLOB_COUNT] = 1;
}

fn lend_link(host: &mut Host, place: usize, id: Address, proved: bool, expiry: u64) {
    let record = LINKS.records.get_mut(&mut host.tables, place);
    Link { id, asking: 0, answering: 3, taken: 4, remaining: 2, proved, expiry }.write(record);
}

/// Of kind link it breaks 3.2 too, and as a link proof of other length 3.8.
fn a_type_2_proof_is_3_1(host: &mut Host) {
    for (header, context, length) in [(0x43, 0, 0), (0x47, 0xff, 96), (0x4b, 0, 64), (0x4f, 0, 64), (0x4f, 0xff, 98), (0x63, 0, 1)] {
        assert_eq!(formed(host, &type_2(header, [9; 16], context, &vec![1; length])), bad_form(Clause::TypeTwoProof, 0), "{header:02x}");
    }
}

/// An announce breaks 3.3 to 3.5 too, a link request 3.6 and 3.7.
fn a_type_2_packet_of_kind_link_is_3_2(host: &mut Host) {
    for (header, length) in [(0x4c, 0), (0x4d, 10), (0x4d, 148), (0x6d, 200), (0x4e, 63), (0x4e, 64)] {
        assert_eq!(formed(host, &type_2(header, [9; 16], 0, &vec![1; length])), bad_form(Clause::TypeTwoLink, 0), "{header:02x}");
    }
}

fn an_announce_not_of_kind_single_is_3_3(host: &mut Host) {
    for (header, length) in [(0x05, 0), (0x09, 147), (0x0d, 148), (0x25, 179), (0x29, 200)] {
        assert_eq!(formed(host, &type_1(header, 0, [9; 16], 0, &vec![1; length])), bad_form(Clause::AnnounceNotSingle, 0), "{header:02x}");
    }
    assert_eq!(formed(host, &type_2(0x45, [9; 16], 0, &[1; 20])), bad_form(Clause::AnnounceNotSingle, 0));
    assert_eq!(formed(host, &announce(1, 0x49, 0, 5, 200)), bad_form(Clause::AnnounceNotSingle, 0));
}

/// By the flag, whatever the context; also of one whose keys give another destination, and of one too short for keys.
fn a_short_announce_is_3_4(host: &mut Host) {
    for (header, least, lengths) in [(0x01, 148, [0, 73, 74, 147]), (0x21, 180, [0, 147, 148, 179])] {
        for (context, length) in [0, 1].into_iter().flat_map(|context| lengths.map(|length| (context, length))) {
            let station = type_1(header, 0, destination(header), context, &vec![header; length]);
            let nobody = type_2(header | 0x40, [header; 16], context, &vec![header; length]);
            assert_eq!(formed(host, &station), bad_form(Clause::AnnounceTooShort, least), "{length}");
            assert_eq!(formed(host, &nobody), bad_form(Clause::AnnounceTooShort, least), "{length}");
        }
        assert!(matches!(formed(host, &type_1(header, 0, destination(header), 0, &vec![header; least as usize])), Verdict::Spread(_)));
    }
}

fn an_announce_of_other_keys_is_3_5(host: &mut Host) {
    for (header, length) in [(0x01, 148), (0x21, 180), (0x01, 400)] {
        assert_eq!(formed(host, &type_1(header, 0, destination(1), 0, &vec![2; length])), bad_form(Clause::AnnounceOfAnother, 0));
        assert_eq!(formed(host, &type_2(header | 0x40, [9; 16], 0, &vec![2; length])), bad_form(Clause::AnnounceOfAnother, 0));
    }
}

fn a_link_request_has_two_clauses(host: &mut Host) {
    for length in [0, 63, 64, 100] {
        assert_eq!(formed(host, &type_1(0x0e, 0, [9; 16], 0, &vec![1; length])), bad_form(Clause::RequestOfKindLink, 0), "{length}");
    }
    for length in [0, 1, 63] {
        assert_eq!(formed(host, &type_1(0x02, 0, [9; 16], 0, &vec![1; length])), bad_form(Clause::RequestTooShort, 64), "{length}");
        assert_eq!(formed(host, &type_2(0x46, [9; 16], 0, &vec![1; length])), bad_form(Clause::RequestTooShort, 64), "{length}");
    }
    assert_eq!(formed(host, &type_2(0x42, [9; 16], 0, &[1; 64])), lost(NoWay::NoPath));
}

fn link_proof(host: &mut Host, length: usize) -> Verdict {
    formed(host, &type_1(0x0f, 0, [9; 16], 0xff, &vec![1; length]))
}

fn a_link_proof_of_other_length_is_3_8(host: &mut Host) {
    for length in [0, 64, 95, 97, 98] {
        assert_eq!(link_proof(host, length), bad_form(Clause::LinkProofLength, 96), "{length}");
    }
    for length in [96, 99] {
        assert_eq!(link_proof(host, length), lost(NoWay::NoLink), "{length}");
    }
}

/// 96 would have served, though the payload is longer.
fn a_long_link_proof_is_3_8_with_96(host: &mut Host) {
    for length in [100, 148, 481] {
        assert_eq!(link_proof(host, length), bad_form(Clause::LinkProofLength, 96), "{length}");
    }
}

fn a_link_proof_asks_for_96(host: &mut Host) {
    assert_eq!(link_proof(host, 95), bad_form(Clause::LinkProofLength, 96));
}

fn the_length_is_not_what_lacks(host: &mut Host) {
    assert_eq!(formed(host, &type_1(0x01, 0, destination(1), 0, &[1; 147])), bad_form(Clause::AnnounceTooShort, 148));
    assert_eq!(formed(host, &type_1(0x02, 0, [9; 16], 0, &[1; 63])), bad_form(Clause::RequestTooShort, 64));
}

/// With a live path, an expired one, and none.
fn a_packet_not_asking_is_6_1(host: &mut Host) {
    host.verdict(&announce(1, 0x01, 2, 5, 200), 3, 10);
    lend(host, 5, 2, 9);
    for station in [1, 2, 3] {
        for header in [0x00, 0x14, 0x08] {
            assert_eq!(formed(host, &type_1(header, 0, destination(station), 0, b"a")), lost(NoWay::NotAsking));
        }
        assert_eq!(formed(host, &type_1(0x02, 0, destination(station), 0, &[1; 64])), lost(NoWay::NotAsking));
    }
}

/// Unused slots hold zeros, and are no records of the address of zeros.
fn no_path_record_is_6_2(host: &mut Host) {
    for address in [[9; 16], [0; 16]] {
        assert_eq!(formed(host, &type_2(0x40, address, 0, b"a")), lost(NoWay::NoPath));
        assert_eq!(formed(host, &type_2(0x42, address, 0, &[1; 64])), lost(NoWay::NoPath));
        assert_eq!(formed(host, &type_2(0x48, address, 0, b"a")), lost(NoWay::NoPath));
    }
}

fn expired_paths_of_others_do_not_count(host: &mut Host) {
    lend(host, 0, 1, 9);
    lend(host, 63, 2, 10);
    let mut neighbour = destination(1);
    neighbour[15] ^= 1;
    assert_eq!(formed(host, &type_2(0x40, neighbour, 0, b"a")), lost(NoWay::NoPath));
    assert_eq!(sent(host, 3, 10), lost(NoWay::NoPath));
    assert_eq!(sent(host, 1, 10), expired(9));
}

/// Document 01's edge, of data and of a link request.
fn an_expired_path_is_6_3(host: &mut Host) {
    assert_eq!(host.verdict(&announce(1, 0x01, 0, 5, 200), 1, 1_000), Verdict::Spread(0b1101));
    assert_eq!(sent(host, 1, 22_599), Verdict::Forward(1));
    assert_eq!(sent(host, 1, 22_600), expired(22_600));
    assert_eq!(host.verdict(&to_station(1, 0x42, 0, &[1; 64]), 0, 22_600), expired(22_600));
    assert_eq!(host.verdict(&to_station(1, 0x44, 0, b"a"), 0, 900_000), expired(22_600));
}

/// The greatest in each of three slots, and beside equal ones; a live one among them is a way on.
fn the_greatest_expiry_is_told_wherever_it_lies(host: &mut Host) {
    for expiries in [[100, 50, 70], [50, 100, 70], [50, 70, 100], [100, 100, 1], [1, 100, 100]] {
        for (place, expiry) in [0, 31, 63].into_iter().zip(expiries) {
            lend(host, place, 1, expiry);
        }
        assert_eq!(sent(host, 1, 100), expired(100), "{expiries:?}");
        assert_eq!(host.verdict(&to_station(1, 0x42, 0, &expiries.map(|expiry| expiry as u8).repeat(22)), 0, 100), expired(100));
    }
    lend(host, 40, 1, 101);
    assert_eq!(sent(host, 1, 100), Verdict::Forward(3));
    assert_eq!(sent(host, 1, 101), expired(101));
}

fn the_greatest_expiry_is_not_the_last(host: &mut Host) {
    lend(host, 3, 1, 20);
    lend(host, 4, 1, 10);
    assert_eq!(sent(host, 1, 30), expired(20));
}

fn the_greatest_expiry_is_not_the_least(host: &mut Host) {
    lend(host, 3, 1, 10);
    lend(host, 4, 1, 20);
    assert_eq!(sent(host, 1, 30), expired(20));
}

/// Another destination takes the expired slot: then nothing of the first is known.
fn an_overwritten_slot_is_no_record(host: &mut Host) {
    host.verdict(&announce(1, 0x01, 0, 5, 200), 1, 1_000);
    assert_eq!(sent(host, 1, 30_000), expired(22_600));
    host.verdict(&announce(2, 0x01, 0, 5, 200), 1, 30_000);
    assert_eq!(sent(host, 1, 30_000), lost(NoWay::NoPath));
}

/// A used record may have it, in lent tables.
fn an_expiry_of_0_is_told(host: &mut Host) {
    lend(host, 9, 1, 0);
    assert_eq!(sent(host, 1, 0), expired(0));
    assert_eq!(sent(host, 1, 10), expired(0));
    let file = recorded(host, &[(10, 0, 1, &to_station(1, 0x40, 1, b"z"))]);
    assert_eq!(replay(host, &file), "1 drop 6.3 0\n");
}

/// The greatest expiry that is no longer live at any clock; those above live past every clock.
fn expiries_of_40_bits(host: &mut Host) {
    for (place, expiry) in [(0, (1 << 32) - 1), (1, 1 << 32)] {
        lend(host, place, 1, expiry);
        assert_eq!(sent(host, 1, 1 << 33), expired(expiry));
    }
    lend(host, 2, 1, CLOCK_LIMIT - 1);
    assert_eq!(sent(host, 1, CLOCK_LIMIT - 2), Verdict::Forward(3));
    assert_eq!(sent(host, 1, CLOCK_LIMIT - 1), expired(CLOCK_LIMIT - 1));
    for expiry in [CLOCK_LIMIT, LATEST] {
        set_time(PATHS.records.get_mut(&mut host.tables, 2), path::EXPIRY, expiry);
        assert_eq!(sent(host, 1, CLOCK_LIMIT - 1), Verdict::Forward(3));
    }
}

/// Never asked for, or expired, proved before or not.
fn no_live_link_is_6_4(host: &mut Host) {
    lend_link(host, 0, [1; 16], false, 10);
    lend_link(host, 1, [2; 16], true, 10);
    for id in [[1; 16], [2; 16], [3; 16]] {
        for (header, context) in [(0x0c, 0), (0x0c, 0xff), (0x0f, 0)] {
            assert_eq!(formed(host, &type_1(header, 4, id, context, b"a")), lost(NoWay::NoLink));
        }
    }
}

fn a_link_proof_without_a_link_is_6_4(host: &mut Host) {
    lend_link(host, 0, [1; 16], false, 10);
    for id in [[1; 16], [2; 16]] {
        assert_eq!(formed(host, &type_1(0x0f, 2, id, 0xff, &[1; 96])), lost(NoWay::NoLink));
    }
}

/// Until its link proof has come, which itself goes on.
fn a_link_not_proved_is_6_5(host: &mut Host) {
    host.verdict(&announce(1, 0x41, 2, 5, 200), 3, 10);
    let request = to_station(1, 0x42, 4, &[1; 67]);
    let id = link_id(&request);
    assert_eq!(host.verdict(&request, 0, 100), Verdict::Forward(3));
    for (header, context) in [(0x0c, 0), (0x0c, 0xff), (0x0f, 0)] {
        assert_eq!(host.verdict(&type_1(header, 4, id, context, b"a"), 0, 100), lost(NoWay::NotProved));
    }
    assert_eq!(host.verdict(&type_1(0x0f, 2, id, 0xff, &[1; 96]), 3, 117), Verdict::Forward(0));
    assert_eq!(host.verdict(&type_1(0x0c, 4, id, 0, b"b"), 0, 117), Verdict::Forward(3));
    assert_eq!(host.verdict(&type_1(0x0c, 4, id, 0, b"c"), 0, 837), lost(NoWay::NoLink));
}

fn a_proof_of_kind_link_is_never_6_6(host: &mut Host) {
    assert_eq!(formed(host, &type_1(0x0f, 0, [9; 16], 0, b"a")), lost(NoWay::NoLink));
    assert_eq!(formed(host, &type_1(0x0f, 0, [9; 16], 0xff, &[1; 99])), lost(NoWay::NoLink));
    assert_eq!(formed(host, &type_1(0x07, 0, [9; 16], 0xff, b"a")), lost(NoWay::NoReturn));
}

fn no_return_record_is_6_6(host: &mut Host) {
    for header in [0x03, 0x07, 0x0b] {
        assert_eq!(formed(host, &type_1(header, 0, [9; 16], 0, b"a")), lost(NoWay::NoReturn));
    }
}

/// Both texts of the second of two packets: the replay's line, and the answer's own, which has no number before it and no line feed.
fn second_line(host: &mut Host, first: &[u8], second: (u64, &[u8])) -> String {
    let file = recorded(host, &[(1_000, 1, 1, first), (second.0, 0, 1, second.1)]);
    host.program.replay_entry(&file, 0, &mut host.tables, &mut host.tally, &mut [0; LINE]);
    let (mut line, mut text) = ([0xee; LINE], [0xee; LINE]);
    let outcome = host.program.replay_entry(&file, 1, &mut host.tables, &mut host.tally, &mut line);
    let length = host.program.answer_text(encoded(&outcome, second.1), &mut text);
    let line = String::from_utf8_lossy(&line).trim_end_matches('\0').to_string();
    assert!(text[length..].iter().all(|byte| *byte == 0));
    assert_eq!(line, format!("2 {}\n", String::from_utf8_lossy(&text[..length])));
    line
}

/// Wish 10's own.
fn the_four_lines(host: &mut Host) {
    let first = announce(1, 0x01, 0, 5, 200);
    assert_eq!(second_line(host, &first, (1_000, &type_1(0x01, 0, [9; 16], 0, &[1; 147]))), "2 drop 3.4 148\n");
    assert_eq!(second_line(host, &first, (1_000, &type_2(0x43, [9; 16], 0, b"a"))), "2 drop 3.1 0\n");
    assert_eq!(second_line(host, &first, (1_000, &type_1(0x00, 0, [9; 16], 0, b"a"))), "2 drop 6.1\n");
    assert_eq!(second_line(host, &first, (22_600, &to_station(1, 0x40, 0, b"a"))), "2 drop 6.3 22600\n");
}

fn lines_with_an_expiry(host: &mut Host) {
    lend(host, 7, 2, 10);
    assert_eq!(second_line(host, b"", (1_000, &to_station(2, 0x40, 0, b"a"))), "2 drop 6.3 10\n");
}

fn lines_without_a_number(host: &mut Host) {
    lend_link(host, 0, [8; 16], false, 2_000);
    for (packet, line) in [
        (type_1(0x00, 0, [9; 16], 0, b"a"), "2 drop 6.1\n"),
        (type_2(0x40, [9; 16], 0, b"b"), "2 drop 6.2\n"),
        (type_1(0x0c, 0, [9; 16], 0, b"a"), "2 drop 6.4\n"),
        (type_1(0x0c, 4, [8; 16], 0, b"a"), "2 drop 6.5\n"),
        (type_1(0x03, 0, [9; 16], 0, b"a"), "2 drop 6.6\n"),
    ] {
        assert_eq!(second_line(host, b"", (1_000, &packet)), line);
    }
}

/// The other clauses, and reasons that have none.
fn lines_of_all_other_reasons(host: &mut Host) {
    let own = announce(1, 0x01, 0, 5, 200);
    for (packet, line) in [
        (type_2(0x4c, [9; 16], 0, b"a"), "2 drop 3.2 0\n"),
        (type_1(0x05, 0, [9; 16], 0, b"a"), "2 drop 3.3 0\n"),
        (type_1(0x21, 0, [9; 16], 0, b"a"), "2 drop 3.4 180\n"),
        (type_1(0x01, 0, [9; 16], 0, &[1; 148]), "2 drop 3.5 0\n"),
        (type_1(0x0e, 0, [9; 16], 0, b"a"), "2 drop 3.6 0\n"),
        (type_1(0x02, 0, [9; 16], 0, b"a"), "2 drop 3.7 64\n"),
        (type_1(0x0f, 0, [9; 16], 0xff, b"a"), "2 drop 3.8 96\n"),
        (type_1(0x0c, 128, [9; 16], 0, b"h"), "2 drop 5\n"),
        (own.clone(), "2 drop 2\n"),
    ] {
        assert_eq!(second_line(host, &own, (1_000, &packet)), line);
    }
}

fn lines_of_long_expiries(host: &mut Host) {
    lend(host, 7, 2, CLOCK_LIMIT - 1);
    assert_eq!(second_line(host, b"", (CLOCK_LIMIT - 1, &to_station(2, 0x40, 0, b"a"))), "2 drop 6.3 1099511627775\n");
}

/// Dropped packets count, are remembered and set the last clock as before, and nothing else is written.
fn a_reason_changes_nothing_else(host: &mut Host) {
    lend(host, 7, 2, 10);
    let packet = to_station(2, 0x40, 0, b"a");
    assert_eq!(host.verdict(&packet, 0, 20), expired(10));
    assert_eq!(host.verdict(&packet, 0, 20), Verdict::Drop(Reason::Duplicate));
    assert_eq!(host.tally, [2, 2, 0, 0, 0, 0]);
    assert_eq!(host.call(&packet, 0, 19, true), Outcome::Refused(5));
    assert_eq!(PATHS.records.iter(&host.tables).filter(|record| record[0] == 1).count(), 1);
}
