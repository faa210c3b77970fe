//! The survey box: document 02's Wish 14. The texts are worked out by hand.

use crate::host::{announce, recorded, to_station, type_1, Host};
use haskumye_independent::engine::Outcome;
use haskumye_independent::packet::Address;
use haskumye_independent::saved::LENGTH;
use haskumye_independent::tables::AnnounceRate;

crate::on_both_programs!(
    the_lines_of_the_request(ShareNotInLowestTerms),
    no_recording_gives_every_line(NothingOfNothing),
    a_spread_counts_on_each_of_its_ports(SpreadCountedOnce),
    a_forwarded_packet_counts_where_it_leaves(SentCountedWhereItCameIn),
    what_is_sent_counts_as_it_was_rewritten(SentAsItCameIn),
    a_refused_recording_adds_its_line_alone(RefusedRecordingCounted),
    a_seventeenth_recording_ends_the_reading(SeventeenthRead),
    a_seventeenth_recording_is_not_read(SeventeenthByItsOwn),
    each_recording_finds_a_fresh_relay(TablesCarriedOn),
    of_the_settings_file_only_settings_count(SavedTablesTaken),
    packets_that_the_core_refuses_count_nowhere(RefusedPacketsCounted),
    tests_stand_in_the_order_of_the_request(TestsByNumber),
    a_refused_settings_file_is_told_alone(BodiesUnchecked),
);

const LOCAL: Address = [9; 16];

/// The host's relay as a settings file.
fn settings(host: &Host) -> Vec<u8> {
    let mut room = vec![0; LENGTH];
    assert_eq!(host.program.save(&host.tables, &host.tally, &mut room), (LENGTH as u64) << 16);
    room
}

fn surveyed(host: &Host, recordings: &[Vec<u8>]) -> String {
    host.program.survey(&settings(host), recordings)
}

/// A whole text, of which lines that say nothing are left out: ports where nothing came and nothing left, and tests that dropped nothing.
fn text(refused: &[&str], ports: &[&str], reasons: &[&str]) -> String {
    let mut lines: Vec<String> = ["survey"].iter().chain(refused).map(|line| line.to_string()).collect();
    let told = |lines: &[&str], start: String, rest: &str| {
        let line = lines.iter().find(|line| line.starts_with(&start));
        line.map_or(start.clone() + rest, |line| line.to_string())
    };
    lines.extend((0..16).map(|port| told(ports, format!("port {port} "), "packets 0 in 0 out 0 dropped 0/1")));
    lines.extend([1, 2, 3, 4, 5, 6, 7, 8, 9, 10, 11, 15, 12, 16, 13].map(|test| told(reasons, format!("reason {test} "), "0")));
    lines.join("\n") + "\n"
}

/// Data for this relay, of 90 bytes.
fn here(number: u8) -> Vec<u8> {
    type_1(0x00, 0, LOCAL, 0, &[number; 71])
}

/// "as `port 3 packets 10 in 900 out 450 dropped 1/5`", and "as `reason 2 2`": eight packets and two of them again; two announces of 209
/// bytes by another port, which leave with sixteen bytes more.
fn the_lines_of_the_request(host: &mut Host) {
    host.add_local(&LOCAL);
    let (first, second) = (announce(1, 0x01, 0, 5, 209), announce(2, 0x01, 0, 5, 209));
    let packets: Vec<Vec<u8>> = [0, 1, 2, 3, 4, 5, 6, 7, 0, 1].map(here).to_vec();
    let mut day: Vec<(u64, u8, u8, &[u8])> = packets.iter().map(|packet| (10, 3, 0, &packet[..])).collect();
    day.extend([(11, 0, 1, &first[..]), (12, 0, 1, &second[..])]);
    let ports = [
        "port 0 packets 2 in 418 out 0 dropped 0/1",
        "port 1 packets 0 in 0 out 450 dropped 0/1",
        "port 2 packets 0 in 0 out 450 dropped 0/1",
        "port 3 packets 10 in 900 out 450 dropped 1/5",
    ];
    assert_eq!(surveyed(host, &[recorded(host, &day)]), text(&[], &ports, &["reason 2 2"]));
}

/// All 32 lines, as they are printed.
fn no_recording_gives_every_line(host: &mut Host) {
    let expected = "survey\n\
        port 0 packets 0 in 0 out 0 dropped 0/1\nport 1 packets 0 in 0 out 0 dropped 0/1\nport 2 packets 0 in 0 out 0 dropped 0/1\n\
        port 3 packets 0 in 0 out 0 dropped 0/1\nport 4 packets 0 in 0 out 0 dropped 0/1\nport 5 packets 0 in 0 out 0 dropped 0/1\n\
        port 6 packets 0 in 0 out 0 dropped 0/1\nport 7 packets 0 in 0 out 0 dropped 0/1\nport 8 packets 0 in 0 out 0 dropped 0/1\n\
        port 9 packets 0 in 0 out 0 dropped 0/1\nport 10 packets 0 in 0 out 0 dropped 0/1\nport 11 packets 0 in 0 out 0 dropped 0/1\n\
        port 12 packets 0 in 0 out 0 dropped 0/1\nport 13 packets 0 in 0 out 0 dropped 0/1\nport 14 packets 0 in 0 out 0 dropped 0/1\n\
        port 15 packets 0 in 0 out 0 dropped 0/1\n\
        reason 1 0\nreason 2 0\nreason 3 0\nreason 4 0\nreason 5 0\nreason 6 0\nreason 7 0\nreason 8 0\nreason 9 0\nreason 10 0\n\
        reason 11 0\nreason 15 0\nreason 12 0\nreason 16 0\nreason 13 0\n";
    assert_eq!(surveyed(host, &[]), expected);
    assert_eq!(surveyed(host, &[recorded(host, &[])]), expected);
}

fn a_spread_counts_on_each_of_its_ports(host: &mut Host) {
    let file = recorded(host, &[(10, 1, 1, &announce(1, 0x01, 0, 5, 200))]);
    let ports = [
        "port 0 packets 0 in 0 out 216 dropped 0/1",
        "port 1 packets 1 in 200 out 0 dropped 0/1",
        "port 2 packets 0 in 0 out 216 dropped 0/1",
        "port 3 packets 0 in 0 out 216 dropped 0/1",
    ];
    assert_eq!(surveyed(host, &[file]), text(&[], &ports, &[]));
}

/// An announce that is too long to be spread is kept; data to its station leaves by the port that it came in by.
fn a_forwarded_packet_counts_where_it_leaves(host: &mut Host) {
    let (long, data) = (announce(1, 0x01, 1, 5, 485), to_station(1, 0x40, 0, b"abcde"));
    let file = recorded(host, &[(10, 1, 1, &long), (11, 2, 0, &data)]);
    let ports = ["port 1 packets 1 in 485 out 40 dropped 0/1", "port 2 packets 1 in 40 out 0 dropped 0/1"];
    assert_eq!(surveyed(host, &[file]), text(&[], &ports, &[]));
}

/// At the last hop data leaves as type 1, sixteen bytes shorter.
fn what_is_sent_counts_as_it_was_rewritten(host: &mut Host) {
    let (long, data) = (announce(1, 0x01, 0, 5, 485), to_station(1, 0x40, 0, b"abcde"));
    let file = recorded(host, &[(10, 1, 1, &long), (11, 1, 0, &data)]);
    let ports = ["port 1 packets 2 in 525 out 24 dropped 0/1"];
    assert_eq!(surveyed(host, &[file]), text(&[], &ports, &[]));
}

fn a_refused_recording_adds_its_line_alone(host: &mut Host) {
    host.add_local(&LOCAL);
    let whole = recorded(host, &[(10, 3, 0, &here(1)), (11, 3, 0, &here(1)), (12, 3, 0, &here(2))]);
    let mut kind = whole.clone();
    kind[0] = 2;
    let mut word = whole.clone();
    word[10] = 2;
    let longer = [&whole[..], &[0]].concat();
    let cut = whole[..30].to_vec();
    let refused = ["recording 2 refused 21", "recording 3 refused 23", "recording 5 refused 22", "recording 6 refused 20"];
    let ports = ["port 3 packets 6 in 540 out 0 dropped 1/3"];
    assert_eq!(surveyed(host, &[whole.clone(), kind, word, whole, longer, cut]), text(&refused, &ports, &["reason 2 2"]));
}

/// Sixteen are reported, refused ones among them; the 17th is told, and no later one.
fn a_seventeenth_recording_ends_the_reading(host: &mut Host) {
    host.add_local(&LOCAL);
    let whole = recorded(host, &[(10, 3, 0, &here(1))]);
    let sixteen = text(&[], &["port 3 packets 16 in 1440 out 0 dropped 0/1"], &[]);
    assert_eq!(surveyed(host, &vec![whole.clone(); 16]), sixteen);
    let more = text(&["recording 17 refused 29"], &["port 3 packets 16 in 1440 out 0 dropped 0/1"], &[]);
    assert_eq!(surveyed(host, &vec![whole.clone(); 17]), more);
    assert_eq!(surveyed(host, &vec![whole.clone(); 18]), more);
    let mut recordings = vec![whole; 18];
    (recordings[1], recordings[15]) = (vec![1, 1], vec![1, 2, 0, 0]);
    let refused = ["recording 2 refused 20", "recording 16 refused 21", "recording 17 refused 29"];
    assert_eq!(surveyed(host, &recordings), text(&refused, &["port 3 packets 14 in 1260 out 0 dropped 0/1"], &[]));
}

fn a_seventeenth_recording_is_not_read(host: &mut Host) {
    let mut recordings = vec![recorded(host, &[]); 17];
    recordings[16] = vec![];
    assert_eq!(surveyed(host, &recordings), text(&["recording 17 refused 29"], &[], &[]));
}

/// The same announce and the same data at an earlier clock: no duplicates, no earlier clock, and no path of before.
fn each_recording_finds_a_fresh_relay(host: &mut Host) {
    let (news, data) = (announce(1, 0x01, 1, 5, 200), to_station(1, 0x40, 0, b"abcde"));
    let later = recorded(host, &[(50, 1, 1, &news), (51, 2, 0, &data)]);
    let earlier = recorded(host, &[(40, 2, 0, &data), (41, 1, 1, &news)]);
    let ports = [
        "port 0 packets 0 in 0 out 432 dropped 0/1",
        "port 1 packets 2 in 400 out 40 dropped 0/1",
        "port 2 packets 2 in 80 out 432 dropped 1/2",
        "port 3 packets 0 in 0 out 432 dropped 0/1",
    ];
    assert_eq!(surveyed(host, &[later, earlier]), text(&[], &ports, &["reason 6 1"]));
}

/// A settings file whose relay knows the station and heard the packet, at a later clock.
fn of_the_settings_file_only_settings_count(host: &mut Host) {
    host.add_local(&LOCAL);
    host.verdict(&announce(1, 0x01, 1, 5, 200), 1, 900);
    host.verdict(&here(1), 3, 1_000);
    let file = recorded(host, &[(10, 3, 0, &here(1)), (10, 2, 0, &to_station(1, 0x40, 0, b"abcde"))]);
    let ports = ["port 2 packets 1 in 40 out 0 dropped 1/1", "port 3 packets 1 in 90 out 0 dropped 0/1"];
    assert_eq!(surveyed(host, &[file]), text(&[], &ports, &["reason 6 1"]));
}

/// Too short, too long, an earlier clock, a port that is off and one that isn't there.
fn packets_that_the_core_refuses_count_nowhere(host: &mut Host) {
    host.add_local(&LOCAL);
    let day: [(u64, u8, u8, &[u8]); 6] = [
        (10, 3, 0, &here(1)),
        (10, 3, 0, &[0; 18]),
        (10, 3, 0, &[0; 501]),
        (9, 3, 0, &here(2)),
        (10, 4, 0, &here(2)),
        (10, 16, 0, &here(2)),
    ];
    assert_eq!(surveyed(host, &[recorded(host, &day)]), text(&[], &["port 3 packets 1 in 90 out 0 dropped 0/1"], &[]));
}

/// An announce too soon after another, and data too long for the port that its path leaves by.
fn tests_stand_in_the_order_of_the_request(host: &mut Host) {
    let rate = AnnounceRate { target: 60, grace: 0, penalty: 100 };
    assert_eq!(host.program.set_announce_rate(&mut host.tables, &rate), Outcome::Done);
    assert_eq!(host.program.set_port(&mut host.tables, 1, true, 2, 250), Outcome::Done);
    let (news, newer, data) = (announce(1, 0x01, 1, 5, 245), announce(1, 0x01, 1, 6, 245), to_station(1, 0x40, 0, &[1; 216]));
    let file = recorded(host, &[(10, 1, 1, &news), (20, 1, 1, &newer), (30, 2, 0, &data)]);
    let ports = [
        "port 0 packets 0 in 0 out 261 dropped 0/1",
        "port 1 packets 2 in 490 out 0 dropped 1/2",
        "port 2 packets 1 in 251 out 261 dropped 1/1",
        "port 3 packets 0 in 0 out 261 dropped 0/1",
    ];
    assert_eq!(surveyed(host, &[file]), text(&[], &ports, &["reason 15 1", "reason 16 1"]));
}

/// Whatever the recordings are.
fn a_refused_settings_file_is_told_alone(host: &mut Host) {
    let whole = settings(host);
    let changed = |at: usize, byte: u8| {
        let mut file = whole.clone();
        file[at] = byte;
        file
    };
    for (file, refusal) in [
        (vec![], 20),
        (whole[..LENGTH - 1].to_vec(), 20),
        ([&whole[..], &[0]].concat(), 20),
        (changed(0, 1), 21),
        (changed(1, 6), 21),
        (changed(7, 53), 22),
        (changed(52 + 36, 2), 24),
    ] {
        for recordings in [vec![], vec![vec![1, 1, 0, 0]], vec![vec![]; 17]] {
            assert_eq!(host.program.survey(&file, &recordings), format!("settings refused {refusal}\n"));
        }
    }
}
