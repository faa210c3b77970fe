//! What hosts ask: the calls that read the tables, and whether the signature word matters.

use crate::host::{announce, destination, link_id, return_key, to_station, type_1, Host, NEIGHBOUR, OWN};
use haskumye_independent::engine::Outcome;
use haskumye_independent::relay::asking::Question;
use haskumye_independent::relay::Arrival;
use haskumye_independent::tables::{AnnounceRate, LAST_CLOCK, PATHS, PORTS};

crate::on_both_programs!(
    a_ports_settings(OffPortNone),
    local_addresses(EmptyPlaceTold),
    a_path_at_its_place(ExpiredPathNone),
    a_live_path(LivePathAtExpiry),
    of_two_live_paths_the_lower(HigherPathTold),
    a_link(PlaceCut),
    counts(CountedAtExpiry),
    the_last_clock(QuestionSetsClock),
    the_announce_rate(RateToldSwapped),
    a_paths_rate(BlockToldFirst),
    bad_tables(LastClockUnrefused),
    words_of_announces(WordOfAccepted),
    words_of_duplicates(WordOfDuplicates),
    words_of_proofs(WordOfAnyProof),
    words_refused(WordNeedsNoRoom),
);

const FILL: u8 = 0x5a;

/// What is told; nothing else than a told reply changes.
fn ask(host: &mut Host, question: Question) -> Result<Vec<u8>, Outcome> {
    let before = host.tables.clone();
    let mut reply = vec![FILL; question.width()];
    let outcome = host.program.ask(&mut host.tables, &question, &mut reply);
    assert!(host.tables == before);
    if outcome == Outcome::Done {
        return Ok(reply);
    }
    assert!(reply.iter().all(|byte| *byte == FILL));
    Err(outcome)
}

fn matters(host: &mut Host, packet: &[u8], port: u64, clock: u64) -> Outcome {
    let before = host.tables.clone();
    let outcome = host.program.signature_matters(&mut host.tables, 500, &Arrival { packet, port, clock, signature: true });
    assert!(host.tables == before);
    outcome
}

fn number(number: u64) -> Result<Vec<u8>, Outcome> {
    Ok(number.to_be_bytes().to_vec())
}

fn a_ports_settings(host: &mut Host) {
    host.set_port(15, false, 2);
    for (port, [on, mode]) in [(0, [1, 0]), (1, [1, 2]), (2, [1, 1]), (4, [0, 0]), (15, [0, 2])] {
        assert_eq!(ask(host, Question::Port(port)), Ok(vec![on, mode, 1, 0xf4]));
    }
    for port in [16, 256, u64::MAX] {
        assert_eq!(ask(host, Question::Port(port)), Err(Outcome::Nothing));
    }
}

fn local_addresses(host: &mut Host) {
    host.add_local(&[3; 16]);
    host.add_local(&[4; 16]);
    host.remove_local(&[3; 16]);
    for place in [0, 2, 15, 16, u64::MAX] {
        assert_eq!(ask(host, Question::Local(place)), Err(Outcome::Nothing), "{place}");
    }
    assert_eq!(ask(host, Question::Local(1)), Ok(vec![4; 16]));
}

/// Of an announce in type 2 that came in by port 3 at clock 10, with two hops.
fn path_of(station: u8) -> Vec<u8> {
    let rate = [&10u64.to_be_bytes()[..], &[0; 9]].concat();
    [&destination(station)[..], &[3, 2], &NEIGHBOUR, &604_810u64.to_be_bytes(), &rate, &[0, 1]].concat()
}

fn a_path_at_its_place(host: &mut Host) {
    host.verdict(&announce(1, 0x41, 2, 5, 200), 3, 10);
    assert_eq!(ask(host, Question::Path(0)), Ok(path_of(1)));
    for place in [1, 63, 64, 256, u64::MAX] {
        assert_eq!(ask(host, Question::Path(place)), Err(Outcome::Nothing), "{place}");
    }
    host.verdict(&to_station(1, 0x40, 0, b"a"), 0, 604_810);
    assert_eq!(ask(host, Question::Path(0)), Ok(path_of(1)));
}

fn a_live_path(host: &mut Host) {
    host.verdict(&announce(1, 0x41, 2, 5, 200), 3, 10);
    let at = |clock| Question::LivePath { destination: destination(1), clock };
    for clock in [0, 10, 604_809] {
        assert_eq!(ask(host, at(clock)), Ok(path_of(1)), "{clock}");
    }
    for clock in [604_810, 604_811, u64::MAX] {
        assert_eq!(ask(host, at(clock)), Err(Outcome::Nothing), "{clock}");
    }
    assert_eq!(ask(host, Question::LivePath { destination: destination(2), clock: 10 }), Err(Outcome::Nothing));
}

fn of_two_live_paths_the_lower(host: &mut Host) {
    host.verdict(&announce(1, 0x41, 2, 5, 200), 3, 10);
    let record = host.path(0).to_vec();
    let at = PATHS.records.range(9).start;
    host.tables[at..at + record.len()].copy_from_slice(&record);
    host.tables[at + 18] = 77;
    let question = Question::LivePath { destination: destination(1), clock: 11 };
    assert_eq!(ask(host, question), Ok(path_of(1)));
}

fn a_link(host: &mut Host) {
    host.verdict(&announce(1, 0x01, 4, 5, 200), 3, 10);
    let request = to_station(1, 0x42, 6, &[9; 64]);
    host.verdict(&request, 1, 20);
    let link = [&link_id(&request)[..], &[1, 3, 6, 4, 0], &50u64.to_be_bytes()].concat();
    assert_eq!(ask(host, Question::Link(0)), Ok(link));
    for place in [1, 64, 256, u64::MAX] {
        assert_eq!(ask(host, Question::Link(place)), Err(Outcome::Nothing), "{place}");
    }
}

fn counts(host: &mut Host) {
    host.verdict(&announce(1, 0x01, 4, 5, 200), 3, 10);
    host.verdict(&to_station(1, 0x40, 0, b"a"), 0, 20);
    host.verdict(&to_station(1, 0x40, 0, b"b"), 0, 25);
    for (clock, returns) in [(0, 2), (1_819, 2), (1_820, 1), (1_824, 1), (1_825, 0), (u64::MAX, 0)] {
        assert_eq!(ask(host, Question::LiveReturns(clock)), number(returns), "{clock}");
    }
    for (clock, hashes) in [(0, 3), (309, 3), (310, 2), (319, 2), (320, 1), (324, 1), (325, 0)] {
        assert_eq!(ask(host, Question::LiveHashes(clock)), number(hashes), "{clock}");
    }
}

fn the_last_clock(host: &mut Host) {
    assert_eq!(ask(host, Question::LastClock), number(0));
    host.verdict(&announce(1, 0x01, 4, 5, 200), 3, 0x01_0203_0405);
    assert_eq!(ask(host, Question::LiveHashes(0xff_ffff_ffff)), number(0));
    assert_eq!(ask(host, Question::LastClock), number(0x01_0203_0405));
}

fn the_announce_rate(host: &mut Host) {
    assert_eq!(ask(host, Question::AnnounceRate), Ok(vec![0; 12]));
    host.program.set_announce_rate(&mut host.tables, &AnnounceRate { target: 0x0102, grace: 3, penalty: 0x04_0506 });
    assert_eq!(ask(host, Question::AnnounceRate), Ok(vec![0, 0, 1, 2, 0, 0, 0, 3, 0, 4, 5, 6]));
}

fn a_paths_rate(host: &mut Host) {
    host.program.set_announce_rate(&mut host.tables, &AnnounceRate { target: 100, grace: 0, penalty: 5 });
    host.verdict(&announce(1, 0x41, 2, 5, 200), 3, 10);
    assert_eq!(ask(host, Question::Path(0)), Ok(path_of(1)));
    host.verdict(&announce(1, 0x41, 2, 6, 200), 3, 20);
    let mut path = path_of(1);
    path[50] = 1;
    path[58] = 115;
    assert_eq!(ask(host, Question::Path(0)), Ok(path.clone()));
    assert_eq!(ask(host, Question::LivePath { destination: destination(1), clock: 20 }), Ok(path.clone()));
    assert_eq!(host.program.mark_unresponsive(&mut host.tables, &destination(1), 20), Outcome::Done);
    path[59] = 1;
    assert_eq!(ask(host, Question::Path(0)), Ok(path));
}

fn bad_tables(host: &mut Host) {
    let questions = [
        Question::Port(16),
        Question::Local(16),
        Question::Path(64),
        Question::Link(64),
        Question::LivePath { destination: OWN, clock: 0 },
        Question::LiveReturns(0),
        Question::LiveHashes(0),
        Question::LastClock,
        Question::AnnounceRate,
    ];
    for (at, byte) in [(LAST_CLOCK, 1), (PORTS.start, 2)] {
        let before = host.tables[at];
        host.tables[at] = byte;
        for question in &questions {
            assert_eq!(ask(host, question.clone()), Err(Outcome::Refused(7)), "{question:?}");
        }
        host.tables[at] = before;
    }
    host.tables.pop();
    for question in questions {
        assert_eq!(ask(host, question), Err(Outcome::Refused(7)));
    }
}

/// A replay is dropped with the word yes too, for another reason.
fn words_of_announces(host: &mut Host) {
    let first = announce(1, 0x01, 2, 5, 200);
    assert_eq!(matters(host, &first, 3, 10), Outcome::Matters(true));
    host.verdict(&first, 3, 10);
    assert_eq!(matters(host, &announce(1, 0x01, 3, 5, 201), 3, 11), Outcome::Matters(true));
    assert_eq!(matters(host, &announce(1, 0x01, 128, 6, 200), 3, 11), Outcome::Matters(false));
    assert_eq!(matters(host, &announce(1, 0x01, 0, 5, 130), 3, 11), Outcome::Matters(false));
    host.add_local(&destination(2));
    assert_eq!(matters(host, &announce(2, 0x01, 0, 5, 200), 3, 11), Outcome::Matters(false));
}

fn words_of_duplicates(host: &mut Host) {
    let packet = announce(1, 0x01, 2, 5, 200);
    host.judged(&packet, 3, 10, false);
    assert_eq!(matters(host, &packet, 3, 309), Outcome::Matters(false));
    assert_eq!(matters(host, &packet, 3, 310), Outcome::Matters(true));
}

/// A link proof's by the right port and with the right hops alone, once; no ordinary proof's.
fn words_of_proofs(host: &mut Host) {
    host.verdict(&announce(1, 0x01, 4, 5, 200), 3, 10);
    let request = to_station(1, 0x42, 6, &[9; 64]);
    host.verdict(&request, 1, 20);
    let proof = |hops: u8| type_1(0x0f, hops, link_id(&request), 0xff, &[8; 96]);
    assert_eq!(matters(host, &proof(4), 3, 21), Outcome::Matters(true));
    assert_eq!(matters(host, &proof(4), 2, 21), Outcome::Matters(false));
    assert_eq!(matters(host, &proof(3), 3, 21), Outcome::Matters(false));
    host.verdict(&proof(4), 3, 21);
    assert_eq!(matters(host, &type_1(0x0f, 4, link_id(&request), 0xff, &[7; 96]), 3, 22), Outcome::Matters(false));
    let data = to_station(1, 0x40, 0, b"a");
    host.verdict(&data, 0, 30);
    assert_eq!(matters(host, &type_1(0x03, 0, return_key(&data), 0, b"1"), 3, 31), Outcome::Matters(false));
}

/// 7, 6, 4, 5, 1, 2, 3 and 1, as the packet call is.
fn words_refused(host: &mut Host) {
    let packet = announce(1, 0x01, 2, 5, 200);
    host.verdict(&packet, 3, 10);
    let access = [&[0x80][..], &[0; 20]].concat();
    let short_2 = [&[0x40][..], &[0; 20]].concat();
    let cases: [(&[u8], usize, u64, u64, u8); 8] = [
        (&[], 499, 16, 9, 6),
        (&[], 500, 16, 9, 4),
        (&[], 500, 4, 9, 4),
        (&[], 500, 3, 9, 5),
        (&[0x80; 18], 500, 3, 10, 1),
        (&[0x80; 501], 500, 3, 10, 2),
        (&access, 500, 3, 10, 3),
        (&short_2, usize::MAX, 3, 10, 1),
    ];
    for (packet, room, port, clock, number) in cases {
        let arrival = Arrival { packet, port, clock, signature: true };
        assert_eq!(host.program.signature_matters(&mut host.tables, room, &arrival), Outcome::Refused(number));
        let arrival = Arrival { clock: 1 << 40, ..arrival };
        assert_eq!(host.program.signature_matters(&mut host.tables[1..], room, &arrival), Outcome::Refused(7));
    }
}
