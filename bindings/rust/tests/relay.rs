//! A relay through the library: each verdict, each refusal, and a receipt that comes home after a renumbering.

use haskumye::raw::{
    DESTINATION_LINK, DESTINATION_PLAIN, HEADER_ACCESS_CODE, HEADER_CONTEXT_FLAG, HEADER_TRANSPORT, HEADER_TYPE_2, PACKET_ANNOUNCE,
    PACKET_LINK_REQUEST, PACKET_PROOF,
};
use haskumye::*;

const OWN: Address = [0x0a; 16];
const REVERSED: PortMap = [15, 14, 13, 12, 11, 10, 9, 8, 7, 6, 5, 4, 3, 2, 1, 0];

/// A relay whose first ports are on.
fn relay(ports: u8) -> Relay {
    let mut relay = Relay::fresh(&OWN);
    for port in 0..ports {
        relay.set_port(port, true, Mode::Boundary, LONGEST_PACKET).unwrap();
    }
    relay
}

fn packet(parts: Parts, payload: &[u8]) -> Vec<u8> {
    let mut output = [0; OUTPUT_SIZE];
    let length = write(&parts, payload, &mut output).unwrap();
    output[..length].to_vec()
}

/// An announce that was emitted at a time, and the destination that it announces.
fn announce(emission: u8) -> (Vec<u8>, Address) {
    let mut payload = [0x5a; 148];
    payload[79..84].copy_from_slice(&[0, 0, 0, 0, emission]);
    let destination = announced_destination(&payload);
    (packet(Parts { header: PACKET_ANNOUNCE, destination, ..Parts::default() }, &payload), destination)
}

/// Data that asks us to carry it to a destination.
fn data(destination: Address, payload: &[u8]) -> Vec<u8> {
    packet(Parts { header: HEADER_TYPE_2 | HEADER_TRANSPORT, relay: OWN, destination, ..Parts::default() }, payload)
}

/// The receipt for a packet.
fn receipt(packet_sent: &[u8]) -> Vec<u8> {
    let destination = packet_hash(packet_sent).unwrap()[..16].try_into().unwrap();
    packet(Parts { header: PACKET_PROOF, destination, ..Parts::default() }, &[0; 64])
}

#[test]
fn an_announce_spreads_or_is_kept() {
    let (announce, destination) = announce(1);
    let mut output = [0xee; OUTPUT_SIZE + 7];
    let ports = PortSet::from_bits(0b101);
    assert_eq!(relay(3).packet(&announce, 1, 0, true, &mut output), Ok(Verdict::Spread { ports, length: 183 }));
    let parts = read(&output[..183], LONGEST_PACKET).unwrap();
    assert_eq!((parts.hops, parts.relay, parts.destination), (1, OWN, destination));
    assert!(output[183..].iter().all(|byte| *byte == 0xee));
    assert_eq!(relay(1).packet(&announce, 0, 0, true, &mut output), Ok(Verdict::Kept));
}

#[test]
fn the_signature_word_counts() {
    let mut relay = relay(2);
    let answer = relay.packet(&announce(1).0, 0, 0, false, &mut [0; OUTPUT_SIZE]);
    assert_eq!(answer, Ok(Verdict::Drop(Reason::NotSigned)));
}

#[test]
fn the_tally_counts_answers() {
    let mut relay = relay(2);
    relay.add_local(&[0x2a; 16]).unwrap();
    let (announce, destination) = announce(1);
    let local = packet(Parts { header: DESTINATION_PLAIN, destination: [0x2a; 16], ..Parts::default() }, b"count");
    let calls = [(&announce, 1), (&announce, 0), (&data(destination, b"count"), 0), (&local, 0), (&local[..18].to_vec(), 0)];
    for (clock, (packet, port)) in (0..).zip(calls) {
        let _ = relay.packet(packet, port, clock, true, &mut [0; OUTPUT_SIZE]);
    }
    assert_eq!(*relay.tally(), Tally { total: 4, dropped: 1, delivered: 1, forwarded: 1, spread: 1, kept: 0 });
}

/// What the relay answers to a receipt after something was done to it, and by which port the receipt came.
fn receipt_after(change: impl Fn(&mut Relay), port: u8) -> Result<Verdict, Refusal> {
    let (mut relay, mut output) = (relay(16), [0; OUTPUT_SIZE]);
    let (announce, destination) = announce(1);
    relay.packet(&announce, 2, 0, true, &mut output)?;
    let data = data(destination, b"42 plants");
    assert_eq!(relay.packet(&data, 5, 1, false, &mut output), Ok(Verdict::Forward { port: 2, length: 28 }));
    change(&mut relay);
    relay.packet(&receipt(&data), port, 2, false, &mut output)
}

#[test]
fn renumbering_keeps_the_receipt() {
    let home = |port| Ok(Verdict::Forward { port, length: 83 });
    assert_eq!(receipt_after(|_| (), 2), home(5));
    assert_eq!(receipt_after(|relay| relay.renumber(&REVERSED).unwrap(), 13), home(10));
    let twice = |relay: &mut Relay| (0..2).for_each(|_| relay.renumber(&REVERSED).unwrap());
    assert_eq!(receipt_after(twice, 2), home(5));
}

#[test]
fn emptied_tables_lose_it() {
    assert_eq!(
        receipt_after(|relay| *relay = self::relay(16), 13),
        Ok(Verdict::Drop(Reason::NoWayOn { case: NoWayOn::NoReturn, expiry: 0 }))
    );
}

/// What a drop by test 3 or 6 tells: the clause with the least length, and the last expiry.
#[test]
fn a_drop_tells_its_clause() {
    let (mut relay, mut output, (announce, destination)) = (relay(2), [0; OUTPUT_SIZE], announce(1));
    let mut judge = |packet: &[u8], clock| match relay.packet(packet, 0, clock, true, &mut output) {
        Ok(Verdict::Drop(reason)) => reason,
        other => panic!("{other:?}"),
    };
    let cut = |least| Reason::BadForm { clause: BadForm::AnnounceTooShort, least };
    let flagged: Vec<u8> = [&[announce[0] | HEADER_CONTEXT_FLAG][..], &announce[1..]].concat();
    assert_eq!((judge(&announce[..announce.len() - 1], 1), judge(&flagged, 1)), (cut(148), cut(180)));
    assert_eq!(judge(&data(destination, b"1"), 1), Reason::NoWayOn { case: NoWayOn::NoPath, expiry: 0 });
    let proof = packet(Parts { header: PACKET_PROOF | DESTINATION_LINK, context: 0xff, ..Parts::default() }, &[0; 97]);
    assert_eq!(judge(&proof, 1), Reason::BadForm { clause: BadForm::LinkProofLength, least: 96 });
    relay.packet(&announce, 1, 1_000, true, &mut output).unwrap();
    let late = relay.packet(&data(destination, b"2"), 0, 605_800, true, &mut output);
    assert_eq!(late, Ok(Verdict::Drop(Reason::NoWayOn { case: NoWayOn::OnlyExpired, expiry: 605_800 })));
}

/// The refusals of packet calls, in the order of their numbers.
#[test]
fn packets_are_refused() {
    let mut relay = relay(1);
    let good = data([0x2a; 16], b"");
    let coded: Vec<u8> = [&[HEADER_ACCESS_CODE][..], &good[1..]].concat();
    relay.packet(&good, 0, 1_000, false, &mut [0; OUTPUT_SIZE]).unwrap();
    let before = relay.clone();
    let long = [0; LONGEST_PACKET + 1];
    let calls: [(&[u8], u8, u64, usize, Refusal); 8] = [
        (&good[..34], 0, 1_000, OUTPUT_SIZE, Refusal::TooShort),
        (&long, 0, 1_000, OUTPUT_SIZE, Refusal::TooLong),
        (&coded, 0, 1_000, OUTPUT_SIZE, Refusal::AccessCode),
        (&good, 1, 1_000, OUTPUT_SIZE, Refusal::ArrivalPort),
        (&good, 255, 1_000, OUTPUT_SIZE, Refusal::ArrivalPort),
        (&good, 0, 999, OUTPUT_SIZE, Refusal::Clock),
        (&good, 0, CLOCK_LIMIT, OUTPUT_SIZE, Refusal::Clock),
        (&good, 0, 1_000, OUTPUT_SIZE - 1, Refusal::Output),
    ];
    for (packet, port, clock, room, refusal) in calls {
        let mut output = vec![0xee; room];
        assert_eq!(relay.packet(packet, port, clock, true, &mut output), Err(refusal));
        assert!(output.iter().all(|byte| *byte == 0xee), "{refusal}");
        assert!(relay == before, "{refusal}");
    }
}

#[test]
fn settings_are_refused() {
    let mut relay = relay(1);
    let address = |number| [number; 16];
    for number in 0..16 {
        relay.add_local(&address(number)).unwrap();
    }
    let before = relay.clone();
    assert_eq!(relay.renumber(&[0; 16]), Err(Refusal::Map));
    assert_eq!(relay.set_port(16, true, Mode::Roaming, LONGEST_PACKET), Err(Refusal::Setting));
    for size in [0, SHORTEST_PACKET - 1, LONGEST_PACKET + 1, 65_536 + 255, usize::MAX] {
        assert_eq!(relay.set_port(0, true, Mode::Roaming, size), Err(Refusal::Setting));
    }
    let limits = AnnounceRate { target: TARGET_LIMIT, grace: GRACE_LIMIT, penalty: PENALTY_LIMIT };
    for over in [
        AnnounceRate { target: TARGET_LIMIT + 1, ..limits },
        AnnounceRate { grace: GRACE_LIMIT + 1, ..limits },
        AnnounceRate { grace: 256, ..limits }, // wider than a byte
        AnnounceRate { penalty: PENALTY_LIMIT + 1, ..limits },
        AnnounceRate { target: u64::MAX, grace: u64::MAX, penalty: u64::MAX },
    ] {
        assert_eq!(relay.set_announce_rate(over), Err(Refusal::Setting));
    }
    assert_eq!(relay.add_local(&address(16)), Err(Refusal::LocalFull));
    assert_eq!(relay.add_local(&address(15)), Err(Refusal::LocalAddress));
    assert_eq!(relay.remove_local(&address(16)), Err(Refusal::LocalAddress));
    assert!(relay == before);
    relay.remove_local(&address(7)).unwrap();
    relay.add_local(&address(16)).unwrap();
    assert_eq!(relay.announce_rate(), AnnounceRate::default());
    relay.set_announce_rate(limits).unwrap();
    assert_eq!(relay.announce_rate(), limits);
}

/// A sensor that announces itself every five seconds: let through while it has grace, then blocked, then heard again.
#[test]
fn a_destination_that_announces_too_often_is_blocked() {
    let (mut relay, mut output) = (relay(2), [0; OUTPUT_SIZE]);
    relay.set_announce_rate(AnnounceRate { target: 60, grace: 2, penalty: 600 }).unwrap();
    let clocks = [1_000, 1_005, 1_010, 1_015, 1_669, 1_670];
    let answers = clocks.into_iter().zip(1..).map(|(clock, emission)| relay.packet(&announce(emission).0, 0, clock, true, &mut output));
    let (spread, dropped) = (Ok(Verdict::Spread { ports: PortSet::from_bits(0b10), length: 183 }), Ok(Verdict::Drop(Reason::RateLimited)));
    assert_eq!(answers.collect::<Vec<_>>(), [spread, spread, spread, dropped, dropped, spread]);
    let path = relay.path(0).unwrap();
    assert_eq!((path.last_announce, path.violations, path.blocked_until), (1_670, 2, 1_670));
}

/// A box dies, and comes back by another way before it announces itself anew: its path leads the new way only where it is marked.
#[test]
fn a_marked_path_is_revived_by_the_announce_that_it_holds() {
    let (mut relay, mut output, (announce, destination)) = (relay(3), [0; OUTPUT_SIZE], announce(5));
    assert_eq!(relay.mark_path_unresponsive(&destination, 1_000), Err(Refusal::NoLivePath));
    relay.packet(&announce, 0, 1_000, true, &mut output).unwrap();
    let mut again = |relay: &mut Relay, clock| relay.packet(&announce, 1, clock, true, &mut output);
    assert_eq!(again(&mut relay, 1_001), Ok(Verdict::Drop(Reason::Duplicate)));
    assert_eq!(again(&mut relay, 1_400), Ok(Verdict::Drop(Reason::Replay)));
    let before = relay.path(0).unwrap();
    assert_eq!(relay.mark_path_unresponsive(&destination, 1_500), Ok(()));
    assert_eq!((relay.path(0), relay.last_clock()), (Some(Path { unresponsive: true, ..before }), 1_500));
    assert_eq!(relay.signature_matters(&announce, 1, 1_500), Ok(true));
    assert_eq!(again(&mut relay, 1_500), Ok(Verdict::Spread { ports: PortSet::from_bits(0b101), length: 183 }));
    assert_eq!(relay.path(0), Some(Path { port: 1, expiry: 1_500 + 604_800, last_announce: 1_500, ..before }));
    assert_eq!(again(&mut relay, 1_501), Ok(Verdict::Drop(Reason::Duplicate)));
}

#[test]
fn marks_are_refused() {
    let (mut relay, (announce, destination)) = (relay(2), announce(5));
    relay.packet(&announce, 0, 1_000, true, &mut [0; OUTPUT_SIZE]).unwrap();
    let (before, expiry) = (relay.clone(), 1_000 + 604_800);
    for (destination, clock, refusal) in [
        (destination, 999, Refusal::Clock),
        (destination, CLOCK_LIMIT, Refusal::Clock),
        ([0x2a; 16], u64::MAX, Refusal::Clock),
        ([0x2a; 16], 1_000, Refusal::NoLivePath),
        (OWN, 1_000, Refusal::NoLivePath),
        (destination, expiry, Refusal::NoLivePath),
    ] {
        assert_eq!(relay.mark_path_unresponsive(&destination, clock), Err(refusal));
    }
    assert!(relay == before);
    for clock in [1_000, expiry - 1, expiry - 1] {
        assert_eq!(relay.mark_path_unresponsive(&destination, clock), Ok(()));
    }
    assert_eq!((relay.last_clock(), *relay.tally()), (expiry - 1, *before.tally()));
}

#[test]
fn the_last_clock_is_read() {
    let mut relay = relay(1);
    assert_eq!(relay.last_clock(), 0);
    relay.packet(&data([0x2a; 16], b""), 0, CLOCK_LIMIT - 1, false, &mut [0; OUTPUT_SIZE]).unwrap();
    assert_eq!(relay.last_clock(), CLOCK_LIMIT - 1);
}

#[test]
fn ports_and_local_addresses_are_told() {
    let mut relay = relay(1);
    relay.set_port(3, true, Mode::Roaming, 258).unwrap();
    relay.add_local(&[0x2a; 16]).unwrap();
    let before = relay.clone();
    assert_eq!(relay.port(0), Some(Port { on: true, mode: Mode::Boundary, size: 500 }));
    assert_eq!(relay.port(1), Some(Port { on: false, mode: Mode::Boundary, size: 500 }));
    assert_eq!(relay.port(3), Some(Port { on: true, mode: Mode::Roaming, size: 258 }));
    assert_eq!(relay.port(16), None);
    assert_eq!([0, 1, LOCAL_COUNT, usize::MAX].map(|place| relay.local(place)), [Some([0x2a; 16]), None, None, None]);
    assert!(relay == before);
}

#[test]
fn a_path_a_receipt_and_a_link_are_told() {
    let (mut relay, mut output, (announce, destination)) = (relay(16), [0; OUTPUT_SIZE], announce(1));
    relay.packet(&announce, 2, 1_000, true, &mut output).unwrap();
    let path = Path {
        destination,
        port: 2,
        hops: 0,
        next_hop: destination,
        expiry: 1_000 + 604_800,
        last_announce: 1_000,
        violations: 0,
        blocked_until: 0,
        unresponsive: false,
        blob_count: 1,
    };
    assert_eq!([0, 1, PATH_COUNT].map(|place| relay.path(place)), [Some(path), None, None]);
    let live = [1_000, path.expiry - 1, path.expiry].map(|clock| relay.live_path(&destination, clock));
    assert_eq!(live, [Some(path), Some(path), None]);
    relay.packet(&data(destination, b"42 plants"), 5, 1_001, false, &mut output).unwrap();
    assert_eq!([1_001, 2_800, 2_801].map(|clock| relay.live_returns(clock)), [1, 1, 0]);
    assert_eq!([1_001, 1_300, u64::MAX].map(|clock| relay.live_hashes(clock)), [2, 1, 0]);
    let header = HEADER_TYPE_2 | HEADER_TRANSPORT | PACKET_LINK_REQUEST;
    let request = packet(Parts { header, relay: OWN, destination, ..Parts::default() }, &[0; 64]);
    relay.packet(&request, 5, 1_002, false, &mut output).unwrap();
    let link = relay.link(0).unwrap();
    assert_eq!((link.id, link.asking, link.answering, link.proved), (link_id(&request).unwrap(), 5, 2, false));
    assert_eq!((link.taken_hops, link.remaining_hops, relay.link(1)), (0, 0, None));
    relay.renumber(&REVERSED).unwrap();
    assert_eq!(relay.path(0), Some(Path { port: 13, ..path }));
    assert_eq!(relay.link(0), Some(Link { asking: 10, answering: 13, ..link }));
}

/// A radio that takes 255 bytes: what comes in by it, what would leave by it, and what is spread.
#[test]
fn a_port_that_carries_less() {
    let (mut relay, mut output, (announce, destination)) = (relay(3), [0; OUTPUT_SIZE], announce(1));
    relay.packet(&announce, 1, 1_000, true, &mut output).unwrap();
    relay.set_port(1, true, Mode::Boundary, 255).unwrap();
    let way = |payload: usize| data(destination, &vec![7; payload]);
    // the last hop takes sixteen bytes off
    assert_eq!(relay.packet(&way(236), 0, 1_001, false, &mut output), Ok(Verdict::Forward { port: 1, length: 255 }));
    assert_eq!(relay.packet(&way(237), 0, 1_001, false, &mut output), Ok(Verdict::Drop(Reason::TooLongForPort)));
    assert_eq!(relay.packet(&way(220), 1, 1_001, false, &mut output), Ok(Verdict::Forward { port: 1, length: 239 }));
    assert_eq!(relay.packet(&way(221), 1, 1_001, false, &mut output), Err(Refusal::TooLong));
    relay.set_port(1, true, Mode::Boundary, 182).unwrap();
    let spread = Verdict::Spread { ports: PortSet::from_bits(0b100), length: 183 };
    assert_eq!(relay.packet(&self::announce(2).0, 0, 1_002, true, &mut output), Ok(spread));
    relay.renumber(&REVERSED).unwrap();
    assert_eq!((relay.port(14).unwrap().size, relay.port(1).unwrap().size), (182, 500));
}

/// The oldest of 65 announces is forgotten, so that it is no replay when it comes round again.
#[test]
fn a_path_holds_64_blobs() {
    let (mut relay, mut output) = (relay(2), [0; OUTPUT_SIZE]);
    for emission in 1..=65 {
        relay.packet(&announce(emission).0, 0, 1_000, true, &mut output).unwrap();
        assert_eq!(relay.path(0).unwrap().blob_count, emission.min(64));
    }
    for (emission, reason) in [(1, Reason::NotBetter), (2, Reason::Replay), (65, Reason::Replay)] {
        assert_eq!(relay.packet(&announce(emission).0, 0, 1_300, true, &mut output), Ok(Verdict::Drop(reason)));
    }
}

#[test]
fn the_signature_is_asked_for_where_it_matters() {
    let (mut relay, (announce, destination)) = (relay(2), announce(1));
    assert_eq!(relay.signature_matters(&announce, 0, 1), Ok(true));
    relay.packet(&announce, 0, 1, true, &mut [0; OUTPUT_SIZE]).unwrap();
    assert_eq!(relay.signature_matters(&announce, 0, 1), Ok(false)); // a duplicate
    assert_eq!(relay.signature_matters(&data(destination, b""), 1, 1), Ok(false));
    assert_eq!(relay.signature_matters(&[], 0, 1), Err(Refusal::TooShort));
    assert_eq!(relay.signature_matters(&announce, 2, 1), Err(Refusal::ArrivalPort));
    assert_eq!(relay.signature_matters(&announce, 0, 0), Err(Refusal::Clock));
}

#[test]
fn a_tally_goes_to_bytes_and_back() {
    let tally = Tally { total: 0x0102_0304, dropped: 1, delivered: 2, forwarded: 3, spread: 4, kept: u32::MAX };
    assert_eq!(tally.to_bytes()[..8], [1, 2, 3, 4, 0, 0, 0, 1]);
    assert_eq!(Tally::from_bytes(&tally.to_bytes()), tally);
}

#[test]
fn tables_go_out_and_come_in_again() {
    let relay = relay(5);
    let tables = relay.tables();
    assert_eq!(Relay::from_tables(tables, *relay.tally()), Ok(relay.clone()));
    assert_eq!(Relay::from_tables(&tables[1..], Tally::default()), Err(Refusal::Tables));
    let mut bad = tables.to_vec();
    bad[36] = 2; // the mark of port 0: neither on nor off
    assert_eq!(Relay::from_tables(&[0; TABLE_SIZE], Tally::default()), Err(Refusal::Tables));
    assert_eq!(Relay::from_tables(&bad, Tally::default()), Err(Refusal::Tables));
}
