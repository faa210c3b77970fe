//! Recordings through the library: what is written is read, a replay is the packet calls, and each refusal.

use haskumye::raw::{HEADER_TRANSPORT, HEADER_TYPE_2, PACKET_ANNOUNCE};
use haskumye::*;

const OWN: Address = [0x0a; 16];

fn relay() -> Relay {
    let mut relay = Relay::fresh(&OWN);
    for port in 0..3 {
        relay.set_port(port, true, Mode::Boundary, LONGEST_PACKET).unwrap();
    }
    relay
}

fn packet(parts: Parts, payload: &[u8]) -> Vec<u8> {
    let mut output = [0; OUTPUT_SIZE];
    let length = write(&parts, payload, &mut output).unwrap();
    output[..length].to_vec()
}

/// A day's packets: an announce, data, and one that is too short.
fn packets() -> [Vec<u8>; 3] {
    let payload = [0x5a; 148];
    let destination = announced_destination(&payload);
    let announce = packet(Parts { header: PACKET_ANNOUNCE, destination, ..Parts::default() }, &payload);
    let data = packet(Parts { header: HEADER_TYPE_2 | HEADER_TRANSPORT, relay: OWN, destination, ..Parts::default() }, b"42 plants");
    [announce, data, b"noise".to_vec()]
}

fn day(packets: &[Vec<u8>; 3]) -> [Recorded<'_>; 3] {
    [
        Recorded { clock: 1000, port: 1, signature: true, packet: &packets[0] },
        Recorded { clock: 1001, port: 0, signature: false, packet: &packets[1] },
        Recorded { clock: 1002, port: 0, signature: false, packet: &packets[2] },
    ]
}

fn file() -> Vec<u8> {
    let mut room = vec![0xee; RECORDING_SIZE + 5];
    let length = write_recording(&day(&packets()), &mut room).unwrap();
    assert!(room[length..].iter().all(|byte| *byte == 0xee));
    room[..length].to_vec()
}

#[test]
fn what_is_written_is_read() {
    let (packets, file) = (packets(), file());
    let read = entries(&file).unwrap();
    assert_eq!(read.len(), 3);
    assert_eq!(read.collect::<Vec<_>>(), day(&packets));
    let mut again = vec![0; file.len()];
    assert_eq!(write_recording(&entries(&file).unwrap().collect::<Vec<_>>(), &mut again), Ok(file.len()));
    assert_eq!(again, file);
    assert_eq!(write_recording(&[], &mut again), Ok(4));
    assert_eq!(entries(&again[..4]).unwrap().next(), None);
}

#[test]
fn a_replay_is_the_packet_calls() {
    let (file, mut live, mut replayed) = (file(), relay(), relay());
    for (index, entry) in entries(&file).unwrap().enumerate() {
        let answer = live.packet(entry.packet, entry.port, entry.clock, entry.signature, &mut [0; OUTPUT_SIZE]);
        assert_eq!(replayed.replay_entry(&file, index as u64).unwrap().answer, answer);
    }
    assert!(replayed == live);
    let mut relay = relay();
    let lines: Vec<String> = (0..3).map(|index| relay.replay_entry(&file, index).unwrap().line).collect();
    assert_eq!(lines, ["1 spread 0 2", "2 forward 1", "3 refused 1"]);
}

#[test]
fn recordings_are_refused() {
    let (file, mut relay) = (file(), relay());
    let before = relay.clone();
    let spoiled = |at: usize, byte: u8| [&file[..at], &[byte], &file[at + 1..]].concat();
    let files = [
        (file[..3].to_vec(), Refusal::FileLength),
        (spoiled(0, 2), Refusal::FileKind),
        (file[..file.len() - 1].to_vec(), Refusal::FilePlace),
        (spoiled(10, 2), Refusal::SignatureWord),
    ];
    for (file, refusal) in files {
        assert_eq!(check_recording(&file), Err(refusal));
        assert_eq!(entries(&file).err(), Some(refusal));
    }
    assert_eq!(relay.replay_entry(&file, 3), Err(Refusal::FilePlace));
    assert_eq!(relay.replay_entry(&[], 0), Err(Refusal::FilePlace));
    assert!(relay == before);
}

#[test]
fn writing_is_refused() {
    let entry = |clock, packet| Recorded { clock, port: 0, signature: false, packet };
    let long = vec![0; 70_000];
    let mut room = vec![0; RECORDING_SIZE];
    assert_eq!(write_recording(&[entry(CLOCK_LIMIT, &long)], &mut room), Err(Refusal::Clock));
    assert_eq!(write_recording(&[entry(0, &long)], &mut room), Err(Refusal::FileLength));
    assert_eq!(write_recording(&[entry(0, &long[..RECORDING_SIZE - 16])], &mut room), Err(Refusal::FileLength));
    assert_eq!(write_recording(&[entry(0, &long[..RECORDING_SIZE - 17])], &mut room), Ok(RECORDING_SIZE));
    assert_eq!(write_recording(&[entry(0, b"")], &mut room[..16]), Err(Refusal::Room));
}
