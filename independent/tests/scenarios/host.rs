//! A relay of either program, and the packets that scenarios send it.

use haskumye_independent::answer::{no_way_on, Clause, NoWay, Reason, Tally, Verdict};
use haskumye_independent::engine::{Engine, Outcome, PacketCalls, RecordingCalls, SurveyCalls};
use haskumye_independent::limits::LONGEST;
use haskumye_independent::packet::{self, announced, encode, hash, Address, Header, PacketHash, Parts};
use haskumye_independent::relay::Arrival;
use haskumye_independent::rules::AsWritten;
use haskumye_independent::sha256::Sha256;
use haskumye_independent::tables::{PATHS, SIZE};

pub const OWN: Address = [0xaa; 16];
pub const NEIGHBOUR: Address = [0xbb; 16];
/// What the output holds before a call that is to leave it.
pub const BEFORE: [u8; 520] = [0xee; 520];

/// All calls of a program.
pub trait Program: Engine + PacketCalls + RecordingCalls + SurveyCalls {}
impl<P: Engine + PacketCalls + RecordingCalls + SurveyCalls> Program for P {}

/// A relay with ports 0 to 3 on: port 1 roaming, port 2 an access point, the others boundary.
pub struct Host {
    pub program: Box<dyn Program>,
    pub tables: Vec<u8>,
    pub tally: Tally,
    pub output: [u8; 520],
}

impl Host {
    pub fn new(program: impl Program + 'static) -> Self {
        let mut host = Self { program: Box::new(program), tables: vec![0; SIZE], tally: [0; 6], output: BEFORE };
        assert_eq!(host.program.fresh(&mut host.tables, &mut host.tally, &OWN), Outcome::Done);
        for (port, mode) in [(0, 0), (1, 2), (2, 1), (3, 0)] {
            assert_eq!(host.set_port(port, true, mode), Outcome::Done);
        }
        host
    }

    /// With the size that a fresh relay's ports have.
    pub fn set_port(&mut self, port: u64, on: bool, mode: u64) -> Outcome {
        self.program.set_port(&mut self.tables, port, on, mode, 500)
    }

    pub fn add_local(&mut self, address: &Address) -> Outcome {
        self.program.add_local(&mut self.tables, address)
    }

    pub fn remove_local(&mut self, address: &Address) -> Outcome {
        self.program.remove_local(&mut self.tables, address)
    }

    pub fn renumber(&mut self, map: &[u8; 16]) -> Outcome {
        self.program.renumber(&mut self.tables, map)
    }

    /// A packet call that is lent the tables from a byte on, and so much of the output.
    pub fn lend(&mut self, from: usize, room: usize, arrival: Arrival) -> Outcome {
        self.program.packet(&mut self.tables[from..], &mut self.tally, &mut self.output[..room], &arrival)
    }

    pub fn call(&mut self, packet: &[u8], port: u64, clock: u64, signature: bool) -> Outcome {
        self.lend(0, BEFORE.len(), Arrival { packet, port, clock, signature })
    }

    /// The verdict on an accepted packet.
    pub fn judged(&mut self, packet: &[u8], port: u64, clock: u64, signature: bool) -> Verdict {
        match self.call(packet, port, clock, signature) {
            Outcome::Judged(answer) => answer.verdict,
            other => panic!("not judged: {other:?}"),
        }
    }

    /// The same of a packet whose signature is good.
    pub fn verdict(&mut self, packet: &[u8], port: u64, clock: u64) -> Verdict {
        self.judged(packet, port, clock, true)
    }

    pub fn path(&self, place: usize) -> &[u8] {
        PATHS.records.get(&self.tables, place)
    }
}

/// A drop by this clause of test 3, and the length that it tells.
pub fn bad_form(clause: Clause, least: u64) -> Verdict {
    Verdict::Drop(Reason::BadForm { clause, least })
}

/// A drop by test 6 in this case.
pub fn lost(case: NoWay) -> Verdict {
    Verdict::Drop(no_way_on(case))
}

/// A station is a number here: its keys are bytes of that number.
pub fn destination(station: u8) -> Address {
    announced::destination(&Sha256::default(), &[station; 64], &[station; 10])
}

/// An announce of this header, hops, emission and whole length.
pub fn announce(station: u8, header: u8, hops: u8, emission: u64, length: usize) -> Vec<u8> {
    let parts = Parts { header: Header(header), hops, relay: NEIGHBOUR, destination: destination(station), context: 0 };
    let mut payload = vec![station; length - parts.header.payload_start()];
    payload[74..79].fill(emission as u8);
    payload[79..84].copy_from_slice(&emission.to_be_bytes()[3..]);
    encode(&parts, &payload)
}

/// Type 2 data or link request under our own address.
pub fn to_station(station: u8, header: u8, hops: u8, payload: &[u8]) -> Vec<u8> {
    encode(&Parts { header: Header(header), hops, relay: OWN, destination: destination(station), context: 0 }, payload)
}

pub fn type_1(header: u8, hops: u8, destination: Address, context: u8, payload: &[u8]) -> Vec<u8> {
    encode(&Parts { header: Header(header), hops, relay: [0; 16], destination, context }, payload)
}

/// The file of packets: clock, port, signature word, body.
pub fn recorded(host: &Host, packets: &[(u64, u8, u8, &[u8])]) -> Vec<u8> {
    let (mut entries, mut bodies) = (Vec::new(), Vec::new());
    for (clock, port, word, body) in packets {
        entries.extend(clock.to_be_bytes());
        entries.extend([*port, *word]);
        entries.extend((body.len() as u16).to_be_bytes());
        bodies.extend(*body);
    }
    let mut room = vec![0; 4 + 13 * packets.len() + bodies.len()];
    assert_eq!(host.program.write_recording(&entries, &bodies, &mut room), (room.len() as u32) << 16);
    room
}

/// What a replay of a file prints.
pub fn replay(host: &mut Host, file: &[u8]) -> String {
    host.program.replay(file, &mut host.tables, &mut host.tally)
}

/// The parts and the payload of a packet.
fn split(packet: &[u8]) -> (Parts, &[u8]) {
    (packet::read(&AsWritten, packet, LONGEST).expect("it reads"), &packet[packet::payload_place(packet)..])
}

/// The id of the link that a request asks for.
pub fn link_id(request: &[u8]) -> Address {
    let (parts, payload) = split(request);
    hash::link_id(&AsWritten, &Sha256::default(), &parts, payload)
}

pub fn packet_hash(packet: &[u8]) -> PacketHash {
    let (parts, payload) = split(packet);
    hash::packet_hash(&AsWritten, &Sha256::default(), &parts, payload)
}

/// The key of the return record that data leaves, which its receipt is sent to.
pub fn return_key(data: &[u8]) -> Address {
    let hash = packet_hash(data);
    std::array::from_fn(|i| hash[i])
}
