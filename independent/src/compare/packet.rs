//! Packets: the core against the sources' worked bytes, and against the independent reader, writer, hashes and announce fields.

use super::{Called, Options, Tally};
use crate::core::LINE;
use crate::engine::PacketCalls;
use crate::limits::LONGEST;
use crate::linked::Core;
use crate::packet::{self, Header, Parts, START_1, START_2};
use crate::random::Random;
use crate::relay::Relay;
use crate::rules::{AsWritten, Rules};
use crate::vectors::{bytes, Worked, WORKED};

/// Lengths where an answer can change: the shortest of both types, a payload of 64 bytes in both, the longest; and some around them.
const EDGES: [usize; 18] = [0, 1, 2, 18, 19, 20, 34, 35, 36, 82, 83, 84, 98, 99, 100, 499, 500, 501];
/// Lengths far past the longest.
const LONG: [usize; 4] = [502, 1_000, 65_536, 1_000_000];
/// Sizes that a reading can be given: the range's ends, a byte's, and those that other widths would cut to one within it.
const SIZES: [u64; 18] = [0, 1, 18, 19, 20, 34, 35, 36, 254, 255, 256, 499, 500, 501, 65_535, 65_536 + 255, (1 << 32) + 500, u64::MAX];
/// Payload lengths where a writing can change: the longest of both types; and rooms for the output.
const PAYLOADS: [usize; 7] = [0, 1, 64, 465, 466, 481, 482];
const ROOMS: [usize; 4] = [0, 499, 500, 501];
/// What a buffer holds before each call.
const BEFORE: u8 = 0xa5;

/// What is asked of each packet.
const QUESTIONS: [&str; 5] = ["reading", "the payload's place", "packet hash", "link id", "the showing program's line"];
/// The answers, in that order; worked bytes give no line.
type Answers = Vec<Called>;

fn call<const N: usize>(function: impl Fn(&mut [u8; N]) -> u8) -> Called {
    let mut buffer = [BEFORE; N];
    let refusal = function(&mut buffer);
    Called::new(refusal, &buffer)
}

fn answers(program: &dyn PacketCalls, packet: &[u8]) -> Answers {
    let mut text = [BEFORE; LINE];
    let length = program.line(packet, &mut text) as u64;
    vec![
        call(|parts| program.read(packet, LONGEST as u64, parts)),
        Called::new(program.payload_start(packet) as u64, &[]),
        call(|hash| program.packet_hash(packet, hash)),
        call(|id| program.link_id(packet, id)),
        Called::new(length, &text),
    ]
}

fn worked_answers(worked: &Worked) -> Answers {
    let parts = [&[worked.header, worked.hops][..], &[0; 16], &bytes(worked.destination), &[worked.context]].concat();
    vec![Called::new(0u8, &parts), Called::new(19u8, &[]), Called::new(0u8, &bytes(worked.hash)), Called::new(0u8, &bytes(worked.link_id))]
}

struct Comparison<'a, R: Rules> {
    options: &'a Options,
    tally: &'a mut Tally,
    random: Random,
    own: Relay<R>,
}

impl<R: Rules> Comparison<'_, R> {
    fn expect(&mut self, what: &str, got: Called, expected: Called) {
        self.tally.call(what, got, expected, self.options.damage);
    }

    fn answers(&mut self, what: &str, got: Answers, expected: Answers) {
        for ((question, got), expected) in QUESTIONS.iter().zip(got).zip(expected) {
            self.expect(&format!("{what}: {question}"), got, expected);
        }
    }

    /// All questions; and if the packet reads, its parts and payload are written again.
    fn packet(&mut self, what: &str, packet: &[u8]) {
        let what = format!("{what}, {} bytes, header {:02x?}", packet.len(), packet.first());
        self.answers(&what, answers(&Core, packet), answers(&self.own, packet));
        if let Ok(parts) = packet::read(&AsWritten, packet, LONGEST) {
            self.writing(&format!("{what}, written again"), &parts, &packet[packet::payload_place(packet)..], LONGEST + 20);
        }
    }

    fn writing(&mut self, what: &str, parts: &Parts, payload: &[u8], room: usize) {
        let before = self.random.bytes(room);
        let written = |program: &dyn PacketCalls| {
            let mut output = before.clone();
            let number = program.write(parts, payload, &mut output);
            Called::new(number, &output)
        };
        let (got, own) = (written(&Core), written(&self.own));
        self.expect(&format!("{what}: writing header {:02x}, {} bytes into {room}", parts.header.0, payload.len()), got, own);
    }

    fn random_packet(&mut self, length: usize, header: u8) -> Vec<u8> {
        let mut packet = self.random.bytes(length);
        if let Some(first) = packet.first_mut() {
            *first = header;
        }
        packet
    }

    fn random_parts(&mut self, header: u8) -> Parts {
        let random = &mut self.random;
        Parts {
            header: Header(header),
            hops: random.word() as u8,
            relay: random.array(),
            destination: random.array(),
            context: random.word() as u8,
        }
    }

    fn worked(&mut self) {
        for worked in WORKED {
            let packet = worked.packet();
            self.answers(&format!("{}, independent", worked.source), answers(&self.own, &packet), worked_answers(worked));
            self.answers(&format!("{}, core", worked.source), answers(&Core, &packet), worked_answers(worked));
        }
    }

    fn headers(&mut self) {
        for header in 0..=255 {
            for length in EDGES {
                let packet = self.random_packet(length, header);
                self.packet("every header", &packet);
            }
            for (length, room) in PAYLOADS.iter().flat_map(|length| ROOMS.map(|room| (*length, room))) {
                let (parts, payload) = (self.random_parts(header), self.random.bytes(length));
                self.writing("every header", &parts, &payload, room);
            }
        }
    }

    fn lengths(&mut self) {
        for length in (0..=LONGEST + 1).chain(LONG) {
            let any = self.random.word() as u8;
            for header in [any & 0x3f, any & 0x3f | 0x40, any | 0x80] {
                let packet = self.random_packet(length, header);
                self.packet("every length", &packet);
            }
        }
    }

    /// A packet read at a size.
    fn reading(&mut self, what: &str, packet: &[u8], size: u64) {
        let (got, own) = (call(|parts| Core.read(packet, size, parts)), call(|parts| self.own.read(packet, size, parts)));
        self.expect(&format!("{what}: reading {} bytes, header {:02x?}, at size {size}", packet.len(), packet.first()), got, own);
    }

    /// Packets about each size, of both types and with the access code bit; and what is written is read back at every size no smaller.
    fn sizes(&mut self) {
        for size in SIZES {
            let about = [size.saturating_sub(1), size, size.saturating_add(1)].map(|length| (length as usize).min(LONGEST + 2));
            for length in EDGES.into_iter().chain(about) {
                for header in [0x00, 0x40, 0x80, 0xc0] {
                    let packet = self.random_packet(length, header);
                    self.reading("sizes", &packet, size);
                }
            }
        }
        for length in (START_2..=LONGEST).step_by(5).chain([START_1, 254, 255, 256, 499]) {
            let packet = self.random_packet(length, if length < START_2 { 0x00 } else { 0x51 });
            for size in length - 1..=LONGEST + 1 {
                self.reading("reading back", &packet, size as u64);
            }
        }
    }

    fn random(&mut self) {
        for _ in 0..self.options.count {
            let (length, header) = (self.random.below(LONGEST + 20), self.random.word() as u8);
            let packet = self.random_packet(length, header);
            self.packet("random", &packet);
            let length = 35 + self.random.below(LONGEST - 34);
            let good = self.random_packet(length, header & 0x7f);
            let damaged = self.damaged(good);
            self.packet("damaged", &damaged);
            let (length, room) = (self.random.below(LONGEST), self.random.pick(&[0, 499, 500, 501, 600]));
            let (parts, payload) = (self.random_parts(header & 0x7f), self.random.bytes(length));
            self.writing("random", &parts, &payload, room);
        }
    }

    /// A bit turned, the end cut off, or bytes added.
    fn damaged(&mut self, mut packet: Vec<u8>) -> Vec<u8> {
        let place = self.random.below(packet.len());
        match self.random.below(3) {
            0 => packet[place] ^= 1 << self.random.below(8),
            1 => packet.truncate(place),
            _ => packet.extend(self.random.bytes(place)),
        }
        packet
    }

    /// A number that both programs give.
    fn number(&mut self, what: &str, asked: impl Fn(&dyn PacketCalls) -> u64) {
        let (got, own) = (asked(&Core), asked(&self.own));
        self.expect(what, Called::new(got, &[]), Called::new(own, &[]));
    }

    fn announces(&mut self) {
        for header in 0..=255 {
            for context in [0, 1] {
                let parts = Parts { header: Header(header), context, ..Parts::default() };
                self.number(&format!("least announce of header {header:02x}"), |program| program.least_announce(&parts) as u64);
            }
        }
        for length in 0..=LONGEST {
            let payload = self.random.bytes(length);
            let announced = |program: &dyn PacketCalls| {
                let mut destination = [BEFORE; 16];
                program.announced_destination(&payload, &mut destination);
                Called::new(0u8, &destination)
            };
            let (got, own) = (announced(&Core), announced(&self.own));
            self.expect(&format!("destination announced in {length} bytes"), got, own);
        }
        let edge = [0, 0, 0, 0, 0, 0x00, 0x65, 0x53, 0xf1, 0x00];
        self.expect("document 01's emission", Called::new(Core.emission(&edge), &[]), Called::new(1_700_000_000u64, &[]));
        for _ in 0..self.options.count {
            let blob = self.random.array();
            self.number(&format!("emission of {blob:02x?}"), |program| program.emission(&blob));
        }
    }
}

pub fn run(options: &Options, tally: &mut Tally) {
    compare_with(AsWritten, options, tally);
}

/// Compares the core with the independent program that reads the scope document so.
pub fn compare_with<R: Rules>(rules: R, options: &Options, tally: &mut Tally) {
    let mut c = Comparison { options, tally, random: Random::new(options.seed), own: Relay::new(rules) };
    c.worked();
    c.headers();
    c.lengths();
    c.sizes();
    c.random();
    c.announces();
}
