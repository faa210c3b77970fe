//! Recordings to compare programs on: of random traffic, with the tables that it comes to, and the same damaged.

use crate::answer::Tally;
use crate::compare::renumbering::image;
use crate::engine::{Call, Engine, PacketCall, Run};
use crate::limits::{CLOCK_LIMIT, PORT_COUNT};
use crate::random::Random;
use crate::recording::{contents, count, entry, given, writing, HEAD, LONGEST_FILE};
use crate::relay::renumbering::Map;
use crate::relay::Relay;
use crate::rules::{AsWritten, Tuned};
use crate::traffic::Traffic;

/// Entries and bodies as a writer gets them.
#[derive(Clone, Default)]
pub struct Day {
    pub entries: Vec<u8>,
    pub bodies: Vec<u8>,
}

impl Day {
    pub fn push(&mut self, clock: u64, port: u8, word: u8, body: &[u8]) {
        self.entries.extend(clock.to_be_bytes());
        self.entries.extend([port, word]);
        self.entries.extend((body.len() as u16).to_be_bytes());
        self.bodies.extend(body);
    }

    /// The same with its ports renamed.
    pub fn renamed(&self, map: &Map) -> Self {
        let mut renamed = self.clone();
        for entry in renamed.entries.chunks_exact_mut(given::WIDTH) {
            entry[given::PORT] = image(map, entry[given::PORT].into()) as u8;
        }
        renamed
    }

    pub fn count(&self) -> usize {
        self.entries.len() / given::WIDTH
    }

    pub fn file_length(&self) -> usize {
        writing::file_length(&self.entries, self.bodies.len())
    }

    /// Its file, by the independent writer.
    pub fn file(&self) -> Vec<u8> {
        let mut room = vec![0; self.file_length()];
        writing::put_file(&self.entries, &self.bodies, &mut room);
        room
    }

    /// So many entries without a body, at rising clocks.
    pub fn of_empty(count: usize) -> Self {
        let mut day = Self::default();
        (0..count).for_each(|number| day.push(number as u64, number as u8, 0, &[]));
        day
    }

    /// One entry whose file has this length.
    pub fn of_length(length: usize) -> Self {
        let mut day = Self::default();
        day.push(1_000, 0, 1, &vec![7; length - contents(1)]);
        day
    }
}

/// A relay's tables and tally, and the packets that come to it next.
pub struct Scene {
    pub tables: Vec<u8>,
    pub tally: Tally,
    pub day: Day,
}

/// Scenes of random traffic, lent tables among them.
pub struct Scenes {
    random: Random,
    calls: Traffic,
    run: Run<Relay<Tuned>>,
}

impl Scenes {
    pub fn new(seed: u64) -> Self {
        Self { random: Random::new(seed), calls: Traffic::new(seed), run: Run::new(Relay::new(Tuned)) }
    }

    /// The next call of the traffic, made.
    fn call(&mut self) -> Call {
        let call = self.calls.next().expect("traffic doesn't end");
        self.run.make(&call);
        call
    }

    pub fn scene(&mut self) -> Scene {
        for _ in 0..self.random.below(40) {
            self.call();
        }
        let (mut tables, tally) = (self.run.tables.clone(), self.run.tally);
        let mut day = Day::default();
        for _ in 0..self.random.pick(&[0, 1, 4, 16, 40]) {
            if let Call::Packet(PacketCall { packet, port, clock, signature, .. }) = self.call() {
                if clock < CLOCK_LIMIT {
                    day.push(clock, port.min(255) as u8, signature.into(), &packet);
                }
            }
        }
        if self.random.one_in(4) {
            self.leave_on(&mut tables, day.entries.get(given::PORT).copied().unwrap_or(0));
        }
        Scene { tables, tally, day }
    }

    /// Turns all ports off but one, so that announces by it are kept.
    fn leave_on(&mut self, tables: &mut [u8], port: u8) {
        for other in 0..PORT_COUNT as u64 {
            self.run.engine.set_port(tables, other, other == u64::from(port), 0, 500);
        }
    }
}

/// A damage of a file, mostly one for a refusal: 20, 21, 22 or 23.
pub type Damage = fn(&mut Random, &mut Vec<u8>);

pub const DAMAGES: &[Damage] = &[
    too_long,
    |random, file| file.truncate(random.below(contents(count(file)))),
    |random, file| set(file, 2, random.pick(&[0, 1, 8, 255])),
    |random, file| set(file, 3, random.word() as u8),
    |random, file| set(file, 0, random.pick(&[0, 2, 3, 255])),
    |random, file| set(file, 1, random.pick(&[0, 2, 3, 255])),
    |random, file| change(random, file, entry::OFFSET.end - 1),
    |random, file| change(random, file, entry::OFFSET.start),
    |random, file| change(random, file, entry::LENGTH.end - 1),
    |random, file| change(random, file, entry::LENGTH.start),
    |random, file| file.extend(random.bytes(1)),
    |_, file| file.truncate(file.len().saturating_sub(1)),
    swap_bodies,
    |random, file| set_field(random, file, entry::WORD, &[2, 3, 128, 255]),
    |random, file| set_field(random, file, entry::WORD, &[2, 254]),
    |random, file| set_field(random, file, entry::PORT, &[15, 16, 255]),
    |random, file| change(random, file, entry::CLOCK.start),
];

/// As long as the longest, or longer.
fn too_long(random: &mut Random, file: &mut Vec<u8>) {
    let length = LONGEST_FILE + random.below(3);
    file.resize(length.max(file.len()), 0);
}

fn set(file: &mut [u8], at: usize, byte: u8) {
    if let Some(place) = file.get_mut(at) {
        *place = byte;
    }
}

/// A field's place in some entry of the contents.
fn place(random: &mut Random, file: &[u8], field: usize) -> usize {
    HEAD + random.below(count(file).max(1)) * entry::WIDTH + field
}

fn set_field(random: &mut Random, file: &mut [u8], field: usize, bytes: &[u8]) {
    let at = place(random, file, field);
    set(file, at, random.pick(bytes));
}

/// A byte of a field one higher, one lower, or another.
fn change(random: &mut Random, file: &mut [u8], field: usize) {
    let at = place(random, file, field);
    let byte = file.get(at).copied().unwrap_or(0);
    set(file, at, byte.wrapping_add(random.pick(&[1, 255, 128, 7])));
}

/// The first two bodies in the other order, each whole.
fn swap_bodies(_: &mut Random, file: &mut Vec<u8>) {
    let first = HEAD + entry::OFFSET.start..HEAD + entry::LENGTH.end;
    let second = first.start + entry::WIDTH..first.end + entry::WIDTH;
    if second.end <= file.len() {
        let before = file[first.clone()].to_vec();
        file.copy_within(second.clone(), first.start);
        file[second].copy_from_slice(&before);
    }
}

/// A damage of what a writer is given, mostly one for a refusal: 23, 5, 20.
pub const GIVEN_DAMAGES: &[fn(&mut Random, &mut Day)] = &[
    |random, day| set_given(random, day, given::WORD, &[2, 3, 128, 255]),
    |random, day| set_given(random, day, given::WORD, &[2, 255]),
    |random, day| set_given(random, day, given::CLOCK.start, &[1, 128, 255]),
    |random, day| set_given(random, day, given::CLOCK.start + 2, &[1, 2, 255]),
    |random, day| set_given(random, day, given::CLOCK.start + 3, &[0, 255]),
    |random, day| set_given(random, day, given::LENGTH.end - 1, &[0, 1, 255]),
    |random, day| set_given(random, day, given::LENGTH.start, &[1, 255]),
    |random, day| day.entries.truncate(day.entries.len().saturating_sub(1 + random.below(given::WIDTH))),
    |random, day| day.entries.extend(&random.array::<{ given::WIDTH }>()[random.below(given::WIDTH)..]),
    |random, day| day.bodies.extend(random.bytes(1)),
    |_, day| day.bodies.truncate(day.bodies.len().saturating_sub(1)),
    |random, day| day.push(5, 5, 1, &vec![5; LONGEST_FILE - random.below(100)]),
];

fn set_given(random: &mut Random, day: &mut Day, field: usize, bytes: &[u8]) {
    let at = random.below(day.count().max(1)) * given::WIDTH + field;
    set(&mut day.entries, at, random.pick(bytes));
}

/// A small recording whose packets a fresh relay with ports 0 to 3 on delivers, drops, spreads and refuses; and the relay.
pub fn small() -> Scene {
    use crate::packet::{announced, encode, Header, Parts};
    let relay = Relay::new(AsWritten);
    let mut run = Run::new(relay);
    run.make(&Call::Fresh([0xaa; 16]));
    for port in 0..4 {
        run.make(&Call::SetPort { port, on: true, mode: 0, size: 500 });
    }
    run.make(&Call::AddLocal([9; 16]));
    let parts = |header: u8, destination| Parts { header: Header(header), hops: 1, relay: [0xaa; 16], destination, context: 0 };
    let station = announced::destination(&run.engine.sha, &[3; 64], &[3; 10]);
    let mut day = Day::default();
    day.push(1_000, 0, 0, &encode(&parts(0x00, [9; 16]), b"a"));
    day.push(1_000, 1, 0, &[]);
    day.push(1 << 32, 2, 1, &encode(&parts(0x01, station), &[3; 148]));
    day.push(1 << 32, 3, 1, &encode(&parts(0x40, station), b"b"));
    Scene { tables: run.tables, tally: run.tally, day }
}
