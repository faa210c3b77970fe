//! Announces of our own: the core against the independent program, at the edge of every length, and on random ones. After every call the number and the
//! whole buffer are compared, and the core reads back what it built.

use super::{Called, Options, Tally};
use crate::announcing::Own;
use crate::core::crossing;
use crate::engine::{AnnounceCalls, PacketCalls};
use crate::limits::CLOCK_LIMIT;
use crate::linked::Core;
use crate::packet::{self, Parts};
use crate::random::Random;
use crate::relay::Relay;
use crate::rules::AsWritten;

/// Each answer is given at least so often.
const LEAST: usize = 100;
/// Refusals of these calls, and 0 for none.
const ANSWERS: [u32; 5] = [0, 26, 5, 27, 6];

/// Lengths of keys, name hash, random bytes, ratchet, app data and signature, the good ones first; a clock; a room.
#[derive(Clone, Copy)]
struct Case {
    keys: usize,
    name_hash: usize,
    random: usize,
    ratchet: usize,
    app_data: usize,
    signature: usize,
    clock: u64,
    room: usize,
}

const GOOD: Case = Case { keys: 64, name_hash: 10, random: 5, ratchet: 0, app_data: 9, signature: 64, clock: 1_700_000_000, room: 500 };
const APP_DATA: [usize; 10] = [0, 1, 269, 300, 301, 302, 332, 333, 334, 70_000];
const CLOCKS: [u64; 5] = [0, 0x01_0203_0405, CLOCK_LIMIT - 1, CLOCK_LIMIT, u64::MAX];
const ROOMS: [usize; 5] = [0, 433, 499, 500, 501];

/// Cases of right lengths, and with each wrong length.
fn lengths() -> Vec<Case> {
    let mut cases = vec![GOOD, Case { ratchet: 32, ..GOOD }];
    for wrong in [0, 63, 65, 128] {
        cases.extend([Case { keys: wrong, ..GOOD }, Case { signature: wrong, ..GOOD }]);
    }
    cases.extend([0, 9, 11, 20].map(|name_hash| Case { name_hash, ..GOOD }));
    cases.extend([0, 4, 6, 10].map(|random| Case { random, ..GOOD }));
    cases.extend([1, 31, 33, 64].map(|ratchet| Case { ratchet, ..GOOD }));
    cases
}

/// All of them, with each app data, clock and room.
fn edges() -> Vec<Case> {
    let mut cases = Vec::new();
    for case in lengths() {
        for app_data in APP_DATA {
            for clock in CLOCKS {
                cases.extend(ROOMS.map(|room| Case { app_data, clock, room, ..case }));
            }
        }
    }
    cases
}

/// Right lengths mostly, and any app data.
fn any(random: &mut Random) -> Case {
    let (ratchet, app_data) = (random.pick(&[0, 32]), random.below(345));
    let case = if random.one_in(4) { random.pick(&lengths()) } else { Case { ratchet, ..GOOD } };
    Case { app_data, clock: random.word() >> random.below(64), room: 490 + random.below(40), ..case }
}

/// What both calls of a case do: number and buffer of each.
fn calls(program: &dyn AnnounceCalls, case: &Case, bytes: &[u8]) -> [Called; 2] {
    let mut from = bytes;
    let mut take = |length: usize| from.split_off(..length).expect("there are enough");
    let (keys, name_hash, random) = (take(case.keys), take(case.name_hash), take(case.random));
    let (ratchet, signature, app_data) = (take(case.ratchet), take(case.signature), take(case.app_data));
    let own = Own { keys, name_hash, random, clock: case.clock, ratchet, app_data };
    let (mut signing, mut built) = (vec![bytes[0]; case.room], vec![bytes[0]; case.room]);
    let numbers = (program.signing_bytes(&own, &mut signing), program.build_announce(&own, signature, &mut built));
    [Called::new(numbers.0, &signing), Called::new(numbers.1, &built)]
}

/// Does the core read the parts of what it built?
fn reads_back(built: &Called) -> bool {
    let packet = &built.buffer[..(built.number >> 16) as usize];
    let parts = packet::read(&AsWritten, packet, packet.len()).unwrap_or(Parts::default());
    let mut read = [0; 35];
    Core.read(packet, packet.len() as u64, &mut read) == 0
        && read == crossing(&parts)
        && [0x01, 0x21].contains(&read[0])
        && read[1] == 0
        && read[34] == 0
}

pub fn run(options: &Options, tally: &mut Tally) {
    let own = Relay::as_written();
    let mut random = Random::new(options.seed);
    let mut reached = [0; ANSWERS.len()];
    let cases: Vec<Case> = edges().into_iter().chain((0..options.count).map(|_| any(&mut random))).collect();
    for case in cases {
        let bytes = random.bytes(500 + case.app_data);
        let (got, expected) = (calls(&Core, &case, &bytes), calls(&own, &case, &bytes));
        let built = got[1].clone();
        for ((what, got), expected) in ["signing bytes", "announce"].iter().zip(got).zip(expected) {
            let answer = ANSWERS.iter().position(|answer| u64::from(*answer) == expected.number & 0xffff);
            answer.into_iter().for_each(|answer| reached[answer] += 1);
            tally.call(&format!("{what}, app data of {} bytes", case.app_data), got, expected, options.damage);
        }
        if built.number & 0xffff == 0 {
            tally.holds("a built announce reads back", reads_back(&built), options.damage);
        }
    }
    for (answer, times) in ANSWERS.iter().zip(reached) {
        let what = if *answer == 0 { "announces and signing bytes".to_string() } else { format!("refusal {answer}") };
        println!("{what}: {times}");
        tally.holds(&format!("{what} at least {LEAST} times"), times >= LEAST, options.damage);
    }
}

/// Do two programs differ at an edge?
pub fn programs_differ(got: &dyn AnnounceCalls, expected: &dyn AnnounceCalls) -> bool {
    let mut random = Random::new(1);
    edges().iter().any(|case| {
        let bytes = random.bytes(500 + case.app_data);
        calls(got, case, &bytes) != calls(expected, case, &bytes)
    })
}
