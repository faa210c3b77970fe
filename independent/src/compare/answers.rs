//! The text of answers: the core against the independent program, on every answer that a call can give, with the values that it can tell.

use super::{Called, Options, Tally};
use crate::answer::{no_way_on, Answer, Clause, NoWay, Reason, Refusal, Verdict};
use crate::core::LINE;
use crate::engine::{encoded, AnswerCalls, Outcome};
use crate::limits::{CLOCK_LIMIT, LATEST};
use crate::linked::Core;
use crate::random::Random;
use crate::relay::Relay;
use crate::rules::AsWritten;
use std::fmt;

/// What a buffer holds before each call.
const BEFORE: u8 = 0xa5;
/// The lengths that clauses of test 3 tell; those of the others are 0.
const LEAST: [(Clause, u64); 4] =
    [(Clause::AnnounceTooShort, 148), (Clause::AnnounceTooShort, 180), (Clause::RequestTooShort, 64), (Clause::LinkProofLength, 96)];
/// Expiries where the text grows or a width ends, up to 41 bits.
const EXPIRIES: [u64; 20] = [
    0,
    1,
    9,
    10,
    11,
    99,
    100,
    255,
    256,
    22_600,
    65_535,
    65_536,
    (1 << 32) - 1,
    1 << 32,
    999_999_999_999,
    1_000_000_000_000,
    CLOCK_LIMIT - 1,
    CLOCK_LIMIT,
    LATEST,
    (1 << 41) - 1,
];
/// Kinds of answers, of which there are no more.
const KINDS: u64 = 6;

/// An answer's text as a call leaves it.
#[derive(PartialEq, Eq)]
pub struct Text {
    length: usize,
    bytes: [u8; LINE],
}

impl Text {
    pub fn of(program: &impl AnswerCalls, answer: u64) -> Self {
        let mut bytes = [BEFORE; LINE];
        let length = program.answer_text(answer, &mut bytes);
        Self { length, bytes }
    }

    fn called(&self) -> Called {
        Called::new(self.length as u64, &self.bytes)
    }
}

impl fmt::Debug for Text {
    fn fmt(&self, f: &mut fmt::Formatter) -> fmt::Result {
        write!(f, "{:?} of {} bytes", String::from_utf8_lossy(&self.bytes).trim_end_matches('\0'), self.length)
    }
}

/// Every reason, with the clauses and lengths that a packet can be dropped with.
fn reasons() -> Vec<Reason> {
    let told = |clause: &Clause| LEAST.iter().any(|(other, _)| other == clause);
    let plain = Clause::ALL.iter().filter(|clause| !told(clause)).map(|clause| (*clause, 0));
    let forms = plain.chain(LEAST).map(|(clause, least)| Reason::BadForm { clause, least });
    let cases = [NoWay::NotAsking, NoWay::NoPath, NoWay::NoLink, NoWay::NotProved, NoWay::NoReturn].map(no_way_on);
    Reason::PLAIN.into_iter().chain(forms).chain(cases).chain(EXPIRIES.map(expired)).collect()
}

fn expired(expiry: u64) -> Reason {
    no_way_on(NoWay::OnlyExpired { expiry })
}

/// Every verdict but sets of ports, of which there are some.
fn verdicts() -> Vec<Verdict> {
    let sets = [1, 2, 0x8000, 0x8001, 0x0022, 0x7fff, 0xffff].map(Verdict::Spread);
    let drops = reasons().into_iter().map(Verdict::Drop);
    drops.chain((0..16).map(Verdict::Forward)).chain(sets).chain([Verdict::Deliver, Verdict::Kept]).collect()
}

/// An expiry of any width, or a set of ports.
fn any(random: &mut Random) -> Verdict {
    let word = random.word();
    if random.one_in(2) {
        Verdict::Spread(word as u16 | 1 << (word >> 16 & 0xf))
    } else {
        Verdict::Drop(expired(word >> (23 + random.below(41))))
    }
}

/// The numbers of answers to random packets of either type, which lose or gain nothing here; and numbers of no kind that there is.
fn numbers(random: &mut Random, count: usize) -> Vec<u64> {
    let random_ones: Vec<Verdict> = (0..count).map(|_| any(random)).collect();
    let mut numbers: Vec<u64> = Refusal::ALL.iter().map(|refusal| encoded(&Outcome::Refused(refusal.number()), &[])).collect();
    for verdict in verdicts().into_iter().chain(random_ones) {
        let leaves = matches!(verdict, Verdict::Forward(_) | Verdict::Spread(_));
        let length = if leaves { random.pick(&[19, 35, 200, 500]) } else { 0 };
        let header = random.pick(&[0x00, 0x40]);
        numbers.push(encoded(&Outcome::Judged(Answer { verdict, length }), &[header; 40]));
    }
    numbers.extend((KINDS..256).map(|kind| random.word() & !0xff | kind));
    numbers
}

pub fn run(options: &Options, tally: &mut Tally) {
    let own = Relay::new(AsWritten);
    for number in numbers(&mut Random::new(options.seed), options.count) {
        let (got, expected) = (Text::of(&Core, number), Text::of(&own, number));
        tally.call(&format!("text of {number:x}: got {got:?}, expected {expected:?}"), got.called(), expected.called(), options.damage);
    }
}
