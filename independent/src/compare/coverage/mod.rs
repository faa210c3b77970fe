//! What calls reach, and how often.

mod blobs;
mod files;
mod marks;
mod rates;
mod reasons;
mod sizes;

use crate::answer::{Answer, Verdict};
use crate::engine::{Call, Outcome, PacketCall};
use crate::limits::{EXEMPT_CONTEXTS, HASH_LIFETIME, LONGEST};
use crate::packet::{self, hash, PacketHash};
use crate::relay::asking::{ALWAYS_TOLD, KINDS};
use crate::relay::Packet;
use crate::rules::AsWritten;
use crate::sha256::Sha256;
use crate::tables::{self, HASHES};
use blobs::{has_spare_blobs, Blobs, Held};
pub use files::{Files, OlderFile};
use marks::{Marked, Marks};
use rates::{Found, Rates};
use reasons::Reasons;
use sizes::{Sized, Sizes};
use std::collections::HashMap;

/// How often each refusal, reason and verdict was reached, and packets that are exempt from test 2.
#[derive(Default)]
pub struct Coverage {
    pub calls: usize,
    /// By number: refusals 1 to 11, reasons 1 to 16.
    pub refusals: [usize; 12],
    pub reasons: [usize; 17],
    /// By `Verdict::index`.
    pub verdicts: [usize; 5],
    /// Calls without a packet that were done.
    pub done: usize,
    exempt: Exempt,
    asked: Asked,
    pub files: Files,
    rates: Rates,
    marks: Marks,
    blobs: Blobs,
    sizes: Sizes,
    split: Reasons,
    /// Settings of the announce rate: those set, then refusals by number.
    rate_settings: [usize; 10],
}

/// What a call finds: an exempt packet its hash in the ring, an announce its entry, a marked path and blobs, any packet the expiries of its
/// destination's paths; a save spare blobs, a load an older file.
pub struct Before {
    remembered: bool,
    found: Option<Found>,
    marked: Option<Marked>,
    held: Option<Held>,
    sized: Option<Sized>,
    expiries: Vec<u64>,
    spare: bool,
    older: Option<OlderFile>,
}

/// Questions, by their answers.
#[derive(Default)]
struct Asked {
    /// By `Question::kind`: what was told, none and refusal 7.
    replies: [[usize; 3]; KINDS.len()],
    /// Whether the signature word matters: refusals by number, then no and yes.
    refusals: [usize; 8],
    matters: [usize; 2],
}

/// A refusal's number in words.
pub fn answer(refusal: usize) -> String {
    if refusal == 0 {
        "done".to_string()
    } else {
        format!("refusal {refusal}")
    }
}

/// Exempt packets that were forwarded: those that came before within the time that a hash is remembered, and those whose hash was live in
/// the ring.
#[derive(Default)]
struct Exempt {
    sha: Sha256,
    /// When each was forwarded last.
    forwarded: HashMap<PacketHash, u64>,
    /// By the context's place in `EXEMPT_CONTEXTS`.
    again: [usize; 6],
    remembered: [usize; 6],
}

impl Exempt {
    /// The place of an exempt packet's context, and its hash.
    fn place(&self, packet: &[u8]) -> Option<(usize, PacketHash)> {
        let parts = packet::read(&AsWritten, packet, LONGEST).ok()?;
        let place = EXEMPT_CONTEXTS.iter().position(|context| parts.header.to_link() && parts.context == *context)?;
        Some((place, hash::packet_hash(&AsWritten, &self.sha, &parts, &packet[packet::payload_place(packet)..])))
    }
}

impl Coverage {
    /// Makes a call count; questions, saves, loads and settings of the announce rate count by themselves.
    pub fn count_call(&mut self, call: &Call, outcome: &Outcome) {
        match (call, outcome) {
            (Call::Ask { question, .. }, _) => {
                let answer = [Outcome::Done, Outcome::Nothing].iter().position(|answer| answer == outcome).unwrap_or(2);
                self.asked.replies[question.kind()][answer] += 1;
            }
            (Call::Matters { .. }, Outcome::Matters(matters)) => self.asked.matters[usize::from(*matters)] += 1,
            (Call::Matters { .. }, Outcome::Refused(number)) => self.asked.refusals[usize::from(*number).min(7)] += 1,
            (Call::Save { .. }, _) => self.files.saves[refusal(outcome)] += 1,
            (Call::Load, _) => self.files.loads[refusal(outcome)] += 1,
            (Call::SetAnnounceRate(_), _) => self.rate_settings[refusal(outcome).min(9)] += 1,
            (Call::Mark { .. }, _) => self.marks.marks[refusal(outcome).min(12)] += 1,
            _ => self.count(outcome),
        }
        self.sizes.count_setting(call, outcome);
    }

    /// Makes the outcome of another call count.
    pub fn count(&mut self, outcome: &Outcome) {
        self.calls += 1;
        match outcome {
            Outcome::Refused(number) => self.refusals[usize::from(*number).min(11)] += 1,
            Outcome::Done => self.done += 1,
            Outcome::Nothing | Outcome::Matters(_) | Outcome::Saved(_) => {}
            Outcome::Judged(answer) => {
                self.verdicts[answer.verdict.index()] += 1;
                if let Verdict::Drop(reason) = answer.verdict {
                    self.reasons[usize::from(reason.number())] += 1;
                }
            }
        }
    }

    /// What is looked up before a call, in the tables and in the kept file.
    pub fn before(&mut self, call: &Call, tables: &[u8], file: &[u8]) -> Before {
        Before {
            remembered: self.is_remembered(call, tables),
            found: Found::before(call, tables),
            marked: Marked::before(&self.exempt.sha, call, tables),
            held: Held::before(call, tables),
            sized: Sized::before(&self.exempt.sha, call, tables),
            expiries: self.split.before(call, tables),
            spare: matches!(call, Call::Save { .. }) && has_spare_blobs(tables),
            older: matches!(call, Call::Load).then(|| OlderFile::of(file)).flatten(),
        }
    }

    /// Makes a call count, with what was looked up before it.
    pub fn after(&mut self, call: &Call, outcome: &Outcome, before: &Before) {
        self.count_call(call, outcome);
        self.count_exempt(call, outcome, before.remembered);
        match (&before.marked, &before.found) {
            (Some(marked), _) => self.marks.count(marked, outcome),
            (None, Some(found)) => self.rates.count(found, outcome),
            _ => {}
        }
        if let Some(held) = &before.held {
            self.blobs.count(held, outcome);
        }
        if let Some(sized) = &before.sized {
            self.sizes.count(sized, outcome);
        }
        if let Outcome::Judged(Answer { verdict, .. }) = outcome {
            self.split.count(call, &before.expiries, *verdict);
        }
        self.blobs.saves += usize::from(before.spare && matches!(outcome, Outcome::Saved(_)));
        if let Some(older) = &before.older {
            self.files.count_older(older, refusal(outcome));
        }
    }

    /// Is it an exempt packet whose hash is live in these tables?
    fn is_remembered(&self, call: &Call, tables: &[u8]) -> bool {
        let Call::Packet(PacketCall { packet, clock, .. }) = call else { return false };
        let Some((_, hash)) = self.exempt.place(packet) else { return false };
        tables.len() == tables::SIZE && tables::find(&HASHES, tables, &hash, *clock).is_some()
    }

    /// An exempt packet that was forwarded.
    fn count_exempt(&mut self, call: &Call, outcome: &Outcome, remembered: bool) {
        if matches!(call, Call::Fresh(_) | Call::Load) {
            self.exempt.forwarded.clear();
        }
        let Call::Packet(PacketCall { packet, clock, .. }) = call else { return };
        let Outcome::Judged(Answer { verdict: Verdict::Forward(_), .. }) = outcome else { return };
        let Some((place, hash)) = self.exempt.place(packet) else { return };
        let before = self.exempt.forwarded.insert(hash, *clock);
        self.exempt.again[place] += usize::from(before.is_some_and(|before| *clock < before + HASH_LIFETIME));
        self.exempt.remembered[place] += usize::from(remembered);
    }

    /// Each thing that can be reached, in words, and how often it was.
    pub fn reached(&self) -> Vec<(String, usize)> {
        let refusals = (1..=11).map(|number| (format!("refusal {number}"), self.refusals[number]));
        let reasons = (1..=13).chain([15, 16]).map(|number| (format!("drop {number}"), self.reasons[number]));
        let words = ["drop", "deliver", "forward", "spread", "kept"];
        let verdicts = words.iter().zip(self.verdicts).map(|(word, times)| (word.to_string(), times));
        refusals.chain(reasons).chain(self.split.reached()).chain(verdicts).chain(self.reached_exempt()).collect()
    }

    /// The clauses of test 3 and the cases of test 6 over lent tables, and what they are told of.
    pub fn reached_reasons(&self) -> Vec<(String, usize)> {
        self.split.reached_edges()
    }

    /// The same of questions to the tables. Some are never answered by none.
    pub fn reached_replies(&self) -> Vec<(String, usize)> {
        let mut reached = Vec::new();
        for (kind, replies) in KINDS.iter().zip(&self.asked.replies) {
            for (answer, times) in ["told", "none", "refusal 7"].iter().zip(replies) {
                if *answer != "none" || !ALWAYS_TOLD.contains(kind) {
                    reached.push((format!("asked for {kind}: {answer}"), *times));
                }
            }
        }
        reached
    }

    /// And of the question whether the signature word matters.
    pub fn reached_matters(&self) -> Vec<(String, usize)> {
        let refusals = (1..=7).map(|number| (format!("refusal {number}"), self.asked.refusals[number]));
        let answers = refusals.chain(["no", "yes"].map(str::to_string).into_iter().zip(self.asked.matters));
        answers.map(|(answer, times)| (format!("asked whether the signature word matters: {answer}"), times)).collect()
    }

    /// The branches of test 15.
    pub fn reached_rates(&self) -> Vec<(String, usize)> {
        self.rates.reached()
    }

    /// Announces for marked paths.
    pub fn reached_marks(&self) -> Vec<(String, usize)> {
        self.marks.reached()
    }

    /// The calls that mark them.
    pub fn reached_mark_calls(&self) -> Vec<(String, usize)> {
        self.marks.reached_calls()
    }

    /// What packets find of ports' sizes.
    pub fn reached_sizes(&self) -> Vec<(String, usize)> {
        self.sizes.reached()
    }

    /// What announces find among blobs.
    pub fn reached_blobs(&self) -> Vec<(String, usize)> {
        self.blobs.reached()
    }

    /// The calls that set the announce rate.
    pub fn reached_settings(&self) -> Vec<(String, usize)> {
        [0, 7, 9].map(|number| (format!("announce rate set: {}", answer(number)), self.rate_settings[number])).to_vec()
    }

    fn reached_exempt(&self) -> Vec<(String, usize)> {
        let line = |what: &str, times: &[usize; 6]| {
            let contexts = EXEMPT_CONTEXTS.iter().zip(times);
            contexts.map(|(context, times)| (format!("forwarded of context {context:02x} {what}"), *times)).collect()
        };
        let again: Vec<_> = line("again within 300 s", &self.exempt.again);
        [again, line("with its hash in the ring", &self.exempt.remembered)].concat()
    }
}

/// The packet of a call, where it reads at 500.
fn packet_of<'a>(sha: &'a Sha256, call: &'a Call) -> Option<Packet<'a>> {
    let Call::Packet(PacketCall { packet: bytes, port, clock, signature, .. }) = call else { return None };
    let parts = packet::read(&AsWritten, bytes, LONGEST).ok()?;
    let payload = &bytes[packet::payload_place(bytes)..];
    Some(Packet { bytes, parts, payload, port: *port as u8, clock: *clock, signature: *signature, hash: [0; 32], sha })
}

/// A refusal's number, 0 for none.
fn refusal(outcome: &Outcome) -> usize {
    if let Outcome::Refused(number) = outcome {
        usize::from(*number)
    } else {
        0
    }
}
