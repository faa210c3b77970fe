//! What makes calls on a relay: the independent relay, and in `linked` the proved core.

mod announcing;
mod answers;
mod call;
mod packets;
mod recordings;
mod saved;
mod survey;

pub use announcing::AnnounceCalls;
pub use answers::{decoded, encoded, AnswerCalls};
pub use call::{Call, PacketCall};
pub use packets::PacketCalls;
pub use recordings::{Fields, RecordingCalls};
pub use saved::SavedCalls;
pub use survey::SurveyCalls;

use crate::answer::{Answer, Refusal, Tally};
use crate::files::aged;
use crate::packet::Address;
use crate::relay::asking::{self, Question};
use crate::relay::{settings, Arrival, Relay};
use crate::rules::Rules;
use crate::tables::{self, AnnounceRate};

/// What a call returns.
#[derive(Clone, Copy, Debug, PartialEq, Eq)]
pub enum Outcome {
    Refused(u8),
    Done,
    /// Asked for what isn't there.
    Nothing,
    Judged(Answer),
    /// Does the signature word matter?
    Matters(bool),
    /// Saved: the file's length.
    Saved(usize),
}

impl From<Result<(), Refusal>> for Outcome {
    fn from(result: Result<(), Refusal>) -> Self {
        result.map_or_else(|refusal| Outcome::Refused(refusal.number()), |()| Outcome::Done)
    }
}

impl From<Result<Answer, Refusal>> for Outcome {
    fn from(result: Result<Answer, Refusal>) -> Self {
        result.map_or_else(|refusal| Outcome::Refused(refusal.number()), Outcome::Judged)
    }
}

impl From<Result<bool, Refusal>> for Outcome {
    fn from(result: Result<bool, Refusal>) -> Self {
        result.map_or_else(|refusal| Outcome::Refused(refusal.number()), Outcome::Matters)
    }
}

/// The calls on a relay, over bytes that the caller owns.
pub trait Engine: SavedCalls + AnswerCalls {
    /// A fresh relay and its tally of zeros.
    fn fresh(&mut self, tables: &mut [u8], tally: &mut Tally, own: &Address) -> Outcome;
    fn packet(&mut self, tables: &mut [u8], tally: &mut Tally, output: &mut [u8], arrival: &Arrival) -> Outcome;
    fn set_port(&mut self, tables: &mut [u8], port: u64, on: bool, mode: u64, size: u64) -> Outcome;
    fn set_announce_rate(&mut self, tables: &mut [u8], rate: &AnnounceRate) -> Outcome;
    fn mark_unresponsive(&mut self, tables: &mut [u8], destination: &Address, clock: u64) -> Outcome;
    fn add_local(&mut self, tables: &mut [u8], address: &Address) -> Outcome;
    fn remove_local(&mut self, tables: &mut [u8], address: &Address) -> Outcome;
    fn renumber(&mut self, tables: &mut [u8], map: &[u8; 16]) -> Outcome;
    /// Is refusal 7 not given?
    fn check(&mut self, tables: &[u8]) -> bool;
    /// What is told goes to the reply, which has its width, and is left as it was where nothing is told.
    fn ask(&mut self, tables: &mut [u8], question: &Question, reply: &mut [u8]) -> Outcome;
    /// The word that the arrival has isn't read.
    fn signature_matters(&mut self, tables: &mut [u8], room: usize, arrival: &Arrival) -> Outcome;
}

impl<R: Rules> Engine for Relay<R> {
    fn fresh(&mut self, tables: &mut [u8], tally: &mut Tally, own: &Address) -> Outcome {
        let result = settings::fresh(&self.rules, tables, own);
        if result.is_ok() {
            *tally = [0; 6];
        }
        result.into()
    }

    fn packet(&mut self, tables: &mut [u8], tally: &mut Tally, output: &mut [u8], arrival: &Arrival) -> Outcome {
        Relay::packet(self, tables, tally, output, arrival).into()
    }

    fn set_port(&mut self, tables: &mut [u8], port: u64, on: bool, mode: u64, size: u64) -> Outcome {
        self.rules.set_port(tables, port, on, mode, size).into()
    }

    fn set_announce_rate(&mut self, tables: &mut [u8], rate: &AnnounceRate) -> Outcome {
        self.rules.set_announce_rate(tables, rate).into()
    }

    fn mark_unresponsive(&mut self, tables: &mut [u8], destination: &Address, clock: u64) -> Outcome {
        self.rules.mark_unresponsive(tables, destination, clock).into()
    }

    fn add_local(&mut self, tables: &mut [u8], address: &Address) -> Outcome {
        settings::add_local(&self.rules, tables, address).into()
    }

    fn remove_local(&mut self, tables: &mut [u8], address: &Address) -> Outcome {
        settings::remove_local(&self.rules, tables, address).into()
    }

    fn renumber(&mut self, tables: &mut [u8], map: &[u8; 16]) -> Outcome {
        self.rules.renumber(tables, map).into()
    }

    fn check(&mut self, tables: &[u8]) -> bool {
        self.rules.tables_allowed(tables)
    }

    fn ask(&mut self, tables: &mut [u8], question: &Question, reply: &mut [u8]) -> Outcome {
        match asking::ask(&self.rules, tables, question) {
            Err(refusal) => Outcome::Refused(refusal.number()),
            Ok(None) => Outcome::Nothing,
            Ok(Some(told)) => {
                reply.copy_from_slice(&told);
                Outcome::Done
            }
        }
    }

    fn signature_matters(&mut self, tables: &mut [u8], room: usize, arrival: &Arrival) -> Outcome {
        self.rules.signature_matters(&self.sha, tables, room, arrival).into()
    }
}

/// An engine with the buffers that its calls are lent.
pub struct Run<E: Engine> {
    pub engine: E,
    pub tables: Vec<u8>,
    pub tally: Tally,
    pub output: Vec<u8>,
    /// What was saved last.
    pub file: Vec<u8>,
    aside: Vec<u8>,
}

impl<E: Engine> Run<E> {
    pub fn new(engine: E) -> Self {
        let tables = vec![0; tables::SIZE];
        Self { engine, aside: tables.clone(), tables, tally: [0; 6], output: Vec::new(), file: Vec::new() }
    }

    /// Makes one call. None is what the caller does on its own.
    pub fn make(&mut self, call: &Call) -> Option<Outcome> {
        let tables = &mut self.tables;
        Some(match call {
            Call::Fresh(own) => self.engine.fresh(tables, &mut self.tally, own),
            Call::Packet(call) => {
                fill(&mut self.output, call.output, call.fill);
                let arrival = Arrival { packet: &call.packet, port: call.port, clock: call.clock, signature: call.signature };
                self.engine.packet(tables, &mut self.tally, &mut self.output, &arrival)
            }
            Call::SetPort { port, on, mode, size } => self.engine.set_port(tables, *port, *on, *mode, *size),
            Call::SetAnnounceRate(rate) => self.engine.set_announce_rate(tables, rate),
            Call::Mark { destination, clock } => self.engine.mark_unresponsive(tables, destination, *clock),
            Call::AddLocal(address) => self.engine.add_local(tables, address),
            Call::RemoveLocal(address) => self.engine.remove_local(tables, address),
            Call::Renumber(map) => self.engine.renumber(tables, map),
            Call::Ask { question, fill: byte } => {
                fill(&mut self.output, question.width(), *byte);
                self.engine.ask(tables, question, &mut self.output)
            }
            Call::Matters { packet, port, clock, room } => {
                let arrival = Arrival { packet, port: *port, clock: *clock, signature: false };
                self.engine.signature_matters(tables, *room, &arrival)
            }
            Call::Save { room, fill } => self.save(*room, *fill),
            Call::Load => match self.engine.load(&self.file, tables, &mut self.tally) {
                0 => Outcome::Done,
                refusal => Outcome::Refused(refusal),
            },
            _ => {
                self.edit(call);
                return None;
            }
        })
    }

    /// Saves into so much room, and keeps the file.
    fn save(&mut self, room: usize, byte: u8) -> Outcome {
        fill(&mut self.output, room, byte);
        let number = self.engine.save(&self.tables, &self.tally, &mut self.output);
        let (refusal, length) = (number as u16, (number >> 16) as usize);
        if refusal > 0 {
            return Outcome::Refused(refusal as u8);
        }
        self.file = self.output[..length].to_vec();
        Outcome::Saved(length)
    }

    /// Damages one of the buffers, by turns; the same again undoes it.
    pub fn damage(&mut self, turn: usize) {
        let (tables, output) = (self.tables.len(), self.output.len());
        match turn % 3 {
            0 if tables > 0 => self.tables[turn % tables] ^= 1,
            1 if output > 0 => self.output[turn % output] ^= 1,
            _ => self.tally[turn % 6] ^= 1,
        }
    }

    /// Writing or copying outside the bytes there are does nothing: a list that calls were left out of may ask for it.
    fn edit(&mut self, call: &Call) {
        let (size, file) = (self.tables.len(), self.file.len());
        let ends = |at: usize, length: usize, size: usize| at.checked_add(length).is_some_and(|end| end <= size);
        let within = |at: usize, length: usize| ends(at, length, size);
        match call {
            Call::PutAside => self.aside.clone_from(&self.tables),
            Call::TakeBack => self.tables.clone_from(&self.aside),
            Call::Write { at, bytes } if within(*at, bytes.len()) => self.tables[*at..*at + bytes.len()].copy_from_slice(bytes),
            Call::Copy { from, to, length } if within(*from, *length) && within(*to, *length) => {
                self.tables.copy_within(*from..*from + *length, *to)
            }
            Call::Resize(length) => self.tables.resize(*length, 0),
            Call::WriteFile { at, bytes } if ends(*at, bytes.len(), file) => self.file[*at..*at + bytes.len()].copy_from_slice(bytes),
            Call::ResizeFile(length) => self.file.resize(*length, 0),
            Call::AgeFile(edition) => self.file = aged(&self.file, *edition),
            Call::Tally(tally) => self.tally = *tally,
            _ => {}
        }
    }
}

/// Makes a buffer one of so many equal bytes.
pub(crate) fn fill(buffer: &mut Vec<u8>, length: usize, byte: u8) {
    buffer.clear();
    buffer.resize(length, byte);
}
