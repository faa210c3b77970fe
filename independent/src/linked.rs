//! The proved core as an engine: its numbers decoded into the independent program's answers.

use crate::announcing::Own;
use crate::answer::{Refusal, Tally};
use crate::core::{self, crossing, PartsBytes, SurveyBuffers, LINE};
use crate::engine::{
    decoded, encoded, fill, AnnounceCalls, AnswerCalls, Call, Engine, Fields, Outcome, PacketCall, PacketCalls, RecordingCalls, SavedCalls,
    SurveyCalls,
};
use crate::opinion::{Opined, Opinion};
use crate::packet::{Address, Blob, PacketHash, Parts};
use crate::relay::asking::Question;
use crate::relay::Arrival;
use crate::tables::AnnounceRate;
use haskumye::raw::{Log, LOG_SIZE, SURVEY_LINES};

/// The core keeps nothing between calls: all is in the caller's bytes.
pub struct Core;

/// Answers to questions that are no refusals: there is none, and the signature is to be verified.
const NONE: u8 = 255;
const VERIFY: u8 = 255;

/// A refusal's number, 0 for none.
fn done(refusal: u8) -> Outcome {
    match refusal {
        0 => Outcome::Done,
        number => refused(number),
    }
}

fn refused(number: u8) -> Outcome {
    Outcome::Refused(Refusal::from_number(number).expect("a refusal's number").number())
}

/// What a packet call's number says. Nothing is lost on the way.
fn judged(number: u64, packet: &[u8]) -> Outcome {
    let outcome = decoded(number).unwrap_or_else(|| panic!("the core answered {number:x}")).into();
    assert_eq!(encoded(&outcome, packet), number, "the core's number has bits that no answer has");
    outcome
}

impl Engine for Core {
    fn fresh(&mut self, tables: &mut [u8], tally: &mut Tally, own: &Address) -> Outcome {
        let outcome = done(core::fresh(tables, own));
        if outcome == Outcome::Done {
            *tally = [0; 6];
        }
        outcome
    }

    fn packet(&mut self, tables: &mut [u8], tally: &mut Tally, output: &mut [u8], arrival: &Arrival) -> Outcome {
        let signature = u8::from(arrival.signature);
        judged(core::packet(arrival.packet, arrival.port, arrival.clock, signature, tables, output, tally), arrival.packet)
    }

    fn set_port(&mut self, tables: &mut [u8], port: u64, on: bool, mode: u64, size: u64) -> Outcome {
        done(core::set_port(tables, port, u8::from(on), mode, size))
    }

    fn set_announce_rate(&mut self, tables: &mut [u8], rate: &AnnounceRate) -> Outcome {
        done(core::set_announce_rate(tables, rate))
    }

    fn mark_unresponsive(&mut self, tables: &mut [u8], destination: &Address, clock: u64) -> Outcome {
        done(core::mark_path_unresponsive(tables, destination, clock))
    }

    fn add_local(&mut self, tables: &mut [u8], address: &Address) -> Outcome {
        done(core::add_local(tables, address))
    }

    fn remove_local(&mut self, tables: &mut [u8], address: &Address) -> Outcome {
        done(core::remove_local(tables, address))
    }

    fn renumber(&mut self, tables: &mut [u8], map: &[u8; 16]) -> Outcome {
        done(core::renumber(tables, map))
    }

    fn check(&mut self, tables: &[u8]) -> bool {
        core::check(tables) == 0
    }

    fn ask(&mut self, tables: &mut [u8], question: &Question, reply: &mut [u8]) -> Outcome {
        match core::ask(tables, question, reply) {
            NONE => Outcome::Nothing,
            number => done(number),
        }
    }

    fn signature_matters(&mut self, tables: &mut [u8], room: usize, arrival: &Arrival) -> Outcome {
        match core::signature_matters(arrival.packet, arrival.port, arrival.clock, tables, room) {
            0 => Outcome::Matters(false),
            VERIFY => Outcome::Matters(true),
            number => refused(number),
        }
    }
}

/// The proved second opinion, with the log and the output that its calls are lent.
pub struct SecondOpinion {
    log: Box<Log>,
    output: Vec<u8>,
}

impl Default for SecondOpinion {
    fn default() -> Self {
        let log = vec![0xee; LOG_SIZE].into_boxed_slice().try_into().expect("bytes of that number");
        Self { log, output: Vec::new() }
    }
}

impl Opinion for SecondOpinion {
    fn make(&mut self, call: &Call) -> Opined {
        let before = self.log.to_vec();
        let log = &mut *self.log;
        self.output.clear();
        let outcome = match call {
            Call::Fresh(own) => {
                core::opinion_fresh(log, own);
                Outcome::Done
            }
            Call::Packet(PacketCall { packet, port, clock, signature, output, fill: byte }) => {
                fill(&mut self.output, *output, *byte);
                judged(core::opinion_packet(packet, *port, *clock, u8::from(*signature), log, &mut self.output), packet)
            }
            Call::SetPort { port, on, mode, size } => done(core::opinion_set_port(log, *port, u8::from(*on), *mode, *size)),
            Call::SetAnnounceRate(rate) => done(core::opinion_set_announce_rate(log, rate)),
            Call::Mark { destination, clock } => done(core::opinion_mark_path_unresponsive(log, destination, *clock)),
            Call::AddLocal(address) => done(core::opinion_add_local(log, address)),
            Call::RemoveLocal(address) => done(core::opinion_remove_local(log, address)),
            Call::Renumber(map) => done(core::opinion_renumber(log, map)),
            _ => panic!("{call} is no call of a second opinion"),
        };
        if matches!(outcome, Outcome::Refused(_)) {
            assert!(before == self.log[..], "a refusal leaves the log: {call}");
        }
        Opined { outcome, output: self.output.clone() }
    }
}

impl PacketCalls for Core {
    fn read(&self, packet: &[u8], size: u64, parts: &mut PartsBytes) -> u8 {
        core::read(packet, size, parts)
    }

    fn payload_start(&self, packet: &[u8]) -> usize {
        core::payload_start(packet)
    }

    fn write(&self, parts: &Parts, payload: &[u8], output: &mut [u8]) -> u64 {
        core::write(&crossing(parts), payload, output).into()
    }

    fn packet_hash(&self, packet: &[u8], hash: &mut PacketHash) -> u8 {
        core::packet_hash(packet, hash)
    }

    fn link_id(&self, packet: &[u8], id: &mut Address) -> u8 {
        core::link_id(packet, id)
    }

    fn announced_destination(&self, payload: &[u8], destination: &mut Address) {
        core::announced_destination(payload, destination);
    }

    fn least_announce(&self, parts: &Parts) -> usize {
        core::least_announce(parts.header.0)
    }

    fn emission(&self, blob: &Blob) -> u64 {
        core::emission(blob)
    }

    fn line(&self, packet: &[u8], text: &mut [u8; LINE]) -> usize {
        core::line(packet, text)
    }
}

impl RecordingCalls for Core {
    fn check_recording(&self, file: &[u8]) -> u8 {
        core::check_recording(file)
    }

    fn recording_count(&self, file: &[u8]) -> usize {
        core::recording_count(file)
    }

    fn recording_entry(&self, file: &[u8], index: u64, fields: &mut Fields) -> u8 {
        core::recording_entry(file, index, fields)
    }

    fn write_recording(&self, entries: &[u8], bodies: &[u8], room: &mut [u8]) -> u32 {
        core::write_recording(entries, bodies, room)
    }

    fn replay_entry(&self, file: &[u8], index: u64, tables: &mut [u8], tally: &mut Tally, line: &mut [u8; LINE]) -> Outcome {
        let mut fields = Fields::default();
        core::recording_entry(file, index, &mut fields); // where there is no such entry, its body is empty
        let body = &file[fields[3] as usize..][..fields[4] as usize];
        judged(core::replay_entry(file, index, tables, tally, line), body)
    }
}

impl SavedCalls for Core {
    fn saved_size(&self) -> usize {
        core::saved_size()
    }

    fn save(&self, tables: &[u8], tally: &Tally, room: &mut [u8]) -> u64 {
        core::save(tables, tally, room)
    }

    fn load(&self, file: &[u8], tables: &mut [u8], tally: &mut Tally) -> u8 {
        core::load(file, tables, tally)
    }
}

impl AnswerCalls for Core {
    fn answer_text(&self, answer: u64, text: &mut [u8; LINE]) -> usize {
        core::answer_text(answer, text)
    }
}

impl AnnounceCalls for Core {
    fn signing_bytes(&self, own: &Own, room: &mut [u8]) -> u32 {
        core::announce_signing_bytes(own, room)
    }

    fn build_announce(&self, own: &Own, signature: &[u8], room: &mut [u8]) -> u32 {
        core::build_announce(own, signature, room)
    }
}

/// A line, behind which zeros stand.
fn survey_line(survey: &SurveyBuffers, place: u64) -> String {
    let mut line = [1; LINE];
    let length = core::survey_line(survey, place, &mut line);
    assert!(line[length..].iter().all(|byte| *byte == 0), "zeros behind a survey's line");
    String::from_utf8_lossy(&line[..length]).into()
}

impl SurveyCalls for Core {
    fn survey(&self, settings: &[u8], recordings: &[Vec<u8>]) -> String {
        let mut survey = SurveyBuffers::default();
        let refusal = core::survey_begin(settings, &mut survey);
        if refusal > 0 {
            return format!("settings refused {refusal}\n");
        }
        for file in recordings {
            core::survey_recording(file, &mut survey);
        }
        // one place more than there are
        (0..=SURVEY_LINES as u64).map(|place| survey_line(&survey, place)).collect()
    }
}
