//! The proved core behind safe functions: numbers as the library returns them, and buffers that the caller fills before, so that what a call
//! leaves can be compared.

use crate::announcing::Own;
use crate::answer::Tally;
use crate::engine::Fields;
use crate::packet::{Address, Blob, PacketHash, Parts};
use crate::relay::asking::Question;
use crate::tables::AnnounceRate;
use haskumye::raw::*;

/// Header, hops, relay address, destination, context.
pub type PartsBytes = [u8; 35];

/// The bytes that a line of the showing program, a replay's line and an answer's text are given in.
pub const LINE: usize = 160;

/// The parts of a packet as they cross.
pub fn crossing(parts: &Parts) -> PartsBytes {
    let mut bytes = [0; 35];
    bytes[0] = parts.header.0;
    bytes[1] = parts.hops;
    bytes[2..18].copy_from_slice(&parts.relay);
    bytes[18..34].copy_from_slice(&parts.destination);
    bytes[34] = parts.context;
    bytes
}

// SAFETY of every call below: a slice is passed as its pointer and its length, an array as its pointer; parts and tally have the layout of
// `raw`'s structs, in an array of the same bytes or words. The call reads and writes no other byte.

/// The refusal number; the digest goes to out.
pub fn sha256(message: &[u8], out: &mut [u8; 32]) -> u8 {
    unsafe { haskumye_sha256(message.as_ptr(), message.len(), out) }
}

/// The refusal number; the parts go to the buffer.
pub fn read(packet: &[u8], size: u64, parts: &mut PartsBytes) -> u8 {
    unsafe { haskumye_read(packet.as_ptr(), packet.len(), size, parts.as_mut_ptr().cast()) }
}

/// Where the payload starts, at most the packet's length.
pub fn payload_start(packet: &[u8]) -> usize {
    unsafe { haskumye_payload_start(packet.as_ptr(), packet.len()) }
}

/// The refusal number in the low 16 bits, the length in those above; the packet goes to the output's start.
pub fn write(parts: &PartsBytes, payload: &[u8], output: &mut [u8]) -> u32 {
    unsafe { haskumye_write(parts.as_ptr().cast(), payload.as_ptr(), payload.len(), output.as_mut_ptr(), output.len()) }
}

/// The refusal number; the packet hash goes to the buffer.
pub fn packet_hash(packet: &[u8], hash: &mut PacketHash) -> u8 {
    unsafe { haskumye_packet_hash(packet.as_ptr(), packet.len(), hash) }
}

/// The refusal number; the link id goes to the buffer.
pub fn link_id(packet: &[u8], id: &mut Address) -> u8 {
    unsafe { haskumye_link_id(packet.as_ptr(), packet.len(), id) }
}

/// The destination that the keys and the name hash of an announce's payload give.
pub fn announced_destination(payload: &[u8], destination: &mut Address) {
    unsafe { haskumye_announced_destination(payload.as_ptr(), payload.len(), destination) }
}

/// The least payload of an announce of this header.
pub fn least_announce(header: u8) -> usize {
    unsafe { haskumye_least_announce(header) }
}

/// The emission time of a blob.
pub fn emission(blob: &Blob) -> u64 {
    unsafe { haskumye_emission(blob) }
}

/// The length of the showing program's line; the text goes to the buffer, with zeros behind it.
pub fn line(packet: &[u8], text: &mut [u8; LINE]) -> usize {
    unsafe { haskumye_line(packet.as_ptr(), packet.len(), text) }
}

/// How many bytes tables have.
pub fn table_size() -> usize {
    unsafe { haskumye_table_size() }
}

/// Refusal 7, or 0 for tables that a relay has.
pub fn check(tables: &[u8]) -> u8 {
    unsafe { haskumye_check_tables(tables.as_ptr(), tables.len()) }
}

/// The refusal number of each call on the tables, 0 for none.
pub fn fresh(tables: &mut [u8], own: &Address) -> u8 {
    unsafe { haskumye_fresh(tables.as_mut_ptr(), tables.len(), own) }
}

/// On by 1, off by any other number.
pub fn set_port(tables: &mut [u8], port: u64, on: u8, mode: u64, size: u64) -> u8 {
    unsafe { haskumye_set_port(tables.as_mut_ptr(), tables.len(), port, on, mode, size) }
}

pub fn set_announce_rate(tables: &mut [u8], rate: &AnnounceRate) -> u8 {
    unsafe { haskumye_set_announce_rate(tables.as_mut_ptr(), tables.len(), rate.target, rate.grace, rate.penalty) }
}

pub fn mark_path_unresponsive(tables: &mut [u8], destination: &Address, clock: u64) -> u8 {
    unsafe { haskumye_mark_path_unresponsive(tables.as_mut_ptr(), tables.len(), destination, clock) }
}

pub fn add_local(tables: &mut [u8], address: &Address) -> u8 {
    unsafe { haskumye_add_local(tables.as_mut_ptr(), tables.len(), address) }
}

pub fn remove_local(tables: &mut [u8], address: &Address) -> u8 {
    unsafe { haskumye_remove_local(tables.as_mut_ptr(), tables.len(), address) }
}

pub fn renumber(tables: &mut [u8], map: &[u8; 16]) -> u8 {
    unsafe { haskumye_renumber(tables.as_mut_ptr(), tables.len(), map) }
}

/// 0 and what is told, which goes to the reply; refusal 7; or 255 for none. A number stands in the reply as eight bytes, big-endian.
pub fn ask(tables: &[u8], question: &Question, reply: &mut [u8]) -> u8 {
    assert_eq!(reply.len(), question.width());
    let (at, size, out) = (tables.as_ptr(), tables.len(), reply.as_mut_ptr());
    let numbered: unsafe fn(*const u8, usize, u64, *mut u64) -> u8 = match question {
        Question::Port(port) => return unsafe { haskumye_port(at, size, *port, out.cast()) },
        Question::Local(place) => return unsafe { haskumye_local(at, size, *place, out.cast()) },
        Question::Path(place) => return unsafe { haskumye_path(at, size, *place, out.cast()) },
        Question::Link(place) => return unsafe { haskumye_link(at, size, *place, out.cast()) },
        Question::AnnounceRate => return unsafe { haskumye_announce_rate(at, size, out.cast()) },
        Question::LivePath { destination, clock } => return unsafe { haskumye_live_path(at, size, destination, *clock, out.cast()) },
        Question::LiveReturns(_) => |at, size, clock, count| unsafe { haskumye_live_returns(at, size, clock, count) },
        Question::LiveHashes(_) => |at, size, clock, count| unsafe { haskumye_live_hashes(at, size, clock, count) },
        Question::LastClock => |at, size, _, clock| unsafe { haskumye_last_clock(at, size, clock) },
    };
    let clock = if let Question::LiveReturns(clock) | Question::LiveHashes(clock) = question { *clock } else { 0 };
    let mut number = u64::from_be_bytes(reply[..].try_into().expect("eight bytes"));
    let told = unsafe { numbered(at, size, clock, &mut number) };
    reply.copy_from_slice(&number.to_be_bytes());
    told
}

/// A refusal of the packet call; 0 where it doesn't read the signature word, 255 where it does.
pub fn signature_matters(packet: &[u8], port: u64, clock: u64, tables: &[u8], room: usize) -> u8 {
    unsafe { haskumye_signature_matters(packet.as_ptr(), packet.len(), port, clock, tables.as_ptr(), tables.len(), room) }
}

/// The refusal number in the low 16 bits, the length in those above; what is to be signed goes to the room's start.
pub fn announce_signing_bytes(own: &Own, room: &mut [u8]) -> u32 {
    let Own { keys, name_hash, random, clock, ratchet, app_data } = *own;
    let (k, n, r, t, a) = (keys.as_ptr(), name_hash.as_ptr(), random.as_ptr(), ratchet.as_ptr(), app_data.as_ptr());
    let (kl, nl, rl, tl, al) = (keys.len(), name_hash.len(), random.len(), ratchet.len(), app_data.len());
    unsafe { haskumye_announce_signing_bytes(k, kl, n, nl, r, rl, clock, t, tl, a, al, room.as_mut_ptr(), room.len()) }
}

/// The same of the announce.
pub fn build_announce(own: &Own, signature: &[u8], room: &mut [u8]) -> u32 {
    let Own { keys, name_hash, random, clock, ratchet, app_data } = *own;
    let (k, n, r, t, a) = (keys.as_ptr(), name_hash.as_ptr(), random.as_ptr(), ratchet.as_ptr(), app_data.as_ptr());
    let (kl, nl, rl, tl, al) = (keys.len(), name_hash.len(), random.len(), ratchet.len(), app_data.len());
    let (s, sl) = (signature.as_ptr(), signature.len());
    unsafe { haskumye_build_announce(k, kl, n, nl, r, rl, clock, t, tl, a, al, s, sl, room.as_mut_ptr(), room.len()) }
}

/// The answer as one number, its fields as in `engine::decoded`; signed by 1, not by any other number.
pub fn packet(packet: &[u8], port: u64, clock: u64, signed: u8, tables: &mut [u8], output: &mut [u8], tally: &mut Tally) -> u64 {
    let (size, room) = (tables.len(), output.len());
    let (tables, output) = (tables.as_mut_ptr(), output.as_mut_ptr());
    unsafe { haskumye_packet(packet.as_ptr(), packet.len(), port, clock, signed, tables, size, output, room, tally.as_mut_ptr().cast()) }
}

/// The length of an answer's text; the text goes to the buffer, with zeros behind it.
pub fn answer_text(answer: u64, text: &mut [u8; LINE]) -> usize {
    unsafe { haskumye_answer_text(answer, text) }
}

/// The refusal number of each call on a log, 0 for none; a packet call's answer as one number.
pub fn opinion_fresh(log: &mut Log, own: &Address) {
    unsafe { haskumye_opinion_fresh(log, own) }
}

pub fn opinion_packet(packet: &[u8], port: u64, clock: u64, signed: u8, log: &mut Log, output: &mut [u8]) -> u64 {
    let (output, room) = (output.as_mut_ptr(), output.len());
    unsafe { haskumye_opinion_packet(packet.as_ptr(), packet.len(), port, clock, signed, log, output, room) }
}

pub fn opinion_set_port(log: &mut Log, port: u64, on: u8, mode: u64, size: u64) -> u8 {
    unsafe { haskumye_opinion_set_port(log, port, on, mode, size) }
}

pub fn opinion_set_announce_rate(log: &mut Log, rate: &AnnounceRate) -> u8 {
    unsafe { haskumye_opinion_set_announce_rate(log, rate.target, rate.grace, rate.penalty) }
}

pub fn opinion_add_local(log: &mut Log, address: &Address) -> u8 {
    unsafe { haskumye_opinion_add_local(log, address) }
}

pub fn opinion_remove_local(log: &mut Log, address: &Address) -> u8 {
    unsafe { haskumye_opinion_remove_local(log, address) }
}

pub fn opinion_mark_path_unresponsive(log: &mut Log, destination: &Address, clock: u64) -> u8 {
    unsafe { haskumye_opinion_mark_path_unresponsive(log, destination, clock) }
}

pub fn opinion_renumber(log: &mut Log, map: &[u8; 16]) -> u8 {
    unsafe { haskumye_opinion_renumber(log, map) }
}

/// A file's refusal, 20 to 23, or 0.
pub fn check_recording(file: &[u8]) -> u8 {
    unsafe { haskumye_check_recording(file.as_ptr(), file.len()) }
}

pub fn recording_count(file: &[u8]) -> usize {
    unsafe { haskumye_recording_count(file.as_ptr(), file.len()) }
}

/// 0, or 22 where there is no such entry: clock, port, signature word, the body's start and its length go to the buffer.
pub fn recording_entry(file: &[u8], index: u64, fields: &mut Fields) -> u8 {
    unsafe { haskumye_recording_entry(file.as_ptr(), file.len(), index, fields.as_mut_ptr().cast()) }
}

/// The refusal number in the low 16 bits, the length in those above; the file goes to the room's start.
pub fn write_recording(entries: &[u8], bodies: &[u8], room: &mut [u8]) -> u32 {
    let (given, size) = ((entries.as_ptr(), bodies.as_ptr()), room.len());
    unsafe { haskumye_write_recording(given.0, entries.len(), given.1, bodies.len(), room.as_mut_ptr(), size) }
}

/// How long a saved file is.
pub fn saved_size() -> usize {
    unsafe { haskumye_saved_size() }
}

/// The refusal number in the low 16 bits, the length in those above; the file goes to the room's start.
pub fn save(tables: &[u8], tally: &Tally, room: &mut [u8]) -> u64 {
    unsafe { haskumye_save(tables.as_ptr(), tables.len(), tally.as_ptr().cast(), room.as_mut_ptr(), room.len()) }
}

/// A file's refusal, 20 to 25, or 0.
pub fn load(file: &[u8], tables: &mut [u8], tally: &mut Tally) -> u8 {
    unsafe { haskumye_load(file.as_ptr(), file.len(), tables.as_mut_ptr(), tables.len(), tally.as_mut_ptr().cast()) }
}

/// The packet call of an entry, its answer as one number; its line goes to the buffer, with zeros behind it.
pub fn replay_entry(file: &[u8], index: u64, tables: &mut [u8], tally: &mut Tally, line: &mut [u8; LINE]) -> u64 {
    let size = tables.len();
    unsafe { haskumye_replay_entry(file.as_ptr(), file.len(), index, tables.as_mut_ptr(), size, tally.as_mut_ptr().cast(), line) }
}

/// What a host lends to a survey, from call to call.
pub struct SurveyBuffers {
    pub start: Box<Tables>,
    pub work: Box<Tables>,
    pub counts: SurveyCounts,
    pub refusals: SurveyRefusals,
}

impl Default for SurveyBuffers {
    fn default() -> Self {
        let tables = || vec![0; TABLE_SIZE].into_boxed_slice().try_into().expect("bytes of that number");
        Self { start: tables(), work: tables(), counts: [0; COUNTER_COUNT], refusals: [0; REFUSAL_COUNT] }
    }
}

/// A settings file's refusal, 20, 21, 22 or 24, or 0.
pub fn survey_begin(file: &[u8], survey: &mut SurveyBuffers) -> u8 {
    let SurveyBuffers { start, work, counts, refusals } = survey;
    unsafe { haskumye_survey_begin(file.as_ptr(), file.len(), &mut **start, &mut **work, counts, refusals) }
}

/// A recording's refusal, 20 to 23 or 29, or 0.
pub fn survey_recording(file: &[u8], survey: &mut SurveyBuffers) -> u8 {
    let SurveyBuffers { start, work, counts, refusals } = survey;
    unsafe { haskumye_survey_recording(file.as_ptr(), file.len(), &**start, &mut **work, counts, refusals) }
}

/// The length of a survey's line; the text goes to the buffer, with zeros behind it.
pub fn survey_line(survey: &SurveyBuffers, place: u64, line: &mut [u8; LINE]) -> usize {
    unsafe { haskumye_survey_line(&survey.counts, &survey.refusals, place, line) }
}
