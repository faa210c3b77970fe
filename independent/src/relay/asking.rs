//! The calls that read the tables, and the one that says whether the signature word matters. Refusal 7 is tested first; a place outside its
//! table or an empty one answers none; a clock may be any number; nothing changes.

use super::Arrival;
use crate::answer::Refusal;
use crate::limits::{LONGEST, PORT_COUNT};
use crate::packet::Address;
use crate::rules::Rules;
use crate::sha256::Sha256;
use crate::tables::check::checked;
use crate::tables::{
    is_used, last_clock, path, AnnounceRate, Link, Path, RateEntry, Section, Table, HASHES, LINKS, LOCALS, PATHS, PORTS, RETURNS,
};

/// What a host asks the tables.
#[derive(Clone, Debug, PartialEq, Eq)]
pub enum Question {
    /// A port's settings.
    Port(u64),
    /// What stands at a place, an expired record too.
    Local(u64),
    Path(u64),
    Link(u64),
    /// A destination's live path at a clock.
    LivePath {
        destination: Address,
        clock: u64,
    },
    /// How many records are live at a clock.
    LiveReturns(u64),
    LiveHashes(u64),
    LastClock,
    /// The announce rate's settings.
    AnnounceRate,
}

/// The kinds of questions.
pub const KINDS: [&str; 9] = ["port", "local", "path", "link", "live path", "live returns", "live hashes", "last clock", "announce rate"];

/// Those that are never answered by none.
pub const ALWAYS_TOLD: [&str; 4] = ["live returns", "live hashes", "last clock", "announce rate"];

impl Question {
    /// Its place among the kinds.
    pub fn kind(&self) -> usize {
        match self {
            Question::Port(_) => 0,
            Question::Local(_) => 1,
            Question::Path(_) => 2,
            Question::Link(_) => 3,
            Question::LivePath { .. } => 4,
            Question::LiveReturns(_) => 5,
            Question::LiveHashes(_) => 6,
            Question::LastClock => 7,
            Question::AnnounceRate => 8,
        }
    }

    /// The bytes of a reply. Numbers are big-endian.
    pub fn width(&self) -> usize {
        match self {
            Question::Port(_) => 4,
            Question::Local(_) => 16,
            Question::Path(_) | Question::LivePath { .. } => 61,
            Question::Link(_) => 29,
            Question::LiveReturns(_) | Question::LiveHashes(_) | Question::LastClock => 8,
            Question::AnnounceRate => 12,
        }
    }

    /// Where ports stand in a reply.
    pub fn ports(&self) -> &'static [usize] {
        match self {
            Question::Path(_) | Question::LivePath { .. } => &[16],
            Question::Link(_) => &[16, 17],
            _ => &[],
        }
    }
}

/// What is told, or none.
pub fn ask<R: Rules>(rules: &R, tables: &mut [u8], question: &Question) -> Result<Option<Vec<u8>>, Refusal> {
    rules.question_refusal(tables, question)?;
    let path = |place| path_told(rules, PATHS.records.get(tables, place));
    let told = match question {
        Question::Port(port) => rules.settings_of(*port, tables),
        Question::Local(place) => rules.used_at(&LOCALS, *place, tables).map(|place| LOCALS.get(tables, place)[1..].to_vec()),
        Question::Path(place) => rules.path_at(*place, tables).map(path),
        Question::Link(place) => rules.used_at(&LINKS.records, *place, tables).map(|place| link_told(LINKS.records.get(tables, place))),
        Question::LivePath { destination, clock } => rules.path_told_live(destination, *clock, tables).map(path),
        Question::LiveReturns(clock) => Some(number(rules.live_count(&RETURNS, *clock, tables))),
        Question::LiveHashes(clock) => Some(number(rules.live_count(&HASHES, *clock, tables))),
        Question::LastClock => Some(number(last_clock(tables))),
        Question::AnnounceRate => Some(rules.rate_told(&AnnounceRate::read(tables))),
    };
    rules.leave_asked(question, tables);
    Ok(told)
}

pub fn question_refusal<R: Rules>(rules: &R, tables: &[u8], _: &Question) -> Result<(), Refusal> {
    checked(rules, tables)
}

/// Nothing changes.
pub fn leave_asked(_: &Question, _: &mut [u8]) {}

/// On, mode and size, which every port has.
pub fn settings_of(port: u64, tables: &[u8]) -> Option<Vec<u8>> {
    (port < PORT_COUNT as u64).then(|| PORTS.get(tables, port as usize).to_vec())
}

/// The place of a used record, if it stands in the table.
pub fn used_at(section: &Section, place: u64, tables: &[u8]) -> Option<usize> {
    let place = usize::try_from(place).ok().filter(|place| *place < section.count)?;
    is_used(section.get(tables, place)).then_some(place)
}

/// "an expired one keeps its bytes": it is told.
pub fn path_at<R: Rules>(rules: &R, place: u64, tables: &[u8]) -> Option<usize> {
    rules.used_at(&PATHS.records, place, tables)
}

/// "If lent tables hold two live records of one key, the lower place counts."
pub fn path_told_live<R: Rules>(rules: &R, destination: &Address, clock: u64, tables: &[u8]) -> Option<usize> {
    rules.find(&PATHS, tables, destination, clock)
}

/// "A record is live while clock < its expiry"
pub fn live_count(table: &Table, clock: u64, tables: &[u8]) -> u64 {
    table.records.iter(tables).filter(|record| table.is_live(record, clock)).count() as u64
}

fn number(number: u64) -> Vec<u8> {
    number.to_be_bytes().to_vec()
}

/// Target, grace and penalty, each in four bytes.
pub fn rate_told(rate: &AnnounceRate) -> Vec<u8> {
    [rate.target, rate.grace, rate.penalty].map(|setting| (setting as u32).to_be_bytes()).concat()
}

/// Destination, port, hops, next hop, expiry, last announce, violations, blocked-until, mark and blob count.
fn path_told<R: Rules>(rules: &R, record: &[u8]) -> Vec<u8> {
    let Path { destination, port, hops, next_hop, expiry } = Path::read(record);
    let rate = rules.entry_told(&RateEntry::read(record));
    let last = [record[path::UNRESPONSIVE], record[path::BLOB_COUNT]];
    [&destination[..], &[port, hops], &next_hop, &expiry.to_be_bytes(), &rate, &last].concat()
}

pub fn entry_told(entry: &RateEntry) -> Vec<u8> {
    [&entry.last.to_be_bytes()[..], &[entry.violations], &entry.blocked_until.to_be_bytes()].concat()
}

/// Id, asking and answering port, taken and remaining hops, proved, expiry.
fn link_told(record: &[u8]) -> Vec<u8> {
    let Link { id, asking, answering, taken, remaining, proved, expiry } = Link::read(record);
    [&id[..], &[asking, answering, taken, remaining, u8::from(proved)], &expiry.to_be_bytes()].concat()
}

/// Does the signature word matter? Refused as the packet call is; else yes if that call's answer with the word yes differs from its answer with the word
/// no. So it is made twice, on copies. Of the room only refusal 6 reads more than 500 bytes.
pub fn signature_matters<R: Rules>(rules: &R, sha: &Sha256, tables: &[u8], room: usize, arrival: &Arrival) -> Result<bool, Refusal> {
    let answer = |signature: bool| {
        let mut output = [0; LONGEST];
        let arrival = Arrival { signature, ..*arrival };
        rules.packet_call(sha, &mut tables.to_vec(), &mut [0; 6], &mut output[..room.min(LONGEST)], &arrival)
    };
    Ok(answer(true)? != answer(false)?)
}
