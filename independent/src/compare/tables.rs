//! Refusal 7 and the calls that need no packet: the core against the independent program. The tables are fresh, or what random traffic
//! leaves, lent ones among them, or random ones; the same with one field at an edge of row 7's clauses; and ones of a wrong size.
//! After every call the number and all tables are compared, and what questions are told.

use super::coverage::Coverage;
use super::{Called, Options, Tally};
use crate::core;
use crate::engine::{Call, Outcome, PacketCall, Run};
use crate::limits::{CLOCK_LIMIT, GRACE_LIMIT, PENALTY_LIMIT, TARGET_LIMIT};
use crate::linked::Core;
use crate::packet::Address;
use crate::random::Random;
use crate::relay::asking::{Question, KINDS};
use crate::relay::Relay;
use crate::rules::{AsWritten, Rules, Tuned};
use crate::samples::{self, Fill, FIELDS, RECORDS, RINGS};
use crate::tables::{last_clock, time, AnnounceRate, Table, HASHES, LOCALS, PATHS, RETURNS, SIZE};
use crate::traffic::Traffic;

/// Each clause is broken, and kept, at least so often.
const LEAST: usize = 100;
/// In runs of at least so many random cases, that is.
const ENOUGH: usize = 2_000;
/// Changed tables for each of the random cases, and calls of traffic before each.
const CHANGES: usize = 8;
const CALLS: usize = 4;

/// Refusals of these calls.
const REFUSALS: [usize; 5] = [7, 8, 9, 10, 11];

/// What was reached, and how often.
pub struct Reached {
    /// Tables that were allowed, with one change of a kind: how often they were refused then, and how often not.
    changes: Vec<(String, usize, usize)>,
    calls: Coverage,
}

/// A kind of change: its name, and what makes it.
type Change = (String, Box<dyn Fn(&mut Random, &mut [u8])>);

/// The changes of every clause, and bytes anywhere.
fn changes() -> Vec<Change> {
    let mut changes: Vec<Change> = Vec::new();
    for field in FIELDS {
        changes.push((field.name.to_string(), Box::new(|random, tables| samples::set_field(random, tables, field))));
    }
    for (name, section) in RECORDS {
        changes.push((format!("unused {name}"), Box::new(|random, tables| samples::set_unused(random, tables, section))));
    }
    for (name, at) in RINGS {
        changes.push((name.to_string(), Box::new(move |random, tables| samples::set_ring(random, tables, at))));
    }
    changes.push(("last clock".to_string(), Box::new(samples::set_last_clock)));
    changes.push(("byte anywhere".to_string(), Box::new(set_any)));
    changes
}

/// A few bytes anywhere, in a tenth of the cases among the settings.
fn set_any(random: &mut Random, tables: &mut [u8]) {
    for _ in 0..1 + random.below(3) {
        let at = if random.one_in(10) { random.below(PATHS.records.start) } else { random.below(SIZE) };
        tables[at] = random.pick(&[0, 1, 2, 15, 16, 255]);
    }
}

/// A call of the core. None is one that it isn't asked here.
fn core_call(random: &mut Random, tables: &mut [u8], call: &Call) -> Option<u8> {
    Some(match call {
        Call::Fresh(own) => core::fresh(tables, own),
        Call::SetPort { port, on, mode, size } => {
            let on = if *on { 1 } else { random.pick(&[0, 2, 128, 255]) };
            core::set_port(tables, *port, on, *mode, *size)
        }
        Call::SetAnnounceRate(rate) => core::set_announce_rate(tables, rate),
        Call::Mark { destination, clock } => core::mark_path_unresponsive(tables, destination, *clock),
        Call::AddLocal(address) => core::add_local(tables, address),
        Call::RemoveLocal(address) => core::remove_local(tables, address),
        Call::Renumber(map) => core::renumber(tables, map),
        _ => return None,
    })
}

/// The number that the core returns for what the independent program did.
fn number(outcome: &Outcome) -> u8 {
    match outcome {
        Outcome::Refused(number) => *number,
        Outcome::Nothing | Outcome::Matters(true) => 255,
        _ => 0,
    }
}

/// About a record's expiry, or any clock.
fn a_clock(random: &mut Random, tables: &[u8], table: &Table) -> u64 {
    let at = table.records.range(random.below(table.records.count)).start + table.expiry;
    let expiry = if tables.len() >= SIZE { time(tables, at) } else { 0 };
    let any = random.word() >> random.below(64);
    random.pick(&[expiry, expiry, expiry.wrapping_sub(1), expiry.wrapping_add(1), any])
}

fn a_question(random: &mut Random, tables: &[u8], kind: usize) -> Question {
    let place = |random: &mut Random, count: usize| match random.below(6) {
        0 => random.pick(&[count as u64, 255, 256, 1 << 32, u64::MAX]),
        _ => random.below(count) as u64,
    };
    match kind {
        0 => Question::Port(place(random, 16)),
        1 => Question::Local(place(random, 16)),
        2 => Question::Path(place(random, 64)),
        3 => Question::Link(place(random, 64)),
        4 => Question::LivePath { destination: a_destination(random, tables), clock: a_clock(random, tables, &PATHS) },
        5 => Question::LiveReturns(a_clock(random, tables, &RETURNS)),
        6 => Question::LiveHashes(a_clock(random, tables, &HASHES)),
        7 => Question::LastClock,
        _ => Question::AnnounceRate,
    }
}

/// In half of the cases what stands in a local place: zeros, if that is unused.
fn an_address(random: &mut Random, tables: &[u8]) -> Address {
    if tables.len() >= SIZE && random.one_in(2) {
        let record = LOCALS.get(tables, random.below(LOCALS.count));
        return record[1..].try_into().expect("sixteen bytes");
    }
    random.array()
}

fn a_map(random: &mut Random) -> [u8; 16] {
    let mut map = random.permutation();
    if random.one_in(4) {
        let place = random.below(16);
        map[place] = random.pick(&[map[(place + 1) % 16], 16, 17, 255]);
    }
    map
}

/// Settings about their limits, and of more than four bytes.
fn a_rate(random: &mut Random) -> AnnounceRate {
    let mut setting = |limit: u64| random.pick(&[0, 1, limit - 1, limit, limit, limit, limit + 1, 1 << 32, (1 << 32) + 1, u64::MAX]);
    AnnounceRate { target: setting(TARGET_LIMIT), grace: setting(GRACE_LIMIT), penalty: setting(PENALTY_LIMIT) }
}

/// What stands in a path's place: zeros, if that is unused.
fn a_destination(random: &mut Random, tables: &[u8]) -> Address {
    let at = PATHS.records.range(random.below(64)).start + 1;
    let known = tables.get(at..at + 16).and_then(|key| key.try_into().ok());
    known.unwrap_or_else(|| random.array())
}

/// A mark about the last clock, or about an expiry.
fn a_mark(random: &mut Random, tables: &[u8]) -> Call {
    let last = if tables.len() >= SIZE { last_clock(tables) } else { 0 };
    let any = a_clock(random, tables, &PATHS);
    let clock = random.pick(&[last, last, last, last.wrapping_sub(1), last + 1, CLOCK_LIMIT - 1, CLOCK_LIMIT, any]);
    Call::Mark { destination: a_destination(random, tables), clock }
}

fn a_call(random: &mut Random, tables: &[u8]) -> Call {
    match random.below(13) {
        0 => Call::Fresh(random.array()),
        1 | 2 => {
            let port = random.pick(&[0, 1, 7, 14, 15, 16, 17, 256, u64::MAX]);
            let size = random.pick(&[0, 18, 19, 255, 256, 499, 500, 500, 500, 501, 1 << 16, (1 << 16) + 500, u64::MAX]);
            Call::SetPort { port, on: random.one_in(2), mode: random.pick(&[0, 1, 2, 2, 3, 256, u64::MAX]), size }
        }
        3 | 4 => Call::AddLocal(an_address(random, tables)),
        5 | 6 => Call::RemoveLocal(an_address(random, tables)),
        7 | 8 => Call::SetAnnounceRate(a_rate(random)),
        9 | 10 => a_mark(random, tables),
        _ => Call::Renumber(a_map(random)),
    }
}

struct Comparison<'a, R: Rules> {
    options: &'a Options,
    tally: &'a mut Tally,
    random: Random,
    /// The independent program on traffic.
    traffic: Run<Relay<R>>,
    /// And on tables that are changed.
    changed: Run<Relay<R>>,
    /// The core on the same tables, for questions.
    core: Run<Core>,
    /// The last allowed tables.
    allowed: Vec<u8>,
    /// The last packet call of traffic.
    packet: Option<PacketCall>,
    calls: Coverage,
}

impl<R: Rules> Comparison<'_, R> {
    fn expect(&mut self, what: &str, got: Called, expected: Called) {
        self.tally.long_call(what, got, expected, self.options.damage);
    }

    /// Whether the changed tables are allowed, and the tuned check of them beside the plain one.
    fn check(&mut self, what: &str) -> bool {
        let called = |allowed: bool| Called::new(if allowed { 0u8 } else { 7 }, &[]);
        let tables = &self.changed.tables;
        let (got, tuned) = (Called::new(core::check(tables), &[]), called(Tuned.tables_allowed(tables)));
        let (allowed, as_written) = (self.changed.engine.rules.tables_allowed(tables), called(AsWritten.tables_allowed(tables)));
        self.expect(&format!("{what}, check"), got, called(allowed));
        self.expect(&format!("{what}, tuned check"), tuned, as_written);
        allowed
    }

    /// A random call on the changed tables.
    fn call(&mut self, what: &str) {
        let call = a_call(&mut self.random, &self.changed.tables);
        let mut tables = self.changed.tables.clone();
        let refusal = core_call(&mut self.random, &mut tables, &call).expect("a call without a packet");
        let outcome = self.changed.make(&call).expect("a call");
        self.calls.count_call(&call, &outcome);
        let expected = Called::new(number(&outcome), &self.changed.tables);
        self.expect(&format!("{what}, {call}"), Called::new(refusal, &tables), expected);
    }

    /// A random question to the changed tables.
    fn ask(&mut self, what: &str) {
        let kind = self.random.below(KINDS.len() + 1);
        let call = match &self.packet {
            Some(PacketCall { packet, port, clock, output, .. }) if kind == KINDS.len() => {
                Call::Matters { packet: packet.clone(), port: *port, clock: *clock, room: *output }
            }
            _ => {
                let question = a_question(&mut self.random, &self.changed.tables, kind);
                Call::Ask { question, fill: self.random.word() as u8 }
            }
        };
        self.core.tables.clone_from(&self.changed.tables);
        let (got, expected) = (self.core.make(&call).expect("a call"), self.changed.make(&call).expect("a call"));
        self.calls.count_call(&call, &expected);
        let called = |outcome: &Outcome, output: &[u8], tables: &[u8]| Called::new(number(outcome), &[output, tables].concat());
        let got = called(&got, &self.core.output, &self.core.tables);
        let expected = called(&expected, &self.changed.output, &self.changed.tables);
        self.expect(&format!("{what}, {call}"), got, expected);
    }

    /// A call of traffic. What needs no packet is asked of the core too.
    fn traffic(&mut self, call: &Call) {
        let needs_packet = matches!(call, Call::Packet(_));
        if let Call::Packet(packet) = call {
            self.packet = Some(packet.clone());
        }
        let mut tables = if needs_packet { Vec::new() } else { self.traffic.tables.clone() };
        let Some(outcome) = self.traffic.make(call) else { return };
        if let Some(refusal) = core_call(&mut self.random, &mut tables, call) {
            self.calls.count_call(call, &outcome);
            let expected = Called::new(number(&outcome), &self.traffic.tables);
            self.expect(&format!("traffic, {call}"), Called::new(refusal, &tables), expected);
        }
    }

    /// Allowed tables to change: those of traffic, or sometimes random ones.
    fn choose(&mut self) {
        if self.random.one_in(8) {
            let fill = self.random.pick(&Fill::ALL);
            self.allowed = samples::filled(&mut self.random, fill);
        } else if AsWritten.tables_allowed(&self.traffic.tables) {
            self.allowed.clone_from(&self.traffic.tables);
        }
        self.changed.tables.clone_from(&self.allowed);
    }

    /// Whether tables with a change are allowed.
    fn changed(&mut self, (what, change): &Change) -> bool {
        self.choose();
        change(&mut self.random, &mut self.changed.tables);
        let allowed = self.check(what);
        self.ask(what);
        self.ask(what);
        self.call(what);
        self.call(what);
        allowed
    }

    /// Tables cut or lengthened: a fresh relay is refused too.
    fn resized(&mut self) {
        let size = self.random.pick(&[0, 1, 2, 24, 328, SIZE - 41, SIZE - 1, SIZE, SIZE + 1, SIZE + 41, 2 * SIZE]);
        self.choose();
        self.changed.tables.resize(size, 0);
        self.check("size");
        self.ask("size");
        self.call("size");
        self.call("size");
    }
}

pub fn run(options: &Options, tally: &mut Tally) {
    let reached = compare_with(AsWritten, options, tally);
    let mut least = |what: String, times: usize| {
        if options.count >= ENOUGH {
            tally.holds(&format!("{what} at least {LEAST} times"), times >= LEAST, options.damage);
        }
    };
    for (what, refused, allowed) in reached.changes {
        println!("{what}: {refused} refused, {allowed} allowed");
        least(format!("{what}, refused and allowed"), refused.min(allowed));
    }
    println!("calls without a packet: {}, done: {}", reached.calls.calls, reached.calls.done);
    for number in REFUSALS {
        println!("refusal {number}: {}", reached.calls.refusals[number]);
        least(format!("refusal {number}"), reached.calls.refusals[number]);
    }
    for (what, times) in [reached.calls.reached_replies(), reached.calls.reached_settings(), reached.calls.reached_mark_calls()].concat() {
        println!("{what}: {times}");
        least(what, times);
    }
}

/// Compares the core with the independent program that reads the scope document so.
pub fn compare_with<R: Rules + Clone>(rules: R, options: &Options, tally: &mut Tally) -> Reached {
    let mut c = Comparison {
        options,
        tally,
        random: Random::new(options.seed),
        traffic: Run::new(Relay::new(rules.clone())),
        changed: Run::new(Relay::new(rules)),
        core: Run::new(Core),
        allowed: samples::filled(&mut Random::new(options.seed), Fill::Empty),
        packet: None,
        calls: Coverage::default(),
    };
    c.expect("size of tables", Called::new(core::table_size() as u64, &[]), Called::new(SIZE as u64, &[]));
    let changes = changes();
    let mut reached: Vec<_> = changes.iter().map(|change| (change.0.clone(), 0, 0)).collect();
    let mut calls = Traffic::new(options.seed);
    for number in 0..options.count * CHANGES {
        calls.by_ref().take(CALLS).for_each(|call| c.traffic(&call));
        let kind = number % (changes.len() + 1);
        match changes.get(kind) {
            Some(change) if c.changed(change) => reached[kind].2 += 1,
            Some(_) => reached[kind].1 += 1,
            None => c.resized(),
        }
    }
    Reached { changes: reached, calls: c.calls }
}
