//! Second opinions: the proved engine, the core and the independent relay on the same lists of calls from fresh, each answer and the whole output.

use super::{Called, Options, Tally};
use crate::answer::{Refusal, Verdict};
use crate::engine::{encoded, Call, Outcome};
use crate::linked::{Core, SecondOpinion};
use crate::opinion::{is_taken, Opined, Opinion, Plain, LIST_LIMIT};
use crate::relay::Relay;
use crate::rules::Tuned;
use crate::traffic::Traffic;
use std::collections::BTreeMap;

/// A list for so many random cases: a call walks through all that is listed.
const CASES: usize = 2;
/// So many lists where one difference is looked for.
const FEW: usize = 40;
/// So many calls find 64 listed, and then some after another fresh.
const AFTER: usize = 12;
/// Each thing that can be answered is answered at least so often, in runs of at least so many cases.
const LEAST: usize = 100;
const ENOUGH: usize = 2_000;

/// The calls of random traffic from fresh on: until 64 are accepted, then more; then a fresh one, and the first calls again.
fn list(seed: u64) -> Vec<Call> {
    let mut own = Plain::new(Relay::new(Tuned));
    let (mut calls, mut full) = (Vec::new(), 0);
    for call in Traffic::plain(seed).filter(is_taken) {
        let outcome = own.make(&call).outcome;
        full += usize::from(outcome == Outcome::Refused(Refusal::ListFull.number()));
        if full > AFTER || !calls.is_empty() && matches!(call, Call::Fresh(_)) {
            break;
        }
        calls.push(call);
    }
    let again: Vec<Call> = calls.iter().take(AFTER).cloned().collect();
    [calls, again].concat()
}

/// 65 calls of one kind, each accepted by a relay; and all sixteen local addresses, and one more.
fn aimed() -> Vec<Vec<Call>> {
    let fresh = |calls: Vec<Call>| [vec![Call::Fresh([0xaa; 16])], calls].concat();
    let setting = |number: usize| Call::SetPort { port: number as u64 % 16, on: number % 3 > 0, mode: number as u64 % 3, size: 500 };
    let map = |number: usize| Call::Renumber(std::array::from_fn(|port| ((port + number) % 16) as u8));
    let local = |number: usize| if number % 2 == 0 { Call::AddLocal([7; 16]) } else { Call::RemoveLocal([7; 16]) };
    let many = |call: &dyn Fn(usize) -> Call| fresh((0..=LIST_LIMIT).map(call).collect());
    let locals = (0..17).map(|number| Call::AddLocal([number; 16])).collect();
    vec![many(&setting), many(&map), many(&local), fresh(locals)]
}

fn lists(seed: u64, count: usize) -> impl Iterator<Item = Vec<Call>> {
    let first = seed.wrapping_mul(1 << 20);
    aimed().into_iter().chain((0..count as u64).map(move |number| list(first.wrapping_add(number))))
}

/// What a call said, as a number, and the output.
fn told(call: &Call, opined: &Opined) -> Called {
    let number = match (call, &opined.outcome) {
        (Call::Packet(call), outcome) => encoded(outcome, &call.packet),
        (_, Outcome::Refused(refusal)) => (*refusal).into(),
        (_, outcome) => u64::from(*outcome != Outcome::Done) << 32,
    };
    Called::new(number, &opined.output)
}

/// Do two second opinions differ?
pub fn opinions_differ<A: Opinion, B: Opinion>(got: &mut A, expected: &mut B) -> bool {
    lists(1, FEW).any(|calls| calls.iter().any(|call| got.make(call) != expected.make(call)))
}

pub fn run(options: &Options, tally: &mut Tally) {
    let (mut opinion, mut core, mut own) = (SecondOpinion::default(), Plain::new(Core), Plain::new(Relay::new(Tuned)));
    let mut reached = BTreeMap::new();
    for (number, calls) in lists(options.seed, options.count.div_ceil(CASES)).enumerate() {
        for (place, call) in calls.iter().enumerate() {
            let (got, core, own) = (opinion.make(call), core.make(call), own.make(call));
            *reached.entry(kind(&own.outcome)).or_insert(0) += 1;
            let what = format!("list {number}, call {place}: {call}");
            tally.long_call(&format!("second opinion and core, {what}"), told(call, &got), told(call, &core), options.damage);
            tally.long_call(&format!("second opinion and relay, {what}"), told(call, &got), told(call, &own), options.damage);
        }
    }
    for what in kinds() {
        let times = reached.get(&what).copied().unwrap_or(0);
        println!("{what}: {times}");
        if options.count >= ENOUGH {
            tally.holds(&format!("{what} at least {LEAST} times"), times >= LEAST, options.damage);
        }
    }
}

/// What kind of answer it is.
fn kind(outcome: &Outcome) -> String {
    match outcome {
        Outcome::Refused(number) => format!("second opinion refused {number}"),
        Outcome::Judged(answer) => match answer.verdict {
            Verdict::Drop(reason) => format!("second opinion drop {}{}", reason.number(), clause(reason.clause())),
            verdict => format!("second opinion {}", ["drop", "deliver", "forward", "spread", "kept"][verdict.index()]),
        },
        _ => "second opinion done".to_string(),
    }
}

fn clause(numbers: Option<(u8, Option<u64>)>) -> String {
    numbers.map_or(String::new(), |(clause, _)| format!(".{clause}"))
}

/// Those that can be answered: not 13, since 64 calls fill no table, and not 6.3.
fn kinds() -> Vec<String> {
    let refusals = [1, 2, 3, 4, 5, 6, 8, 9, 10, 11, 12, 28].map(|number| format!("refused {number}"));
    let clauses = (1..=8).map(|clause| format!("drop 3.{clause}")).chain([1, 2, 4, 5, 6].map(|case| format!("drop 6.{case}")));
    let drops = [1, 2, 4, 5, 7, 8, 9, 10, 11, 12, 15, 16].map(|number| format!("drop {number}"));
    let verdicts = ["done", "deliver", "forward", "spread", "kept"].map(str::to_string);
    refusals.into_iter().chain(clauses).chain(drops).chain(verdicts).map(|what| format!("second opinion {what}")).collect()
}
