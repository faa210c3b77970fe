//! Demand 3: renumberings put in at random places change nothing but names.

use super::{Options, Tally};
use crate::answer::{Answer, Verdict};
use crate::engine::{Call, Engine, Outcome, Run};
use crate::linked::Core;
use crate::random::Random;
use crate::relay::asking::Question;
use crate::relay::renumbering::{rename, renumber, Map};
use crate::relay::Relay;
use crate::rules::AsWritten;
use crate::saved::CONTENTS;
use crate::tables::SIZE;
use crate::traffic::{Asking, Traffic};

const IDENTITY: Map = [0, 1, 2, 3, 4, 5, 6, 7, 8, 9, 10, 11, 12, 13, 14, 15];
/// A renumbering is put in once in so many calls.
const RARITY: usize = 40;
/// Of the calls asked for only such a part is made: each costs two calls and a renumbering.
const PART: usize = 4;
/// Each kind of call is done at least so often.
const LEAST: usize = 100;

/// The kinds of calls beside packets and questions, whether they name ports or not.
const KINDS: [(&str, fn(&Call) -> bool); 7] = [
    ("port settings", |call| matches!(call, Call::SetPort { .. })),
    ("local addresses", |call| matches!(call, Call::AddLocal(_) | Call::RemoveLocal(_))),
    ("renumberings of the list", |call| matches!(call, Call::Renumber(_))),
    ("announce rates", |call| matches!(call, Call::SetAnnounceRate(_))),
    ("marks", |call| matches!(call, Call::Mark { .. })),
    ("saves", |call| matches!(call, Call::Save { .. })),
    ("loads", |call| matches!(call, Call::Load)),
];

/// The first map, then the second.
fn compose(first: &Map, second: &Map) -> Map {
    first.map(|image| second[usize::from(image)])
}

fn inverse(map: &Map) -> Map {
    let mut inverse = IDENTITY;
    for (port, image) in map.iter().enumerate() {
        inverse[usize::from(*image)] = port as u8;
    }
    inverse
}

/// A port's image: a number over 15 is no port and stays.
pub fn image(map: &Map, port: u64) -> u64 {
    map.get(port as usize).map_or(port, |image| u64::from(*image))
}

fn rename_set(map: &Map, set: u16) -> u16 {
    (0..16).filter(|port| set >> port & 1 == 1).fold(0, |images, port| images | 1 << map[port])
}

pub fn rename_outcome(map: &Map, outcome: Outcome) -> Outcome {
    let Outcome::Judged(Answer { verdict, length }) = outcome else { return outcome };
    let verdict = match verdict {
        Verdict::Forward(port) => Verdict::Forward(map[usize::from(port)]),
        Verdict::Spread(set) => Verdict::Spread(rename_set(map, set)),
        other => other,
    };
    Outcome::Judged(Answer { verdict, length })
}

/// A call with the ports it gives renamed; a renumbering's map names ports on both its sides.
fn rename_call(map: &Map, call: &Call) -> Call {
    let mut renamed = call.clone();
    match &mut renamed {
        Call::Packet(packet) => packet.port = image(map, packet.port),
        Call::SetPort { port, .. } | Call::Matters { port, .. } => *port = image(map, *port),
        Call::Ask { question: Question::Port(port), .. } => *port = image(map, *port),
        Call::Renumber(given) => {
            let there = given.map(|port| image(map, u64::from(port)) as u8);
            *given = inverse(map).map(|port| there[usize::from(port)]);
        }
        _ => {}
    }
    renamed
}

/// Two runs of one engine: a plain one, and one with renumberings put in.
struct Pair<E: Engine> {
    plain: Run<E>,
    renamed: Run<E>,
    map: Map,
    /// By `KINDS`: calls that were done.
    done: [usize; KINDS.len()],
}

impl<E: Engine> Pair<E> {
    fn renumber(&mut self, map: &Map) -> bool {
        self.map = compose(&self.map, map);
        self.renamed.make(&Call::Renumber(*map)) == Some(Outcome::Done)
    }

    /// The plain run's output, with the ports of a told reply renamed; a saved file is that of the renamed tables.
    fn renamed_output(&self, call: &Call, outcome: Option<Outcome>) -> Option<Vec<u8>> {
        let mut output = self.plain.output.clone();
        match (call, outcome) {
            (Call::Ask { question, .. }, Some(Outcome::Done)) => rename(&self.map, question.ports(), &mut output),
            (_, Some(Outcome::Saved(_))) => renumber(&AsWritten, &mut output[CONTENTS..][..SIZE], &self.map).ok()?,
            _ => {}
        }
        Some(output)
    }

    /// "After a load, demands 2 and 3 start again from the saved tables": both runs load the plain run's file, and are equal then.
    fn load(&mut self) -> bool {
        self.renamed.file.clone_from(&self.plain.file);
        let outcomes = (self.plain.make(&Call::Load), self.renamed.make(&Call::Load));
        self.count(&Call::Load, outcomes.0);
        if outcomes.0 == Some(Outcome::Done) {
            self.map = IDENTITY;
        }
        outcomes.0 == outcomes.1 && self.same_tables()
    }

    fn count(&mut self, call: &Call, outcome: Option<Outcome>) {
        let done = matches!(outcome, Some(Outcome::Done | Outcome::Saved(_)));
        for (times, (_, is_it)) in self.done.iter_mut().zip(KINDS) {
            *times += usize::from(done && is_it(call));
        }
    }

    /// Are the renamed run's tables the plain run's, renamed, and the tallies equal?
    fn same_tables(&self) -> bool {
        let mut tables = self.plain.tables.clone();
        self.plain.tally == self.renamed.tally && renumber(&AsWritten, &mut tables, &self.map).is_ok() && tables == self.renamed.tables
    }

    /// Makes a call in both runs and compares all that it returns and leaves.
    fn make(&mut self, call: &Call) -> bool {
        if matches!(call, Call::Fresh(_)) {
            self.map = IDENTITY;
        }
        for run in [&mut self.plain, &mut self.renamed] {
            run.output.clear(); // an earlier reply has ports that aren't renamed here
        }
        if matches!(call, Call::Load) {
            return self.load();
        }
        let plain = self.plain.make(call).map(|outcome| rename_outcome(&self.map, outcome));
        let renamed = self.renamed.make(&rename_call(&self.map, call));
        self.count(call, plain);
        plain == renamed && self.renamed_output(call, plain).as_ref() == Some(&self.renamed.output) && self.same_tables()
    }
}

pub fn run(options: &Options, tally: &mut Tally) {
    scenarios("independent relay", Relay::as_written, options, tally);
    scenarios("core", || Core, options, tally);
}

fn scenarios<E: Engine>(name: &str, engine: impl Fn() -> E, options: &Options, tally: &mut Tally) {
    let mut random = Random::new(options.seed);
    let mut pair = Pair { plain: Run::new(engine()), renamed: Run::new(engine()), map: IDENTITY, done: [0; KINDS.len()] };
    let calls = Asking::new(options.seed, Traffic::unlent(options.seed).take(options.calls / PART));
    for (number, call) in calls.enumerate() {
        let same = pair.make(&call);
        if same && !options.damage {
            tally.passed += 1;
        } else {
            let again = format!("compare renumbering --seed {} --calls {}", options.seed, PART * (number + 1));
            tally.fail(&format!("{name}, renumbered: call {} differs: {call}\n    run again: {again}", number + 1));
        }
        if !same {
            return;
        }
        if random.one_in(RARITY) {
            tally.holds("a renumbering put in", pair.renumber(&random.permutation()), options.damage);
        }
    }
    for ((what, _), times) in KINDS.iter().zip(pair.done) {
        println!("{name}, renumbered: {what}: {times}");
        if options.is_long() {
            tally.holds(&format!("{what} at least {LEAST} times"), times >= LEAST, options.damage);
        }
    }
}
