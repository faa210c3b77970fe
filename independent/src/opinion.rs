//! A plain second opinion: document 02's Wish 13. What it has to say is told by a relay that is asked the same; which calls it lists stands here.

use crate::answer::{no_way_on, Answer, NoWay, Reason, Refusal, Verdict};
use crate::engine::{fill, Call, Engine, Outcome, Run};
use crate::rules::{AsWritten, Rules};

/// "keeps the list of accepted calls since fresh, up to 64"
pub const LIST_LIMIT: usize = 64;

/// "28, a call when 64 are listed, before all others"; else what a relay says.
pub fn opined(listed: usize, outcome: Outcome) -> Outcome {
    if listed >= LIST_LIMIT {
        return Outcome::Refused(Refusal::ListFull.number());
    }
    plain(outcome)
}

/// "having no slots, for 6.2 and 6.3 it need only say 6.2 or 6.3": this one says 6.2.
pub fn plain(outcome: Outcome) -> Outcome {
    match outcome {
        Outcome::Judged(Answer { verdict: Verdict::Drop(Reason::NoWayOn { case: NoWay::OnlyExpired { .. } }), .. }) => {
            Outcome::Judged(Answer::silent(Verdict::Drop(no_way_on(NoWay::NoPath))))
        }
        outcome => outcome,
    }
}

/// "the list of accepted calls": drops too.
pub fn is_listed(outcome: &Outcome) -> bool {
    !matches!(outcome, Outcome::Refused(_))
}

/// "since fresh"
pub fn listed_when_fresh(_listed: usize) -> usize {
    0
}

/// "none a load, save or replay", and no question.
pub fn is_taken(call: &Call) -> bool {
    use Call::*;
    let setting = matches!(call, SetPort { .. } | SetAnnounceRate(_) | AddLocal(_) | RemoveLocal(_) | Renumber(_));
    setting || matches!(call, Fresh(_) | Packet(_) | Mark { .. })
}

/// What a call returned, and the whole output after it.
#[derive(Clone, Debug, PartialEq, Eq)]
pub struct Opined {
    pub outcome: Outcome,
    pub output: Vec<u8>,
}

/// A second opinion, which is made the calls that are taken.
pub trait Opinion {
    fn make(&mut self, call: &Call) -> Opined;
}

/// A relay that says what a second opinion has to say, and counts the calls that are listed.
pub struct Plain<E: Engine, R: Rules> {
    run: Run<E>,
    rules: R,
    listed: usize,
}

impl<E: Engine> Plain<E, AsWritten> {
    pub fn new(engine: E) -> Self {
        Self::by(engine, AsWritten)
    }
}

impl<E: Engine, R: Rules> Plain<E, R> {
    pub fn by(engine: E, rules: R) -> Self {
        Self { run: Run::new(engine), rules, listed: 0 }
    }
}

impl<E: Engine, R: Rules> Opinion for Plain<E, R> {
    fn make(&mut self, call: &Call) -> Opined {
        // where 64 are listed the relay goes on alone, and nobody hears of it until the next fresh
        let answer = self.run.make(call).expect("a call that is taken");
        let mut output = Vec::new();
        if let Call::Packet(call) = call {
            fill(&mut output, call.output, call.fill);
        }
        if let Call::Fresh(_) = call {
            self.listed = self.rules.listed_when_fresh(self.listed);
            return Opined { outcome: answer, output };
        }
        let outcome = self.rules.opined(self.listed, answer);
        if is_listed(&outcome) && !output.is_empty() {
            output.clone_from(&self.run.output);
        }
        self.listed += usize::from(self.rules.is_listed(&outcome));
        Opined { outcome, output }
    }
}
