//! The replay: "The replay makes these calls over given tables and prints one line per entry".

use super::count;
use crate::answer::{Answer, Reason, Refusal, Tally, Verdict};
use crate::limits::{LONGEST, PORT_COUNT};
use crate::relay::{Arrival, Relay};
use crate::rules::Rules;

/// What the packet call of an entry gave.
pub type Judged = Result<Answer, Refusal>;

/// The packet call of one entry, with an output of its own. None, and nothing changes, where the file has no such entry.
pub fn step<R: Rules>(relay: &Relay<R>, file: &[u8], index: u64, tables: &mut [u8], tally: &mut Tally) -> Option<Judged> {
    let entry = relay.rules.entry_at(file, index)?;
    let packet = entry.body(file)?;
    let arrival = Arrival { packet, port: entry.port.into(), clock: entry.clock, signature: entry.word == 1 };
    Some(relay.packet(tables, tally, &mut [0; LONGEST], &arrival))
}

/// All that a replay prints: a line for each entry, or "a refused file prints only `refused` and the number".
pub fn replay<R: Rules>(relay: &Relay<R>, file: &[u8], tables: &mut [u8], tally: &mut Tally) -> String {
    if let Err(refusal) = relay.rules.file_refusal(file) {
        return format!("refused {}\n", refusal.number());
    }
    let mut text = String::new();
    for index in 0..count(file) as u64 {
        let Some(judged) = step(relay, file, index, tables, tally) else { break };
        text += &relay.rules.replay_line(index + 1, &judged);
        if !relay.rules.goes_on(&judged) {
            break;
        }
    }
    text
}

/// "an entry that the core refuses prints as `6 refused 1` and the replay goes on."
pub fn goes_on(_: &Judged) -> bool {
    true
}

/// "one line per entry, counted from 1: `1 forward 4`, `2 drop 6`, `3 deliver`, `4 spread 1 5` (rising), `5 kept`". A line feed ends it.
pub fn replay_line<R: Rules>(rules: &R, number: u64, judged: &Judged) -> String {
    format!("{number} {}\n", words(rules, judged))
}

/// The ports of a set, each behind a space.
fn rising(ports: u16) -> String {
    (0..PORT_COUNT).filter(|port| ports >> port & 1 == 1).map(|port| format!(" {port}")).collect()
}

/// An answer in the words of a line.
pub fn words<R: Rules>(rules: &R, judged: &Judged) -> String {
    let answer = match judged {
        Ok(answer) => answer,
        Err(refusal) => return format!("refused {}", refusal.number()),
    };
    match answer.verdict {
        Verdict::Drop(reason) => format!("drop {}", rules.reason_words(reason)),
        Verdict::Deliver => "deliver".to_string(),
        Verdict::Forward(port) => format!("forward {port}"),
        Verdict::Spread(ports) => format!("spread{}", rising(ports)),
        Verdict::Kept => "kept".to_string(),
    }
}

/// "Replay lines: `2 drop 3.4 148`, `2 drop 3.1 0`, `2 drop 6.3 22600`, `2 drop 6.1`."
pub fn reason_words(reason: Reason) -> String {
    let number = reason.number();
    match reason.clause() {
        None => format!("{number}"),
        Some((clause, None)) => format!("{number}.{clause}"),
        Some((clause, Some(value))) => format!("{number}.{clause} {value}"),
    }
}
