//! Every deliberate fault must be noticed: the core is compared with an independent program that has it, on traffic; and where no traffic
//! can show it, on packets, on recordings, on saved files, on announces of our own, on surveys, or on second opinions.

use super::lockstep::{compare, Difference};
use super::{announcing, opinion, packet, recording, saved, shrink, survey, Options, Tally};
use crate::engine::Call;
use crate::faults::{self, Fault, With, OF_ANNOUNCING, OF_OPINIONS, OF_PACKETS, OF_RECORDINGS, OF_SAVED, OF_SURVEYS};
use crate::linked::{Core, SecondOpinion};
use crate::opinion::Plain;
use crate::relay::Relay;
use crate::rules::{AsWritten, Rules};

/// With `--damage` the relay has no fault after all, and few calls show that much.
const DAMAGED_CALLS: usize = 500;
/// Packets show a fault by their edges: random ones are few.
const RANDOM_PACKETS: usize = 20;

/// Faults that a comparison apart shows, and whether the core differs in it from a relay with one.
type Apart = (&'static [&'static [Fault]], &'static str, fn(&Relay<With>) -> bool);

const APART: &[Apart] = &[
    (OF_RECORDINGS, "recordings", |relay| recording::programs_differ(&Core, relay)),
    (OF_SAVED, "saved files", |relay| saved::programs_differ(&Core, relay)),
    (OF_ANNOUNCING, "announces of our own", |relay| announcing::programs_differ(&Core, relay)),
    (OF_SURVEYS, "surveys", |relay| survey::programs_differ(&Core, relay)),
    (OF_OPINIONS, "second opinions", |relay| {
        let faulty = Relay::new(relay.rules.clone());
        opinion::opinions_differ(&mut SecondOpinion::default(), &mut Plain::by(faulty, relay.rules.clone()))
    }),
];

pub fn run(options: &Options, tally: &mut Tally) {
    for fault in options.fault.map_or_else(faults::all, |fault| vec![fault]) {
        let apart = APART.iter().find(|(faults, ..)| is_among(faults, fault));
        let difference = if apart.is_some() { None } else { notice(options, fault) };
        // with `--damage` there is no fault to show
        let noticed = difference.is_some()
            || in_packets(options, fault)
            || apart.is_some_and(|(_, _, differ)| !options.damage && differ(&fault.relay()));
        tally.holds(&format!("{} is noticed ({})", fault.name, fault.text), noticed, false);
        if options.fault.is_none() {
            continue;
        }
        println!("{}: {}\n    against \"{}\"", fault.name, fault.text, fault.breaks);
        match difference {
            Some(difference) => {
                let shown = |calls: &[Call]| differs(fault, calls.iter().cloned()).map(|difference| difference.calls);
                println!("{difference}");
                println!("{}", shrink::again(&format!("faults --fault {}", fault.name), options, difference.calls, shown));
            }
            None if noticed => println!("    by {}", apart.map_or("packets alone", |(_, subject, _)| subject)),
            None => {}
        }
    }
}

/// The first call that shows a fault.
fn notice(options: &Options, fault: Fault) -> Option<Difference> {
    if options.damage {
        return compare(options.traffic().take(DAMAGED_CALLS), Core, Relay::as_written());
    }
    differs(fault, options.traffic())
}

/// The first call on which the core differs from a relay with a fault.
pub fn differs(fault: Fault, calls: impl Iterator<Item = Call>) -> Option<Difference> {
    compare(calls, Core, fault.relay())
}

fn is_among(lists: &[&[Fault]], fault: Fault) -> bool {
    lists.concat().iter().any(|other| other.name == fault.name)
}

/// Does the comparison of packets show a fault that traffic can't?
fn in_packets(options: &Options, fault: Fault) -> bool {
    is_among(OF_PACKETS, fault) && if options.damage { packets_differ(AsWritten) } else { packets_differ(fault.rules()) }
}

/// Does a reading of packets differ from the core's?
pub fn packets_differ(rules: impl Rules) -> bool {
    let mut tally = Tally::silent();
    packet::compare_with(rules, &Options { count: RANDOM_PACKETS, ..Options::default() }, &mut tally);
    tally.failed > 0
}
