//! The comparison notices every deliberate fault.

use haskumye_independent::compare::announcing::programs_differ;
use haskumye_independent::compare::faults::packets_differ;
use haskumye_independent::compare::{opinion, saved, survey};
use haskumye_independent::compare::{tables::compare_with, Options, Tally, SUBJECTS};
use haskumye_independent::faults::{self, Fault, OF_ANNOUNCING, OF_OPINIONS, OF_PACKETS, OF_SAVED, OF_SURVEYS, OF_TABLES};
use haskumye_independent::linked::SecondOpinion;
use haskumye_independent::opinion::Plain;
use haskumye_independent::relay::Relay;
use haskumye_independent::rules::Tuned;

fn run(name: &str, options: &Options) -> Tally {
    let mut tally = Tally::default();
    let subject = SUBJECTS.iter().find(|subject| subject.0 == name).expect("a subject");
    subject.1(options, &mut tally);
    tally
}

#[test]
#[cfg_attr(debug_assertions, ignore = "takes minutes without --release")]
fn there_are_forty_and_all_are_noticed() {
    let tally = run("faults", &Options::default());
    assert!(tally.passed >= 40);
    assert_eq!((tally.passed, tally.failed), (faults::all().len(), 0));
}

#[test]
fn a_relay_without_a_fault_is_not_noticed() {
    let tally = run("faults", &Options { damage: true, ..Options::default() });
    assert_eq!(tally.passed, 0);
}

#[test]
fn names_are_different() {
    let mut names: Vec<_> = faults::all().iter().map(|fault| fault.name).collect();
    names.sort();
    names.dedup();
    assert_eq!(names.len(), faults::all().len());
}

#[test]
fn the_comparison_notices_faults_in_packets() {
    for fault in OF_PACKETS.concat() {
        assert!(packets_differ(fault.rules()), "{}", fault.text);
    }
}

#[test]
fn the_comparison_notices_faults_in_announcing() {
    assert!(!programs_differ(&Relay::as_written(), &Relay::as_written()));
    for fault in OF_ANNOUNCING.concat() {
        assert!(programs_differ(&Relay::as_written(), &fault.relay()), "{}", fault.text);
    }
}

#[test]
fn the_comparison_notices_faults_in_saved_files() {
    assert!(!saved::programs_differ(&Relay::as_written(), &Relay::as_written()));
    for fault in OF_SAVED.concat() {
        assert!(saved::programs_differ(&Relay::as_written(), &fault.relay()), "{}", fault.text);
    }
}

#[test]
fn the_comparison_notices_faults_in_surveys() {
    assert!(!survey::programs_differ(&Relay::as_written(), &Relay::new(Tuned)));
    for fault in OF_SURVEYS.concat() {
        assert!(survey::programs_differ(&Relay::new(Tuned), &fault.relay()), "{}", fault.text);
    }
}

/// One of each subject that 64 calls can show.
const IN_FEW_CALLS: &[Fault] = &[
    faults::LocalsFullFirst,
    faults::RenumberingBackwards,
    faults::EqualClockRefused,
    faults::DuplicateRenews,
    faults::KeepaliveNotExempt,
    faults::LastBlobEmission,
    faults::ExpiryNeverShrinks,
    faults::GraceBlocks,
    faults::EqualDoesNotRevive,
    faults::MarkStaysOnSpread,
    faults::PathLivesAtExpiry,
    faults::LinkProofTwice,
    faults::HopsSwapped,
    faults::ReceiptKeepsRecord,
    faults::SpreadToOffPorts,
    faults::RestZeroed,
    faults::LengthAsItCameIn,
    faults::LastClauseNamed,
];

#[test]
#[cfg_attr(debug_assertions, ignore = "takes minutes without --release")]
fn the_second_opinion_is_not_that_of_a_faulty_relay() {
    assert!(!opinion::opinions_differ(&mut SecondOpinion::default(), &mut Plain::new(Relay::new(Tuned))));
    for fault in OF_OPINIONS.concat().iter().chain(IN_FEW_CALLS) {
        let mut faulty = Plain::by(fault.relay(), fault.rules());
        assert!(opinion::opinions_differ(&mut SecondOpinion::default(), &mut faulty), "{}", fault.text);
    }
}

#[test]
fn the_comparison_notices_faults_in_tables() {
    for fault in OF_TABLES.concat() {
        let noticed = |count: &usize| {
            let mut tally = Tally::silent();
            compare_with(fault.rules(), &Options { count: *count, ..Options::default() }, &mut tally);
            tally.failed > 0
        };
        assert!([20, 100, 400].iter().any(noticed), "{}", fault.text);
    }
}
