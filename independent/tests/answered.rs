//! Calls with their answers: a host in another language reads them as they are written here.

use haskumye_independent::compare::{answered, coverage::Coverage, listed, Options};
use haskumye_independent::engine::{Call, Run};
use haskumye_independent::relay::Relay;
use haskumye_independent::traffic::Traffic;
use std::fs;
use std::path::PathBuf;

#[test]
fn it_is_a_list_with_an_answer_to_each_call() {
    let path = PathBuf::from(env!("CARGO_TARGET_TMPDIR")).join("answered.calls");
    let calls: Vec<Call> = Traffic::for_hosts(3).take(1_000).filter(Call::is_for_hosts).collect();
    let options = Options { seed: 3, calls: 1_000, ..Options::default() };
    assert_eq!(answered::write(&options, &path), Ok(calls.len()));
    let text = fs::read_to_string(&path).expect("it was written");
    assert_eq!(text.lines().next(), Some(&format!("# {} calls of seed 3", calls.len())[..]));
    assert_eq!(text.lines().count(), 1 + calls.len());
    for (line, call) in text.lines().skip(1).zip(&calls) {
        let edit = matches!(call, Call::PutAside | Call::TakeBack | Call::Write { .. } | Call::Copy { .. } | Call::Resize(_));
        assert_ne!(line.contains(" = "), edit, "{line}");
    }
    assert!(listed::read(&path) == Ok(calls));
}

/// As many calls as `scripts/build-host` lists.
#[test]
fn the_gates_list_reaches_every_refusal_reason_and_verdict() {
    let (mut run, mut coverage) = (Run::new(Relay::as_written()), Coverage::default());
    for call in Traffic::for_hosts(1).take(20_000) {
        let before = coverage.before(&call, &run.tables, &run.file);
        if let Some(outcome) = run.make(&call) {
            coverage.after(&call, &outcome, &before);
        }
    }
    for (what, times) in coverage.reached() {
        assert!(times >= 10, "{what}: {times}");
    }
}

/// A fresh relay's sum, worked out by a third program: the C host works out the same.
#[test]
fn the_sum() {
    let path = PathBuf::from(env!("CARGO_TARGET_TMPDIR")).join("fresh.calls");
    let list = vec![Call::Fresh([7; 16])];
    answered::write(&Options { list: Some(list), ..Options::default() }, &path).expect("it is written");
    let text = fs::read_to_string(&path).expect("it was written");
    assert!(text.ends_with(" = 0 370bc4293bf3cdbe\n"), "{text}");
}
