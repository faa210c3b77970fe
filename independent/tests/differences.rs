//! How a difference is shown again: fewer calls, in a file.

use haskumye_independent::compare::{faults::differs, listed, shrink::shrink};
use haskumye_independent::engine::Call;
use haskumye_independent::faults::{BlobsStopAtLimit, HopsLimitHigher, SpreadLimitLower};
use haskumye_independent::traffic::Traffic;
use std::fs;
use std::path::PathBuf;

fn path(name: &str) -> PathBuf {
    PathBuf::from(env!("CARGO_TARGET_TMPDIR")).join(name)
}

#[test]
fn no_call_of_a_shrunk_list_can_be_left_out() {
    for fault in [HopsLimitHigher, SpreadLimitLower, BlobsStopAtLimit] {
        let shown = |calls: &[Call]| differs(fault, calls.iter().cloned()).map(|difference| difference.calls);
        let first = differs(fault, Traffic::new(1)).expect("it is noticed").calls;
        let few = shrink(Traffic::new(1).take(first).collect(), shown);
        assert_eq!(shown(&few), Some(few.len()), "{}", fault.name);
        assert!(few.len() < 30, "{}: {} of {first} calls", fault.name, few.len());
        for left_out in 0..few.len() {
            assert_eq!(shown(&[&few[..left_out], &few[left_out + 1..]].concat()), None, "{}", fault.name);
        }
    }
}

#[test]
fn a_list_reads_back_from_its_file() {
    let calls: Vec<Call> = Traffic::new(7).take(2_000).collect();
    let path = path("lists/whole.calls");
    listed::write(&path, &calls).expect("it is written");
    assert!(listed::read(&path) == Ok(calls));
}

#[test]
fn a_list_may_be_cut_by_hand() {
    let path = path("by_hand.calls");
    fs::write(&path, "# a comment\n\n  put aside\nresize to 3 = 0 1234\n# take back\ntake back").expect("it is written");
    assert!(listed::read(&path) == Ok(vec![Call::PutAside, Call::Resize(3), Call::TakeBack]));
    fs::write(&path, "put aside\n\nput away\n").expect("it is written");
    let problem = listed::read(&path).err().expect("not a call");
    assert!(problem.ends_with("by_hand.calls, line 3: not a call: put away"), "{problem}");
}
