//! A difference in a form that can be run again: the shortest prefix of the calls, and fewer calls of it that still show a difference.

use super::{listed, Options};
use crate::engine::Call;
use std::path::Path;

/// So many calls may the search make, some seconds' worth.
const BUDGET: usize = 400_000;
/// So many of the last fresh relays are tried as the start: some were made of tables that were lent for a while.
const STARTS: usize = 8;
/// Where what the search finds is written.
const FILE: &str = "target/difference.calls";

/// Leaves calls out, by halves, quarters and at last single ones, as long as a difference stays. `differs` says how many calls show one.
pub fn shrink(mut calls: Vec<Call>, differs: impl Fn(&[Call]) -> Option<usize>) -> Vec<Call> {
    let is_fresh = |place: &usize| matches!(calls[*place], Call::Fresh(_));
    let start = (0..calls.len()).rev().filter(is_fresh).take(STARTS).find(|start| differs(&calls[*start..]).is_some());
    calls.drain(..start.unwrap_or(0));
    let (mut width, mut left) = (calls.len().div_ceil(2), BUDGET);
    while width > 0 && left > 0 {
        let before = calls.len();
        leave_out(&mut calls, width, &mut left, &differs);
        // single calls are tried until all of them are needed
        if width > 1 || calls.len() == before {
            width /= 2;
        }
    }
    calls
}

/// Leaves out every part of this width that a difference doesn't need.
fn leave_out(calls: &mut Vec<Call>, width: usize, left: &mut usize, differs: impl Fn(&[Call]) -> Option<usize>) {
    let mut from = 0;
    while from < calls.len() && *left > 0 {
        let to = (from + width).min(calls.len());
        let mut rest = [&calls[..from], &calls[to..]].concat();
        *left = left.saturating_sub(rest.len());
        if let Some(shown) = differs(&rest) {
            rest.truncate(shown);
            *calls = rest;
        } else {
            from = to;
        }
    }
}

/// How to show again a difference that the first `shown` calls show, in lines for its report. Fewer calls that show one go to a file.
pub fn again(subject: &str, options: &Options, shown: usize, differs: impl Fn(&[Call]) -> Option<usize>) -> String {
    let few = shrink(options.traffic().take(shown).collect(), differs);
    let prefix = match &options.list {
        Some(calls) if calls.len() == few.len() => return "    no call of the list can be left out".to_string(),
        Some(_) => format!("    the first {shown} calls of the list show it"),
        None => format!("    run again: compare {subject} --seed {} --calls {shown}", options.seed),
    };
    match listed::write(Path::new(FILE), &few) {
        Ok(()) => format!("{prefix}\n    or by {} calls: compare {subject} --file {FILE}", few.len()),
        Err(problem) => format!("{prefix}\n    {problem}"),
    }
}
