//! Wish 13: the second opinion. What it answers is judged by the relay's rules, whose faults are above.

use super::{faults, Changes, Fault};
use crate::rules::*;

faults! {
    ListOf63: "28 comes when 63 are listed"
    breaks "keeps the list of accepted calls since fresh, up to 64" {
        opined = |_, listed, outcome| opinion::opined(listed + 1, outcome),
    }
    ListOf65: "65 calls are listed"
    breaks "28, a call when 64 are listed, before all others." {
        opined = |_, listed, outcome| opinion::opined(listed.saturating_sub(1), outcome),
    }
    ListFullLast: "28 comes after the other refusals"
    breaks "28, a call when 64 are listed, before all others." {
        opined = |_, listed, outcome| if opinion::is_listed(&outcome) { opinion::opined(listed, outcome) } else { outcome },
    }
    RefusedListed: "refused calls are listed"
    breaks "keeps the list of accepted calls since fresh" {
        is_listed = |_, _| true,
    }
    DropsUnlisted: "packets that are dropped are not listed"
    breaks "keeps the list of accepted calls since fresh" {
        is_listed = |_, outcome| {
            let dropped = matches!(outcome, Outcome::Judged(Answer { verdict: Verdict::Drop(_), .. }));
            opinion::is_listed(outcome) && !dropped
        },
    }
    SettingsUnlisted: "calls without a packet are not listed"
    breaks "keeps the list of accepted calls since fresh" {
        is_listed = |_, outcome| opinion::is_listed(outcome) && *outcome != Outcome::Done,
    }
    FreshKeepsList: "a fresh one goes on with its list"
    breaks "keeps the list of accepted calls since fresh" {
        listed_when_fresh = |_, listed| listed,
    }
}
