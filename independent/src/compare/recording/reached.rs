//! What a comparison of recordings reaches, and how often.

use crate::compare::coverage::answer;
use crate::engine::Outcome;

/// What was reached, and how often.
#[derive(Default)]
pub struct Reached {
    /// By number, 0 for a file that was taken.
    pub reading: [usize; 26],
    pub writing: [usize; 26],
    /// Replayed entries: refused, then by `Verdict::index`.
    entries: [usize; 6],
}

impl Reached {
    /// Each thing that can be reached, in words, and how often it was.
    pub fn reached(&self) -> Vec<(String, usize)> {
        let reading = [0, 20, 21, 22, 23].map(|number| (format!("reading, {}", answer(number)), self.reading[number]));
        let writing = [0, 5, 20, 23, 25].map(|number| (format!("writing, {}", answer(number)), self.writing[number]));
        let words = ["refused", "drop", "deliver", "forward", "spread", "kept"];
        let entries = words.iter().zip(self.entries).map(|(word, times)| (format!("replayed entries, {word}"), times));
        reading.into_iter().chain(writing).chain(entries).collect()
    }

    pub fn count_entry(&mut self, judged: &Outcome) {
        match judged {
            Outcome::Judged(answer) => self.entries[1 + answer.verdict.index()] += 1,
            _ => self.entries[0] += 1,
        }
    }
}
