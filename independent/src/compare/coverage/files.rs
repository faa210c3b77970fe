//! Saves and loads, and what older files come to.

use super::answer;
use crate::faults::OlderBlobsUpTo64;
use crate::rules::{AsWritten, Rules};
use crate::saved::editions::CURRENT;
use crate::tables::SIZE;

/// A file that loads, or would load if paths of older files could hold 64 blobs.
pub struct OlderFile {
    edition: u8,
    many: bool,
}

impl OlderFile {
    pub fn of(file: &[u8]) -> Option<Self> {
        let tables = vec![0; SIZE];
        let many = AsWritten.loading_refusal(file, &tables).is_err();
        if many && OlderBlobsUpTo64.rules().loading_refusal(file, &tables).is_err() {
            return None;
        }
        Some(Self { edition: file[1], many })
    }
}

/// Saves and loads by their refusals' numbers, 0 for none.
#[derive(Default)]
pub struct Files {
    pub saves: [usize; 26],
    pub loads: [usize; 26],
    /// Files that were loaded, by their editions, from the first on.
    editions: [usize; CURRENT as usize],
    /// Older ones that were refused for more than 16 blobs alone.
    many: usize,
}

impl Files {
    pub fn count_older(&mut self, file: &OlderFile, refusal: usize) {
        match refusal {
            0 => self.editions[usize::from(file.edition) - 1] += 1,
            24 if file.many => self.many += 1,
            _ => {}
        }
    }

    /// Each answer that can be given, in words, and how often it was.
    pub fn reached(&self) -> Vec<(String, usize)> {
        let saves = [0, 7, 25].map(|number| (format!("save: {}", answer(number)), self.saves[number]));
        let loads = [0, 20, 21, 22, 24, 25].map(|number| (format!("load: {}", answer(number)), self.loads[number]));
        let editions = (1..).zip(self.editions).map(|(edition, times)| (format!("load: edition {edition}"), times));
        let many = ("load: refusal 24, of an older file with more than 16 blobs".to_string(), self.many);
        saves.into_iter().chain(loads).chain(editions).chain([many]).collect()
    }
}
