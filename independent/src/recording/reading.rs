//! The reader.

use super::{contents, count, entry, number, Entry, EDITION, HEAD, KIND, LONGEST_FILE};
use crate::answer::{Refusal, When};
use crate::rules::Rules;

/// "Refusals, in order": each over all of the file before the next.
pub fn file_refusal<R: Rules>(rules: &R, file: &[u8]) -> Result<(), Refusal> {
    Refusal::FileLength.when(rules.length_refused(file))?;
    Refusal::FileKind.when(rules.kind_refused(file))?;
    Refusal::FilePlaces.when(rules.places_refused(file))?;
    Refusal::SignatureWord.when(rules.words_refused(file))
}

/// "20 file too long or shorter than its contents": its table of contents, by its own count.
pub fn length_refused(file: &[u8]) -> bool {
    file.len() > LONGEST_FILE || file.len() < HEAD || file.len() < contents(count(file))
}

/// "21 kind or edition"
pub fn kind_refused(file: &[u8]) -> bool {
    file.first() != Some(&KIND) || file.get(1) != Some(&EDITION)
}

/// "22 offset, length or file end that breaks the rule": "The contents, then the bodies in order, fill the file without gaps".
pub fn places_refused<R: Rules>(rules: &R, file: &[u8]) -> bool {
    let start = contents(count(file));
    let end = entries(rules, file).try_fold(start, |place, entry| rules.stands_at(&entry, place).then_some(place + entry.length));
    !end.is_some_and(|end| rules.ends_at(end, file.len()))
}

pub fn stands_at(entry: &Entry, place: usize) -> bool {
    entry.offset == place
}

pub fn ends_at(place: usize, length: usize) -> bool {
    place == length
}

/// "23 signature word"
pub fn words_refused<R: Rules>(rules: &R, file: &[u8]) -> bool {
    entries(rules, file).any(|entry| rules.word_refused(entry.word))
}

/// "signature word (1, 0 or 1)"
pub fn word_refused(word: u8) -> bool {
    word > 1
}

/// The entries of the table of contents, as many as lie whole in the file.
pub fn entries<'a, R: Rules>(rules: &'a R, file: &'a [u8]) -> impl Iterator<Item = Entry> + 'a {
    let table = file.get(HEAD..).unwrap_or_default();
    table.chunks_exact(entry::WIDTH).take(count(file)).map(|bytes| rules.entry_of(bytes))
}

/// "clock (5), port (1), signature word (1, 0 or 1), offset in the file (4), length (2), all big-endian."
pub fn entry_of(bytes: &[u8]) -> Entry {
    Entry {
        clock: number(&bytes[entry::CLOCK]),
        port: bytes[entry::PORT],
        word: bytes[entry::WORD],
        offset: number(&bytes[entry::OFFSET]) as usize,
        length: number(&bytes[entry::LENGTH]) as usize,
    }
}

/// An entry by its place, of any bytes: none where there is no such entry, or where its body doesn't lie in the file.
pub fn entry_at<R: Rules>(rules: &R, file: &[u8], index: u64) -> Option<Entry> {
    let entry = entries(rules, file).nth(usize::try_from(index).ok()?)?;
    entry.body(file).map(|_| entry)
}
