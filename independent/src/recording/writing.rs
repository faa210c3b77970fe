//! The writer. It gets the entries as bytes of one width, and the bodies one after another.

use super::{contents, entry, given, number, put_number, COUNT, EDITION, HEAD, KIND, LONGEST_FILE};
use crate::answer::{Refusal, When};
use crate::limits::CLOCK_LIMIT;
use crate::rules::Rules;

/// Writes the file at the room's start, and gives its length. Room past the file stays.
pub fn write<R: Rules>(rules: &R, entries: &[u8], bodies: &[u8], room: &mut [u8]) -> Result<usize, Refusal> {
    rules.writing_refusal(entries, bodies.len(), room.len())?;
    Ok(rules.put_file(entries, bodies, room))
}

/// "The writer: 23, 5 for a clock past five bytes, 20, then 25 for too little room." Each over all entries before the next.
pub fn writing_refusal<R: Rules>(rules: &R, entries: &[u8], bodies: usize, room: usize) -> Result<(), Refusal> {
    Refusal::SignatureWord.when(whole(entries).any(|entry| rules.word_refused(entry[given::WORD])))?;
    Refusal::Clock.when(whole(entries).any(|entry| rules.clock_past(number(&entry[given::CLOCK]))))?;
    Refusal::FileLength.when(rules.not_a_file(entries, bodies))?;
    Refusal::Room.when(rules.room_refused(room, file_length(entries, bodies)))
}

/// The entries that are given whole.
pub fn whole(entries: &[u8]) -> impl Iterator<Item = &[u8]> {
    entries.chunks_exact(given::WIDTH)
}

/// "5 for a clock past five bytes"
pub fn clock_past(clock: u64) -> bool {
    clock >= CLOCK_LIMIT
}

/// 20: "60,000 bytes at most", and nothing else where entries and bodies don't add up to a file.
pub fn not_a_file(entries: &[u8], bodies: usize) -> bool {
    is_cut(entries) || bodies_given(entries) != bodies || file_length(entries, bodies) > LONGEST_FILE
}

pub fn is_cut(entries: &[u8]) -> bool {
    entries.len() % given::WIDTH != 0
}

/// The sum of the entries' lengths.
pub fn bodies_given(entries: &[u8]) -> usize {
    whole(entries).map(|entry| number(&entry[given::LENGTH]) as usize).sum()
}

pub fn file_length(entries: &[u8], bodies: usize) -> usize {
    contents(whole(entries).count()) + bodies
}

/// "25 for too little room"
pub fn room_refused(room: usize, length: usize) -> bool {
    room < length
}

/// "The contents, then the bodies in order, fill the file without gaps"
pub fn put_file(entries: &[u8], bodies: &[u8], room: &mut [u8]) -> usize {
    let file = &mut room[..file_length(entries, bodies.len())];
    let count = whole(entries).count();
    let (table, rest) = file.split_at_mut(contents(count));
    (table[0], table[1]) = (KIND, EDITION);
    put_number(count as u64, &mut table[COUNT]);
    let mut offset = table.len();
    for (entry, given) in table[HEAD..].chunks_exact_mut(entry::WIDTH).zip(whole(entries)) {
        put_entry(given, offset, entry);
        offset += number(&given[given::LENGTH]) as usize;
    }
    rest.copy_from_slice(bodies);
    file.len()
}

fn put_entry(given: &[u8], offset: usize, entry: &mut [u8]) {
    put_number(number(&given[given::CLOCK]), &mut entry[entry::CLOCK]);
    entry[entry::PORT] = given[given::PORT];
    entry[entry::WORD] = given[given::WORD];
    put_number(offset as u64, &mut entry[entry::OFFSET]);
    entry[entry::LENGTH].copy_from_slice(&given[given::LENGTH]);
}
