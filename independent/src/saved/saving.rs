//! Saving.

use super::{editions, entry, BODIES, CONTENTS, KIND, LENGTH, TALLY};
use crate::answer::{Refusal, Tally, When};
use crate::recording::{put_number, COUNT, HEAD};
use crate::rules::Rules;
use crate::tables::check::checked;
use crate::tables::SIZE;

/// "saving gives 7, then 25." Writes the file at the room's start, and gives its length. Room past the file stays.
pub fn save<R: Rules>(rules: &R, tables: &[u8], tally: &Tally, room: &mut [u8]) -> Result<usize, Refusal> {
    checked(rules, tables)?;
    Refusal::Room.when(rules.saving_room_refused(room.len()))?;
    rules.put_saved(tables, tally, room);
    Ok(LENGTH)
}

/// "25 room too small"
pub fn saving_room_refused(room: usize) -> bool {
    room < LENGTH
}

/// The tables' sections are the bodies, byte for byte, and stand in the file as they do in the tables; the tally is big-endian.
pub fn put_saved(tables: &[u8], tally: &Tally, room: &mut [u8]) {
    let (contents, bodies) = room.split_at_mut(CONTENTS);
    put_contents(contents);
    let (sections, rest) = bodies.split_at_mut(SIZE);
    sections.copy_from_slice(tables);
    for (bytes, counter) in rest[..TALLY].chunks_exact_mut(4).zip(tally) {
        bytes.copy_from_slice(&counter.to_be_bytes());
    }
}

fn put_contents(contents: &mut [u8]) {
    (contents[0], contents[1]) = (KIND, editions::CURRENT);
    put_number(BODIES as u64, &mut contents[COUNT]);
    let mut offset = CONTENTS;
    for (entry, length) in contents[HEAD..].chunks_exact_mut(entry::WIDTH).zip(editions::lengths(editions::CURRENT)) {
        put_number(offset as u64, &mut entry[entry::OFFSET]);
        put_number(length as u64, &mut entry[entry::LENGTH]);
        offset += length;
    }
}
