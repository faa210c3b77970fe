//! What is done to a saved file before it is loaded, mostly for one refusal.

use crate::files::contents_of;
use crate::random::Random;
use crate::recording::{count, COUNT, HEAD};
use crate::samples::{self, FIELDS, RECORDS, RINGS};
use crate::saved::editions::CURRENT;
use crate::saved::{contents, entry, BODIES, CONTENTS, LENGTH, TALLY};
use crate::tables::SIZE;

pub type Damage = fn(&mut Random, &mut Vec<u8>);

/// Those of a whole file of the current edition, for 20, 21, 22 and 24; two of them show the order.
pub const DAMAGES: &[Damage] = &[
    |random, file| file.truncate(random.pick(&[0, 1, 3, 4, HEAD + 5, CONTENTS - 1, CONTENTS, LENGTH - TALLY, LENGTH - 1])),
    |random, file| file.resize(file.len() + random.pick(&[1, 1, 6, 24]), 0),
    |random, file| set(file, 0, random.pick(&[0, 1, 3, 255])),
    |random, file| set(file, 1, random.pick(&[0, 0, CURRENT + 1, 255])),
    |random, file| set(file, COUNT.end - 1, random.pick(&[0, 7, 9, 255])),
    |random, file| recount(file, random.pick(&[0, 1, 7, 7, 9, 9, 264])),
    |random, file| change(random, file, entry::OFFSET.end - 1),
    |random, file| change(random, file, entry::OFFSET.start),
    |random, file| swap_offsets(file, random.below(BODIES), random.below(BODIES)),
    |random, file| change(random, file, entry::LENGTH.end - 1),
    |random, file| resize_body(file, random.below(BODIES), random.pick(&[-1, -1, 1, 24])),
    |random, file| {
        let (one, other) = (random.below(BODIES), random.below(BODIES));
        resize_body(file, one, -1);
        resize_body(file, other, if one == other { 2 } else { 1 });
    },
    |random, file| change_tables(random, file),
    |random, file| change_tables(random, file),
    |random, file| set(file, CONTENTS + random.below(16), random.word() as u8),
    |random, file| set(file, LENGTH - 1 - random.below(TALLY), random.word() as u8),
    |random, file| set(file, random.below(LENGTH), random.word() as u8),
];

pub fn set(file: &mut [u8], at: usize, byte: u8) {
    if let Some(place) = file.get_mut(at) {
        *place = byte;
    }
}

/// A byte of a field of some entry one higher, one lower, or another.
fn change(random: &mut Random, file: &mut [u8], field: usize) {
    let at = HEAD + random.below(BODIES) * entry::WIDTH + field;
    let byte = file.get(at).copied().unwrap_or(0);
    set(file, at, byte.wrapping_add(random.pick(&[1, 255, 128, 7])));
}

/// Two bodies' offsets in each other's place.
pub fn swap_offsets(file: &mut [u8], one: usize, other: usize) {
    let at = |body: usize, byte: usize| HEAD + body * entry::WIDTH + byte;
    if file.len() >= CONTENTS {
        entry::OFFSET.for_each(|byte| file.swap(at(one, byte), at(other, byte)));
    }
}

/// Another count, and the contents and the file's length as it asks for. Bodies behind the eighth are empty.
pub fn recount(file: &mut Vec<u8>, count: usize) {
    let edition = file.get(1).copied().unwrap_or(CURRENT);
    let mut lengths = super::lengths_of(file);
    lengths.resize(count, 0);
    let bodies = file.get(CONTENTS..).unwrap_or_default().to_vec();
    *file = contents_of(edition, &lengths);
    file.extend(bodies);
    file.resize(contents(count) + lengths.iter().sum::<usize>(), 0);
}

/// A body with fewer or more bytes at its end, and the contents as that asks for: its length, and the offsets behind it.
pub fn resize_body(file: &mut Vec<u8>, body: usize, more: isize) {
    if count(file) != BODIES || file.len() < CONTENTS {
        return;
    }
    let mut lengths = super::lengths_of(file);
    let end = CONTENTS + lengths[..=body].iter().sum::<usize>();
    if end > file.len() || (lengths[body] as isize) < -more {
        return;
    }
    if more < 0 {
        file.drain(end.strict_add_signed(more)..end);
    } else {
        file.splice(end..end, std::iter::repeat_n(0, more as usize));
    }
    lengths[body] = lengths[body].strict_add_signed(more);
    let contents = contents_of(file[1], &lengths);
    file[2..CONTENTS].copy_from_slice(&contents[2..]);
}

/// A field, an unused record, a ring's place or the last clock at an edge of row 7's clauses.
pub fn change_tables(random: &mut Random, file: &mut [u8]) {
    let Some(tables) = file.get_mut(CONTENTS..CONTENTS + SIZE) else { return };
    match random.below(FIELDS.len() + RECORDS.len() + RINGS.len() + 1) {
        0 => samples::set_last_clock(random, tables),
        place if place <= RINGS.len() => samples::set_ring(random, tables, RINGS[place - 1].1),
        place if place <= RINGS.len() + RECORDS.len() => samples::set_unused(random, tables, RECORDS[place - RINGS.len() - 1].1),
        place => samples::set_field(random, tables, &FIELDS[place - RINGS.len() - RECORDS.len() - 1]),
    }
}
