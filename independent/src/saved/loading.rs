//! Loading, of any bytes.

use super::{contents, editions, entry, BODIES, CONTENTS, KIND, TALLY};
use crate::answer::{Refusal, Tally, When};
use crate::recording::{count, number, HEAD};
use crate::rules::Rules;
use crate::tables::{path, PATHS, SIZE};

/// "Tables and room stay" where it refuses. What is loaded is all eight bodies; no clock is tested.
pub fn load<R: Rules>(rules: &R, file: &[u8], tables: &mut [u8], tally: &mut Tally) -> Result<(), Refusal> {
    rules.loading_refusal(file, tables)?;
    rules.put_loaded(file, tables, tally);
    Ok(())
}

/// "20 as said, 21 and 22 as in Wish 1, 24 body breaks refusal 7's rules, size too, 25 room too small, or for a load not the tables' size"
pub fn loading_refusal<R: Rules>(rules: &R, file: &[u8], tables: &[u8]) -> Result<(), Refusal> {
    Refusal::FileLength.when(rules.saved_length_refused(file))?;
    Refusal::FileKind.when(rules.saved_kind_refused(file))?;
    Refusal::FilePlaces.when(rules.saved_places_refused(file))?;
    Refusal::FileBody.when(rules.bodies_refused(file))?;
    Refusal::Room.when(rules.loading_room_refused(tables))
}

/// Offset and length of each entry, as many as lie whole in the file.
pub fn entries(file: &[u8]) -> impl Iterator<Item = (usize, usize)> + '_ {
    let table = file.get(HEAD..).unwrap_or_default();
    let entry = |bytes: &[u8]| (number(&bytes[entry::OFFSET]) as usize, number(&bytes[entry::LENGTH]) as usize);
    table.chunks_exact(entry::WIDTH).take(count(file)).map(entry)
}

/// "20 is any length but what the contents, by the file's own count, add up to."
pub fn saved_length_refused(file: &[u8]) -> bool {
    let contents = contents(count(file));
    file.len() < HEAD || file.len() < contents || file.len() != contents + entries(file).map(|(_, length)| length).sum::<usize>()
}

/// "21 kind or edition": every edition so far is loaded.
pub fn saved_kind_refused(file: &[u8]) -> bool {
    file.first() != Some(&KIND) || !file.get(1).is_some_and(|edition| (1..=editions::CURRENT).contains(edition))
}

/// "22 offset, length or file end that breaks the rule", and "eight entries (another count is 22)".
pub fn saved_places_refused<R: Rules>(rules: &R, file: &[u8]) -> bool {
    rules.count_refused(count(file)) || !rules.offsets_run(file)
}

pub fn count_refused(count: usize) -> bool {
    count != BODIES
}

/// "The contents, then the bodies in order, fill the file without gaps"
pub fn offsets_run(file: &[u8]) -> bool {
    let start = contents(count(file));
    entries(file).try_fold(start, |place, (offset, length)| (offset == place).then_some(place + length)).is_some()
}

/// "24 body breaks refusal 7's rules, size too": each edition's by its own sizes, and with as many blobs as it had room for.
pub fn bodies_refused<R: Rules>(rules: &R, file: &[u8]) -> bool {
    if !rules.body_lengths_allowed(file) {
        return true;
    }
    let tables = editions::tables_now(file[1], &file[CONTENTS..]);
    !rules.tables_allowed(&tables) || has_more_blobs(rules.blob_limit(file[1]), &tables)
}

/// Does a path hold more blobs than this? One that isn't used holds none.
fn has_more_blobs(limit: usize, tables: &[u8]) -> bool {
    PATHS.records.iter(tables).any(|path| usize::from(path[path::BLOB_COUNT]) > limit)
}

pub fn body_lengths_allowed(file: &[u8]) -> bool {
    entries(file).map(|(_, length)| length).eq(editions::lengths(file[1]))
}

/// "for a load not the tables' size, what it held unread"
pub fn loading_room_refused(tables: &[u8]) -> bool {
    tables.len() != SIZE
}

/// "own address and last clock, ports, local addresses, paths, links, returns, hashes, tally, in that order"
pub fn put_loaded(file: &[u8], tables: &mut [u8], tally: &mut Tally) {
    tables.copy_from_slice(&editions::tables_now(file[1], &file[CONTENTS..]));
    for (counter, bytes) in tally.iter_mut().zip(file[file.len() - TALLY..].chunks_exact(4)) {
        *counter = number(bytes) as u32;
    }
}
