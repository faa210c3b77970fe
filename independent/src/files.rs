//! Saved files made for a test: contents of any bodies, and what an older program would have saved.

use crate::limits::BLOB_LIMIT;
use crate::saved::editions::{blob_limit, lengths, place, records, CURRENT, EDITIONS, PATH};
use crate::saved::{contents, loading, CONTENTS, KIND};
use crate::tables::{path, PATHS};

/// The contents of a file whose bodies have these lengths.
pub fn contents_of(edition: u8, lengths: &[usize]) -> Vec<u8> {
    let mut bytes = vec![KIND, edition];
    bytes.extend((lengths.len() as u16).to_be_bytes());
    let mut offset = contents(lengths.len());
    for length in lengths {
        bytes.extend((offset as u32).to_be_bytes());
        bytes.extend((*length as u16).to_be_bytes());
        offset += length;
    }
    bytes
}

/// A file of the current edition without the fields that were added since an older one, and of more blobs than that had room for the first ones.
/// Any other file stays.
pub fn aged(file: &[u8], edition: u8) -> Vec<u8> {
    let whole = !loading::saved_length_refused(file) && loading::entries(file).map(|(_, length)| length).eq(lengths(CURRENT));
    if !whole || file[..2] != [KIND, CURRENT] || !(1..=CURRENT).contains(&edition) {
        return file.to_vec();
    }
    let mut rest = &file[CONTENTS..];
    let mut bodies: Vec<Vec<u8>> = lengths(CURRENT).map(|length| rest.split_off(..length).expect("a body").to_vec()).to_vec();
    for added in EDITIONS[usize::from(edition)..].iter().rev().flat_map(|added| added.iter().rev()) {
        bodies[added.body] = without(&bodies[added.body], added.body, added.at, added.unsaved.len());
    }
    let mut aged = [contents_of(edition, &lengths(edition)), bodies.concat()].concat();
    (0..PATHS.records.count).for_each(|record| limit_blobs(&mut aged[place(edition, PATH, record, path::BLOB_COUNT)], blob_limit(edition)));
    aged
}

/// A count that is allowed today is no more than an older limit. Any other stays.
fn limit_blobs(count: &mut u8, limit: usize) {
    if usize::from(*count) <= BLOB_LIMIT {
        *count = (*count).min(limit as u8);
    }
}

/// A body whose records lose some bytes at a place.
fn without(bytes: &[u8], body: usize, at: usize, length: usize) -> Vec<u8> {
    let (head, count) = records(body);
    let (first, rest) = bytes.split_at(head);
    let record = |record: &[u8]| [&record[..at], &record[at + length..]].concat();
    [first.to_vec(), rest.chunks_exact(rest.len() / count).flat_map(record).collect()].concat()
}

#[cfg(test)]
mod tests {
    use super::*;
    use crate::random::Random;
    use crate::rules::{AsWritten, Rules};
    use crate::samples::{filled, Fill};
    use crate::saved::LENGTH;
    use crate::tables::{Port, RateEntry, BLOB, PORTS, RATE, SIZE};

    /// An older file loads as the tables that it is of, without the fields that it lacks.
    #[test]
    fn an_aged_file_lacks_later_fields_alone() {
        let tables = filled(&mut Random::new(1), Fill::RandomHalf);
        for edition in 1..=CURRENT {
            let mut expected = tables.clone();
            if edition < 5 {
                PORTS.iter_mut(&mut expected).for_each(|settings| Port { size: 500, ..Port::read(settings) }.write(settings));
            }
            if edition < 2 {
                expected[RATE.bytes()].fill(0);
            }
            for path in PATHS.records.iter_mut(&mut expected) {
                if edition < 2 {
                    RateEntry::default().write(path);
                }
                path[path::UNRESPONSIVE] = if edition < 3 { 0 } else { path[path::UNRESPONSIVE] };
                if edition < 4 {
                    path[path::BLOB_COUNT] = path[path::BLOB_COUNT].min(16);
                    path[path::BLOBS + 16 * BLOB..].fill(0);
                }
            }
            let mut file = vec![0; LENGTH];
            AsWritten.put_saved(&tables, &[7; 6], &mut file);
            let (mut loaded, mut tally) = (vec![1; SIZE], [0; 6]);
            assert_eq!(AsWritten.load(&aged(&file, edition), &mut loaded, &mut tally), Ok(()), "edition {edition}");
            assert!(loaded == expected, "edition {edition}");
            assert_eq!(tally, [7; 6]);
        }
    }
}
