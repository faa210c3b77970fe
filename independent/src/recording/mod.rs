//! The file of a recorded day: document 02's Wish 1.

pub mod reading;
pub mod replaying;
pub mod writing;

use std::ops::Range;

/// "kind byte 1, edition byte 1, entry count (2 bytes)"
pub const KIND: u8 = 1;
pub const EDITION: u8 = 1;
pub const COUNT: Range<usize> = 2..4;
pub const HEAD: usize = COUNT.end;

/// "60,000 bytes at most"
pub const LONGEST_FILE: usize = 60_000;

/// "then per entry clock (5), port (1), signature word (1, 0 or 1), offset in the file (4), length (2)"
pub mod entry {
    use std::ops::Range;
    pub const CLOCK: Range<usize> = 0..5;
    pub const PORT: usize = CLOCK.end;
    pub const WORD: usize = PORT + 1;
    pub const OFFSET: Range<usize> = WORD + 1..WORD + 5;
    pub const LENGTH: Range<usize> = OFFSET.end..OFFSET.end + 2;
    pub const WIDTH: usize = LENGTH.end;
}

/// An entry as a writer gets it, of one width too: clock 8, port 1, signature word 1, length 2.
pub mod given {
    use std::ops::Range;
    pub const CLOCK: Range<usize> = 0..8;
    pub const PORT: usize = CLOCK.end;
    pub const WORD: usize = PORT + 1;
    pub const LENGTH: Range<usize> = WORD + 1..WORD + 3;
    pub const WIDTH: usize = LENGTH.end;
}

/// What the table of contents says of an entry.
#[derive(Clone, Copy, Debug, PartialEq, Eq)]
pub struct Entry {
    pub clock: u64,
    pub port: u8,
    pub word: u8,
    pub offset: usize,
    pub length: usize,
}

impl Entry {
    pub fn body<'a>(&self, file: &'a [u8]) -> Option<&'a [u8]> {
        file.get(self.offset..self.offset + self.length)
    }
}

/// A number, "all big-endian."
pub fn number(bytes: &[u8]) -> u64 {
    bytes.iter().fold(0, |number, byte| number << 8 | u64::from(*byte))
}

/// The last bytes of a number, big-endian.
pub fn put_number(number: u64, bytes: &mut [u8]) {
    let width = bytes.len();
    bytes.copy_from_slice(&number.to_be_bytes()[8 - width..]);
}

/// Where the bodies begin behind so many entries.
pub fn contents(count: usize) -> usize {
    HEAD + count * entry::WIDTH
}

/// The file's own count; bytes that have no count have no entry.
pub fn count(file: &[u8]) -> usize {
    file.get(COUNT).map_or(0, |count| number(count) as usize)
}
