//! The file of saved tables: document 02's Wish 4.

pub mod editions;
pub mod loading;
pub mod saving;

use crate::recording::HEAD;
use crate::tables;

/// "Save and load in the recordings' shape with kind byte 2"
pub const KIND: u8 = 2;
/// "eight entries (another count is 22), own address and last clock, ports, local addresses, paths, links, returns, hashes, tally, in that
/// order"
pub const BODIES: usize = 8;

/// "each with offset (4) and length (2), then the bodies."
pub mod entry {
    use std::ops::Range;
    pub const OFFSET: Range<usize> = 0..4;
    pub const LENGTH: Range<usize> = OFFSET.end..OFFSET.end + 2;
    pub const WIDTH: usize = LENGTH.end;
}

/// The tally's body: six numbers.
pub const TALLY: usize = 6 * 4;
/// Where the bodies begin, and how long a file of the current edition is.
pub const CONTENTS: usize = contents(BODIES);
pub const LENGTH: usize = CONTENTS + tables::SIZE + TALLY;

/// Where the bodies begin behind so many entries.
pub const fn contents(count: usize) -> usize {
    HEAD + count * entry::WIDTH
}
