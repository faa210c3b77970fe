//! The calls that save and load: on the independent program here, on the proved core in `linked`. Numbers and buffers are as the library's.

use crate::answer::{Refusal, Tally};
use crate::relay::Relay;
use crate::rules::Rules;
use crate::saved::LENGTH;

pub trait SavedCalls {
    /// How long a saved file is.
    fn saved_size(&self) -> usize;
    /// The refusal in the low 16 bits, the file's length in those above.
    fn save(&self, tables: &[u8], tally: &Tally, room: &mut [u8]) -> u64;
    /// A refusal, or 0.
    fn load(&self, file: &[u8], tables: &mut [u8], tally: &mut Tally) -> u8;
}

impl<R: Rules> SavedCalls for Relay<R> {
    fn saved_size(&self) -> usize {
        LENGTH
    }

    fn save(&self, tables: &[u8], tally: &Tally, room: &mut [u8]) -> u64 {
        self.rules.save(tables, tally, room).map_or_else(|refusal| refusal.number().into(), |length| (length as u64) << 16)
    }

    fn load(&self, file: &[u8], tables: &mut [u8], tally: &mut Tally) -> u8 {
        self.rules.load(file, tables, tally).map_or_else(Refusal::number, |()| 0)
    }
}
