//! The calls on recordings: on the independent program here, on the proved core in `linked`. Numbers and buffers are as the library's.

use super::Outcome;
use crate::answer::{Refusal, Tally};
use crate::core::LINE;
use crate::recording::{self, replaying, writing};
use crate::relay::Relay;
use crate::rules::Rules;

/// An entry as it crosses: clock, port, signature word, the body's start and its length.
pub type Fields = [u64; 5];

pub trait RecordingCalls {
    /// A file's refusal, or 0.
    fn check_recording(&self, file: &[u8]) -> u8;
    fn recording_count(&self, file: &[u8]) -> usize;
    /// 0, or 22 where there is no such entry, and then the fields stay.
    fn recording_entry(&self, file: &[u8], index: u64, fields: &mut Fields) -> u8;
    /// The refusal in the low 16 bits, the file's length in those above.
    fn write_recording(&self, entries: &[u8], bodies: &[u8], room: &mut [u8]) -> u32;
    /// The packet call of an entry, and its line, with zeros behind it; 22 where there is no such entry, and then nothing changes.
    fn replay_entry(&self, file: &[u8], index: u64, tables: &mut [u8], tally: &mut Tally, line: &mut [u8; LINE]) -> Outcome;

    /// All that a replay prints, by its steps.
    fn replay(&self, file: &[u8], tables: &mut [u8], tally: &mut Tally) -> String {
        let refusal = self.check_recording(file);
        if refusal > 0 {
            return format!("refused {refusal}\n");
        }
        let mut text = String::new();
        for index in 0..self.recording_count(file) as u64 {
            let mut line = [0; LINE];
            self.replay_entry(file, index, tables, tally, &mut line);
            text += String::from_utf8_lossy(&line).trim_end_matches('\0');
        }
        text
    }
}

impl<R: Rules> RecordingCalls for Relay<R> {
    fn check_recording(&self, file: &[u8]) -> u8 {
        self.rules.file_refusal(file).map_or_else(Refusal::number, |()| 0)
    }

    fn recording_count(&self, file: &[u8]) -> usize {
        recording::count(file)
    }

    fn recording_entry(&self, file: &[u8], index: u64, fields: &mut Fields) -> u8 {
        let Some(entry) = self.rules.entry_at(file, index) else { return Refusal::FilePlaces.number() };
        *fields = [entry.clock, entry.port.into(), entry.word.into(), entry.offset as u64, entry.length as u64];
        0
    }

    fn write_recording(&self, entries: &[u8], bodies: &[u8], room: &mut [u8]) -> u32 {
        writing::write(&self.rules, entries, bodies, room).map_or_else(|refusal| refusal.number().into(), |length| (length as u32) << 16)
    }

    fn replay_entry(&self, file: &[u8], index: u64, tables: &mut [u8], tally: &mut Tally, line: &mut [u8; LINE]) -> Outcome {
        let Some(judged) = replaying::step(self, file, index, tables, tally) else { return Err::<(), _>(Refusal::FilePlaces).into() };
        let text = self.rules.replay_line(index + 1, &judged);
        *line = [0; LINE];
        line[..text.len()].copy_from_slice(text.as_bytes());
        judged.into()
    }

    fn replay(&self, file: &[u8], tables: &mut [u8], tally: &mut Tally) -> String {
        replaying::replay(self, file, tables, tally)
    }
}
