//! A replay by one program, and all that it leaves.

use super::samples::Scene;
use super::BEFORE;
use crate::answer::Tally;
use crate::compare::Called;
use crate::core::LINE;
use crate::engine::{Outcome, RecordingCalls};

/// A replay under way.
pub struct Replay {
    pub tables: Vec<u8>,
    pub tally: Tally,
    line: [u8; LINE],
}

impl Replay {
    pub fn new(scene: &Scene) -> Self {
        Self { tables: scene.tables.clone(), tally: scene.tally, line: [BEFORE; LINE] }
    }

    pub fn step(&mut self, program: &dyn RecordingCalls, file: &[u8], index: u64) -> Outcome {
        self.line = [BEFORE; LINE];
        program.replay_entry(file, index, &mut self.tables, &mut self.tally, &mut self.line)
    }

    pub fn whole(mut self, program: &dyn RecordingCalls, file: &[u8]) -> Called {
        let text = program.replay(file, &mut self.tables, &mut self.tally);
        let left = self.called(&Outcome::Done);
        Called { buffer: [text.as_bytes(), &left.buffer].concat(), ..left }
    }

    /// What a step returned, and all that it left: the line, the tally, the tables.
    pub fn called(&self, outcome: &Outcome) -> Called {
        let tally = self.tally.map(u32::to_be_bytes).concat();
        Called::new(0u8, &[format!("{outcome:?}").as_bytes(), &self.line, &tally, &self.tables].concat())
    }
}
