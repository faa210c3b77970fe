//! The replay of a full file, an entry; beside it the same packet calls on the core, made one by one.

use crate::measure::{best, Report};
use crate::scene::{Scene, CLOCK};
use haskumye_independent::answer::Tally;
use haskumye_independent::compare::recording::samples::Day;
use haskumye_independent::core::{self, LINE};
use haskumye_independent::engine::RecordingCalls;
use haskumye_independent::limits::LONGEST;
use haskumye_independent::linked::Core;
use haskumye_independent::recording::{entry, LONGEST_FILE};
use haskumye_independent::relay::Relay;
use haskumye_independent::rules::Tuned;
use haskumye_independent::samples::Fill;
use haskumye_independent::tables::{path, PATHS};
use std::hint::black_box;
use std::time::Instant;

/// The port that data comes in by, and the one that it leaves by.
const ARRIVAL: u8 = 1;
const LEAVING: u8 = 2;
/// Bytes of payload.
const DATA: usize = 100;

/// A relay's tables and a file of data that they forward, as much as fits.
pub struct Recorded {
    pub tables: Vec<u8>,
    pub packets: Vec<Vec<u8>>,
    pub file: Vec<u8>,
}

impl Recorded {
    pub fn new(fill: Fill) -> Self {
        let mut scene = Scene::new(fill);
        let destination = scene.random.array();
        scene.put(&PATHS, &destination, &[(path::PORT, LEAVING), (path::HOPS, 3)]);
        let (mut day, mut packets) = (Day::default(), Vec::new());
        loop {
            let packet = scene.packet(0x50, destination, DATA);
            if day.file_length() + entry::WIDTH + packet.len() > LONGEST_FILE {
                break;
            }
            day.push(CLOCK, ARRIVAL, 1, &packet);
            packets.push(packet);
        }
        Self { tables: scene.tables, packets, file: day.file() }
    }

    /// A replay, with what it prints.
    fn replay(&self, program: &dyn RecordingCalls, tables: &mut [u8], tally: &mut Tally) {
        assert_eq!(program.check_recording(black_box(&self.file)), 0);
        for index in 0..self.packets.len() as u64 {
            let mut line = [0; LINE];
            black_box(program.replay_entry(&self.file, index, tables, tally, &mut line));
            black_box(line);
        }
    }

    fn one_by_one(&self, tables: &mut [u8], tally: &mut Tally) {
        let mut output = [0; LONGEST];
        for packet in &self.packets {
            black_box(core::packet(black_box(packet), ARRIVAL.into(), CLOCK, 1, tables, &mut output, tally));
        }
    }

    /// Makes the calls by the core's replay, by the independent relay's, or one by one; what they leave.
    fn make(&self, program: usize, tables: &mut [u8]) -> Tally {
        let mut tally = [0; 6];
        match program {
            0 => self.replay(&Core, tables, &mut tally),
            1 => self.replay(&Relay::new(Tuned), tables, &mut tally),
            _ => self.one_by_one(tables, &mut tally),
        }
        tally
    }

    fn time(&self) -> [f64; 3] {
        let mut after = self.tables.clone();
        let tally = self.make(0, &mut after);
        assert_eq!(tally[3] as usize, self.packets.len(), "all are forwarded");
        let mut tables = self.tables.clone();
        best(self.packets.len(), |program| {
            tables.copy_from_slice(&self.tables);
            let start = Instant::now();
            let counted = self.make(program, &mut tables);
            let time = start.elapsed();
            assert!(counted == tally && tables == after, "a timed replay did something else");
            time
        })
    }
}

pub fn run(report: &mut Report) {
    let title = "Replay of a full file, an entry of data that goes onward; calls are the same on the core, made one by one";
    report.table(title, "tables", &["calls"]);
    for (filled, fill) in [("empty", Fill::Empty), ("half", Fill::FirstHalf), ("full", Fill::Full)] {
        let recorded = Recorded::new(fill);
        report.line(&format!("replay, {} entries, {filled}", recorded.packets.len()), || recorded.time());
    }
}
