//! The survey of a full recording, an entry, from the settings of a saved relay.

use crate::measure::{best, Report};
use crate::replays::Recorded;
use haskumye_independent::engine::{SavedCalls, SurveyCalls};
use haskumye_independent::linked::Core;
use haskumye_independent::relay::Relay;
use haskumye_independent::rules::Tuned;
use haskumye_independent::samples::Fill;
use haskumye_independent::saved::LENGTH;
use std::hint::black_box;
use std::time::Instant;

fn time(settings: &[u8], file: &[u8], entries: usize) -> [f64; 2] {
    let (relay, recordings) = (Relay::new(Tuned), [file.to_vec()]);
    let programs: [&dyn SurveyCalls; 2] = [&Core, &relay];
    let text = Core.survey(settings, &recordings);
    best(entries, |program| {
        let start = Instant::now();
        let surveyed = programs[program].survey(black_box(settings), black_box(&recordings));
        let time = start.elapsed();
        assert_eq!(surveyed, text, "a timed survey says something else");
        time
    })
}

pub fn run(report: &mut Report) {
    report.table("Survey of a full file, an entry of data that has no way on", "recording", &[]);
    let recorded = Recorded::new(Fill::Empty);
    let (entries, mut settings) = (recorded.packets.len(), vec![0; LENGTH]);
    Core.save(&recorded.tables, &[0; 6], &mut settings);
    report.line(&format!("survey, {entries} entries"), || time(&settings, &recorded.file, entries));
}
