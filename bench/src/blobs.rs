//! The search for an announce's blob among the 64 that its path holds. No program exports it alone, so two calls are compared that do all else
//! alike: one of a replay whose blob stands in the last place, and one with it in the first. The difference is the time to pass 63 blobs that
//! are not the announce's. Beside them a plain search in C, which compares from the first byte on.

use crate::calls::COPIES;
use crate::kinds::{announce_again_at, Call};
use crate::measure::{best, Report};
use crate::scene::Scene;
use crate::search::difference;
use crate::state::{agreed, Independent, State, PROGRAMS};
use haskumye_independent::limits::BLOB_LIMIT;
use haskumye_independent::packet::{announced, START_1};
use haskumye_independent::rules::Tuned;
use haskumye_independent::samples::Fill;
use haskumye_independent::tables::{path, PATHS};
use std::hint::black_box;
use std::time::Instant;

extern "C" {
    fn plain_blob(blobs: *const u8, count: usize, blob: *const u8) -> usize;
}

/// A replay, and full tables whose last path holds its blob at a place.
struct Replay {
    call: Call,
    before: State,
    after: State,
}

impl Replay {
    fn at(place: usize) -> Self {
        let mut scene = Scene::new(Fill::Full);
        let call = announce_again_at(&mut scene, place);
        let before = State::new(scene.tables);
        let replay = Self { after: agreed(&before, &call), before, call };
        assert_eq!(replay.plain(), place);
        replay
    }

    fn plain(&self) -> usize {
        let blobs = &PATHS.records.get(&self.before.tables, PATHS.records.count - 1)[path::BLOBS..];
        let blob = &self.call.packet[START_1..][announced::BLOB];
        // SAFETY: the C function reads the blobs' ten bytes each and those of the one that is looked for.
        unsafe { plain_blob(black_box(blobs).as_ptr(), BLOB_LIMIT, black_box(blob).as_ptr()) }
    }
}

/// Nanoseconds with the blob in the first place, then with it in the last, of each program.
fn time() -> [f64; 6] {
    let replays = [Replay::at(0), Replay::at(BLOB_LIMIT - 1)];
    let mut relay = Independent::new(Tuned);
    let mut copies = vec![replays[0].before.clone(); COPIES];
    best(COPIES, |turn| {
        let replay = &replays[turn / 3];
        copies.iter_mut().for_each(|copy| copy.restore(&replay.before));
        let start = Instant::now();
        let Some(program) = PROGRAMS.get(turn % 3) else {
            (0..COPIES).for_each(|_| assert_ne!(black_box(replay.plain()), BLOB_LIMIT));
            return start.elapsed();
        };
        copies.iter_mut().for_each(|copy| program(&mut relay, &replay.call, copy));
        let time = start.elapsed();
        assert!(copies[COPIES - 1] == replay.after, "a timed call did something else");
        time
    })
}

pub fn run(report: &mut Report) {
    let title = "Blob search: 63 blobs passed; C is a plain search that compares from the first byte on";
    report.table(title, "blobs", &["C"]);
    report.line_of("blob search, 63 passed", time, difference);
}
