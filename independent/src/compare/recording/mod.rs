//! Recordings: two programs' reading, writing and replaying of the same files, whole and damaged. After every call the number and all bytes
//! that it leaves are compared; a replay's step by step.

mod reached;
mod replay;
pub mod samples;

use super::renumbering::rename_outcome;
use super::{Called, Options, Tally};
use crate::engine::{Fields, RecordingCalls};
use crate::linked::Core;
use crate::random::Random;
use crate::recording::{contents, count, entry, HEAD, LONGEST_FILE};
use crate::relay::renumbering::renumber;
use crate::relay::Relay;
use crate::rules::{AsWritten, Tuned};
use reached::Reached;
use replay::Replay;
use samples::{Damage, Day, Scene, Scenes, DAMAGES, GIVEN_DAMAGES};

/// Each refusal and each answer is reached at least so often.
const LEAST: usize = 100;
/// In runs of at least so many random cases, that is.
const ENOUGH: usize = 2_000;
/// What is added to each byte of a small file in turn; and what else stands in its contents then.
const ADDED: [u8; 3] = [1, 255, 128];
const SET: [u8; 5] = [0, 1, 2, 16, 255];
/// What buffers hold before a call.
const BEFORE: u8 = 0xa5;
/// So many random cases where one difference is looked for.
const FEW: usize = 100;
/// So many steps of a replay are compared at most.
const STEPS: u64 = 40;

struct Comparison<'a> {
    options: &'a Options,
    tally: &'a mut Tally,
    random: Random,
    got: &'a dyn RecordingCalls,
    expected: &'a dyn RecordingCalls,
    reached: Reached,
    /// Is the first difference enough?
    first: bool,
}

impl Comparison<'_> {
    fn expect(&mut self, what: &str, got: Called, expected: Called) {
        self.tally.long_call(what, got, expected, self.options.damage);
    }

    /// Is what was found enough?
    fn enough(&self) -> bool {
        self.first && self.tally.failed > 0
    }

    /// The same question to both programs; what is expected is given back.
    fn ask(&mut self, what: &str, question: impl Fn(&dyn RecordingCalls) -> Called) -> Called {
        let (got, expected) = (question(self.got), question(self.expected));
        self.expect(what, got, expected.clone());
        expected
    }

    /// The check, the count, and some entries, those that aren't there too. Is the file taken?
    fn reading(&mut self, what: &str, file: &[u8]) -> bool {
        let what = format!("{what}, {} bytes beginning {:02x?}", file.len(), &file[..file.len().min(HEAD)]);
        let refusal = self.ask(&format!("{what}: check"), |program| Called::new(program.check_recording(file), &[])).number as usize;
        self.reached.reading[refusal] += 1;
        self.ask(&format!("{what}: count"), |program| Called::new(program.recording_count(file) as u64, &[]));
        let last = count(file) as u64;
        for index in [0, 1, 2, 3, last.wrapping_sub(1), last, last + 1, u64::MAX] {
            self.ask(&format!("{what}: entry {index}"), |program| entry_of(program, file, index));
        }
        refusal == 0
    }

    /// A replay's steps, of a file that is taken or not, the first one that isn't there among them; then all that it prints.
    fn replaying(&mut self, what: &str, file: &[u8], scene: &Scene) {
        let (mut got, mut expected) = (Replay::new(scene), Replay::new(scene));
        for index in 0..=(count(file) as u64).min(STEPS) {
            let judged = expected.step(self.expected, file, index);
            if index < count(file) as u64 {
                self.reached.count_entry(&judged);
            }
            let outcome = got.step(self.got, file, index);
            let what = format!("{what}: replay of entry {index}: got {outcome:?}, expected {judged:?}");
            self.expect(&what, got.called(&outcome), expected.called(&judged));
        }
        if count(file) as u64 <= STEPS {
            self.ask(&format!("{what}: replay"), |program| Replay::new(scene).whole(program, file));
        }
    }

    /// A writing into so much room.
    fn writing(&mut self, what: &str, day: &Day, room: usize) -> Called {
        let what = format!("{what}: writing {} entries, {} bytes of bodies into {room}", day.count(), day.bodies.len());
        let written = self.ask(&what, |program| {
            let mut buffer = vec![BEFORE; room];
            let number = program.write_recording(&day.entries, &day.bodies, &mut buffer);
            Called::new(number, &buffer)
        });
        self.reached.writing[usize::from(written.number as u16).min(25)] += 1;
        written
    }

    /// What is written and read again are the entries and bodies; what is read and written again is the file.
    fn round_trip(&mut self, what: &str, day: &Day) {
        let length = day.file_length();
        let written = self.writing(what, day, length + 20);
        if written.number as u16 != 0 || !self.reading(what, &written.buffer[..length]) {
            return;
        }
        let file = &written.buffer[..length];
        let again = read_again(self.got, file);
        let given = Called::new(0u8, &[&day.entries[..], &day.bodies].concat());
        self.expect(&format!("{what}: written and read again"), Called::new(0u8, &[&again.entries[..], &again.bodies].concat()), given);
        let mut room = vec![BEFORE; length];
        let number = self.got.write_recording(&again.entries, &again.bodies, &mut room);
        self.expect(&format!("{what}: read and written again"), Called::new(number, &room), Called::new((length as u64) << 16, file));
    }

    /// Every byte of a small file changed in turn, and the file cut and lengthened.
    fn small(&mut self) {
        let scene = samples::small();
        let file = scene.day.file();
        self.round_trip("small", &scene.day);
        self.replaying("small", &file, &scene);
        for more in [1, 2, entry::WIDTH, 500, LONGEST_FILE] {
            self.file(&format!("small, {more} longer"), &[&file[..], &vec![1; more]].concat(), &scene);
        }
        for at in 0..file.len() {
            if self.enough() {
                return;
            }
            self.file(&format!("small, cut to {at}"), &file[..at], &scene);
            self.changed(&file, at, &scene);
        }
    }

    /// One byte changed in several ways, in the contents in more.
    fn changed(&mut self, file: &[u8], at: usize, scene: &Scene) {
        let set = if at < contents(scene.day.count()) { &SET[..] } else { &[] };
        for byte in ADDED.map(|byte| file[at].wrapping_add(byte)).iter().chain(set) {
            let mut changed = file.to_vec();
            changed[at] = *byte;
            self.file(&format!("small, byte {at} now {byte:02x}"), &changed, scene);
        }
    }

    fn file(&mut self, what: &str, file: &[u8], scene: &Scene) {
        self.reading(what, file);
        self.replaying(what, file, scene);
    }

    /// Files as long as can be, and longer.
    fn longest(&mut self) {
        for length in [LONGEST_FILE - 1, LONGEST_FILE, LONGEST_FILE + 1, 65_535, 65_536] {
            if self.enough() {
                return;
            }
            let day = Day::of_length(length);
            self.round_trip("longest", &day);
            self.reading("longest", &day.file());
            for room in [0, length - 1, length, LONGEST_FILE, LONGEST_FILE + 1] {
                self.writing("longest", &day, room);
            }
        }
    }

    /// As many entries as can be, and more.
    fn fullest(&mut self) {
        let most = (LONGEST_FILE - HEAD) / entry::WIDTH;
        for count in [0, 1, 2, most - 1, most, most + 1, 5_000, 65_535, 65_536, 65_537] {
            if self.enough() {
                return;
            }
            let mut day = Day::of_empty(count);
            self.round_trip("empty bodies", &day);
            self.reading("empty bodies", &day.file());
            day.push(1, 1, 1, &[1]);
            self.round_trip("empty bodies but one", &day);
        }
    }

    /// Files that end within their contents.
    fn shortest(&mut self) {
        for length in 0..40 {
            let bytes: Vec<u8> = [1, 1, 0, 2].into_iter().chain([0; 36]).take(length).collect();
            self.reading("short", &bytes);
        }
    }

    /// One or two damages of a file; two show the order of refusals.
    fn damages(&mut self, scene: &Scene) {
        let file = scene.day.file();
        let first = self.random.below(DAMAGES.len());
        let second = self.random.below(DAMAGES.len());
        self.damaged(&file, scene, &[DAMAGES[first]]);
        self.damaged(&file, scene, &[DAMAGES[first], DAMAGES[second]]);
    }

    fn damaged(&mut self, file: &[u8], scene: &Scene, damages: &[Damage]) {
        let mut damaged = file.to_vec();
        damages.iter().for_each(|damage| damage(&mut self.random, &mut damaged));
        let taken = self.reading("damaged", &damaged);
        if taken || self.random.one_in(4) {
            self.replaying("damaged", &damaged, scene);
        }
    }

    /// The same of what a writer is given, with rooms around what the file takes.
    fn given_damages(&mut self, day: &Day) {
        for damages in [1, 2, 2] {
            let mut damaged = day.clone();
            for _ in 0..damages {
                let damage = self.random.pick(GIVEN_DAMAGES);
                damage(&mut self.random, &mut damaged);
            }
            let length = damaged.file_length();
            let room = self.random.pick(&[0, 3, length.saturating_sub(1), length, length, length + 1, length + 100]);
            self.writing("damaged", &damaged, room);
        }
        let length = day.file_length();
        for room in [length - 1, length, length + 1] {
            self.writing("room", day, room);
        }
    }

    /// Demand 3: a replay counts as the calls it makes. Over renumbered tables, with the file's ports renamed, each answer and the tables are
    /// renamed.
    fn renumbered(&mut self, scene: &Scene) {
        let map = self.random.permutation();
        let (mut tables, day) = (scene.tables.clone(), scene.day.renamed(&map));
        if renumber(&AsWritten, &mut tables, &map).is_err() {
            return;
        }
        let (plain_file, file) = (scene.day.file(), day.file());
        let renamed = Scene { tables, tally: scene.tally, day };
        for program in [self.got, self.expected] {
            let (mut plain, mut other) = (Replay::new(scene), Replay::new(&renamed));
            for index in 0..scene.day.count() as u64 {
                let answer = rename_outcome(&map, plain.step(program, &plain_file, index));
                let same = answer == other.step(program, &file, index);
                self.tally.holds("a renumbered replay's answer", same, self.options.damage);
            }
            let allowed = renumber(&AsWritten, &mut plain.tables, &map).is_ok();
            let same = allowed && plain.tables == other.tables && plain.tally == other.tally;
            self.tally.holds("a renumbered replay's tables and tally", same, self.options.damage);
        }
    }

    /// Recordings of random traffic.
    fn random(&mut self) {
        let mut scenes = Scenes::new(self.options.seed);
        for _ in 0..self.options.count {
            if self.enough() {
                return;
            }
            let scene = scenes.scene();
            self.round_trip("random", &scene.day);
            self.replaying("random", &scene.day.file(), &scene);
            self.damages(&scene);
            self.given_damages(&scene.day);
            if self.random.one_in(4) {
                self.renumbered(&scene);
            }
        }
    }
}

fn entry_of(program: &dyn RecordingCalls, file: &[u8], index: u64) -> Called {
    let mut fields: Fields = [u64::from(BEFORE); 5];
    let refusal = program.recording_entry(file, index, &mut fields);
    Called::new(refusal, &fields.map(u64::to_be_bytes).concat())
}

/// The entries and bodies of a file that is taken, as a writer gets them.
fn read_again(program: &dyn RecordingCalls, file: &[u8]) -> Day {
    let mut day = Day::default();
    for index in 0..program.recording_count(file) as u64 {
        let mut fields: Fields = [0; 5];
        program.recording_entry(file, index, &mut fields);
        let [clock, port, word, start, length] = fields;
        day.push(clock, port as u8, word as u8, &file[start as usize..][..length as usize]);
    }
    day
}

/// Compares two programs on recordings, and says what was reached.
pub fn compare_programs(got: &dyn RecordingCalls, expected: &dyn RecordingCalls, options: &Options, tally: &mut Tally) -> Reached {
    compare_until(got, expected, options, tally, false)
}

/// Do two programs differ on recordings?
pub fn programs_differ(got: &dyn RecordingCalls, expected: &dyn RecordingCalls) -> bool {
    let mut tally = Tally::silent();
    compare_until(got, expected, &Options { count: FEW, ..Options::default() }, &mut tally, true);
    tally.failed > 0
}

fn compare_until(got: &dyn RecordingCalls, expected: &dyn RecordingCalls, options: &Options, tally: &mut Tally, first: bool) -> Reached {
    let random = Random::new(options.seed);
    let mut c = Comparison { options, tally, random, got, expected, reached: Reached::default(), first };
    c.small();
    c.shortest();
    c.longest();
    c.fullest();
    c.random();
    c.reached
}

pub fn run(options: &Options, tally: &mut Tally) {
    let reached = compare_programs(&Core, &Relay::new(Tuned), options, tally);
    for (what, times) in reached.reached() {
        println!("{what}: {times}");
        if options.count >= ENOUGH {
            tally.holds(&format!("{what} at least {LEAST} times"), times >= LEAST, options.damage);
        }
    }
}
