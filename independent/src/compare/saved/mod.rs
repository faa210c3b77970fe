//! Saved tables: two programs' saving and loading of the same tables and files, whole and damaged. After every call the number and all
//! bytes that it leaves are compared.

pub mod damages;

use super::coverage::{Files, OlderFile};
use super::{Called, Options, Tally};
use crate::answer;
use crate::engine::{Run, SavedCalls};
use crate::files::{aged, contents_of};
use crate::linked::Core;
use crate::random::Random;
use crate::recording::HEAD;
use crate::relay::Relay;
use crate::rules::{AsWritten, Rules, Tuned};
use crate::samples::{self, Fill};
use crate::saved::editions::{lengths, place, CURRENT, PATH};
use crate::saved::{loading, BODIES, CONTENTS, KIND, LENGTH, TALLY};
use crate::tables::{path, PATHS, SIZE};
use crate::traffic::Traffic;
use damages::{change_tables, recount, resize_body, set, swap_offsets, DAMAGES};

/// Each refusal is given at least so often.
const LEAST: usize = 100;
/// In runs of at least so many random cases, that is.
const ENOUGH: usize = 2_000;
/// What buffers hold before a call: tables that refusal 7 names.
const BEFORE: u8 = 0xa5;
/// So many random cases where one difference is looked for.
const FEW: usize = 100;
/// Calls of traffic before each random case, and damages of its file.
const CALLS: usize = 12;
const DAMAGED: usize = 3;
/// Changes at row 7's edges.
const CHANGES: usize = 400;
/// Damages of each kept file.
const KEPT_DAMAGES: usize = 200;

/// What programs of each edition saved.
const KEPT: &[&[u8]] = &[
    include_bytes!("../../../../tests/saved/edition-1.saved"),
    include_bytes!("../../../../tests/saved/edition-2.saved"),
    include_bytes!("../../../../tests/saved/edition-3.saved"),
];

struct Comparison<'a> {
    options: &'a Options,
    tally: &'a mut Tally,
    random: Random,
    got: &'a dyn SavedCalls,
    expected: &'a dyn SavedCalls,
    reached: Files,
    /// Is the first difference enough?
    first: bool,
}

/// The lengths that a file's contents give.
fn lengths_of(file: &[u8]) -> Vec<usize> {
    loading::entries(file).map(|(_, length)| length).collect()
}

/// The file of tables and a tally, by the independent program.
fn file_of(tables: &[u8], tally: &answer::Tally) -> Vec<u8> {
    let mut file = vec![0; LENGTH];
    AsWritten.put_saved(tables, tally, &mut file);
    file
}

fn saved_by(program: &dyn SavedCalls, tables: &[u8], tally: &answer::Tally, room: usize) -> Called {
    let mut room = vec![BEFORE; room];
    let number = program.save(tables, tally, &mut room);
    Called { number, buffer: room }
}

/// The tables and the tally that a load leaves of such that held something else.
fn loaded_by(program: &dyn SavedCalls, file: &[u8], size: usize) -> Called {
    let (mut tables, mut tally) = (vec![BEFORE; size], [u32::from_be_bytes([BEFORE; 4]); 6]);
    let refusal = program.load(file, &mut tables, &mut tally);
    tables.extend(tally.map(u32::to_be_bytes).concat());
    Called { number: refusal.into(), buffer: tables }
}

impl Comparison<'_> {
    fn enough(&self) -> bool {
        self.first && self.tally.failed > 0
    }

    fn expect(&mut self, what: &str, got: Called, expected: Called) {
        self.tally.long_call(what, got, expected, self.options.damage);
    }

    fn saving(&mut self, what: &str, tables: &[u8], tally: &answer::Tally, room: usize) {
        let of = |program| saved_by(program, tables, tally, room);
        let (got, expected) = (of(self.got), of(self.expected));
        self.reached.saves[usize::from(expected.number as u16).min(25)] += 1;
        self.expect(&format!("{what}: save into {room}"), got, expected);
    }

    fn loading(&mut self, what: &str, file: &[u8], size: usize) {
        if self.enough() {
            return;
        }
        let of = |program| loaded_by(program, file, size);
        let (got, expected) = (of(self.got), of(self.expected));
        self.reached.loads[(expected.number as usize).min(25)] += 1;
        if let Some(older) = OlderFile::of(file) {
            self.reached.count_older(&older, expected.number as usize);
        }
        let head = &file[..file.len().min(HEAD)];
        self.expect(&format!("{what}: load of {} bytes beginning {head:02x?} into {size}", file.len()), got, expected);
    }

    /// What is saved and loaded again are the tables and the tally; what is loaded and saved again is the file.
    fn round_trip(&mut self, what: &str, tables: &[u8], tally: &answer::Tally) {
        self.saving(what, tables, tally, LENGTH + 20);
        let file = file_of(tables, tally);
        self.loading(what, &file, SIZE);
        let given = Called::new(0u8, &file[CONTENTS..]);
        self.expect(&format!("{what}: saved and loaded again"), loaded_by(self.got, &file, SIZE), given);
        let saved = Called::new((LENGTH as u64) << 16, &file);
        self.expect(&format!("{what}: loaded and saved again"), saved_by(self.got, tables, tally, LENGTH), saved);
    }

    /// A file with something done to it.
    fn damaged(&mut self, what: &str, file: &[u8], damage: impl Fn(&mut Vec<u8>)) {
        let mut damaged = file.to_vec();
        damage(&mut damaged);
        self.loading(what, &damaged, SIZE);
    }

    /// Every byte of the contents changed in several ways; every edition, and other kinds.
    fn contents(&mut self, file: &[u8]) {
        for at in 0..CONTENTS {
            for byte in [1, 255, 128, 7].map(|more| file[at].wrapping_add(more)).into_iter().chain([0, 8, 255]) {
                self.damaged("contents", file, |file| file[at] = byte);
            }
        }
        for edition in 0..=255 {
            for kind in [KIND, 0, 1, 3, 255] {
                self.damaged("kind and edition", file, |file| (file[0], file[1]) = (kind, edition));
            }
        }
    }

    /// Other counts, as the file's length asks for them or not, beside the kind and an edition that isn't there.
    fn counts(&mut self, file: &[u8]) {
        for count in (0..=20).chain([255, 256, 264, 2_048, 65_535]) {
            for (kind, edition) in [(KIND, CURRENT), (KIND, 0), (1, CURRENT)] {
                self.damaged("count with its length", file, |file| {
                    recount(file, count);
                    (file[0], file[1]) = (kind, edition);
                });
                self.damaged("count", file, |file| {
                    file[..HEAD].copy_from_slice(&[&[kind, edition][..], &(count as u16).to_be_bytes()].concat());
                });
            }
        }
    }

    /// Bodies one byte short or longer, all else as that asks for it; offsets in each other's place.
    fn bodies(&mut self, file: &[u8]) {
        for body in 0..BODIES {
            for more in [-1, 1, -20, 204] {
                self.damaged("body's length", file, |file| resize_body(file, body, more));
            }
            for other in (0..BODIES).filter(|other| *other != body) {
                self.damaged("two bodies' lengths", file, |file| {
                    resize_body(file, body, -1);
                    resize_body(file, other, 1);
                });
                self.damaged("two bodies' offsets", file, |file| swap_offsets(file, body, other));
            }
        }
        let longest = [65_535; BODIES];
        for edition in [0, CURRENT, CURRENT + 1, 255] {
            let bytes = [contents_of(edition, &longest), vec![0; 65_535 * BODIES]].concat();
            self.loading("longest bodies", &bytes, SIZE);
        }
    }

    /// Files cut to every length about their contents and their bodies' ends, and longer.
    fn cuts(&mut self, file: &[u8]) {
        let ends = (0..=BODIES).map(|body| CONTENTS + lengths(CURRENT)[..body].iter().sum::<usize>());
        let about: Vec<usize> = ends.flat_map(|end| end - 1..=end + 1).chain(0..60).chain([60_000, 60_001, 2 * LENGTH]).collect();
        for length in about {
            self.damaged("cut", file, |file| file.resize(length, 0));
            self.damaged("cut, kind", file, |file| {
                file.resize(length, 0);
                file.iter_mut().take(1).for_each(|kind| *kind = 1);
            });
        }
        self.loading("nothing", &contents_of(CURRENT, &[]), SIZE);
    }

    /// A change at an edge of row 7 in the bodies; and the tables themselves saved, into enough room or less.
    fn clauses(&mut self, file: &[u8]) {
        for number in 0..CHANGES {
            let mut changed = file.to_vec();
            change_tables(&mut self.random, &mut changed);
            self.loading("clause", &changed, if number % 4 == 0 { SIZE - 1 } else { SIZE });
            let room = self.random.pick(&[0, LENGTH - 1, LENGTH, LENGTH]);
            self.saving("clause", &changed[CONTENTS..][..SIZE], &[7; 6], room);
            self.older("clause", &changed);
        }
    }

    /// Room for the file, and tables of every size to load into, beside files that are refused.
    fn rooms(&mut self, tables: &[u8], file: &[u8]) {
        for room in [0, 1, HEAD, CONTENTS, SIZE, LENGTH - TALLY, LENGTH - 1, LENGTH, LENGTH + 1, 2 * LENGTH] {
            self.saving("room", tables, &[u32::MAX, 0, 1, 256, 65_536, 1 << 24], room);
            self.saving("room, other size", &tables[1..], &[1; 6], room);
        }
        let broken: &[fn(&mut Vec<u8>)] = &[
            |_| {},
            |file| file.truncate(LENGTH - 1),
            |file| file[0] = 1,
            |file| swap_offsets(file, 0, 7),
            |file| file[CONTENTS + 24] = 2,
        ];
        for size in [0, 1, SIZE - 1, SIZE, SIZE + 1, LENGTH, 2 * SIZE] {
            for damage in broken {
                let mut damaged = file.to_vec();
                damage(&mut damaged);
                self.loading("size", &damaged, size);
            }
        }
    }

    /// The edges, of one relay's file.
    fn edges(&mut self) {
        let tables = samples::filled(&mut self.random, Fill::RandomHalf);
        let file = file_of(&tables, &std::array::from_fn(|counter| 0x0102_0304 << counter));
        self.round_trip("edges", &tables, &[0, 1, 2, 3, 4, u32::MAX]);
        self.rooms(&tables, &file);
        self.bodies(&file);
        self.cuts(&file);
        self.counts(&file);
        self.contents(&file);
        self.clauses(&file);
    }

    /// A file as each older program would have saved it; with another blob count; and one of another edition's lengths.
    fn older(&mut self, what: &str, file: &[u8]) {
        for edition in 1..CURRENT {
            let aged = aged(file, edition);
            self.loading(&format!("{what}, edition {edition}"), &aged, SIZE);
            let (record, count) = (self.random.below(PATHS.records.count), self.random.pick(&[0, 1, 15, 16, 17, 17, 63, 64, 65, 255]));
            let at = place(edition, PATH, record, path::BLOB_COUNT);
            self.damaged(&format!("{what}, edition {edition}, {count} blobs"), &aged, |file| set(file, at, count));
            for other in (1..=CURRENT).filter(|other| *other != edition) {
                self.damaged(&format!("{what}, edition {edition} as {other}"), &aged, |file| file[1] = other);
            }
        }
    }

    /// The kept files of each edition, whole and damaged.
    fn kept(&mut self) {
        for file in KEPT {
            self.loading("kept", file, SIZE);
            self.loading("kept", file, SIZE + 1);
            self.bodies(file);
            for damage in DAMAGES.iter().cycle().take(KEPT_DAMAGES) {
                let mut damaged = file.to_vec();
                damage(&mut self.random, &mut damaged);
                self.loading("kept, damaged", &damaged, SIZE);
            }
        }
    }

    /// The tables of random traffic, lent ones among them, or random ones; then their files damaged once and twice.
    fn random(&mut self) {
        let (mut calls, mut run) = (Traffic::new(self.options.seed), Run::new(Relay::new(Tuned)));
        for number in 0..self.options.count {
            if self.enough() {
                return;
            }
            calls.by_ref().take(CALLS).for_each(|call| {
                run.make(&call);
            });
            let random = number % 8 == 0;
            let tables = if random { samples::filled(&mut self.random, Fill::ALL[number / 8 % 4]) } else { run.tables.clone() };
            self.one("random", &tables, &run.tally);
        }
    }

    fn one(&mut self, what: &str, tables: &[u8], tally: &answer::Tally) {
        let room = self.random.pick(&[0, LENGTH - 1, LENGTH, LENGTH + 7]);
        self.saving(what, tables, tally, room);
        if !Tuned.tables_allowed(tables) {
            return;
        }
        self.round_trip(what, tables, tally);
        let file = file_of(tables, tally);
        self.older(what, &file);
        for _ in 0..DAMAGED {
            let mut damaged = file.clone();
            for _ in 0..1 + self.random.below(2) {
                let damage = self.random.pick(DAMAGES);
                damage(&mut self.random, &mut damaged);
            }
            let size = self.random.pick(&[SIZE, SIZE, SIZE, SIZE - 1, SIZE + 1]);
            self.loading(what, &damaged, size);
        }
    }
}

/// Compares two programs on saved tables, and says what was reached, and how often.
fn compare_until(
    got: &dyn SavedCalls,
    expected: &dyn SavedCalls,
    options: &Options,
    tally: &mut Tally,
    first: bool,
) -> Vec<(String, usize)> {
    let mut c = Comparison { options, tally, random: Random::new(options.seed), got, expected, reached: Files::default(), first };
    c.expect("size of a saved file", Called::new(got.saved_size() as u64, &[]), Called::new(expected.saved_size() as u64, &[]));
    c.edges();
    c.kept();
    c.random();
    c.reached.reached()
}

/// Do two programs differ on saved tables?
pub fn programs_differ(got: &dyn SavedCalls, expected: &dyn SavedCalls) -> bool {
    let mut tally = Tally::silent();
    compare_until(got, expected, &Options { count: FEW, ..Options::default() }, &mut tally, true);
    tally.failed > 0
}

pub fn run(options: &Options, tally: &mut Tally) {
    let reached = compare_until(&Core, &Relay::new(Tuned), options, tally, false);
    for (what, times) in reached {
        println!("{what}: {times}");
        if options.count >= ENOUGH {
            tally.holds(&format!("{what} at least {LEAST} times"), times >= LEAST, options.damage);
        }
    }
}
