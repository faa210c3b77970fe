//! Timing and printing, one way for all that is measured.

use std::hint::black_box;
use std::time::{Duration, Instant};

/// All lines are measured in so many rounds, each program of a line by so many turns a round. The best turn of all counts, so that what
/// else the machine does, for a moment or for seconds, weighs little.
const ROUNDS: usize = 5;
const TURNS: usize = 400;

/// Nanoseconds of a call by each of some programs, the core first: their best turns, taken by turns.
pub fn best<const N: usize>(calls: usize, mut turn: impl FnMut(usize) -> Duration) -> [f64; N] {
    let mut best = [Duration::MAX; N];
    for _ in 0..TURNS {
        for (program, least) in best.iter_mut().enumerate() {
            *least = turn(program).min(*least);
        }
    }
    best.map(|time| time.as_nanos() as f64 / calls as f64)
}

/// A program over some bytes that it leaves as they are.
pub type Pass<'a, T> = &'a dyn Fn(&[u8]) -> T;

/// A turn of such a program: the same call so many times.
pub fn turn<T>(pass: Pass<T>, input: &[u8], calls: usize) -> Duration {
    let start = Instant::now();
    for _ in 0..calls {
        black_box(pass(black_box(input)));
    }
    start.elapsed()
}

/// The lines' best times, printed as tables in the last round.
pub struct Report {
    /// Only lines whose name has this in it are measured.
    only: String,
    round: usize,
    /// The line of this round that is measured next.
    next: usize,
    best: Vec<Vec<f64>>,
    /// Where the core is slower than the independent Rust.
    slower: Vec<String>,
}

/// Measures what the sections ask for.
pub fn run(only: String, sections: &[fn(&mut Report)]) {
    println!(
        "Nanoseconds of a call, the best of {} turns. A ratio is another's time over the core's: above 1 the core is faster.",
        ROUNDS * TURNS
    );
    let mut report = Report { only, round: 0, next: 0, best: Vec::new(), slower: Vec::new() };
    for round in 1..=ROUNDS {
        (report.round, report.next) = (round, 0);
        sections.iter().for_each(|section| section(&mut report));
    }
    println!("\nRust / core is below 1.00 in {} of {} lines", report.slower.len(), report.next);
    report.slower.iter().for_each(|line| println!("{line}"));
}

impl Report {
    /// Begins a table: the core, the independent Rust, and what else is measured beside them.
    pub fn table(&self, title: &str, what: &str, others: &[&str]) {
        if self.round < ROUNDS {
            return;
        }
        println!("\n{title}");
        let programs = ["core", "Rust"].iter().chain(others);
        let times: String = programs.clone().map(|name| format!("{name:>10}")).collect();
        let ratios: String = programs.skip(1).map(|name| format!("{:>13}", format!("{name} / core"))).collect();
        println!("{what:<46}{times}{ratios}{:>15}", "core calls/s");
    }

    /// A line: its name, and the time of each program.
    pub fn line<const N: usize>(&mut self, what: &str, measure: impl FnOnce() -> [f64; N]) {
        self.line_of(what, measure, |best| best.to_vec());
    }

    /// A line of what is shown of the measured times.
    pub fn line_of<const N: usize>(&mut self, what: &str, measure: impl FnOnce() -> [f64; N], shown: fn(&[f64]) -> Vec<f64>) {
        if !what.contains(&self.only) {
            return;
        }
        if self.best.len() == self.next {
            self.best.push(vec![f64::MAX; N]);
        }
        let best = &mut self.best[self.next];
        best.iter_mut().zip(measure()).for_each(|(least, time)| *least = least.min(time));
        let times = shown(best);
        self.next += 1;
        if self.round == ROUNDS {
            self.print(what, &times);
        }
    }

    fn print(&mut self, what: &str, times: &[f64]) {
        let shown: String = times.iter().map(|time| format!("{time:>10.1}")).collect();
        let ratios: Vec<String> = times[1..].iter().map(|time| format!("{:.2}", time / times[0])).collect();
        let compared: String = ratios.iter().map(|ratio| format!("{ratio:>13}")).collect();
        println!("{what:<46}{shown}{compared}{:>15.0}", 1e9 / times[0]);
        if ratios[0].starts_with("0.") {
            self.slower.push(format!("{what:<46}{}", ratios[0]));
        }
    }
}
