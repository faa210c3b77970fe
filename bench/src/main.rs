//! The speed of the proved core beside the independent Rust at opt-level 3 and plain C at gcc -O3, in one run.
//! An argument picks the lines that have it in their name.

mod asking;
mod blobs;
mod calls;
mod check;
mod hashing;
mod kinds;
mod marking;
mod measure;
mod opinions;
mod replays;
mod saved;
mod scene;
mod search;
mod state;
mod surveys;

fn main() {
    let only = std::env::args().nth(1).unwrap_or_default();
    let parts = [hashing::run, check::run, search::run, blobs::run];
    let packets = [calls::run, calls::run_keepalives, asking::run, marking::run, replays::run];
    let files = [saved::run, surveys::run, opinions::run];
    measure::run(only, &[&parts[..], &packets, &files].concat());
}
