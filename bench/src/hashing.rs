//! SHA-256, the packet hash, reading a packet, and building an announce.

use crate::measure::{best, turn, Pass, Report};
use haskumye_independent::announcing::{self, Own};
use haskumye_independent::core;
use haskumye_independent::limits::LONGEST;
use haskumye_independent::packet::{self, hash};
use haskumye_independent::rules::AsWritten;
use haskumye_independent::sha256::Sha256;

extern "C" {
    fn plain_sha256(message: *const u8, length: usize, out: *mut u8);
}

/// Bytes that one turn is given, at least.
const TURN_BYTES: usize = 1 << 16;

/// A line for each length.
fn lines<const N: usize, T: PartialEq>(report: &mut Report, name: &str, programs: [Pass<T>; N], lengths: &[usize]) {
    for length in lengths {
        // header 00, so that every length is a packet's
        let input: Vec<u8> = (0..*length).map(|i| (i * 131 + i / 256 * 7) as u8).collect();
        assert!(programs.iter().all(|program| program(&input) == programs[0](&input)), "the answers differ");
        let calls = TURN_BYTES.div_ceil(*length);
        report.line(&format!("{name}, {length} bytes"), || best::<N>(calls, |program| turn(programs[program], &input, calls)));
    }
}

fn sha256(report: &mut Report, independent: &Sha256) {
    let core = |message: &[u8]| {
        let mut out = [0; 32];
        core::sha256(message, &mut out);
        out
    };
    let plain = |message: &[u8]| {
        let mut out = [0; 32];
        // SAFETY: the C function reads the slice's bytes and writes the 32 of out.
        unsafe { plain_sha256(message.as_ptr(), message.len(), out.as_mut_ptr()) };
        out
    };
    report.table("SHA-256", "message", &["C"]);
    lines(report, "SHA-256", [&core, &|message| independent.digest(message), &plain], &[32, 500, 65_535]);
}

fn packet_hash(report: &mut Report, independent: &Sha256) {
    let core = |bytes: &[u8]| {
        let mut hash = [0; 32];
        core::packet_hash(bytes, &mut hash);
        hash
    };
    let rust = |bytes: &[u8]| match packet::read(&AsWritten, bytes, LONGEST) {
        Ok(parts) => hash::packet_hash(&AsWritten, independent, &parts, &bytes[packet::payload_place(bytes)..]),
        Err(_) => [0; 32],
    };
    report.table("Packet hash", "packet", &[]);
    lines(report, "packet hash", [&core, &rust], &[19, 83, 500]);
}

/// The head of a packet alone, so that 500 bytes take no longer than 19.
fn reading(report: &mut Report) {
    let core = |bytes: &[u8]| {
        let mut parts = [0; 35];
        core::read(bytes, LONGEST as u64, &mut parts);
        parts
    };
    let rust = |bytes: &[u8]| packet::read(&AsWritten, bytes, LONGEST).map_or([0; 35], |parts| core::crossing(&parts));
    report.table("Reading a packet", "packet", &[]);
    lines(report, "reading", [&core, &rust], &[19, 83, 500]);
}

/// An announce of our own with this much of the application's data: two digests, for its destination, and the writing.
fn announces(report: &mut Report, independent: &Sha256) {
    fn own(app_data: &[u8]) -> Own<'_> {
        Own { keys: &[7; 64], name_hash: &[8; 10], random: &[9; 5], clock: 1_700_000_000, ratchet: &[], app_data }
    }
    let core = |app_data: &[u8]| {
        let mut room = [0; LONGEST];
        core::build_announce(&own(app_data), &[5; 64], &mut room);
        room
    };
    let rust = |app_data: &[u8]| {
        let mut room = [0; LONGEST];
        announcing::build(&AsWritten, independent, &own(app_data), &[5; 64], &mut room).expect("an announce");
        room
    };
    report.table("Building an announce", "application's data", &[]);
    lines(report, "announce of our own", [&core, &rust], &[16, 333]);
}

pub fn run(report: &mut Report) {
    let independent = Sha256::default();
    sha256(report, &independent);
    packet_hash(report, &independent);
    reading(report);
    announces(report, &independent);
}
