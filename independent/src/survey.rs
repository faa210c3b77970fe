//! The survey box: document 02's Wish 14.

use crate::answer::{Answer, Refusal, Verdict, When};
use crate::limits::{PORT_COUNT, RECORDING_LIMIT};
use crate::recording::{count, replaying, replaying::Judged, Entry};
use crate::relay::{settings, Relay};
use crate::rules::Rules;
use crate::tables::{own, LOCALS, PORTS, RATE, SIZE};

/// "for each test, 1 to 11, 15, 12, 16, 13"
const TESTS: [u8; 15] = [1, 2, 3, 4, 5, 6, 7, 8, 9, 10, 11, 15, 12, 16, 13];
/// As many numbers as tests have, and 0.
const NUMBERS: usize = 17;

/// What is told of a port: "packets, bytes in, bytes sent out", and how many of the packets were dropped.
#[derive(Clone, Copy, Debug, Default, PartialEq, Eq)]
pub struct PortTotals {
    pub packets: u64,
    pub bytes_in: u64,
    pub bytes_out: u64,
    pub dropped: u64,
}

/// "Numbers are exact totals over the replays' answers."
#[derive(Clone, Debug, Default, PartialEq, Eq)]
pub struct Totals {
    pub ports: [PortTotals; PORT_COUNT],
    /// Drops, by the number of the test.
    pub reasons: [u64; NUMBERS],
}

/// All that a survey prints. A settings file is a saved file; a refused one is told alone.
pub fn survey<R: Rules>(relay: &Relay<R>, settings: &[u8], recordings: &[Vec<u8>]) -> String {
    let (mut loaded, mut tally) = (vec![0; SIZE], [0; 6]);
    match relay.rules.load(settings, &mut loaded, &mut tally) {
        Err(refusal) => format!("settings refused {}\n", refusal.number()),
        Ok(()) => text(relay, &relay.rules.started(&loaded), recordings),
    }
}

/// "The text begins with the line `survey`, then a line such as `recording 2 refused 21` for each refused one, then one line for each of the
/// sixteen ports, rising", "then one for each test". A line feed ends each.
fn text<R: Rules>(relay: &Relay<R>, start: &[u8], recordings: &[Vec<u8>]) -> String {
    let (mut text, mut totals, mut left) = ("survey\n".to_string(), Totals::default(), start.to_vec());
    for (file, number) in recordings.iter().zip(1..) {
        if let Err(refusal) = relay.rules.recording_refusal(number, file) {
            text += &relay.rules.recording_line(number, refusal);
            relay.rules.count_refused_recording(file, &mut totals);
            if relay.rules.ends_reading(refusal) {
                break;
            }
            continue;
        }
        let mut tables = relay.rules.tables_before(start, &left);
        add(relay, file, &mut tables, &mut totals);
        left = tables;
    }
    for (port, of_port) in totals.ports.iter().enumerate() {
        text += &relay.rules.port_line(port, of_port);
    }
    for test in relay.rules.tests() {
        text += &relay.rules.reason_line(test, totals.reasons[usize::from(test)]);
    }
    text
}

/// "each from a fresh relay with the same settings and local addresses"
pub fn started<R: Rules>(rules: &R, loaded: &[u8]) -> Vec<u8> {
    let mut tables = vec![0; SIZE];
    settings::fresh(rules, &mut tables, &own(loaded)).expect("tables of their size");
    for settings in [PORTS.bytes(), RATE.bytes(), LOCALS.bytes()] {
        tables[settings.clone()].copy_from_slice(&loaded[settings]);
    }
    tables
}

/// The tables that the next recording comes to, not those that the one before left.
pub fn tables_before(start: &[u8], _left: &[u8]) -> Vec<u8> {
    start.to_vec()
}

/// "29, a 17th recording", which isn't read; else those of the recording's reader.
pub fn recording_refusal<R: Rules>(rules: &R, number: usize, file: &[u8]) -> Result<(), Refusal> {
    Refusal::TooManyRecordings.when(number > RECORDING_LIMIT)?;
    rules.file_refusal(file)
}

/// "told as `recording 17 refused 29`, which ends the reading with the first sixteen reported."
pub fn ends_reading(refusal: Refusal) -> bool {
    refusal == Refusal::TooManyRecordings
}

/// "A refused recording adds nothing."
pub fn count_refused_recording(_file: &[u8], _totals: &mut Totals) {}

/// Replays a recording, and counts what each entry came to.
fn add<R: Rules>(relay: &Relay<R>, file: &[u8], tables: &mut [u8], totals: &mut Totals) {
    let mut tally = [0; 6];
    for index in 0..count(file) as u64 {
        let entry = relay.rules.entry_at(file, index);
        let judged = replaying::step(relay, file, index, tables, &mut tally);
        if let Some((entry, judged)) = entry.zip(judged) {
            relay.rules.count_entry(&entry, &judged, totals);
        }
    }
}

/// "Packets and bytes in are of those accepted on that port."
pub fn count_entry<R: Rules>(rules: &R, entry: &Entry, judged: &Judged, totals: &mut Totals) {
    let Ok(answer) = judged else { return };
    let arrival = &mut totals.ports[usize::from(entry.port)];
    arrival.packets += 1;
    arrival.bytes_in += entry.length as u64;
    if let Verdict::Drop(reason) = answer.verdict {
        arrival.dropped += 1;
        totals.reasons[usize::from(reason.number())] += 1;
    }
    for (port, of_port) in totals.ports.iter_mut().enumerate() {
        of_port.bytes_out += rules.sent_by(entry, answer, port as u8);
    }
}

/// The bytes that an answer sends out by a port: "a spread counts once per port in its set".
pub fn sent_by(_entry: &Entry, answer: &Answer, port: u8) -> u64 {
    let leaves = match answer.verdict {
        Verdict::Forward(leaving) => leaving == port,
        Verdict::Spread(ports) => ports >> port & 1 == 1,
        Verdict::Drop(_) | Verdict::Deliver | Verdict::Kept => false,
    };
    if leaves {
        answer.length as u64
    } else {
        0
    }
}

/// "the share of packets dropped as a fraction in lowest terms, 0/1 where none came."
pub fn share(dropped: u64, packets: u64) -> (u64, u64) {
    if packets == 0 {
        return (0, 1);
    }
    // no greater number than the packets' divides both
    let divisor = (1..=packets).rev().find(|divisor| dropped % divisor == 0 && packets % divisor == 0).expect("1 divides both");
    (dropped / divisor, packets / divisor)
}

/// "a line such as `recording 2 refused 21`"
pub fn recording_line(number: usize, refusal: Refusal) -> String {
    format!("recording {number} refused {}\n", refusal.number())
}

/// "as `port 3 packets 10 in 900 out 450 dropped 1/5`"
pub fn port_line<R: Rules>(rules: &R, port: usize, totals: &PortTotals) -> String {
    let PortTotals { packets, bytes_in, bytes_out, dropped } = totals;
    let (part, whole) = rules.share(*dropped, *packets);
    format!("port {port} packets {packets} in {bytes_in} out {bytes_out} dropped {part}/{whole}\n")
}

/// The tests in the order of their lines.
pub fn tests() -> [u8; 15] {
    TESTS
}

/// "as `reason 2 2`"
pub fn reason_line(test: u8, times: u64) -> String {
    format!("reason {test} {times}\n")
}
