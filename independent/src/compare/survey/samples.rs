//! Settings and recordings to compare programs on: of random traffic, whole and damaged, and aimed at an edge.

use crate::compare::recording::samples::{Day, DAMAGES};
use crate::compare::saved::damages;
use crate::engine::{Call, PacketCall, Run};
use crate::limits::CLOCK_LIMIT;
use crate::packet::{announced, encode, Address, Header, Parts};
use crate::random::Random;
use crate::recording::LONGEST_FILE;
use crate::relay::Relay;
use crate::rules::{AsWritten, Rules, Tuned};
use crate::saved::LENGTH;
use crate::sha256::Sha256;
use crate::tables::AnnounceRate;
use crate::traffic::Traffic;

/// What a survey is given.
#[derive(Clone)]
pub struct Case {
    pub settings: Vec<u8>,
    pub recordings: Vec<Vec<u8>>,
}

/// Recordings, one more than can be told of, and none.
const COUNTS: usize = 19;
/// Packets of a recording, few or many.
const PACKETS: [usize; 6] = [0, 1, 10, 40, 80, 150];

/// Surveys of random traffic.
pub struct Cases {
    random: Random,
    traffic: Traffic,
    run: Run<Relay<Tuned>>,
    number: usize,
}

impl Cases {
    pub fn new(seed: u64) -> Self {
        Self { random: Random::new(seed), traffic: Traffic::unlent(seed), run: Run::new(Relay::new(Tuned)), number: 0 }
    }

    /// The packets that come next, as far as a recording holds them.
    fn day(&mut self) -> Day {
        let (mut day, most) = (Day::default(), self.random.pick(&PACKETS));
        while day.count() < most {
            let call = self.traffic.next().expect("traffic doesn't end");
            self.run.make(&call);
            if let Call::Packet(PacketCall { packet, port, clock, signature, .. }) = call {
                if clock < CLOCK_LIMIT && day.file_length() + packet.len() + 100 < LONGEST_FILE {
                    day.push(clock, port.min(255) as u8, signature.into(), &packet);
                }
            }
        }
        day
    }

    /// The file of the relay as it is now, some with an announce rate and some with ports that carry less.
    fn settings(&mut self) -> Vec<u8> {
        let mut run = Run::new(Relay::new(Tuned));
        run.tables.clone_from(&self.run.tables);
        if self.random.one_in(3) {
            let (target, grace, penalty) =
                (self.random.pick(&[1, 20, 3_600, 86_400]), self.random.pick(&[0, 0, 1, 3]), self.random.below(1_000));
            run.make(&Call::SetAnnounceRate(AnnounceRate { target, grace, penalty: penalty as u64 }));
        }
        for port in 0..self.random.pick(&[0, 0, 4, 16]) {
            let (mode, size) = (self.random.below(3) as u64, self.random.pick(&[19, 100, 180, 255, 499, 500]));
            run.make(&Call::SetPort { port, on: !self.random.one_in(8), mode, size });
        }
        saved(&run)
    }
}

/// The file of a relay.
fn saved(run: &Run<Relay<Tuned>>) -> Vec<u8> {
    let mut file = vec![0; LENGTH];
    AsWritten.put_saved(&run.tables, &run.tally, &mut file);
    file
}

impl Iterator for Cases {
    type Item = Case;

    /// As many recordings as the case's number says, in any order; one in four is damaged, and of the settings one in two.
    fn next(&mut self) -> Option<Case> {
        let count = self.number % COUNTS;
        self.number += 1;
        let (before, mut recordings) = (self.random.below(count + 1), Vec::new());
        let mut settings = self.settings();
        for number in 0..count {
            let mut file = self.day().file();
            if self.random.one_in(4) {
                self.random.pick(DAMAGES)(&mut self.random, &mut file);
            }
            let place = self.random.below(number + 1);
            recordings.insert(place, file);
            if number == before {
                settings = self.settings();
            }
        }
        if self.random.one_in(2) {
            self.random.pick(damages::DAMAGES)(&mut self.random, &mut settings);
        }
        Some(Case { settings, recordings })
    }
}

const OWN: Address = [0xaa; 16];
const LOCAL: Address = [9; 16];

/// A station is a number: its keys are bytes of that number.
fn station(number: u8) -> Address {
    announced::destination(&Sha256::default(), &[number; 64], &[number; 10])
}

fn parts(header: u8, destination: Address) -> Parts {
    Parts { header: Header(header), hops: 1, relay: OWN, destination, context: 0 }
}

/// An announce of a station, of this emission and so much app data.
fn announce(number: u8, emission: u8, app_data: usize) -> Vec<u8> {
    let mut payload = vec![number; 148 + app_data];
    payload[83] = emission;
    encode(&parts(0x01, station(number)), &payload)
}

fn data(number: u8, payload: &[u8]) -> Vec<u8> {
    encode(&parts(0x40, station(number)), payload)
}

/// A relay with ports 0 to 3 on: port 1 roaming, port 2 of 200 bytes, and an announce rate, its last clock late.
fn relay() -> Run<Relay<Tuned>> {
    let mut run = Run::new(Relay::new(Tuned));
    run.make(&Call::Fresh(OWN));
    for (port, mode, size) in [(0, 0, 500), (1, 2, 500), (2, 1, 200), (3, 0, 500)] {
        run.make(&Call::SetPort { port, on: true, mode, size });
    }
    run.make(&Call::SetAnnounceRate(AnnounceRate { target: 60, grace: 0, penalty: 100 }));
    run.make(&Call::AddLocal(LOCAL));
    let packet = encode(&parts(0x00, LOCAL), b"late");
    run.make(&Call::Packet(PacketCall { packet, port: 0, clock: 1 << 39, signature: true, output: 500, fill: 0 }));
    run
}

/// A day with each setting told: a rate, a size, a roaming path's end, a local address, and refused packets among them.
fn day() -> Day {
    let mut day = Day::default();
    day.push(1_000, 1, 1, &announce(1, 1, 0));
    day.push(1_010, 1, 1, &announce(1, 2, 0));
    day.push(1_020, 2, 1, &announce(2, 1, 0));
    day.push(1_020, 0, 0, &data(2, &[1; 200]));
    day.push(1_020, 3, 0, &data(2, b"short"));
    day.push(1_030, 3, 0, &encode(&parts(0x00, LOCAL), b"here"));
    day.push(1_030, 9, 0, &encode(&parts(0x00, LOCAL), b"off"));
    day.push(1_029, 3, 0, &encode(&parts(0x00, LOCAL), b"early"));
    day.push(1_031, 2, 1, &announce(3, 1, 100));
    day.push(22_599, 0, 0, &data(1, b"still"));
    day.push(22_600, 0, 0, &data(1, b"over"));
    day
}

/// A crowd of announces, more than there are paths.
fn crowd() -> Day {
    let mut day = Day::default();
    (10..80).for_each(|number| day.push(500, 0, 1, &announce(number, 1, usize::from(number))));
    day
}

/// The same day up to eighteen times, with refused ones at the first, the sixteenth and the seventeenth place.
pub fn aimed() -> Vec<Case> {
    let settings = saved(&relay());
    let (whole, crowd) = (day().file(), crowd().file());
    let mut cases = Vec::new();
    for count in 0..=18 {
        cases.push(Case { settings: settings.clone(), recordings: vec![whole.clone(); count] });
        for refused in [0, 15, 16].into_iter().filter(|place| *place < count) {
            let mut recordings = vec![whole.clone(); count];
            recordings[0].clone_from(&crowd);
            recordings[refused][10] = 2;
            cases.push(Case { settings: settings.clone(), recordings });
        }
    }
    let recordings = vec![vec![], whole[..3].to_vec(), vec![1, 1, 0, 0], vec![0; LONGEST_FILE + 1], vec![0; LONGEST_FILE + 100]];
    cases.push(Case { settings, recordings: recordings.clone() });
    cases.push(Case { settings: vec![], recordings });
    cases
}
