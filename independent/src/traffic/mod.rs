//! Traffic that a seed fixes: calls that follow on one another as those of real networks do, and at the rules' edges.
//! It knows what it sent, and believes what a relay made of it; no relay is asked.

mod announces;
mod asking;
mod blobs;
mod data;
mod exempt;
mod lent;
mod links;
mod marks;
mod rates;
mod reasons;
mod saved;
mod settings;
mod sizes;

pub use asking::Asking;

use crate::engine::{Call, PacketCall};
use crate::limits::{CLOCK_LIMIT, GREATEST_SIZE};
use crate::packet::{announced, hash, Address, Blob, Header, PacketHash, Parts};
use crate::random::Random;
use crate::rules::AsWritten;
use crate::sha256::Sha256;
use crate::tables::{AnnounceRate, RateEntry};
use std::collections::VecDeque;

/// Somebody who announces: its keys and name, what it sent, and the path that a relay should have to it.
#[derive(Clone)]
struct Station {
    keys: [u8; 64],
    name_hash: [u8; 10],
    address: Address,
    /// The blobs sent, newest last.
    blobs: Vec<Blob>,
    emission: u64,
    port: u8,
    hops: u8,
    expiry: u64,
    rate: RateEntry,
    marked: bool,
    /// Its last announce, and where that came in.
    announce: Option<(Vec<u8>, u8)>,
}

/// A link that was asked for.
#[derive(Clone)]
struct Link {
    id: Address,
    request: (Parts, Vec<u8>),
    asking: u8,
    answering: u8,
    taken: u8,
    remaining: u8,
}

/// Data that should have left a return record.
#[derive(Clone)]
struct Carried {
    packet: Vec<u8>,
    key: Address,
    arrival: u8,
    leaving: u8,
}

#[derive(Clone, Copy)]
struct Port {
    on: bool,
    mode: u8,
    size: usize,
}

/// What is believed of the relay and its neighbours.
#[derive(Clone)]
struct World {
    own: Address,
    clock: u64,
    /// The longest time between two episodes.
    pace: u64,
    rate: AnnounceRate,
    ports: [Port; 16],
    stations: Vec<Station>,
    locals: Vec<Address>,
    links: VecDeque<Link>,
    carried: VecDeque<Carried>,
    sent: VecDeque<Vec<u8>>,
}

pub struct Traffic {
    random: Random,
    sha: Sha256,
    queue: VecDeque<Call>,
    /// Episodes until the next fresh relay.
    left: usize,
    /// Does another caller write tables, and are files saved and loaded?
    lent: bool,
    files: bool,
    world: World,
    /// What was believed of the relay whose file is kept, where that is known.
    saved: Option<World>,
}

/// How many links, forwarded packets and sent packets are kept in mind.
const KEPT: usize = 100;

type Episode = fn(&mut Traffic);

/// What happens, and how often.
const EPISODES: &[(usize, Episode)] = &[
    (30, Traffic::announce_newer),
    (10, Traffic::announce_replay),
    (14, Traffic::announce_stale),
    (2, Traffic::announce_countdown),
    (2, Traffic::announce_many),
    (10, Traffic::announce_malformed),
    (4, Traffic::announce_long),
    (4, Traffic::announce_unsigned),
    (3, Traffic::announce_local),
    (2, Traffic::announce_crowd),
    (2, Traffic::path_edge),
    (8, Traffic::chatter),
    (4, Traffic::refused_rate),
    (12, Traffic::lent_chatter),
    (14, Traffic::dead_path),
    (10, Traffic::refused_mark),
    (2, Traffic::mark_edge),
    (4, Traffic::lent_marks),
    (10, Traffic::lent_blobs),
    (25, Traffic::data_by_path),
    (8, Traffic::data_lost),
    (6, Traffic::data_local),
    (5, Traffic::data_neighbour),
    (6, Traffic::data_again),
    (2, Traffic::hash_edge),
    (2, Traffic::return_edge),
    (12, Traffic::receipt),
    (3, Traffic::receipt_lost),
    (1, Traffic::data_flood),
    (12, Traffic::any_packet),
    (12, Traffic::link_life),
    (12, Traffic::link_step),
    (3, Traffic::link_edge),
    (4, Traffic::link_malformed),
    (1, Traffic::link_flood),
    (2, Traffic::keepalives),
    (2, Traffic::keepalives_astray),
    (3, Traffic::keepalives_remembered),
    (14, Traffic::port_setting),
    (5, Traffic::port_off_and_on),
    (5, Traffic::local_calls),
    (2, Traffic::locals_full),
    (12, Traffic::renumbering),
    (64, Traffic::refused_packet),
    (4, Traffic::sizes_in),
    (7, Traffic::sizes_by_path),
    (6, Traffic::sizes_by_link),
    (9, Traffic::sizes_by_return),
    (6, Traffic::sizes_of_spread),
    (6, Traffic::lent_full_links),
    (16, Traffic::lent_tables),
    (4, Traffic::bad_forms),
    (12, Traffic::lent_reasons),
    (4, Traffic::save_and_load),
    (2, Traffic::load_again),
    (8, Traffic::load_older),
    (24, Traffic::load_refused),
    (6, Traffic::load_changed),
];

impl Traffic {
    pub fn new(seed: u64) -> Self {
        Self::start(seed, true, true)
    }

    /// Only calls on tables that nobody else writes.
    pub fn unlent(seed: u64) -> Self {
        Self::start(seed, false, true)
    }

    /// Only calls that a second opinion takes, but for tallies.
    pub fn plain(seed: u64) -> Self {
        Self::start(seed, false, false)
    }

    /// Only calls that are listed for hosts in other languages, but for tallies.
    pub fn for_hosts(seed: u64) -> Self {
        Self::start(seed, true, false)
    }

    fn start(seed: u64, lent: bool, files: bool) -> Self {
        let mut random = Random::new(seed);
        let sha = Sha256::default();
        let world = World::new(&mut random, &sha);
        let mut traffic = Self { random, sha, queue: VecDeque::new(), left: 0, lent, files, world, saved: None };
        traffic.begin();
        traffic
    }

    /// A fresh relay with its ports set.
    fn begin(&mut self) {
        self.world = World::new(&mut self.random, &self.sha);
        self.left = 40 + self.random.below(500);
        self.queue.push_back(Call::Fresh(self.world.own));
        self.lent_tally();
        // of one port, of two, of some, or of all
        let ports = self.random.pick(&[1, 2, 5, 12, 16, 16]);
        for port in self.random.permutation().into_iter().take(ports) {
            let mode = self.random.below(3) as u8;
            self.set_port(port, true, mode);
        }
        // some relays have ports that carry less
        if self.random.one_in(6) {
            for port in self.random.permutation().into_iter().take(4) {
                let size = self.a_size();
                self.set_size(port, size);
            }
        }
    }

    fn episode(&mut self) {
        if self.left == 0 {
            self.begin();
            return;
        }
        self.left -= 1;
        if self.left == 10 && self.random.one_in(4) {
            self.pass(CLOCK_LIMIT);
        }
        let pace = self.world.pace as usize;
        let seconds = self.random.below(pace + 1) as u64;
        self.pass(seconds);
        let mut number = self.random.below(EPISODES.iter().map(|(weight, _)| weight).sum());
        for (weight, episode) in EPISODES {
            if number < *weight {
                return episode(self);
            }
            number -= weight;
        }
    }

    /// Lets time pass, though never to a clock that is refused.
    fn pass(&mut self, seconds: u64) {
        self.world.clock = (self.world.clock + seconds).min(CLOCK_LIMIT - 1);
    }

    /// A port that is on, if there is one.
    fn on_port(&mut self) -> u8 {
        let on: Vec<u8> = (0..16).filter(|port| self.world.ports[usize::from(*port)].on).collect();
        if on.is_empty() {
            self.random.below(16) as u8
        } else {
            self.random.pick(&on)
        }
    }

    /// A port that is on and not this one, if there is one.
    fn other_port(&mut self, port: u8) -> u8 {
        (0..20).map(|_| self.on_port()).find(|other| *other != port).unwrap_or(port)
    }

    /// Few hops mostly, and the edges.
    fn hops(&mut self) -> u8 {
        match self.random.below(12) {
            0 => self.random.pick(&[126, 127]),
            1 => self.random.below(128) as u8,
            _ => self.random.below(6) as u8,
        }
    }

    fn port(&self, port: u8) -> Port {
        self.world.ports[usize::from(port)]
    }

    fn set(&mut self, port: u8, settings: Port) {
        self.world.ports[usize::from(port)] = settings;
        let Port { on, mode, size } = settings;
        self.queue.push_back(Call::SetPort { port: u64::from(port), on, mode: u64::from(mode), size: size as u64 });
    }

    /// Sets a port, but for its size.
    fn set_port(&mut self, port: u8, on: bool, mode: u8) {
        self.set(port, Port { on, mode, ..self.port(port) });
    }

    fn set_size(&mut self, port: u8, size: usize) {
        self.set(port, Port { size, ..self.port(port) });
    }

    fn turn(&mut self, port: u8, on: bool) {
        self.set(port, Port { on, ..self.port(port) });
    }

    fn packet_call(&mut self, packet: Vec<u8>, port: u8, signature: bool) -> PacketCall {
        let output = if self.random.one_in(20) { 500 + self.random.below(300) } else { 500 };
        PacketCall { packet, port: u64::from(port), clock: self.world.clock, signature, output, fill: self.random.word() as u8 }
    }

    /// Sends a packet, with a signature word that mostly doesn't matter.
    fn send(&mut self, packet: Vec<u8>, port: u8) {
        let signature = !self.random.one_in(10);
        self.send_signed(packet, port, signature);
    }

    fn send_signed(&mut self, packet: Vec<u8>, port: u8, signature: bool) {
        keep(&mut self.world.sent, packet.clone());
        let call = self.packet_call(packet, port, signature);
        self.queue.push_back(Call::Packet(call));
    }

    fn station(&mut self) -> usize {
        self.random.below(self.world.stations.len())
    }

    /// A station with a live path, if a few tries find one.
    fn reachable(&mut self) -> usize {
        let tries: Vec<usize> = (0..8).map(|_| self.station()).collect();
        let live = |station: &&usize| self.world.clock < self.world.stations[**station].expiry;
        *tries.iter().find(live).unwrap_or(&tries[0])
    }

    fn packet_hash(&self, parts: &Parts, payload: &[u8]) -> PacketHash {
        hash::packet_hash(&AsWritten, &self.sha, parts, payload)
    }

    /// An address that is nobody's, or somebody's for whom it isn't meant.
    fn stray_address(&mut self) -> Address {
        match self.random.below(8) {
            0 => [0; 16],
            1 => self.world.own,
            2 => self.world.links.front().map_or([1; 16], |link| link.id),
            3 => self.world.carried.front().map_or([2; 16], |carried| carried.key),
            4 => {
                let station = self.station();
                self.world.stations[station].address
            }
            5 if !self.world.locals.is_empty() => self.random.pick(&self.world.locals),
            _ => self.random.array(),
        }
    }
}

impl Iterator for Traffic {
    type Item = Call;

    fn next(&mut self) -> Option<Call> {
        while self.queue.is_empty() {
            self.episode();
        }
        self.queue.pop_front()
    }
}

impl World {
    fn new(random: &mut Random, sha: &Sha256) -> Self {
        let stations = random.pick(&[2, 6, 12, 40, 90]);
        Self {
            own: random.array(),
            clock: random.pick(&[0, 1, 1_000, 1_700_000_000, CLOCK_LIMIT - 2_000_000, CLOCK_LIMIT - 100_000]),
            pace: random.pick(&[0, 1, 1, 5, 5, 40, 300, 4_000]),
            rate: rates::OFF,
            ports: [Port { on: false, mode: 0, size: GREATEST_SIZE }; 16],
            stations: (0..stations).map(|_| Station::new(random, sha)).collect(),
            locals: Vec::new(),
            links: VecDeque::new(),
            carried: VecDeque::new(),
            sent: VecDeque::new(),
        }
    }
}

impl Station {
    fn new(random: &mut Random, sha: &Sha256) -> Self {
        let keys = random.array();
        let name_hash = random.array();
        let address = announced::destination(sha, &keys, &name_hash);
        let emission = 1_000 + random.below(1_700_000_000) as u64;
        Self {
            keys,
            name_hash,
            address,
            blobs: Vec::new(),
            emission,
            port: 0,
            hops: 0,
            expiry: 0,
            rate: RateEntry::default(),
            marked: false,
            announce: None,
        }
    }
}

/// Keeps the newest few.
fn keep<T>(list: &mut VecDeque<T>, item: T) {
    list.push_front(item);
    list.truncate(KEPT);
}

/// Parts of a header and a destination, in type 2 by this relay.
fn parts(header: u8, hops: u8, relay: Address, destination: Address, context: u8) -> Parts {
    Parts { header: Header(header), hops, relay, destination, context }
}
