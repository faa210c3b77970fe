//! Wish 11: ports that carry less, and packets about their sizes: in by them, and out by a path, over a link, back by a return record, and spread.

use super::{keep, parts, Carried, Link, Port, Traffic};
use crate::engine::Call;
use crate::limits::{GREATEST_SIZE, LEAST_SIZE};
use crate::packet::{encode, START_1, START_2};
use crate::tables::{self, LINKS};

/// The range's ends, a long-range radio's, and what some packets just are.
const SIZES: [usize; 14] = [19, 19, 20, 35, 100, 166, 183, 200, 254, 255, 255, 256, 499, 500];

impl Traffic {
    pub(super) fn a_size(&mut self) -> usize {
        self.random.pick(&SIZES)
    }

    pub(super) fn refused_size(&mut self) -> u64 {
        self.random.pick(&[0, 1, 18, 18, 501, 501, 502, 1 << 16, (1 << 16) + 19, (1 << 16) + 500, 1 << 32, u64::MAX])
    }

    /// A size about a length, mostly one byte too small for it.
    fn size_about(&mut self, length: usize) -> usize {
        (length + self.random.pick(&[0, 0, 0, 1, 1, 2])).saturating_sub(1).clamp(LEAST_SIZE, GREATEST_SIZE)
    }

    /// Packets about a port's size come in by it, some with the access code bit.
    pub(super) fn sizes_in(&mut self) {
        let port = self.on_port();
        let before = self.port(port);
        let size = self.a_size();
        self.set(port, Port { on: true, size, ..before });
        for _ in 0..1 + self.random.below(4) {
            let code = if self.random.one_in(4) { 0x80 } else { 0 };
            let header = self.random.below(0x80) as u8 | code;
            let mut packet = encode(&parts(header, 0, self.world.own, self.stray_address(), 0), &self.random.bytes(500));
            packet.truncate(size - 1 + self.random.below(3));
            self.send(packet, port);
        }
        self.set(port, before);
    }

    /// Data and link requests by a path whose port carries about as much as they have, as they come in or as they leave.
    pub(super) fn sizes_by_path(&mut self) {
        let station = self.reachable();
        self.ensure_path(station);
        if self.random.one_in(2) {
            self.announce_near(station);
        }
        let port = self.world.stations[station].port;
        let before = self.port(port);
        for _ in 0..2 + self.random.below(3) {
            self.by_narrow_path(station, port);
        }
        self.set(port, before);
    }

    fn by_narrow_path(&mut self, station: usize, port: u8) {
        let request = self.random.one_in(2);
        let destination = self.world.stations[station].address;
        let (parts, payload) = if request { self.request_for(station) } else { self.data_for(destination) };
        let (came, last) = (START_2 + payload.len(), self.world.stations[station].hops == 0);
        let leaves = if last { came - (START_2 - START_1) } else { came };
        let about = self.random.pick(&[leaves, leaves, leaves, came]);
        let (size, off) = (self.size_about(about), self.random.one_in(5));
        self.set(port, Port { on: !off, size, ..self.port(port) });
        let arrival = self.other_port(port);
        if !request && !off && leaves <= size && self.world.clock < self.world.stations[station].expiry {
            let hash = self.packet_hash(&parts, &payload);
            let carried = Carried { packet: encode(&parts, &payload), key: std::array::from_fn(|i| hash[i]), arrival, leaving: port };
            keep(&mut self.world.carried, carried);
        }
        self.send(encode(&parts, &payload), arrival);
    }

    /// Packets over a link one of whose ports carries about as much as they have; then the same port carries all again.
    pub(super) fn sizes_by_link(&mut self) {
        let station = self.reachable();
        self.ensure_path(station);
        let link = self.ask(station);
        let narrow = self.random.pick(&[link.asking, link.answering]);
        let before = self.port(narrow);
        for _ in 0..1 + self.random.below(2) {
            let size = self.random.pick(&[114, 114, 115, 117, 118]);
            self.set_size(link.asking, size);
            self.prove_link(&link);
            self.set_size(link.asking, GREATEST_SIZE);
        }
        self.prove_link(&link);
        for _ in 0..2 + self.random.below(3) {
            let seconds = self.random.pick(&[0, 1, 60]);
            self.pass(seconds);
            self.by_narrow_link(&link, narrow);
        }
        self.set(narrow, before);
    }

    fn by_narrow_link(&mut self, link: &Link, narrow: u8) {
        let length = self.random.pick(&[0, 1, 30, 236, 481]);
        let size = self.size_about(START_1 + length);
        self.set_size(narrow, size);
        let context = self.random.pick(&[0, 0xfa]);
        let (hops, port) = if narrow == link.asking { (link.remaining, link.answering) } else { (link.taken, link.asking) };
        let kind = self.random.pick(&[0, 0, 3]);
        self.over_link(link, kind, hops, port, (context, length), false);
    }

    /// A receipt that is too long for the port that it goes back by, and once more when that carries it.
    pub(super) fn sizes_by_return(&mut self) {
        let station = self.reachable();
        self.ensure_path(station);
        self.data_to(station);
        let Some(carried) = self.world.carried.front().cloned() else { return };
        let before = self.port(carried.arrival);
        for _ in 0..2 {
            let length = self.random.pick(&[0, 1, 64, 236, 480, 481]);
            let size = self.size_about(START_1 + length);
            self.set_size(carried.arrival, size);
            let (header, hops, payload) = (3 | self.random.pick(&[0, 4, 8, 0x20]), self.hops(), self.random.bytes(length));
            self.send(encode(&parts(header, hops, [0; 16], carried.key, 0), &payload), carried.leaving);
        }
        self.set(carried.arrival, before);
    }

    /// Announces that some, one, all or none of the other ports carry.
    pub(super) fn sizes_of_spread(&mut self) {
        let station = self.station();
        let before = self.world.ports;
        let arrival = self.on_port();
        // of some ports the others are off meanwhile
        let on: Vec<u8> = (0..16).filter(|port| before[usize::from(*port)].on && *port != arrival).collect();
        let (others, off) = on.split_at(on.len().min(4));
        off.iter().for_each(|port| self.turn(*port, false));
        for _ in 0..1 + self.random.below(3) {
            let length = self.random.pick(&[183, 184, 255, 255, 256, 499, 500]);
            let chosen = self.random.below(others.len().max(1));
            let way = self.random.below(4);
            for (place, port) in others.iter().enumerate() {
                let fits = match way {
                    0 => false,
                    1 => place == chosen,
                    2 => place != chosen,
                    _ => self.random.one_in(2),
                };
                let size = if fits { length + self.random.below(2) } else { length - 1 };
                self.set_size(*port, size.min(GREATEST_SIZE));
            }
            self.announce_spread_as(station, arrival, length);
        }
        on.iter().for_each(|port| self.set(*port, before[usize::from(*port)]));
    }

    /// Link requests with no room for a link, and a path by a port that is off, too narrow, or neither.
    pub(super) fn lent_full_links(&mut self) {
        if !self.lent {
            return;
        }
        let station = self.reachable();
        self.ensure_path(station);
        let (port, before) = (self.world.stations[station].port, self.world.ports);
        self.queue.push_back(Call::PutAside);
        let (clock, ports) = (self.world.clock, [self.on_port(), port]);
        let links: Vec<Vec<u8>> = (0..LINKS.records.count).map(|_| live_link(self.random.array(), ports, clock)).collect();
        self.write(LINKS.records.start, links.concat());
        for _ in 0..3 {
            self.by_narrow_path(station, port);
        }
        self.queue.push_back(Call::TakeBack);
        self.world.ports = before;
    }
}

/// A link that isn't proved, live for a while.
fn live_link(id: [u8; 16], [asking, answering]: [u8; 2], clock: u64) -> Vec<u8> {
    let mut record = vec![0; tables::link::WIDTH];
    tables::Link { id, asking, answering, taken: 1, remaining: 1, proved: false, expiry: clock + 60 }.write(&mut record);
    record
}
