//! Wish 10: packets of every clause of test 3 and every case of test 6, over tables with several expired paths of one destination too.

use super::{parts, Traffic};
use crate::engine::Call;
use crate::limits::{CLOCK_LIMIT, LATEST, LINK_PROOF};
use crate::packet::{encode, Address};
use crate::tables::{link, path, Link, Path, LINKS, PATHS};

/// Clauses of test 3, and cases of test 6.
const CLAUSES: usize = 8;
const CASES: usize = 6;

impl Traffic {
    /// Header, context and payload length that break this clause first; some break later ones too.
    fn broken(&mut self, clause: usize) -> (u8, u8, usize) {
        let random = &mut self.random;
        let short = random.pick(&[0, 1, 63, 73, 74, 147]);
        let any = random.pick(&[0, 63, 64, 95, 96, 147, 148, 180, 300]);
        let flags = random.pick(&[0, 0x10, 0x20, 0x30]);
        let both = random.pick(&[0, 0x40]);
        let (header, context, length) = match clause {
            1 => (0x43 | random.pick(&[0, 4, 8, 12]), random.pick(&[0, LINK_PROOF]), any),
            2 => (0x4c | random.pick(&[0, 1, 2]), random.pick(&[0, 0xfa, LINK_PROOF]), any),
            3 => (1 | random.pick(&[0x04, 0x08, 0x0c, 0x44, 0x48]), 0, any),
            4 => (1 | both, 0, if flags & 0x20 > 0 { random.pick(&[short, 148, 179]) } else { short }),
            5 => (1 | both, 0, random.pick(&[180, 200, 300])),
            6 => (0x0e, random.pick(&[0, 0xfa]), any),
            7 => (2 | both | random.pick(&[0, 4, 8]), 0, random.pick(&[0, 1, 32, 62, 63])),
            _ => (0x0f, LINK_PROOF, random.pick(&[0, 95, 97, 98, 100, 100, 481])),
        };
        (header | flags, context, length)
    }

    fn send_broken(&mut self, clause: usize) {
        let (header, context, length) = self.broken(clause);
        let destination = if self.random.one_in(4) { self.stray_address() } else { self.random.array() };
        let (hops, port) = (self.hops(), self.on_port());
        let payload = self.random.bytes(length);
        self.send(encode(&parts(header, hops, self.world.own, destination, context), &payload), port);
    }

    /// Packets of bad form by some clauses.
    pub(super) fn bad_forms(&mut self) {
        for _ in 0..1 + self.random.below(4) {
            let clause = 1 + self.random.below(CLAUSES);
            self.send_broken(clause);
        }
    }

    /// Data or a link request to an address, of this type.
    fn send_by_path(&mut self, type_2: bool, destination: Address) {
        let (kind, length) = self.random.pick(&[(0, 0), (0, 20), (2, 64), (2, 67)]);
        let header = kind | if type_2 { 0x40 } else { 0 } | self.random.pick(&[0, 0, 4, 8]) | self.random.pick(&[0, 0x10, 0x20]);
        let (hops, port) = (self.hops(), self.on_port());
        let payload = self.random.bytes(length);
        self.send(encode(&parts(header, hops, self.world.own, destination, 0), &payload), port);
    }

    /// Data, a link proof or another proof to a link.
    fn send_by_link(&mut self, id: Address) {
        let (kind, context, length) =
            self.random.pick(&[(0, 0, 20), (0, LINK_PROOF, 96), (3, LINK_PROOF, 96), (3, LINK_PROOF, 99), (3, 0, 64)]);
        let (hops, port) = (self.hops(), self.on_port());
        let payload = self.random.bytes(length);
        self.send(encode(&parts(12 | kind, hops, [0; 16], id, context), &payload), port);
    }

    /// A packet without a way on, in this case; over lent tables alone in the third and the fifth.
    fn send_lost(&mut self, case: usize) {
        let nobody = if self.random.one_in(8) { [0; 16] } else { self.random.array() };
        match case {
            1 => {
                let station = self.reachable();
                let known = self.world.stations[station].address;
                let destination = self.random.pick(&[known, nobody]);
                self.send_by_path(false, destination);
            }
            2 => self.send_by_path(true, nobody),
            3 => self.lend_expired(),
            4 => self.send_by_link(nobody),
            5 => self.lend_unproved(),
            _ => {
                let header = 3 | self.random.pick(&[0, 4, 8]);
                let (port, payload) = (self.on_port(), self.random.bytes(64));
                self.send(encode(&parts(header, 1, [0; 16], nobody, LINK_PROOF), &payload), port);
            }
        }
    }

    /// Expired paths of one destination in any slots, a live one among them at times, and a later one of its neighbour; then what would go by them.
    fn lend_expired(&mut self) {
        let destination: Address = self.random.array();
        let now = self.world.clock;
        let long_ago = self.random.one_in(4);
        for _ in 0..self.random.pick(&[1, 2, 3, 4, 5, 6]) {
            let before = self.random.pick(&[0, 1, 1, 2, 60, 5_000, 1 << 20, CLOCK_LIMIT]);
            self.lend_path_until(destination, if long_ago { 0 } else { now.saturating_sub(before) });
        }
        if self.random.one_in(3) {
            let mut neighbour = destination;
            neighbour[self.random.below(16)] ^= 1;
            self.lend_path_until(neighbour, now);
        }
        if self.random.one_in(5) {
            let expiry = self.random.pick(&[now + 1, now + 1, CLOCK_LIMIT, LATEST]);
            self.lend_path_until(destination, expiry);
            self.send_by_path(true, destination);
            self.pass(1);
        }
        for type_2 in [true, true, false] {
            self.send_by_path(type_2, destination);
        }
    }

    fn lend_path_until(&mut self, destination: Address, expiry: u64) {
        let mut record = vec![0; path::WIDTH];
        let (port, hops, next_hop) = (self.on_port(), self.hops(), self.random.array());
        Path { destination, port, hops, next_hop, expiry }.write(&mut record);
        record[path::BLOB_COUNT] = 1;
        let place = self.random.below(PATHS.records.count);
        self.write(PATHS.records.range(place).start, record);
    }

    /// A link that isn't proved, live or just expired, and what would go over it.
    fn lend_unproved(&mut self) {
        let (id, now) = (self.random.array(), self.world.clock);
        let mut record = vec![0; link::WIDTH];
        let expiry = self.random.pick(&[now, now + 1, now + 1, now + 60, LATEST]);
        let (asking, answering) = (self.on_port(), self.on_port());
        Link { id, asking, answering, taken: self.hops(), remaining: self.hops(), proved: false, expiry }.write(&mut record);
        let place = self.random.below(LINKS.records.count);
        self.write(LINKS.records.range(place).start, record);
        for _ in 0..2 {
            self.send_by_link(id);
        }
    }

    /// Some of all of them over lent tables.
    pub(super) fn lent_reasons(&mut self) {
        if !self.lent {
            return;
        }
        self.queue.push_back(Call::PutAside);
        for _ in 0..4 {
            let (clause, case) = (1 + self.random.below(CLAUSES), 1 + self.random.below(CASES));
            self.send_broken(clause);
            self.send_lost(case);
        }
        self.queue.push_back(Call::TakeBack);
    }
}
