//! Wish 2: packets of kind link that come again as the same bytes within 300 s, of exempt contexts and of others.

use super::{parts, Link, Traffic};
use crate::engine::Call;
use crate::limits::{EXEMPT_CONTEXTS, HASH_LIFETIME};
use crate::packet::{encode, Parts};
use crate::tables::{set_key, set_time, HASHES};

/// Contexts beside the exempt ones, and link proofs'.
const OTHERS: [u8; 16] = [0, 2, 4, 6, 7, 9, 0x0a, 0x0d, 0x0f, 0xf9, 0xfb, 0xfc, 0xfd, 0xfe, 0xff, 0x81];

impl Traffic {
    /// A link that should be proved now.
    fn proved_link(&mut self) -> Link {
        let station = self.reachable();
        self.ensure_path(station);
        let link = self.ask(station);
        self.prove_link(&link);
        link
    }

    /// The exempt contexts, each once, from any of them on.
    fn exempt_contexts(&mut self) -> [u8; 6] {
        let mut contexts = EXEMPT_CONTEXTS;
        contexts.rotate_left(self.random.below(6));
        contexts
    }

    /// Data, or a proof, of this context from one side of a link with that side's hops, and the port that it comes in by.
    fn from_a_side(&mut self, link: &Link, context: u8) -> (Parts, Vec<u8>, u8) {
        let (hops, port) = self.random.pick(&[(link.taken, link.asking), (link.remaining, link.answering)]);
        let header = 12 | self.random.pick(&[0, 0, 0, 3]) | self.random.pick(&[0, 0, 0x10, 0x20]);
        // a keepalive's payload is one byte of two
        let length = self.random.pick(&[0, 1, 1, 1, 40, 481]);
        let payload = if length == 1 { vec![self.random.pick(&[0xff, 0xfe])] } else { self.random.bytes(length) };
        (parts(header, hops, [0; 16], link.id, context), payload, port)
    }

    /// The same bytes by the same port, so that the second come before the first are forgotten.
    fn send_again(&mut self, packet: Vec<u8>, port: u8) {
        self.send(packet.clone(), port);
        for _ in 0..1 + self.random.below(2) {
            let seconds = self.random.pick(&[0, 0, 0, 1, 60, HASH_LIFETIME - 1]);
            self.pass(seconds);
            self.send(packet.clone(), port);
        }
    }

    /// Keepalives and their like over a link, every exempt context and some others.
    pub(super) fn keepalives(&mut self) {
        let link = self.proved_link();
        for context in self.exempt_contexts() {
            let (parts, payload, port) = self.from_a_side(&link, context);
            self.send_again(encode(&parts, &payload), port);
        }
        for _ in 0..2 {
            let context = self.random.pick(&OTHERS);
            let (parts, payload, port) = self.from_a_side(&link, context);
            self.send_again(encode(&parts, &payload), port);
        }
    }

    /// The same, of another packet kind, destination kind or type, with other hops, by another port, or to no link.
    pub(super) fn keepalives_astray(&mut self) {
        let link = if self.world.links.is_empty() { self.proved_link() } else { self.world.links[0].clone() };
        for context in self.exempt_contexts() {
            let (mut parts, payload, mut port) = self.from_a_side(&link, context);
            match self.random.below(8) {
                0 => parts.header.0 ^= self.random.pick(&[1, 2, 3]),
                1 => parts.header.0 &= !self.random.pick(&[4, 8, 12]),
                2 => (parts.header.0, parts.relay) = (parts.header.0 | 0x40, self.world.own),
                3 => (parts.header.0, parts.relay) = (parts.header.0 | 0x40, self.random.array()),
                4 => parts.hops = self.random.pick(&[parts.hops ^ 1, 128, 200, 254, 255]),
                5 => port = self.other_port(port),
                6 => parts.destination = self.stray_address(),
                _ => {}
            }
            let longest = 500 - parts.header.payload_start();
            self.send_again(encode(&parts, &payload[..payload.len().min(longest)]), port);
        }
    }

    /// The same over lent tables that remember each packet already, as those of a relay by document 01 alone did.
    pub(super) fn keepalives_remembered(&mut self) {
        if !self.lent {
            return;
        }
        let link = self.proved_link();
        self.queue.push_back(Call::PutAside);
        for context in self.exempt_contexts() {
            let (parts, payload, port) = self.from_a_side(&link, context);
            self.lend_hash(&parts, &payload);
            self.send_again(encode(&parts, &payload), port);
        }
        let context = self.random.pick(&OTHERS);
        let (parts, payload, port) = self.from_a_side(&link, context);
        self.lend_hash(&parts, &payload);
        self.send(encode(&parts, &payload), port);
        self.queue.push_back(Call::TakeBack);
    }

    /// Writes a packet's hash into some ring place, live for a while.
    fn lend_hash(&mut self, parts: &Parts, payload: &[u8]) {
        let mut record = vec![0; HASHES.records.width];
        set_key(&mut record, &self.packet_hash(parts, payload));
        set_time(&mut record, HASHES.expiry, self.world.clock + HASH_LIFETIME);
        let place = self.random.below(HASHES.records.count);
        self.queue.push_back(Call::Write { at: HASHES.records.range(place).start, bytes: record });
    }
}
