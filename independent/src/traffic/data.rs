//! Data and receipts: by live, expired and unknown paths, to local addresses, in floods, and once more later.

use super::{keep, parts, Carried, Traffic};
use crate::packet::{encode, Address, Parts};

impl Traffic {
    fn payload(&mut self, longest: usize) -> Vec<u8> {
        let length = match self.random.below(10) {
            0 => 0,
            1 => longest - self.random.below(2),
            _ => self.random.below(60),
        };
        self.random.bytes(length)
    }

    /// Header bits 5 and 4 as they come, and a destination kind but link.
    fn loose_bits(&mut self) -> u8 {
        let kind = if self.random.one_in(4) { self.random.pick(&[4, 8]) } else { 0 };
        kind | self.random.pick(&[0, 0x10, 0x10, 0x20, 0x30])
    }

    /// Data that we are asked to carry.
    pub(super) fn data_for(&mut self, destination: Address) -> (Parts, Vec<u8>) {
        let header = 0x40 | self.loose_bits();
        let hops = self.hops();
        let context = self.random.pick(&[0, 0, 1, 9, 0xff]);
        (parts(header, hops, self.world.own, destination, context), self.payload(465))
    }

    /// Sends data to a station, and believes that it left a return record if the path should be live.
    pub(super) fn data_to(&mut self, station: usize) {
        let destination = self.world.stations[station].address;
        let (parts, payload) = self.data_for(destination);
        let packet = encode(&parts, &payload);
        let port = self.on_port();
        if self.world.clock < self.world.stations[station].expiry {
            let hash = self.packet_hash(&parts, &payload);
            let key = std::array::from_fn(|i| hash[i]);
            let carried = Carried { packet: packet.clone(), key, arrival: port, leaving: self.world.stations[station].port };
            keep(&mut self.world.carried, carried);
        }
        self.send(packet, port);
    }

    pub(super) fn data_by_path(&mut self) {
        let station = self.reachable();
        for _ in 0..1 + self.random.below(3) {
            self.data_to(station);
        }
    }

    /// Data without a way on: no path, or type 1.
    pub(super) fn data_lost(&mut self) {
        let station = self.station();
        let known = self.world.stations[station].address;
        let destination = if self.random.one_in(2) { known } else { self.stray_address() };
        let (mut parts, payload) = self.data_for(destination);
        if self.random.one_in(2) {
            parts.header.0 &= 0x3f;
        }
        let port = self.on_port();
        self.send(encode(&parts, &payload), port);
    }

    /// Every kind of packet to a local address, by both header types, with any hops.
    pub(super) fn data_local(&mut self) {
        if self.world.locals.is_empty() {
            let address = self.random.array();
            self.add_local(address);
        }
        let destination = self.random.pick(&self.world.locals);
        let port = self.on_port();
        for _ in 0..1 + self.random.below(4) {
            let header = self.random.below(0x80) as u8;
            let hops = self.random.pick(&[0, 3, 127, 128, 255]);
            let length = self.random.pick(&[0, 63, 64, 67, 96, 99]);
            let payload = self.random.bytes(length);
            let context = self.random.pick(&[0, 0xff]);
            self.send(encode(&parts(header, hops, self.world.own, destination, context), &payload), port);
        }
    }

    /// A packet that a neighbour was asked to carry, and then we are, and the neighbour once more.
    pub(super) fn data_neighbour(&mut self) {
        let station = self.reachable();
        let (mut parts, payload) = self.data_for(self.world.stations[station].address);
        parts.relay = self.random.array();
        if self.random.one_in(4) {
            parts.header.0 |= self.random.pick(&[2, 3, 12, 15]);
        }
        let port = self.on_port();
        let theirs = encode(&parts, &payload);
        self.send(theirs.clone(), port);
        parts.relay = self.world.own;
        self.send(encode(&parts, &payload), port);
        self.send(theirs, port);
    }

    /// A packet sent before, by the same or another port, with other hops.
    pub(super) fn data_again(&mut self) {
        if self.world.sent.is_empty() {
            return;
        }
        let back = self.random.below(self.world.sent.len());
        let mut packet = self.world.sent[back].clone();
        if self.random.one_in(2) && packet.len() > 1 {
            packet[1] = self.hops();
        }
        let port = self.on_port();
        self.send(packet, port);
    }

    /// A packet again at the last second of its remembered hash, and after it.
    pub(super) fn hash_edge(&mut self) {
        let station = self.reachable();
        self.data_to(station);
        let packet = self.world.sent[0].clone();
        let port = self.on_port();
        for seconds in [299, 1, 299, self.random.pick(&[1, 2])] {
            self.pass(seconds);
            self.send(packet.clone(), port);
        }
    }

    /// Return records of one key: renewed by the same packet, and at the end of their life.
    pub(super) fn return_edge(&mut self) {
        let station = self.reachable();
        self.ensure_path(station);
        self.data_to(station);
        let Some(carried) = self.world.carried.front().cloned() else { return };
        for _ in 0..self.random.below(3) {
            let seconds = self.random.pick(&[300, 479, 480, 1_499, 1_799, 1_800]);
            self.pass(seconds);
            self.send(carried.packet.clone(), carried.arrival);
        }
        let seconds = self.random.pick(&[479, 480, 1_799, 1_800]);
        self.pass(seconds);
        self.prove(&carried, carried.leaving);
    }

    /// An ordinary proof for what was carried.
    fn prove(&mut self, carried: &Carried, port: u8) {
        let header = 3 | self.random.pick(&[0, 0, 4, 8]) | self.random.pick(&[0, 0, 0x10, 0x20, 0x40]);
        let hops = self.hops();
        let context = self.random.pick(&[0, 0, 0, 0xff]);
        let payload = self.payload(465);
        let signature = self.random.one_in(2);
        let packet = encode(&parts(header, hops, self.world.own, carried.key, context), &payload);
        self.send_signed(packet, port, signature);
    }

    /// Receipts by the right port and by others, more than once.
    pub(super) fn receipt(&mut self) {
        if self.world.carried.is_empty() {
            return self.data_by_path();
        }
        let back = self.random.below(self.world.carried.len());
        let carried = self.world.carried[back].clone();
        for _ in 0..1 + self.random.below(3) {
            let right = !self.random.one_in(3);
            let port = if right { carried.leaving } else { self.other_port(carried.leaving) };
            self.prove(&carried, port);
        }
        // new data after a hole in the ring
        if self.random.one_in(2) {
            self.data_by_path();
        }
    }

    /// A receipt for nothing that was carried.
    pub(super) fn receipt_lost(&mut self) {
        let key = self.stray_address();
        let port = self.on_port();
        let carried = Carried { packet: Vec::new(), key, arrival: port, leaving: port };
        self.prove(&carried, port);
    }

    /// Enough data to fill a good part of the rings, with receipts for some of it.
    pub(super) fn data_flood(&mut self) {
        let station = self.reachable();
        self.ensure_path(station);
        for _ in 0..self.random.pick(&[20, 60, 200, 600]) {
            self.data_to(station);
            if self.random.one_in(8) {
                self.receipt();
            }
        }
    }

    /// Any header, to any address, of any length.
    pub(super) fn any_packet(&mut self) {
        let header = self.random.below(0x80) as u8;
        let destination = self.stray_address();
        let relay = if self.random.one_in(4) { self.random.array() } else { self.world.own };
        let hops = self.random.pick(&[0, 1, 2, 127, 128, 200]);
        let length = self.random.pick(&[0, 1, 63, 64, 67, 95, 96, 97, 98, 99, 100, 148, 180, 465]);
        let payload = self.random.bytes(length);
        let context = self.random.pick(&[0, 1, 0xfa, 0xff]);
        let port = self.on_port();
        self.send(encode(&parts(header, hops, relay, destination, context), &payload), port);
    }
}
