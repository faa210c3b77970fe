//! Links: asked for, proved and used from both sides, rightly and wrongly.

use super::{keep, parts, Link, Traffic};
use crate::packet::{encode, hash, Parts};
use crate::rules::AsWritten;

impl Traffic {
    /// A link request to a station, of 64 or more bytes.
    pub(super) fn request_for(&mut self, station: usize) -> (Parts, Vec<u8>) {
        let destination = self.world.stations[station].address;
        let header = 0x42 | self.random.pick(&[0, 0, 0, 4, 8]) | self.random.pick(&[0, 0x10, 0x30]);
        let hops = self.hops();
        let length = self.random.pick(&[64, 67, 67, 80]);
        (parts(header, hops, self.world.own, destination, 0), self.random.bytes(length))
    }

    pub(super) fn ask(&mut self, station: usize) -> Link {
        let request = self.request_for(station);
        let (parts, payload) = &request;
        let id = hash::link_id(&AsWritten, &self.sha, parts, payload);
        let bytes = encode(parts, payload);
        let taken = parts.hops;
        let asking = self.on_port();
        let station = &self.world.stations[station];
        let link = Link { id, request, asking, answering: station.port, taken, remaining: station.hops };
        self.send(bytes, asking);
        keep(&mut self.world.links, link.clone());
        link
    }

    /// A packet of kind link.
    pub(super) fn over_link(&mut self, link: &Link, kind: u8, hops: u8, port: u8, (context, length): (u8, usize), signature: bool) {
        let header = 12 | kind | self.random.pick(&[0, 0, 0x10, 0x20]);
        let payload = self.random.bytes(length);
        self.send_signed(encode(&parts(header, hops, [0; 16], link.id, context), &payload), port, signature);
    }

    /// A link proof from the right side.
    pub(super) fn prove_link(&mut self, link: &Link) {
        let length = self.random.pick(&[96, 99]);
        self.over_link(link, 3, link.remaining, link.answering, (0xff, length), true);
    }

    /// A link proof that is wrong in one way, or comes from the asking side.
    fn prove_link_wrongly(&mut self, link: &Link) {
        let other = self.other_port(link.answering);
        let signature = !self.random.one_in(3);
        match self.random.below(6) {
            0 => self.over_link(link, 3, link.remaining, link.answering, (0xff, 99), false),
            1 => self.over_link(link, 3, link.remaining, other, (0xff, 96), signature),
            2 => self.over_link(link, 3, link.taken, link.asking, (0xff, 99), signature),
            3 => {
                let length = self.random.pick(&[0, 95, 97, 98, 100]);
                self.over_link(link, 3, link.remaining, link.answering, (0xff, length), true);
            }
            4 => self.over_link(link, 3, link.remaining, link.answering, (0xfd, 64), true),
            _ => {
                let hops = link.remaining.wrapping_add(self.random.pick(&[1, 255]));
                self.over_link(link, 3, hops, link.answering, (0xff, 99), signature);
            }
        }
    }

    /// Data, or a proof that isn't a link proof, from one side with hops right or wrong by one.
    fn use_link(&mut self, link: &Link) {
        let kind = self.random.pick(&[0, 0, 0, 3]);
        let (hops, port) = match self.random.below(6) {
            0 => (link.taken, link.answering),
            1 => (link.remaining, link.asking),
            2 | 3 => (link.taken, link.asking),
            _ => (link.remaining, link.answering),
        };
        let hops = if self.random.one_in(5) { hops.wrapping_add(self.random.pick(&[1, 255])) } else { hops };
        let port = if self.random.one_in(10) { self.on_port() } else { port };
        let context = self.random.pick(&[0, 1, 0x0e, 0xfa, 0xfc]);
        let length = self.random.pick(&[0, 1, 30, 481]);
        let signature = self.random.one_in(2);
        self.over_link(link, kind, hops, port, (context, length), signature);
    }

    /// One side's port off while the other side sends.
    fn close_to_link(&mut self, link: &Link) {
        if link.asking == link.answering {
            return;
        }
        let port = self.random.pick(&[link.asking, link.answering]);
        self.turn(port, false);
        if port == link.asking {
            self.prove_link(link);
            self.over_link(link, 0, link.remaining, link.answering, (0, 20), true);
        } else {
            self.over_link(link, 0, link.taken, link.asking, (0, 20), true);
        }
        self.turn(port, true);
    }

    /// The same link asked for again by another packet: the id covers 64 bytes alone.
    fn ask_again(&mut self, link: &Link) {
        let (mut parts, mut payload) = link.request.clone();
        payload.truncate(64);
        let more = self.random.pick(&[0, 3, 3, 5]);
        payload.extend(self.random.bytes(more));
        parts.hops = self.hops();
        let port = self.on_port();
        self.send(encode(&parts, &payload), port);
    }

    pub(super) fn link_life(&mut self) {
        let station = self.reachable();
        self.ensure_path(station);
        let link = self.ask(station);
        for _ in 0..self.random.below(3) {
            match self.random.below(3) {
                0 => self.use_link(&link),
                1 => self.ask_again(&link),
                _ => self.prove_link_wrongly(&link),
            }
        }
        if self.random.one_in(4) {
            self.close_to_link(&link);
        }
        self.prove_link(&link);
        for _ in 0..2 + self.random.below(5) {
            let seconds = self.random.pick(&[0, 0, 0, 1, 60]);
            self.pass(seconds);
            self.use_link(&link);
        }
        if self.random.one_in(4) {
            self.close_to_link(&link);
        }
        if self.random.one_in(2) {
            self.ask_again(&link);
        }
        if self.random.one_in(2) {
            self.prove_link(&link);
            self.prove_link_wrongly(&link);
        }
    }

    /// One packet more over a link of before.
    pub(super) fn link_step(&mut self) {
        if self.world.links.is_empty() {
            return self.link_life();
        }
        let back = self.random.below(self.world.links.len().min(20));
        let link = self.world.links[back].clone();
        match self.random.below(8) {
            0 => self.prove_link(&link),
            1 => self.prove_link_wrongly(&link),
            2 => self.ask_again(&link),
            _ => self.use_link(&link),
        }
    }

    /// A link at the last second of its life, and after it, before and after it is proved.
    pub(super) fn link_edge(&mut self) {
        let station = self.station();
        self.ensure_path(station);
        let link = self.ask(station);
        let unproved = 6 * (u64::from(link.remaining) + 1);
        let early = u64::from(self.random.one_in(2));
        self.pass(unproved - early);
        self.ask_again(&link);
        self.prove_link(&link);
        for _ in 0..self.random.below(3) {
            let seconds = self.random.pick(&[300, 719, 719, 720]);
            self.pass(seconds);
            self.use_link(&link);
        }
        if self.random.one_in(2) {
            self.ask_again(&link);
        }
    }

    pub(super) fn link_malformed(&mut self) {
        let station = self.reachable();
        let (mut parts, mut payload) = self.request_for(station);
        match self.random.below(3) {
            0 => payload.truncate(self.random.pick(&[0, 32, 63])),
            1 => parts.header.0 |= 12,
            _ => parts.header.0 &= 0x3f,
        }
        let port = self.on_port();
        self.send(encode(&parts, &payload), port);
    }

    /// More links than there is room for, the path's port off for some.
    pub(super) fn link_flood(&mut self) {
        let station = self.reachable();
        self.ensure_path(station);
        for _ in 0..40 + self.random.below(50) {
            let link = self.ask(station);
            if self.random.one_in(2) {
                self.prove_link(&link);
            }
        }
        let port = self.world.stations[station].port;
        self.turn(port, false);
        for _ in 0..3 {
            self.ask(station);
        }
        self.turn(port, true);
        // of short-lived ones some slots expire among others that don't
        let seconds = self.random.pick(&[7, 40, 300, 721]);
        self.pass(seconds);
        for _ in 0..10 {
            self.ask(station);
        }
    }
}
