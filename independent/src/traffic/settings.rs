//! The calls without a packet, and packet calls that are refused.

use super::{parts, Port, Traffic};
use crate::engine::Call;
use crate::limits::{CLOCK_LIMIT, GREATEST_SIZE};
use crate::packet::{encode, Address};

impl Traffic {
    pub(super) fn port_setting(&mut self) {
        if self.random.one_in(3) {
            return self.refused_setting();
        }
        let port = self.random.below(16) as u8;
        let on = !self.random.one_in(4);
        let mode = self.random.below(3) as u8;
        let size = if self.random.one_in(6) { self.a_size() } else { GREATEST_SIZE };
        self.set(port, Port { on, mode, size });
    }

    fn refused_setting(&mut self) {
        let wide = [16, 17, 255, 256, 1 << 32, u64::MAX];
        let (mut port, mut mode, mut size) = (self.random.below(16) as u64, self.random.below(3) as u64, self.a_size() as u64);
        match self.random.below(4) {
            0 => port = self.random.pick(&wide),
            1 => mode = self.random.pick(&[3, 4, 255, 256, 1 << 32, u64::MAX]),
            _ => size = self.refused_size(),
        }
        self.queue.push_back(Call::SetPort { port, on: self.random.one_in(2), mode, size });
    }

    /// What should leave by a port that is off: by a path, a link and a return record; then on again.
    pub(super) fn port_off_and_on(&mut self) {
        let station = self.reachable();
        self.ensure_path(station);
        self.data_to(station);
        let port = if self.random.one_in(2) {
            self.world.stations[station].port
        } else {
            self.world.carried.front().map_or(0, |carried| carried.arrival)
        };
        self.turn(port, false);
        for _ in 0..3 {
            self.data_to(station);
            self.receipt();
            self.link_step();
            self.announce_newer();
        }
        self.turn(port, true);
        self.receipt();
    }

    pub(super) fn add_local(&mut self, address: Address) {
        if !self.world.locals.contains(&address) && self.world.locals.len() < 16 {
            self.world.locals.push(address);
        }
        self.queue.push_back(Call::AddLocal(address));
    }

    pub(super) fn remove_local(&mut self, address: Address) {
        self.world.locals.retain(|local| *local != address);
        self.queue.push_back(Call::RemoveLocal(address));
    }

    pub(super) fn local_calls(&mut self) {
        for _ in 0..1 + self.random.below(4) {
            let known = !self.world.locals.is_empty() && self.random.one_in(2);
            let address = if known { self.random.pick(&self.world.locals) } else { self.stray_address() };
            if self.random.one_in(2) {
                self.add_local(address);
            } else {
                self.remove_local(address);
            }
        }
    }

    /// Up to the seventeenth, one that is there already among them, and most of them gone again.
    pub(super) fn locals_full(&mut self) {
        while self.world.locals.len() < 16 {
            let address = self.random.array();
            self.add_local(address);
        }
        for _ in 0..4 {
            let address = self.random.pick(&self.world.locals);
            self.add_local(address);
            let address = self.random.array();
            self.add_local(address);
            self.data_local();
        }
        for _ in 0..14 {
            let address = self.random.pick(&self.world.locals);
            self.remove_local(address);
        }
    }

    /// Renumbers, and believes all ports renamed.
    pub(super) fn renumbering(&mut self) {
        let mut map = self.random.permutation();
        match self.random.below(6) {
            // not one-to-one on 0..15
            0 | 1 => {
                let place = self.random.below(16);
                map[place] = self.random.pick(&[map[(place + 1) % 16], 16, 17, 255]);
                self.queue.push_back(Call::Renumber(map));
                return;
            }
            2 => {
                map = std::array::from_fn(|port| port as u8);
                map.swap(self.random.below(16), self.random.below(16));
            }
            _ => {}
        }
        self.queue.push_back(Call::Renumber(map));
        self.rename(&map);
    }

    fn rename(&mut self, map: &[u8; 16]) {
        let image = |port: &mut u8| *port = map[usize::from(*port)];
        for (port, settings) in self.world.ports.into_iter().enumerate() {
            self.world.ports[usize::from(map[port])] = settings;
        }
        for station in &mut self.world.stations {
            image(&mut station.port);
            station.announce.iter_mut().for_each(|(_, port)| image(port));
        }
        for link in &mut self.world.links {
            image(&mut link.asking);
            image(&mut link.answering);
        }
        for carried in &mut self.world.carried {
            image(&mut carried.arrival);
            image(&mut carried.leaving);
        }
    }

    /// A packet call with one to three faults of its input.
    pub(super) fn refused_packet(&mut self) {
        let (header, length) = self.length_edge();
        let mut packet = encode(&parts(header, 0, self.world.own, self.world.own, 0), &self.random.bytes(500));
        packet.truncate(length);
        let port = self.on_port();
        let mut call = self.packet_call(packet, port, true);
        for _ in 0..1 + self.random.below(2) {
            match self.random.below(4) {
                0 => call.output = self.random.pick(&[0, 1, 19, 498, 499]),
                1 => call.port = self.random.pick(&[16, 17, 255, 256, 65_536, 1 << 32, u64::MAX]),
                2 => call.clock = self.random.pick(&[CLOCK_LIMIT, CLOCK_LIMIT + 1, CLOCK_LIMIT + 604_799, u64::MAX]),
                _ => call.clock = self.world.clock.saturating_sub(1 + self.random.below(3) as u64),
            }
            if self.random.one_in(2) {
                break;
            }
        }
        if self.random.one_in(3) {
            // the packet alone is at fault
            (call.output, call.port, call.clock) = (500, u64::from(port), self.world.clock);
        }
        if self.random.one_in(6) {
            call.port = self.off_port();
        }
        self.queue.push_back(Call::Packet(call));
    }

    fn off_port(&mut self) -> u64 {
        (0..16).filter(|port| !self.world.ports[*port as usize].on).max().unwrap_or(16)
    }

    /// A header, with and without the access code bit, and a length at an edge.
    fn length_edge(&mut self) -> (u8, usize) {
        let header = self.random.below(0x80) as u8;
        let code = if self.random.one_in(3) { 0x80 } else { 0 };
        let length = self.random.pick(&[0, 1, 2, 17, 18, 18, 19, 33, 34, 34, 35, 36, 499, 500, 501, 501, 502]);
        (header | code, length)
    }
}
