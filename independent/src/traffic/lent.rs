//! Tables as another caller might lend them: damaged, or unusual and yet allowed.

use super::Traffic;
use crate::engine::Call;
use crate::limits::{BLOB_LIMIT, LATEST};
use crate::packet::Address;
use crate::random::Random;
use crate::tables::{
    link, path, port, returned, set_key, set_time, Link, Path, Return, Table, BLOB, HASHES, HASH_PLACE, LAST_CLOCK, LINKS, LOCALS,
};
use crate::tables::{PATHS, PORTS, RETURNS, RETURN_PLACE, SIZE};

/// A place near the table's start, where traffic lies, or anywhere.
fn place(random: &mut Random, count: usize) -> usize {
    if random.one_in(2) {
        random.below(count.min(8))
    } else {
        random.below(count)
    }
}

fn start(random: &mut Random, table: &Table) -> usize {
    let place = place(random, table.records.count);
    table.records.range(place).start
}

/// Times around the greatest that is allowed, around now, and beyond all.
fn a_time(random: &mut Random, clock: u64) -> u64 {
    match random.below(6) {
        0 => LATEST + 1,
        1 => LATEST,
        2 => random.pick(&[u64::MAX, LATEST + 2, 1 << 40, 1 << 63]),
        _ => clock + random.pick(&[0, 1, 2, 300, 100_000]),
    }
}

impl Traffic {
    pub(super) fn write(&mut self, at: usize, bytes: impl Into<Vec<u8>>) {
        self.queue.push_back(Call::Write { at, bytes: bytes.into() });
    }

    /// Lends changed tables to a few calls, then the ones from before.
    pub(super) fn lent_tables(&mut self) {
        if !self.lent {
            return;
        }
        self.queue.push_back(Call::PutAside);
        for _ in 0..1 + self.random.below(2) {
            self.change();
        }
        for _ in 0..1 + self.random.below(5) {
            self.call_on_lent();
        }
        if self.random.one_in(2) {
            self.save_lent();
        }
        if self.random.one_in(6) {
            let size = self.random.pick(&[0, 1, 24, SIZE - 1, SIZE + 1, SIZE + 100]);
            self.queue.push_back(Call::Resize(size));
            self.call_on_lent();
            self.queue.push_back(Call::Fresh(self.world.own));
        }
        self.queue.push_back(Call::TakeBack);
    }

    /// Lends some fresh relays, whose address tells, a tally that is soon at its end.
    pub(super) fn lent_tally(&mut self) {
        let address = self.world.own;
        if self.lent && address[0] < 64 {
            self.queue.push_back(Call::Tally(std::array::from_fn(|counter| u32::MAX - u32::from(address[1 + counter] % 8))));
        }
    }

    pub(super) fn call_on_lent(&mut self) {
        match self.random.below(10) {
            0..=2 => self.setting_on_lent(),
            3 => self.data_by_path(),
            4 => self.link_step(),
            5 => self.receipt(),
            6 => self.announce_replay(),
            7 => self.announce_stale(),
            8 => self.announce_newer(),
            _ => self.refused_packet(),
        }
    }

    /// Not the episodes of these calls: what they change would be believed after the tables of before are back.
    fn setting_on_lent(&mut self) {
        let call = match self.random.below(8) {
            0 => {
                let (port, mode) = (self.random.below(17) as u64, self.random.below(4) as u64);
                Call::SetPort { port, on: self.random.one_in(2), mode, size: self.random.pick(&[18, 19, 255, 500, 500, 501]) }
            }
            1 => Call::AddLocal(self.stray_address()),
            2 => Call::RemoveLocal(self.stray_address()),
            3 | 4 => Call::SetAnnounceRate(self.a_rate()),
            5 | 6 => Call::Mark { destination: self.stray_address(), clock: self.world.clock },
            _ => Call::Renumber(self.random.permutation()),
        };
        self.queue.push_back(call);
    }

    fn change(&mut self) {
        match self.random.below(12) {
            0..=5 => self.change_one(),
            6 | 7 => self.lend_path(),
            8 => self.lend_link(),
            9 => self.lend_return(),
            10 => self.lend_local(),
            _ => self.copy_record(),
        }
    }

    /// Writes into one place.
    pub(super) fn change_one(&mut self) {
        match self.random.below(7) {
            0 => self.change_byte(),
            1 => self.change_ports(),
            2 => self.change_clock(),
            3 => self.change_rings(),
            4 => self.change_field(),
            5 => self.change_rate(),
            _ => self.change_marks(),
        }
    }

    pub(super) fn change_byte(&mut self) {
        let at = self.random.below(SIZE);
        let byte = self.random.pick(&[0, 1, 2, 15, 16, 255]);
        self.write(at, [byte]);
    }

    fn change_ports(&mut self) {
        let at = PORTS.range(self.random.below(16)).start;
        match self.random.below(4) {
            0 => {
                let on = self.random.pick(&[0, 1, 2, 255]);
                self.write(at + port::ON, [on]);
            }
            1 => {
                let mode = self.random.pick(&[2, 3, 4, 255]);
                self.write(at + port::MODE, [mode]);
            }
            _ => {
                let size: u16 = self.random.pick(&[0, 18, 19, 20, 255, 256, 499, 500, 501, u16::MAX]);
                self.write(at + port::SIZE, size.to_be_bytes());
            }
        }
    }

    fn change_clock(&mut self) {
        let time = a_time(&mut self.random, self.world.clock);
        self.write(LAST_CLOCK, time.to_be_bytes());
    }

    fn change_rings(&mut self) {
        if self.random.one_in(2) {
            let place: u16 = self.random.pick(&[0, 511, 511, 512, 513, 1_023, 65_535]);
            self.write(RETURN_PLACE, place.to_be_bytes());
        } else {
            let place: u16 = self.random.pick(&[0, 511, 1_023, 1_023, 1_024, 1_025, 65_535]);
            self.write(HASH_PLACE, place.to_be_bytes());
        }
    }

    /// A stored port, count, mark or time of a record, used or not.
    fn change_field(&mut self) {
        let small = self.random.pick(&[0, 1, 2, 15, 16, 17, 255]);
        let time = a_time(&mut self.random, self.world.clock).to_be_bytes();
        let random = &mut self.random;
        let (at, bytes) = match random.below(16) {
            0 => (start(random, &PATHS) + path::PORT, vec![small]),
            1 => (start(random, &PATHS) + path::BLOB_COUNT, vec![random.pick(&[0, 1, 2, 16, 17, 63, 64, 65, 255])]),
            2 => (start(random, &PATHS) + path::HOPS, vec![small]),
            3 => (start(random, &PATHS) + path::EXPIRY, time.to_vec()),
            4 => (start(random, &LINKS) + link::ASKING, vec![small]),
            5 => (start(random, &LINKS) + link::ANSWERING, vec![small]),
            6 => (start(random, &LINKS) + link::PROVED, vec![small]),
            7 => (start(random, &LINKS) + link::EXPIRY, time.to_vec()),
            8 => (start(random, &RETURNS) + returned::ARRIVAL, vec![small]),
            9 => (start(random, &RETURNS) + returned::LEAVING, vec![small]),
            10 => (start(random, &RETURNS) + returned::EXPIRY, time.to_vec()),
            11 => (start(random, &PATHS) + path::LAST_ANNOUNCE, time.to_vec()),
            12 => (start(random, &PATHS) + path::VIOLATIONS, vec![small]),
            13 => (start(random, &PATHS) + path::BLOCKED_UNTIL, time.to_vec()),
            14 => (start(random, &PATHS) + path::UNRESPONSIVE, vec![small]),
            _ => (start(random, &HASHES) + HASHES.expiry, time.to_vec()),
        };
        self.write(at, bytes);
    }

    fn change_marks(&mut self) {
        let mark = self.random.pick(&[0, 1, 2, 3, 255]);
        let random = &mut self.random;
        let at = match random.below(5) {
            0 => LOCALS.range(place(random, LOCALS.count)).start,
            1 => start(random, &PATHS),
            2 => start(random, &LINKS),
            3 => start(random, &RETURNS),
            _ => start(random, &HASHES),
        };
        self.write(at, [mark]);
    }

    /// A path to a station, and what may go by it.
    fn lend_path(&mut self) {
        let number = self.reachable();
        let record = self.path_record(number);
        let at = start(&mut self.random, &PATHS);
        self.write(at, record);
        self.data_to(number);
        self.replay_of(number);
        self.replay_of(number);
        self.stale_of(number);
    }

    /// A path to a station at the table's start, so that it counts, live for a while.
    pub(super) fn lend_rated_path(&mut self, number: usize) {
        let mut record = self.path_record(number);
        set_time(&mut record, path::EXPIRY, self.world.clock + 50_000);
        (record[path::PORT], record[path::BLOB_COUNT]) = (record[path::PORT] % 16, record[path::BLOB_COUNT].clamp(1, BLOB_LIMIT as u8));
        self.write(PATHS.records.start, record);
    }

    /// The same at a place near the start, marked or not, or neither.
    pub(super) fn lend_marked_path(&mut self, number: usize, place: usize) {
        self.lend_rated_path(number);
        let Some(Call::Write { bytes: mut record, .. }) = self.queue.pop_back() else { return };
        record[path::UNRESPONSIVE] = self.random.pick(&[0, 0, 0, 1, 1, 1, 1, 1, 1, 2]);
        self.write(PATHS.records.range(place).start, record);
    }

    /// A second one perhaps, with hops over 127, any blob count, any rate entry, and spare places that hold blobs it sent.
    fn path_record(&mut self, number: usize) -> Vec<u8> {
        let most = BLOB_LIMIT as u8;
        let count = self.random.pick(&[0, 1, 1, 1, 2, 2, 3, most - 1, most, most, most + 1]);
        let lasting = self.world.clock + 50_000;
        let expiry = if self.random.one_in(2) { lasting } else { a_time(&mut self.random, self.world.clock) };
        let station = &self.world.stations[number];
        let mut record = vec![0; path::WIDTH];
        let port = self.random.pick(&[0, 1, 2, 3, 7, 14, 15, 15, 16]);
        let hops = self.random.pick(&[0, 1, 5, 127, 128, 255]);
        Path { destination: station.address, port, hops, next_hop: self.random.array(), expiry }.write(&mut record);
        record[path::BLOB_COUNT] = count;
        for (back, place) in record[path::BLOBS..].chunks_exact_mut(BLOB).enumerate() {
            let sent = station.blobs.iter().rev().nth(back);
            place.copy_from_slice(&sent.copied().unwrap_or([self.random.pick(&[0, 0, 7]); BLOB]));
        }
        self.lent_rate().write(&mut record);
        record[path::UNRESPONSIVE] = u8::from(self.random.one_in(4));
        record
    }

    /// A link of before again: proved or not, perhaps beside the first.
    fn lend_link(&mut self) {
        let Some(link) = self.world.links.front().cloned() else { return };
        let mut record = vec![0; link::WIDTH];
        let taken = self.random.pick(&[link.taken, 3, 255]);
        let proved = self.random.pick(&[0, 0, 1, 1, 2]);
        let expiry = a_time(&mut self.random, self.world.clock);
        let super::Link { id, asking, answering, remaining, .. } = link;
        Link { id, asking, answering, taken, remaining, proved: false, expiry }.write(&mut record);
        record[link::PROVED] = proved;
        let at = start(&mut self.random, &LINKS);
        self.write(at, record);
        for _ in 0..3 {
            self.link_step();
        }
    }

    fn lend_return(&mut self) {
        let Some(carried) = self.world.carried.front().cloned() else { return };
        let mut record = vec![0; returned::WIDTH];
        let leaving = self.random.pick(&[carried.leaving, 0, 15, 16]);
        let expiry = a_time(&mut self.random, self.world.clock);
        Return { key: carried.key, arrival: carried.arrival, leaving, expiry }.write(&mut record);
        let at = start(&mut self.random, &RETURNS);
        self.write(at, record);
        self.receipt();
    }

    /// A local address twice, or in a higher place.
    fn lend_local(&mut self) {
        let address: Address = self.stray_address();
        for _ in 0..1 + self.random.below(2) {
            let mut record = vec![0; LOCALS.width];
            set_key(&mut record, &address);
            let at = LOCALS.range(self.random.below(16)).start;
            self.write(at, record);
        }
        self.queue.push_back(Call::RemoveLocal(address));
        self.queue.push_back(Call::AddLocal(address));
    }

    /// A record once more in another place of its table.
    fn copy_record(&mut self) {
        let table = self.random.pick(&[&PATHS, &LINKS, &RETURNS, &HASHES]);
        let from = start(&mut self.random, table);
        let to = start(&mut self.random, table);
        self.queue.push_back(Call::Copy { from, to, length: table.records.width });
        self.data_again();
    }
}
