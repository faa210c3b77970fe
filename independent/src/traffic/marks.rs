//! Wish 6: paths that the host marks unresponsive, and announces for them: the same bytes again, equal blobs, older and newer ones, forged ones.

use super::Traffic;
use crate::engine::Call;
use crate::limits::CLOCK_LIMIT;
use crate::packet::Address;

impl Traffic {
    fn mark(&mut self, destination: Address, clock: u64) {
        self.queue.push_back(Call::Mark { destination, clock });
    }

    /// Marks a station's path, which should be live, and believes so.
    fn mark_station(&mut self, station: usize) {
        self.ensure_path(station);
        self.mark(self.world.stations[station].address, self.world.clock);
        if self.world.clock < self.world.stations[station].expiry {
            self.world.stations[station].marked = true;
        }
    }

    /// A path is marked, sometimes twice, and announces for it come; then it is marked again.
    pub(super) fn dead_path(&mut self) {
        let station = self.reachable();
        if self.random.one_in(3) {
            let rate = self.a_rate();
            self.set_rate(rate);
        }
        for _ in 0..2 + self.random.below(3) {
            self.mark_station(station);
            if self.random.one_in(6) {
                self.mark_station(station);
            }
            for _ in 0..1 + self.random.below(3) {
                let seconds = self.random.pick(&[0, 0, 1, 30, 299, 300]);
                self.pass(seconds);
                self.announce_for_marked(station);
            }
        }
        if !self.random.one_in(8) {
            self.set_rate(super::rates::OFF);
        }
    }

    fn announce_for_marked(&mut self, station: usize) {
        match self.random.below(18) {
            0 | 1 => self.same_announce(station),
            2 | 3 => self.replay_newest(station),
            4 => self.replay_of(station),
            5..=7 => self.stale_of(station),
            8..=11 => self.forged_twice(station),
            12 | 13 => {
                let address = self.world.stations[station].address;
                self.add_local(address);
                self.same_announce(station);
                self.remove_local(address);
            }
            14 => {
                self.data_to(station);
                let again = self.world.sent[0].clone();
                let port = self.on_port();
                self.send(again, port);
            }
            15 => self.announce_long_of(station),
            _ => self.announce_of(station),
        }
    }

    /// A mark of a path that isn't live, or at a clock that is refused.
    pub(super) fn refused_mark(&mut self) {
        let station = self.station();
        let (address, clock) = (self.world.stations[station].address, self.world.clock);
        let (destination, clock) = match self.random.below(5) {
            0 => (address, clock.saturating_sub(1 + self.random.below(3) as u64)),
            1 => (address, self.random.pick(&[CLOCK_LIMIT, CLOCK_LIMIT, CLOCK_LIMIT + 1, u64::MAX])),
            2 => (self.stray_address(), clock),
            _ => (self.random.array(), clock),
        };
        self.mark(destination, clock);
    }

    /// A path is marked in the last second of its life, expires, and comes anew.
    pub(super) fn mark_edge(&mut self) {
        let station = self.station();
        let port = self.on_port();
        self.set_port(port, true, 2);
        self.announce_by(station, port);
        let Some(left) = self.world.stations[station].expiry.checked_sub(self.world.clock + 1) else { return };
        self.pass(left);
        self.mark_station(station);
        if self.random.one_in(2) {
            self.same_announce(station);
        }
        self.pass(1);
        self.mark(self.world.stations[station].address, self.world.clock);
        self.same_announce(station);
        self.announce_of(station);
        self.replay_newest(station);
    }

    /// Two live records of a destination, marked or not: the lower counts.
    pub(super) fn lent_marks(&mut self) {
        if !self.lent {
            return;
        }
        let station = self.reachable();
        let (address, before) = (self.world.stations[station].address, self.world.stations[station].clone());
        self.queue.push_back(Call::PutAside);
        for place in [0, 1 + self.random.below(3)] {
            self.lend_marked_path(station, place);
        }
        self.announce_for_marked(station);
        self.mark(address, self.world.clock);
        self.same_announce(station);
        self.announce_for_marked(station);
        self.queue.push_back(Call::TakeBack);
        self.world.stations[station] = before;
    }
}
