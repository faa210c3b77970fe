//! Wish 5: stations that announce too often, about the target, the grace and the end of a block; and settings that are refused.

use super::Traffic;
use crate::engine::Call;
use crate::limits::{GRACE_LIMIT, LATEST_ANNOUNCE, LATEST_BLOCK, PENALTY_LIMIT, TARGET_LIMIT};
use crate::relay::rate::rate_rule;
use crate::rules::AsWritten;
use crate::tables::{rate, AnnounceRate, RateEntry, RATE};

pub const OFF: AnnounceRate = AnnounceRate { target: 0, grace: 0, penalty: 0 };

impl Traffic {
    /// Settings that are allowed: short times mostly.
    pub(super) fn a_rate(&mut self) -> AnnounceRate {
        AnnounceRate {
            target: self.random.pick(&[0, 1, 2, 5, 5, 60, 60, 300, 4_000, TARGET_LIMIT]),
            grace: self.random.pick(&[0, 0, 1, 1, 2, 3, GRACE_LIMIT]),
            penalty: self.random.pick(&[0, 1, 1, 10, 10, 600, 3_000, PENALTY_LIMIT]),
        }
    }

    pub(super) fn set_rate(&mut self, rate: AnnounceRate) {
        self.world.rate = rate;
        self.queue.push_back(Call::SetAnnounceRate(rate));
    }

    /// Settings of which some are over their limits, by one or by much.
    pub(super) fn refused_rate(&mut self) {
        let mut rate = self.a_rate();
        for _ in 0..1 + self.random.below(2) {
            let (number, limit) = match self.random.below(3) {
                0 => (&mut rate.target, TARGET_LIMIT),
                1 => (&mut rate.grace, GRACE_LIMIT),
                _ => (&mut rate.penalty, PENALTY_LIMIT),
            };
            *number = self.random.pick(&[limit + 1, limit + 1, limit + 2, 1 << 32, (1 << 32) + *number, u64::MAX]);
        }
        self.queue.push_back(Call::SetAnnounceRate(rate));
    }

    /// Does test 15 let an announce of a station by? What it leaves is believed.
    pub(super) fn passes_rate(&mut self, station: usize) -> bool {
        let (clock, rate) = (self.world.clock, self.world.rate);
        let station = &mut self.world.stations[station];
        let live = clock < station.expiry;
        let left = match (live, station.marked) {
            (true, true) => Ok(station.rate),
            (true, false) => rate_rule(&AsWritten, clock, &rate, station.rate),
            (false, _) => Ok(RateEntry::default()),
        };
        station.rate = left.map_or_else(|dropped| dropped, |entry| RateEntry { last: clock, ..entry });
        station.marked &= left.is_err();
        left.is_ok()
    }

    /// Seconds until an edge of the rule for a station, or a few.
    fn until_edge(&mut self, station: usize) -> u64 {
        let RateEntry { last, blocked_until, .. } = self.world.stations[station].rate;
        let target = last + self.world.rate.target;
        let now = self.world.clock;
        let edges =
            [now, now, now + 1, target, target, target.saturating_sub(1), blocked_until, blocked_until, blocked_until.saturating_sub(1)];
        self.random.pick(&edges).saturating_sub(now)
    }

    /// Announces of one station, each of which may be too early; other settings in between, and in the end mostly none.
    pub(super) fn chatter(&mut self) {
        let rate = self.a_rate();
        self.set_rate(rate);
        let station = self.reachable();
        self.ensure_path(station);
        for _ in 0..3 + self.random.below(10) {
            let seconds = self.until_edge(station);
            self.pass(seconds.min(20_000));
            match self.random.below(12) {
                0 => self.stale_of(station),
                1 => self.replay_of(station),
                2 => {
                    let rate = self.a_rate();
                    self.set_rate(rate);
                }
                3 => self.refused_rate(),
                _ => self.announce_of(station),
            }
        }
        if !self.random.one_in(8) {
            self.set_rate(OFF);
        }
    }

    /// An entry about the edges of its clock and the settings, and of what is allowed.
    pub(super) fn lent_rate(&mut self) -> RateEntry {
        let (now, AnnounceRate { target, grace, .. }) = (self.world.clock, self.world.rate);
        let before = now.saturating_sub(target);
        let last = self.random.pick(&[now, now, before, before + 1, now + 1, now + 50_000, LATEST_ANNOUNCE, 0]);
        let end = self.random.pick(&[0, 0, 0, now, now, now + 1, now.saturating_sub(1), LATEST_BLOCK, now + 100]);
        let grace = grace as u8;
        let violations = self.random.pick(&[0, 1, grace.saturating_sub(1), grace, grace.saturating_add(1), 254, 255, 255]);
        let unallowed = self.random.below(40);
        RateEntry {
            last: if unallowed == 0 { LATEST_ANNOUNCE + 1 } else { last.min(LATEST_ANNOUNCE) },
            violations,
            blocked_until: if unallowed == 1 { LATEST_BLOCK + 1 } else { end },
        }
    }

    /// The same over lent tables, with entries that no fresh relay comes to.
    pub(super) fn lent_chatter(&mut self) {
        if !self.lent {
            return;
        }
        self.queue.push_back(Call::PutAside);
        let before = self.world.rate;
        let mut rate = self.a_rate();
        if self.random.one_in(3) {
            rate.target = 0;
        }
        self.set_rate(rate);
        let station = self.reachable();
        let entry = self.world.stations[station].rate;
        for _ in 0..2 + self.random.below(4) {
            self.lend_rated_path(station);
            for _ in 0..1 + self.random.below(2) {
                self.announce_of(station);
            }
        }
        self.queue.push_back(Call::TakeBack);
        self.world.rate = before;
        self.world.stations[station].rate = entry;
    }

    /// A setting at its limit, or over it.
    pub(super) fn change_rate(&mut self) {
        let (at, limit) = self.random.pick(&[(rate::TARGET, TARGET_LIMIT), (rate::GRACE, GRACE_LIMIT), (rate::PENALTY, PENALTY_LIMIT)]);
        let number = self.random.pick(&[0, 1, limit, limit + 1, u64::from(u32::MAX)]) as u32;
        self.write(RATE.start + at, number.to_be_bytes());
    }
}
