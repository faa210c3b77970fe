//! Questions among calls: at places within and outside each table, and at the clocks where records that packets leave expire.

use crate::engine::{Call, PacketCall};
use crate::limits::{ACCESS_POINT_LIFETIME, BOUNDARY_LIFETIME, HASH_LIFETIME, LONGEST, RETURN_LIFETIME, ROAMING_LIFETIME};
use crate::packet::{self, Address};
use crate::random::Random;
use crate::relay::asking::{Question, KINDS};
use crate::rules::AsWritten;
use std::collections::VecDeque;

/// Calls, and questions that a seed fixes among them. The calls stay as they are.
pub struct Asking<I> {
    calls: I,
    random: Random,
    queue: VecDeque<Call>,
    /// The last packet calls, newest first.
    packets: VecDeque<PacketCall>,
}

/// A question follows once in so many calls.
const RARITY: usize = 6;
/// So many packet calls are kept in mind.
const KEPT: usize = 60;

impl<I: Iterator<Item = Call>> Asking<I> {
    pub fn new(seed: u64, calls: I) -> Self {
        Self { calls, random: Random::new(!seed), queue: VecDeque::new(), packets: VecDeque::new() }
    }

    /// A call, and questions before and behind it. Changed tables are asked everything: some of them are refused.
    fn surround(&mut self, call: Call) {
        if let Call::Packet(packet) = &call {
            super::keep(&mut self.packets, packet.clone());
            self.packets.truncate(KEPT);
            if self.random.one_in(2) {
                self.matters(0);
            }
        }
        let changes = matches!(call, Call::Write { .. } | Call::Copy { .. } | Call::Resize(_) | Call::Load);
        self.queue.push_back(call);
        if changes && self.random.one_in(2) {
            (0..KINDS.len()).for_each(|kind| self.ask(kind));
            self.matters(0);
        } else if self.random.one_in(RARITY) {
            let kind = self.random.below(KINDS.len() + 1);
            if kind < KINDS.len() {
                self.ask(kind);
            } else {
                let back = self.random.below(4);
                self.matters(back);
            }
        }
    }

    /// Does the word of one of the last packet calls matter? Mostly just as it was made, or with another clock, port or room, or another packet.
    fn matters(&mut self, back: usize) {
        let Some(call) = self.packets.get(back).cloned() else { return };
        let PacketCall { mut packet, mut port, mut clock, output: mut room, .. } = call;
        match self.random.below(16) {
            0 => room = self.random.pick(&[0, 499, 500, 501, usize::MAX]),
            1 => port = self.random.pick(&[0, 1, 15, 16, 256, u64::MAX]),
            2 => {
                clock = self.random.pick(&[clock.saturating_sub(1), clock.saturating_add(1), clock.saturating_add(HASH_LIFETIME), u64::MAX])
            }
            3 => packet.resize(self.random.pick(&[0, 18, 34, 501, 502]), 0),
            4 => packet.iter_mut().take(1).for_each(|header| *header |= 0x80),
            _ => {}
        }
        self.queue.push_back(Call::Matters { packet, port, clock, room });
    }

    fn ask(&mut self, kind: usize) {
        let question = match kind {
            0 => Question::Port(self.place(16)),
            1 => Question::Local(self.place(16)),
            2 => Question::Path(self.place(64)),
            3 => Question::Link(self.place(64)),
            4 => self.live_path(),
            5 => Question::LiveReturns(self.clock(&[RETURN_LIFETIME])),
            6 => Question::LiveHashes(self.clock(&[HASH_LIFETIME])),
            7 => Question::LastClock,
            _ => Question::AnnounceRate,
        };
        let fill = self.random.word() as u8;
        self.queue.push_back(Call::Ask { question, fill });
    }

    /// A place near the table's start, where traffic lies, or anywhere, or outside.
    fn place(&mut self, count: usize) -> u64 {
        match self.random.below(6) {
            0 => self.random.pick(&[count as u64, count as u64 + 1, 255, 256, 257, 65_536, 1 << 32, u64::MAX]),
            1 => self.random.below(count) as u64,
            2 => count as u64 - 1,
            _ => self.random.below(count.min(6)) as u64,
        }
    }

    /// About now, or about the time when what a packet of before left expires, or any time.
    fn clock(&mut self, lifetimes: &[u64]) -> u64 {
        let back = self.random.below(KEPT);
        let left = self.packets.get(back).or(self.packets.front()).map_or(0, |packet| packet.clock);
        self.clock_of(left, lifetimes)
    }

    fn clock_of(&mut self, left: u64, lifetimes: &[u64]) -> u64 {
        let now = self.packets.front().map_or(0, |packet| packet.clock);
        match self.random.below(8) {
            0 => self.random.pick(&[0, 1, 1 << 40, u64::MAX]),
            1 => now,
            2 => left,
            3 => now.saturating_sub(1 + self.random.below(500) as u64),
            _ => left.saturating_add(self.random.pick(lifetimes)).saturating_sub(1).saturating_add(self.random.below(3) as u64),
        }
    }

    /// Mostly that of somebody who announced.
    fn live_path(&mut self) -> Question {
        let lifetimes = [BOUNDARY_LIFETIME, ACCESS_POINT_LIFETIME, ROAMING_LIFETIME];
        let announces: Vec<(Address, u64)> = self.packets.iter().filter_map(announced).collect();
        if announces.is_empty() || self.random.one_in(8) {
            return Question::LivePath { destination: self.random.array(), clock: self.clock(&lifetimes) };
        }
        let (destination, left) = self.random.pick(&announces);
        Question::LivePath { destination, clock: self.clock_of(left, &lifetimes) }
    }
}

/// The destination of an announce, and when it came.
fn announced(call: &PacketCall) -> Option<(Address, u64)> {
    let parts = packet::read(&AsWritten, &call.packet, LONGEST).ok()?;
    parts.header.is_announce().then_some((parts.destination, call.clock))
}

impl<I: Iterator<Item = Call>> Iterator for Asking<I> {
    type Item = Call;

    fn next(&mut self) -> Option<Call> {
        if self.queue.is_empty() {
            let call = self.calls.next()?;
            self.surround(call);
        }
        self.queue.pop_front()
    }
}
