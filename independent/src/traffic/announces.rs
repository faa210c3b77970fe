//! Announces: newer and older, replayed, malformed, too long, in crowds.

use super::{parts, Traffic};
use crate::limits::BLOB_LIMIT;
use crate::packet::{encode, Blob, START_2};

/// An announce of a station, and where it comes in.
struct Draft {
    station: usize,
    blob: Blob,
    hops: u8,
    port: u8,
    type_2: bool,
    ratchet: bool,
    context: u8,
    app_data: usize,
}

pub(super) fn blob(random: [u8; 5], emission: u64) -> Blob {
    let time = emission.to_be_bytes();
    std::array::from_fn(|i| if i < 5 { random[i] } else { time[i - 2] })
}

impl Traffic {
    fn draft(&mut self, station: usize, emission: u64) -> Draft {
        let random = self.random.array();
        Draft {
            station,
            blob: blob(random, emission),
            hops: self.hops(),
            port: self.on_port(),
            type_2: self.random.one_in(2),
            ratchet: self.random.one_in(3),
            context: self.random.pick(&[0, 0, 0, 1, 0x0b]),
            app_data: self.random.below(40),
        }
    }

    /// The header, relay address and payload bytes of a draft.
    fn announce_bytes(&mut self, draft: &Draft) -> Vec<u8> {
        let station = &self.world.stations[draft.station];
        let mut payload = Vec::new();
        payload.extend(station.keys);
        payload.extend(station.name_hash);
        payload.extend(draft.blob);
        let destination = station.address;
        let rest = if draft.ratchet { 96 } else { 64 } + draft.app_data;
        payload.extend(self.random.bytes(rest));
        let flag = if draft.ratchet { 0x20 } else { 0 };
        let transport = if self.random.one_in(2) { 0x10 } else { 0 };
        let kind = if draft.type_2 { 0x40 } else { 0 };
        let relay = if self.random.one_in(4) { self.world.own } else { self.random.array() };
        encode(&parts(kind | flag | transport | 1, draft.hops, relay, destination, draft.context), &payload)
    }

    fn send_draft(&mut self, draft: &Draft, signature: bool) {
        let bytes = self.announce_bytes(draft);
        self.world.stations[draft.station].announce = Some((bytes.clone(), draft.port));
        self.send_signed(bytes, draft.port, signature);
    }

    /// The very bytes of a station's last announce.
    pub(super) fn same_announce(&mut self, station: usize) {
        let Some((bytes, port)) = self.world.stations[station].announce.clone() else { return self.announce_of(station) };
        let port = if self.random.one_in(4) { self.other_port(port) } else { port };
        self.send(bytes, port);
    }

    /// The newest blob in another announce, with any hops.
    pub(super) fn replay_newest(&mut self, station: usize) {
        let Some(newest) = self.world.stations[station].blobs.last().copied() else { return self.announce_of(station) };
        let mut draft = self.draft(station, 0);
        draft.blob = newest;
        self.send_draft(&draft, true);
    }

    /// A blob in some announce, with hops as stored or more, or with fewer.
    pub(super) fn announce_blob(&mut self, station: usize, blob: Blob, fewer: bool) {
        let mut draft = self.draft(station, 0);
        let stored = self.world.stations[station].hops;
        (draft.blob, draft.hops) = (blob, if fewer { stored.saturating_sub(1) } else { stored + self.random.pick(&[0, 0, 1]) });
        self.send_draft(&draft, true);
    }

    /// An announce that is too short, or of other keys, or not of kind single, or from too far, or unsigned, and the same once more.
    pub(super) fn forged_twice(&mut self, station: usize) {
        let draft = self.newer(station);
        let mut bytes = self.announce_bytes(&draft);
        let start = if draft.type_2 { 35 } else { 19 };
        let signature = match self.random.below(5) {
            0 => {
                bytes.truncate(start + self.random.below(148));
                true
            }
            1 => {
                bytes[start] ^= 1;
                true
            }
            2 => {
                bytes[0] |= self.random.pick(&[4, 8, 12]);
                true
            }
            3 => {
                bytes[1] = self.random.pick(&[128, 129, 255]);
                true
            }
            _ => false,
        };
        for _ in 0..2 {
            self.send_signed(bytes.clone(), draft.port, signature);
        }
    }

    /// A newer announce by a port.
    pub(super) fn announce_by(&mut self, station: usize, port: u8) {
        let mut draft = self.newer(station);
        draft.port = port;
        self.accept_draft(&draft);
    }

    /// A newer announce from the station itself.
    pub(super) fn announce_near(&mut self, station: usize) {
        let mut draft = self.newer(station);
        draft.hops = 0;
        self.accept_draft(&draft);
    }

    /// A newer announce by a port that has so many bytes once it is spread.
    pub(super) fn announce_spread_as(&mut self, station: usize, port: u8, length: usize) {
        let mut draft = self.newer(station);
        draft.ratchet &= length >= START_2 + 180;
        draft.app_data = length - START_2 - if draft.ratchet { 180 } else { 148 };
        draft.port = port;
        self.accept_draft(&draft);
    }

    /// Sends a draft that should be accepted but for the announce rate, and believes so.
    fn accept_draft(&mut self, draft: &Draft) {
        self.send_draft(draft, true);
        if !self.passes_rate(draft.station) {
            return;
        }
        let lifetime = [604_800, 86_400, 21_600][usize::from(self.world.ports[usize::from(draft.port)].mode)];
        let clock = self.world.clock;
        let station = &mut self.world.stations[draft.station];
        station.blobs.push(draft.blob);
        station.port = draft.port;
        station.hops = draft.hops;
        station.expiry = clock + lifetime;
    }

    /// An emission a little newer than all before, seldom the greatest there is.
    fn newer_emission(&mut self, station: usize) -> u64 {
        let step = if self.random.one_in(200) { 1 << 40 } else { self.random.pick(&[1, 1, 2, 250, 70_000]) };
        let station = &mut self.world.stations[station];
        station.emission = (station.emission + step).min((1 << 40) - 1);
        station.emission
    }

    fn newer(&mut self, station: usize) -> Draft {
        let emission = self.newer_emission(station);
        self.draft(station, emission)
    }

    pub(super) fn announce_newer(&mut self) {
        let station = self.station();
        self.announce_of(station);
    }

    pub(super) fn announce_of(&mut self, station: usize) {
        let draft = self.newer(station);
        self.accept_draft(&draft);
    }

    /// The station's path is live after this.
    pub(super) fn ensure_path(&mut self, station: usize) {
        if self.world.clock >= self.world.stations[station].expiry {
            self.announce_of(station);
        }
    }

    pub(super) fn announce_replay(&mut self) {
        let station = self.reachable();
        self.replay_of(station);
    }

    /// A blob sent before in another announce: held still, or gone.
    pub(super) fn replay_of(&mut self, station: usize) {
        let sent = self.world.stations[station].blobs.len();
        if sent == 0 {
            return self.announce_newer();
        }
        let back = 1 + self.random.below(sent.min(BLOB_LIMIT + 4));
        let mut draft = self.draft(station, 0);
        draft.blob = self.world.stations[station].blobs[sent - back];
        if self.random.one_in(2) {
            draft.hops = self.world.stations[station].hops.saturating_sub(self.random.below(2) as u8);
        }
        let signature = !self.random.one_in(6);
        self.send_draft(&draft, signature);
        // the very same packet once more
        if self.random.one_in(3) {
            let again = self.world.sent[0].clone();
            self.send(again, draft.port);
        }
    }

    pub(super) fn announce_stale(&mut self) {
        let station = self.reachable();
        self.stale_of(station);
    }

    /// An older or equal emission under another blob, with fewer, equal or more hops.
    pub(super) fn stale_of(&mut self, station: usize) {
        let greatest = self.world.stations[station].emission;
        let emission = greatest - self.random.pick(&[0, 0, 1, 2, 200]);
        let mut draft = self.draft(station, emission);
        let hops = self.world.stations[station].hops;
        draft.hops = match self.random.below(3) {
            0 => hops.saturating_sub(1),
            1 => hops,
            _ => hops.saturating_add(1).min(127),
        };
        if draft.hops < hops {
            self.accept_draft(&draft);
        } else {
            let signature = !self.random.one_in(6);
            self.send_draft(&draft, signature);
        }
    }

    /// Ever fewer hops let older emissions in until the newest is gone; then one between them counts as newer.
    pub(super) fn announce_countdown(&mut self) {
        let station = self.station();
        let mut first = self.newer(station);
        first.hops = (127 - self.random.below(125 - BLOB_LIMIT)) as u8;
        self.accept_draft(&first);
        let newest = self.world.stations[station].emission;
        let adds = BLOB_LIMIT - 1 + self.random.below(3);
        for step in 1..=adds as u8 {
            let emission = newest - 500 + self.random.below(100) as u64;
            let mut draft = self.draft(station, emission);
            draft.hops = first.hops - step;
            self.accept_draft(&draft);
        }
        let mut between = self.draft(station, newest - 100);
        between.hops = first.hops;
        self.accept_draft(&between);
    }

    /// More blobs than a path stores.
    pub(super) fn announce_many(&mut self) {
        let station = self.station();
        for _ in 0..BLOB_LIMIT + self.random.below(4) {
            let draft = self.newer(station);
            self.accept_draft(&draft);
        }
        for _ in 0..4 {
            self.announce_replay();
        }
    }

    pub(super) fn announce_malformed(&mut self) {
        let station = self.reachable();
        let draft = self.newer(station);
        let mut bytes = self.announce_bytes(&draft);
        let start = if draft.type_2 { 35 } else { 19 };
        let least = if draft.ratchet { 180 } else { 148 };
        match self.random.below(6) {
            // one byte too short, or by its flag or context alone
            0 => bytes.truncate(start + least - self.random.below(2)),
            1 => bytes.truncate(start + 148 + self.random.below(33)),
            // of another kind than single
            2 => bytes[0] |= self.random.pick(&[4, 8, 12]),
            // keys, name or destination changed by one bit
            3 => bytes[start + self.random.below(74)] ^= 1,
            4 => bytes[start - 2] ^= 1,
            // too many hops
            _ => bytes[1] = self.random.pick(&[127, 128, 129, 255]),
        }
        self.send(bytes, draft.port);
    }

    /// Around the longest announce that can be spread.
    pub(super) fn announce_long(&mut self) {
        let station = self.station();
        self.announce_long_of(station);
    }

    pub(super) fn announce_long_of(&mut self, station: usize) {
        let mut draft = self.newer(station);
        let length = if draft.type_2 { self.random.pick(&[499, 500, 501]) } else { self.random.pick(&[483, 484, 485, 486, 500]) };
        let start = if draft.type_2 { 35 } else { 19 };
        let least = if draft.ratchet { 180 } else { 148 };
        draft.app_data = length - start - least;
        self.accept_draft(&draft);
    }

    pub(super) fn announce_unsigned(&mut self) {
        let station = self.station();
        let draft = self.newer(station);
        self.send_draft(&draft, false);
    }

    /// An announce of a local address.
    pub(super) fn announce_local(&mut self) {
        let station = self.station();
        let address = self.world.stations[station].address;
        self.add_local(address);
        for _ in 0..1 + self.random.below(3) {
            let draft = self.newer(station);
            self.send_draft(&draft, true);
        }
        if self.random.one_in(2) {
            self.remove_local(address);
        }
    }

    /// All stations, one after another: with ninety there is no room for all. Then some once more.
    pub(super) fn announce_crowd(&mut self) {
        for station in 0..self.world.stations.len() {
            self.announce_of(station);
        }
        for _ in 0..4 {
            self.announce_newer();
        }
    }

    /// A path at the last second of its life, and after it; then the announce comes anew.
    pub(super) fn path_edge(&mut self) {
        let station = self.station();
        let draft = self.newer(station);
        let mode = self.random.below(3) as u8;
        self.set_port(draft.port, true, mode);
        self.accept_draft(&draft);
        let lifetime = [604_800, 86_400, 21_600][usize::from(mode)];
        self.pass(lifetime - 1);
        self.data_to(station);
        self.pass(1);
        self.data_to(station);
        let again = self.newer(station);
        self.accept_draft(&again);
        self.announce_replay();
    }
}
