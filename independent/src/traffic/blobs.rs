//! Wish 8: paths that hold about sixteen blobs or about 64, and announces for them: of each blob they hold, of newer and older ones.

use super::announces::blob;
use super::Traffic;
use crate::engine::Call;
use crate::limits::{BLOB_LIMIT, OLDER_BLOB_LIMIT};
use crate::packet::{announced, Blob};
use crate::saved::editions::{self, PATH};
use crate::tables::{path, Path, PATHS};

/// How many blobs a lent path holds, and how many an older file says that one does.
const HELD: [usize; 8] = [1, OLDER_BLOB_LIMIT, OLDER_BLOB_LIMIT + 1, 40, BLOB_LIMIT - 1, BLOB_LIMIT, BLOB_LIMIT, BLOB_LIMIT];
const COUNTS: [u8; 12] = [0, 1, 16, 16, 17, 17, 40, 63, 64, 64, 65, 255];
/// So far apart are the emissions of a lent path's blobs at most.
const SPAN: u64 = 400;

/// A path that is lent: the places of the blobs that it holds, of a spare one, and of the greatest emission.
struct Lent {
    station: usize,
    blobs: Vec<Blob>,
    held: usize,
    greatest: usize,
}

impl Traffic {
    /// Blobs of any emissions for all places, the greatest held at the first, at the last or anywhere.
    fn many_blobs(&mut self, station: usize) -> Lent {
        let random = &mut self.random;
        let held = random.pick(&HELD);
        let any = random.below(held);
        let greatest = random.pick(&[0, held - 1, any]);
        let first = self.world.stations[station].emission + 1;
        let mut emission = |place: usize| first + if place == greatest { SPAN } else { random.word() % SPAN };
        let emissions: Vec<u64> = (0..BLOB_LIMIT).map(&mut emission).collect();
        let blobs = emissions.into_iter().map(|emission| blob(random.array(), emission)).collect();
        Lent { station, blobs, held, greatest }
    }

    /// Writes such a path of a station at the table's start, and believes it. It is marked or not.
    fn lend_blobs(&mut self, lent: &Lent) {
        let (port, hops, expiry) = (self.on_port(), 2 + self.random.below(6) as u8, self.world.clock + 50_000);
        let marked = self.random.one_in(2);
        let mut record = vec![0; path::WIDTH];
        let destination = self.world.stations[lent.station].address;
        Path { destination, port, hops, next_hop: self.random.array(), expiry }.write(&mut record);
        (record[path::BLOB_COUNT], record[path::UNRESPONSIVE]) = (lent.held as u8, u8::from(marked));
        record[path::BLOBS..].copy_from_slice(&lent.blobs.concat());
        let station = &mut self.world.stations[lent.station];
        (station.port, station.hops, station.expiry, station.marked) = (port, hops, expiry, marked);
        station.emission += 1 + SPAN;
        self.write(PATHS.records.start, record);
    }

    /// An announce for such a path: with one of its blobs, a spare place's, a new one, or an emission beside a stored one.
    fn announce_among(&mut self, lent: &Lent) {
        let any = self.random.below(lent.held);
        let (place, fewer) = match self.random.below(10) {
            0 => (0, false),
            1 => (lent.held - 1, false),
            2 => (any, false),
            3 => (lent.greatest, false),
            4 => (self.random.below(BLOB_LIMIT), true),
            5 => (BLOB_LIMIT - 1, true),
            6 => return self.announce_of(lent.station),
            7 | 8 => return self.stale_beside(lent, lent.greatest),
            _ => return self.stale_beside(lent, any),
        };
        self.announce_blob(lent.station, lent.blobs[place], fewer);
    }

    /// Another blob of a stored emission, or of the next.
    fn stale_beside(&mut self, lent: &Lent, place: usize) {
        let emission = announced::emission(&lent.blobs[place]) + self.random.pick(&[0, 0, 1]);
        let blob = blob(self.random.array(), emission);
        self.announce_blob(lent.station, blob, false);
    }

    /// Lends such paths to a few calls, and saves them, loads them and loads them as an older program saved them.
    pub(super) fn lent_blobs(&mut self) {
        if !self.lent {
            return;
        }
        let station = self.reachable();
        let before = self.world.stations[station].clone();
        self.queue.push_back(Call::PutAside);
        let lent = self.many_blobs(station);
        for _ in 0..2 {
            self.lend_blobs(&lent);
            for _ in 0..2 + self.random.below(3) {
                self.announce_among(&lent);
            }
        }
        if self.random.one_in(4) {
            self.save_lent();
        }
        if self.files {
            self.load_older_count();
        }
        if self.random.one_in(2) {
            // the path expires, and its slot is taken
            self.write(PATHS.records.start + path::EXPIRY, self.world.clock.to_be_bytes());
            self.announce_newer();
        }
        self.queue.push_back(Call::TakeBack);
        self.world.stations[station] = before;
    }

    /// Loads the relay's file as an older program would have saved it, with another blob count in the first path.
    fn load_older_count(&mut self) {
        let edition = self.save_older();
        let count = self.random.pick(&COUNTS);
        self.write_file(editions::place(edition, PATH, 0, path::BLOB_COUNT), [count]);
        self.queue.push_back(Call::Load);
    }
}
