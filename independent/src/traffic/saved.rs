//! Wish 4: saves and loads among other calls: of the relay's own file, of an earlier relay's, of damaged ones, into tables of another size.

use super::{rates, Traffic};
use crate::engine::Call;
use crate::files::contents_of;
use crate::recording::COUNT;
use crate::saved::editions::{lengths, CURRENT};
use crate::saved::{contents, entry, BODIES, CONTENTS, LENGTH, TALLY};
use crate::tables::{RateEntry, SIZE};

impl Traffic {
    /// Saves, and makes of the file what an older program would have saved.
    pub(super) fn save_older(&mut self) -> u8 {
        let edition = 1 + self.random.below(usize::from(CURRENT) - 1) as u8;
        self.save();
        self.queue.push_back(Call::AgeFile(edition));
        self.saved = None;
        edition
    }

    fn save_into(&mut self, room: usize) {
        let fill = self.random.word() as u8;
        self.queue.push_back(Call::Save { room, fill });
    }

    /// Saves, and keeps in mind what is believed of the relay now.
    fn save(&mut self) {
        let room = LENGTH + self.random.pick(&[0, 0, 0, 1, 30]);
        self.save_into(room);
        self.saved = Some(self.world.clone());
    }

    /// Loads the kept file, and believes what was believed then. What was sent since may come once more.
    fn load(&mut self) {
        self.queue.push_back(Call::Load);
        if let Some(saved) = self.saved.clone() {
            let since = std::mem::replace(&mut self.world, saved);
            self.world.sent = since.sent;
        }
    }

    /// Saves; some packets come; then the relay is what it was, and they come again. Its clock went back.
    pub(super) fn save_and_load(&mut self) {
        if !self.files {
            return;
        }
        self.save();
        for _ in 0..self.random.below(4) {
            let seconds = self.random.pick(&[0, 1, 300, 2_000, 90_000]);
            self.pass(seconds);
            self.some_packets();
        }
        if self.random.one_in(4) {
            self.port_setting();
        }
        self.load();
        for _ in 0..1 + self.random.below(3) {
            self.data_again();
            self.some_packets();
        }
    }

    fn some_packets(&mut self) {
        match self.random.below(5) {
            0 => self.announce_newer(),
            1 => self.link_step(),
            2 => self.receipt(),
            3 => self.announce_replay(),
            _ => self.data_by_path(),
        }
    }

    /// The file of before once more, perhaps of another relay.
    pub(super) fn load_again(&mut self) {
        if !self.files {
            return;
        }
        if self.saved.is_none() {
            self.save();
        }
        self.load();
        self.some_packets();
    }

    /// Loads the relay's file as an older program would have saved it: fields that it hadn't are 0.
    pub(super) fn load_older(&mut self) {
        if !self.files {
            return;
        }
        if self.random.one_in(2) {
            let rate = self.a_rate();
            self.set_rate(rate);
        }
        let edition = self.save_older();
        self.queue.push_back(Call::Load);
        if edition == 1 {
            self.world.rate = rates::OFF;
            self.world.stations.iter_mut().for_each(|station| station.rate = RateEntry::default());
        }
        self.world.stations.iter_mut().for_each(|station| station.marked = false);
        for _ in 0..1 + self.random.below(3) {
            self.some_packets();
        }
        self.set_rate(rates::OFF);
    }

    /// A load that is refused: by 20, 21 or 22, by the bodies' lengths, or by the size of the tables that are lent; and a save by its room.
    pub(super) fn load_refused(&mut self) {
        if !self.files {
            return;
        }
        self.save();
        match self.random.below(10) {
            0 => self.cut_file(),
            1 => self.change_kind(),
            2 => self.change_count(),
            3 | 4 => self.change_places(),
            5 => self.change_lengths(),
            6 | 7 => return self.load_into_others(),
            _ => {
                let room = self.random.pick(&[0, 1, CONTENTS, SIZE, LENGTH - TALLY, LENGTH - 1, LENGTH - 1]);
                return self.save_into(room);
            }
        }
        if self.random.one_in(6) {
            self.change_kind();
        }
        self.queue.push_back(Call::Load);
        self.saved = None;
    }

    pub(super) fn write_file(&mut self, at: usize, bytes: impl Into<Vec<u8>>) {
        self.queue.push_back(Call::WriteFile { at, bytes: bytes.into() });
    }

    fn cut_file(&mut self) {
        let length = self.random.pick(&[0, 3, 4, 51, CONTENTS, SIZE, LENGTH - TALLY, LENGTH - 1, LENGTH + 1, LENGTH + 6, 60_000]);
        self.queue.push_back(Call::ResizeFile(length));
    }

    fn change_kind(&mut self) {
        let (at, byte) = self.random.pick(&[(0, 0), (0, 1), (0, 3), (0, 255), (1, 0), (1, 0), (1, CURRENT + 1), (1, 255)]);
        self.write_file(at, [byte]);
    }

    /// Another count, the file's length as it was, or as that count adds up to.
    fn change_count(&mut self) {
        let mut lengths = lengths(CURRENT).to_vec();
        lengths.resize(self.random.pick(&[0, 1, 7, 7, 9, 9, 10]), 0);
        if self.random.one_in(3) {
            return self.write_file(COUNT.start, (lengths.len() as u16).to_be_bytes());
        }
        self.write_file(0, contents_of(CURRENT, &lengths));
        self.queue.push_back(Call::ResizeFile(contents(lengths.len()) + lengths.iter().sum::<usize>()));
    }

    /// An offset that isn't the running place: a little off, or another body's.
    fn change_places(&mut self) {
        let mut bytes = contents_of(CURRENT, &lengths(CURRENT));
        let place = |body: usize| 4 + body * entry::WIDTH;
        let (one, other) = (self.random.below(BODIES), self.random.below(BODIES - 1));
        if self.random.one_in(2) {
            let at = place(one) + self.random.below(entry::OFFSET.end);
            bytes[at] ^= self.random.pick(&[1, 2, 128]);
        } else {
            let other = if other == one { BODIES - 1 } else { other };
            (0..entry::OFFSET.end).for_each(|at| bytes.swap(place(one) + at, place(other) + at));
        }
        self.write_file(0, bytes);
    }

    /// A body one byte shorter or longer, the offsets and the file's length with it, and perhaps another one so that the sum stays.
    fn change_lengths(&mut self) {
        let mut lengths = lengths(CURRENT);
        let (one, other) = (self.random.below(BODIES), self.random.below(BODIES));
        lengths[one] -= 1;
        if self.random.one_in(2) {
            lengths[other] += 1 + usize::from(other == one);
        }
        self.write_file(0, contents_of(CURRENT, &lengths));
        self.queue.push_back(Call::ResizeFile(CONTENTS + lengths.iter().sum::<usize>()));
    }

    /// Tables of another size, or such that break refusal 7, which nobody reads: between two copies.
    fn load_into_others(&mut self) {
        if !self.lent {
            return;
        }
        self.queue.push_back(Call::PutAside);
        let size = self.random.pick(&[0, 1, SIZE - 1, SIZE - 1, SIZE, SIZE + 1, SIZE + 1, LENGTH]);
        self.queue.push_back(Call::Resize(size));
        self.change_byte();
        self.queue.push_back(Call::Load);
        self.queue.push_back(Call::TakeBack);
    }

    /// A file with a change in a body: refused by 24, or loaded as tables that no fresh relay comes to, with calls on them.
    pub(super) fn load_changed(&mut self) {
        if !self.lent || !self.files {
            return;
        }
        self.queue.push_back(Call::PutAside);
        self.save();
        for _ in 0..1 + self.random.below(2) {
            self.change_body();
        }
        self.queue.push_back(Call::Load);
        self.saved = None;
        for _ in 0..self.random.below(4) {
            self.call_on_lent();
        }
        self.queue.push_back(Call::TakeBack);
    }

    /// A change of lent tables, made in the file; or of the own address or the tally, which may be any bytes.
    fn change_body(&mut self) {
        if self.random.one_in(6) {
            let at = self.random.pick(&[CONTENTS, CONTENTS + 15, LENGTH - TALLY, LENGTH - 1]);
            let byte = self.random.word() as u8;
            return self.write_file(at, [byte]);
        }
        self.change_one();
        if let Some(Call::Write { at, bytes }) = self.queue.pop_back() {
            self.write_file(CONTENTS + at, bytes);
        }
    }

    /// Saves tables that are lent, and loads them after some calls, where they are allowed.
    pub(super) fn save_lent(&mut self) {
        if !self.files {
            return;
        }
        self.save();
        self.saved = None;
        self.call_on_lent();
        self.queue.push_back(Call::Load);
    }
}
