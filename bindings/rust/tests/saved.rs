//! Saved files through the library: what is saved loads, each refusal, and a file of each edition beside what is written down of it.

use haskumye::raw::{haskumye_load, haskumye_save, haskumye_saved_size};
use haskumye::*;

const OWN: Address = [0x0a; 16];

/// A file of each edition, the oldest first: tests/saved/NAME.saved, and NAME.text with what it holds. A later edition is one more line.
const EDITIONS: [&str; 5] = ["edition-1", "edition-2", "edition-3", "edition-4", "edition-5"];

fn read(name: &str) -> Vec<u8> {
    let path = format!("{}/../../tests/saved/{name}", env!("CARGO_MANIFEST_DIR"));
    std::fs::read(&path).unwrap_or_else(|error| panic!("{path}: {error}"))
}

/// A file, and what is written down of it.
fn pair(name: &str) -> (Vec<u8>, String) {
    (read(&format!("{name}.saved")), String::from_utf8(read(&format!("{name}.text"))).expect("plain text"))
}

fn relay() -> Relay {
    let mut relay = Relay::fresh(&OWN);
    relay.set_port(3, true, Mode::Roaming, 255).unwrap();
    relay.set_announce_rate(AnnounceRate { target: 3_600, grace: 5, penalty: 7_200 }).unwrap();
    relay.add_local(&OWN).unwrap();
    Relay::from_tables(relay.tables(), Tally { total: 0x01020304, dropped: 5, kept: u32::MAX, ..Tally::default() }).unwrap()
}

#[test]
fn what_is_saved_loads() {
    let (relay, file) = (relay(), relay().save());
    assert_eq!((file.len(), unsafe { haskumye_saved_size() }), (SAVED_SIZE, SAVED_SIZE));
    assert_eq!(file[..4], [2, 5, 0, 8]);
    assert_eq!((&file[52..52 + TABLE_SIZE], &file[52 + TABLE_SIZE..]), (relay.tables(), &relay.tally().to_bytes()[..]));
    assert_eq!(Relay::load(&file), Ok(relay));
}

#[test]
fn loading_is_refused() {
    let file = relay().save();
    let spoiled = |at: usize, byte: u8| [&file[..at], &[byte], &file[at + 1..]].concat();
    let files = [
        (vec![], Refusal::FileLength),
        (file[..file.len() - 1].to_vec(), Refusal::FileLength),
        ([&file[..], &[0; 32]].concat(), Refusal::FileLength), // a seal that was not cut off
        (spoiled(0, 1), Refusal::FileKind),
        (spoiled(1, 0), Refusal::FileKind),
        (spoiled(1, 255), Refusal::FileKind),
        (vec![2, 5, 0, 0], Refusal::FilePlace),
        (spoiled(7, 53), Refusal::FilePlace),
        (spoiled(1, 1), Refusal::FileBody), // bodies longer than an older edition's
        (spoiled(1, 2), Refusal::FileBody),
        (spoiled(1, 3), Refusal::FileBody),
        (spoiled(1, 4), Refusal::FileBody),
        (spoiled(89, 3), Refusal::FileBody),
    ];
    for (file, refusal) in files {
        assert_eq!(Relay::load(&file), Err(refusal));
    }
}

#[test]
fn rooms_and_tables_of_wrong_size_are_refused() {
    let (relay, file) = (relay(), relay().save());
    let (mut room, mut tally) = (vec![0xee; SAVED_SIZE], Tally::default());
    let (tables, size) = (relay.tables().as_ptr(), relay.tables().len());
    let saved = |size, room: &mut [u8]| unsafe { haskumye_save(tables, size, relay.tally(), room.as_mut_ptr(), room.len()) };
    assert_eq!(saved(size - 1, &mut room), 7);
    assert_eq!(saved(size, &mut room[1..]), 25);
    for size in [0, TABLE_SIZE - 1, TABLE_SIZE + 1] {
        let mut tables = vec![0xee; size];
        assert_eq!(unsafe { haskumye_load(file.as_ptr(), file.len(), tables.as_mut_ptr(), size, &mut tally) }, 25);
        assert!(tables.iter().all(|byte| *byte == 0xee));
    }
    assert!(room.iter().all(|byte| *byte == 0xee));
    assert_eq!(tally, Tally::default());
}

// ---- what is written down of a file, as tables of today's layout

/// A line of the text: the words before a field, and fields by their names.
struct Line<'a>(Vec<&'a str>);

impl Line<'_> {
    fn place(&self) -> usize {
        self.0[1].parse().expect("a place")
    }

    fn field(&self, name: &str) -> Option<u64> {
        let at = self.0.iter().position(|word| *word == name)?;
        Some(self.0[at + 1].parse().expect(name))
    }

    fn number(&self, name: &str) -> u64 {
        self.field(name).unwrap_or_else(|| panic!("no {name} in {:?}", self.0))
    }

    /// A field that an older edition lacks, and loads as 0.
    fn number_or_zero(&self, name: &str) -> u64 {
        self.field(name).unwrap_or(0)
    }

    fn byte(&self, name: &str) -> [u8; 1] {
        [self.number(name).try_into().expect(name)]
    }

    fn bytes_at(&self, place: usize) -> Vec<u8> {
        let word = self.0[place].as_bytes();
        let digit = |sign: u8| char::from(sign).to_digit(16).expect("a hexadecimal digit") as u8;
        word.chunks(2).map(|pair| digit(pair[0]) << 4 | digit(pair[1])).collect()
    }

    fn expiry(&self) -> [u8; 8] {
        self.number("expiry").to_be_bytes()
    }

    /// A path's last accepted announce, violations and blocked-until.
    fn rate(&self) -> (u64, u8, u64) {
        let [last, violations, blocked] = ["last", "violations", "blocked"].map(|name| self.number_or_zero(name));
        (last, violations.try_into().expect("a byte"), blocked)
    }

    /// A port's size, which editions 1 to 4 lack and load as the longest.
    fn size(&self) -> u64 {
        self.field("size").unwrap_or(LONGEST_PACKET as u64)
    }

    /// Whether a path is marked.
    fn unresponsive(&self) -> bool {
        self.number_or_zero("unresponsive") == 1
    }

    fn rate_bytes(&self) -> Vec<u8> {
        let (last, violations, blocked) = self.rate();
        [&last.to_be_bytes()[..], &[violations], &blocked.to_be_bytes()].concat()
    }

    /// A used record behind its mark.
    fn record(&self) -> Vec<u8> {
        if self.0[0] == "port" {
            return [&self.byte("on"), &self.byte("mode"), &self.size().to_be_bytes()[6..]].concat();
        }
        let key = self.bytes_at(2);
        match self.0[0] {
            "local" => key,
            "path" => {
                let from = self.0.iter().position(|word| *word == "blobs").expect("blobs") + 1;
                let blobs: Vec<u8> = (from..self.0.len()).flat_map(|place| self.bytes_at(place)).collect();
                let count = [(blobs.len() / 10) as u8];
                let way = [&key, &self.byte("port")[..], &self.byte("hops"), &self.bytes_at(8), &self.expiry()].concat();
                [&way, &self.rate_bytes()[..], &[self.unresponsive().into()], &count, &blobs].concat()
            }
            "link" => {
                let bytes = ["asking", "answering", "taken", "remaining", "proved"].map(|name| self.byte(name)[0]);
                [&key, &bytes[..], &self.expiry()].concat()
            }
            "return" => [&key, &self.byte("arrival")[..], &self.byte("leaving"), &self.expiry()].concat(),
            "hash" => [&key, &self.expiry()[..]].concat(),
            kind => panic!("a line of {kind}"),
        }
    }
}

struct Written<'a>(Vec<Line<'a>>);

impl<'a> Written<'a> {
    fn read(text: &'a str) -> Self {
        Self(text.lines().map(|line| Line(line.split(' ').collect())).collect())
    }

    fn all(&self, kind: &'static str) -> impl Iterator<Item = &Line<'a>> {
        self.0.iter().filter(move |line| line.0[0] == kind)
    }

    fn one(&self, kind: &'static str) -> &Line<'a> {
        self.all(kind).next().unwrap_or_else(|| panic!("no line of {kind}"))
    }

    /// The announce rate, 0 in files of edition 1.
    fn announce_rate(&self) -> AnnounceRate {
        let setting = |name: &str| self.all("rate").next().map_or(0, |line| line.number(name));
        AnnounceRate { target: setting("target"), grace: setting("grace"), penalty: setting("penalty") }
    }

    fn announce_rate_bytes(&self) -> Vec<u8> {
        let AnnounceRate { target, grace, penalty } = self.announce_rate();
        [target, grace, penalty].iter().flat_map(|setting| setting.to_be_bytes()[4..].to_vec()).collect()
    }

    /// A table of so many places; a record has a mark before it, and zeros where it is unused.
    fn table(&self, kind: &'static str, count: usize, width: usize) -> Vec<u8> {
        let mut table = vec![0; count * width];
        for line in self.all(kind) {
            let record = &mut table[line.place() * width..][..width];
            record[0] = 1;
            let bytes = line.record();
            record[1..=bytes.len()].copy_from_slice(&bytes);
        }
        table
    }

    /// A ring's next place, in two bytes.
    fn next_place(&self, kind: &'static str) -> Vec<u8> {
        self.one(kind).number("next").to_be_bytes()[6..].to_vec()
    }

    /// docs/LAYOUT.md, section by section.
    fn tables(&self) -> Vec<u8> {
        [
            self.one("own").bytes_at(1),
            self.one("clock").number("clock").to_be_bytes().to_vec(),
            self.announce_rate_bytes(),
            self.all("port").flat_map(Line::record).collect(),
            self.table("local", LOCAL_COUNT, 17),
            self.table("path", PATH_COUNT, 702),
            self.table("link", LINK_COUNT, 30),
            self.next_place("returns"),
            self.table("return", RETURN_COUNT, 27),
            self.next_place("hashes"),
            self.table("hash", HASH_COUNT, 41),
        ]
        .concat()
    }

    fn tally(&self) -> Tally {
        let count = |name: &str| self.one("tally").number(name) as u32;
        Tally {
            total: count("total"),
            dropped: count("dropped"),
            delivered: count("delivered"),
            forwarded: count("forwarded"),
            spread: count("spread"),
            kept: count("kept"),
        }
    }

    fn live(&self, kind: &'static str, clock: u64) -> u64 {
        self.all(kind).filter(|line| clock < line.number("expiry")).count() as u64
    }
}

#[test]
fn every_edition_loads() {
    for name in EDITIONS {
        let (file, text) = pair(name);
        let (relay, written) = (Relay::load(&file).unwrap_or_else(|refusal| panic!("{name}: {refusal}")), Written::read(&text));
        let tables = written.tables();
        assert_eq!(tables.len(), TABLE_SIZE);
        let other = (0..TABLE_SIZE).find(|place| tables[*place] != relay.tables()[*place]);
        assert_eq!(other, None, "{name}: the first byte of the tables that is another");
        assert_eq!(*relay.tally(), written.tally(), "{name}");
    }
}

/// What the questions say of a loaded relay is what is written down, too.
#[test]
fn every_edition_answers() {
    for name in EDITIONS {
        let (file, text) = pair(name);
        let (relay, written) = (Relay::load(&file).unwrap(), Written::read(&text));
        let clock = relay.last_clock();
        assert_eq!(clock, written.one("clock").number("clock"));
        assert_eq!(relay.announce_rate(), written.announce_rate());
        assert_eq!((relay.live_returns(clock), relay.live_hashes(clock)), (written.live("return", clock), written.live("hash", clock)));
        for line in written.all("port") {
            assert_eq!(relay.port(line.place() as u8).expect("a port").size as u64, line.size());
        }
        for line in written.all("path") {
            let path = relay.path(line.place()).expect("a path");
            assert_eq!((path.destination.to_vec(), path.expiry), (line.bytes_at(2), line.number("expiry")));
            assert_eq!((path.last_announce, path.violations, path.blocked_until), line.rate());
            assert_eq!(path.unresponsive, line.unresponsive());
        }
        for line in written.all("link") {
            let link = relay.link(line.place()).expect("a link");
            assert_eq!((link.id.to_vec(), link.proved), (line.bytes_at(2), line.number("proved") == 1));
        }
    }
}

/// Each file is of its own edition, and what a relay of the last one is saved as again is the file.
#[test]
fn no_edition_is_missing() {
    let files = EDITIONS.map(|name| pair(name).0);
    let numbers: Vec<u8> = files.iter().map(|file| file[1]).collect();
    assert_eq!(numbers, (1..=relay().save()[1]).collect::<Vec<_>>());
    let last = files.last().expect("an edition");
    assert!(Relay::load(last).unwrap().save() == *last);
}

/// Text of another relay is seen: one change for each kind of line.
#[test]
fn a_damaged_text_is_seen() {
    let text = pair(EDITIONS[EDITIONS.len() - 1]).1;
    let (whole, tally) = (Written::read(&text).tables(), Written::read(&text).tally());
    for kind in ["own", "clock", "rate", "port", "local", "path", "link", "returns", "return", "hashes", "hash", "tally"] {
        let line = text.lines().find(|line| line.starts_with(&format!("{kind} "))).expect(kind);
        let last = line.chars().last().expect("a word");
        let changed = format!("{}{}", &line[..line.len() - 1], if last == '1' { '0' } else { '1' });
        let damaged = text.replacen(&format!("{line}\n"), &format!("{changed}\n"), 1);
        let written = Written::read(&damaged);
        assert!(written.tables() != whole || written.tally() != tally, "{kind}");
    }
}
