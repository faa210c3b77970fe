//! Relays that packets come to: fresh with all ports on, and half full or full of live records.

use haskumye_independent::limits::{BLOB_LIMIT, LONGEST, PORT_COUNT};
use haskumye_independent::packet::{self, encode, hash, Address, Header, PacketHash, Parts};
use haskumye_independent::random::Random;
use haskumye_independent::relay::settings;
use haskumye_independent::rules::AsWritten;
use haskumye_independent::samples::{use_record, Fill};
use haskumye_independent::sha256::Sha256;
use haskumye_independent::tables::{self, link, path, Section, Table, HASHES, LINKS, LOCALS, PATHS, RETURNS, SIZE};

pub const OWN: Address = [0xaa; 16];
/// The last accepted clock, and that of every packet.
pub const CLOCK: u64 = 1_700_000_000;

pub struct Scene {
    pub tables: Vec<u8>,
    pub random: Random,
    fill: Fill,
}

impl Scene {
    pub fn new(fill: Fill) -> Self {
        let mut scene = Self { tables: vec![0; SIZE], random: Random::new(1), fill };
        settings::fresh(&AsWritten, &mut scene.tables, &OWN).expect("the right size");
        for port in 0..PORT_COUNT as u64 {
            settings::set_port(&AsWritten, &mut scene.tables, port, true, port % 3, LONGEST as u64).expect("a port, a mode and a size");
        }
        tables::set_last_clock(&mut scene.tables, CLOCK);
        for place in 0..scene.used(&LOCALS) {
            use_record(&mut scene.random, &mut scene.tables, &LOCALS, place);
        }
        for table in [&PATHS, &LINKS, &RETURNS, &HASHES] {
            for place in 0..scene.used(&table.records) {
                scene.use_live(table, place);
            }
        }
        for (at, table) in [(tables::RETURN_PLACE, &RETURNS), (tables::HASH_PLACE, &HASHES)] {
            let next = scene.used(&table.records) % table.records.count;
            tables::set_ring_place(&mut scene.tables, at, next);
        }
        scene
    }

    /// How many records of a section the fill uses.
    fn used(&self, section: &Section) -> usize {
        match self.fill {
            Fill::Empty => 0,
            Fill::Full => section.count,
            _ => section.count / 2,
        }
    }

    /// Where the record stands that a packet needs: behind all others, so that each is looked at.
    fn needed(&self, section: &Section) -> usize {
        self.used(section).max(1) - 1
    }

    /// A live record of random fields: a path with 64 blobs, a proved link.
    fn use_live(&mut self, table: &Table, place: usize) {
        use_record(&mut self.random, &mut self.tables, &table.records, place);
        let record = table.records.get_mut(&mut self.tables, place);
        tables::set_time(record, table.expiry, CLOCK + 300);
        match table.records.start {
            start if start == PATHS.records.start => record[path::BLOB_COUNT] = BLOB_LIMIT as u8,
            start if start == LINKS.records.start => record[link::PROVED] = 1,
            _ => {}
        }
    }

    /// Puts in the live record that a packet needs, with its key and some of its fields.
    pub fn put(&mut self, table: &Table, key: &[u8], fields: &[(usize, u8)]) -> &mut [u8] {
        let place = self.needed(&table.records);
        self.use_live(table, place);
        let record = table.records.get_mut(&mut self.tables, place);
        tables::set_key(record, key);
        for (at, byte) in fields {
            record[*at] = *byte;
        }
        record
    }

    pub fn put_local(&mut self, address: &Address) {
        let place = self.needed(&LOCALS);
        tables::set_key(LOCALS.get_mut(&mut self.tables, place), address);
    }

    /// Lets the last record of full tables be expired, so that a new one finds room behind all others.
    pub fn make_room(&mut self, table: &Table) {
        if self.used(&table.records) == table.records.count {
            let place = self.needed(&table.records);
            tables::set_time(table.records.get_mut(&mut self.tables, place), table.expiry, CLOCK);
        }
    }

    /// A packet of this header, of one hop, with a payload of random bytes; in type 2 under our own address.
    pub fn packet(&mut self, header: u8, destination: Address, length: usize) -> Vec<u8> {
        let payload = self.random.bytes(length);
        encode(&Parts { header: Header(header), hops: 1, relay: OWN, destination, context: 0 }, &payload)
    }
}

/// The packet hash.
pub fn hash_of(packet: &[u8]) -> PacketHash {
    let parts = packet::read(&AsWritten, packet, LONGEST).expect("a packet that reads");
    hash::packet_hash(&AsWritten, &Sha256::default(), &parts, &packet[packet::payload_place(packet)..])
}
