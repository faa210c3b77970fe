//! Tables made for a test: records with random fields that row 7 allows, and fields set to numbers on both sides of its clauses.

use crate::limits::{BLOB_LIMIT, CLOCK_LIMIT, GRACE_LIMIT, GREATEST_SIZE, LATEST, LATEST_ANNOUNCE, LATEST_BLOCK, LEAST_SIZE};
use crate::limits::{PENALTY_LIMIT, PORT_COUNT, TARGET_LIMIT};
use crate::random::Random;
use crate::tables::{link, path, port, rate, returned, set_ring_place, Section, HASHES, HASH_PLACE};
use crate::tables::{LAST_CLOCK, LINKS, LOCALS, PATHS, PORTS, RATE, RETURNS, RETURN_PLACE, SIZE};

/// What row 7 asks of a field.
#[derive(Clone, Copy, PartialEq, Eq)]
pub enum Clause {
    YesOrNo,
    Mode,
    Port,
    BlobCount,
    Size,
    /// At most so much.
    Time(u64),
    Setting(u64),
}

impl Clause {
    /// A number that is allowed.
    fn allowed(self, random: &mut Random) -> Vec<u8> {
        match self {
            Clause::YesOrNo => vec![random.below(2) as u8],
            Clause::Mode => vec![random.below(3) as u8],
            Clause::Port => vec![random.below(PORT_COUNT) as u8],
            Clause::BlobCount => vec![1 + random.below(BLOB_LIMIT) as u8],
            Clause::Size => ((LEAST_SIZE + random.below(GREATEST_SIZE - LEAST_SIZE + 1)) as u16).to_be_bytes().to_vec(),
            Clause::Time(latest) => (random.word() % (latest + 1)).to_be_bytes().to_vec(),
            Clause::Setting(limit) => ((random.word() % (limit + 1)) as u32).to_be_bytes().to_vec(),
        }
    }

    /// A number near the clause's edge, on either side, or far beyond it.
    fn edge(self, random: &mut Random) -> Vec<u8> {
        let byte = match self {
            Clause::YesOrNo => random.pick(&[0, 1, 1, 2, 3, 255]),
            Clause::Mode => random.pick(&[0, 1, 2, 3, 4, 255]),
            Clause::Port => random.pick(&[0, 14, 15, 16, 17, 31, 255]),
            Clause::BlobCount => random.pick(&[0, 1, 2, 16, 17, BLOB_LIMIT as u8 - 1, BLOB_LIMIT as u8, BLOB_LIMIT as u8 + 1, 255]),
            Clause::Size => {
                return random.pick(&[0, 18, 19, 20, 254, 255, 256, 499, 500, 501, 511, 512, 1 << 15, u16::MAX]).to_be_bytes().to_vec()
            }
            Clause::Time(latest) => {
                let times = [0, CLOCK_LIMIT - 1, CLOCK_LIMIT, latest - 1, latest, latest + 1, latest + 2, 1 << 48, 1 << 63, u64::MAX];
                return random.pick(&times).to_be_bytes().to_vec();
            }
            Clause::Setting(limit) => {
                let limit = limit as u32;
                return random.pick(&[0, 1, limit - 1, limit, limit + 1, limit + 2, 1 << 24, u32::MAX]).to_be_bytes().to_vec();
            }
        };
        vec![byte]
    }
}

/// A field of every record of a section.
pub struct Field {
    pub name: &'static str,
    pub section: &'static Section,
    pub at: usize,
    pub clause: Clause,
}

const fn field(name: &'static str, section: &'static Section, at: usize, clause: Clause) -> Field {
    Field { name, section, at, clause }
}

/// Every field that row 7 speaks of, but the last clock and the ring places.
pub const FIELDS: &[Field] = &[
    field("announce rate's target", &RATE, rate::TARGET, Clause::Setting(TARGET_LIMIT)),
    field("announce rate's grace", &RATE, rate::GRACE, Clause::Setting(GRACE_LIMIT)),
    field("announce rate's penalty", &RATE, rate::PENALTY, Clause::Setting(PENALTY_LIMIT)),
    field("port's on mark", &PORTS, port::ON, Clause::YesOrNo),
    field("port's mode", &PORTS, port::MODE, Clause::Mode),
    field("port's size", &PORTS, port::SIZE, Clause::Size),
    field("local address's mark", &LOCALS, 0, Clause::YesOrNo),
    field("path's mark", &PATHS.records, 0, Clause::YesOrNo),
    field("path's port", &PATHS.records, path::PORT, Clause::Port),
    field("path's expiry", &PATHS.records, path::EXPIRY, Clause::Time(LATEST)),
    field("path's last announce", &PATHS.records, path::LAST_ANNOUNCE, Clause::Time(LATEST_ANNOUNCE)),
    field("path's blocked-until", &PATHS.records, path::BLOCKED_UNTIL, Clause::Time(LATEST_BLOCK)),
    field("path's unresponsive mark", &PATHS.records, path::UNRESPONSIVE, Clause::YesOrNo),
    field("path's blob count", &PATHS.records, path::BLOB_COUNT, Clause::BlobCount),
    field("link's mark", &LINKS.records, 0, Clause::YesOrNo),
    field("link's asking port", &LINKS.records, link::ASKING, Clause::Port),
    field("link's answering port", &LINKS.records, link::ANSWERING, Clause::Port),
    field("link's proved mark", &LINKS.records, link::PROVED, Clause::YesOrNo),
    field("link's expiry", &LINKS.records, link::EXPIRY, Clause::Time(LATEST)),
    field("return's mark", &RETURNS.records, 0, Clause::YesOrNo),
    field("return's arrival port", &RETURNS.records, returned::ARRIVAL, Clause::Port),
    field("return's leaving port", &RETURNS.records, returned::LEAVING, Clause::Port),
    field("return's expiry", &RETURNS.records, returned::EXPIRY, Clause::Time(LATEST)),
    field("hash's mark", &HASHES.records, 0, Clause::YesOrNo),
    field("hash's expiry", &HASHES.records, HASHES.expiry, Clause::Time(LATEST)),
];

/// The sections whose records are used or not.
pub const RECORDS: [(&str, &Section); 5] = [
    ("local address", &LOCALS),
    ("path", &PATHS.records),
    ("link", &LINKS.records),
    ("return", &RETURNS.records),
    ("hash", &HASHES.records),
];

/// Makes a record of a section used, with random fields that are allowed.
pub fn use_record(random: &mut Random, tables: &mut [u8], section: &Section, place: usize) {
    let record = section.get_mut(tables, place);
    record.copy_from_slice(&random.bytes(section.width));
    allow_fields(random, section, record);
    record[0] = 1;
}

/// Makes the fields that row 7 speaks of random ones that are allowed.
fn allow_fields(random: &mut Random, section: &Section, record: &mut [u8]) {
    for field in FIELDS.iter().filter(|field| field.section.start == section.start) {
        let number = field.clause.allowed(random);
        record[field.at..field.at + number.len()].copy_from_slice(&number);
    }
}

/// Which records are used.
#[derive(Clone, Copy, Debug)]
pub enum Fill {
    Empty,
    FirstHalf,
    RandomHalf,
    Full,
}

impl Fill {
    pub const ALL: [Fill; 4] = [Fill::Empty, Fill::FirstHalf, Fill::RandomHalf, Fill::Full];
}

/// Random tables that are allowed.
pub fn filled(random: &mut Random, fill: Fill) -> Vec<u8> {
    let mut tables = vec![0; SIZE];
    PORTS.iter_mut(&mut tables).for_each(|settings| allow_fields(random, &PORTS, settings));
    for (_, section) in RECORDS {
        for place in 0..section.count {
            let used = match fill {
                Fill::Empty => false,
                Fill::FirstHalf => place < section.count / 2,
                Fill::RandomHalf => random.one_in(2),
                Fill::Full => true,
            };
            if used {
                use_record(random, &mut tables, section, place);
            }
        }
    }
    tables
}

/// Sets a field of some record to a number at its clause's edge. The record is used, or made so.
pub fn set_field(random: &mut Random, tables: &mut [u8], field: &Field) {
    let place = random.below(field.section.count);
    let is_record = ![RATE.start, PORTS.start].contains(&field.section.start);
    if is_record && tables[field.section.range(place).start] == 0 {
        use_record(random, tables, field.section, place);
    }
    let number = field.clause.edge(random);
    let at = field.section.range(place).start + field.at;
    tables[at..at + number.len()].copy_from_slice(&number);
}

/// Sets a byte of an unused record, which is all zeros, to a number, 0 among them. A record that isn't unused is made so.
pub fn set_unused(random: &mut Random, tables: &mut [u8], section: &Section) {
    let record = section.get_mut(tables, random.below(section.count));
    record.fill(0);
    record[1 + random.below(section.width - 1)] = random.pick(&[0, 0, 1, 16, 128, 255]);
}

pub fn set_last_clock(random: &mut Random, tables: &mut [u8]) {
    tables[LAST_CLOCK..LAST_CLOCK + 8].copy_from_slice(&Clause::Time(LATEST).edge(random));
}

/// Sets a ring's place to one at the ring's end, on either side.
pub fn set_ring(random: &mut Random, tables: &mut [u8], at: usize) {
    let place = random.pick(match at {
        RETURN_PLACE => &[0, 255, 256, 510, 511, 512, 513, 1_023, 32_768, 65_535],
        _ => &[0, 255, 256, 1_022, 1_023, 1_024, 1_025, 32_768, 65_535],
    });
    set_ring_place(tables, at, place);
}

/// The rings, and where their places stand.
pub const RINGS: [(&str, usize); 2] = [("returns' ring place", RETURN_PLACE), ("hashes' ring place", HASH_PLACE)];
