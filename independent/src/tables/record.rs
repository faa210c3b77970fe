//! What records hold, read from their bytes and written to them.

use super::{link, path, port, rate, returned, set_key, set_setting, set_time, setting, size, time, KEY, RATE};
use crate::packet::{address, Address};

/// A blob's bytes.
pub const BLOB: usize = 10;

/// A port's mode.
#[derive(Clone, Copy, Debug, PartialEq, Eq)]
pub enum Mode {
    Boundary,
    AccessPoint,
    Roaming,
}

impl Mode {
    pub fn from_number(number: u64) -> Option<Self> {
        match number {
            0 => Some(Mode::Boundary),
            1 => Some(Mode::AccessPoint),
            2 => Some(Mode::Roaming),
            _ => None,
        }
    }
}

/// The settings of a port.
#[derive(Clone, Copy, Debug, PartialEq, Eq)]
pub struct Port {
    pub on: bool,
    pub mode: Mode,
    /// The longest packet that it carries.
    pub size: usize,
}

impl Port {
    pub fn read(settings: &[u8]) -> Self {
        let mode = Mode::from_number(u64::from(settings[port::MODE])).expect("checked tables hold known modes");
        Self { on: settings[port::ON] == 1, mode, size: size(settings) }
    }

    pub fn write(&self, settings: &mut [u8]) {
        settings[port::ON] = u8::from(self.on);
        settings[port::MODE] = self.mode as u8;
        settings[port::SIZE..port::WIDTH].copy_from_slice(&(self.size as u16).to_be_bytes());
    }
}

/// The announce rate: "target interval, grace and penalty, set for the relay."
#[derive(Clone, Copy, Debug, PartialEq, Eq)]
pub struct AnnounceRate {
    pub target: u64,
    pub grace: u64,
    pub penalty: u64,
}

impl AnnounceRate {
    /// That of a relay's tables.
    pub fn read(tables: &[u8]) -> Self {
        let settings = RATE.get(tables, 0);
        Self { target: setting(settings, rate::TARGET), grace: setting(settings, rate::GRACE), penalty: setting(settings, rate::PENALTY) }
    }

    pub fn write(&self, tables: &mut [u8]) {
        let settings = RATE.get_mut(tables, 0);
        set_setting(settings, rate::TARGET, self.target);
        set_setting(settings, rate::GRACE, self.grace);
        set_setting(settings, rate::PENALTY, self.penalty);
    }
}

/// "Last accepted announce, violations and blocked-until live in the path record"
#[derive(Clone, Copy, Debug, Default, PartialEq, Eq)]
pub struct RateEntry {
    pub last: u64,
    pub violations: u8,
    pub blocked_until: u64,
}

impl RateEntry {
    pub fn read(path: &[u8]) -> Self {
        Self { last: time(path, path::LAST_ANNOUNCE), violations: path[path::VIOLATIONS], blocked_until: time(path, path::BLOCKED_UNTIL) }
    }

    pub fn write(&self, path: &mut [u8]) {
        set_time(path, path::LAST_ANNOUNCE, self.last);
        path[path::VIOLATIONS] = self.violations;
        set_time(path, path::BLOCKED_UNTIL, self.blocked_until);
    }
}

/// A path, but for its rate entry, its mark and its blobs.
#[derive(Clone, Copy, Debug)]
pub struct Path {
    pub destination: Address,
    pub port: u8,
    pub hops: u8,
    pub next_hop: Address,
    pub expiry: u64,
}

impl Path {
    pub fn read(record: &[u8]) -> Self {
        Self {
            destination: address(&record[KEY..path::PORT]),
            port: record[path::PORT],
            hops: record[path::HOPS],
            next_hop: address(&record[path::NEXT_HOP..path::EXPIRY]),
            expiry: time(record, path::EXPIRY),
        }
    }

    pub fn write(&self, record: &mut [u8]) {
        set_key(record, &self.destination);
        record[path::PORT] = self.port;
        record[path::HOPS] = self.hops;
        record[path::NEXT_HOP..path::EXPIRY].copy_from_slice(&self.next_hop);
        set_time(record, path::EXPIRY, self.expiry);
    }
}

/// The blobs that a path holds, oldest first.
pub fn blobs(path: &[u8]) -> impl Iterator<Item = &[u8]> {
    let count = usize::from(path[path::BLOB_COUNT]);
    path[path::BLOBS..].chunks_exact(BLOB).take(count)
}

/// A link. "Taken hops (the request's) and remaining hops (the path's) are kept apart"
#[derive(Clone, Copy, Debug)]
pub struct Link {
    pub id: Address,
    pub asking: u8,
    pub answering: u8,
    pub taken: u8,
    pub remaining: u8,
    pub proved: bool,
    pub expiry: u64,
}

impl Link {
    pub fn read(record: &[u8]) -> Self {
        Self {
            id: address(&record[KEY..link::ASKING]),
            asking: record[link::ASKING],
            answering: record[link::ANSWERING],
            taken: record[link::TAKEN],
            remaining: record[link::REMAINING],
            proved: record[link::PROVED] == 1,
            expiry: time(record, link::EXPIRY),
        }
    }

    pub fn write(&self, record: &mut [u8]) {
        set_key(record, &self.id);
        record[link::ASKING] = self.asking;
        record[link::ANSWERING] = self.answering;
        record[link::TAKEN] = self.taken;
        record[link::REMAINING] = self.remaining;
        record[link::PROVED] = u8::from(self.proved);
        set_time(record, link::EXPIRY, self.expiry);
    }
}

/// A return record.
#[derive(Clone, Copy, Debug)]
pub struct Return {
    pub key: Address,
    pub arrival: u8,
    pub leaving: u8,
    pub expiry: u64,
}

impl Return {
    pub fn read(record: &[u8]) -> Self {
        Self {
            key: address(&record[KEY..returned::ARRIVAL]),
            arrival: record[returned::ARRIVAL],
            leaving: record[returned::LEAVING],
            expiry: time(record, returned::EXPIRY),
        }
    }

    pub fn write(&self, record: &mut [u8]) {
        set_key(record, &self.key);
        record[returned::ARRIVAL] = self.arrival;
        record[returned::LEAVING] = self.leaving;
        set_time(record, returned::EXPIRY, self.expiry);
    }
}
