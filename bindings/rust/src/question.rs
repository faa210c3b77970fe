//! What a host asks of a relay: all but the signature is told of the tables as they are.

use crate::answer::{done, Mode, Refusal};
use crate::raw::{self, LinkRecord, PathRecord, PortSettings, RateSettings, NONE, OUTPUT_SIZE, REFUSAL_NONE, VERIFY};
use crate::relay::Relay;
use crate::Address;

// SAFETY of every call below: what crosses is a borrow, as `raw` asks, and borrows do not overlap.

/// A port's settings.
#[derive(Clone, Copy, Debug, PartialEq, Eq)]
pub struct Port {
    /// Whether it carries packets.
    pub on: bool,
    /// How long a path through it lives.
    pub mode: Mode,
    /// The longest packet that it carries.
    pub size: usize,
}

/// How often a destination may announce itself, as a relay's settings. With a target of 0, as a fresh relay has, there is no limit.
#[derive(Clone, Copy, Debug, Default, PartialEq, Eq)]
pub struct AnnounceRate {
    /// The least seconds between two announces, at most [`TARGET_LIMIT`](crate::TARGET_LIMIT).
    pub target: u64,
    /// How many violations are let through, at most [`GRACE_LIMIT`](crate::GRACE_LIMIT).
    pub grace: u64,
    /// Seconds that a destination is blocked for beyond the target, at most [`PENALTY_LIMIT`](crate::PENALTY_LIMIT).
    pub penalty: u64,
}

/// A path: it is live while the clock is below its expiry.
#[derive(Clone, Copy, Debug, PartialEq, Eq)]
pub struct Path {
    /// Whom it leads to.
    pub destination: Address,
    /// The port it leads by.
    pub port: u8,
    /// How many relays are between the destination and this one.
    pub hops: u8,
    /// The relay address that its announce came with, or the destination.
    pub next_hop: Address,
    /// When it expires, in seconds.
    pub expiry: u64,
    /// The clock of its last accepted announce.
    pub last_announce: u64,
    /// Announces sooner than the target after it, less those forgiven; 255 at most.
    pub violations: u8,
    /// While the clock is below, its announces are dropped by 15.
    pub blocked_until: u64,
    /// Whether the host marked it, and no announce was taken in since.
    pub unresponsive: bool,
    /// How many blobs it holds.
    pub blob_count: u8,
}

/// A link that leads through a relay: it is live while the clock is below its expiry.
#[derive(Clone, Copy, Debug, PartialEq, Eq)]
pub struct Link {
    /// The link's id.
    pub id: Address,
    /// The port of the side that asked for it.
    pub asking: u8,
    /// The port of the side that it leads to.
    pub answering: u8,
    /// How many relays are between the asking side and this one.
    pub taken_hops: u8,
    /// How many relays are between this one and the answering side.
    pub remaining_hops: u8,
    /// Whether its proof came by.
    pub proved: bool,
    /// When it expires, in seconds.
    pub expiry: u64,
}

/// Questions. Each reads the tables alone, and `None` is said where a place is empty or outside its table.
impl Relay {
    /// A port's settings; `None` for a number over 15.
    pub fn port(&self, port: u8) -> Option<Port> {
        let settings: PortSettings = self.told(|tables, length, told| unsafe { raw::haskumye_port(tables, length, port.into(), told) })?;
        let mode = Mode::from_number(settings.mode)?;
        Some(Port { on: settings.on == raw::ON, mode, size: u16::from_be_bytes(settings.size).into() })
    }

    /// The announce rate's settings.
    pub fn announce_rate(&self) -> AnnounceRate {
        let told = self.told(|tables, length, told| unsafe { raw::haskumye_announce_rate(tables, length, told) });
        let RateSettings { target, grace, penalty } = told.expect("settings are always told");
        let [target, grace, penalty] = [target, grace, penalty].map(|setting| u32::from_be_bytes(setting).into());
        AnnounceRate { target, grace, penalty }
    }

    /// The local address at a place, below [`LOCAL_COUNT`](crate::LOCAL_COUNT).
    pub fn local(&self, place: usize) -> Option<Address> {
        self.told(|tables, length, told| unsafe { raw::haskumye_local(tables, length, place as u64, told) })
    }

    /// The path at a place, below [`PATH_COUNT`](crate::PATH_COUNT), live or not.
    pub fn path(&self, place: usize) -> Option<Path> {
        self.told(|tables, length, told| unsafe { raw::haskumye_path(tables, length, place as u64, told) }).map(path_of)
    }

    /// A destination's live path at a clock.
    pub fn live_path(&self, destination: &Address, clock: u64) -> Option<Path> {
        self.told(|tables, length, told| unsafe { raw::haskumye_live_path(tables, length, destination, clock, told) }).map(path_of)
    }

    /// The link at a place, below [`LINK_COUNT`](crate::LINK_COUNT), live or not.
    pub fn link(&self, place: usize) -> Option<Link> {
        let told = self.told(|tables, length, told| unsafe { raw::haskumye_link(tables, length, place as u64, told) });
        told.map(|LinkRecord { id, asking, answering, taken_hops, remaining_hops, proved, expiry }| Link {
            id,
            asking,
            answering,
            taken_hops,
            remaining_hops,
            proved: proved == 1,
            expiry: u64::from_be_bytes(expiry),
        })
    }

    /// How many receipts are under way at a clock.
    pub fn live_returns(&self, clock: u64) -> u64 {
        self.number(|tables, length, told| unsafe { raw::haskumye_live_returns(tables, length, clock, told) })
    }

    /// How many packets are remembered at a clock.
    pub fn live_hashes(&self, clock: u64) -> u64 {
        self.number(|tables, length, told| unsafe { raw::haskumye_live_hashes(tables, length, clock, told) })
    }

    /// The last accepted clock, 0 in a fresh relay. After a restart the clock goes on from there.
    pub fn last_clock(&self) -> u64 {
        self.number(|tables, length, told| unsafe { raw::haskumye_last_clock(tables, length, told) })
    }

    /// Whether [`packet`](Self::packet) would read the word on the signature, its output having [`OUTPUT_SIZE`] bytes: verify it only then. Else the
    /// answer is the same with either word. Refused as that call is.
    pub fn signature_matters(&self, packet: &[u8], port: u8, clock: u64) -> Result<bool, Refusal> {
        let (tables, size) = (self.tables().as_ptr(), self.tables().len());
        let told = unsafe { raw::haskumye_signature_matters(packet.as_ptr(), packet.len(), port.into(), clock, tables, size, OUTPUT_SIZE) };
        match told {
            VERIFY => Ok(true),
            refusal => done(refusal).map(|()| false),
        }
    }

    /// What a question told, if there is any.
    fn told<T: Default>(&self, ask: impl FnOnce(*const u8, usize, &mut T) -> u8) -> Option<T> {
        let mut told = T::default();
        match ask(self.tables().as_ptr(), self.tables().len(), &mut told) {
            REFUSAL_NONE => Some(told),
            NONE => None,
            refusal => panic!("a relay's own tables are refused by {refusal}"),
        }
    }

    fn number(&self, ask: impl FnOnce(*const u8, usize, &mut u64) -> u8) -> u64 {
        self.told(ask).expect("a number is always told")
    }
}

fn path_of(record: PathRecord) -> Path {
    Path {
        destination: record.destination,
        port: record.port,
        hops: record.hops,
        next_hop: record.next_hop,
        expiry: u64::from_be_bytes(record.expiry),
        last_announce: u64::from_be_bytes(record.last_announce),
        violations: record.violations,
        blocked_until: u64::from_be_bytes(record.blocked_until),
        unresponsive: record.unresponsive == 1,
        blob_count: record.blob_count,
    }
}
