//! The calls on a relay: document 01's "Judging a packet", a file for each kind of packet, and the calls that need none.

pub mod accept;
pub mod announces;
pub mod asking;
pub mod by_path;
pub mod form;
pub mod judge;
pub mod links;
pub mod marks;
pub mod outgoing;
pub mod rate;
pub mod renumbering;
pub mod returns;
pub mod settings;

use crate::answer::{Answer, Refusal, Tally};
use crate::packet::{Header, PacketHash, Parts};
use crate::rules::{AsWritten, Rules};
use crate::sha256::Sha256;

/// What a packet call brings besides the tables, the tally and the output.
#[derive(Clone, Copy, Debug)]
pub struct Arrival<'a> {
    pub packet: &'a [u8],
    pub port: u64,
    pub clock: u64,
    /// The host's word on the signature.
    pub signature: bool,
}

/// An accepted packet, and what came with it.
pub struct Packet<'a> {
    pub bytes: &'a [u8],
    pub parts: Parts,
    pub payload: &'a [u8],
    pub port: u8,
    pub clock: u64,
    pub signature: bool,
    /// Zeros until test 1 is passed, and of a packet that is exempt from test 2.
    pub hash: PacketHash,
    /// What its hashes are worked out with.
    pub sha: &'a Sha256,
}

impl Packet<'_> {
    pub fn header(&self) -> Header {
        self.parts.header
    }
}

/// The independent relay. It keeps nothing between calls: all is in the caller's bytes.
pub struct Relay<R: Rules> {
    pub rules: R,
    pub sha: Sha256,
}

impl Relay<AsWritten> {
    pub fn as_written() -> Self {
        Self::new(AsWritten)
    }
}

impl<R: Rules> Relay<R> {
    pub fn new(rules: R) -> Self {
        Self { rules, sha: Sha256::default() }
    }

    /// Judges one packet: refusals 7, 6, 4, 5, 1, 2, 3, 1, or an answer.
    pub fn packet(&self, tables: &mut [u8], tally: &mut Tally, output: &mut [u8], arrival: &Arrival) -> Result<Answer, Refusal> {
        self.rules.packet_call(&self.sha, tables, tally, output, arrival)
    }
}
