//! Packets: document 01's "Packet layout".

pub mod announced;
pub mod hash;

use crate::answer::{Refusal, When};
use crate::limits::{GREATEST_SIZE, LEAST_SIZE, LINK_PROOF, LONGEST};
use crate::rules::Rules;

pub type Address = [u8; 16];
pub type PacketHash = [u8; 32];
pub type Blob = [u8; 10];

/// Where the payload starts in type 1, which is also the shortest packet.
pub const START_1: usize = 19;
/// The same in type 2.
pub const START_2: usize = 35;

#[derive(Clone, Copy, Debug, PartialEq, Eq)]
pub enum DestinationKind {
    Single,
    Group,
    Plain,
    Link,
}

#[derive(Clone, Copy, Debug, PartialEq, Eq)]
pub enum PacketKind {
    Data,
    Announce,
    LinkRequest,
    Proof,
}

/// "Header bits (003): 7 access code, 6 type 2, 5 context flag, 4 transport, 3-2 destination kind (0 single, 1 group, 2 plain, 3 link), 1-0
/// packet kind (0 data, 1 announce, 2 link request, 3 proof)."
#[derive(Clone, Copy, Debug, Default, PartialEq, Eq)]
pub struct Header(pub u8);

impl Header {
    pub fn access_code(self) -> bool {
        self.0 & 0x80 != 0
    }

    pub fn type_2(self) -> bool {
        self.0 & 0x40 != 0
    }

    pub fn context_flag(self) -> bool {
        self.0 & 0x20 != 0
    }

    pub fn transport(self) -> bool {
        self.0 & 0x10 != 0
    }

    pub fn destination_kind(self) -> DestinationKind {
        match self.0 >> 2 & 3 {
            0 => DestinationKind::Single,
            1 => DestinationKind::Group,
            2 => DestinationKind::Plain,
            _ => DestinationKind::Link,
        }
    }

    pub fn packet_kind(self) -> PacketKind {
        match self.0 & 3 {
            0 => PacketKind::Data,
            1 => PacketKind::Announce,
            2 => PacketKind::LinkRequest,
            _ => PacketKind::Proof,
        }
    }

    pub fn is_announce(self) -> bool {
        self.packet_kind() == PacketKind::Announce
    }

    pub fn is_link_request(self) -> bool {
        self.packet_kind() == PacketKind::LinkRequest
    }

    pub fn is_proof(self) -> bool {
        self.packet_kind() == PacketKind::Proof
    }

    /// Is its destination a link?
    pub fn to_link(self) -> bool {
        self.destination_kind() == DestinationKind::Link
    }

    pub fn payload_start(self) -> usize {
        if self.type_2() {
            START_2
        } else {
            START_1
        }
    }
}

/// All of a packet but its payload.
#[derive(Clone, Copy, Debug, Default, PartialEq, Eq)]
pub struct Parts {
    pub header: Header,
    pub hops: u8,
    /// "In type 1 the relay address reads as zeros and writing ignores it"
    pub relay: Address,
    pub destination: Address,
    pub context: u8,
}

impl Parts {
    /// "a link proof (a proof of kind link, context 0xFF)"
    pub fn is_link_proof(&self) -> bool {
        self.header.is_proof() && self.header.to_link() && self.context == LINK_PROOF
    }
}

pub(crate) fn address(bytes: &[u8]) -> Address {
    bytes.try_into().expect("sixteen bytes")
}

/// "Callers of the packet reader say which size they mean": "9 also for a size outside the range, first in the reader".
pub fn read_at<R: Rules>(rules: &R, packet: &[u8], size: u64) -> Result<Parts, Refusal> {
    Refusal::Setting.when(rules.size_refused(size))?;
    read(rules, packet, size as usize)
}

/// "a size from 19 to 500"
pub fn size_refused(size: u64) -> bool {
    !(LEAST_SIZE as u64..=GREATEST_SIZE as u64).contains(&size)
}

/// Reads a packet no longer than `longest`.
pub fn read<R: Rules>(rules: &R, packet: &[u8], longest: usize) -> Result<Parts, Refusal> {
    rules.read_refusal(packet, longest)?;
    Ok(rules.parts(packet))
}

/// Rows "length under 19", "length over 500", "access code bit set" and "type 2 under 35": "refusal 2 means longer than that", which is the size.
pub fn read_refusal(packet: &[u8], longest: usize) -> Result<(), Refusal> {
    Refusal::TooShort.when(packet.len() < START_1)?;
    Refusal::TooLong.when(packet.len() > longest)?;
    Refusal::AccessCode.when(Header(packet[0]).access_code())?;
    Refusal::TooShort.when(packet.len() < Header(packet[0]).payload_start())
}

/// The parts of a packet that is long enough for its type. "Sources 001 and 003 draw the relay address after the destination; the reference
/// implementation puts it first, and so does this page."
pub fn parts(packet: &[u8]) -> Parts {
    let header = Header(packet[0]);
    let (relay, destination) =
        if header.type_2() { (address(&packet[2..18]), address(&packet[18..34])) } else { ([0; 16], address(&packet[2..18])) };
    Parts { header, hops: packet[1], relay, destination, context: packet[header.payload_start() - 1] }
}

/// Where the payload starts: "the payload handed up is a part of the caller's packet, not a copy". Bytes too short to have one have an
/// empty one.
pub fn payload_place(packet: &[u8]) -> usize {
    let start = packet.first().map_or(START_1, |header| Header(*header).payload_start());
    start.min(packet.len())
}

/// Writes a packet at the output's start and gives its length.
pub fn write<R: Rules>(rules: &R, parts: &Parts, payload: &[u8], output: &mut [u8]) -> Result<usize, Refusal> {
    rules.write_refusal(parts, payload.len(), output.len())?;
    Ok(put(parts, payload, output))
}

/// "Writing takes the parts a reading gives; it refuses 6, 2 and 3 as below."
pub fn write_refusal(parts: &Parts, payload: usize, room: usize) -> Result<(), Refusal> {
    Refusal::SmallOutput.when(room < LONGEST)?;
    Refusal::TooLong.when(parts.header.payload_start() + payload > LONGEST)?;
    Refusal::AccessCode.when(parts.header.access_code())
}

/// The bytes of a packet, of any length.
pub fn encode(parts: &Parts, payload: &[u8]) -> Vec<u8> {
    let mut bytes = vec![0; parts.header.payload_start() + payload.len()];
    put(parts, payload, &mut bytes);
    bytes
}

/// Writes a packet that fits into the output.
pub fn put(parts: &Parts, payload: &[u8], output: &mut [u8]) -> usize {
    let start = parts.header.payload_start();
    output[0] = parts.header.0;
    output[1] = parts.hops;
    if parts.header.type_2() {
        output[2..18].copy_from_slice(&parts.relay);
        output[18..34].copy_from_slice(&parts.destination);
    } else {
        output[2..18].copy_from_slice(&parts.destination);
    }
    output[start - 1] = parts.context;
    let length = start + payload.len();
    output[start..length].copy_from_slice(payload);
    length
}
