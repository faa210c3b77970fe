//! The calls that need no relay: on the independent program here, on the proved core in `linked`. Numbers and buffers are as the library's,
//! so that what a call leaves can be compared: a refusal leaves the buffer as it was.

use crate::answer::Refusal;
use crate::core::{crossing, PartsBytes, LINE};
use crate::limits::LONGEST;
use crate::line::line;
use crate::packet::{self, announced, hash, Address, Blob, PacketHash, Parts};
use crate::relay::Relay;
use crate::rules::Rules;

pub trait PacketCalls {
    fn read(&self, packet: &[u8], size: u64, parts: &mut PartsBytes) -> u8;
    /// At most the packet's length.
    fn payload_start(&self, packet: &[u8]) -> usize;
    /// The refusal's number, or the length above 16 bits of zeros.
    fn write(&self, parts: &Parts, payload: &[u8], output: &mut [u8]) -> u64;
    fn packet_hash(&self, packet: &[u8], hash: &mut PacketHash) -> u8;
    fn link_id(&self, packet: &[u8], id: &mut Address) -> u8;
    /// Document 01 asks for it only where the payload is long enough; of a shorter one, keys and name hash are what there is of them.
    fn announced_destination(&self, payload: &[u8], destination: &mut Address);
    fn least_announce(&self, parts: &Parts) -> usize;
    fn emission(&self, blob: &Blob) -> u64;
    /// The length of the showing program's line; its text goes to the buffer, with zeros behind it.
    fn line(&self, packet: &[u8], text: &mut [u8; LINE]) -> usize;
}

/// A refusal's number, or 0 and what was asked for.
fn give<T>(result: Result<T, Refusal>, buffer: &mut T) -> u8 {
    match result {
        Ok(value) => {
            *buffer = value;
            0
        }
        Err(refusal) => refusal.number(),
    }
}

impl<R: Rules> PacketCalls for Relay<R> {
    fn read(&self, packet: &[u8], size: u64, parts: &mut PartsBytes) -> u8 {
        give(self.rules.read_at(packet, size).map(|parts| crossing(&parts)), parts)
    }

    fn payload_start(&self, packet: &[u8]) -> usize {
        self.rules.payload_place(packet)
    }

    fn write(&self, parts: &Parts, payload: &[u8], output: &mut [u8]) -> u64 {
        packet::write(&self.rules, parts, payload, output).map_or_else(|refusal| refusal.number().into(), |length| (length as u64) << 16)
    }

    fn packet_hash(&self, packet: &[u8], hash: &mut PacketHash) -> u8 {
        let payload = &packet[self.payload_start(packet)..];
        let parts = packet::read(&self.rules, packet, LONGEST);
        give(parts.map(|parts| hash::packet_hash(&self.rules, &self.sha, &parts, payload)), hash)
    }

    fn link_id(&self, packet: &[u8], id: &mut Address) -> u8 {
        let payload = &packet[self.payload_start(packet)..];
        let parts = packet::read(&self.rules, packet, LONGEST);
        give(parts.map(|parts| hash::link_id(&self.rules, &self.sha, &parts, payload)), id)
    }

    fn announced_destination(&self, payload: &[u8], destination: &mut Address) {
        let (keys, rest) = payload.split_at(payload.len().min(announced::KEYS.len()));
        *destination = self.rules.destination(&self.sha, keys, &rest[..rest.len().min(announced::NAME_HASH.len())]);
    }

    fn least_announce(&self, parts: &Parts) -> usize {
        announced::least_announce(&self.rules, parts)
    }

    fn emission(&self, blob: &Blob) -> u64 {
        self.rules.emission(blob)
    }

    fn line(&self, packet: &[u8], text: &mut [u8; LINE]) -> usize {
        let line = line(&self.rules, packet) + "\n";
        *text = [0; LINE];
        text[..line.len()].copy_from_slice(line.as_bytes());
        line.len()
    }
}
