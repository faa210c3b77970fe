//! Packets and hashing, which need no relay.

use crate::answer::{done, written_length, Refusal};
use crate::raw::{self, Parts};
use crate::{Address, Blob, Hash};

// SAFETY of every call below: what crosses is a borrow, as `raw` asks, and borrows do not overlap.

/// Reads the parts of a packet that is no longer than a size, from [`SHORTEST_PACKET`](crate::SHORTEST_PACKET) to
/// [`LONGEST_PACKET`](crate::LONGEST_PACKET). Refusal 9 for another size, then 1, 2 and 3.
///
/// ```
/// let packet = [&[0x0c, 0x00][..], &[0x11; 16], &[0xfa]].concat();
/// let parts = haskumye::read(&packet, haskumye::LONGEST_PACKET)?;
/// assert_eq!((parts.header, parts.destination, parts.context), (0x0c, [0x11; 16], 0xfa));
///
/// let mut output = [0; haskumye::OUTPUT_SIZE];
/// let length = haskumye::write(&parts, haskumye::payload(&packet), &mut output)?;
/// assert_eq!(output[..length], packet);
/// # Ok::<(), haskumye::Refusal>(())
/// ```
pub fn read(packet: &[u8], size: usize) -> Result<Parts, Refusal> {
    let mut parts = Parts::default();
    done(unsafe { raw::haskumye_read(packet.as_ptr(), packet.len(), size as u64, &mut parts) })?;
    Ok(parts)
}

/// The payload: a part of the packet itself. Empty where the packet is too short to have one.
pub fn payload(packet: &[u8]) -> &[u8] {
    let start = unsafe { raw::haskumye_payload_start(packet.as_ptr(), packet.len()) };
    &packet[start..]
}

/// Writes a packet at the output's start, and gives its length. Refusals 6, 2 and 3.
pub fn write(parts: &Parts, payload: &[u8], output: &mut [u8]) -> Result<usize, Refusal> {
    let written = unsafe { raw::haskumye_write(parts, payload.as_ptr(), payload.len(), output.as_mut_ptr(), output.len()) };
    written_length(written)
}

/// The packet hash. A receipt for a packet is addressed to its first 16 bytes. Refusals 1, 2 and 3.
pub fn packet_hash(packet: &[u8]) -> Result<Hash, Refusal> {
    let mut hash = Hash::default();
    done(unsafe { raw::haskumye_packet_hash(packet.as_ptr(), packet.len(), &mut hash) })?;
    Ok(hash)
}

/// The id of the link that a link request asks for. Refusals 1, 2 and 3.
pub fn link_id(packet: &[u8]) -> Result<Address, Refusal> {
    let mut id = Address::default();
    done(unsafe { raw::haskumye_link_id(packet.as_ptr(), packet.len(), &mut id) })?;
    Ok(id)
}

/// SHA-256. Refusal 2 for a message over 65,535 bytes.
pub fn sha256(message: &[u8]) -> Result<Hash, Refusal> {
    let mut hash = Hash::default();
    done(unsafe { raw::haskumye_sha256(message.as_ptr(), message.len(), &mut hash) })?;
    Ok(hash)
}

/// The destination that an announce's keys and name hash give: equal to the packet's own in an honest one.
pub fn announced_destination(payload: &[u8]) -> Address {
    let mut destination = Address::default();
    unsafe { raw::haskumye_announced_destination(payload.as_ptr(), payload.len(), &mut destination) };
    destination
}

/// The least payload of an announce with this header: 148, or 180 with the context flag.
pub fn least_announce(header: u8) -> usize {
    unsafe { raw::haskumye_least_announce(header) }
}

/// The emission time, in seconds, of an announce's blob, its payload bytes 74 to 83.
pub fn emission(blob: &Blob) -> u64 {
    unsafe { raw::haskumye_emission(blob) }
}

/// A packet as one line of words, or `refused` and the number.
pub fn line(packet: &[u8]) -> String {
    let mut text = [0; raw::TEXT_SIZE];
    let length = unsafe { raw::haskumye_line(packet.as_ptr(), packet.len(), &mut text) };
    String::from_utf8_lossy(&text[..length]).trim_end().into()
}
