//! Announces of the box's own addresses.

use crate::answer::{written_length, Refusal};
use crate::raw;

// SAFETY of every call below: what crosses is a borrow, as `raw` asks, and borrows do not overlap.

/// The parts of an announce. What is signed is [`signing_bytes`](Self::signing_bytes); [`build`](Self::build) gives the packet.
///
/// ```
/// use haskumye::Announce;
///
/// let announce = Announce { keys: &[1; 64], name_hash: &[2; 10], random: &[3; 5], clock: 1_700_000_000, app_data: b"desk", ..Announce::default() };
/// let (mut signed, mut packet) = ([0; haskumye::OUTPUT_SIZE], [0; haskumye::OUTPUT_SIZE]);
/// let length = announce.signing_bytes(&mut signed)?;
/// let signature = [4; 64]; // the host's Ed25519 over signed[..length]
/// # assert_eq!(length, 104);
/// let length = announce.build(&signature, &mut packet)?;
/// assert_eq!(haskumye::read(&packet[..length], haskumye::LONGEST_PACKET)?.destination, signed[..16]);
/// # Ok::<(), haskumye::Refusal>(())
/// ```
#[derive(Clone, Copy, Debug, Default, PartialEq, Eq)]
pub struct Announce<'a> {
    /// 64 bytes: the X25519 key, then the Ed25519 key.
    pub keys: &'a [u8],
    /// 10 bytes.
    pub name_hash: &'a [u8],
    /// 5 bytes from the system, new for each announce.
    pub random: &'a [u8],
    /// The emission time, in seconds: wall-clock time that never goes back.
    pub clock: u64,
    /// 32 bytes, or none.
    pub ratchet: &'a [u8],
    /// Up to 333 bytes, with a ratchet 301.
    pub app_data: &'a [u8],
}

impl Announce<'_> {
    /// Writes the bytes that the host signs at the room's start, and gives their length. Refusals 26, 5, 27 and 6, in this order.
    pub fn signing_bytes(&self, room: &mut [u8]) -> Result<usize, Refusal> {
        written_length(unsafe {
            raw::haskumye_announce_signing_bytes(
                self.keys.as_ptr(),
                self.keys.len(),
                self.name_hash.as_ptr(),
                self.name_hash.len(),
                self.random.as_ptr(),
                self.random.len(),
                self.clock,
                self.ratchet.as_ptr(),
                self.ratchet.len(),
                self.app_data.as_ptr(),
                self.app_data.len(),
                room.as_mut_ptr(),
                room.len(),
            )
        })
    }

    /// Writes the announce with the host's signature, 64 bytes, at the room's start, and gives its length. Refusals 26, 5, 27 and 6, in this order.
    pub fn build(&self, signature: &[u8], room: &mut [u8]) -> Result<usize, Refusal> {
        written_length(unsafe {
            raw::haskumye_build_announce(
                self.keys.as_ptr(),
                self.keys.len(),
                self.name_hash.as_ptr(),
                self.name_hash.len(),
                self.random.as_ptr(),
                self.random.len(),
                self.clock,
                self.ratchet.as_ptr(),
                self.ratchet.len(),
                self.app_data.as_ptr(),
                self.app_data.len(),
                signature.as_ptr(),
                signature.len(),
                room.as_mut_ptr(),
                room.len(),
            )
        })
    }
}
