//! Recordings: a day's packets in a file, and what a relay answers to each.

use crate::answer::{done, written_length, Refusal, Verdict};
use crate::raw::{self, ENTRY_WIDTH};

// SAFETY of every call below: what crosses is a borrow, as `raw` asks, and borrows do not overlap.

/// A packet as it came in.
#[derive(Clone, Copy, Debug, PartialEq, Eq)]
pub struct Recorded<'a> {
    /// The clock, in seconds.
    pub clock: u64,
    /// The port it came in by.
    pub port: u8,
    /// The host's word on its signature.
    pub signature: bool,
    /// The packet: where it was read, a part of the file.
    pub packet: &'a [u8],
}

/// What a relay makes of an entry: its answer, a refusal too, and its line, `1 forward 4`, without the line feed.
#[derive(Clone, Debug, PartialEq, Eq)]
pub struct Replayed {
    /// The answer. A length is that of a packet that leaves; a replay does not give its bytes.
    pub answer: Result<Verdict, Refusal>,
    /// The line.
    pub line: String,
}

/// Whether a file is a recording. Refusals 20, 21, 22 and 23.
pub fn check_recording(file: &[u8]) -> Result<(), Refusal> {
    done(unsafe { raw::haskumye_check_recording(file.as_ptr(), file.len()) })
}

/// The entries of a recording, in order. Refusals 20, 21, 22 and 23.
///
/// ```
/// use haskumye::Recorded;
///
/// let day = [Recorded { clock: 1_000, port: 3, signature: false, packet: b"one packet" }];
/// let mut room = [0; haskumye::RECORDING_SIZE];
/// let length = haskumye::write_recording(&day, &mut room)?;
/// assert!(haskumye::entries(&room[..length])?.eq(day));
/// # Ok::<(), haskumye::Refusal>(())
/// ```
pub fn entries(file: &[u8]) -> Result<Entries<'_>, Refusal> {
    check_recording(file)?;
    let count = unsafe { raw::haskumye_recording_count(file.as_ptr(), file.len()) };
    Ok(Entries { file, next: 0, count: count as u64 })
}

/// The entries of a recording, in order.
#[derive(Clone, Debug)]
pub struct Entries<'a> {
    file: &'a [u8], // a recording
    next: u64,
    count: u64,
}

impl<'a> Iterator for Entries<'a> {
    type Item = Recorded<'a>;

    fn next(&mut self) -> Option<Recorded<'a>> {
        let mut entry = raw::Entry::default();
        done(unsafe { raw::haskumye_recording_entry(self.file.as_ptr(), self.file.len(), self.next, &mut entry) }).ok()?;
        self.next += 1;
        let (start, length) = (entry.start as usize, entry.length as usize);
        let packet = &self.file[start..start + length];
        Some(Recorded { clock: entry.clock, port: entry.port as u8, signature: entry.signed_well == 1, packet })
    }

    fn size_hint(&self) -> (usize, Option<usize>) {
        let left = (self.count - self.next) as usize;
        (left, Some(left))
    }
}

impl ExactSizeIterator for Entries<'_> {}

/// Writes a recording at the room's start, and gives its length. Refusal 5 for a clock of 2^40 or more, 20 for a file over [`crate::RECORDING_SIZE`],
/// 25 for too little room, in this order over all entries.
pub fn write_recording(entries: &[Recorded], room: &mut [u8]) -> Result<usize, Refusal> {
    let mut given = Vec::with_capacity(entries.len() * ENTRY_WIDTH);
    for entry in entries {
        // A packet over 65,535 bytes makes any file too long: entries and bodies then don't add up, which is refused by 20 as well.
        let length = u16::try_from(entry.packet.len()).unwrap_or(u16::MAX);
        given.extend(entry.clock.to_be_bytes());
        given.extend([entry.port, entry.signature.into()]);
        given.extend(length.to_be_bytes());
    }
    let bodies: Vec<u8> = entries.iter().flat_map(|entry| entry.packet).copied().collect();
    let (room, size) = (room.as_mut_ptr(), room.len());
    let written = unsafe { raw::haskumye_write_recording(given.as_ptr(), given.len(), bodies.as_ptr(), bodies.len(), room, size) };
    written_length(written)
}
