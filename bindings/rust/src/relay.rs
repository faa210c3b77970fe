//! A relay: its tables and its tally, and the calls on them.

use crate::answer::{done, judged, written_length, Mode, Refusal, Verdict};
use crate::question::AnnounceRate;
use crate::raw::{self, Tally, SAVED_SIZE, TABLE_SIZE, TEXT_SIZE};
use crate::recording::Replayed;
use crate::{Address, PortMap};

// SAFETY of every call below: what crosses is a borrow, as `raw` asks, and borrows do not overlap.

/// A relay, which owns its tables and its tally.
///
/// Calls on one relay are made one at a time, which `&mut self` ensures. A refused call changes nothing.
///
/// ```
/// use haskumye::{Mode, Reason, Refusal, Relay, Verdict, LONGEST_PACKET, OUTPUT_SIZE};
///
/// let mut relay = Relay::fresh(&[0x0a; 16]);
/// relay.set_port(3, true, Mode::Boundary, LONGEST_PACKET)?;
/// relay.add_local(&[0x2a; 16])?;
///
/// // Data of type 1 for a local address: header, hops, destination, context, payload.
/// let packet = [&[0x00, 0x00][..], &[0x2a; 16], &[0x00], b"42 plants"].concat();
/// let mut output = [0; OUTPUT_SIZE];
/// assert_eq!(relay.packet(&packet, 3, 1_000, false, &mut output)?, Verdict::Deliver { payload: 19 });
/// assert_eq!(packet[19..], *b"42 plants");
///
/// // The same again is a duplicate, and a port that is off is refused.
/// assert_eq!(relay.packet(&packet, 3, 1_001, false, &mut output)?, Verdict::Drop(Reason::Duplicate));
/// assert_eq!(relay.packet(&packet, 4, 1_002, false, &mut output), Err(Refusal::ArrivalPort));
/// assert_eq!(relay.tally().total, 2);
/// # Ok::<(), Refusal>(())
/// ```
#[derive(Clone, PartialEq, Eq)]
pub struct Relay {
    tables: Box<[u8]>, // TABLE_SIZE bytes that refusal 7 does not name
    tally: Tally,
}

impl Relay {
    /// A fresh relay: its own address, every port off and boundary, with size 500, clock 0, all else empty.
    pub fn fresh(own: &Address) -> Self {
        same_version();
        let mut tables = vec![0; TABLE_SIZE].into_boxed_slice();
        let refused = unsafe { raw::haskumye_fresh(tables.as_mut_ptr(), tables.len(), own) };
        done(refused).expect("a fresh relay is refused only for the size of its tables");
        Self { tables, tally: Tally::default() }
    }

    /// The relay of tables and a tally that [`tables`](Self::tables) and [`tally`](Self::tally) gave. Refusal 7 where no relay has such
    /// tables.
    pub fn from_tables(tables: &[u8], tally: Tally) -> Result<Self, Refusal> {
        same_version();
        done(unsafe { raw::haskumye_check_tables(tables.as_ptr(), tables.len()) })?;
        Ok(Self { tables: tables.into(), tally })
    }

    /// The relay of a file that [`save`](Self::save) gave, of this edition or an older one. What a host put behind it is cut off first. Refusals 20,
    /// 21, 22 and 24, in this order.
    pub fn load(file: &[u8]) -> Result<Self, Refusal> {
        same_version();
        let mut tables = vec![0; TABLE_SIZE].into_boxed_slice();
        let mut tally = Tally::default();
        done(unsafe { raw::haskumye_load(file.as_ptr(), file.len(), tables.as_mut_ptr(), tables.len(), &mut tally) })?;
        Ok(Self { tables, tally })
    }

    /// The relay's tables and tally as a file, of [`SAVED_SIZE`](crate::SAVED_SIZE) bytes. It has no checksum: a host puts one behind it on a disk.
    ///
    /// ```
    /// use haskumye::Relay;
    ///
    /// let relay = Relay::fresh(&[0x0a; 16]);
    /// assert_eq!(Relay::load(&relay.save()), Ok(relay));
    /// ```
    pub fn save(&self) -> Vec<u8> {
        let mut room = vec![0; SAVED_SIZE];
        let (tables, size) = (self.tables.as_ptr(), self.tables.len());
        let length = written_length(unsafe { raw::haskumye_save(tables, size, &self.tally, room.as_mut_ptr(), room.len()) });
        room.truncate(length.expect("a relay's own tables are saved where there is room"));
        room
    }

    /// Judges a packet that came in by a port at a clock, in seconds. `signature` is the host's word on its signature, which is read only for
    /// announces and link proofs. What leaves stands at the output's start, and all other bytes of the output stay.
    pub fn packet(&mut self, packet: &[u8], port: u8, clock: u64, signature: bool, output: &mut [u8]) -> Result<Verdict, Refusal> {
        let (size, room) = (self.tables.len(), output.len());
        let (tables, output) = (self.tables.as_mut_ptr(), output.as_mut_ptr());
        let (port, signature) = (port.into(), signature.into());
        judged(unsafe {
            raw::haskumye_packet(packet.as_ptr(), packet.len(), port, clock, signature, tables, size, output, room, &mut self.tally)
        })
    }

    /// Makes the packet call of a recording's entry, counted from 0, and gives its answer and its line. Refusal 22 where the file has no such entry:
    /// then nothing changes. A replay is [`check_recording`](crate::check_recording), then this call for each entry in order.
    pub fn replay_entry(&mut self, file: &[u8], index: u64) -> Result<Replayed, Refusal> {
        let mut text = [0; TEXT_SIZE];
        let (size, tables) = (self.tables.len(), self.tables.as_mut_ptr());
        let number = unsafe { raw::haskumye_replay_entry(file.as_ptr(), file.len(), index, tables, size, &mut self.tally, &mut text) };
        let line = text.iter().take_while(|byte| !b"\0\n".contains(byte)).map(|byte| char::from(*byte)).collect();
        match judged(number) {
            Err(Refusal::FilePlace) => Err(Refusal::FilePlace),
            answer => Ok(Replayed { answer, line }),
        }
    }

    /// Sets a port on or off, its mode, and its size: the longest packet that it carries, in bytes, from
    /// [`SHORTEST_PACKET`](crate::SHORTEST_PACKET) to [`LONGEST_PACKET`](crate::LONGEST_PACKET). Records that name the port stay. Refusal 9 for
    /// a port over 15 or another size.
    pub fn set_port(&mut self, port: u8, on: bool, mode: Mode, size: usize) -> Result<(), Refusal> {
        let (port, on, mode) = (port.into(), on.into(), mode.number().into());
        done(unsafe { raw::haskumye_set_port(self.tables.as_mut_ptr(), self.tables.len(), port, on, mode, size as u64) })
    }

    /// Sets how often every destination may announce itself. Paths stay, blocked ones too. Refusal 9 for a number over its limit.
    pub fn set_announce_rate(&mut self, rate: AnnounceRate) -> Result<(), Refusal> {
        let AnnounceRate { target, grace, penalty } = rate;
        done(unsafe { raw::haskumye_set_announce_rate(self.tables.as_mut_ptr(), self.tables.len(), target, grace, penalty) })
    }

    /// Adds an address whose packets are delivered here. Refusal 11 where it is there already, 10 for a 17th.
    pub fn add_local(&mut self, address: &Address) -> Result<(), Refusal> {
        done(unsafe { raw::haskumye_add_local(self.tables.as_mut_ptr(), self.tables.len(), address) })
    }

    /// Removes one. Refusal 11 where it is not there.
    pub fn remove_local(&mut self, address: &Address) -> Result<(), Refusal> {
        done(unsafe { raw::haskumye_remove_local(self.tables.as_mut_ptr(), self.tables.len(), address) })
    }

    /// Marks a destination's live path unresponsive: what was sent by it was not answered. Packets still go by it. Of the destination's
    /// announces, one emitted no earlier than the newest held is no longer dropped by 2, 10, 11 or 15, though it came before; the first that
    /// is taken in leads the path its way, and takes the mark off. The clock is one as packets have, and from then on the last accepted.
    /// Refusal 5 for the clock, 12 where no path of the destination is live at it.
    pub fn mark_path_unresponsive(&mut self, destination: &Address, clock: u64) -> Result<(), Refusal> {
        done(unsafe { raw::haskumye_mark_path_unresponsive(self.tables.as_mut_ptr(), self.tables.len(), destination, clock) })
    }

    /// Renumbers the ports while the relay runs: port i becomes port `map[i]`, in every record, and its settings move with it. Nothing is
    /// forgotten. Refusal 8 where the map is not one-to-one on 0..15.
    pub fn renumber(&mut self, map: &PortMap) -> Result<(), Refusal> {
        done(unsafe { raw::haskumye_renumber(self.tables.as_mut_ptr(), self.tables.len(), map) })
    }

    /// The packet calls since fresh.
    pub fn tally(&self) -> &Tally {
        &self.tally
    }

    /// The tables' bytes; docs/LAYOUT.md says what lies where.
    pub fn tables(&self) -> &[u8] {
        &self.tables
    }
}

/// Panics where the archive is of another version than this crate.
pub(crate) fn same_version() {
    let (version, size) = unsafe { (raw::haskumye_version(), raw::haskumye_table_size()) };
    assert!((version, size) == (raw::VERSION, TABLE_SIZE), "libhaskumye.a is of interface {version}, this crate of {}", raw::VERSION);
}

impl Tally {
    /// The six counts, each in four bytes, big-endian.
    pub fn to_bytes(&self) -> [u8; 24] {
        let counts = [self.total, self.dropped, self.delivered, self.forwarded, self.spread, self.kept];
        let mut bytes = [0; 24];
        for (place, count) in bytes.chunks_exact_mut(4).zip(counts) {
            place.copy_from_slice(&count.to_be_bytes());
        }
        bytes
    }

    /// The tally whose [`to_bytes`](Self::to_bytes) these are.
    pub fn from_bytes(bytes: &[u8; 24]) -> Self {
        let count = |place: usize| bytes[4 * place..].iter().take(4).fold(0, |count, byte| count << 8 | u32::from(*byte));
        Self { total: count(0), dropped: count(1), delivered: count(2), forwarded: count(3), spread: count(4), kept: count(5) }
    }
}

/// The tally stands for the tables' bytes.
impl std::fmt::Debug for Relay {
    fn fmt(&self, f: &mut std::fmt::Formatter) -> std::fmt::Result {
        f.debug_struct("Relay").field("tally", &self.tally).finish_non_exhaustive()
    }
}
