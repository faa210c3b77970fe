//! The second opinion: what a relay would answer, worked out from the list of accepted calls alone.

use crate::answer::{done, judged, Mode, Refusal, Verdict};
use crate::question::AnnounceRate;
use crate::raw::{self, LOG_SIZE};
use crate::relay::same_version;
use crate::{Address, PortMap};

// SAFETY of every call below: what crosses is a borrow, as `raw` asks, and borrows do not overlap.

/// A plain engine for checking, which lists the accepted calls since fresh, up to [`LIST_LIMIT`](crate::LIST_LIMIT), and has no tables.
///
/// It is proved to answer as [`Relay`](crate::Relay) does from fresh on, output bytes too; where a relay drops by 6.3 it says 6.2. With 64 calls
/// listed it refuses every call by 28, before all other refusals. It has no load, save or replay, no questions and no tally.
///
/// ```
/// use haskumye::{Mode, Relay, SecondOpinion, LONGEST_PACKET, OUTPUT_SIZE};
///
/// let (mut relay, mut opinion) = (Relay::fresh(&[0x0a; 16]), SecondOpinion::fresh(&[0x0a; 16]));
/// relay.set_port(3, true, Mode::Boundary, LONGEST_PACKET)?;
/// opinion.set_port(3, true, Mode::Boundary, LONGEST_PACKET)?;
///
/// let packet = [&[0x00, 0x00][..], &[0x2a; 16], &[0x00], b"42 plants"].concat();
/// let mut outputs = [[0; OUTPUT_SIZE]; 2];
/// let answer = relay.packet(&packet, 3, 1_000, false, &mut outputs[0]);
/// assert_eq!(opinion.packet(&packet, 3, 1_000, false, &mut outputs[1]), answer);
/// assert_eq!(outputs[0], outputs[1]);
/// # Ok::<(), haskumye::Refusal>(())
/// ```
#[derive(Clone, PartialEq, Eq)]
pub struct SecondOpinion {
    log: Box<raw::Log>,
}

impl SecondOpinion {
    /// One that has listed nothing, of a relay with this address of its own.
    pub fn fresh(own: &Address) -> Self {
        same_version();
        let mut log: Box<raw::Log> = vec![0; LOG_SIZE].into_boxed_slice().try_into().expect("bytes of that number");
        unsafe { raw::haskumye_opinion_fresh(&mut *log, own) };
        Self { log }
    }

    /// The answer to a packet, as [`Relay::packet`](crate::Relay::packet) gives it.
    pub fn packet(&mut self, packet: &[u8], port: u8, clock: u64, signature: bool, output: &mut [u8]) -> Result<Verdict, Refusal> {
        let (port, signature) = (port.into(), signature.into());
        let (output, room) = (output.as_mut_ptr(), output.len());
        judged(unsafe { raw::haskumye_opinion_packet(packet.as_ptr(), packet.len(), port, clock, signature, &mut *self.log, output, room) })
    }

    /// Sets a port, as [`Relay::set_port`](crate::Relay::set_port) does.
    pub fn set_port(&mut self, port: u8, on: bool, mode: Mode, size: usize) -> Result<(), Refusal> {
        done(unsafe { raw::haskumye_opinion_set_port(&mut *self.log, port.into(), on.into(), mode.number().into(), size as u64) })
    }

    /// Sets how often every destination may announce itself.
    pub fn set_announce_rate(&mut self, rate: AnnounceRate) -> Result<(), Refusal> {
        let AnnounceRate { target, grace, penalty } = rate;
        done(unsafe { raw::haskumye_opinion_set_announce_rate(&mut *self.log, target, grace, penalty) })
    }

    /// Adds a local address.
    pub fn add_local(&mut self, address: &Address) -> Result<(), Refusal> {
        done(unsafe { raw::haskumye_opinion_add_local(&mut *self.log, address) })
    }

    /// Removes one.
    pub fn remove_local(&mut self, address: &Address) -> Result<(), Refusal> {
        done(unsafe { raw::haskumye_opinion_remove_local(&mut *self.log, address) })
    }

    /// Marks a destination's live path unresponsive.
    pub fn mark_path_unresponsive(&mut self, destination: &Address, clock: u64) -> Result<(), Refusal> {
        done(unsafe { raw::haskumye_opinion_mark_path_unresponsive(&mut *self.log, destination, clock) })
    }

    /// Renumbers the ports.
    pub fn renumber(&mut self, map: &PortMap) -> Result<(), Refusal> {
        done(unsafe { raw::haskumye_opinion_renumber(&mut *self.log, map) })
    }
}

/// The log's bytes are the engine's own.
impl std::fmt::Debug for SecondOpinion {
    fn fmt(&self, f: &mut std::fmt::Formatter) -> std::fmt::Result {
        f.debug_struct("SecondOpinion").finish_non_exhaustive()
    }
}
