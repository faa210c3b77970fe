//! The calls that build announces: on the independent program here, on the proved core in `linked`. Numbers and buffers are as the library's.

use crate::announcing::{build, signing_bytes, Own};
use crate::answer::Refusal;
use crate::relay::Relay;
use crate::rules::Rules;

/// Each gives the refusal in the low 16 bits and the length in those above; the bytes go to the room's start.
pub trait AnnounceCalls {
    fn signing_bytes(&self, own: &Own, room: &mut [u8]) -> u32;
    fn build_announce(&self, own: &Own, signature: &[u8], room: &mut [u8]) -> u32;
}

fn number(result: Result<usize, Refusal>) -> u32 {
    result.map_or_else(|refusal| refusal.number().into(), |length| (length as u32) << 16)
}

impl<R: Rules> AnnounceCalls for Relay<R> {
    fn signing_bytes(&self, own: &Own, room: &mut [u8]) -> u32 {
        number(signing_bytes(&self.rules, &self.sha, own, room))
    }

    fn build_announce(&self, own: &Own, signature: &[u8], room: &mut [u8]) -> u32 {
        number(build(&self.rules, &self.sha, own, signature, room))
    }
}
