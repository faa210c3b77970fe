//! Haskumye, the proved deciding core of a [Reticulum](https://reticulum.network) relay, for hosts in Rust.
//!
//! A [`Relay`] takes a packet, the port it came in by, the clock and the host's word on its signature, and says whether to drop, deliver,
//! forward or spread it. [`Relay::renumber`] renumbers the ports while it runs and forgets nothing. Signatures, access codes, framing and
//! timers are the host's; docs/HOST.md tells them step by step.
//!
//! The crate links `libhaskumye.a`, which `make` writes; `HASKUMYE_LIB_DIR` names the folder, by its absolute path, where that
//! is another one.

#![deny(missing_docs)]

mod announce;
mod answer;
mod opinion;
mod packet;
mod question;
pub mod raw;
mod recording;
mod relay;
mod survey;

pub use announce::Announce;
pub use answer::{BadForm, Mode, NoWayOn, PortSet, Ports, Reason, Refusal, Verdict};
pub use opinion::SecondOpinion;
pub use packet::{announced_destination, emission, least_announce, line, link_id, packet_hash, payload, read, sha256, write};
pub use question::{AnnounceRate, Link, Path, Port};
pub use raw::{
    Parts, Tally, CLOCK_LIMIT, GRACE_LIMIT, HASH_COUNT, LINK_COUNT, LIST_LIMIT, LOCAL_COUNT, LONGEST_MESSAGE, LONGEST_PACKET,
    LONGEST_SAVED, OUTPUT_SIZE, PATH_COUNT, PENALTY_LIMIT, PORT_COUNT, RECORDING_LIMIT, RECORDING_SIZE, RETURN_COUNT, SAVED_SIZE,
    SHORTEST_PACKET, TABLE_SIZE, TARGET_LIMIT,
};
pub use recording::{check_recording, entries, write_recording, Entries, Recorded, Replayed};
pub use relay::Relay;
pub use survey::Survey;

/// The address of a relay or destination, or a link's id.
pub type Address = [u8; 16];

/// A packet hash, or another SHA-256 digest.
pub type Hash = [u8; 32];

/// What tells an announce from others of its destination: five random bytes, five of emission time.
pub type Blob = [u8; 10];

/// Port i becomes port `map[i]`.
pub type PortMap = [u8; 16];
