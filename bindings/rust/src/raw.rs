//! The library as `include/haskumye.h` declares it: the one place with its functions, constants and structs in Rust.
//!
//! A slice crosses as a pointer and a length; any length is safe. A pointer to an array or struct must be valid and not null. The buffers of
//! one call must not overlap. A call touches no other byte and keeps no pointer. The tests compare this file with the header and with the
//! exporting crate.

use crate::{Address, Blob, Hash, PortMap};

/// The version of this interface.
pub const VERSION: u32 = 6;

/// The bytes of a relay's tables, exactly.
pub const TABLE_SIZE: usize = 103032;
/// The least output buffer, however short the packet.
pub const OUTPUT_SIZE: usize = 500;
/// The shortest packet; type 2 has 35 bytes at least.
pub const SHORTEST_PACKET: usize = 19;
/// The longest packet.
pub const LONGEST_PACKET: usize = 500;
/// The longest message that is hashed.
pub const LONGEST_MESSAGE: usize = 65535;
/// The bytes of a line of text.
pub const TEXT_SIZE: usize = 160;
/// The longest recording.
pub const RECORDING_SIZE: usize = 60000;
/// The bytes of an entry as `haskumye_write_recording` takes it.
pub const ENTRY_WIDTH: usize = 12;
/// The bytes that `haskumye_save` writes, exactly.
pub const SAVED_SIZE: usize = 103108;
/// No saved file of any edition is longer.
pub const LONGEST_SAVED: usize = 524332;
/// The bytes of a second opinion's log, exactly.
pub const LOG_SIZE: usize = 32721;

/// Ports 0 to 15.
pub const PORT_COUNT: usize = 16;
/// How many local addresses a relay has room for.
pub const LOCAL_COUNT: usize = 16;
/// How many destinations with a live path.
pub const PATH_COUNT: usize = 64;
/// How many links.
pub const LINK_COUNT: usize = 64;
/// How many receipts under way.
pub const RETURN_COUNT: usize = 512;
/// How many remembered packets.
pub const HASH_COUNT: usize = 1024;
/// Every clock, in seconds, is below 2^40.
pub const CLOCK_LIMIT: u64 = 1099511627776;
/// How many accepted calls a second opinion lists.
pub const LIST_LIMIT: usize = 64;

/// How many recordings a survey reads.
pub const RECORDING_LIMIT: usize = 16;
/// How many places of lines a survey's text has.
pub const SURVEY_LINES: usize = 49;
/// How many counters a survey has.
pub const COUNTER_COUNT: usize = 79;
/// How many refusals of recordings it keeps, their number among them.
pub const REFUSAL_COUNT: usize = 18;

/// The announce rate's target, in seconds, is this at most.
pub const TARGET_LIMIT: u64 = 86400;
/// Its grace is this at most.
pub const GRACE_LIMIT: u64 = 254;
/// Its penalty, in seconds, is this at most.
pub const PENALTY_LIMIT: u64 = 604800;

/// What a question answers where there is none.
pub const NONE: u8 = 255;
/// What `haskumye_signature_matters` answers where the signature is to be verified.
pub const VERIFY: u8 = 255;

/// A port is off; every number but [`ON`] is taken so.
pub const OFF: u8 = 0;
/// A port is on.
pub const ON: u8 = 1;

/// The header's bit for a packet behind an access code.
pub const HEADER_ACCESS_CODE: u8 = 0x80;
/// The header's bit for type 2: a relay address stands before the destination.
pub const HEADER_TYPE_2: u8 = 0x40;
/// The header's context flag: in an announce, it carries a ratchet.
pub const HEADER_CONTEXT_FLAG: u8 = 0x20;
/// The header's transport bit: read by `haskumye_line` alone; what is spread has it set.
pub const HEADER_TRANSPORT: u8 = 0x10;

/// The header's mask for the destination kind.
pub const DESTINATION_KIND: u8 = 0x0c;
/// Destination kind single.
pub const DESTINATION_SINGLE: u8 = 0x00;
/// Destination kind group.
pub const DESTINATION_GROUP: u8 = 0x04;
/// Destination kind plain.
pub const DESTINATION_PLAIN: u8 = 0x08;
/// Destination kind link.
pub const DESTINATION_LINK: u8 = 0x0c;

/// The header's mask for the packet kind.
pub const PACKET_KIND: u8 = 0x03;
/// Packet kind data.
pub const PACKET_DATA: u8 = 0x00;
/// Packet kind announce.
pub const PACKET_ANNOUNCE: u8 = 0x01;
/// Packet kind link request.
pub const PACKET_LINK_REQUEST: u8 = 0x02;
/// Packet kind proof.
pub const PACKET_PROOF: u8 = 0x03;

/// A proof of kind link with this context is a link proof.
pub const CONTEXT_LINK_PROOF: u8 = 0xff;

/// Where an announce's payload has its keys: X25519, then Ed25519.
pub const ANNOUNCE_KEYS: usize = 0;
/// Where it has its name hash.
pub const ANNOUNCE_NAME_HASH: usize = 64;
/// Where it has its blob: five random bytes, five of emission time.
pub const ANNOUNCE_BLOB: usize = 74;
/// Where its blob has the emission time: five bytes, big-endian.
pub const ANNOUNCE_EMISSION: usize = 79;

/// What a call returns that refuses nothing.
pub const REFUSAL_NONE: u8 = 0;

/// An answer's kind: refused.
pub const REFUSED: u8 = 0;
/// An answer's kind: drop.
pub const DROP: u8 = 1;
/// An answer's kind: deliver.
pub const DELIVER: u8 = 2;
/// An answer's kind: forward.
pub const FORWARD: u8 = 3;
/// An answer's kind: spread.
pub const SPREAD: u8 = 4;
/// An answer's kind: kept.
pub const KEPT: u8 = 5;

/// What the header's macro gives for the port of an answer that is no forward.
pub const NO_PORT: u16 = 0xffff;

/// The parts of a packet. In type 1 the relay address reads as zeros, and writing ignores it.
#[repr(C)]
#[derive(Clone, Copy, Debug, Default, PartialEq, Eq)]
pub struct Parts {
    /// The header byte.
    pub header: u8,
    /// How many relays the packet has passed.
    pub hops: u8,
    /// The relay that type 2 asks to carry the packet.
    pub relay: Address,
    /// The destination.
    pub destination: Address,
    /// The context byte.
    pub context: u8,
}

/// The packet calls since fresh, each count modulo 2^32.
#[repr(C)]
#[derive(Clone, Copy, Debug, Default, PartialEq, Eq)]
pub struct Tally {
    /// All that were not refused.
    pub total: u32,
    /// Those that were dropped.
    pub dropped: u32,
    /// Those that were delivered.
    pub delivered: u32,
    /// Those that were forwarded.
    pub forwarded: u32,
    /// Those that were spread.
    pub spread: u32,
    /// Those that were kept.
    pub kept: u32,
}

/// An entry of a recording. Its packet is the file's part of that length, from that start on.
#[repr(C)]
#[derive(Clone, Copy, Debug, Default, PartialEq, Eq)]
pub struct Entry {
    /// The clock, in seconds.
    pub clock: u64,
    /// The port that the packet came in by.
    pub port: u64,
    /// The host's word on its signature: 1 is yes.
    pub signed_well: u64,
    /// Where the packet starts in the file.
    pub start: u64,
    /// How long it is.
    pub length: u64,
}

/// A time or clock in seconds, big-endian.
pub type Time = [u8; 8];

/// A port's size in bytes, big-endian.
pub type Size = [u8; 2];

/// A port's settings.
#[repr(C)]
#[derive(Clone, Copy, Debug, Default, PartialEq, Eq)]
pub struct PortSettings {
    /// 1 or 0.
    pub on: u8,
    /// The mode's number.
    pub mode: u8,
    /// The longest packet that it carries.
    pub size: Size,
}

/// A setting's number, big-endian.
pub type Setting = [u8; 4];

/// The announce rate's settings.
#[repr(C)]
#[derive(Clone, Copy, Debug, Default, PartialEq, Eq)]
pub struct RateSettings {
    /// The least seconds between two announces of a destination.
    pub target: Setting,
    /// How many violations are let through.
    pub grace: Setting,
    /// Seconds that a destination is blocked for beyond the target.
    pub penalty: Setting,
}

/// A path, live or not.
#[repr(C)]
#[derive(Clone, Copy, Debug, Default, PartialEq, Eq)]
pub struct PathRecord {
    /// Whom it leads to.
    pub destination: Address,
    /// The port it leads by.
    pub port: u8,
    /// How many relays are between the destination and this one.
    pub hops: u8,
    /// The relay address that its announce came with, or the destination.
    pub next_hop: Address,
    /// It is live while the clock is below.
    pub expiry: Time,
    /// The clock of its last accepted announce.
    pub last_announce: Time,
    /// Announces sooner than the target after it, less those forgiven.
    pub violations: u8,
    /// While the clock is below, its announces are dropped.
    pub blocked_until: Time,
    /// 1 where the host marked it, and no announce was taken in since; else 0.
    pub unresponsive: u8,
    /// How many blobs it holds.
    pub blob_count: u8,
}

/// A link, live or not.
#[repr(C)]
#[derive(Clone, Copy, Debug, Default, PartialEq, Eq)]
pub struct LinkRecord {
    /// The link's id.
    pub id: Address,
    /// The port of the side that asked for it.
    pub asking: u8,
    /// The port of the side that it leads to.
    pub answering: u8,
    /// How many relays are between the asking side and this one.
    pub taken_hops: u8,
    /// How many relays are between this one and the answering side.
    pub remaining_hops: u8,
    /// 1 or 0.
    pub proved: u8,
    /// It is live while the clock is below.
    pub expiry: Time,
}

/// A line of text. Zeros fill what is left, one at least.
pub type Text = [u8; TEXT_SIZE];

/// Tables, of exactly their size.
pub type Tables = [u8; TABLE_SIZE];
/// A survey's counters: packets, bytes in, bytes out and packets dropped of the sixteen ports, then the drops by each test.
pub type SurveyCounts = [u64; COUNTER_COUNT];
/// The refusals of a survey's recordings: how many were read, then of each its refusal or 0.
pub type SurveyRefusals = [u8; REFUSAL_COUNT];
/// What a second opinion keeps. Any bytes are a log.
pub type Log = [u8; LOG_SIZE];

#[allow(missing_docs)] // the header has the comments
extern "C" {
    pub fn haskumye_version() -> u32;
    pub fn haskumye_table_size() -> usize;
    pub fn haskumye_fresh(tables: *mut u8, length: usize, own: *const Address) -> u8;
    pub fn haskumye_check_tables(tables: *const u8, length: usize) -> u8;
    pub fn haskumye_set_port(tables: *mut u8, length: usize, port: u64, on: u8, mode: u64, size: u64) -> u8;
    pub fn haskumye_set_announce_rate(tables: *mut u8, length: usize, target: u64, grace: u64, penalty: u64) -> u8;
    pub fn haskumye_add_local(tables: *mut u8, length: usize, address: *const Address) -> u8;
    pub fn haskumye_remove_local(tables: *mut u8, length: usize, address: *const Address) -> u8;
    pub fn haskumye_mark_path_unresponsive(tables: *mut u8, length: usize, destination: *const Address, clock: u64) -> u8;
    pub fn haskumye_renumber(tables: *mut u8, length: usize, map: *const PortMap) -> u8;
    pub fn haskumye_packet(
        packet: *const u8,
        length: usize,
        port: u64,
        clock: u64,
        signed_well: u8,
        tables: *mut u8,
        size: usize,
        output: *mut u8,
        room: usize,
        tally: *mut Tally,
    ) -> u64;
    pub fn haskumye_answer_text(answer: u64, text: *mut Text) -> usize;

    pub fn haskumye_opinion_fresh(log: *mut Log, own: *const Address);
    pub fn haskumye_opinion_packet(
        packet: *const u8,
        length: usize,
        port: u64,
        clock: u64,
        signed_well: u8,
        log: *mut Log,
        output: *mut u8,
        room: usize,
    ) -> u64;
    pub fn haskumye_opinion_set_port(log: *mut Log, port: u64, on: u8, mode: u64, size: u64) -> u8;
    pub fn haskumye_opinion_set_announce_rate(log: *mut Log, target: u64, grace: u64, penalty: u64) -> u8;
    pub fn haskumye_opinion_add_local(log: *mut Log, address: *const Address) -> u8;
    pub fn haskumye_opinion_remove_local(log: *mut Log, address: *const Address) -> u8;
    pub fn haskumye_opinion_mark_path_unresponsive(log: *mut Log, destination: *const Address, clock: u64) -> u8;
    pub fn haskumye_opinion_renumber(log: *mut Log, map: *const PortMap) -> u8;

    pub fn haskumye_saved_size() -> usize;
    pub fn haskumye_save(tables: *const u8, tables_length: usize, tally: *const Tally, room: *mut u8, room_length: usize) -> u64;
    pub fn haskumye_load(file: *const u8, file_length: usize, tables: *mut u8, tables_length: usize, tally: *mut Tally) -> u8;

    pub fn haskumye_port(tables: *const u8, length: usize, port: u64, settings: *mut PortSettings) -> u8;
    pub fn haskumye_announce_rate(tables: *const u8, length: usize, settings: *mut RateSettings) -> u8;
    pub fn haskumye_local(tables: *const u8, length: usize, place: u64, address: *mut Address) -> u8;
    pub fn haskumye_path(tables: *const u8, length: usize, place: u64, path: *mut PathRecord) -> u8;
    pub fn haskumye_live_path(tables: *const u8, length: usize, destination: *const Address, clock: u64, path: *mut PathRecord) -> u8;
    pub fn haskumye_link(tables: *const u8, length: usize, place: u64, link: *mut LinkRecord) -> u8;
    pub fn haskumye_live_returns(tables: *const u8, length: usize, clock: u64, count: *mut u64) -> u8;
    pub fn haskumye_live_hashes(tables: *const u8, length: usize, clock: u64, count: *mut u64) -> u8;
    pub fn haskumye_last_clock(tables: *const u8, length: usize, clock: *mut u64) -> u8;
    pub fn haskumye_signature_matters(
        packet: *const u8,
        length: usize,
        port: u64,
        clock: u64,
        tables: *const u8,
        size: usize,
        room: usize,
    ) -> u8;

    pub fn haskumye_read(packet: *const u8, length: usize, size: u64, parts: *mut Parts) -> u8;
    pub fn haskumye_payload_start(packet: *const u8, length: usize) -> usize;
    pub fn haskumye_write(parts: *const Parts, payload: *const u8, length: usize, output: *mut u8, room: usize) -> u32;
    pub fn haskumye_packet_hash(packet: *const u8, length: usize, hash: *mut Hash) -> u8;
    pub fn haskumye_link_id(packet: *const u8, length: usize, id: *mut Address) -> u8;
    pub fn haskumye_announced_destination(payload: *const u8, length: usize, destination: *mut Address);
    pub fn haskumye_least_announce(header: u8) -> usize;
    pub fn haskumye_emission(blob: *const Blob) -> u64;
    pub fn haskumye_line(packet: *const u8, length: usize, text: *mut Text) -> usize;
    pub fn haskumye_sha256(message: *const u8, length: usize, out: *mut Hash) -> u8;

    pub fn haskumye_announce_signing_bytes(
        keys: *const u8,
        keys_length: usize,
        name_hash: *const u8,
        name_hash_length: usize,
        random: *const u8,
        random_length: usize,
        clock: u64,
        ratchet: *const u8,
        ratchet_length: usize,
        app_data: *const u8,
        app_data_length: usize,
        room: *mut u8,
        room_length: usize,
    ) -> u32;
    pub fn haskumye_build_announce(
        keys: *const u8,
        keys_length: usize,
        name_hash: *const u8,
        name_hash_length: usize,
        random: *const u8,
        random_length: usize,
        clock: u64,
        ratchet: *const u8,
        ratchet_length: usize,
        app_data: *const u8,
        app_data_length: usize,
        signature: *const u8,
        signature_length: usize,
        room: *mut u8,
        room_length: usize,
    ) -> u32;

    pub fn haskumye_check_recording(file: *const u8, length: usize) -> u8;
    pub fn haskumye_recording_count(file: *const u8, length: usize) -> usize;
    pub fn haskumye_recording_entry(file: *const u8, length: usize, index: u64, entry: *mut Entry) -> u8;
    pub fn haskumye_write_recording(
        entries: *const u8,
        entries_length: usize,
        bodies: *const u8,
        bodies_length: usize,
        room: *mut u8,
        room_length: usize,
    ) -> u32;
    pub fn haskumye_replay_entry(
        file: *const u8,
        length: usize,
        index: u64,
        tables: *mut u8,
        size: usize,
        tally: *mut Tally,
        line: *mut Text,
    ) -> u64;

    pub fn haskumye_survey_begin(
        file: *const u8,
        length: usize,
        start: *mut Tables,
        work: *mut Tables,
        counts: *mut SurveyCounts,
        refusals: *mut SurveyRefusals,
    ) -> u8;
    pub fn haskumye_survey_recording(
        file: *const u8,
        length: usize,
        start: *const Tables,
        work: *mut Tables,
        counts: *mut SurveyCounts,
        refusals: *mut SurveyRefusals,
    ) -> u8;
    pub fn haskumye_survey_line(counts: *const SurveyCounts, refusals: *const SurveyRefusals, place: u64, line: *mut Text) -> usize;
}
