//! The kinds of packet calls: each puts the records that it needs into a scene's tables and says what must be answered.

use crate::scene::{hash_of, Scene, CLOCK, OWN};
use haskumye_independent::answer::{no_way_on, NoWay, Reason, Refusal, Verdict};
use haskumye_independent::limits;
use haskumye_independent::packet::{announced, Address, START_1};
use haskumye_independent::sha256::Sha256;
use haskumye_independent::tables::{link, path, returned, set_time, AnnounceRate, RateEntry, BLOB, HASHES, LINKS, PATHS, RETURNS};

/// The port that data and requests come in by, and the one they leave by; what answers them goes the other way.
const ARRIVAL: u8 = 1;
const LEAVING: u8 = 2;
/// The ports that an announce is spread to.
const OTHERS: u16 = !(1 << ARRIVAL);

/// Bytes of payload; a link request and its proof carry three of signalling behind keys and signature.
const DATA: usize = 100;
const ANNOUNCE: usize = 164;
const LINK_REQUEST: usize = 67;
const LINK_PROOF: usize = 99;
const PROOF: usize = 64;
const KEEPALIVE: usize = 1;
/// The context of a keepalive, by source 005.
const KEEPALIVE_CONTEXT: u8 = 0xfa;

/// A packet call on a scene's tables.
pub struct Call {
    pub packet: Vec<u8>,
    pub port: u8,
    pub expected: Result<Verdict, Refusal>,
}

fn arriving(packet: Vec<u8>, verdict: Verdict) -> Call {
    Call { packet, port: ARRIVAL, expected: Ok(verdict) }
}

pub type Kind = fn(&mut Scene) -> Call;

pub const KINDS: &[(&str, Kind)] = &[
    ("data, last hop", data_on_last_hop),
    ("data, onward", data_onward),
    ("data, delivered", data_delivered),
    ("data, no way on (drop 6)", data_without_path),
    ("data, expired path (drop 6.3)", data_by_expired_path),
    ("data, not ours (drop 1)", data_not_ours),
    ("data, duplicate (drop 2)", data_again),
    ("announce, new path, spread", announce_new),
    ("announce, known path, spread", announce_known),
    ("announce, replay (drop 10)", announce_again),
    ("announce, too often (drop 15)", announce_too_often),
    ("announce, dead path, spread", announce_reviving),
    ("link request, onward", link_request),
    ("link proof", link_proof),
    ("link data to the answering side", link_data_asking),
    ("link data to the asking side", link_data_answering),
    ("ordinary proof", ordinary_proof),
    ("access code set (refusal 3)", access_code),
];

/// Puts in a path of these hops to a random destination.
fn path_of(scene: &mut Scene, hops: u8) -> Address {
    let destination = scene.random.array();
    scene.put(&PATHS, &destination, &[(path::PORT, LEAVING), (path::HOPS, hops)]);
    destination
}

fn data_on_last_hop(scene: &mut Scene) -> Call {
    let destination = path_of(scene, 0);
    arriving(scene.packet(0x50, destination, DATA), Verdict::Forward(LEAVING))
}

fn data_onward(scene: &mut Scene) -> Call {
    let destination = path_of(scene, 3);
    arriving(scene.packet(0x50, destination, DATA), Verdict::Forward(LEAVING))
}

fn data_delivered(scene: &mut Scene) -> Call {
    let destination = scene.random.array();
    scene.put_local(&destination);
    arriving(scene.packet(0x00, destination, DATA), Verdict::Deliver)
}

pub fn data_without_path(scene: &mut Scene) -> Call {
    let destination = scene.random.array();
    arriving(scene.packet(0x50, destination, DATA), Verdict::Drop(no_way_on(NoWay::NoPath)))
}

fn data_by_expired_path(scene: &mut Scene) -> Call {
    let destination = scene.random.array();
    let record = scene.put(&PATHS, &destination, &[(path::PORT, LEAVING)]);
    set_time(record, path::EXPIRY, CLOCK);
    arriving(scene.packet(0x50, destination, DATA), Verdict::Drop(no_way_on(NoWay::OnlyExpired { expiry: CLOCK })))
}

fn data_not_ours(scene: &mut Scene) -> Call {
    let destination = path_of(scene, 3);
    let mut packet = scene.packet(0x50, destination, DATA);
    // the last byte of the relay address
    packet[17] ^= 1;
    arriving(packet, Verdict::Drop(Reason::NotOurs))
}

pub fn data_again(scene: &mut Scene) -> Call {
    let destination = path_of(scene, 3);
    let packet = scene.packet(0x50, destination, DATA);
    scene.put(&HASHES, &hash_of(&packet), &[]);
    arriving(packet, Verdict::Drop(Reason::Duplicate))
}

/// An announce with this emission, and its destination.
fn announce(scene: &mut Scene, emission: u64) -> (Vec<u8>, Address) {
    let mut packet = scene.packet(0x01, [0; 16], ANNOUNCE);
    let payload = &mut packet[START_1..];
    payload[announced::BLOB][5..].copy_from_slice(&emission.to_be_bytes()[3..]);
    let destination = announced::destination(&Sha256::default(), &payload[announced::KEYS], &payload[announced::NAME_HASH]);
    packet[2..18].copy_from_slice(&destination);
    (packet, destination)
}

fn announce_new(scene: &mut Scene) -> Call {
    scene.make_room(&PATHS);
    arriving(announce(scene, 5).0, Verdict::Spread(OTHERS))
}

/// A path that holds all blobs it can, of emissions from 1 on, announced now and never too often.
fn known_path<'a>(scene: &'a mut Scene, destination: &Address) -> &'a mut [u8] {
    let record = scene.put(&PATHS, destination, &[(path::HOPS, 1), (path::UNRESPONSIVE, 0)]);
    for (blob, emission) in record[path::BLOBS..].chunks_exact_mut(BLOB).zip(1u64..) {
        blob[5..].copy_from_slice(&emission.to_be_bytes()[3..]);
    }
    RateEntry { last: CLOCK, violations: 0, blocked_until: 0 }.write(record);
    record
}

fn announce_known(scene: &mut Scene) -> Call {
    let (packet, destination) = announce(scene, limits::BLOB_LIMIT as u64 + 1);
    known_path(scene, &destination);
    arriving(packet, Verdict::Spread(OTHERS))
}

fn announce_again(scene: &mut Scene) -> Call {
    announce_again_at(scene, limits::BLOB_LIMIT - 1)
}

/// A replay of the blob at this place of its path.
pub fn announce_again_at(scene: &mut Scene, place: usize) -> Call {
    let (packet, destination) = announce(scene, limits::BLOB_LIMIT as u64);
    let at = path::BLOBS + place * BLOB;
    known_path(scene, &destination)[at..at + BLOB].copy_from_slice(&packet[START_1..][announced::BLOB]);
    arriving(packet, Verdict::Drop(Reason::Replay))
}

/// In the second of the one before, which no grace allows.
fn announce_too_often(scene: &mut Scene) -> Call {
    AnnounceRate { target: 60, grace: 0, penalty: 600 }.write(&mut scene.tables);
    Call { expected: Ok(Verdict::Drop(Reason::TooOften)), ..announce_known(scene) }
}

/// The announce that a marked path holds already.
fn announce_reviving(scene: &mut Scene) -> Call {
    let (packet, destination) = announce(scene, limits::BLOB_LIMIT as u64);
    let record = known_path(scene, &destination);
    record[path::WIDTH - BLOB..].copy_from_slice(&packet[START_1..][announced::BLOB]);
    record[path::UNRESPONSIVE] = 1;
    arriving(packet, Verdict::Spread(OTHERS))
}

/// The same announce within 300 s of the first.
pub fn announce_duplicate(scene: &mut Scene) -> Call {
    let packet = announce(scene, 5).0;
    scene.put(&HASHES, &hash_of(&packet), &[]);
    arriving(packet, Verdict::Drop(Reason::Duplicate))
}

fn link_request(scene: &mut Scene) -> Call {
    scene.make_room(&LINKS);
    let destination = path_of(scene, 3);
    arriving(scene.packet(0x52, destination, LINK_REQUEST), Verdict::Forward(LEAVING))
}

/// A link that was asked for by the arrival port, one hop from either side.
fn link_of(scene: &mut Scene, proved: bool) -> Address {
    let id = scene.random.array();
    let sides = [(link::ASKING, ARRIVAL), (link::ANSWERING, LEAVING), (link::TAKEN, 1), (link::REMAINING, 1)];
    scene.put(&LINKS, &id, &sides)[link::PROVED] = u8::from(proved);
    id
}

fn link_proof(scene: &mut Scene) -> Call {
    let id = link_of(scene, false);
    let mut packet = scene.packet(0x0f, id, LINK_PROOF);
    packet[START_1 - 1] = limits::LINK_PROOF;
    Call { port: LEAVING, ..arriving(packet, Verdict::Forward(ARRIVAL)) }
}

fn link_data_asking(scene: &mut Scene) -> Call {
    let id = link_of(scene, true);
    arriving(scene.packet(0x0c, id, DATA), Verdict::Forward(LEAVING))
}

fn link_data_answering(scene: &mut Scene) -> Call {
    let id = link_of(scene, true);
    Call { port: LEAVING, ..arriving(scene.packet(0x0c, id, DATA), Verdict::Forward(ARRIVAL)) }
}

/// A keepalive, and a link packet that differs from it in the context alone and is hashed.
pub fn keepalive_and_hashed(scene: &mut Scene) -> [Call; 2] {
    let id = link_of(scene, true);
    let hashed = scene.packet(0x0c, id, KEEPALIVE);
    let mut keepalive = hashed.clone();
    keepalive[START_1 - 1] = KEEPALIVE_CONTEXT;
    [keepalive, hashed].map(|packet| arriving(packet, Verdict::Forward(LEAVING)))
}

fn ordinary_proof(scene: &mut Scene) -> Call {
    let key: Address = scene.random.array();
    scene.put(&RETURNS, &key, &[(returned::ARRIVAL, ARRIVAL), (returned::LEAVING, LEAVING)]);
    Call { port: LEAVING, ..arriving(scene.packet(0x03, key, PROOF), Verdict::Forward(ARRIVAL)) }
}

fn access_code(scene: &mut Scene) -> Call {
    Call { packet: scene.packet(0x80, OWN, DATA), port: ARRIVAL, expected: Err(Refusal::AccessCode) }
}
