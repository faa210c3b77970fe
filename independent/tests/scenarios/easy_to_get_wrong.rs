//! The four points of document 01's "Easy to get wrong", each a scenario by its name.

use crate::host::{announce, bad_form, destination, to_station, Host, NEIGHBOUR, OWN};
use haskumye_independent::answer::{Clause, Reason, Verdict};
use haskumye_independent::packet::{encode, Header, Parts};
use haskumye_independent::tables::{self, link, path, LINKS};

crate::on_both_programs!(
    a_packet_that_a_neighbour_was_asked_to_carry_is_not_remembered(NotOursRemembers),
    the_ratchet_goes_by_the_flag_bit_and_not_by_the_context_byte(RatchetFromContext),
    blobs_are_stored_at_the_limit_too(BlobsStopAtLimit),
    an_expired_path_slot_is_not_taken(ExpiredPathTaken),
    an_expired_link_slot_is_not_taken(ExpiredLinkTaken),
);

fn a_packet_that_a_neighbour_was_asked_to_carry_is_not_remembered(host: &mut Host) {
    host.verdict(&announce(1, 0x01, 2, 5, 200), 3, 10);
    let mut packet = to_station(1, 0x50, 0, b"a");
    packet[2..18].copy_from_slice(&NEIGHBOUR);
    assert_eq!(host.verdict(&packet, 0, 11), Verdict::Drop(Reason::NotOurs));
    packet[2..18].copy_from_slice(&OWN);
    assert_eq!(host.verdict(&packet, 0, 11), Verdict::Forward(3));
}

fn the_ratchet_goes_by_the_flag_bit_and_not_by_the_context_byte(host: &mut Host) {
    let mut verdict = |station: u8, header: u8, context: u8, payload: usize| {
        let parts = Parts { header: Header(header), hops: 0, relay: [0; 16], destination: destination(station), context };
        host.verdict(&encode(&parts, &vec![station; payload]), 0, 10)
    };
    // a payload too short for a ratchet: of good form without the flag, whatever the context says
    for (station, payload) in [(1, 148), (2, 164), (3, 179)] {
        assert_eq!(verdict(station, 0x01, 1, payload), Verdict::Spread(0b1110));
        assert_eq!(verdict(10 + station, 0x21, 0, payload), bad_form(Clause::AnnounceTooShort, 180));
        assert_eq!(verdict(20 + station, 0x21, 1, payload), bad_form(Clause::AnnounceTooShort, 180));
    }
    assert_eq!(verdict(4, 0x01, 1, 147), bad_form(Clause::AnnounceTooShort, 148));
    assert_eq!(verdict(5, 0x21, 0, 180), Verdict::Spread(0b1110));
}

/// Of 65 blobs the first goes and the last is stored.
fn blobs_are_stored_at_the_limit_too(host: &mut Host) {
    for emission in 1..=65 {
        assert_eq!(host.verdict(&announce(1, 0x01, 3, emission, 200), 0, 10), Verdict::Spread(0b1110));
    }
    assert_eq!(host.path(0)[path::BLOB_COUNT], 64);
    assert_eq!(host.path(0)[path::BLOBS..], std::array::from_fn::<u8, 640, _>(|i| blob_byte(2 + (i / 10) as u8, i % 10)));
    for emission in 2..=65 {
        assert_eq!(host.verdict(&announce(1, 0x01, 2, emission, 201), 0, 10), Verdict::Drop(Reason::Replay));
    }
    assert_eq!(host.verdict(&announce(1, 0x01, 3, 1, 201), 0, 10), Verdict::Drop(Reason::NotBetter));
    assert_eq!(host.verdict(&announce(1, 0x01, 2, 1, 202), 0, 10), Verdict::Spread(0b1110));
}

/// A byte of the blob that `announce` writes for an emission below 256.
fn blob_byte(emission: u8, at: usize) -> u8 {
    match at {
        0..=4 | 9 => emission,
        _ => 0,
    }
}

fn an_expired_path_slot_is_not_taken(host: &mut Host) {
    for station in 0..64 {
        host.verdict(&announce(station, 0x01, 3, 1, 200), 1, 10);
    }
    assert_eq!(host.verdict(&announce(64, 0x01, 3, 1, 200), 0, 21_609), Verdict::Drop(Reason::NoRoom));
    assert_eq!(host.verdict(&announce(65, 0x01, 3, 1, 200), 0, 21_610), Verdict::Spread(0b1110));
    assert_eq!(host.path(0)[1..17], destination(65));
    assert_eq!(host.path(1)[1..17], destination(1));
}

fn an_expired_link_slot_is_not_taken(host: &mut Host) {
    host.verdict(&announce(1, 0x41, 2, 5, 200), 3, 10);
    for number in 0..64 {
        assert_eq!(host.verdict(&to_station(1, 0x42, 0, &[number; 64]), 0, 10), Verdict::Forward(3));
    }
    assert_eq!(host.verdict(&to_station(1, 0x42, 0, &[64; 64]), 0, 27), Verdict::Drop(Reason::NoRoom));
    assert_eq!(host.verdict(&to_station(1, 0x42, 0, &[65; 64]), 0, 28), Verdict::Forward(3));
    let expiries = |place| tables::time(LINKS.records.get(&host.tables, place), link::EXPIRY);
    assert_eq!((expiries(0), expiries(1)), (46, 28));
}
