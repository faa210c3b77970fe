//! Refusals, local addresses, and what is remembered of accepted packets.

use crate::host::{announce, destination, lost, to_station, type_1, Host, BEFORE};
use haskumye_independent::answer::{NoWay, Reason, Verdict};
use haskumye_independent::engine::Outcome;
use haskumye_independent::relay::Arrival;
use haskumye_independent::tables::{self, HASHES, HASH_PLACE};

crate::on_both_programs!(
    refusals_come_in_row_order_and_change_nothing(PortBeforeOutput),
    local_addresses_get_data_and_requests_of_any_hops(HopsBeforeLocal),
    the_hash_ring_wraps(HashesStopAtLimit),
    the_tally_wraps(TallyStops),
);

fn refusals_come_in_row_order_and_change_nothing(host: &mut Host) {
    let packet = type_1(0x80, 0, [9; 16], 0, &[0; 482]);
    host.verdict(&type_1(0, 0, [9; 16], 0, b"x"), 0, 100);
    let before = host.tables.clone();
    let worst = Arrival { packet: &packet, port: 16, clock: 99, signature: true };
    let accepted = Arrival { port: 0, clock: 100, ..worst };
    for (refusal, from, room, arrival) in [
        (7, 1, 499, worst),
        (6, 0, 499, worst),
        (4, 0, 500, worst),
        (4, 0, 500, Arrival { port: 4, ..worst }),
        (5, 0, 500, Arrival { port: 0, ..worst }),
        (5, 0, 500, Arrival { clock: 1 << 40, ..accepted }),
        (2, 0, 500, accepted),
        (3, 0, 500, Arrival { packet: &packet[..500], ..accepted }),
        (1, 0, 500, Arrival { packet: &packet[..18], ..accepted }),
    ] {
        assert_eq!(host.lend(from, room, arrival), Outcome::Refused(refusal));
    }
    assert!(host.tables == before);
    assert_eq!(host.output, BEFORE);
    assert_eq!(host.tally, [1, 1, 0, 0, 0, 0]);
}

fn local_addresses_get_data_and_requests_of_any_hops(host: &mut Host) {
    assert_eq!(host.add_local(&destination(1)), Outcome::Done);
    assert_eq!(host.verdict(&announce(1, 0x01, 200, 5, 200), 0, 10), Verdict::Drop(Reason::OwnAnnounce));
    assert_eq!(host.verdict(&type_1(0x08, 255, destination(1), 0, b"a"), 0, 10), Verdict::Deliver);
    assert_eq!(host.verdict(&to_station(1, 0x42, 128, &[0; 64]), 0, 10), Verdict::Deliver);
    assert_eq!(host.verdict(&type_1(0x0c, 0, destination(1), 0, b"a"), 0, 10), lost(NoWay::NoLink));
    assert_eq!(host.verdict(&type_1(0x03, 0, destination(1), 0, b"a"), 0, 10), lost(NoWay::NoReturn));
}

fn the_hash_ring_wraps(host: &mut Host) {
    let packet = |number: u16| type_1(0, 0, [9; 16], 0, &number.to_be_bytes());
    for number in 0..1_025 {
        assert_eq!(host.verdict(&packet(number), 0, 5), lost(NoWay::NotAsking));
    }
    assert_eq!(tables::ring_place(&host.tables, HASH_PLACE), 1);
    assert_eq!(host.verdict(&packet(1), 0, 5), Verdict::Drop(Reason::Duplicate));
    assert_eq!(host.verdict(&packet(0), 0, 5), lost(NoWay::NotAsking));
    assert!(HASHES.records.iter(&host.tables).all(|record| record[0] == 1));
}

fn the_tally_wraps(host: &mut Host) {
    host.tally = [u32::MAX; 6];
    assert_eq!(host.verdict(&type_1(0, 0, [9; 16], 0, b"x"), 0, 5), lost(NoWay::NotAsking));
    assert_eq!(host.tally, [0, 0, u32::MAX, u32::MAX, u32::MAX, u32::MAX]);
}
