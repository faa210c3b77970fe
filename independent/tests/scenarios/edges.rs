//! Document 01's edges, starred and not. What concerns a packet's bytes alone stands in `packets.rs` too.

use crate::host::{announce, destination, lost, to_station, type_1, Host, BEFORE, NEIGHBOUR, OWN};
use haskumye_independent::answer::{no_way_on, Answer, NoWay, Reason, Verdict};
use haskumye_independent::engine::Outcome;
use haskumye_independent::tables::{self, path, HASH_PLACE};

crate::on_both_programs!(
    lengths_and_the_access_code(LongestRefused),
    a_roaming_path_lives_until_22_600(PathLivesAtExpiry),
    a_hash_is_a_duplicate_until_1_300(HashLivesAtExpiry),
    header_52_leaves_as_02_on_the_last_hop(HeaderKeptOnLastHop),
    header_21_spreads_as_71(SpreadClearsFlag),
    hops_127_leave_as_128_and_128_are_dropped(HopsLimitHigher),
    an_announce_of_484_bytes_spreads_and_485_is_kept(SpreadLimitLower),
);

fn lengths_and_the_access_code(host: &mut Host) {
    let mut call = |header: u8, length: usize| {
        let mut packet = vec![0; length];
        packet[0] = header;
        host.call(&packet, 0, 10, true)
    };
    let dropped = |reason| Outcome::Judged(Answer::silent(Verdict::Drop(reason)));
    assert_eq!(call(0x00, 18), Outcome::Refused(1));
    assert_eq!(call(0x00, 19), dropped(no_way_on(NoWay::NotAsking)));
    assert_eq!(call(0x40, 34), Outcome::Refused(1));
    assert_eq!(call(0x40, 35), dropped(Reason::NotOurs));
    assert_eq!(call(0x00, 500), dropped(no_way_on(NoWay::NotAsking)));
    assert_eq!(call(0x00, 501), Outcome::Refused(2));
    assert_eq!(call(0x80, 19), Outcome::Refused(3));
}

fn a_roaming_path_lives_until_22_600(host: &mut Host) {
    assert_eq!(host.verdict(&announce(1, 0x01, 0, 5, 200), 1, 1_000), Verdict::Spread(0b1101));
    assert_eq!(host.verdict(&to_station(1, 0x40, 0, b"a"), 0, 22_599), Verdict::Forward(1));
    assert_eq!(host.verdict(&to_station(1, 0x40, 0, b"b"), 0, 22_600), lost(NoWay::OnlyExpired { expiry: 22_600 }));
    assert_eq!(host.tally, [3, 1, 0, 1, 1, 0]);
}

fn a_hash_is_a_duplicate_until_1_300(host: &mut Host) {
    let packet = type_1(0, 0, [9; 16], 0, b"x");
    assert_eq!(host.verdict(&packet, 0, 1_000), lost(NoWay::NotAsking));
    assert_eq!(host.verdict(&packet, 0, 1_299), Verdict::Drop(Reason::Duplicate));
    assert_eq!(host.verdict(&packet, 0, 1_300), lost(NoWay::NotAsking));
    assert_eq!(tables::ring_place(&host.tables, HASH_PLACE), 2);
}

fn header_52_leaves_as_02_on_the_last_hop(host: &mut Host) {
    host.verdict(&announce(1, 0x01, 0, 5, 200), 3, 10);
    host.output = BEFORE;
    let answer = host.call(&to_station(1, 0x52, 4, &[1; 64]), 0, 10, false);
    assert_eq!(answer, Outcome::Judged(Answer { verdict: Verdict::Forward(3), length: 83 }));
    assert_eq!(host.output[..2], [0x02, 5]);
    assert_eq!(host.output[2..18], destination(1));
    assert_eq!(host.output[19..83], [1; 64]);
    assert_eq!(host.output[83..], BEFORE[83..]);
}

fn header_21_spreads_as_71(host: &mut Host) {
    let packet = announce(1, 0x21, 7, 5, 199);
    let answer = host.call(&packet, 0, 10, true);
    assert_eq!(answer, Outcome::Judged(Answer { verdict: Verdict::Spread(0b1110), length: 215 }));
    assert_eq!(host.output[..2], [0x71, 8]);
    assert_eq!(host.output[2..18], OWN);
    assert_eq!(host.output[18..34], destination(1));
    assert_eq!(host.output[35..215], packet[19..]);
    assert_eq!(host.path(0)[path::NEXT_HOP..path::EXPIRY], destination(1));
}

fn hops_127_leave_as_128_and_128_are_dropped(host: &mut Host) {
    assert_eq!(host.verdict(&announce(1, 0x41, 127, 5, 200), 3, 10), Verdict::Spread(0b0111));
    assert_eq!(host.output[1], 128);
    assert_eq!(host.verdict(&announce(2, 0x41, 128, 5, 200), 3, 10), Verdict::Drop(Reason::TooManyHops));
    assert_eq!(host.verdict(&to_station(1, 0x40, 127, b"a"), 0, 10), Verdict::Forward(3));
    assert_eq!(host.output[..2], [0x40, 128]);
    assert_eq!(host.output[2..18], NEIGHBOUR);
    assert_eq!(host.verdict(&to_station(1, 0x40, 128, b"b"), 0, 10), Verdict::Drop(Reason::TooManyHops));
}

fn an_announce_of_484_bytes_spreads_and_485_is_kept(host: &mut Host) {
    let answer = host.call(&announce(1, 0x01, 0, 5, 484), 0, 10, true);
    assert_eq!(answer, Outcome::Judged(Answer { verdict: Verdict::Spread(0b1110), length: 500 }));
    host.output = BEFORE;
    assert_eq!(host.verdict(&announce(2, 0x01, 0, 5, 485), 0, 10), Verdict::Kept);
    assert_eq!(host.output, BEFORE);
    assert_eq!(host.path(1)[1..17], destination(2));
    assert_eq!(host.tally, [2, 0, 0, 0, 1, 1]);
}
