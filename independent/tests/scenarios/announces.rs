//! Announces, and the paths that they leave.

use crate::host::{announce, destination, Host};
use haskumye_independent::answer::{Reason, Verdict};
use haskumye_independent::tables::path;

crate::on_both_programs!(
    the_signature_word_counts_before_replay(SignatureAfterReplay),
    a_new_path_takes_the_lowest_expired_slot(NewPathOwnSlot),
    there_is_room_for_64_paths(KnownPathNeedsRoom),
);

fn the_signature_word_counts_before_replay(host: &mut Host) {
    host.verdict(&announce(1, 0x01, 3, 5, 200), 0, 10);
    assert_eq!(host.judged(&announce(1, 0x01, 3, 5, 201), 0, 10, false), Verdict::Drop(Reason::BadSignature));
    assert_eq!(host.judged(&announce(1, 0x01, 2, 9, 202), 0, 10, false), Verdict::Drop(Reason::BadSignature));
    assert_eq!(host.verdict(&announce(1, 0x01, 3, 5, 203), 0, 10), Verdict::Drop(Reason::Replay));
}

fn a_new_path_takes_the_lowest_expired_slot(host: &mut Host) {
    host.verdict(&announce(1, 0x01, 3, 1, 200), 1, 10);
    host.verdict(&announce(2, 0x01, 3, 1, 200), 1, 11);
    let expired = host.path(1).to_vec();
    assert_eq!(host.verdict(&announce(2, 0x01, 9, 1, 201), 0, 30_000), Verdict::Spread(0b1110));
    assert_eq!(host.path(0)[1..17], destination(2));
    assert_eq!(host.path(0)[path::BLOB_COUNT], 1);
    assert_eq!(host.path(1), expired);
}

fn there_is_room_for_64_paths(host: &mut Host) {
    for station in 0..64 {
        assert_eq!(host.verdict(&announce(station, 0x01, 3, 1, 200), 0, 10), Verdict::Spread(0b1110));
    }
    assert_eq!(host.verdict(&announce(64, 0x01, 3, 1, 200), 0, 10), Verdict::Drop(Reason::NoRoom));
    assert_eq!(host.verdict(&announce(63, 0x01, 3, 2, 200), 0, 10), Verdict::Spread(0b1110));
}
