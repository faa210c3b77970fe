//! Links.

use crate::host::{announce, bad_form, link_id, lost, to_station, type_1, Host};
use haskumye_independent::answer::{Clause, NoWay, Reason, Verdict};
use haskumye_independent::engine::Outcome;
use haskumye_independent::tables::{self, link, LINKS};

crate::on_both_programs!(a_link_is_asked_for_proved_and_used(HopsSwapped), a_port_that_is_off_comes_before_no_room(RoomBeforePort),);

fn a_link_is_asked_for_proved_and_used(host: &mut Host) {
    host.verdict(&announce(1, 0x41, 2, 5, 200), 3, 10);
    let request = to_station(1, 0x42, 4, &[1; 67]);
    let id = link_id(&request);
    assert_eq!(host.verdict(&request, 0, 100), Verdict::Forward(3));
    assert_eq!(tables::time(LINKS.records.get(&host.tables, 0), link::EXPIRY), 118);
    assert_eq!(host.verdict(&to_station(1, 0x42, 4, &[1; 64]), 0, 100), Verdict::Drop(Reason::AlreadyKnown));
    assert_eq!(host.verdict(&type_1(0x0c, 4, id, 0, b"a"), 0, 100), lost(NoWay::NotProved));
    assert_eq!(host.verdict(&type_1(0x0f, 4, id, 0xff, &[1; 99]), 0, 100), Verdict::Drop(Reason::WrongSide));
    assert_eq!(host.verdict(&type_1(0x0f, 3, id, 0xff, &[2; 99]), 3, 100), Verdict::Drop(Reason::WrongSide));
    assert_eq!(host.verdict(&type_1(0x0f, 2, id, 0xff, &[3; 98]), 3, 100), bad_form(Clause::LinkProofLength, 96));
    assert_eq!(host.verdict(&type_1(0x0f, 2, id, 0xff, &[4; 96]), 3, 117), Verdict::Forward(0));
    assert_eq!(tables::time(LINKS.records.get(&host.tables, 0), link::EXPIRY), 837);
    assert_eq!(host.verdict(&type_1(0x0f, 2, id, 0xff, &[5; 99]), 3, 117), Verdict::Drop(Reason::AlreadyKnown));
    assert_eq!(host.verdict(&type_1(0x0c, 4, id, 0, b"b"), 0, 836), Verdict::Forward(3));
    assert_eq!(host.verdict(&type_1(0x0c, 2, id, 0, b"c"), 3, 1_555), Verdict::Forward(0));
    assert_eq!(host.verdict(&type_1(0x0c, 4, id, 0, b"d"), 3, 1_555), Verdict::Drop(Reason::WrongSide));
    assert_eq!(host.verdict(&type_1(0x0c, 2, id, 0, b"e"), 3, 2_275), lost(NoWay::NoLink));
}

fn a_port_that_is_off_comes_before_no_room(host: &mut Host) {
    host.verdict(&announce(1, 0x41, 100, 5, 200), 3, 10);
    for number in 0..64 {
        assert_eq!(host.verdict(&to_station(1, 0x42, 0, &[number; 64]), 0, 10), Verdict::Forward(3));
    }
    assert_eq!(host.verdict(&to_station(1, 0x42, 0, &[64; 64]), 0, 10), Verdict::Drop(Reason::NoRoom));
    assert_eq!(host.set_port(3, false, 0), Outcome::Done);
    assert_eq!(host.verdict(&to_station(1, 0x42, 0, &[65; 64]), 0, 10), Verdict::Drop(Reason::PortOff));
}
