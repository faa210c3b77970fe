//! Return records, and the receipts that go back by them.

use crate::host::{announce, lost, return_key, to_station, type_1, Host};
use haskumye_independent::answer::{NoWay, Reason, Verdict};
use haskumye_independent::tables::{self, RETURNS, RETURN_PLACE};

crate::on_both_programs!(a_receipt_goes_back_once(ReceiptKeepsRecord), the_same_data_later_leaves_one_live_return_record(OtherReturnsStay),);

fn a_receipt_goes_back_once(host: &mut Host) {
    host.verdict(&announce(1, 0x01, 2, 5, 200), 3, 10);
    let data = to_station(1, 0x40, 0, b"a");
    host.verdict(&data, 0, 20);
    let key = return_key(&data);
    assert_eq!(host.verdict(&type_1(0x03, 0, key, 0, b"1"), 2, 21), Verdict::Drop(Reason::WrongSide));
    assert_eq!(host.judged(&type_1(0x03, 9, key, 0, b"2"), 3, 1_819, false), Verdict::Forward(0));
    assert_eq!(host.output[..2], [0x03, 10]);
    assert_eq!(RETURNS.records.get(&host.tables, 0), [0; 27]);
    assert_eq!(host.verdict(&type_1(0x03, 0, key, 0, b"3"), 3, 1_819), lost(NoWay::NoReturn));
}

fn the_same_data_later_leaves_one_live_return_record(host: &mut Host) {
    host.verdict(&announce(1, 0x01, 2, 5, 200), 3, 10);
    let data = to_station(1, 0x40, 0, b"a");
    for (clock, used) in [(20, 1), (320, 1), (2_120, 2)] {
        assert_eq!(host.verdict(&data, 0, clock), Verdict::Forward(3));
        assert_eq!(RETURNS.records.iter(&host.tables).filter(|record| record[0] == 1).count(), used);
    }
    assert_eq!(tables::ring_place(&host.tables, RETURN_PLACE), 3);
}
