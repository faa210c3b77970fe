//! Port settings and local addresses.

use crate::host::Host;
use haskumye_independent::engine::Outcome;
use haskumye_independent::tables::{find_local, LOCALS, PORTS};

crate::on_both_programs!(
    setting_a_port(ModeThreeAllowed),
    local_addresses(LocalsAtTheEnd),
    an_address_of_zeros_is_an_address(ZeroAddressLocal),
);

fn setting_a_port(host: &mut Host) {
    assert_eq!(host.set_port(15, true, 2), Outcome::Done);
    assert_eq!(host.tables[PORTS.range(15)], [1, 2, 1, 0xf4]);
    assert_eq!(host.set_port(15, false, 1), Outcome::Done);
    assert_eq!(host.tables[PORTS.range(15)], [0, 1, 1, 0xf4]);
    let before = host.tables.clone();
    for (port, mode) in [(16, 0), (u64::MAX, 0), (0, 3), (0, u64::MAX)] {
        assert_eq!(host.set_port(port, true, mode), Outcome::Refused(9));
    }
    assert_eq!(host.program.set_port(&mut host.tables[1..], 16, true, 0, 500), Outcome::Refused(7));
    assert!(host.tables == before);
}

fn local_addresses(host: &mut Host) {
    for number in 0..16 {
        assert_eq!(host.add_local(&[number; 16]), Outcome::Done);
    }
    assert_eq!(host.add_local(&[3; 16]), Outcome::Refused(11));
    assert_eq!(host.add_local(&[16; 16]), Outcome::Refused(10));
    assert_eq!(host.remove_local(&[16; 16]), Outcome::Refused(11));
    assert_eq!(host.remove_local(&[4; 16]), Outcome::Done);
    assert_eq!(host.remove_local(&[15; 16]), Outcome::Done);
    assert_eq!(host.tables[LOCALS.range(4)], [0; 17]);
    assert_eq!(host.add_local(&[20; 16]), Outcome::Done);
    assert_eq!(find_local(&host.tables, &[20; 16]), Some(4));
    assert_eq!(find_local(&host.tables, &[14; 16]), Some(14));
}

fn an_address_of_zeros_is_an_address(host: &mut Host) {
    assert_eq!(host.remove_local(&[0; 16]), Outcome::Refused(11));
    assert_eq!(host.add_local(&[0; 16]), Outcome::Done);
    assert_eq!(host.add_local(&[0; 16]), Outcome::Refused(11));
    assert_eq!(host.remove_local(&[0; 16]), Outcome::Done);
}
