//! Data and link requests by a path: tests 6, 7, 12 and 13.

use super::{faults, Changes, Fault};
use crate::packet::DestinationKind;
use crate::rules::*;
use crate::tables::port_on;

faults! {
    TypeOneByPath: "type 1 data with a live path goes on"
    breaks "No way on: a type 1 data packet or link request not of kind link" {
        not_to_be_relayed = |_, _| false,
    }
    SingleByPathOnly: "only kind single goes by a path"
    breaks "a type 2 one without a live path" {
        not_to_be_relayed = |_, packet| by_path::not_to_be_relayed(packet) || packet.header().destination_kind() != DestinationKind::Single,
    }
    PathLivesAtExpiry: "a path is live at its expiry"
    breaks "A record is live while clock < its expiry" {
        live_path = |rules, packet, tables| by_path::live_path(rules, &Packet { clock: packet.clock.saturating_sub(1), ..*packet }, tables),
    }
    OffPortNoWay: "a path by a port that is off is no way on"
    breaks "Port off: the port to leave by." {
        path_to = |rules, packet, tables| match by_path::path_to(rules, packet, tables) {
            Ok(path) if !port_on(tables, path.port) => Err(no_way_on(NoWay::NoPath)),
            path => path,
        },
    }
    RoomBeforePort: "test 13 is made before test 12"
    breaks "Tests in order; the first that holds gives the drop." {
        request_tests = |rules, packet, id, path, tables| match by_path::request_tests(rules, packet, id, path, tables) {
            Err(Reason::PortOff) if rules.link_slot(packet.clock, tables).is_none() => Err(Reason::NoRoom),
            slot => slot,
        },
    }
}
