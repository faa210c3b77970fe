//! Fresh relays, port settings and local addresses.

use super::{faults, Changes, Fault};
use crate::limits::PORT_COUNT;
use crate::rules::*;
use crate::tables::{port, LOCALS, PORTS, SIZE};

/// The mode that a port of these tables has, if they have their size.
fn present_mode(tables: &[u8], port: u64) -> Option<u64> {
    let there = tables.len() == SIZE && port < PORT_COUNT as u64;
    there.then(|| u64::from(PORTS.get(tables, port as usize)[port::MODE]))
}

faults! {
    FreshPortsOn: "a fresh relay's ports are on"
    breaks "A fresh relay has its own address, all ports off and boundary, clock 0, tables empty." {
        fresh_port = |_| Port { on: true, ..settings::fresh_port() },
    }
    OffPortBoundary: "a port that is set off becomes boundary"
    breaks "16 ports, 0 to 15, each on or off and boundary, access point or roaming." {
        set_port = |rules, tables, port, on, mode, size| {
            settings::set_port(rules, tables, port, on, if on || mode > 2 { mode } else { 0 }, size)
        },
    }
    ModeThreeAllowed: "mode 3 may be set, as roaming"
    breaks "setting a port over 15 or an unknown mode" {
        set_port = |rules, tables, port, on, mode, size| {
            settings::set_port(rules, tables, port, on, if mode == 3 { 2 } else { mode }, size)
        },
    }
    OffModeUnread: "an unknown mode may be given with a port set off, and the mode stays"
    breaks "setting a port over 15 or an unknown mode" {
        set_port = |rules, tables, port, on, mode, size| {
            let present = present_mode(tables, port).filter(|_| !on && mode > 2);
            settings::set_port(rules, tables, port, on, present.unwrap_or(mode), size)
        },
    }
    LocalsAtTheEnd: "a new local address goes behind the last one while there is room"
    breaks "16 local addresses, a new one in the lowest empty place." {
        empty_local = |_, tables| {
            let behind = LOCALS.iter(tables).rposition(tables::is_used).map_or(0, |last| last + 1);
            if behind < LOCALS.count { Some(behind) } else { settings::empty_local(tables) }
        },
    }
    LocalsFullFirst: "refusal 10 is tested before refusal 11"
    breaks "(8 to 11 come after 7; 11 before 10)" {
        local_place = |rules, address, tables| {
            Refusal::LocalsFull.when(rules.empty_local(tables).is_none())?;
            settings::local_place(rules, address, tables)
        },
    }
    LocalsCloseUp: "removing a local address moves the later ones up"
    breaks "An unused or emptied record is all zeros" {
        clear_local = |_, place, tables| {
            settings::clear_local(place, tables);
            tables[LOCALS.range(place).start..LOCALS.bytes().end].rotate_left(LOCALS.width);
        },
    }
    ZeroAddressLocal: "an unused local place counts as the address of zeros"
    breaks "adding a local address already there, or removing one not there" {
        is_there = |_, address, tables| settings::is_there(address, tables) || *address == [0; 16] && LOCALS.empty(tables).is_some(),
    }
}
