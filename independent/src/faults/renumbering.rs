//! Renumbering.

use super::{faults, Changes, Fault};
use crate::rules::*;
use crate::tables::{last_clock, link, port, returned, LINKS, PORTS, RETURNS};

/// Renames the ports that stand in some fields of some records.
fn rename_some(map: &Map, table: &Table, fields: &[usize], tables: &mut [u8], some: impl Fn(&[u8]) -> bool) {
    for record in table.records.iter_mut(tables).filter(|record| some(record)) {
        renumbering::rename(map, fields, record);
    }
}

fn same(table: &Table, other: &Table) -> bool {
    table.records.start == other.records.start
}

fn inverse(map: &Map) -> Map {
    std::array::from_fn(|port| map.iter().position(|image| usize::from(*image) == port).unwrap_or(port) as u8)
}

/// Each image over 15 is one of the ports that are no image.
fn bounded(map: &Map) -> Map {
    let mut left_over = (0..16).filter(|port| !map.contains(port));
    map.map(|image| if image < 16 { image } else { left_over.next().unwrap_or(image) })
}

faults! {
    RenumberingSkipsExpired: "renumbering leaves expired records"
    breaks "Renumbering replaces every stored port, expired records' too, by its image" {
        rename_ports = |_, map, table, tables| {
            let clock = last_clock(tables);
            rename_some(map, table, table.ports, tables, |record| table.is_live(record, clock));
        },
    }
    RenumberingMapsUnused: "renumbering maps unused records' port bytes"
    breaks "An unused or emptied record is all zeros and its port field is no stored port" {
        rename_ports = |_, map, table, tables| rename_some(map, table, table.ports, tables, |_| true),
    }
    RenumberingLeavesSettings: "renumbering leaves the ports' settings"
    breaks "moves each port's settings with it" {
        move_settings = |_, _, _| {},
    }
    RenumberingLeavesOffSettings: "renumbering moves only the settings of ports that are on"
    breaks "moves each port's settings with it" {
        move_settings = |_, map, tables| {
            let before = tables.to_vec();
            for (settings, image) in PORTS.iter(&before).zip(map).filter(|(settings, _)| settings[port::ON] == 1) {
                PORTS.get_mut(tables, usize::from(*image)).copy_from_slice(settings);
            }
        },
    }
    RenumberingBackwards: "renumbering maps an image to its port"
    breaks "Renumbering replaces every stored port, expired records' too, by its image" {
        move_settings = |_, map, tables| renumbering::move_settings(&inverse(map), tables),
        rename_ports = |_, map, table, tables| renumbering::rename_ports(&inverse(map), table, tables),
    }
    RenumberingLeavesLeaving: "renumbering leaves the return records' leaving ports"
    breaks "Renumbering replaces every stored port, expired records' too, by its image" {
        rename_ports = |_, map, table, tables| {
            let fields = if same(table, &RETURNS) { &[returned::ARRIVAL] } else { table.ports };
            rename_some(map, table, fields, tables, tables::is_used);
        },
    }
    RenumberingLeavesAnswering: "renumbering leaves the links' answering ports"
    breaks "Renumbering replaces every stored port, expired records' too, by its image" {
        rename_ports = |_, map, table, tables| {
            let fields = if same(table, &LINKS) { &[link::ASKING] } else { table.ports };
            rename_some(map, table, fields, tables, tables::is_used);
        },
    }
    MapImagesUnbounded: "a map with an image over 15 counts as one-to-one, and that image as a port left over"
    breaks "renumbering map not one-to-one on 0..15" {
        renumber = |rules, tables, map| renumbering::renumber(rules, tables, &bounded(map)),
    }
}
