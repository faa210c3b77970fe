//! Renumbering: it "replaces every stored port, expired records' too, by its image and moves each port's settings with it, nothing more."

use crate::answer::{Refusal, When};
use crate::limits::PORT_COUNT;
use crate::rules::Rules;
use crate::tables::check::checked;
use crate::tables::{is_used, Table, LINKS, PATHS, PORTS, RETURNS};

/// The image of each port.
pub type Map = [u8; PORT_COUNT];

/// Refusals 7, 8.
pub fn renumber<R: Rules>(rules: &R, tables: &mut [u8], map: &Map) -> Result<(), Refusal> {
    checked(rules, tables)?;
    Refusal::Map.when(!is_one_to_one(map))?;
    rules.move_settings(map, tables);
    for table in [&PATHS, &LINKS, &RETURNS] {
        rules.rename_ports(map, table, tables);
    }
    Ok(())
}

/// "renumbering map not one-to-one on 0..15"
fn is_one_to_one(map: &Map) -> bool {
    (0..PORT_COUNT as u8).all(|port| map.contains(&port))
}

pub fn move_settings(map: &Map, tables: &mut [u8]) {
    let before = tables[PORTS.bytes()].to_vec();
    for (settings, image) in before.chunks_exact(PORTS.width).zip(map) {
        PORTS.get_mut(tables, usize::from(*image)).copy_from_slice(settings);
    }
}

/// "An unused or emptied record is all zeros and its port field is no stored port; an expired one keeps its bytes."
pub fn rename_ports(map: &Map, table: &Table, tables: &mut [u8]) {
    for record in table.records.iter_mut(tables).filter(|record| is_used(record)) {
        rename(map, table.ports, record);
    }
}

/// Replaces the ports that stand in these fields of a record.
pub fn rename(map: &Map, fields: &[usize], record: &mut [u8]) {
    for field in fields {
        record[*field] = map[usize::from(record[*field])];
    }
}
