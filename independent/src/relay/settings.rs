//! Fresh relays, port settings and local addresses.

use crate::answer::{Refusal, When};
use crate::limits::{GREATEST_SIZE, PORT_COUNT};
use crate::packet::Address;
use crate::rules::Rules;
use crate::tables::check::checked;
use crate::tables::{find_local, set_key, Mode, Port, LOCALS, OWN, PORTS};

/// What the tables held isn't read: refusal 7 is for their size alone.
pub fn fresh<R: Rules>(rules: &R, tables: &mut [u8], own: &Address) -> Result<(), Refusal> {
    Refusal::Tables.when(!rules.size_allowed(tables.len()))?;
    tables.fill(0);
    tables[OWN].copy_from_slice(own);
    PORTS.iter_mut(tables).for_each(|settings| rules.fresh_port().write(settings));
    Ok(())
}

/// "A fresh relay has its own address, all ports off and boundary, clock 0, tables empty." Wish 11: "older ones load with 500, as fresh relays have."
pub fn fresh_port() -> Port {
    Port { on: false, mode: Mode::Boundary, size: GREATEST_SIZE }
}

/// Refusals 7, 9: "setting a port over 15 or an unknown mode", and "9 also for a size outside the range".
pub fn set_port<R: Rules>(rules: &R, tables: &mut [u8], port: u64, on: bool, mode: u64, size: u64) -> Result<(), Refusal> {
    checked(rules, tables)?;
    Refusal::Setting.when(port >= PORT_COUNT as u64)?;
    let mode = Mode::from_number(mode).ok_or(Refusal::Setting)?;
    Refusal::Setting.when(rules.size_refused(size))?;
    Port { on, mode, size: size as usize }.write(PORTS.get_mut(tables, port as usize));
    Ok(())
}

pub fn add_local<R: Rules>(rules: &R, tables: &mut [u8], address: &Address) -> Result<(), Refusal> {
    checked(rules, tables)?;
    let place = rules.local_place(address, tables)?;
    set_key(LOCALS.get_mut(tables, place), address);
    Ok(())
}

/// "adding a 17th local address", and "adding a local address already there": "(8 to 11 come after 7; 11 before 10)".
pub fn local_place<R: Rules>(rules: &R, address: &Address, tables: &[u8]) -> Result<usize, Refusal> {
    Refusal::LocalAddress.when(rules.is_there(address, tables))?;
    rules.empty_local(tables).ok_or(Refusal::LocalsFull)
}

pub fn is_there(address: &Address, tables: &[u8]) -> bool {
    find_local(tables, address).is_some()
}

/// "16 local addresses, a new one in the lowest empty place."
pub fn empty_local(tables: &[u8]) -> Option<usize> {
    LOCALS.empty(tables)
}

/// Refusals 7, 11: "removing one not there".
pub fn remove_local<R: Rules>(rules: &R, tables: &mut [u8], address: &Address) -> Result<(), Refusal> {
    checked(rules, tables)?;
    let place = find_local(tables, address).ok_or(Refusal::LocalAddress)?;
    rules.clear_local(place, tables);
    Ok(())
}

/// "An unused or emptied record is all zeros"
pub fn clear_local(place: usize, tables: &mut [u8]) {
    LOCALS.get_mut(tables, place).fill(0);
}
