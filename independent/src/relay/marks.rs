//! Wish 6, dead paths: the host marks a destination's live path unresponsive, and any announce at least as new revives it.

use super::{announces::blob, Packet};
use crate::answer::{Refusal, When};
use crate::packet::{Address, DestinationKind};
use crate::rules::Rules;
use crate::tables::check::checked;
use crate::tables::{blobs, last_clock, path, set_last_clock, RateEntry, PATHS};

/// Refusals 7, 5, 12: "12, marking with no live path, after 5". The path is live or not at the mark's own clock.
pub fn mark_unresponsive<R: Rules>(rules: &R, tables: &mut [u8], destination: &Address, clock: u64) -> Result<(), Refusal> {
    checked(rules, tables)?;
    Refusal::Clock.when(rules.clock_refused(clock, last_clock(tables)))?;
    let place = rules.path_to_mark(destination, clock, tables).ok_or(Refusal::NoLivePath)?;
    rules.set_mark(PATHS.records.get_mut(tables, place));
    rules.settle_mark(clock, tables);
    Ok(())
}

/// "Let the host mark a destination's live path unresponsive."
pub fn path_to_mark<R: Rules>(rules: &R, destination: &Address, clock: u64, tables: &[u8]) -> Option<usize> {
    rules.find(&PATHS, tables, destination, clock)
}

pub fn set_mark(path: &mut [u8]) {
    path[path::UNRESPONSIVE] = 1;
}

/// "An accepted mark sets the last clock."
pub fn settle_mark(clock: u64, tables: &mut [u8]) {
    set_last_clock(tables, clock);
}

pub fn is_marked(path: &[u8]) -> bool {
    path[path::UNRESPONSIVE] == 1
}

/// "For a marked path an announce of kind single skips test 2": whatever its form, which test 3 looks at later.
pub fn skips_test_2<R: Rules>(rules: &R, packet: &Packet, tables: &[u8]) -> bool {
    packet.header().is_announce()
        && packet.header().destination_kind() == DestinationKind::Single
        && rules
            .find(&PATHS, tables, &packet.parts.destination, packet.clock)
            .is_some_and(|place| is_marked(PATHS.records.get(tables, place)))
}

/// "tests 10, 11 and 15 aren't made if its emission is at least the greatest stored"
pub fn revives<R: Rules>(rules: &R, packet: &Packet, path: &[u8]) -> bool {
    is_marked(path) && rules.emission(blob(packet)) >= rules.greatest_emission(path)
}

/// "Where 15 isn't made, the last accepted announce moves and Wish 5's other fields stay."
pub fn revived_entry(path: &[u8]) -> RateEntry {
    RateEntry::read(path)
}

/// "a blob already stored isn't stored twice." Of a path that isn't marked, test 10 dropped the announce.
pub fn holds_blob(blob: &[u8], path: &[u8]) -> bool {
    is_marked(path) && blobs(path).any(|stored| stored == blob)
}

/// "Acceptance clears the mark."
pub fn clear_mark(path: &mut [u8]) {
    path[path::UNRESPONSIVE] = 0;
}
