//! Wish 11: ports that carry less.

use super::{faults, Changes, Fault, With};
use crate::limits::{GREATEST_SIZE, LEAST_SIZE, LONGEST, PORT_COUNT};
use crate::packet::PacketKind;
use crate::rules::*;
use crate::tables::{port, port_size, size, LINKS, PORTS, RETURNS, SIZE};

/// The ports that an announce would be spread to if all carried it.
fn others(packet: &Packet, tables: &[u8]) -> Vec<u8> {
    (0..PORT_COUNT as u8).filter(|port| outgoing::is_other_on(packet, *port, tables)).collect()
}

fn set_of(ports: &[u8]) -> u16 {
    outgoing::port_set(|port| ports.contains(&port))
}

/// What exceeds 500 fits no port, though a port has a greater size.
fn at_most_500(rules: &With, packet: &Packet, tables: &[u8]) -> u16 {
    if outgoing::spread_length(packet) > LONGEST {
        0
    } else {
        outgoing::spread_ports(rules, packet, tables)
    }
}

/// The size that a port of these tables has, if they have their size.
fn present_size(tables: &[u8], port: u64) -> Option<u64> {
    let there = tables.len() == SIZE && port < PORT_COUNT as u64;
    there.then(|| port_size(tables, port as u8) as u64)
}

/// Judges a packet, and makes something of the tables if test 16 dropped it.
fn judged_and(
    rules: &With,
    packet: &mut Packet,
    tables: &mut [u8],
    output: &mut [u8],
    change: fn(&With, &Packet, &mut [u8], &mut [u8]),
) -> Result<Answer, Reason> {
    let answer = judge::judge(rules, packet, tables, output);
    if answer == Err(Reason::TooLongForPort) {
        change(rules, packet, tables, output);
    }
    answer
}

fn goes_by_path(packet: &Packet, kind: PacketKind) -> bool {
    packet.header().packet_kind() == kind && !packet.header().to_link()
}

/// Renumbering by a map, after which each number's size is what it was.
fn moved_but_sizes(map: &Map, tables: &mut [u8]) {
    let before = tables[PORTS.bytes()].to_vec();
    renumbering::move_settings(map, tables);
    for (settings, was) in PORTS.iter_mut(tables).zip(before.chunks_exact(PORTS.width)) {
        settings[port::SIZE..].copy_from_slice(&was[port::SIZE..]);
    }
}

faults! {
    SizeNotReadAgainst: "every packet is read at 500, whatever the arrival port carries"
    breaks "Reading a packet is now against the arrival port's size" {
        arrival_size = |_, _, _| LONGEST,
    }
    ArrivalSizeItselfRefused: "a packet as long as the arrival port carries is refused by 2"
    breaks "refusal 2 means longer than that." {
        arrival_size = |_, port, tables| accept::arrival_size(port, tables) - 1,
    }
    OutputByArrivalSize: "an output buffer of the arrival port's size is enough"
    breaks "output buffer under 500 bytes" {
        packet_call = |rules, sha, tables, tally, output, arrival| {
            let size = if tables.len() == SIZE && arrival.port < PORT_COUNT as u64 { port_size(tables, arrival.port as u8) } else { LONGEST };
            let mut room = output.to_vec();
            room.resize(if output.len() < size { output.len() } else { output.len().max(LONGEST) }, 0);
            let answer = accept::packet_call(rules, sha, tables, tally, &mut room, arrival);
            output.copy_from_slice(&room[..output.len()]);
            answer
        },
    }
    LengthAsItCameIn: "test 16 takes a packet's length as it came in"
    breaks "A packet, as rewritten, too long for the port it would leave by is dropped" {
        length_by_path = |_, packet, _| packet.bytes.len(),
    }
    EqualSizeTooLong: "a packet as long as a port carries is too long for it"
    breaks "A packet, as rewritten, too long for the port it would leave by is dropped" {
        fits = |_, _, port, length, tables| length < port_size(tables, port),
    }
    ArrivalSizeForLeaving: "what leaves is compared with the arrival port's size"
    breaks "too long for the port it would leave by" {
        fits = |_, packet, _, length, tables| length <= port_size(tables, packet.port),
    }
    LeavesAtAnyLength: "a packet leaves by a port that carries less"
    breaks "A packet, as rewritten, too long for the port it would leave by is dropped" {
        leaving_tests = |_, _, port, _, tables| outgoing::test_12(port, tables),
    }
    SizeBeforePortOff: "test 16 is made before test 12"
    breaks "drop 16, after 12." {
        leaving_tests = |rules, packet, port, length, tables| {
            outgoing::test_16(rules, packet, port, length, tables)?;
            outgoing::test_12(port, tables)
        },
    }
    RoomBeforeSize: "test 13 is made before test 16"
    breaks "drop 16, after 12." {
        request_tests = |rules, packet, id, path, tables| match by_path::request_tests(rules, packet, id, path, tables) {
            Err(Reason::TooLongForPort) if rules.link_slot(packet.clock, tables).is_none() => Err(Reason::NoRoom),
            slot => slot,
        },
    }
    SizeBeforeKnown: "test 16 is made before test 7"
    breaks "drop 16, after 12." {
        request_tests = |rules, packet, id, path, tables| {
            outgoing::test_16(rules, packet, path.port, rules.length_by_path(packet, path), tables)?;
            by_path::request_tests(rules, packet, id, path, tables)
        },
    }
    TooLongWritten: "a packet that test 16 drops is written to the output"
    breaks "Bytes of the output past the packet, and all of it when nothing leaves, stay." {
        judge = |rules, packet, tables, output| judged_and(rules, packet, tables, output, |_, packet, _, output| {
            outgoing::put_unchanged(packet, output);
        }),
    }
    TooLongMakesReturn: "data that test 16 drops makes a return record"
    breaks "Data forwarded so makes a return record" {
        judge = |rules, packet, tables, output| judged_and(rules, packet, tables, output, |rules, packet, tables, _| {
            if let (true, Ok(path)) = (goes_by_path(packet, PacketKind::Data), rules.path_to(packet, tables)) {
                rules.make_return(packet, &path, tables);
            }
        }),
    }
    TooLongMakesLink: "a link request that test 16 drops makes a link"
    breaks "A forwarded link request makes a link record" {
        judge = |rules, packet, tables, output| judged_and(rules, packet, tables, output, |rules, packet, tables, _| {
            let slot = rules.link_slot(packet.clock, tables);
            if let (true, Some(slot)) = (goes_by_path(packet, PacketKind::LinkRequest), slot) {
                let id = hash::link_id(rules, packet.sha, &packet.parts, packet.payload);
                if let Ok(path) = rules.path_to(packet, tables) {
                    rules.make_link(packet, &id, &path, slot, tables);
                }
            }
        }),
    }
    TooLongRenewsLink: "a link packet that test 16 drops renews its link, and a link proof proves it"
    breaks "proved link 720 s, renewed by each packet carried." {
        judge = |rules, packet, tables, output| judged_and(rules, packet, tables, output, |rules, packet, tables, _| {
            let place = rules.find(&LINKS, tables, &packet.parts.destination, packet.clock);
            if let (true, Some(place)) = (packet.header().to_link(), place) {
                let record = LINKS.records.get_mut(tables, place);
                let mut link = Link::read(record);
                rules.carry(packet, &mut link);
                link.write(record);
            }
        }),
    }
    TooLongEmptiesReturn: "an ordinary proof that test 16 drops empties its record"
    breaks "A dropped one leaves the record." {
        judge = |rules, packet, tables, output| judged_and(rules, packet, tables, output, |rules, packet, tables, _| {
            let place = rules.find(&RETURNS, tables, &packet.parts.destination, packet.clock);
            if let (true, Some(place)) = (packet.header().is_proof() && !packet.header().to_link(), place) {
                rules.end_return(RETURNS.records.get_mut(tables, place));
            }
        }),
    }
    SpreadAtAnySize: "an announce is spread to ports that carry less"
    breaks "a spread leaves such ports out" {
        spread_ports = |_, packet, tables| {
            if outgoing::spread_length(packet) > LONGEST { 0 } else { set_of(&others(packet, tables)) }
        },
    }
    SpreadIfLargestFits: "an announce is spread to all ports if one of them carries it"
    breaks "a spread leaves such ports out" {
        spread_ports = |rules, packet, tables| match outgoing::spread_ports(rules, packet, tables) {
            0 => 0,
            _ => set_of(&others(packet, tables)),
        },
    }
    SpreadIfAllFit: "an announce is kept unless all ports carry it"
    breaks "a spread leaves such ports out" {
        spread_ports = |rules, packet, tables| {
            let ports = set_of(&others(packet, tables));
            if outgoing::spread_ports(rules, packet, tables) == ports { ports } else { 0 }
        },
    }
    SpreadByLengthIn: "an announce goes to ports that carry it as it came in"
    breaks "A packet, as rewritten, too long for the port it would leave by is dropped" {
        spread_ports = |rules, packet, tables| {
            let ports = others(packet, tables).into_iter().filter(|port| rules.fits(packet, *port, packet.bytes.len(), tables));
            if outgoing::spread_length(packet) > LONGEST { 0 } else { set_of(&ports.collect::<Vec<_>>()) }
        },
    }
    AnnounceDroppedBySize: "an announce that no other port carries is dropped by 16"
    breaks "is Kept if none remains." {
        announce = |rules, packet, tables, output| {
            let answer = announces::announce(rules, packet, tables, output)?;
            let sized = answer.verdict == Verdict::Kept && !others(packet, tables).is_empty();
            Reason::TooLongForPort.when(sized && outgoing::spread_length(packet) <= LONGEST)?;
            Ok(answer)
        },
    }
    SizeOf18Set: "a size of 18 may be set"
    breaks "Each port gets a size from 19 to 500" {
        size_refused = |_, size| size != 18 && packet::size_refused(size),
        stored_size_allowed = |_, size| size == 18 || check::stored_size_allowed(size),
    }
    SizeOf501Set: "a size of 501 may be set"
    breaks "Each port gets a size from 19 to 500" {
        size_refused = |_, size| size != 501 && packet::size_refused(size),
        stored_size_allowed = |_, size| size == 501 || check::stored_size_allowed(size),
        arrival_size = |_, port, tables| accept::arrival_size(port, tables).min(LONGEST),
        spread_ports = |rules, packet, tables| at_most_500(rules, packet, tables),
    }
    SizesEndsRefused: "sizes of 19 and 500 are refused"
    breaks "Each port gets a size from 19 to 500" {
        set_port = |rules, tables, port, on, mode, size| {
            let at_end = [LEAST_SIZE as u64, GREATEST_SIZE as u64].contains(&size);
            settings::set_port(rules, tables, port, on, mode, if at_end { 0 } else { size })
        },
    }
    SizeCut: "of a size only its last two bytes are read"
    breaks "9 also for a size outside the range" {
        set_port = |rules, tables, port, on, mode, size| settings::set_port(rules, tables, port, on, mode, size & 0xffff),
    }
    SizeSetOnce: "a later setting leaves a size that was set under 500"
    breaks "Each port gets a size from 19 to 500" {
        set_port = |rules, tables, port, on, mode, size| {
            let present = present_size(tables, port).filter(|present| *present < GREATEST_SIZE as u64 && !rules.size_refused(size));
            settings::set_port(rules, tables, port, on, mode, present.unwrap_or(size))
        },
    }
    StoredSizeUnchecked: "a stored size may be any"
    breaks "7 for a stored one" {
        stored_size_allowed = |_, _| true,
        arrival_size = |_, port, tables| accept::arrival_size(port, tables).min(LONGEST),
        spread_ports = |rules, packet, tables| at_most_500(rules, packet, tables),
    }
    OffSizeUnchecked: "a stored size of a port that is off may be any"
    breaks "7 for a stored one" {
        port_allowed = |rules, settings| {
            check::port_allowed(rules, settings) || settings[..port::SIZE] == [0, 0] && !rules.stored_size_allowed(size(settings))
        },
    }
    FreshSizeShortest: "a fresh relay's ports have size 19"
    breaks "older ones load with 500, as fresh relays have." {
        fresh_port = |_| Port { size: LEAST_SIZE, ..settings::fresh_port() },
    }
    RenumberingLeavesSizes: "renumbering leaves the ports' sizes"
    breaks "moved by renumbering too." {
        move_settings = |_, map, tables| moved_but_sizes(map, tables),
    }
    SizeToldReversed: "a port's size is told little-endian"
    breaks "Each port gets a size from 19 to 500" {
        settings_of = |_, port, tables| asking::settings_of(port, tables).map(|mut told| {
            told[port::SIZE..].reverse();
            told
        }),
    }
}
