//! Wish 14: the survey box.

use super::{faults, Changes, Fault};
use crate::limits::{GREATEST_SIZE, PORT_COUNT, RECORDING_LIMIT};
use crate::recording::count;
use crate::rules::*;
use crate::tables::{set_last_clock, LOCALS, PORTS, RATE};

/// A settings file's start without one of its settings.
fn started_but(loaded: &[u8], change: fn(&mut [u8])) -> Vec<u8> {
    let mut tables = survey::started(&AsWritten, loaded);
    change(&mut tables);
    tables
}

/// Packets and bytes in of an entry, if its port is one.
fn count_arrival(entry: &Entry, totals: &mut Totals) {
    if let Some(arrival) = totals.ports.get_mut(usize::from(entry.port)) {
        arrival.packets += 1;
        arrival.bytes_in += entry.length as u64;
    }
}

/// The ports of a spread.
fn spread_ports(answer: &Answer) -> Vec<u8> {
    let Verdict::Spread(ports) = answer.verdict else { return Vec::new() };
    (0..PORT_COUNT as u8).filter(|port| ports >> port & 1 == 1).collect()
}

faults! {
    SpreadCountedOnce: "a spread's bytes count once in all, on the lowest port of its set"
    breaks "bytes sent out (a spread counts once per port in its set)" {
        sent_by = |_, entry, answer, port| match spread_ports(answer).first() {
            Some(lowest) if *lowest != port => 0,
            _ => survey::sent_by(entry, answer, port),
        },
    }
    SentCountedWhereItCameIn: "bytes sent out count on the port that the packet came in by"
    breaks "reports by port and by reason: packets, bytes in, bytes sent out" {
        sent_by = |_, entry, answer, port| {
            let all: u64 = (0..PORT_COUNT as u8).map(|port| survey::sent_by(entry, answer, port)).sum();
            if entry.port == port { all } else { 0 }
        },
    }
    SentAsItCameIn: "what is sent out counts with the length that came in"
    breaks "bytes sent out" {
        sent_by = |_, entry, answer, port| {
            survey::sent_by(entry, &Answer { length: entry.length.min(answer.length * entry.length), ..*answer }, port)
        },
    }
    ShareNotInLowestTerms: "the share is dropped / packets as they are"
    breaks "the share of packets dropped as a fraction in lowest terms" {
        share = |_, dropped, packets| if packets == 0 { (0, 1) } else { (dropped, packets) },
    }
    ShareHalved: "the share is divided by two alone"
    breaks "the share of packets dropped as a fraction in lowest terms" {
        share = |_, mut dropped, mut packets| {
            while packets > 0 && dropped % 2 == 0 && packets % 2 == 0 {
                (dropped, packets) = (dropped / 2, packets / 2);
            }
            if dropped == 0 { (0, 1) } else { (dropped, packets) }
        },
    }
    NothingOfNothing: "where none came the share is 0/0"
    breaks "0/1 where none came." {
        share = |_, dropped, packets| if packets == 0 { (0, 0) } else { survey::share(dropped, packets) },
    }
    NoneDroppedOfAll: "where none was dropped, the packets stand below"
    breaks "a fraction in lowest terms" {
        share = |_, dropped, packets| if dropped == 0 { (0, packets.max(1)) } else { survey::share(dropped, packets) },
    }
    ShareOfThePassed: "the share is of dropped packets to those that passed"
    breaks "the share of packets dropped" {
        share = |_, dropped, packets| survey::share(dropped, packets - dropped),
    }
    RefusedRecordingCounted: "the entries of a refused recording count as packets"
    breaks "A refused recording adds nothing." {
        count_refused_recording = |rules, file, totals| {
            (0..count(file) as u64).filter_map(|index| rules.entry_at(file, index)).for_each(|entry| count_arrival(&entry, totals));
        },
    }
    RefusedRecordingEnds: "a refused recording ends the reading"
    breaks "then a line such as `recording 2 refused 21` for each refused one" {
        ends_reading = |_, _| true,
    }
    RefusedRecordingUntold: "a refused recording isn't told"
    breaks "then a line such as `recording 2 refused 21` for each refused one" {
        recording_line = |_, number, refusal| {
            if refusal == Refusal::TooManyRecordings { survey::recording_line(number, refusal) } else { String::new() }
        },
    }
    SeventeenthRead: "a 17th recording is read too"
    breaks "reads up to 16 recordings one after another" {
        recording_refusal = |rules, number, file| survey::recording_refusal(rules, number.max(2) - 1, file),
    }
    SixteenthRefused: "a 16th recording is refused"
    breaks "29, a 17th recording" {
        recording_refusal = |rules, number, file| {
            Refusal::TooManyRecordings.when(number == RECORDING_LIMIT)?;
            survey::recording_refusal(rules, number, file)
        },
    }
    SeventeenthByItsOwn: "a 17th recording that is refused is told by its own refusal"
    breaks "29, a 17th recording, told as `recording 17 refused 29`" {
        recording_refusal = |rules, number, file| {
            rules.file_refusal(file)?;
            survey::recording_refusal(rules, number, file)
        },
    }
    EighteenthTold: "an 18th recording is told too"
    breaks "which ends the reading with the first sixteen reported." {
        ends_reading = |_, _| false,
    }
    RefusedPacketsCounted: "packets and bytes in of packets that the core refuses count"
    breaks "Packets and bytes in are of those accepted on that port." {
        count_entry = |rules, entry, judged, totals| {
            survey::count_entry(rules, entry, judged, totals);
            if judged.is_err() {
                count_arrival(entry, totals);
            }
        },
    }
    DroppedBytesLeftOut: "a dropped packet's bytes don't count as bytes in"
    breaks "Packets and bytes in are of those accepted on that port." {
        count_entry = |rules, entry, judged, totals| {
            let dropped = matches!(judged, Ok(Answer { verdict: Verdict::Drop(_), .. }));
            survey::count_entry(rules, &Entry { length: if dropped { 0 } else { entry.length }, ..*entry }, judged, totals);
        },
    }
    TablesCarriedOn: "a recording goes on from the tables that the one before left"
    breaks "each from a fresh relay with the same settings and local addresses" {
        tables_before = |_, _, left| left.to_vec(),
    }
    ClockCarriedOn: "a recording goes on from the last clock of the one before"
    breaks "each from a fresh relay with the same settings and local addresses" {
        tables_before = |_, start, left| {
            let mut tables = start.to_vec();
            set_last_clock(&mut tables, tables::last_clock(left));
            tables
        },
    }
    SavedTablesTaken: "the saved tables are taken as they are"
    breaks "each from a fresh relay with the same settings and local addresses" {
        started = |_, loaded| loaded.to_vec(),
    }
    SavedClockTaken: "the last clock of the settings file is taken"
    breaks "each from a fresh relay with the same settings and local addresses" {
        started = |_, loaded| {
            let mut tables = survey::started(&AsWritten, loaded);
            set_last_clock(&mut tables, tables::last_clock(loaded));
            tables
        },
    }
    LocalsForgotten: "the local addresses aren't taken"
    breaks "with the same settings and local addresses" {
        started = |_, loaded| started_but(loaded, |tables| tables[LOCALS.bytes()].fill(0)),
    }
    RateForgotten: "the announce rate isn't taken"
    breaks "with the same settings and local addresses" {
        started = |_, loaded| started_but(loaded, |tables| tables[RATE.bytes()].fill(0)),
    }
    SizesForgotten: "the ports' sizes aren't taken"
    breaks "with the same settings and local addresses" {
        started = |_, loaded| started_but(loaded, |tables| {
            PORTS.iter_mut(tables).for_each(|settings| Port { size: GREATEST_SIZE, ..Port::read(settings) }.write(settings));
        }),
    }
    ModesForgotten: "the ports' modes aren't taken"
    breaks "with the same settings and local addresses" {
        started = |_, loaded| started_but(loaded, |tables| {
            PORTS.iter_mut(tables).for_each(|settings| Port { mode: Mode::Boundary, ..Port::read(settings) }.write(settings));
        }),
    }
    TestsByNumber: "the tests are told by their numbers"
    breaks "then one for each test, 1 to 11, 15, 12, 16, 13" {
        tests = |_| {
            let mut tests = survey::tests();
            tests.sort();
            tests
        },
    }
    PortsFromOne: "ports are counted from 1"
    breaks "then one line for each of the sixteen ports, rising" {
        port_line = |rules, port, totals| survey::port_line(rules, port + 1, totals),
    }
}
