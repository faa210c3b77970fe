//! The calls that read the tables, and whether the signature word matters.

use super::{faults, Changes, Fault};
use crate::limits::LONGEST;
use crate::rules::*;
use crate::tables::check::checked;
use crate::tables::{has_key, last_clock, path, set_last_clock, time, PATHS, SIZE};

/// The lowest path of a destination that is so.
fn path_which(destination: &Address, tables: &[u8], mut so: impl FnMut(&[u8]) -> bool) -> Option<usize> {
    PATHS.records.iter(tables).position(|record| has_key(record, destination) && so(record))
}

/// The parts of a packet that reads.
fn parts_of(arrival: &Arrival) -> Option<Parts> {
    packet::read(&AsWritten, arrival.packet, LONGEST).ok()
}

faults! {
    ExpiredPathLive: "an expired path is told as a live one"
    breaks "A record is live while clock < its expiry; one that isn't live counts as no record." {
        path_told_live = |_, destination, _, tables| path_which(destination, tables, |_| true),
    }
    LivePathAtExpiry: "a path is told as live at the clock of its expiry"
    breaks "A record is live while clock < its expiry" {
        path_told_live = |_, destination, clock, tables| {
            path_which(destination, tables, |record| clock <= time(record, path::EXPIRY))
        },
    }
    LivePathSinceLastClock: "a clock before the last one counts as the last one"
    breaks "A record is live while clock < its expiry" {
        path_told_live = |rules, destination, clock, tables| {
            asking::path_told_live(rules, destination, clock.max(last_clock(tables)), tables)
        },
    }
    HigherPathTold: "of two live paths of a destination the higher one is told"
    breaks "If lent tables hold two live records of one key, the lower place counts." {
        path_told_live = |_, destination, clock, tables| {
            PATHS.records.iter(tables).rposition(|record| has_key(record, destination) && PATHS.is_live(record, clock))
        },
    }
    ExpiredPathNone: "a path that is expired at the last clock is none at its place"
    breaks "an expired one keeps its bytes." {
        path_at = |rules, place, tables| {
            let live = |place: &usize| PATHS.is_live(PATHS.records.get(tables, *place), last_clock(tables));
            asking::path_at(rules, place, tables).filter(live)
        },
    }
    EmptyPlaceTold: "an empty place is told as zeros"
    breaks "An unused or emptied record is all zeros and its port field is no stored port" {
        used_at = |_, section, place, _| (place < section.count as u64).then_some(place as usize),
    }
    PlaceCut: "of a place only the lowest byte is read"
    breaks "64 paths, 16 stored blobs each. 64 links." {
        used_at = |_, section, place, tables| asking::used_at(section, place % 256, tables),
    }
    OffPortNone: "a port that is off has no settings"
    breaks "16 ports, 0 to 15, each on or off and boundary, access point or roaming." {
        settings_of = |_, port, tables| asking::settings_of(port, tables).filter(|settings| settings[0] == 1),
    }
    UsedCounted: "used records are counted, not live ones"
    breaks "A record is live while clock < its expiry; one that isn't live counts as no record." {
        live_count = |_, table, _, tables| table.records.iter(tables).filter(|record| tables::is_used(record)).count() as u64,
    }
    CountedAtExpiry: "a record counts as live at the clock of its expiry"
    breaks "A record is live while clock < its expiry" {
        live_count = |_, table, clock, tables| {
            table.records.iter(tables).filter(|record| tables::is_used(record) && clock <= time(record, table.expiry)).count() as u64
        },
    }
    RateToldSwapped: "of the announce rate's settings the penalty is told before the grace"
    breaks "target interval, grace and penalty, set for the relay." {
        rate_told = |_, rate| asking::rate_told(&AnnounceRate { grace: rate.penalty, penalty: rate.grace, ..*rate }),
    }
    BlockToldFirst: "a path's block is told before its violations"
    breaks "Last accepted announce, violations and blocked-until live in the path record" {
        entry_told = |_, entry| [&entry.last.to_be_bytes()[..], &entry.blocked_until.to_be_bytes(), &[entry.violations]].concat(),
    }
    QuestionSetsClock: "a question sets the last clock"
    breaks "every accepted packet, dropped or not, counts and sets the last clock." {
        leave_asked = |_, question, tables| {
            if let Question::LiveReturns(clock) | Question::LiveHashes(clock) | Question::LivePath { clock, .. } = question {
                let later = last_clock(tables).max(*clock);
                set_last_clock(tables, later);
            }
        },
    }
    LastClockUnrefused: "the last clock is told of any tables of the right size"
    breaks "tables of wrong size, or a stored port over 15, ring place outside its ring, mode unknown" {
        question_refusal = |rules, tables, question| match question {
            Question::LastClock => Refusal::Tables.when(tables.len() != SIZE),
            _ => checked(rules, tables),
        },
    }
    WordOfDuplicates: "the signature word matters for every announce and link proof, duplicates too"
    breaks "Tests in order; the first that holds gives the drop." {
        signature_matters = |rules, sha, tables, room, arrival| {
            let matters = asking::signature_matters(rules, sha, tables, room, arrival)?;
            Ok(matters || parts_of(arrival).is_some_and(|parts| parts.header.is_announce() || parts.is_link_proof()))
        },
    }
    WordOfAccepted: "the signature word matters only where the packet isn't dropped with the word yes"
    breaks "Tests in order; the first that holds gives the drop." {
        signature_matters = |rules, sha, tables, room, arrival| {
            let mut output = [0; LONGEST];
            let signed = Arrival { signature: true, ..*arrival };
            let room = room.min(LONGEST);
            let answer = rules.packet_call(sha, &mut tables.to_vec(), &mut [0; 6], &mut output[..room], &signed)?;
            let dropped = matches!(answer.verdict, Verdict::Drop(_));
            Ok(!dropped && asking::signature_matters(rules, sha, tables, room, arrival)?)
        },
    }
    WordOfAnyProof: "the signature word matters for every proof that goes back"
    breaks "The signature word is plain input, read only where a rule below names it." {
        signature_matters = |rules, sha, tables, room, arrival| {
            let mut output = [0; LONGEST];
            let answer = rules.packet_call(sha, &mut tables.to_vec(), &mut [0; 6], &mut output[..room.min(LONGEST)], arrival)?;
            let proof = parts_of(arrival).is_some_and(|parts| parts.header.is_proof());
            let back = proof && matches!(answer.verdict, Verdict::Forward(_));
            Ok(back || asking::signature_matters(rules, sha, tables, room, arrival)?)
        },
    }
    WordNeedsNoRoom: "asked for the signature word, refusal 6 isn't given"
    breaks "Tests run in this row order, each call making those that concern it" {
        signature_matters = |rules, sha, tables, _, arrival| asking::signature_matters(rules, sha, tables, LONGEST, arrival),
    }
}
