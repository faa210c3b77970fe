//! Wish 1: the file of a recorded day, its reader and its writer, and the replay.

use super::{faults, Changes, Fault};
use crate::limits::LONGEST;
use crate::recording::{count, entry, given, number, EDITION, HEAD, KIND, LONGEST_FILE};
use crate::rules::*;

/// Are the entries' bodies longer together than what lies behind the contents?
fn lacks_bodies(file: &[u8]) -> bool {
    let lengths: usize = reading::entries(&AsWritten, file).map(|entry| entry.length).sum();
    file.len() < recording::contents(count(file)) + lengths
}

/// Cuts off an entry that isn't given whole.
fn uncut(entries: &[u8]) -> &[u8] {
    &entries[..entries.len() - entries.len() % given::WIDTH]
}

faults! {
    KindBeforeLength: "21 is tested before 20"
    breaks "Refusals, in order: 20 file too long or shorter than its contents, 21 kind or edition" {
        file_refusal = |rules, file| {
            Refusal::FileKind.when(rules.kind_refused(file))?;
            reading::file_refusal(rules, file)
        },
    }
    PlacesBeforeKind: "22 is tested before 21"
    breaks "21 kind or edition, 22 offset, length or file end that breaks the rule" {
        file_refusal = |rules, file| {
            Refusal::FileLength.when(rules.length_refused(file))?;
            Refusal::FilePlaces.when(rules.places_refused(file))?;
            reading::file_refusal(rules, file)
        },
    }
    WordsBeforePlaces: "23 is tested before 22"
    breaks "22 offset, length or file end that breaks the rule, 23 signature word" {
        file_refusal = |rules, file| {
            Refusal::FileLength.when(rules.length_refused(file))?;
            Refusal::FileKind.when(rules.kind_refused(file))?;
            Refusal::SignatureWord.when(rules.words_refused(file))?;
            reading::file_refusal(rules, file)
        },
    }
    EntryByEntry: "22 and 23 are tested entry by entry"
    breaks "22 offset, length or file end that breaks the rule, 23 signature word" {
        file_refusal = |rules, file| match reading::file_refusal(rules, file) {
            Err(Refusal::FilePlaces) => {
                let mut place = recording::contents(count(file));
                for entry in reading::entries(rules, file) {
                    Refusal::FilePlaces.when(!rules.stands_at(&entry, place))?;
                    Refusal::SignatureWord.when(rules.word_refused(entry.word))?;
                    place += entry.length;
                }
                Err(Refusal::FilePlaces)
            }
            refusal => refusal,
        },
    }
    LongestFileRefused: "a file of 60,000 bytes is too long"
    breaks "60,000 bytes at most" {
        length_refused = |_, file| reading::length_refused(file) || file.len() == LONGEST_FILE,
    }
    MissingBodiesTooShort: "20 is also given where the file is shorter than contents and bodies"
    breaks "20 file too long or shorter than its contents" {
        length_refused = |_, file| reading::length_refused(file) || lacks_bodies(file),
    }
    EmptyRecordingRefused: "a file without entries is refused"
    breaks "entry count (2 bytes)" {
        places_refused = |rules, file| count(file) == 0 || reading::places_refused(rules, file),
    }
    OlderEditionTaken: "edition 0 is taken"
    breaks "edition byte 1" {
        kind_refused = |_, file| file.first() != Some(&KIND) || file[1] > EDITION,
    }
    SpareBytesTaken: "bytes behind the last body are taken"
    breaks "The contents, then the bodies in order, fill the file without gaps" {
        ends_at = |_, place, length| place <= length,
    }
    EmptyBodyAnywhere: "an empty body's offset isn't looked at"
    breaks "22 offset, length or file end that breaks the rule" {
        stands_at = |_, entry, place| entry.length == 0 || reading::stands_at(entry, place),
    }
    LongBodyRefused: "a body over 500 bytes is refused"
    breaks "an entry that the core refuses prints as `6 refused 1` and the replay goes on." {
        stands_at = |_, entry, place| entry.length <= LONGEST && reading::stands_at(entry, place),
    }
    AnyWordTaken: "a signature word over 1 is taken"
    breaks "signature word (1, 0 or 1)" {
        word_refused = |_, _| false,
    }
    ClockInFourBytes: "an entry's clock is its last four bytes"
    breaks "then per entry clock (5)" {
        entry_of = |_, bytes| Entry { clock: number(&bytes[entry::CLOCK][1..]), ..reading::entry_of(bytes) },
    }
    NextBody: "an entry's body is the next one's"
    breaks "The contents, then the bodies in order" {
        entry_at = |rules, file, index| {
            let own = reading::entry_at(rules, file, index)?;
            let next = reading::entry_at(rules, file, index + 1).unwrap_or(own);
            Some(Entry { offset: next.offset, length: next.length, ..own })
        },
    }
    ClockBeforeWord: "the writer tests 5 before 23"
    breaks "The writer: 23, 5 for a clock past five bytes, 20, then 25 for too little room." {
        writing_refusal = |rules, entries, bodies, room| {
            Refusal::Clock.when(writing::whole(entries).any(|entry| rules.clock_past(number(&entry[given::CLOCK]))))?;
            writing::writing_refusal(rules, entries, bodies, room)
        },
    }
    LengthBeforeClock: "the writer tests 20 before 5"
    breaks "The writer: 23, 5 for a clock past five bytes, 20, then 25 for too little room." {
        writing_refusal = |rules, entries, bodies, room| match writing::writing_refusal(rules, entries, bodies, room) {
            Err(Refusal::Clock) if rules.not_a_file(entries, bodies) => Err(Refusal::FileLength),
            refusal => refusal,
        },
    }
    RoomBeforeLength: "the writer tests 25 before 20"
    breaks "The writer: 23, 5 for a clock past five bytes, 20, then 25 for too little room." {
        writing_refusal = |rules, entries, bodies, room| match writing::writing_refusal(rules, entries, bodies, room) {
            Err(Refusal::FileLength) if rules.room_refused(room, writing::file_length(entries, bodies)) => Err(Refusal::Room),
            refusal => refusal,
        },
    }
    ClockCut: "the writer cuts a clock to five bytes"
    breaks "5 for a clock past five bytes" {
        clock_past = |_, _| false,
    }
    CutEntryLeftOut: "the writer leaves out an entry that isn't given whole"
    breaks "Both reader and writer, each undoing the other." {
        not_a_file = |_, entries, bodies| writing::not_a_file(uncut(entries), bodies),
    }
    SpareBodiesLeftOut: "the writer leaves out bytes behind the last body"
    breaks "Both reader and writer, each undoing the other." {
        not_a_file = |_, entries, bodies| writing::not_a_file(entries, bodies.min(writing::bodies_given(entries))),
        put_file = |_, entries, bodies, room| {
            writing::put_file(entries, &bodies[..bodies.len().min(writing::bodies_given(entries))], room)
        },
    }
    RoomMustFit: "the writer refuses more room than the file takes"
    breaks "25 for too little room" {
        room_refused = |_, room, length| room != length,
    }
    RoomCleared: "the writer fills the rest of the room with zeros"
    breaks "25 for too little room" {
        put_file = |_, entries, bodies, room| {
            let length = writing::put_file(entries, bodies, room);
            room[length..].fill(0);
            length
        },
    }
    OffsetsOfBodies: "the writer counts offsets from the first body on"
    breaks "offset in the file (4)" {
        put_file = |_, entries, bodies, room| {
            let length = writing::put_file(entries, bodies, room);
            let start = recording::contents(count(room));
            for entry in room[HEAD..start].chunks_exact_mut(entry::WIDTH) {
                let offset = number(&entry[entry::OFFSET]) as u32 - start as u32;
                entry[entry::OFFSET].copy_from_slice(&offset.to_be_bytes());
            }
            length
        },
    }
    LinesFromZero: "lines are counted from 0"
    breaks "prints one line per entry, counted from 1" {
        replay_line = |rules, number, judged| replaying::replay_line(rules, number - 1, judged),
    }
    PortsFalling: "the ports of a spread are printed falling"
    breaks "`4 spread 1 5` (rising)" {
        replay_line = |rules, number, judged| {
            let line = replaying::replay_line(rules, number, judged);
            let mut words: Vec<&str> = line.split_whitespace().collect();
            if words[1] == "spread" {
                words[2..].reverse();
            }
            words.join(" ") + "\n"
        },
    }
    StopsAtRefusal: "a replay stops at an entry that is refused"
    breaks "an entry that the core refuses prints as `6 refused 1` and the replay goes on." {
        goes_on = |_, judged| judged.is_ok(),
    }
}
