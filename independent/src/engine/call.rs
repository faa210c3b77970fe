//! A call on a relay as a value, and as a line of text that can be read back: by hand, by this program, or by a host in another language.

use crate::answer::Tally;
use crate::packet::Address;
use crate::relay::asking::Question;
use crate::tables::AnnounceRate;
use std::fmt;
use std::str::FromStr;

/// A packet call's own input.
#[derive(Clone, PartialEq, Eq)]
pub struct PacketCall {
    pub packet: Vec<u8>,
    pub port: u64,
    pub clock: u64,
    pub signature: bool,
    /// The output buffer's length, and the byte that fills it.
    pub output: usize,
    pub fill: u8,
}

/// A call on a relay, or something its caller does to tables and tally between two calls.
#[derive(Clone, PartialEq, Eq)]
pub enum Call {
    Fresh(Address),
    Packet(PacketCall),
    SetPort {
        port: u64,
        on: bool,
        mode: u64,
        size: u64,
    },
    SetAnnounceRate(AnnounceRate),
    /// Marks a destination's live path unresponsive.
    Mark {
        destination: Address,
        clock: u64,
    },
    AddLocal(Address),
    RemoveLocal(Address),
    Renumber([u8; 16]),
    /// A question to the tables, and the byte that fills the reply before.
    Ask {
        question: Question,
        fill: u8,
    },
    /// Does the signature word of this packet call matter?
    Matters {
        packet: Vec<u8>,
        port: u64,
        clock: u64,
        room: usize,
    },
    /// Saves into so much room, filled with a byte; the file is kept.
    Save {
        room: usize,
        fill: u8,
    },
    /// Loads the kept file.
    Load,
    /// Puts a copy of the tables aside, and takes it back.
    PutAside,
    TakeBack,
    /// Writes bytes into the tables.
    Write {
        at: usize,
        bytes: Vec<u8>,
    },
    /// Copies bytes of the tables to another place in them.
    Copy {
        from: usize,
        to: usize,
        length: usize,
    },
    /// Cuts the tables, or lengthens them with zeros.
    Resize(usize),
    /// The same of the kept file.
    WriteFile {
        at: usize,
        bytes: Vec<u8>,
    },
    ResizeFile(usize),
    /// Makes of the kept file what a program of an older edition would have saved.
    AgeFile(u8),
    Tally(Tally),
}

impl Call {
    /// Is it listed for hosts in other languages? They set no tally, are asked nothing, and keep no file.
    pub fn is_for_hosts(&self) -> bool {
        !matches!(self, Call::Tally(_)) && !self.is_question() && !self.is_of_files()
    }

    /// Does it save, load, or change a kept file?
    fn is_of_files(&self) -> bool {
        matches!(self, Call::Save { .. } | Call::Load | Call::WriteFile { .. } | Call::ResizeFile(_) | Call::AgeFile(_))
    }

    /// Does it only ask?
    pub fn is_question(&self) -> bool {
        matches!(self, Call::Ask { .. } | Call::Matters { .. })
    }
}

/// Bytes as hexadecimal digits. No bytes are a dash, so that the line has as many words.
struct Digits<'a>(&'a [u8]);

impl fmt::Display for Digits<'_> {
    fn fmt(&self, f: &mut fmt::Formatter) -> fmt::Result {
        if self.0.is_empty() {
            return f.write_str("-");
        }
        self.0.iter().try_for_each(|byte| write!(f, "{byte:02x}"))
    }
}

/// A question in words.
struct Asked<'a>(&'a Question);

impl fmt::Display for Asked<'_> {
    fn fmt(&self, f: &mut fmt::Formatter) -> fmt::Result {
        match self.0 {
            Question::Port(port) => write!(f, "port {port}"),
            Question::Local(place) => write!(f, "local {place}"),
            Question::Path(place) => write!(f, "path {place}"),
            Question::Link(place) => write!(f, "link {place}"),
            Question::LivePath { destination, clock } => write!(f, "path to {} at {clock}", Digits(destination)),
            Question::LiveReturns(clock) => write!(f, "returns at {clock}"),
            Question::LiveHashes(clock) => write!(f, "hashes at {clock}"),
            Question::LastClock => f.write_str("clock"),
            Question::AnnounceRate => f.write_str("announce rate"),
        }
    }
}

impl fmt::Display for Call {
    fn fmt(&self, f: &mut fmt::Formatter) -> fmt::Result {
        match self {
            Call::Fresh(own) => write!(f, "fresh {}", Digits(own)),
            Call::Packet(PacketCall { packet, port, clock, signature, output, fill }) => {
                write!(f, "packet port {port} clock {clock} signature {signature} output {output} of {fill:02x} {}", Digits(packet))
            }
            Call::SetPort { port, on, mode, size } => write!(f, "set port {port} on {on} mode {mode} size {size}"),
            Call::SetAnnounceRate(AnnounceRate { target, grace, penalty }) => {
                write!(f, "set announce rate target {target} grace {grace} penalty {penalty}")
            }
            Call::Mark { destination, clock } => write!(f, "mark {} clock {clock}", Digits(destination)),
            Call::AddLocal(address) => write!(f, "add local {}", Digits(address)),
            Call::RemoveLocal(address) => write!(f, "remove local {}", Digits(address)),
            Call::Renumber(map) => write!(f, "renumber {}", Digits(map)),
            Call::Ask { question, fill } => write!(f, "ask into {fill:02x} {}", Asked(question)),
            Call::Matters { packet, port, clock, room } => write!(f, "matters port {port} clock {clock} room {room} {}", Digits(packet)),
            Call::Save { room, fill } => write!(f, "save into {room} of {fill:02x}"),
            Call::Load => f.write_str("load"),
            Call::PutAside => f.write_str("put aside"),
            Call::TakeBack => f.write_str("take back"),
            Call::Write { at, bytes } => write!(f, "write at {at} {}", Digits(bytes)),
            Call::Copy { from, to, length } => write!(f, "copy {length} from {from} to {to}"),
            Call::Resize(length) => write!(f, "resize to {length}"),
            Call::WriteFile { at, bytes } => write!(f, "write file at {at} {}", Digits(bytes)),
            Call::ResizeFile(length) => write!(f, "resize file to {length}"),
            Call::AgeFile(edition) => write!(f, "age file to {edition}"),
            Call::Tally([total, dropped, delivered, forwarded, spread, kept]) => {
                write!(f, "tally {total} {dropped} {delivered} {forwarded} {spread} {kept}")
            }
        }
    }
}

impl FromStr for Call {
    type Err = String;

    fn from_str(line: &str) -> Result<Self, String> {
        let words: Vec<&str> = line.split_whitespace().collect();
        call_of(&words).or_else(|| edit_of(&words)).ok_or_else(|| format!("not a call: {line}"))
    }
}

/// The call that the words of a line say.
fn call_of(words: &[&str]) -> Option<Call> {
    Some(match words {
        ["fresh", own] => Call::Fresh(array_of(own)?),
        ["packet", "port", port, "clock", clock, "signature", signature, "output", output, "of", fill, packet] => {
            Call::Packet(PacketCall {
                packet: bytes_of(packet)?,
                port: port.parse().ok()?,
                clock: clock.parse().ok()?,
                signature: signature.parse().ok()?,
                output: output.parse().ok()?,
                fill: u8::from_be_bytes(array_of(fill)?),
            })
        }
        ["set", "port", port, "on", on, "mode", mode, "size", size] => {
            Call::SetPort { port: port.parse().ok()?, on: on.parse().ok()?, mode: mode.parse().ok()?, size: size.parse().ok()? }
        }
        ["set", "announce", "rate", "target", target, "grace", grace, "penalty", penalty] => {
            Call::SetAnnounceRate(AnnounceRate { target: target.parse().ok()?, grace: grace.parse().ok()?, penalty: penalty.parse().ok()? })
        }
        ["mark", destination, "clock", clock] => Call::Mark { destination: array_of(destination)?, clock: clock.parse().ok()? },
        ["add", "local", address] => Call::AddLocal(array_of(address)?),
        ["remove", "local", address] => Call::RemoveLocal(array_of(address)?),
        ["renumber", map] => Call::Renumber(array_of(map)?),
        ["ask", "into", fill, question @ ..] => Call::Ask { question: question_of(question)?, fill: u8::from_be_bytes(array_of(fill)?) },
        ["matters", "port", port, "clock", clock, "room", room, packet] => {
            Call::Matters { packet: bytes_of(packet)?, port: port.parse().ok()?, clock: clock.parse().ok()?, room: room.parse().ok()? }
        }
        ["save", "into", room, "of", fill] => Call::Save { room: room.parse().ok()?, fill: u8::from_be_bytes(array_of(fill)?) },
        ["load"] => Call::Load,
        _ => return None,
    })
}

/// What a caller does on its own.
fn edit_of(words: &[&str]) -> Option<Call> {
    Some(match words {
        ["put", "aside"] => Call::PutAside,
        ["take", "back"] => Call::TakeBack,
        ["write", "at", at, bytes] => Call::Write { at: at.parse().ok()?, bytes: bytes_of(bytes)? },
        ["copy", length, "from", from, "to", to] => {
            Call::Copy { from: from.parse().ok()?, to: to.parse().ok()?, length: length.parse().ok()? }
        }
        ["resize", "to", length] => Call::Resize(length.parse().ok()?),
        ["write", "file", "at", at, bytes] => Call::WriteFile { at: at.parse().ok()?, bytes: bytes_of(bytes)? },
        ["resize", "file", "to", length] => Call::ResizeFile(length.parse().ok()?),
        ["age", "file", "to", edition] => Call::AgeFile(edition.parse().ok()?),
        ["tally", counters @ ..] => {
            let counters: Option<Vec<u32>> = counters.iter().map(|counter| counter.parse().ok()).collect();
            Call::Tally(counters?.try_into().ok()?)
        }
        _ => return None,
    })
}

fn question_of(words: &[&str]) -> Option<Question> {
    Some(match words {
        ["port", port] => Question::Port(port.parse().ok()?),
        ["local", place] => Question::Local(place.parse().ok()?),
        ["path", place] => Question::Path(place.parse().ok()?),
        ["link", place] => Question::Link(place.parse().ok()?),
        ["path", "to", destination, "at", clock] => Question::LivePath { destination: array_of(destination)?, clock: clock.parse().ok()? },
        ["returns", "at", clock] => Question::LiveReturns(clock.parse().ok()?),
        ["hashes", "at", clock] => Question::LiveHashes(clock.parse().ok()?),
        ["clock"] => Question::LastClock,
        ["announce", "rate"] => Question::AnnounceRate,
        _ => return None,
    })
}

fn bytes_of(digits: &str) -> Option<Vec<u8>> {
    if digits == "-" {
        return Some(Vec::new());
    }
    let (pairs, rest) = digits.as_bytes().as_chunks::<2>();
    let digit = |letter: u8| char::from(letter).to_digit(16);
    let byte = |[high, low]: &[u8; 2]| Some((digit(*high)? * 16 + digit(*low)?) as u8);
    rest.is_empty().then(|| pairs.iter().map(byte).collect())?
}

fn array_of<const N: usize>(digits: &str) -> Option<[u8; N]> {
    bytes_of(digits)?.try_into().ok()
}

#[cfg(test)]
mod tests {
    use super::*;
    use crate::traffic::{Asking, Traffic};

    #[test]
    fn what_is_shown_reads_back() {
        for seed in 1..=4 {
            for call in Asking::new(seed, Traffic::new(seed)).take(20_000) {
                assert!(call.to_string().parse() == Ok(call.clone()), "{call}");
            }
        }
        for call in [Call::Write { at: 0, bytes: Vec::new() }, Call::Resize(usize::MAX)] {
            assert!(call.to_string().parse() == Ok(call.clone()), "{call}");
        }
    }

    #[test]
    fn other_lines_are_no_calls() {
        let address = "00112233445566778899aabbccddeeff";
        assert!(format!(" add  local {address} ").parse() == Ok(Call::AddLocal(array_of(address).expect("sixteen bytes"))));
        for line in [
            "",
            "put aside me",
            "add local 00",
            "set port 1 on 1 mode 0 size 500",
            "set port 1 on true mode 0",
            "write at 3 0",
            "write at 3 0g",
            "resize to -1",
            "tally 1 2 3",
        ] {
            assert!(line.parse::<Call>().is_err(), "{line}");
        }
        for line in [format!("fresh {address}0"), format!("fresh {address}00"), format!("renumber +1{}", &address[2..])] {
            assert!(line.parse::<Call>().is_err(), "{line}");
        }
    }
}
