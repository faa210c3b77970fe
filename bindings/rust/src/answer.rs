//! What the calls answer: real enums for the library's numbers.

use crate::raw;
use std::fmt;

/// An enum whose cases have document 01's numbers and words.
macro_rules! numbered {
    ($(#[$about:meta])* $name:ident { $($case:ident = $number:literal $words:literal,)* }) => {
        $(#[$about])*
        #[derive(Clone, Copy, Debug, PartialEq, Eq, Hash)]
        #[non_exhaustive]
        #[repr(u8)]
        pub enum $name { $(#[doc = $words] $case = $number,)* }

        impl $name {
            /// All of them, in the order of their numbers.
            pub const ALL: &'static [Self] = &[$(Self::$case,)*];

            /// Its number in document 01 and in the header.
            pub fn number(self) -> u8 {
                self as u8
            }

            /// The one of this number.
            pub fn from_number(number: u8) -> Option<Self> {
                Self::ALL.iter().copied().find(|case| case.number() == number)
            }

            /// What document 01 calls it.
            pub fn words(self) -> &'static str {
                match self { $(Self::$case => $words,)* }
            }
        }
    };
}

numbered! {
    /// Why a call was refused. It changed nothing.
    Refusal {
        TooShort = 1 "length under 19, or type 2 under 35",
        TooLong = 2 "length over the port's size, or over 500 (hashing: over 65,535)",
        AccessCode = 3 "access code bit set",
        ArrivalPort = 4 "arrival port over 15, or off",
        Clock = 5 "clock 2^40 or more, or below the last accepted clock",
        Output = 6 "output buffer under 500 bytes",
        Tables = 7 "tables of wrong size, or with bytes that no relay has",
        Map = 8 "renumbering map not one-to-one on 0..15",
        Setting = 9 "setting a port over 15, an unknown mode, a size outside 19 to 500 or an announce rate over its limit",
        LocalFull = 10 "adding a 17th local address",
        LocalAddress = 11 "adding a local address already there, or removing one not there",
        NoLivePath = 12 "marking a destination that has no live path",
        FileLength = 20 "file too long or shorter than its contents (saved: another length)",
        FileKind = 21 "kind or edition",
        FilePlace = 22 "offset, length, count or file end that breaks the rule",
        SignatureWord = 23 "signature word",
        FileBody = 24 "saved body of wrong size, or with bytes that no relay has",
        Room = 25 "too little room (loading: not the tables' size)",
        AnnouncePart = 26 "key, name, random, ratchet or signature of wrong length",
        AnnounceTooLong = 27 "announce over 500 once built",
        ListFull = 28 "the second opinion lists 64 calls already",
        SurveyFull = 29 "a 17th recording of a survey",
    }
}

numbered! {
    /// The clause of test 3 that a packet's form breaks. Its words are a sentence, with `#` for the least payload length.
    BadForm {
        TypeTwoProof = 1 "a proof that names a relay: no proof is of type 2",
        TypeTwoOfKindLink = 2 "a packet of a link that names a relay: none is of type 2",
        AnnounceNotSingle = 3 "an announce whose destination is not of kind single",
        AnnounceTooShort = 4 "an announce whose payload is under # bytes",
        AnnounceOfAnother = 5 "an announce whose destination does not belong to its keys",
        RequestOfKindLink = 6 "a link request whose destination is a link",
        RequestTooShort = 7 "a link request whose payload is under # bytes",
        LinkProofLength = 8 "a link proof whose payload is not # bytes, nor three more",
    }
}

numbered! {
    /// The case of test 6. Its words are a sentence, with `#` for the expiry.
    NoWayOn {
        NotAsking = 1 "it asks no relay to carry it, and is not for this box",
        NoPath = 2 "no path to this destination: none is held",
        OnlyExpired = 3 "no path to this destination: the last one ran out at #",
        NoLink = 4 "no such link: it ran out, or never led through here",
        NotProved = 5 "this link is not proved yet",
        NoReturn = 6 "nobody waits for this receipt: it is late, or its packet did not go through here",
    }
}

/// Why a packet was dropped: tests without clauses by their numbers, words and sentences; tests 3 and 6 have more to tell.
macro_rules! reasons {
    ($($case:ident = $number:literal $words:literal $sentence:literal,)*) => {
        /// Why a packet was dropped: the first test that held, and what it tells.
        ///
        /// ```
        /// use haskumye::{NoWayOn, Reason};
        ///
        /// let reason = Reason::NoWayOn { case: NoWayOn::OnlyExpired, expiry: 22_600 };
        /// assert_eq!(reason.to_string(), "drop 6.3 22600: no path to this destination: the last one ran out at 22600");
        /// ```
        #[derive(Clone, Copy, Debug, PartialEq, Eq, Hash)]
        #[non_exhaustive]
        pub enum Reason {
            $(#[doc = $words] $case,)*
            /// bad form
            BadForm {
                /// The first clause of test 3 that fails.
                clause: BadForm,
                /// The least payload length that would have served, or 0 where length is not the fault.
                least: u64,
            },
            /// no way on
            NoWayOn {
                /// Which case of test 6.
                case: NoWayOn,
                /// With [`NoWayOn::OnlyExpired`] the greatest expiry of the destination's expired paths, in seconds; else 0.
                expiry: u64,
            },
        }

        impl Reason {
            /// Each of them once, clauses and cases too, with no value; in the order of their numbers.
            pub fn all() -> Vec<Self> {
                let mut all = vec![$(Self::$case,)*];
                all.extend(BadForm::ALL.iter().map(|clause| Self::BadForm { clause: *clause, least: 0 }));
                all.extend(NoWayOn::ALL.iter().map(|case| Self::NoWayOn { case: *case, expiry: 0 }));
                all.sort_by_key(|reason| (reason.number(), reason.clause()));
                all
            }

            /// The number of its test in document 01, document 02 and the header.
            pub fn number(self) -> u8 {
                match self { $(Self::$case => $number,)* Self::BadForm { .. } => 3, Self::NoWayOn { .. } => 6 }
            }

            /// The one of these numbers.
            pub fn from_numbers(number: u8, clause: u8, value: u64) -> Option<Self> {
                let reason = match number {
                    $($number => Self::$case,)*
                    3 => Self::BadForm { clause: BadForm::from_number(clause)?, least: value },
                    6 => Self::NoWayOn { case: NoWayOn::from_number(clause)?, expiry: value },
                    _ => return None,
                };
                ((reason.clause(), reason.value()) == (clause, value)).then_some(reason)
            }

            /// What document 01 calls its test.
            pub fn words(self) -> &'static str {
                match self { $(Self::$case => $words,)* Self::BadForm { .. } => "bad form", Self::NoWayOn { .. } => "no way on" }
            }

            /// A sentence for people, with `#` for the value.
            pub fn sentence_form(self) -> &'static str {
                match self {
                    $(Self::$case => $sentence,)*
                    Self::BadForm { clause, .. } => clause.words(),
                    Self::NoWayOn { case, .. } => case.words(),
                }
            }
        }
    };
}

reasons! {
    NotOurs = 1 "not ours" "another relay is asked to carry it",
    Duplicate = 2 "duplicate" "the same packet came less than 300 s ago",
    OwnAnnounce = 4 "own announce" "an announce of this box's own came back",
    TooManyHops = 5 "hops 128 or more" "128 relays or more carried it",
    AlreadyKnown = 7 "already known" "this link is known already",
    WrongSide = 8 "wrong side" "it came by another port, or with other hops, than its way has",
    NotSigned = 9 "signature word no" "its signature was not found good",
    Replay = 10 "replay" "this announce was taken in before",
    NotBetter = 11 "not better" "an announce no newer than the one held, by no shorter way",
    PortOff = 12 "port off" "the port to leave by is off",
    NoRoom = 13 "no room" "no room for another path or link",
    RateLimited = 15 "announced too often" "this destination announces itself too often",
    TooLongForPort = 16 "too long for the port" "it is too long for the port to leave by",
}

impl Reason {
    /// The number of its clause or case; 0 where its test has none.
    pub fn clause(self) -> u8 {
        match self {
            Self::BadForm { clause, .. } => clause.number(),
            Self::NoWayOn { case, .. } => case.number(),
            _ => 0,
        }
    }

    /// The least payload length, the expiry, or 0.
    pub fn value(self) -> u64 {
        match self {
            Self::BadForm { least, .. } => least,
            Self::NoWayOn { expiry, .. } => expiry,
            _ => 0,
        }
    }

    /// A sentence for people, with the value filled in.
    pub fn sentence(self) -> String {
        self.sentence_form().replace('#', &self.value().to_string())
    }
}

numbered! {
    /// A port's mode, which decides how long a path through it lives.
    Mode {
        Boundary = 0 "boundary",
        AccessPoint = 1 "access point",
        Roaming = 2 "roaming",
    }
}

impl fmt::Display for Refusal {
    fn fmt(&self, f: &mut fmt::Formatter) -> fmt::Result {
        write!(f, "refused {}: {}", self.number(), self.words())
    }
}

impl std::error::Error for Refusal {}

/// The text that a replay's line has, then a sentence for people.
impl fmt::Display for Reason {
    fn fmt(&self, f: &mut fmt::Formatter) -> fmt::Result {
        write!(f, "drop {}", self.number())?;
        if self.clause() != 0 {
            write!(f, ".{}", self.clause())?;
        }
        if matches!(self, Reason::BadForm { .. } | Reason::NoWayOn { case: NoWayOn::OnlyExpired, .. }) {
            write!(f, " {}", self.value())?;
        }
        write!(f, ": {}", self.sentence())
    }
}

/// What was decided of a packet that was not refused. A length is that of the packet at the output's start.
#[derive(Clone, Copy, Debug, PartialEq, Eq)]
#[non_exhaustive]
pub enum Verdict {
    /// It goes no further.
    Drop(Reason),
    /// It is for a local address.
    Deliver {
        /// Where the part to hand up starts: the packet from there on, as [`payload`](crate::payload) gives it.
        payload: usize,
    },
    /// The output leaves by one port.
    Forward {
        /// The port.
        port: u8,
        /// The bytes of the output that leave.
        length: usize,
    },
    /// The output leaves by each port of a set.
    Spread {
        /// The ports.
        ports: PortSet,
        /// The bytes of the output that leave.
        length: usize,
    },
    /// An announce was taken in, and nothing leaves.
    Kept,
}

impl fmt::Display for Verdict {
    fn fmt(&self, f: &mut fmt::Formatter) -> fmt::Result {
        match self {
            Verdict::Drop(reason) => reason.fmt(f),
            Verdict::Deliver { .. } => write!(f, "deliver"),
            Verdict::Forward { port, .. } => write!(f, "forward {port}"),
            Verdict::Spread { ports, .. } => {
                write!(f, "spread")?;
                ports.into_iter().try_for_each(|port| write!(f, " {port}"))
            }
            Verdict::Kept => write!(f, "kept"),
        }
    }
}

/// A set of ports; it iterates over them, rising.
#[derive(Clone, Copy, Debug, Default, PartialEq, Eq, Hash)]
pub struct PortSet(u16);

impl PortSet {
    /// The set whose port i is bit i.
    pub fn from_bits(bits: u16) -> Self {
        Self(bits)
    }

    /// Port i as bit i.
    pub fn bits(self) -> u16 {
        self.0
    }

    /// Whether a port is among them.
    pub fn contains(self, port: u8) -> bool {
        self.0.checked_shr(port.into()).is_some_and(|rest| rest & 1 == 1)
    }
}

impl IntoIterator for PortSet {
    type Item = u8;
    type IntoIter = Ports;

    fn into_iter(self) -> Ports {
        Ports(self)
    }
}

/// The ports of a set, rising.
#[derive(Clone, Debug)]
pub struct Ports(PortSet);

impl Iterator for Ports {
    type Item = u8;

    fn next(&mut self) -> Option<u8> {
        let bits = self.0.bits();
        let port = u8::try_from(bits.trailing_zeros()).ok().filter(|_| bits != 0)?;
        self.0 = PortSet(bits & (bits - 1));
        Some(port)
    }
}

/// A call's number, 0 for no refusal.
pub(crate) fn done(number: u8) -> Result<(), Refusal> {
    match number {
        raw::REFUSAL_NONE => Ok(()),
        _ => Err(refusal(number)),
    }
}

/// A packet call's number: the kind in bits 0 to 7, the refusal or reason in 8 to 15. A drop has the clause in 16 to 19 and the value in 20 to 60; else the
/// port or ports are in 16 to 31, the length in 32 to 47, and where a delivered payload starts in 48 to 63.
pub(crate) fn judged(number: u64) -> Result<Verdict, Refusal> {
    let (kind, detail, ports, length) = (number as u8, (number >> 8) as u8, (number >> 16) as u16, usize::from((number >> 32) as u16));
    match kind {
        raw::REFUSED => Err(refusal(detail)),
        raw::DROP => Ok(Verdict::Drop(dropped(number).unwrap_or_else(|| unknown(number)))),
        raw::DELIVER => Ok(Verdict::Deliver { payload: (number >> 48) as usize }),
        raw::FORWARD if ports < 16 => Ok(Verdict::Forward { port: ports as u8, length }),
        raw::SPREAD => Ok(Verdict::Spread { ports: PortSet(ports), length }),
        raw::KEPT => Ok(Verdict::Kept),
        _ => unknown(number),
    }
}

/// The reason in a drop's number.
fn dropped(number: u64) -> Option<Reason> {
    let (clause, value) = ((number >> 16 & 0xf) as u8, number >> 20);
    Reason::from_numbers((number >> 8) as u8, clause, value).filter(|_| value < 1 << 41)
}

/// A writing or saving call's number: the refusal in its low 16 bits, the length in those above.
pub(crate) fn written_length(number: impl Into<u64>) -> Result<usize, Refusal> {
    let number = number.into();
    match number as u16 {
        0 => Ok((number >> 16) as usize),
        number => Err(refusal(number as u8)),
    }
}

fn refusal(number: u8) -> Refusal {
    Refusal::from_number(number).unwrap_or_else(|| unknown(number.into()))
}

/// The proofs rule this number out, so another library was linked: to go on would be to guess.
fn unknown(number: u64) -> ! {
    panic!("libhaskumye.a answered {number:#x}, which this crate does not know: they are of different versions")
}

#[cfg(test)]
mod tests {
    use super::*;

    #[test]
    fn numbers_become_answers() {
        assert_eq!(done(0), Ok(()));
        assert_eq!(done(11), Err(Refusal::LocalAddress));
        assert_eq!(done(12), Err(Refusal::NoLivePath));
        assert_eq!(written_length(19u32 << 16), Ok(19));
        assert_eq!(written_length(27u32), Err(Refusal::AnnounceTooLong));
        assert_eq!(written_length(72_356u64 << 16), Ok(72_356));
        assert_eq!(judged(0x0700), Err(Refusal::Tables));
        assert_eq!(judged(0x0d01), Ok(Verdict::Drop(Reason::NoRoom)));
        assert_eq!(judged(0x0f01), Ok(Verdict::Drop(Reason::RateLimited)));
        let cut = Reason::BadForm { clause: BadForm::AnnounceTooShort, least: 148 };
        assert_eq!(judged(148 << 20 | 0x4_0301), Ok(Verdict::Drop(cut)));
        let expired = Reason::NoWayOn { case: NoWayOn::OnlyExpired, expiry: (1 << 41) - 1 };
        assert_eq!(judged(((1 << 41) - 1) << 20 | 0x3_0601), Ok(Verdict::Drop(expired)));
        assert_eq!(judged(0x0023_0000_0000_0002), Ok(Verdict::Deliver { payload: 35 }));
        assert_eq!(judged(0x0013_000f_0003), Ok(Verdict::Forward { port: 15, length: 19 }));
        assert_eq!(judged(0x01f4_8001_0004), Ok(Verdict::Spread { ports: PortSet(0x8001), length: 500 }));
        assert_eq!(judged(0x05), Ok(Verdict::Kept));
    }

    #[test]
    fn numbers_that_the_core_never_returns_are_not_taken_for_others() {
        for number in [
            0x06,
            0xff,
            0x0001,
            0x0301,
            0x9_0301,
            0x0601,
            0x7_0601,
            1 << 61 | 0x3_0601,
            0x1_0201,
            0x10_0d01,
            0x0e01,
            0x1101,
            0x0000,
            0x0d00,
            0x0010_0003,
        ] {
            assert!(std::panic::catch_unwind(|| judged(number)).is_err(), "{number:#x}");
        }
    }

    #[test]
    fn answers_print_as_document_01_writes_them() {
        assert_eq!(Refusal::TooShort.to_string(), "refused 1: length under 19, or type 2 under 35");
        let drop = |number, clause, value| Verdict::Drop(Reason::from_numbers(number, clause, value).expect("a reason")).to_string();
        assert_eq!(drop(2, 0, 0), "drop 2: the same packet came less than 300 s ago");
        assert_eq!(drop(3, 1, 0), "drop 3.1 0: a proof that names a relay: no proof is of type 2");
        assert_eq!(drop(3, 4, 148), "drop 3.4 148: an announce whose payload is under 148 bytes");
        assert_eq!(drop(6, 1, 0), "drop 6.1: it asks no relay to carry it, and is not for this box");
        assert_eq!(drop(6, 3, 22_600), "drop 6.3 22600: no path to this destination: the last one ran out at 22600");
        assert_eq!(Verdict::Forward { port: 4, length: 19 }.to_string(), "forward 4");
        assert_eq!(Verdict::Spread { ports: PortSet(0b10_0010), length: 19 }.to_string(), "spread 1 5");
    }

    #[test]
    fn port_sets_hold_their_ports() {
        let set = PortSet::from_bits(0x8005);
        assert_eq!(set.into_iter().collect::<Vec<_>>(), [0, 2, 15]);
        assert_eq!((0..=255).filter(|port| set.contains(*port)).collect::<Vec<_>>(), [0, 2, 15]);
        assert_eq!(PortSet::default().into_iter().next(), None);
    }
}
