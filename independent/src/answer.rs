//! What the calls answer, with the numbers of documents 01 and 02.

/// An enum whose cases have the documents' numbers. A case keeps its number where it holds more than that.
macro_rules! numbered {
    ($(#[$about:meta])* $name:ident { $($case:ident $({ $($field:ident: $type:ty),* })? = $number:literal,)* }) => {
        $(#[$about])*
        #[derive(Clone, Copy, Debug, PartialEq, Eq)]
        pub enum $name {
            $($case $({ $($field: $type),* })?,)*
        }

        impl $name {
            pub fn number(self) -> u8 {
                match self {
                    $(Self::$case { .. } => $number,)*
                }
            }
        }
    };
}

/// The same where no case holds more than its number, so that the number says which it is.
macro_rules! listed {
    ($(#[$about:meta])* $name:ident { $($case:ident = $number:literal,)* }) => {
        numbered! { $(#[$about])* $name { $($case = $number,)* } }

        impl $name {
            /// All of them, in order.
            pub const ALL: &'static [Self] = &[$(Self::$case,)*];

            pub fn from_number(number: u8) -> Option<Self> {
                Self::ALL.iter().copied().find(|case| case.number() == number)
            }
        }
    };
}

listed! {
    /// The numbered refusals.
    Refusal {
        TooShort = 1,
        TooLong = 2,
        AccessCode = 3,
        ArrivalPort = 4,
        Clock = 5,
        SmallOutput = 6,
        Tables = 7,
        Map = 8,
        Setting = 9,
        LocalsFull = 10,
        LocalAddress = 11,
        NoLivePath = 12,
        FileLength = 20,
        FileKind = 21,
        FilePlaces = 22,
        SignatureWord = 23,
        FileBody = 24,
        Room = 25,
        PartLength = 26,
        AnnounceLength = 27,
        ListFull = 28,
        TooManyRecordings = 29,
    }
}

numbered! {
    /// Why a packet is dropped: the first test that holds. 14 went with Wish 9: "Its number isn't used again."
    Reason {
        NotOurs = 1,
        Duplicate = 2,
        BadForm { clause: Clause, least: u64 } = 3,
        OwnAnnounce = 4,
        TooManyHops = 5,
        NoWayOn { case: NoWay } = 6,
        AlreadyKnown = 7,
        WrongSide = 8,
        BadSignature = 9,
        Replay = 10,
        NotBetter = 11,
        PortOff = 12,
        NoRoom = 13,
        TooOften = 15,
        TooLongForPort = 16,
    }
}

listed! {
    /// Wish 10: "Bad form names the first failing clause of test 3 (3.1 to 3.8, a link request having two)".
    Clause {
        TypeTwoProof = 1,
        TypeTwoLink = 2,
        AnnounceNotSingle = 3,
        AnnounceTooShort = 4,
        AnnounceOfAnother = 5,
        RequestOfKindLink = 6,
        RequestTooShort = 7,
        LinkProofLength = 8,
    }
}

numbered! {
    /// Wish 10: "Split 6 into: 6.1 type 1 packet not asking to be relayed; 6.2 no path record; 6.3 only expired path records lying in their slots,
    /// with the greatest expiry; 6.4 no live link; 6.5 link not proved yet; 6.6 no live return record."
    NoWay {
        NotAsking = 1,
        NoPath = 2,
        OnlyExpired { expiry: u64 } = 3,
        NoLink = 4,
        NotProved = 5,
        NoReturn = 6,
    }
}

impl NoWay {
    /// The one of this number and expiry, which is 0 for all but one.
    fn from_numbers(number: u8, expiry: u64) -> Option<Self> {
        let cases = [Self::NotAsking, Self::NoPath, Self::OnlyExpired { expiry }, Self::NoLink, Self::NotProved, Self::NoReturn];
        cases.into_iter().find(|case| case.number() == number && case.expiry().unwrap_or(0) == expiry)
    }

    pub fn expiry(self) -> Option<u64> {
        if let Self::OnlyExpired { expiry } = self {
            Some(expiry)
        } else {
            None
        }
    }
}

impl Reason {
    /// Those that say no more than their number.
    pub const PLAIN: [Self; 13] = [
        Self::NotOurs,
        Self::Duplicate,
        Self::OwnAnnounce,
        Self::TooManyHops,
        Self::AlreadyKnown,
        Self::WrongSide,
        Self::BadSignature,
        Self::Replay,
        Self::NotBetter,
        Self::PortOff,
        Self::NoRoom,
        Self::TooOften,
        Self::TooLongForPort,
    ];

    /// The number of its clause or case, and the number that it tells.
    pub fn clause(self) -> Option<(u8, Option<u64>)> {
        match self {
            Self::BadForm { clause, least } => Some((clause.number(), Some(least))),
            Self::NoWayOn { case } => Some((case.number(), case.expiry())),
            _ => None,
        }
    }

    /// The reason of these numbers; those that it hasn't are 0.
    pub fn from_numbers(number: u8, clause: u8, value: u64) -> Option<Self> {
        match number {
            3 => Clause::from_number(clause).map(|clause| Self::BadForm { clause, least: value }),
            6 => NoWay::from_numbers(clause, value).map(|case| Self::NoWayOn { case }),
            _ if clause == 0 && value == 0 => Self::PLAIN.into_iter().find(|reason| reason.number() == number),
            _ => None,
        }
    }
}

/// Test 6, in this case.
pub const fn no_way_on(case: NoWay) -> Reason {
    Reason::NoWayOn { case }
}

/// A refusal or a drop, given when its test holds.
pub trait When: Sized {
    fn when(self, holds: bool) -> Result<(), Self> {
        if holds {
            Err(self)
        } else {
            Ok(())
        }
    }
}

impl When for Refusal {}
impl When for Reason {}

/// How a packet was judged.
#[derive(Clone, Copy, Debug, PartialEq, Eq)]
pub enum Verdict {
    Drop(Reason),
    Deliver,
    /// The port to leave by.
    Forward(u8),
    /// The ports to leave by: bit i stands for port i.
    Spread(u16),
    Kept,
}

impl Verdict {
    /// Its place among the five answers, in document 01's order: drop, deliver, forward, spread, kept.
    pub fn index(&self) -> usize {
        match self {
            Verdict::Drop(_) => 0,
            Verdict::Deliver => 1,
            Verdict::Forward(_) => 2,
            Verdict::Spread(_) => 3,
            Verdict::Kept => 4,
        }
    }
}

/// A judged packet's verdict, and the length of what stands in the output: 0 when nothing leaves.
#[derive(Clone, Copy, Debug, PartialEq, Eq)]
pub struct Answer {
    pub verdict: Verdict,
    pub length: usize,
}

impl Answer {
    /// An answer for which nothing leaves.
    pub fn silent(verdict: Verdict) -> Self {
        Self { verdict, length: 0 }
    }
}

/// Total, then the five answers in `Verdict::index`'s order.
pub type Tally = [u32; 6];

/// "total and the five answers, each the number of such packet calls since fresh, modulo 2^32; refusals don't count."
pub fn count(tally: &mut Tally, verdict: Verdict) {
    for place in [0, 1 + verdict.index()] {
        tally[place] = tally[place].wrapping_add(1);
    }
}

#[cfg(test)]
mod tests {
    use super::*;

    #[test]
    fn refusals_have_the_documents_numbers() {
        for number in 0..=255 {
            let refusal = matches!(number, 1..=12 | 20..=29);
            assert_eq!(Refusal::from_number(number).map(Refusal::number), refusal.then_some(number));
        }
    }

    /// 3 and 6 have clauses, 3.1 to 3.8 and 6.1 to 6.6; the clauses of 3 and 6.3 tell a number.
    #[test]
    fn reasons_have_the_documents_numbers() {
        for number in 0..=255 {
            for clause in 0..=16 {
                for value in [0, 148, 1 << 40] {
                    let given = match number {
                        3 => (1..=8).contains(&clause),
                        6 => clause == 3 || value == 0 && (1..=6).contains(&clause),
                        _ => clause == 0 && value == 0 && matches!(number, 1..=13 | 15 | 16),
                    };
                    let reason = Reason::from_numbers(number, clause, value);
                    assert_eq!(reason.is_some(), given, "{number}.{clause} {value}");
                    let Some(reason) = reason else { continue };
                    let told = number == 3 || (number, clause) == (6, 3);
                    let numbers = (clause > 0).then_some((clause, told.then_some(value)));
                    assert_eq!((reason.number(), reason.clause()), (number, numbers));
                }
            }
        }
    }
}
