//! Deliberate wrong readings of documents 01 and 02, one at a time: a comparison that doesn't notice one of them is too weak. A fault names the
//! words that it breaks, and puts other rules in the place of those that say them.

mod accepting;
mod announces;
mod announcing;
mod asking;
mod blobs;
mod by_path;
mod check;
mod exempt;
mod judging;
mod links;
mod marks;
mod opinion;
mod outgoing;
mod packets;
mod rates;
mod reasons;
mod recordings;
mod renumbering;
mod returns;
mod saved;
mod settings;
mod sizes;
mod survey;
mod with;

pub use accepting::*;
pub use announces::*;
pub use announcing::*;
pub use asking::*;
pub use blobs::*;
pub use by_path::*;
pub use check::*;
pub use exempt::*;
pub use judging::*;
pub use links::*;
pub use marks::*;
pub use opinion::*;
pub use outgoing::*;
pub use packets::*;
pub use rates::*;
pub use reasons::*;
pub use recordings::*;
pub use renumbering::*;
pub use returns::*;
pub use saved::*;
pub use settings::*;
pub use sizes::*;
pub use survey::*;
pub use with::{Changes, With};

use crate::relay::Relay;

/// A wrong reading.
#[derive(Clone, Copy)]
pub struct Fault {
    pub name: &'static str,
    /// The wrong reading in words.
    pub text: &'static str,
    /// The words of document 01 or 02 that it breaks.
    pub breaks: &'static str,
    changes: &'static Changes,
}

impl Fault {
    pub fn rules(&self) -> With {
        With::new(self.changes)
    }

    /// An independent relay with the fault.
    pub fn relay(&self) -> Relay<With> {
        Relay::new(self.rules())
    }
}

/// Those that show in a packet's bytes alone.
pub const OF_PACKETS: &[&[Fault]] = &[packets::FAULTS];
/// Those that show in calls without a packet.
pub const OF_TABLES: &[&[Fault]] = &[check::FAULTS, settings::FAULTS, renumbering::FAULTS];
/// The others, in document 01's order, and those of questions.
const OF_JUDGING: &[&[Fault]] = &[
    accepting::FAULTS,
    judging::FAULTS,
    exempt::FAULTS,
    announces::FAULTS,
    blobs::FAULTS,
    rates::FAULTS,
    marks::FAULTS,
    by_path::FAULTS,
    links::FAULTS,
    returns::FAULTS,
    outgoing::FAULTS,
    sizes::FAULTS,
    reasons::FAULTS,
    asking::FAULTS,
];

/// Those that show in recordings alone.
pub const OF_RECORDINGS: &[&[Fault]] = &[recordings::FAULTS];

/// Those that show in saved files alone.
pub const OF_SAVED: &[&[Fault]] = &[saved::FAULTS];

/// Those that show in announces of our own alone.
pub const OF_ANNOUNCING: &[&[Fault]] = &[announcing::FAULTS];

/// Those that show in surveys alone.
pub const OF_SURVEYS: &[&[Fault]] = &[survey::FAULTS];

/// Those that show in second opinions alone.
pub const OF_OPINIONS: &[&[Fault]] = &[opinion::FAULTS];

pub fn all() -> Vec<Fault> {
    [OF_PACKETS, OF_TABLES, OF_JUDGING, OF_RECORDINGS, OF_SAVED, OF_ANNOUNCING, OF_SURVEYS, OF_OPINIONS].concat().concat()
}

pub fn named(name: &str) -> Option<Fault> {
    all().into_iter().find(|fault| fault.name == name)
}

/// A file's faults: of each its name, the wrong reading, the words that it breaks, and the rules that it puts in other rules' places.
macro_rules! faults {
    ($($name:ident: $text:literal breaks $words:literal { $($rule:ident = $wrong:expr),+ $(,)? })*) => {
        $(
            #[doc = $text]
            #[allow(non_upper_case_globals)]
            pub const $name: Fault = Fault {
                name: stringify!($name),
                text: $text,
                breaks: $words,
                changes: &Changes { $($rule: Some($wrong),)+ ..Changes::NONE },
            };
        )*
        pub(super) const FAULTS: &[Fault] = &[$($name,)*];
    };
}
use faults;
