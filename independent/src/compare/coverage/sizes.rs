//! What packets find of ports' sizes, and what becomes of them.

use super::packet_of;
use crate::answer::{Answer, Reason, Verdict};
use crate::engine::{Call, Outcome};
use crate::limits::{GREATEST_SIZE, LONGEST, PORT_COUNT};
use crate::packet::PacketKind;
use crate::relay::links::{opposite, side};
use crate::relay::outgoing::{is_other_on, length_by_path, spread_length};
use crate::relay::{by_path, Packet};
use crate::rules::AsWritten;
use crate::sha256::Sha256;
use crate::tables::{self, port_on, port_size, Link, Path, Return, LINKS, PATHS, RETURNS, SIZE};

/// The kinds of packets that leave by one port.
#[derive(Clone, Copy, PartialEq, Eq)]
enum Kind {
    Data,
    Request,
    Link,
    LinkProof,
    Proof,
}

/// What the tables held before a packet call.
pub struct Sized {
    /// The packet's length, and the arrival port's size.
    came: usize,
    arrival: usize,
    way: Option<Way>,
    /// Of an announce: its length once spread, and the sizes of all ports that are on but the arrival port.
    spread: Option<(usize, Vec<usize>)>,
}

/// The port that a packet would leave by: whether it is on, its size, and the packet's length then.
struct Way {
    kind: Kind,
    on: bool,
    size: usize,
    length: usize,
    /// Is there no room for a link?
    full: bool,
}

impl Sized {
    pub fn before(sha: &Sha256, call: &Call, tables: &[u8]) -> Option<Self> {
        let Call::Packet(given) = call else { return None };
        if tables.len() != SIZE || given.port >= PORT_COUNT as u64 {
            return None;
        }
        let packet = packet_of(sha, call);
        let (came, arrival) = (given.packet.len(), port_size(tables, given.port as u8));
        let announce = packet.as_ref().filter(|packet| packet.header().is_announce());
        Some(Self {
            came,
            arrival,
            way: packet.as_ref().and_then(|packet| way(packet, tables)),
            spread: announce.map(|packet| spread(packet, tables)),
        })
    }
}

fn spread(packet: &Packet, tables: &[u8]) -> (usize, Vec<usize>) {
    let others = (0..PORT_COUNT as u8).filter(|port| is_other_on(packet, *port, tables));
    (spread_length(packet), others.map(|port| port_size(tables, port)).collect())
}

/// Which way a packet would leave, where the tables have one for it.
fn way(packet: &Packet, tables: &[u8]) -> Option<Way> {
    let live = |table| tables::find(table, tables, &packet.parts.destination, packet.clock);
    let (kind, port, length) = match packet.header().packet_kind() {
        PacketKind::Announce => return None,
        _ if packet.header().to_link() => {
            let link = Link::read(LINKS.records.get(tables, live(&LINKS)?));
            let kind = if packet.parts.is_link_proof() { Kind::LinkProof } else { Kind::Link };
            (kind, opposite(side(packet, &link)?, &link), packet.bytes.len())
        }
        PacketKind::Proof => (Kind::Proof, Return::read(RETURNS.records.get(tables, live(&RETURNS)?)).arrival, packet.bytes.len()),
        kind => {
            let path = Path::read(PATHS.records.get(tables, by_path::live_path(&AsWritten, packet, tables)?));
            let kind = if kind == PacketKind::Data { Kind::Data } else { Kind::Request };
            (kind, path.port, length_by_path(&AsWritten, packet, &path))
        }
    };
    let full = LINKS.free(tables, packet.clock).is_none();
    (usize::from(port) < PORT_COUNT).then(|| Way { kind, on: port_on(tables, port), size: port_size(tables, port), length, full })
}

type Branch = (&'static str, fn(&Sized, &Outcome) -> bool);

fn verdict(outcome: &Outcome) -> Option<Verdict> {
    if let Outcome::Judged(Answer { verdict, .. }) = outcome {
        Some(*verdict)
    } else {
        None
    }
}

fn dropped(outcome: &Outcome, reason: Reason) -> bool {
    verdict(outcome) == Some(Verdict::Drop(reason))
}

fn too_long(sized: &Sized, outcome: &Outcome, holds: fn(&Way) -> bool) -> bool {
    dropped(outcome, Reason::TooLongForPort) && sized.way.as_ref().is_some_and(holds)
}

fn forwarded(sized: &Sized, outcome: &Outcome, holds: fn(&Sized, &Way) -> bool) -> bool {
    matches!(verdict(outcome), Some(Verdict::Forward(_))) && sized.way.as_ref().is_some_and(|way| holds(sized, way))
}

/// How many ports an announce was spread to, with its length and the sizes of all others that are on.
fn spread_to(sized: &Sized, outcome: &Outcome, holds: fn(usize, usize, &[usize]) -> bool) -> bool {
    let ports = match verdict(outcome) {
        Some(Verdict::Spread(ports)) => ports.count_ones() as usize,
        Some(Verdict::Kept) => 0,
        _ => return false,
    };
    sized.spread.as_ref().is_some_and(|(length, sizes)| holds(ports, *length, sizes))
}

const BRANCHES: &[Branch] = &[
    ("refusal 2 of 500 bytes or less", |sized, outcome| *outcome == Outcome::Refused(2) && sized.came <= LONGEST),
    ("refusal 2 of one byte too much", |sized, outcome| {
        *outcome == Outcome::Refused(2) && sized.came == sized.arrival + 1 && sized.came <= LONGEST
    }),
    ("as long as the arrival port carries", |sized, outcome| {
        verdict(outcome).is_some() && sized.came == sized.arrival && sized.came < LONGEST
    }),
    ("drop 16 of data", |sized, outcome| too_long(sized, outcome, |way| way.kind == Kind::Data)),
    ("drop 16 of a link request", |sized, outcome| too_long(sized, outcome, |way| way.kind == Kind::Request)),
    ("drop 16 of a link packet", |sized, outcome| too_long(sized, outcome, |way| way.kind == Kind::Link)),
    ("drop 16 of a link proof", |sized, outcome| too_long(sized, outcome, |way| way.kind == Kind::LinkProof)),
    ("drop 16 of an ordinary proof", |sized, outcome| too_long(sized, outcome, |way| way.kind == Kind::Proof)),
    ("drop 16 of one byte too much", |sized, outcome| too_long(sized, outcome, |way| way.length == way.size + 1)),
    ("drop 16 on the last hop", |sized, outcome| {
        dropped(outcome, Reason::TooLongForPort) && sized.way.as_ref().is_some_and(|way| way.length < sized.came)
    }),
    ("drop 16 with no room for a link", |sized, outcome| too_long(sized, outcome, |way| way.kind == Kind::Request && way.full)),
    ("drop 13 by a port that carries it, and less than 500", |sized, outcome| {
        dropped(outcome, Reason::NoRoom) && sized.way.as_ref().is_some_and(|way| way.size < GREATEST_SIZE)
    }),
    ("drop 12 of one that is too long too", |sized, outcome| {
        dropped(outcome, Reason::PortOff) && sized.way.as_ref().is_some_and(|way| !way.on && way.length > way.size)
    }),
    ("forwarded as long as the port carries", |sized, outcome| {
        forwarded(sized, outcome, |_, way| way.length == way.size && way.size < GREATEST_SIZE)
    }),
    ("forwarded since the last hop made it short enough", |sized, outcome| forwarded(sized, outcome, |sized, way| sized.came > way.size)),
    ("spread to some of the ports that are on", |sized, outcome| {
        spread_to(sized, outcome, |ports, _, sizes| ports > 0 && ports < sizes.len())
    }),
    ("spread to one of several", |sized, outcome| spread_to(sized, outcome, |ports, _, sizes| ports == 1 && sizes.len() > 1)),
    ("spread as long as a port carries", |sized, outcome| {
        spread_to(sized, outcome, |ports, length, sizes| ports > 0 && length < LONGEST && sizes.contains(&length))
    }),
    ("kept since no port carries it", |sized, outcome| {
        spread_to(sized, outcome, |ports, length, sizes| ports == 0 && length <= LONGEST && !sizes.is_empty())
    }),
];

/// How often each branch was taken, and settings of sizes.
#[derive(Default)]
pub struct Sizes {
    branches: [usize; BRANCHES.len()],
    /// Ports set to a size under 500, and settings refused by their size alone.
    set: usize,
    refused: usize,
}

impl Sizes {
    pub fn count(&mut self, sized: &Sized, outcome: &Outcome) {
        for (times, (_, takes)) in self.branches.iter_mut().zip(BRANCHES) {
            *times += usize::from(takes(sized, outcome));
        }
    }

    pub fn count_setting(&mut self, call: &Call, outcome: &Outcome) {
        let Call::SetPort { port, mode, size, .. } = call else { return };
        self.set += usize::from(*outcome == Outcome::Done && *size < GREATEST_SIZE as u64);
        self.refused += usize::from(*outcome == Outcome::Refused(9) && *port < PORT_COUNT as u64 && *mode < 3);
    }

    /// Each branch in words, and how often it was taken.
    pub fn reached(&self) -> Vec<(String, usize)> {
        let branches = BRANCHES.iter().zip(self.branches).map(|((what, _), times)| (*what, times));
        let settings = [("set under 500", self.set), ("refusal 9 for it alone", self.refused)];
        branches.chain(settings).map(|(what, times)| (format!("sizes: {what}"), times)).collect()
    }
}
