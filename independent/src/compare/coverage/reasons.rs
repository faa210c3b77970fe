//! Wish 10: the clauses of test 3 and the cases of test 6, and what they are told of.

use super::packet_of;
use crate::answer::{Clause, NoWay, Reason, Verdict};
use crate::engine::Call;
use crate::limits::CLOCK_LIMIT;
use crate::packet::announced::NAME_HASH;
use crate::relay::{by_path, form, Packet};
use crate::rules::AsWritten;
use crate::sha256::Sha256;
use crate::tables;

/// A packet call that was judged: the packet, the expiries of its destination's path records by their places, and the verdict.
struct Seen<'a> {
    packet: &'a Packet<'a>,
    expiries: &'a [u64],
    verdict: Verdict,
}

impl Seen<'_> {
    fn length(&self) -> usize {
        self.packet.payload.len()
    }

    /// The number of the clause that was named.
    fn clause(&self) -> Option<Clause> {
        if let Verdict::Drop(Reason::BadForm { clause, .. }) = self.verdict {
            Some(clause)
        } else {
            None
        }
    }

    fn is(&self, clause: Clause, least: u64) -> bool {
        self.verdict == Verdict::Drop(Reason::BadForm { clause, least })
    }

    /// Is it dropped by this clause, while a later one fails too?
    fn before_others(&self, clause: Clause) -> bool {
        let fails = |later: &Clause| {
            let read = *later != Clause::AnnounceOfAnother || self.length() >= NAME_HASH.end;
            read && form::fails(&AsWritten, *later, self.packet)
        };
        self.clause() == Some(clause) && Clause::ALL.iter().skip(usize::from(clause.number())).any(fails)
    }

    /// The greatest expiry that was told.
    fn told(&self) -> Option<u64> {
        if let Verdict::Drop(Reason::NoWayOn { case: NoWay::OnlyExpired { expiry } }) = self.verdict {
            Some(expiry)
        } else {
            None
        }
    }

    /// The same where the first of these records hasn't it.
    fn told_but(&self, place: Option<&u64>) -> bool {
        self.told().is_some_and(|told| place != Some(&told))
    }

    fn is_case(&self, case: NoWay) -> bool {
        self.verdict == Verdict::Drop(Reason::NoWayOn { case })
    }
}

type Edge = (&'static str, fn(&Seen) -> bool);

const EDGES: &[Edge] = &[
    ("3.1, and a later clause fails too", |seen| seen.before_others(Clause::TypeTwoProof)),
    ("3.2, and a later clause fails too", |seen| seen.before_others(Clause::TypeTwoLink)),
    ("3.3, and a later clause fails too", |seen| seen.before_others(Clause::AnnounceNotSingle)),
    ("3.4, and a later clause fails too", |seen| seen.before_others(Clause::AnnounceTooShort)),
    ("3.6, and a later clause fails too", |seen| seen.before_others(Clause::RequestOfKindLink)),
    ("3.4 148", |seen| seen.is(Clause::AnnounceTooShort, 148)),
    ("3.4 180", |seen| seen.is(Clause::AnnounceTooShort, 180)),
    ("3.4 180, of 148 or more", |seen| seen.is(Clause::AnnounceTooShort, 180) && seen.length() >= 148),
    ("3.8, under 96", |seen| seen.is(Clause::LinkProofLength, 96) && seen.length() < 96),
    ("3.8, of 97 or 98", |seen| seen.is(Clause::LinkProofLength, 96) && (97..99).contains(&seen.length())),
    ("3.8, over 99", |seen| seen.is(Clause::LinkProofLength, 96) && seen.length() > 99),
    ("6.1, with a path", |seen| seen.is_case(NoWay::NotAsking) && !seen.expiries.is_empty()),
    ("6.3, of several records", |seen| seen.told().is_some() && seen.expiries.len() > 1),
    ("6.3, the first record's isn't the greatest", |seen| seen.told_but(seen.expiries.first())),
    ("6.3, the last record's isn't the greatest", |seen| seen.told_but(seen.expiries.last())),
    ("6.3, neither is", |seen| seen.told_but(seen.expiries.first()) && seen.told_but(seen.expiries.last())),
    ("6.3, at its second", |seen| seen.told() == Some(seen.packet.clock)),
    ("6.3 0", |seen| seen.told() == Some(0)),
    ("6.3 with more than 32 bits", |seen| seen.told().is_some_and(|told| told >> 32 > 0)),
    ("6.4, a link proof's", |seen| seen.is_case(NoWay::NoLink) && seen.packet.parts.is_link_proof()),
    ("forward by a path that lives past every clock", |seen| {
        matches!(seen.verdict, Verdict::Forward(_)) && seen.expiries.iter().any(|expiry| *expiry >= CLOCK_LIMIT)
    }),
];

/// How often each clause, case and edge was reached.
#[derive(Default)]
pub struct Reasons {
    sha: Sha256,
    /// Are the tables lent?
    lent: bool,
    /// By the clause's number: of test 3, then of test 6; over tables that nobody else wrote, then over lent ones.
    clauses: [[[usize; 9]; 2]; 2],
    edges: [usize; EDGES.len()],
}

impl Reasons {
    /// Whether the tables are lent from now on, and the expiries that a call finds.
    pub fn before(&mut self, call: &Call, tables: &[u8]) -> Vec<u64> {
        match call {
            Call::PutAside => self.lent = true,
            Call::TakeBack | Call::Fresh(_) => self.lent = false,
            _ => {}
        }
        let packet = packet_of(&self.sha, call).filter(|_| tables.len() == tables::SIZE);
        packet.map_or(Vec::new(), |packet| by_path::expiries(&packet, tables).collect())
    }

    pub fn count(&mut self, call: &Call, expiries: &[u64], verdict: Verdict) {
        let Some(packet) = packet_of(&self.sha, call) else { return };
        let seen = Seen { packet: &packet, expiries, verdict };
        let reached: Vec<bool> = EDGES.iter().map(|(_, reaches)| reaches(&seen)).collect();
        for (times, reached) in self.edges.iter_mut().zip(reached) {
            *times += usize::from(reached);
        }
        let Verdict::Drop(reason) = verdict else { return };
        if let Some((clause, _)) = reason.clause() {
            self.clauses[usize::from(reason.number() == 6)][usize::from(self.lent)][usize::from(clause)] += 1;
        }
    }

    /// Each clause and case, in words, and how often it was given, over lent tables or over all.
    fn clauses(&self, what: &str, times: impl Fn(&[[usize; 9]; 2], usize) -> usize) -> Vec<(String, usize)> {
        let line = |number: usize, clauses: &[[usize; 9]; 2], clause| (format!("drop {number}.{clause}{what}"), times(clauses, clause));
        let forms = (1..=8).map(|clause| line(3, &self.clauses[0], clause));
        forms.chain((1..=6).map(|case| line(6, &self.clauses[1], case))).collect()
    }

    pub fn reached(&self) -> Vec<(String, usize)> {
        self.clauses("", |times, clause| times[0][clause] + times[1][clause])
    }

    /// The same over lent tables alone, and the edges.
    pub fn reached_edges(&self) -> Vec<(String, usize)> {
        let edges = EDGES.iter().zip(self.edges).map(|((what, _), times)| (format!("reasons: {what}"), times));
        self.clauses(" over lent tables", |times, clause| times[1][clause]).into_iter().chain(edges).collect()
    }
}
