//! A packet call's answer as one number, and as text: by the independent program here, by the proved core in `linked`.

use super::Outcome;
use crate::answer::{Answer, Reason, Refusal, Verdict};
use crate::core::LINE;
use crate::packet::payload_place;
use crate::recording::replaying::{words, Judged};
use crate::relay::Relay;
use crate::rules::Rules;

/// A drop's clause stands above its reason, and the value in 41 bits above that.
const CLAUSE: u32 = 16;
const VALUE: u32 = 20;
const VALUES: u64 = 1 << 41;

pub trait AnswerCalls {
    /// The length of an answer's text, which goes to the buffer, with zeros behind it.
    fn answer_text(&self, answer: u64, text: &mut [u8; LINE]) -> usize;
}

impl<R: Rules> AnswerCalls for Relay<R> {
    fn answer_text(&self, answer: u64, text: &mut [u8; LINE]) -> usize {
        let words = decoded(answer).map_or(String::new(), |judged| words(&self.rules, &judged));
        *text = [0; LINE];
        text[..words.len()].copy_from_slice(words.as_bytes());
        words.len()
    }
}

/// Bits 0 to 7 the kind, 8 to 15 the refusal's or the reason's number. Of a drop, bits 16 to 19 the clause and 20 to 60 the value. Of others, 16 to 31
/// the port or the ports, 32 to 47 the length, 48 to 63 where the payload of a delivered packet starts. None where no answer has this number.
pub fn decoded(number: u64) -> Option<Judged> {
    let (kind, detail, ports, length) = (number as u8, (number >> 8) as u8, (number >> CLAUSE) as u16, usize::from((number >> 32) as u16));
    Some(Ok(match kind {
        0 => return Refusal::from_number(detail).map(Err),
        1 => Answer::silent(Verdict::Drop(Reason::from_numbers(detail, ports as u8 & 0xf, number >> VALUE)?)),
        2 => Answer::silent(Verdict::Deliver),
        3 => Answer { verdict: Verdict::Forward(ports as u8), length },
        4 => Answer { verdict: Verdict::Spread(ports), length },
        5 => Answer::silent(Verdict::Kept),
        _ => return None,
    }))
}

/// The number of an answer to a packet.
pub fn encoded(outcome: &Outcome, packet: &[u8]) -> u64 {
    let Outcome::Judged(Answer { verdict, length }) = outcome else {
        return if let Outcome::Refused(number) = outcome { u64::from(*number) << 8 } else { 0 };
    };
    let fields = match verdict {
        Verdict::Drop(reason) => reason_fields(*reason),
        Verdict::Forward(port) => u64::from(*port) << 16,
        Verdict::Spread(ports) => u64::from(*ports) << 16,
        Verdict::Deliver => (payload_place(packet) as u64) << 48,
        Verdict::Kept => 0,
    };
    1 + verdict.index() as u64 + fields + ((*length as u64) << 32)
}

fn reason_fields(reason: Reason) -> u64 {
    let (clause, value) = reason.clause().unwrap_or((0, None));
    u64::from(reason.number()) << 8 | u64::from(clause) << CLAUSE | (value.unwrap_or(0) % VALUES) << VALUE
}

#[cfg(test)]
mod tests {
    use super::*;
    use crate::answer::{no_way_on, Clause, NoWay};

    fn dropped(reason: Reason) -> Option<Judged> {
        Some(Ok(Answer::silent(Verdict::Drop(reason))))
    }

    #[test]
    fn numbers_are_decoded() {
        assert_eq!(decoded(0x0000_0700), Some(Err(Refusal::Tables)));
        assert_eq!(decoded(0x0000_0d01), dropped(Reason::NoRoom));
        assert_eq!(decoded(0x0023_0000_0000_0002), Some(Ok(Answer::silent(Verdict::Deliver))));
        assert_eq!(decoded(0x0013_000f_0003), Some(Ok(Answer { verdict: Verdict::Forward(15), length: 19 })));
        assert_eq!(decoded(0x01f4_8001_0004), Some(Ok(Answer { verdict: Verdict::Spread(0x8001), length: 500 })));
        assert_eq!([0x1e00, 0x0e01, 0x1101, 0x0301, 0x7_0601, 0x9_0301, 0x1_0d01, 6, 255].map(decoded), [None; 9]);
    }

    /// 3.4 with 148 and 6.3 with 22,600, and with the greatest number of 41 bits.
    #[test]
    fn clauses_and_values_are_decoded() {
        let expired = |expiry| no_way_on(NoWay::OnlyExpired { expiry });
        let short = Reason::BadForm { clause: Clause::AnnounceTooShort, least: 148 };
        let numbers = [(0x0944_0301, short), (0x1_0601, no_way_on(NoWay::NotAsking)), (0x5_8483_0601, expired(22_600))];
        for (number, reason) in numbers.into_iter().chain([(0x1fff_ffff_fff3_0601, expired(VALUES - 1))]) {
            assert_eq!(decoded(number), dropped(reason), "{number:x}");
            assert_eq!(encoded(&Outcome::Judged(Answer::silent(Verdict::Drop(reason))), &[]), number);
        }
    }
}
