//! What leaves is never too long: why document 01's test 14 could go, and no longer than the port that it leaves by carries.

use haskumye_independent::answer::{Answer, Verdict};
use haskumye_independent::engine::{Call, Engine, Outcome, Run};
use haskumye_independent::limits::LONGEST;
use haskumye_independent::linked::Core;
use haskumye_independent::relay::Relay;
use haskumye_independent::tables::port_size;
use haskumye_independent::traffic::Traffic;

/// The ports that a packet leaves by.
fn ports_of(verdict: Verdict) -> Vec<u8> {
    match verdict {
        Verdict::Forward(port) => vec![port],
        Verdict::Spread(ports) => (0..16).filter(|port| ports >> port & 1 == 1).collect(),
        _ => Vec::new(),
    }
}

/// "Forwarded packets keep their length or lose sixteen bytes; announces alone grow, and past 500 they're Kept."
fn lengths_of(engine: impl Engine) {
    let mut run = Run::new(engine);
    let (mut kept, mut shorter, mut grown) = (0, 0, 0);
    for call in Traffic::new(5).take(20_000) {
        let before = run.tables.clone();
        let outcome = run.make(&call);
        let (Call::Packet(packet), Some(Outcome::Judged(Answer { verdict, length }))) = (call, outcome) else { continue };
        let came = packet.packet.len();
        assert!(ports_of(verdict).iter().all(|port| length <= port_size(&before, *port)));
        match verdict {
            Verdict::Forward(_) if length == came => kept += 1,
            Verdict::Forward(_) => {
                assert_eq!(length + 16, came);
                shorter += 1;
            }
            Verdict::Spread(_) => {
                assert!(length <= LONGEST && [came, came + 16].contains(&length));
                grown += 1;
            }
            _ => assert_eq!(length, 0),
        }
    }
    assert!(kept.min(shorter).min(grown) >= 100, "{kept}, {shorter}, {grown}");
}

#[test]
fn of_the_independent_relay() {
    lengths_of(Relay::as_written());
}

#[test]
fn of_the_core() {
    lengths_of(Core);
}
