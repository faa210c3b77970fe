//! A relay and a second opinion, asked the same: each answer and the whole output, and refusal 28 from the 64th accepted call on.

use haskumye::raw::{HEADER_TYPE_2, PACKET_ANNOUNCE, PACKET_PROOF};
use haskumye::*;

const OWN: Address = [0x0a; 16];
const LOCAL: Address = [0x2a; 16];
const REVERSED: PortMap = [15, 14, 13, 12, 11, 10, 9, 8, 7, 6, 5, 4, 3, 2, 1, 0];

struct Both {
    relay: Relay,
    opinion: SecondOpinion,
}

impl Both {
    fn fresh() -> Self {
        Self { relay: Relay::fresh(&OWN), opinion: SecondOpinion::fresh(&OWN) }
    }

    /// What both answer, with the same bytes in all of the output. Of a relay 6.3 is told as 6.2.
    fn packet(&mut self, packet: &[u8], port: u8, clock: u64) -> Result<Verdict, Refusal> {
        let mut outputs = [[0xee; OUTPUT_SIZE + 7]; 2];
        let answer = self.relay.packet(packet, port, clock, true, &mut outputs[0]).map(|verdict| match verdict {
            Verdict::Drop(Reason::NoWayOn { case: NoWayOn::OnlyExpired, .. }) => no_path(),
            verdict => verdict,
        });
        assert_eq!(self.opinion.packet(packet, port, clock, true, &mut outputs[1]), answer);
        assert_eq!(outputs[0], outputs[1]);
        answer
    }

    /// What both return.
    fn settled(
        &mut self,
        relay: impl Fn(&mut Relay) -> Result<(), Refusal>,
        opinion: impl Fn(&mut SecondOpinion) -> Result<(), Refusal>,
    ) -> Result<(), Refusal> {
        let answer = relay(&mut self.relay);
        assert_eq!(opinion(&mut self.opinion), answer);
        answer
    }

    fn set_port(&mut self, port: u8, size: usize) -> Result<(), Refusal> {
        self.settled(|relay| relay.set_port(port, true, Mode::Roaming, size), |opinion| opinion.set_port(port, true, Mode::Roaming, size))
    }
}

fn no_path() -> Verdict {
    Verdict::Drop(Reason::NoWayOn { case: NoWayOn::NoPath, expiry: 0 })
}

fn packet(parts: Parts, payload: &[u8]) -> Vec<u8> {
    let mut output = [0; OUTPUT_SIZE];
    let length = write(&parts, payload, &mut output).unwrap();
    output[..length].to_vec()
}

#[test]
fn both_answer_alike() {
    let mut both = Both::fresh();
    for port in 0..3 {
        both.set_port(port, 300).unwrap();
    }
    assert_eq!(both.set_port(0, 18), Err(Refusal::Setting));
    let rate = AnnounceRate { target: 60, grace: 0, penalty: 100 };
    both.settled(|relay| relay.set_announce_rate(rate), |opinion| opinion.set_announce_rate(rate)).unwrap();
    both.settled(|relay| relay.add_local(&LOCAL), |opinion| opinion.add_local(&LOCAL)).unwrap();
    let destination = announced_destination(&[0x5a; 148]);
    let announce = packet(Parts { header: PACKET_ANNOUNCE, destination, ..Parts::default() }, &[0x5a; 148]);
    assert!(matches!(both.packet(&announce, 1, 10), Ok(Verdict::Spread { length: 183, .. })));
    assert_eq!(both.packet(&announce, 1, 11), Ok(Verdict::Drop(Reason::Duplicate)));
    let count = packet(Parts { header: HEADER_TYPE_2, relay: OWN, destination, ..Parts::default() }, b"count");
    assert_eq!(both.packet(&count, 2, 12), Ok(Verdict::Forward { port: 1, length: 24 }));
    both.settled(|relay| relay.renumber(&REVERSED), |opinion| opinion.renumber(&REVERSED)).unwrap();
    let receipt_for = packet_hash(&count).unwrap()[..16].try_into().unwrap();
    let receipt = packet(Parts { header: PACKET_PROOF, destination: receipt_for, ..Parts::default() }, &[0; 64]);
    assert_eq!(both.packet(&receipt, 14, 13), Ok(Verdict::Forward { port: 13, length: 83 }));
    let mark = |relay: &mut Relay| relay.mark_path_unresponsive(&destination, 14);
    both.settled(mark, |opinion| opinion.mark_path_unresponsive(&destination, 14)).unwrap();
    let local = packet(Parts { destination: LOCAL, ..Parts::default() }, b"7");
    assert_eq!(both.packet(&local, 15, 15), Ok(Verdict::Deliver { payload: 19 }));
    both.settled(|relay| relay.remove_local(&LOCAL), |opinion| opinion.remove_local(&LOCAL)).unwrap();
    assert_eq!(both.packet(&count, 15, 21_610), Ok(no_path()));
    assert_eq!(both.packet(&count, 16, 21_610), Err(Refusal::ArrivalPort));
}

#[test]
fn with_64_listed_every_call_is_refused_by_28() {
    let mut both = Both::fresh();
    for number in 0..LIST_LIMIT {
        both.set_port(number as u8 % 16, 500).unwrap();
    }
    let opinion = &mut both.opinion;
    let before = opinion.clone();
    assert_eq!(opinion.packet(&[], 99, u64::MAX, false, &mut []), Err(Refusal::ListFull));
    let settled = [
        opinion.set_port(99, true, Mode::Boundary, 0),
        opinion.set_announce_rate(AnnounceRate { target: u64::MAX, grace: 0, penalty: 0 }),
        opinion.add_local(&LOCAL),
        opinion.remove_local(&LOCAL),
        opinion.mark_path_unresponsive(&LOCAL, u64::MAX),
        opinion.renumber(&[0; 16]),
    ];
    assert_eq!(settled, [Err(Refusal::ListFull); 6]);
    assert_eq!(*opinion, before);
}
