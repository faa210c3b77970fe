//! Wish 12: announces of our own, and the bytes that the host signs for them.

use crate::answer::{Refusal, When};
use crate::limits::{CLOCK_LIMIT, LONGEST, RATCHET_LENGTH};
use crate::packet::{announced, put, Address, Blob, Header, Parts, START_1};
use crate::rules::Rules;
use crate::sha256::Sha256;

/// What an announce is built from. An absent ratchet is empty.
#[derive(Clone, Copy, Debug)]
pub struct Own<'a> {
    pub keys: &'a [u8],
    pub name_hash: &'a [u8],
    pub random: &'a [u8],
    pub clock: u64,
    pub ratchet: &'a [u8],
    pub app_data: &'a [u8],
}

/// Ed25519's.
const SIGNATURE: usize = 64;
/// "Header 01, or 21 with a ratchet"
const PLAIN: Header = Header(0x01);
const RATCHETED: Header = Header(0x21);

/// "Refusals, for the signing bytes too: 26 key, name, random, ratchet or signature of wrong length, 5 a clock of 2^40 or more, 27 an announce over 500
/// once built, 6 a buffer under 500, in that order, the buffer untouched." The signing bytes take no signature.
pub fn announcing_refusal<R: Rules>(rules: &R, own: &Own, signature: Option<&[u8]>, room: usize) -> Result<(), Refusal> {
    Refusal::PartLength.when(rules.wrong_lengths(own) || signature.is_some_and(|signature| signature.len() != SIGNATURE))?;
    Refusal::Clock.when(own.clock >= CLOCK_LIMIT)?;
    Refusal::AnnounceLength.when(rules.announce_grown(own))?;
    Refusal::SmallOutput.when(room < LONGEST)
}

/// Sixty-four key bytes, ten of the name hash, five random ones, and no ratchet or one of thirty-two.
pub fn wrong_lengths(own: &Own) -> bool {
    own.keys.len() != announced::KEYS.len()
        || own.name_hash.len() != announced::NAME_HASH.len()
        || own.random.len() != announced::BLOB.len() / 2
        || ![0, RATCHET_LENGTH].contains(&own.ratchet.len())
}

/// "an announce over 500 once built": with its signature.
pub fn announce_grown(own: &Own) -> bool {
    START_1 + announced::BLOB.end + own.ratchet.len() + SIGNATURE + own.app_data.len() > LONGEST
}

/// "five random, five of emission time, big-endian."
pub fn own_blob(own: &Own) -> Blob {
    let mut blob = [0; 10];
    blob[..5].copy_from_slice(own.random);
    blob[5..].copy_from_slice(&own.clock.to_be_bytes()[3..]);
    blob
}

fn destination<R: Rules>(rules: &R, sha: &Sha256, own: &Own) -> Address {
    rules.destination(sha, own.keys, own.name_hash)
}

/// "the exact bytes the host must sign: destination, keys, name hash, blob, ratchet if any, app data, by source document 000." Their length.
pub fn signing_bytes<R: Rules>(rules: &R, sha: &Sha256, own: &Own, room: &mut [u8]) -> Result<usize, Refusal> {
    rules.announcing_refusal(own, None, room.len())?;
    let bytes = rules.signed(&destination(rules, sha, own), own);
    room[..bytes.len()].copy_from_slice(&bytes);
    Ok(bytes.len())
}

pub fn signed<R: Rules>(rules: &R, destination: &Address, own: &Own) -> Vec<u8> {
    [destination, own.keys, own.name_hash, &rules.own_blob(own), own.ratchet, own.app_data].concat()
}

/// "Build an announce from key bytes, name hash, random bytes, clock, optional ratchet, app data and a signature that the host made". Its length.
pub fn build<R: Rules>(rules: &R, sha: &Sha256, own: &Own, signature: &[u8], room: &mut [u8]) -> Result<usize, Refusal> {
    rules.announcing_refusal(own, Some(signature), room.len())?;
    let parts = rules.own_parts(destination(rules, sha, own), own);
    Ok(put(&parts, &rules.own_payload(own, signature), room))
}

/// "hops and context 0."
pub fn own_parts(destination: Address, own: &Own) -> Parts {
    let header = if own.ratchet.is_empty() { PLAIN } else { RATCHETED };
    Parts { header, hops: 0, relay: [0; 16], destination, context: 0 }
}

/// As source document 000 draws it: the signature stands before the app data.
pub fn own_payload<R: Rules>(rules: &R, own: &Own, signature: &[u8]) -> Vec<u8> {
    [own.keys, own.name_hash, &rules.own_blob(own), own.ratchet, signature, own.app_data].concat()
}

#[cfg(test)]
mod tests {
    use super::*;
    use crate::answer::{Answer, Reason, Verdict};
    use crate::engine::{Call, Outcome, PacketCall, Run};
    use crate::packet;
    use crate::relay::Relay;
    use crate::rules::AsWritten;

    const KEYS: [u8; 64] = [1; 64];
    const NAME: [u8; 10] = [2; 10];
    const SIGNED: [u8; 64] = [7; 64];
    const APP: [u8; 400] = [5; 400];

    fn own<'a>(ratchet: &'a [u8], app_data: usize) -> Own<'a> {
        Own { keys: &KEYS, name_hash: &NAME, random: &[3; 5], clock: 0x01_0203_0405, ratchet, app_data: &APP[..app_data] }
    }

    fn built(own: &Own) -> Result<Vec<u8>, Refusal> {
        let mut room = [0xee; 520];
        let length = build(&AsWritten, &Sha256::default(), own, &SIGNED, &mut room);
        assert!(room[length.unwrap_or(0)..].iter().all(|byte| *byte == 0xee));
        length.map(|length| room[..length].to_vec())
    }

    fn to_sign(own: &Own, room: usize) -> Result<Vec<u8>, Refusal> {
        let mut room = vec![0xee; room];
        let length = signing_bytes(&AsWritten, &Sha256::default(), own, &mut room);
        assert!(room[length.unwrap_or(0)..].iter().all(|byte| *byte == 0xee));
        length.map(|length| room[..length].to_vec())
    }

    const BLOB: [u8; 10] = [3, 3, 3, 3, 3, 1, 2, 3, 4, 5];

    #[test]
    fn what_is_built_reads_back() {
        for (ratchet, header) in [(&[][..], 0x01), (&[9; 32][..], 0x21)] {
            for app_data in [0, 1, 301] {
                let own = own(ratchet, app_data);
                let packet = built(&own).expect("it is built");
                let parts = packet::read(&AsWritten, &packet, LONGEST).expect("it reads");
                let destination = announced::destination(&Sha256::default(), &KEYS, &NAME);
                assert_eq!(parts, Parts { header: Header(header), hops: 0, relay: [0; 16], destination, context: 0 });
                let payload = [&KEYS[..], &NAME, &BLOB, ratchet, &SIGNED, own.app_data].concat();
                assert_eq!(packet[packet::payload_place(&packet)..], payload);
                let signed = [&destination[..], &KEYS, &NAME, &BLOB, ratchet, own.app_data].concat();
                assert_eq!(to_sign(&own, 500), Ok(signed));
            }
        }
    }

    #[test]
    fn the_longest_has_500_bytes() {
        for (ratchet, longest) in [(&[][..], 333), (&[9; 32][..], 301)] {
            assert_eq!(built(&own(ratchet, longest)).map(|packet| packet.len()), Ok(500));
            assert_eq!(to_sign(&own(ratchet, longest), 500).map(|bytes| bytes.len()), Ok(433));
            assert_eq!(built(&own(ratchet, longest + 1)), Err(Refusal::AnnounceLength));
            assert_eq!(to_sign(&own(ratchet, longest + 1), 500), Err(Refusal::AnnounceLength));
        }
    }

    #[test]
    fn lengths_come_first_then_clock_length_and_room() {
        let good = own(&[], 10);
        let wrong = [
            Own { keys: &APP[..63], ..good },
            Own { keys: &APP[..65], ..good },
            Own { name_hash: &APP[..9], ..good },
            Own { name_hash: &APP[..11], ..good },
            Own { random: &APP[..4], ..good },
            Own { random: &APP[..6], ..good },
            Own { ratchet: &APP[..1], ..good },
            Own { ratchet: &APP[..31], ..good },
            Own { ratchet: &APP[..33], ..good },
        ];
        for own in wrong {
            let own = Own { clock: CLOCK_LIMIT, app_data: &APP, ..own };
            assert_eq!(built(&own), Err(Refusal::PartLength));
            assert_eq!(to_sign(&own, 499), Err(Refusal::PartLength));
        }
        let sha = Sha256::default();
        for length in [0, 63, 65] {
            let late = Own { clock: CLOCK_LIMIT, ..good };
            assert_eq!(build(&AsWritten, &sha, &late, &APP[..length], &mut []), Err(Refusal::PartLength));
        }
        for clock in [CLOCK_LIMIT, u64::MAX] {
            assert_eq!(to_sign(&Own { clock, app_data: &APP, ..good }, 499), Err(Refusal::Clock));
        }
        assert!(to_sign(&Own { clock: CLOCK_LIMIT - 1, ..good }, 500).is_ok());
        assert_eq!(to_sign(&Own { app_data: &APP, ..good }, 499), Err(Refusal::AnnounceLength));
        for room in [0, 499] {
            assert_eq!(to_sign(&good, room), Err(Refusal::SmallOutput));
            assert_eq!(build(&AsWritten, &sha, &good, &SIGNED, &mut vec![0; room]), Err(Refusal::SmallOutput));
        }
    }

    /// It passes tests 3 and 5: with the word no, test 9 drops it.
    #[test]
    fn another_relay_takes_it() {
        let mut run = Run::new(Relay::as_written());
        run.make(&Call::Fresh([0xaa; 16]));
        run.make(&Call::SetPort { port: 3, on: true, mode: 0, size: 500 });
        run.make(&Call::SetPort { port: 4, on: true, mode: 0, size: 500 });
        for (ratchet, app_data) in [(&[][..], 0), (&[9; 32][..], 269)] {
            let packet = built(&own(ratchet, app_data)).expect("it is built");
            let call = PacketCall { packet: packet.clone(), port: 3, clock: 1_000, signature: false, output: 500, fill: 0 };
            let unsigned = run.make(&Call::Packet(call));
            assert_eq!(unsigned, Some(Outcome::Judged(Answer::silent(Verdict::Drop(Reason::BadSignature)))));
            let matters = run.make(&Call::Matters { packet: packet.clone(), port: 3, clock: 1_300, room: 500 });
            assert_eq!(matters, Some(Outcome::Matters(true)));
        }
    }
}
