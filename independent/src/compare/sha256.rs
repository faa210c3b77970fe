//! SHA-256: the core against NIST's examples and against the independent implementation.

use super::{Called, Options, Tally};
use crate::core;
use crate::random::Random;
use crate::sha256::Sha256;
use crate::vectors::bytes;

/// The longest message that document 01 lets be hashed.
const LONGEST: usize = 65_535;

/// What the buffer holds before each call.
const BEFORE: [u8; 32] = [0xa5; 32];

/// NIST's examples for FIPS 180-4, and its additional ones.
fn nist() -> Vec<(Vec<u8>, &'static str)> {
    vec![
        (b"".to_vec(), "e3b0c44298fc1c149afbf4c8996fb92427ae41e4649b934ca495991b7852b855"),
        (b"abc".to_vec(), "ba7816bf8f01cfea414140de5dae2223b00361a396177a9cb410ff61f20015ad"),
        (
            b"abcdbcdecdefdefgefghfghighijhijkijkljklmklmnlmnomnopnopq".to_vec(),
            "248d6a61d20638b8e5c026930c3e6039a33ce45964ff2167f6ecedd419db06c1",
        ),
        (
            b"abcdefghbcdefghicdefghijdefghijkefghijklfghijklmghijklmnhijklmnoijklmnopjklmnopqklmnopqrlmnopqrsmnopqrstnopqrstu".to_vec(),
            "cf5b16a778af8380036ce59e7b0492370b249b11e8f07a51afac45037afee9d1",
        ),
        (vec![0xbd], "68325720aabd7c82f30f554b313d0570c95accbb7dc4b5aae11204c08ffe732b"),
        (vec![0xc9, 0x8c, 0x8e, 0x55], "7abc22c0ae5af26ce93dbb94433a0e0b2e119d014f8e7f65bd56c61ccccd9504"),
        (vec![0; 55], "02779466cdec163811d078815c633f21901413081449002f24aa3e80f0b88ef7"),
        (vec![0; 56], "d4817aa5497628e7c77e6b606107042bbba3130888c5f47a375e6179be789fbb"),
        (vec![0; 57], "65a16cb7861335d5ace3c60718b5052e44660726da4cd13bb745381b235a1785"),
        (vec![0; 64], "f5a5fd42d16a20302798ef6ed309979b43003d2320d9f0e8ea9831a92759fb4b"),
        (vec![0; 1000], "541b3e9daa09b20bf85fa273e5cbd3e80185aa4ec298e765db87742b70138a53"),
        (vec![0x41; 1000], "c2e686823489ced2017f6059b8b239318b6364f6dcd835d0a519105a1eadd6e4"),
        (vec![0x55; 1005], "f4d62ddec0f3dd90ea1380fa16a5ff8dc4c54b21740650f24afc4120903552b0"),
        (vec![0x61; 1_000_000], "cdc76e5c9914fb9281a1c7e284d73e67f1809a48a497200e046d39ccc7112cd0"),
    ]
}

/// Document 01's answer, given the digest: a refusal changes nothing.
fn answer(length: usize, digest: [u8; 32]) -> Called {
    if length > LONGEST {
        Called::new(2u8, &BEFORE)
    } else {
        Called::new(0u8, &digest)
    }
}

fn core_answer(message: &[u8]) -> Called {
    let mut out = BEFORE;
    let refusal = core::sha256(message, &mut out);
    Called::new(refusal, &out)
}

struct Comparison<'a> {
    options: &'a Options,
    tally: &'a mut Tally,
    independent: Sha256,
}

impl Comparison<'_> {
    fn expect(&mut self, what: &str, got: Called, expected: Called) {
        self.tally.call(what, got, expected, self.options.damage);
    }

    fn core(&mut self, what: &str, message: &[u8]) {
        let expected = answer(message.len(), self.independent.digest(message));
        self.expect(&format!("{what}, {} bytes", message.len()), core_answer(message), expected);
    }
}

pub fn run(options: &Options, tally: &mut Tally) {
    let mut random = Random::new(options.seed);
    let mut c = Comparison { options, tally, independent: Sha256::default() };
    for (message, text) in nist() {
        let digest: [u8; 32] = bytes(text).try_into().expect("thirty-two bytes");
        let what = format!("NIST's example of {} bytes", message.len());
        let own = Called::new(0u8, &c.independent.digest(&message));
        c.expect(&format!("{what}, independent"), own, Called::new(0u8, &digest));
        c.expect(&format!("{what}, core"), core_answer(&message), answer(message.len(), digest));
    }
    let long = random.bytes(LONGEST + 1);
    for length in (0..=1200).chain(65_400..=LONGEST + 1) {
        c.core("every length", &long[..length]);
    }
    for _ in 0..options.count {
        // half of the messages are as short as packets
        let bound = if random.below(2) == 0 { 512 } else { LONGEST + 1 };
        let length = random.below(bound);
        let message = random.bytes(length);
        c.core("random", &message);
    }
}
