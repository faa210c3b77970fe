//! Worked bytes of sources 003, 005 and 007. Only type 1: their type 2 drawings have the addresses the other way round, and document 01 decides.
//! Where a source leaves the payload open, as for encrypted bytes and keys, some bytes stand in. The hashes were worked out by a third program.

/// A packet as a source draws it.
pub struct Worked {
    pub source: &'static str,
    pub header: u8,
    pub hops: u8,
    /// Sixteen bytes, in hexadecimal as the hashes below.
    pub destination: &'static str,
    pub context: u8,
    /// The payload's parts.
    pub payload: &'static [&'static [u8]],
    pub hash: &'static str,
    /// Of any packet: a payload of 64 bytes or less gives the packet hash's first half.
    pub link_id: &'static str,
}

impl Worked {
    pub fn packet(&self) -> Vec<u8> {
        [vec![self.header, self.hops], bytes(self.destination), vec![self.context], self.payload.concat()].concat()
    }
}

/// The bytes that hexadecimal digits write.
pub fn bytes(digits: &str) -> Vec<u8> {
    (0..digits.len()).step_by(2).map(|i| u8::from_str_radix(&digits[i..i + 2], 16).expect("two hexadecimal digits")).collect()
}

/// The keys of a link request: 32 bytes for each of the two.
pub const KEYS: &[&[u8]] = &[&[0x11; 32], &[0x22; 32]];

const DESTINATION: &str = "a1b2c3d4e5f6789012345678abcdef01";
const LINK: &str = "fedcba9876543210fedcba9876543210";

pub const WORKED: &[Worked] = &[
    Worked {
        source: "003's data packet",
        header: 0x00,
        hops: 0,
        destination: DESTINATION,
        context: 0x00,
        payload: &[b"Hello"],
        hash: "7c3708b10fa0648f0f9f6fa48c401597e148fc4d3ed7c4c1c57d0d03088e4769",
        link_id: "7c3708b10fa0648f0f9f6fa48c401597",
    },
    Worked {
        source: "003's and 007's link request",
        header: 0x02,
        hops: 0,
        destination: DESTINATION,
        context: 0x00,
        payload: KEYS,
        hash: "d4be73522e285b02a9ff53ca1e501321d66b2a0713702176d6aa56358bf3c641",
        link_id: "d4be73522e285b02a9ff53ca1e501321",
    },
    Worked {
        source: "007's link request with signalling bytes",
        header: 0x02,
        hops: 0,
        destination: DESTINATION,
        context: 0x00,
        payload: &[KEYS[0], KEYS[1], &[0x01, 0xf4, 0x00]],
        hash: "5d9dd59804e04b8f2bcdc2bb50d978197cbc800dafbb478866197725f0d48a31",
        link_id: "d4be73522e285b02a9ff53ca1e501321",
    },
    Worked {
        source: "003's link proof",
        header: 0x0f,
        hops: 0,
        destination: LINK,
        context: 0xff,
        payload: &[&[0x33; 64], &[0x44; 32], &[0x00, 0x01, 0xf4]],
        hash: "07bd7c03d4c95271b47758408020ef45d6c34edcad8f2f3f6c4279bdebbe99c8",
        link_id: "dc744e1a268240d14d30ed5d5a3523af",
    },
    Worked {
        source: "003's data on a link",
        header: 0x0c,
        hops: 0,
        destination: LINK,
        context: 0x00,
        payload: &[b"Hello"],
        hash: "20fee042d9ee05923f183933ab57299421655a1a03a99a490c2b88f06fa62940",
        link_id: "20fee042d9ee05923f183933ab572994",
    },
    Worked {
        source: "005's keep-alive request",
        header: 0x0c,
        hops: 0,
        destination: LINK,
        context: 0xfa,
        payload: &[&[0xff]],
        hash: "9454e3f8808843e446173e2489aa254f346c43eb0b2d0d146121f905b691d9c7",
        link_id: "9454e3f8808843e446173e2489aa254f",
    },
    Worked {
        source: "005's keep-alive response",
        header: 0x0c,
        hops: 0,
        destination: LINK,
        context: 0xfa,
        payload: &[&[0xfe]],
        hash: "3a1245fe8f56a776cd9a7be2a9ec65a32cc91f115e416691a0c2e7979ef128d6",
        link_id: "3a1245fe8f56a776cd9a7be2a9ec65a3",
    },
    Worked {
        source: "005's link close",
        header: 0x0c,
        hops: 0,
        destination: LINK,
        context: 0xfc,
        payload: &[],
        hash: "5403878afff2347f0ff4d80b81acbe65d2f2a435ed7d447f96d0c6f7b0c6adc7",
        link_id: "5403878afff2347f0ff4d80b81acbe65",
    },
];
