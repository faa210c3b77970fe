//! SHA-256, written from FIPS 180-4.

/// 4.2.2: the first 32 bits of the fractional parts of the cube roots of the first 64 primes, worked out here rather than copied.
fn constants() -> [u32; 64] {
    let mut k = [0; 64];
    for (slot, prime) in k.iter_mut().zip(primes()) {
        *slot = root_fraction(prime, 3);
    }
    k
}

/// 5.3.3: the same of the square roots of the first eight primes.
fn initial_hash() -> [u32; 8] {
    let mut h = [0; 8];
    for (slot, prime) in h.iter_mut().zip(primes()) {
        *slot = root_fraction(prime, 2);
    }
    h
}

fn primes() -> impl Iterator<Item = u128> {
    (2u128..).filter(|n| (2..*n).all(|d| n % d != 0))
}

/// The first 32 bits of the fractional part of a root: floor(root * 2^32) modulo 2^32, by bisection on whole numbers.
fn root_fraction(n: u128, degree: u32) -> u32 {
    let scaled = n << (32 * degree);
    let (mut low, mut high) = (0u128, 1u128 << 37);
    while high - low > 1 {
        let middle = (low + high) / 2;
        if middle.pow(degree) <= scaled {
            low = middle;
        } else {
            high = middle;
        }
    }
    low as u32
}

/// A hasher keeps the constants, so that they are worked out once.
pub struct Sha256 {
    k: [u32; 64],
    initial: [u32; 8],
}

impl Default for Sha256 {
    fn default() -> Self {
        Self { k: constants(), initial: initial_hash() }
    }
}

impl Sha256 {
    /// The digest of a message of any length.
    pub fn digest(&self, message: &[u8]) -> [u8; 32] {
        let mut hash = self.initial;
        let mut blocks = message.chunks_exact(64);
        for block in &mut blocks {
            self.compress(&mut hash, block);
        }
        // 5.1.1: the bit 1, zeros, and the length in bits, to the end of a block
        let rest = blocks.remainder();
        let mut last = [0u8; 128];
        let end = if rest.len() < 56 { 64 } else { 128 };
        last[..rest.len()].copy_from_slice(rest);
        last[rest.len()] = 0x80;
        last[end - 8..end].copy_from_slice(&(message.len() as u64 * 8).to_be_bytes());
        for block in last[..end].chunks_exact(64) {
            self.compress(&mut hash, block);
        }
        let mut digest = [0; 32];
        for (bytes, word) in digest.chunks_exact_mut(4).zip(hash) {
            bytes.copy_from_slice(&word.to_be_bytes());
        }
        digest
    }

    /// 6.2.2: one block.
    fn compress(&self, hash: &mut [u32; 8], block: &[u8]) {
        let mut w = [0u32; 64];
        for (word, bytes) in w.iter_mut().zip(block.chunks_exact(4)) {
            *word = u32::from_be_bytes([bytes[0], bytes[1], bytes[2], bytes[3]]);
        }
        for t in 16..64 {
            let s0 = w[t - 15].rotate_right(7) ^ w[t - 15].rotate_right(18) ^ (w[t - 15] >> 3);
            let s1 = w[t - 2].rotate_right(17) ^ w[t - 2].rotate_right(19) ^ (w[t - 2] >> 10);
            w[t] = s1.wrapping_add(w[t - 7]).wrapping_add(s0).wrapping_add(w[t - 16]);
        }
        let [mut a, mut b, mut c, mut d, mut e, mut f, mut g, mut h] = *hash;
        for (k, w) in self.k.iter().zip(w) {
            let sum1 = e.rotate_right(6) ^ e.rotate_right(11) ^ e.rotate_right(25);
            let choice = (e & f) ^ (!e & g);
            let t1 = h.wrapping_add(sum1).wrapping_add(choice).wrapping_add(*k).wrapping_add(w);
            let sum0 = a.rotate_right(2) ^ a.rotate_right(13) ^ a.rotate_right(22);
            let majority = (a & b) ^ (a & c) ^ (b & c);
            (h, g, f, e) = (g, f, e, d.wrapping_add(t1));
            (d, c, b, a) = (c, b, a, t1.wrapping_add(sum0.wrapping_add(majority)));
        }
        for (word, worked) in hash.iter_mut().zip([a, b, c, d, e, f, g, h]) {
            *word = word.wrapping_add(worked);
        }
    }
}
