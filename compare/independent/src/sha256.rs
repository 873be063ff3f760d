//! Section 10, "The digest (FIPS 180-4)": SHA-256, and the running digest.

use crate::Answer;

/// 10.1: "FIPS 180-4's 64 constants for the rounds" (FIPS 180-4, 4.2.2).
pub const ROUND_CONSTANTS: [u32; 64] = [
    0x428a2f98, 0x71374491, 0xb5c0fbcf, 0xe9b5dba5, 0x3956c25b, 0x59f111f1, 0x923f82a4, 0xab1c5ed5,
    0xd807aa98, 0x12835b01, 0x243185be, 0x550c7dc3, 0x72be5d74, 0x80deb1fe, 0x9bdc06a7, 0xc19bf174,
    0xe49b69c1, 0xefbe4786, 0x0fc19dc6, 0x240ca1cc, 0x2de92c6f, 0x4a7484aa, 0x5cb0a9dc, 0x76f988da,
    0x983e5152, 0xa831c66d, 0xb00327c8, 0xbf597fc7, 0xc6e00bf3, 0xd5a79147, 0x06ca6351, 0x14292967,
    0x27b70a85, 0x2e1b2138, 0x4d2c6dfc, 0x53380d13, 0x650a7354, 0x766a0abb, 0x81c2c92e, 0x92722c85,
    0xa2bfe8a1, 0xa81a664b, 0xc24b8b70, 0xc76c51a3, 0xd192e819, 0xd6990624, 0xf40e3585, 0x106aa070,
    0x19a4c116, 0x1e376c08, 0x2748774c, 0x34b0bcb5, 0x391c0cb3, 0x4ed8aa4a, 0x5b9cca4f, 0x682e6ff3,
    0x748f82ee, 0x78a5636f, 0x84c87814, 0x8cc70208, 0x90befffa, 0xa4506ceb, 0xbef9a3f7, 0xc67178f2,
];

/// 10.1: "its eight words to start with" (FIPS 180-4, 5.3.3).
pub const START_WORDS: [u32; 8] = [
    0x6a09e667, 0xbb67ae85, 0x3c6ef372, 0xa54ff53a, 0x510e527f, 0x9b05688c, 0x1f83d9ab, 0x5be0cd19,
];

/// 9.3 row 25: "its total is past 2^61 - 1 bytes".
pub const MOST_TOTAL: u64 = (1 << 61) - 1;

/// 10.2: "A running digest is eight words, at most 63 bytes that wait, and the total
/// of the bytes fed."
#[derive(Clone, Copy, Debug, PartialEq, Eq)]
pub struct RunningDigest {
    pub words: [u32; 8],
    pub waiting: [u8; 64],
    /// How many bytes wait.
    pub count: usize,
    /// Bytes fed so far.
    pub total: u64,
}

/// What a feeding gives back. Position and length are 0.
#[derive(Clone, Copy, Debug, PartialEq, Eq)]
pub struct Fed {
    pub answer: Answer,
    /// The next running digest; after a refusal the one received.
    pub next: RunningDigest,
}

/// What finishing gives back. Position and length are 0.
#[derive(Clone, Copy, Debug, PartialEq, Eq)]
pub struct Finished {
    pub answer: Answer,
    /// The digest; after a refusal 32 zero bytes.
    pub digest: [u8; 32],
}

impl Default for RunningDigest {
    fn default() -> Self {
        RunningDigest::start()
    }
}

impl RunningDigest {
    /// Nothing fed yet.
    pub fn start() -> RunningDigest {
        RunningDigest { words: START_WORDS, waiting: [0; 64], count: 0, total: 0 }
    }

    /// 10.3: "It is possible when the count of waiting bytes is what the total
    /// leaves modulo 64, and the rest of the room for them is zero. The words may
    /// be any eight".
    pub fn possible(&self) -> bool {
        self.count as u64 == self.total % 64
            && self.waiting[self.count..].iter().all(|&byte| byte == 0)
    }

    /// 9.3 row 25: "a running digest is not possible (10.3), or its total is past
    /// 2^61 - 1 bytes, or would be after the feeding that is asked for"; `more` is
    /// how many bytes that feeding has.
    fn refused(&self, more: usize) -> bool {
        !self.possible() || u128::from(self.total) + more as u128 > u128::from(MOST_TOTAL)
    }

    /// 10.4: "A feeding is one step: from a running digest it makes the next and
    /// returns it. Refused, it returns the old one unchanged."
    pub fn feed(self, bytes: &[u8]) -> Fed {
        if self.refused(bytes.len()) {
            return Fed { answer: Answer::refused(25), next: self };
        }
        let mut next = self;
        for &byte in bytes {
            next.waiting[next.count] = byte;
            next.count += 1;
            if next.count == 64 {
                next.words = compress(next.words, &next.waiting);
                next.waiting = [0; 64];
                next.count = 0;
            }
        }
        next.total += bytes.len() as u64;
        Fed { answer: Answer::accepted(0), next }
    }

    /// Pads and gives the digest (FIPS 180-4, 5.1.1 and 6.2.2). 10.5: "Finishing one
    /// that is not possible gives 25 and, as the digest, 32 bytes of zero."
    pub fn finish(self) -> Finished {
        if self.refused(0) {
            return Finished { answer: Answer::refused(25), digest: [0; 32] };
        }
        let mut words = self.words;
        let mut block = self.waiting;
        block[self.count] = 0x80;
        if self.count + 1 > 56 {
            words = compress(words, &block);
            block = [0; 64];
        }
        block[56..].copy_from_slice(&(self.total * 8).to_be_bytes());
        words = compress(words, &block);

        let mut digest = [0; 32];
        for (place, word) in digest.chunks_exact_mut(4).zip(words) {
            place.copy_from_slice(&word.to_be_bytes());
        }
        Finished { answer: Answer::accepted(0), digest }
    }
}

/// The digest of `bytes` in one go. `bytes` is a slice in memory, so the
/// total is not past 2^61 - 1 and 25 cannot come.
pub fn sha256(bytes: &[u8]) -> [u8; 32] {
    RunningDigest::start().feed(bytes).next.finish().digest
}

/// The message schedule of one block (FIPS 180-4, 6.2.2, step 1); 10.1: "Additions
/// are modulo 2^32."
fn message_schedule(block: &[u8; 64]) -> [u32; 64] {
    let mut w = [0u32; 64];
    for (t, bytes) in block.chunks_exact(4).enumerate() {
        w[t] = u32::from_be_bytes([bytes[0], bytes[1], bytes[2], bytes[3]]);
    }
    for t in 16..64 {
        w[t] = small_sigma_1(w[t - 2])
            .wrapping_add(w[t - 7])
            .wrapping_add(small_sigma_0(w[t - 15]))
            .wrapping_add(w[t - 16]);
    }
    w
}

/// One block (FIPS 180-4, 6.2.2); 10.1: "Additions are modulo 2^32."
fn compress(words: [u32; 8], block: &[u8; 64]) -> [u32; 8] {
    let w = message_schedule(block);
    let [mut a, mut b, mut c, mut d, mut e, mut f, mut g, mut h] = words;
    for t in 0..64 {
        let t1 = h
            .wrapping_add(big_sigma_1(e))
            .wrapping_add(ch(e, f, g))
            .wrapping_add(ROUND_CONSTANTS[t])
            .wrapping_add(w[t]);
        let t2 = big_sigma_0(a).wrapping_add(maj(a, b, c));
        h = g;
        g = f;
        f = e;
        e = d.wrapping_add(t1);
        d = c;
        c = b;
        b = a;
        a = t1.wrapping_add(t2);
    }

    let rounds = [a, b, c, d, e, f, g, h];
    std::array::from_fn(|i| words[i].wrapping_add(rounds[i]))
}

fn ch(x: u32, y: u32, z: u32) -> u32 {
    (x & y) ^ (!x & z)
}

fn maj(x: u32, y: u32, z: u32) -> u32 {
    (x & y) ^ (x & z) ^ (y & z)
}

fn big_sigma_0(x: u32) -> u32 {
    x.rotate_right(2) ^ x.rotate_right(13) ^ x.rotate_right(22)
}

fn big_sigma_1(x: u32) -> u32 {
    x.rotate_right(6) ^ x.rotate_right(11) ^ x.rotate_right(25)
}

fn small_sigma_0(x: u32) -> u32 {
    x.rotate_right(7) ^ x.rotate_right(18) ^ (x >> 3)
}

fn small_sigma_1(x: u32) -> u32 {
    x.rotate_right(17) ^ x.rotate_right(19) ^ (x >> 10)
}
