//! HMAC-SHA-256 and the words of nonces.

const ROUNDS: [u32; 64] = [
    0x428a2f98, 0x71374491, 0xb5c0fbcf, 0xe9b5dba5, 0x3956c25b, 0x59f111f1, 0x923f82a4, 0xab1c5ed5, 0xd807aa98, 0x12835b01, 0x243185be,
    0x550c7dc3, 0x72be5d74, 0x80deb1fe, 0x9bdc06a7, 0xc19bf174, 0xe49b69c1, 0xefbe4786, 0x0fc19dc6, 0x240ca1cc, 0x2de92c6f, 0x4a7484aa,
    0x5cb0a9dc, 0x76f988da, 0x983e5152, 0xa831c66d, 0xb00327c8, 0xbf597fc7, 0xc6e00bf3, 0xd5a79147, 0x06ca6351, 0x14292967, 0x27b70a85,
    0x2e1b2138, 0x4d2c6dfc, 0x53380d13, 0x650a7354, 0x766a0abb, 0x81c2c92e, 0x92722c85, 0xa2bfe8a1, 0xa81a664b, 0xc24b8b70, 0xc76c51a3,
    0xd192e819, 0xd6990624, 0xf40e3585, 0x106aa070, 0x19a4c116, 0x1e376c08, 0x2748774c, 0x34b0bcb5, 0x391c0cb3, 0x4ed8aa4a, 0x5b9cca4f,
    0x682e6ff3, 0x748f82ee, 0x78a5636f, 0x84c87814, 0x8cc70208, 0x90befffa, 0xa4506ceb, 0xbef9a3f7, 0xc67178f2,
];
const BEGUN: [u32; 8] = [0x6a09e667, 0xbb67ae85, 0x3c6ef372, 0xa54ff53a, 0x510e527f, 0x9b05688c, 0x1f83d9ab, 0x5be0cd19];

/// One block of SHA-256 (FIPS 180-4).
fn compress(state: &mut [u32; 8], block: &[u8]) {
    let mut w = [0u32; 64];
    for (word, bytes) in w.iter_mut().zip(block.chunks_exact(4)) {
        *word = u32::from_be_bytes([bytes[0], bytes[1], bytes[2], bytes[3]]);
    }
    for i in 16..64 {
        let s0 = w[i - 15].rotate_right(7) ^ w[i - 15].rotate_right(18) ^ (w[i - 15] >> 3);
        let s1 = w[i - 2].rotate_right(17) ^ w[i - 2].rotate_right(19) ^ (w[i - 2] >> 10);
        w[i] = w[i - 16].wrapping_add(s0).wrapping_add(w[i - 7]).wrapping_add(s1);
    }
    let [mut a, mut b, mut c, mut d, mut e, mut f, mut g, mut h] = *state;
    for i in 0..64 {
        let s1 = e.rotate_right(6) ^ e.rotate_right(11) ^ e.rotate_right(25);
        let t1 = h.wrapping_add(s1).wrapping_add((e & f) ^ (!e & g)).wrapping_add(ROUNDS[i]).wrapping_add(w[i]);
        let s0 = a.rotate_right(2) ^ a.rotate_right(13) ^ a.rotate_right(22);
        let t2 = s0.wrapping_add((a & b) ^ (a & c) ^ (b & c));
        (h, g, f, e, d, c, b, a) = (g, f, e, d.wrapping_add(t1), c, b, a, t1.wrapping_add(t2));
    }
    for (word, added) in state.iter_mut().zip([a, b, c, d, e, f, g, h]) {
        *word = word.wrapping_add(added);
    }
}

/// The SHA-256 of one block, which led to this state, and the bytes behind it.
fn hash_behind(mut state: [u32; 8], bytes: &[u8]) -> [u8; 32] {
    let blocks = bytes.chunks_exact(64);
    let rest = blocks.remainder();
    blocks.for_each(|block| compress(&mut state, block));
    let mut last = [0u8; 128];
    last[..rest.len()].copy_from_slice(rest);
    last[rest.len()] = 0x80;
    let end = if rest.len() < 56 { 64 } else { 128 };
    last[end - 8..end].copy_from_slice(&(8 * (64 + bytes.len() as u64)).to_be_bytes());
    last[..end].chunks_exact(64).for_each(|block| compress(&mut state, block));
    let mut hash = [0u8; 32];
    for (bytes, word) in hash.chunks_exact_mut(4).zip(state) {
        bytes.copy_from_slice(&word.to_be_bytes());
    }
    hash
}

/// A key of HMAC-SHA-256 (RFC 2104), whose two blocks are hashed once.
pub struct Key {
    inner: [u32; 8],
    outer: [u32; 8],
}

impl Key {
    pub fn new(key: &[u8; 32]) -> Key {
        let masked = |mask: u8| {
            let mut block = [mask; 64];
            block.iter_mut().zip(key).for_each(|(byte, key)| *byte ^= key);
            let mut state = BEGUN;
            compress(&mut state, &block);
            state
        };
        Key { inner: masked(0x36), outer: masked(0x5c) }
    }

    pub fn mac(&self, message: &[u8]) -> [u8; 32] {
        hash_behind(self.outer, &hash_behind(self.inner, message))
    }
}

/// A block of the ChaCha20 keystream (RFC 8439) with a nonce of zeros.
fn chacha_block(seed: &[u8; 32], number: u64) -> [u32; 16] {
    let (low, high) = (number as u32, (number >> 32) as u32);
    let mut begun = [0x61707865, 0x3320646e, 0x79622d32, 0x6b206574, 0, 0, 0, 0, 0, 0, 0, 0, low, high, 0, 0];
    for (word, bytes) in begun[4..12].iter_mut().zip(seed.chunks_exact(4)) {
        *word = u32::from_le_bytes([bytes[0], bytes[1], bytes[2], bytes[3]]);
    }
    let mut x = begun;
    let mut quarter = |a: usize, b: usize, c: usize, d: usize| {
        for (to, from, other, turn) in [(a, b, d, 16), (c, d, b, 12), (a, b, d, 8), (c, d, b, 7)] {
            x[to] = x[to].wrapping_add(x[from]);
            x[other] = (x[other] ^ x[to]).rotate_left(turn);
        }
    };
    for _ in 0..10 {
        (0..4).for_each(|i| quarter(i, 4 + i, 8 + i, 12 + i));
        (0..4).for_each(|i| quarter(i, 4 + (i + 1) % 4, 8 + (i + 2) % 4, 12 + (i + 3) % 4));
    }
    x.iter_mut().zip(begun).for_each(|(word, begun)| *word = word.wrapping_add(begun));
    x
}

/// The word of an issue: the words 2n (its high half) and 2n + 1 of the keystream, 16 a block.
#[allow(dead_code)]
pub fn word_of(seed: &[u8; 32], issue: u64) -> u64 {
    word_in(&chacha_block(seed, issue / 8), issue)
}

fn word_in(block: &[u32; 16], issue: u64) -> u64 {
    let place = 2 * (issue % 8) as usize;
    u64::from(block[place]) << 32 | u64::from(block[place + 1])
}

/// The words of issues, of whose blocks the last is kept.
#[allow(dead_code)]
pub struct Words {
    seed: [u8; 32],
    number: u64,
    block: [u32; 16],
}

#[allow(dead_code)]
impl Words {
    pub fn new(seed: [u8; 32]) -> Words {
        Words { seed, number: 0, block: chacha_block(&seed, 0) }
    }

    pub fn of(&mut self, issue: u64) -> u64 {
        if issue / 8 != self.number {
            (self.number, self.block) = (issue / 8, chacha_block(&self.seed, issue / 8));
        }
        word_in(&self.block, issue)
    }
}
