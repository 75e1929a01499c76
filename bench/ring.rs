//! What the plain Rust of `bench/groups` asks before each call: the bytes of a key, their hash (SHA-256, of which the first eight bytes count), and
//! which name of a ring owns them.

use crate::recent::Key;
use std::collections::BTreeMap;
use std::convert::TryInto;

const ROUNDS: [u32; 64] = [
    0x428a2f98, 0x71374491, 0xb5c0fbcf, 0xe9b5dba5, 0x3956c25b, 0x59f111f1, 0x923f82a4, 0xab1c5ed5, 0xd807aa98, 0x12835b01, 0x243185be,
    0x550c7dc3, 0x72be5d74, 0x80deb1fe, 0x9bdc06a7, 0xc19bf174, 0xe49b69c1, 0xefbe4786, 0x0fc19dc6, 0x240ca1cc, 0x2de92c6f, 0x4a7484aa,
    0x5cb0a9dc, 0x76f988da, 0x983e5152, 0xa831c66d, 0xb00327c8, 0xbf597fc7, 0xc6e00bf3, 0xd5a79147, 0x06ca6351, 0x14292967, 0x27b70a85,
    0x2e1b2138, 0x4d2c6dfc, 0x53380d13, 0x650a7354, 0x766a0abb, 0x81c2c92e, 0x92722c85, 0xa2bfe8a1, 0xa81a664b, 0xc24b8b70, 0xc76c51a3,
    0xd192e819, 0xd6990624, 0xf40e3585, 0x106aa070, 0x19a4c116, 0x1e376c08, 0x2748774c, 0x34b0bcb5, 0x391c0cb3, 0x4ed8aa4a, 0x5b9cca4f,
    0x682e6ff3, 0x748f82ee, 0x78a5636f, 0x84c87814, 0x8cc70208, 0x90befffa, 0xa4506ceb, 0xbef9a3f7, 0xc67178f2,
];

const START: [u32; 8] = [0x6a09e667, 0xbb67ae85, 0x3c6ef372, 0xa54ff53a, 0x510e527f, 0x9b05688c, 0x1f83d9ab, 0x5be0cd19];

fn block(state: &mut [u32; 8], bytes: &[u8]) {
    let mut words = [0u32; 64];
    for (word, four) in words.iter_mut().zip(bytes.chunks_exact(4)) {
        *word = u32::from_be_bytes(four.try_into().unwrap());
    }
    for t in 16..64 {
        let (early, late) = (words[t - 15], words[t - 2]);
        let low = early.rotate_right(7) ^ early.rotate_right(18) ^ (early >> 3);
        let high = late.rotate_right(17) ^ late.rotate_right(19) ^ (late >> 10);
        words[t] = words[t - 16].wrapping_add(low).wrapping_add(words[t - 7]).wrapping_add(high);
    }
    let [mut a, mut b, mut c, mut d, mut e, mut f, mut g, mut h] = *state;
    for t in 0..64 {
        let big = e.rotate_right(6) ^ e.rotate_right(11) ^ e.rotate_right(25);
        let choice = (e & f) ^ (!e & g);
        let one = h.wrapping_add(big).wrapping_add(choice).wrapping_add(ROUNDS[t]).wrapping_add(words[t]);
        let small = a.rotate_right(2) ^ a.rotate_right(13) ^ a.rotate_right(22);
        let two = small.wrapping_add((a & b) ^ (a & c) ^ (b & c));
        (h, g, f, e, d, c, b, a) = (g, f, e, d.wrapping_add(one), c, b, a, one.wrapping_add(two));
    }
    for (sum, part) in state.iter_mut().zip([a, b, c, d, e, f, g, h]) {
        *sum = sum.wrapping_add(part);
    }
}

pub fn hash(bytes: &[u8]) -> u64 {
    let mut state = START;
    let mut whole = bytes.chunks_exact(64);
    for it in &mut whole {
        block(&mut state, it);
    }
    let rest = whole.remainder();
    let mut last = [0u8; 128];
    last[..rest.len()].copy_from_slice(rest);
    last[rest.len()] = 0x80;
    let end = if rest.len() < 56 { 64 } else { 128 };
    last[end - 8..end].copy_from_slice(&(bytes.len() as u64 * 8).to_be_bytes());
    for it in last[..end].chunks_exact(64) {
        block(&mut state, it);
    }
    u64::from(state[0]) << 32 | u64::from(state[1])
}

pub fn key_bytes(key: &Key) -> Vec<u8> {
    let mut bytes = Vec::with_capacity(2 + key.name.len() + 12);
    bytes.extend((key.name.len() as u16).to_be_bytes());
    bytes.extend(key.name.as_bytes());
    for number in [key.edge, key.tx, key.ty] {
        bytes.extend(number.to_be_bytes());
    }
    bytes
}

/// Fifty points for each name: a key is its whose point is the next from the key's hash on.
pub struct Ring(BTreeMap<u64, usize>);

impl Ring {
    pub fn new(names: &[&str]) -> Ring {
        let points = |(place, name): (usize, &&str)| (0..50).map(|replica| (hash(format!("{replica}{name}").as_bytes()), place)).collect::<Vec<_>>();
        Ring(names.iter().enumerate().flat_map(points).collect())
    }

    pub fn owner(&self, key: &[u8]) -> usize {
        let found = self.0.range(hash(key)..).next();
        *found.or_else(|| self.0.iter().next()).unwrap().1
    }
}
