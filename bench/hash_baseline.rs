//! RIPEMD-160 and SHA-256 as plain loops over their tables, to be measured beside the proved ones.
//! Usage: hash_baseline ripemd160|ripemd160_by_rounds|sha256 BLOCKS. The exit status is the digest's first byte.

use std::process::exit;

const LEFT_WORDS: [usize; 80] = [
    0, 1, 2, 3, 4, 5, 6, 7, 8, 9, 10, 11, 12, 13, 14, 15, 7, 4, 13, 1, 10, 6, 15, 3, 12, 0, 9, 5, 2, 14, 11, 8, 3, 10,
    14, 4, 9, 15, 8, 1, 2, 7, 0, 6, 13, 11, 5, 12, 1, 9, 11, 10, 0, 8, 12, 4, 13, 3, 7, 15, 14, 5, 6, 2, 4, 0, 5, 9, 7,
    12, 2, 10, 14, 1, 3, 8, 11, 6, 15, 13,
];
const RIGHT_WORDS: [usize; 80] = [
    5, 14, 7, 0, 9, 2, 11, 4, 13, 6, 15, 8, 1, 10, 3, 12, 6, 11, 3, 7, 0, 13, 5, 10, 14, 15, 8, 12, 4, 9, 1, 2, 15, 5,
    1, 3, 7, 14, 6, 9, 11, 8, 12, 2, 10, 0, 4, 13, 8, 6, 4, 1, 3, 11, 15, 0, 5, 12, 2, 13, 9, 7, 10, 14, 12, 15, 10, 4,
    1, 5, 8, 7, 6, 2, 13, 14, 0, 3, 9, 11,
];
const LEFT_SHIFTS: [u32; 80] = [
    11, 14, 15, 12, 5, 8, 7, 9, 11, 13, 14, 15, 6, 7, 9, 8, 7, 6, 8, 13, 11, 9, 7, 15, 7, 12, 15, 9, 11, 7, 13, 12, 11,
    13, 6, 7, 14, 9, 13, 15, 14, 8, 13, 6, 5, 12, 7, 5, 11, 12, 14, 15, 14, 15, 9, 8, 9, 14, 5, 6, 8, 6, 5, 12, 9, 15,
    5, 11, 6, 8, 13, 12, 5, 12, 13, 14, 11, 8, 5, 6,
];
const RIGHT_SHIFTS: [u32; 80] = [
    8, 9, 9, 11, 13, 15, 15, 5, 7, 7, 8, 11, 14, 14, 12, 6, 9, 13, 15, 7, 12, 8, 9, 11, 7, 7, 12, 7, 6, 15, 13, 11, 9,
    7, 15, 11, 8, 6, 6, 14, 12, 13, 5, 14, 13, 13, 7, 5, 15, 5, 8, 11, 14, 14, 6, 14, 6, 9, 12, 9, 12, 5, 15, 8, 8, 5,
    12, 9, 12, 5, 14, 6, 8, 13, 6, 5, 15, 13, 11, 11,
];
const LEFT_CONSTANTS: [u32; 5] = [0x0000_0000, 0x5a82_7999, 0x6ed9_eba1, 0x8f1b_bcdc, 0xa953_fd4e];
const RIGHT_CONSTANTS: [u32; 5] = [0x50a2_8be6, 0x5c4d_d124, 0x6d70_3ef3, 0x7a6d_76e9, 0x0000_0000];

type Line = [u32; 5];

fn function(round: usize, x: u32, y: u32, z: u32) -> u32 {
    match round {
        0 => x ^ y ^ z,
        1 => (x & y) | (!x & z),
        2 => (x | !y) ^ z,
        3 => (x & z) | (y & !z),
        _ => x ^ (y | !z),
    }
}

fn step(v: &mut Line, f: u32, word: u32, constant: u32, shift: u32) {
    let [a, b, c, d, e] = *v;
    let t = a.wrapping_add(f).wrapping_add(word).wrapping_add(constant);
    *v = [e, t.rotate_left(shift).wrapping_add(e), b, c.rotate_left(10), d];
}

fn words(block: &[u8]) -> [u32; 16] {
    let mut w = [0u32; 16];
    for (word, bytes) in w.iter_mut().zip(block.chunks_exact(4)) {
        *word = u32::from_le_bytes(bytes.try_into().unwrap());
    }
    w
}

fn left_step(w: &[u32; 16], j: usize, round: usize, v: &mut Line) {
    let f = function(round, v[1], v[2], v[3]);
    step(v, f, w[LEFT_WORDS[j]], LEFT_CONSTANTS[round], LEFT_SHIFTS[j]);
}

fn right_step(w: &[u32; 16], j: usize, round: usize, v: &mut Line) {
    let f = function(4 - round, v[1], v[2], v[3]);
    step(v, f, w[RIGHT_WORDS[j]], RIGHT_CONSTANTS[round], RIGHT_SHIFTS[j]);
}

fn added(h: Line, l: Line, r: Line) -> Line {
    [
        h[1].wrapping_add(l[2]).wrapping_add(r[3]),
        h[2].wrapping_add(l[3]).wrapping_add(r[4]),
        h[3].wrapping_add(l[4]).wrapping_add(r[0]),
        h[4].wrapping_add(l[0]).wrapping_add(r[1]),
        h[0].wrapping_add(l[1]).wrapping_add(r[2]),
    ]
}

/// One loop of 80 steps.
fn ripemd_block(h: Line, block: &[u8]) -> Line {
    let w = words(block);
    let (mut l, mut r) = (h, h);
    for j in 0..80 {
        left_step(&w, j, j / 16, &mut l);
        right_step(&w, j, j / 16, &mut r);
    }
    added(h, l, r)
}

fn round<const ROUND: usize>(w: &[u32; 16], l: &mut Line, r: &mut Line) {
    for j in 16 * ROUND..16 * (ROUND + 1) {
        left_step(w, j, ROUND, l);
    }
    for j in 16 * ROUND..16 * (ROUND + 1) {
        right_step(w, j, ROUND, r);
    }
}

/// The five rounds written out, each a loop for either line, which the compiler unrolls.
pub fn ripemd_block_by_rounds(h: Line, block: &[u8]) -> Line {
    let w = words(block);
    let (mut l, mut r) = (h, h);
    round::<0>(&w, &mut l, &mut r);
    round::<1>(&w, &mut l, &mut r);
    round::<2>(&w, &mut l, &mut r);
    round::<3>(&w, &mut l, &mut r);
    round::<4>(&w, &mut l, &mut r);
    added(h, l, r)
}

/// The message's last bytes and its padding: one block or two.
fn last_blocks(message: &[u8], length: [u8; 8]) -> Vec<u8> {
    let mut last = message[message.len() / 64 * 64..].to_vec();
    last.push(0x80);
    while last.len() % 64 != 56 {
        last.push(0);
    }
    last.extend_from_slice(&length);
    last
}

pub fn ripemd160(message: &[u8], next: impl Fn(Line, &[u8]) -> Line) -> [u8; 20] {
    let mut h = [0x6745_2301, 0xefcd_ab89, 0x98ba_dcfe, 0x1032_5476, 0xc3d2_e1f0];
    let last = last_blocks(message, (message.len() as u64 * 8).to_le_bytes());
    for block in message.chunks_exact(64).chain(last.chunks_exact(64)) {
        h = next(h, block);
    }
    let mut digest = [0; 20];
    for (bytes, word) in digest.chunks_exact_mut(4).zip(h) {
        bytes.copy_from_slice(&word.to_le_bytes());
    }
    digest
}

const K: [u32; 64] = [
    0x428a2f98, 0x71374491, 0xb5c0fbcf, 0xe9b5dba5, 0x3956c25b, 0x59f111f1, 0x923f82a4, 0xab1c5ed5, 0xd807aa98,
    0x12835b01, 0x243185be, 0x550c7dc3, 0x72be5d74, 0x80deb1fe, 0x9bdc06a7, 0xc19bf174, 0xe49b69c1, 0xefbe4786,
    0x0fc19dc6, 0x240ca1cc, 0x2de92c6f, 0x4a7484aa, 0x5cb0a9dc, 0x76f988da, 0x983e5152, 0xa831c66d, 0xb00327c8,
    0xbf597fc7, 0xc6e00bf3, 0xd5a79147, 0x06ca6351, 0x14292967, 0x27b70a85, 0x2e1b2138, 0x4d2c6dfc, 0x53380d13,
    0x650a7354, 0x766a0abb, 0x81c2c92e, 0x92722c85, 0xa2bfe8a1, 0xa81a664b, 0xc24b8b70, 0xc76c51a3, 0xd192e819,
    0xd6990624, 0xf40e3585, 0x106aa070, 0x19a4c116, 0x1e376c08, 0x2748774c, 0x34b0bcb5, 0x391c0cb3, 0x4ed8aa4a,
    0x5b9cca4f, 0x682e6ff3, 0x748f82ee, 0x78a5636f, 0x84c87814, 0x8cc70208, 0x90befffa, 0xa4506ceb, 0xbef9a3f7,
    0xc67178f2,
];

fn sha_block(h: &mut [u32; 8], block: &[u8]) {
    let mut w = [0u32; 64];
    for (word, bytes) in w.iter_mut().zip(block.chunks_exact(4)) {
        *word = u32::from_be_bytes(bytes.try_into().unwrap());
    }
    for t in 16..64 {
        let s0 = w[t - 15].rotate_right(7) ^ w[t - 15].rotate_right(18) ^ (w[t - 15] >> 3);
        let s1 = w[t - 2].rotate_right(17) ^ w[t - 2].rotate_right(19) ^ (w[t - 2] >> 10);
        w[t] = w[t - 16].wrapping_add(s0).wrapping_add(w[t - 7]).wrapping_add(s1);
    }
    let [mut a, mut b, mut c, mut d, mut e, mut f, mut g, mut last] = *h;
    for t in 0..64 {
        let s1 = e.rotate_right(6) ^ e.rotate_right(11) ^ e.rotate_right(25);
        let choice = (e & f) ^ (!e & g);
        let t1 = last.wrapping_add(s1).wrapping_add(choice).wrapping_add(K[t]).wrapping_add(w[t]);
        let s0 = a.rotate_right(2) ^ a.rotate_right(13) ^ a.rotate_right(22);
        let t2 = s0.wrapping_add((a & b) ^ (a & c) ^ (b & c));
        (last, g, f, e, d, c, b, a) = (g, f, e, d.wrapping_add(t1), c, b, a, t1.wrapping_add(t2));
    }
    for (word, more) in h.iter_mut().zip([a, b, c, d, e, f, g, last]) {
        *word = word.wrapping_add(more);
    }
}

pub fn sha256(message: &[u8]) -> [u8; 32] {
    let mut h = [
        0x6a09e667, 0xbb67ae85, 0x3c6ef372, 0xa54ff53a, 0x510e527f, 0x9b05688c, 0x1f83d9ab, 0x5be0cd19,
    ];
    let last = last_blocks(message, (message.len() as u64 * 8).to_be_bytes());
    for block in message.chunks_exact(64).chain(last.chunks_exact(64)) {
        sha_block(&mut h, block);
    }
    let mut digest = [0; 32];
    for (bytes, word) in digest.chunks_exact_mut(4).zip(h) {
        bytes.copy_from_slice(&word.to_be_bytes());
    }
    digest
}

fn main() {
    let words: Vec<String> = std::env::args().collect();
    let blocks: usize = words[2].parse().unwrap();
    let message = vec![0x61; 262_144];
    let first = match words[1].as_str() {
        "ripemd160" => ripemd160(&message[..blocks * 64], ripemd_block)[0],
        "ripemd160_by_rounds" => ripemd160(&message[..blocks * 64], ripemd_block_by_rounds)[0],
        _ => sha256(&message[..blocks * 64])[0],
    };
    exit(first.into());
}
