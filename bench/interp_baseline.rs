//! A plain Script interpreter, to be measured beside the proved one.
//! Usage: interp_baseline KIND TIMES. The exit status is the number of opcodes.

#[allow(dead_code)]
#[path = "hash_baseline.rs"]
mod hash_baseline;

use hash_baseline::{ripemd160, ripemd_block_by_rounds};
use std::process::exit;

const CONSTANTS: [u32; 64] = [
    0x428a2f98, 0x71374491, 0xb5c0fbcf, 0xe9b5dba5, 0x3956c25b, 0x59f111f1, 0x923f82a4, 0xab1c5ed5, 0xd807aa98, 0x12835b01,
    0x243185be, 0x550c7dc3, 0x72be5d74, 0x80deb1fe, 0x9bdc06a7, 0xc19bf174, 0xe49b69c1, 0xefbe4786, 0x0fc19dc6, 0x240ca1cc,
    0x2de92c6f, 0x4a7484aa, 0x5cb0a9dc, 0x76f988da, 0x983e5152, 0xa831c66d, 0xb00327c8, 0xbf597fc7, 0xc6e00bf3, 0xd5a79147,
    0x06ca6351, 0x14292967, 0x27b70a85, 0x2e1b2138, 0x4d2c6dfc, 0x53380d13, 0x650a7354, 0x766a0abb, 0x81c2c92e, 0x92722c85,
    0xa2bfe8a1, 0xa81a664b, 0xc24b8b70, 0xc76c51a3, 0xd192e819, 0xd6990624, 0xf40e3585, 0x106aa070, 0x19a4c116, 0x1e376c08,
    0x2748774c, 0x34b0bcb5, 0x391c0cb3, 0x4ed8aa4a, 0x5b9cca4f, 0x682e6ff3, 0x748f82ee, 0x78a5636f, 0x84c87814, 0x8cc70208,
    0x90befffa, 0xa4506ceb, 0xbef9a3f7, 0xc67178f2,
];

fn block(h: &mut [u32; 8], bytes: &[u8]) {
    let mut w = [0u32; 64];
    for i in 0..16 {
        w[i] = u32::from_be_bytes(bytes[4 * i..4 * i + 4].try_into().unwrap());
    }
    for i in 16..64 {
        let s0 = w[i - 15].rotate_right(7) ^ w[i - 15].rotate_right(18) ^ (w[i - 15] >> 3);
        let s1 = w[i - 2].rotate_right(17) ^ w[i - 2].rotate_right(19) ^ (w[i - 2] >> 10);
        w[i] = w[i - 16].wrapping_add(s0).wrapping_add(w[i - 7]).wrapping_add(s1);
    }
    let [mut a, mut b, mut c, mut d, mut e, mut f, mut g, mut k] = *h;
    for i in 0..64 {
        let s1 = e.rotate_right(6) ^ e.rotate_right(11) ^ e.rotate_right(25);
        let t1 = k.wrapping_add(s1).wrapping_add((e & f) ^ (!e & g)).wrapping_add(CONSTANTS[i]).wrapping_add(w[i]);
        let s0 = a.rotate_right(2) ^ a.rotate_right(13) ^ a.rotate_right(22);
        let t2 = s0.wrapping_add((a & b) ^ (a & c) ^ (b & c));
        (k, g, f, e, d, c, b, a) = (g, f, e, d.wrapping_add(t1), c, b, a, t1.wrapping_add(t2));
    }
    for (x, y) in h.iter_mut().zip([a, b, c, d, e, f, g, k]) {
        *x = x.wrapping_add(y);
    }
}

#[inline(never)]
fn sha256(message: &[u8]) -> [u8; 32] {
    let mut h = [0x6a09e667, 0xbb67ae85, 0x3c6ef372, 0xa54ff53a, 0x510e527f, 0x9b05688c, 0x1f83d9ab, 0x5be0cd19];
    let mut chunks = message.chunks_exact(64);
    for chunk in &mut chunks {
        block(&mut h, chunk);
    }
    let mut last = [0u8; 128];
    let rest = chunks.remainder();
    last[..rest.len()].copy_from_slice(rest);
    last[rest.len()] = 0x80;
    let end = if rest.len() < 56 { 64 } else { 128 };
    last[end - 8..end].copy_from_slice(&(8 * message.len() as u64).to_be_bytes());
    for chunk in last[..end].chunks_exact(64) {
        block(&mut h, chunk);
    }
    let mut digest = [0; 32];
    for (to, word) in digest.chunks_exact_mut(4).zip(h) {
        to.copy_from_slice(&word.to_be_bytes());
    }
    digest
}

type Table = [(Vec<u8>, Vec<u8>)];

fn member(table: &Table, key: &[u8], sig: &[u8]) -> bool {
    table.iter().any(|(k, s)| k == key && s == sig)
}

fn truth(bytes: &[u8]) -> bool {
    bytes.iter().enumerate().any(|(i, b)| *b != 0 && !(i + 1 == bytes.len() && *b == 0x80))
}

/// The values of the locks.
pub struct Locks {
    pub version: u32,
    pub sequence: u32,
    pub locktime: u32,
}

impl Locks {
    pub fn hold_older(&self, n: u64) -> bool {
        let sequence = self.sequence as u64;
        n & 1 << 31 != 0
            || self.version >= 2
                && sequence & 1 << 31 == 0
                && n & 1 << 22 == sequence & 1 << 22
                && n & 0x40_ffff <= sequence & 0x40_ffff
    }

    pub fn hold_after(&self, n: u64) -> bool {
        let locktime = self.locktime as u64;
        (n < 500_000_000) == (locktime < 500_000_000) && n <= locktime && self.sequence != u32::MAX
    }
}

fn number(bytes: &[u8], most: usize) -> Option<i64> {
    if bytes.len() > most {
        return None;
    }
    let Some((last, front)) = bytes.split_last() else {
        return Some(0);
    };
    if last & 0x7f == 0 && front.last().is_none_or(|b| b & 0x80 == 0) {
        return None;
    }
    let mut value = 0;
    for (i, b) in bytes.iter().enumerate() {
        value |= (*b as i64) << (8 * i);
    }
    if last & 0x80 != 0 {
        value = -(value & !(0x80 << (8 * (bytes.len() - 1))));
    }
    Some(value)
}

fn spelled(value: i64) -> Vec<u8> {
    let mut bytes = Vec::new();
    let mut left = value.unsigned_abs();
    while left > 0 {
        bytes.push(left as u8);
        left >>= 8;
    }
    if let Some(last) = bytes.last_mut() {
        if *last & 0x80 != 0 {
            bytes.push(if value < 0 { 0x80 } else { 0 });
        } else if value < 0 {
            *last |= 0x80;
        }
    }
    bytes
}

fn boolean(value: bool) -> Vec<u8> {
    if value { vec![1] } else { Vec::new() }
}

fn is_key(bytes: &[u8]) -> bool {
    bytes.len() == 33 && (bytes[0] == 2 || bytes[0] == 3)
}

/// The opcodes that are counted, the peak and the good pairs, or None where the run is refused.
pub fn run(
    script: &[u8],
    given: &[impl AsRef<[u8]>],
    locks: &Locks,
    is_good: impl Fn(&[u8], &[u8]) -> bool,
) -> Option<(u32, usize, Vec<(Vec<u8>, Vec<u8>)>)> {
    if script.len() > 10_000 || given.iter().any(|x| x.as_ref().len() > 520) {
        return None;
    }
    let mut main: Vec<Vec<u8>> = given.iter().map(|x| x.as_ref().to_vec()).collect();
    let mut alt: Vec<Vec<u8>> = Vec::new();
    let mut branches: Vec<bool> = Vec::new();
    let mut checks = Vec::new();
    let mut ops = 0u32;
    let mut peak = main.len();
    let mut at = 0;
    while at < script.len() {
        let first = script[at];
        at += 1;
        let live = branches.iter().all(|b| *b);
        if first <= 0x4e {
            let (field, count) = match first {
                0..=75 => (0, first as usize),
                0x4c => (1, *script.get(at)? as usize),
                0x4d => (2, u16::from_le_bytes(script.get(at..at + 2)?.try_into().ok()?) as usize),
                _ => (4, u32::from_le_bytes(script.get(at..at + 4)?.try_into().ok()?) as usize),
            };
            let bytes = script.get(at + field..at + field + count)?;
            at += field + count;
            if count > 520 {
                return None;
            }
            let shortest = match *bytes {
                [] => 0,
                [b @ 1..=16] => 0x50 + b,
                [0x81] => 0x4f,
                _ if count <= 75 => count as u8,
                _ if count <= 255 => 0x4c,
                _ => 0x4d,
            };
            if live {
                if shortest != first {
                    return None;
                }
                main.push(bytes.to_vec());
            }
        } else if first == 0x4f || (0x51..=0x60).contains(&first) {
            if live {
                main.push(spelled(first as i64 - 0x50));
            }
        } else {
            ops += 1;
            if ops > 201 {
                return None;
            }
            match first {
                0x63 | 0x64 => {
                    let mut value = false;
                    if live {
                        value = match *main.pop()? {
                            [] => false,
                            [1] => true,
                            _ => return None,
                        };
                        if first == 0x64 {
                            value = !value;
                        }
                    }
                    branches.push(value);
                }
                0x67 => {
                    let last = branches.last_mut()?;
                    *last = !*last;
                }
                0x68 => {
                    branches.pop()?;
                }
                _ if !live => {}
                0x69 => {
                    if !truth(&main.pop()?) {
                        return None;
                    }
                }
                0x6b => alt.push(main.pop()?),
                0x6c => main.push(alt.pop()?),
                0x73 => {
                    if truth(main.last()?) {
                        main.push(main.last()?.clone());
                    }
                }
                0x76 => main.push(main.last()?.clone()),
                0x7c => {
                    let n = main.len();
                    if n < 2 {
                        return None;
                    }
                    main.swap(n - 1, n - 2);
                }
                0x82 => main.push(spelled(main.last()?.len() as i64)),
                0x87 | 0x88 => {
                    let (y, x) = (main.pop()?, main.pop()?);
                    main.push(boolean(x == y));
                    if first == 0x88 && !truth(&main.pop()?) {
                        return None;
                    }
                }
                0x92 => {
                    let x = number(&main.pop()?, 4)?;
                    main.push(boolean(x != 0));
                }
                0x93 | 0x9a | 0x9b => {
                    let (b, a) = (main.pop()?, main.pop()?);
                    let (b, a) = (number(&b, 4)?, number(&a, 4)?);
                    main.push(match first {
                        0x93 => spelled(a + b),
                        0x9a => boolean(a != 0 && b != 0),
                        _ => boolean(a != 0 || b != 0),
                    });
                }
                0xa6 | 0xa8 | 0xa9 | 0xaa => {
                    let x = main.pop()?;
                    main.push(match first {
                        0xa6 => ripemd160(&x, ripemd_block_by_rounds).to_vec(),
                        0xa8 => sha256(&x).to_vec(),
                        0xa9 => ripemd160(&sha256(&x), ripemd_block_by_rounds).to_vec(),
                        _ => sha256(&sha256(&x)).to_vec(),
                    });
                }
                0xac | 0xad => {
                    let (key, sig) = (main.pop()?, main.pop()?);
                    if !is_key(&key) {
                        return None;
                    }
                    let good = !sig.is_empty() && is_good(&key, &sig);
                    if !good && !sig.is_empty() {
                        return None;
                    }
                    if good {
                        checks.push((key, sig));
                    }
                    main.push(boolean(good));
                    if first == 0xad && !truth(&main.pop()?) {
                        return None;
                    }
                }
                0xae | 0xaf => {
                    let n = number(&main.pop()?, 4)?;
                    if !(0..=20).contains(&n) {
                        return None;
                    }
                    ops += n as u32;
                    if ops > 201 {
                        return None;
                    }
                    let keys = main.split_off(main.len().checked_sub(n as usize)?);
                    let m = number(&main.pop()?, 4)?;
                    if !(0..=n).contains(&m) {
                        return None;
                    }
                    let sigs = main.split_off(main.len().checked_sub(m as usize)?);
                    let extra = main.pop()?;
                    let (mut k, mut s) = (keys.len(), sigs.len());
                    let mut found = Vec::new();
                    while s > 0 && s <= k {
                        if !is_key(&keys[k - 1]) {
                            return None;
                        }
                        k -= 1;
                        if !sigs[s - 1].is_empty() && is_good(&keys[k], &sigs[s - 1]) {
                            s -= 1;
                            found.push((keys[k].clone(), sigs[s].clone()));
                        }
                    }
                    if s > 0 && sigs.iter().any(|x| !x.is_empty()) || !extra.is_empty() {
                        return None;
                    }
                    if s == 0 {
                        checks.extend(found);
                    }
                    main.push(boolean(s == 0));
                    if first == 0xaf && !truth(&main.pop()?) {
                        return None;
                    }
                }
                0xb1 | 0xb2 => {
                    let n = u64::try_from(number(main.last()?, 5)?).ok()?;
                    if !(if first == 0xb1 { locks.hold_after(n) } else { locks.hold_older(n) }) {
                        return None;
                    }
                }
                _ => return None,
            }
        }
        if main.len() + alt.len() > 1000 {
            return None;
        }
        peak = peak.max(main.len() + alt.len());
    }
    (branches.is_empty() && main.len() == 1 && truth(&main[0])).then_some((ops, peak, checks))
}

fn main() {
    let words: Vec<String> = std::env::args().skip(1).collect();
    let times: u32 = words[1].parse().unwrap();
    if words[0] == "digests" {
        let mut first = 0;
        for _ in 0..times * 100 {
            first = std::hint::black_box(sha256(std::hint::black_box(&[0x61; 520])))[0];
        }
        exit(first as i32);
    }
    let (key, sig) = (vec![2; 33], vec![0x61; 72]);
    let (mut script, mut stack) = (Vec::new(), Vec::new());
    match words[0].as_str() {
        "ops" => {
            script.extend(b"\x51\x51");
            for _ in 0..50 {
                script.extend(b"\x7c\x76\x93\x92");
            }
            script.extend(b"\x9b");
        }
        "hashes" => {
            for _ in 0..100 {
                stack.push(vec![0x61; 520]);
                script.extend(b"\xa8\x6b");
            }
            script.push(0x51);
        }
        _ => {
            for _ in 0..9 {
                stack.push(Vec::new());
                stack.push(sig.clone());
                script.extend(b"\x51\x21");
                script.extend(&key);
                for _ in 0..19 {
                    script.push(0x21);
                    script.extend([3; 33]);
                }
                script.extend(b"\x01\x14\xaf");
            }
            script.push(0x51);
        }
    }
    let table = vec![(key, sig)];
    let locks = Locks { version: 2, sequence: 4_294_967_294, locktime: 0 };
    let is_good = |key: &[u8], sig: &[u8]| member(&table, key, sig);
    let mut ops = 0;
    for _ in 0..times {
        ops = match std::hint::black_box(run(&script, &stack, &locks, is_good)) {
            Some(report) => report.0,
            None => 253,
        };
    }
    exit(ops as i32);
}
