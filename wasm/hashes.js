// SPDX-License-Identifier: MIT
// SHA-256 (FIPS 180-4) and RIPEMD-160, for stand-ins and nothing else: what is proved has its own.

const rotl = (value, bits) => (value << bits) | (value >>> (32 - bits));
const bytesOf = (text) => new TextEncoder().encode(text);
const hexOf = (bytes) => Array.from(bytes, (byte) => byte.toString(16).padStart(2, "0")).join("");
const bytesOfHex = (hex) => Uint8Array.from(hex.match(/../g) || [], (pair) => parseInt(pair, 16));

// The bytes with a bit, zeros and their length behind them, in words of 32 bits.
function padded(data, isLittle) {
  const length = Math.ceil((data.length + 9) / 64) * 64;
  const bytes = new Uint8Array(length);
  bytes.set(data);
  bytes[data.length] = 0x80;
  const view = new DataView(bytes.buffer);
  view.setUint32(length - (isLittle ? 8 : 4), 8 * data.length, isLittle);
  return Array.from({ length: length / 4 }, (_, at) => view.getUint32(4 * at, isLittle));
}

// The first 32 bits of the fractional part of a root of the first primes.
function roots(count, power) {
  const primes = [];
  for (let it = 2; primes.length < count; it++) if (primes.every((prime) => it % prime)) primes.push(it);
  return primes.map((prime) => {
    // Found bit by bit in whole numbers, since a double has too few of them.
    const scaled = BigInt(prime) << BigInt(32 * power);
    let low = 0n;
    for (let bit = 1n << 40n; bit; bit >>= 1n) if ((low + bit) ** BigInt(power) <= scaled) low += bit;
    return Number(low & 0xffffffffn) | 0;
  });
}

const SHA_STEPS = roots(64, 3);
const SHA_START = roots(8, 2);

function sha256(data) {
  const words = padded(data, false);
  let state = SHA_START;
  for (let start = 0; start < words.length; start += 16) {
    const w = words.slice(start, start + 16);
    for (let at = 16; at < 64; at++) {
      const [x, y] = [w[at - 15], w[at - 2]];
      const low = rotl(x, 25) ^ rotl(x, 14) ^ (x >>> 3);
      const high = rotl(y, 15) ^ rotl(y, 13) ^ (y >>> 10);
      w.push((w[at - 16] + low + w[at - 7] + high) | 0);
    }
    let [a, b, c, d, e, f, g, h] = state;
    for (let at = 0; at < 64; at++) {
      const first = (h + (rotl(e, 26) ^ rotl(e, 21) ^ rotl(e, 7)) + ((e & f) ^ (~e & g)) + SHA_STEPS[at] + w[at]) | 0;
      const second = ((rotl(a, 30) ^ rotl(a, 19) ^ rotl(a, 10)) + ((a & b) ^ (a & c) ^ (b & c))) | 0;
      [a, b, c, d, e, f, g, h] = [(first + second) | 0, a, b, c, (d + first) | 0, e, f, g];
    }
    state = [a, b, c, d, e, f, g, h].map((part, at) => (part + state[at]) | 0);
  }
  const view = new DataView(new ArrayBuffer(32));
  state.forEach((part, at) => view.setInt32(4 * at, part));
  return new Uint8Array(view.buffer);
}

// For each of the five rounds of both lines: which word of the block each step takes, and by how many bits it turns.
const RIPEMD_WORDS = [
  ["0123456789abcdef", "74d1a6f3c0952eb8", "3ae49f812706db5c", "19ba08c4d37fe562", "40597c2ae138b6fd"],
  ["5e7092b4d6f81a3c", "6b370d5aef8c4912", "f5137e69b8c2a04d", "86413bf05c2d97ae", "cfa4158762de039b"],
];
const RIPEMD_TURNS = [
  ["befc5879bdef6798", "768db97f7cf9b7dc", "bd67e9dfe8d65c75", "bcefef989e56865c", "9f5b68dc5cdeb856"],
  ["899bdff5778beec6", "9df7c89b77c76fdb", "97fb866ecd5edd75", "f58bee6e69c9c5f8", "85c9c5e68d65fdbb"],
];
const RIPEMD_ADDED = [
  [0x00000000, 0x5a827999, 0x6ed9eba1, 0x8f1bbcdc, 0xa953fd4e],
  [0x50a28be6, 0x5c4dd124, 0x6d703ef3, 0x7a6d76e9, 0x00000000],
];
const RIPEMD_MIXES = [
  (x, y, z) => x ^ y ^ z,
  (x, y, z) => (x & y) | (~x & z),
  (x, y, z) => (x | ~y) ^ z,
  (x, y, z) => (x & z) | (y & ~z),
  (x, y, z) => x ^ (y | ~z),
];

function ripemdLine(line, state, words) {
  let [a, b, c, d, e] = state;
  for (let turn = 0; turn < 5; turn++) {
    const mix = RIPEMD_MIXES[line ? 4 - turn : turn];
    for (let step = 0; step < 16; step++) {
      const word = words[parseInt(RIPEMD_WORDS[line][turn][step], 16)];
      const total = (a + mix(b, c, d) + word + RIPEMD_ADDED[line][turn]) | 0;
      [a, b, c, d, e] = [e, (rotl(total, parseInt(RIPEMD_TURNS[line][turn][step], 16)) + e) | 0, b, rotl(c, 10), d];
    }
  }
  return [a, b, c, d, e];
}

function ripemd160(data) {
  const words = padded(data, true);
  let state = [0x67452301, 0xefcdab89, 0x98badcfe, 0x10325476, 0xc3d2e1f0];
  for (let start = 0; start < words.length; start += 16) {
    const block = words.slice(start, start + 16);
    const [left, right] = [ripemdLine(0, state, block), ripemdLine(1, state, block)];
    state = state.map((_, at) => (state[(at + 1) % 5] + left[(at + 2) % 5] + right[(at + 3) % 5]) | 0);
  }
  const view = new DataView(new ArrayBuffer(20));
  state.forEach((part, at) => view.setInt32(4 * at, part, true));
  return new Uint8Array(view.buffer);
}

// The functions by the names of their fragments.
const HASHES = new Map([
  ["sha256", sha256],
  ["hash256", (data) => sha256(sha256(data))],
  ["ripemd160", ripemd160],
  ["hash160", (data) => ripemd160(sha256(data))],
]);
