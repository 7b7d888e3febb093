// SPDX-License-Identifier: MIT
// Timelocks as a person says them, as python/msat/explain/locks.py has it, and the addresses of an output (BIP 173), as bech32.py.

const SECONDS = 1 << 22;
const COUNT = 0xffff;
const TIMES = 500000000;
const FIRST_BLOCK = 1231006505;

// The nearest whole number, and of two the even one.
function rounded(number) {
  const floor = Math.floor(number);
  return number - floor === 0.5 ? floor + (floor % 2) : Math.round(number);
}

// About how long that is.
function span(seconds) {
  for (const [name, unit] of [["years", 31557600], ["months", 2629800], ["days", 86400], ["hours", 3600], ["minutes", 60]]) {
    if (seconds >= 2 * unit - Math.floor(unit / 60)) return `${counted(rounded(seconds / unit))} ${name}`;
  }
  return seconds ? `${seconds} seconds` : "no time";
}

// How long `older` waits, and about how long that takes.
function saidOlder(bits) {
  const count = bits & COUNT;
  if (bits & SECONDS) return `${counted(512 * count)} seconds${count ? ` (about ${span(512 * count)})` : ""}`;
  return `${counted(count)} block${count === 1 ? "" : "s"}${count ? ` (about ${span(600 * count)})` : ""}`;
}

// When `after` opens.
function saidAfter(value) {
  if (value < TIMES) return `height ${counted(value)}`;
  return new Date(1000 * value).toISOString().replace("T", " ").replace(".000Z", " UTC");
}

// How a timelock waits for less than its number seems to say; nothing where it waits for what it says.
function weaker(kind, operand) {
  if (kind === "after") {
    const isPast = TIMES <= operand && operand < FIRST_BLOCK;
    return isPast ? `waits for nothing, and holds at once: it is a time before the first block, ${saidAfter(operand)}` : "";
  }
  const bits = operand & (SECONDS | COUNT);
  if (bits === operand && bits & COUNT) return "";
  const said = "only bits 0 to 15 and 22 of its number count (BIP 68)";
  return bits & COUNT ? `waits for ${saidOlder(bits)} and no longer: ${said}` : `waits for nothing, and holds at once: ${said}`;
}

// What makes a condition something else than it looks like. Each satisfaction of a sane text has a signature, so where the most that one
// weighs is 0 there is none.
function warnings(root, limits) {
  const found = [];
  if (/ weight 0( |$)/.test(limits)) found.push("nobody can spend by this condition, whoever signs: nothing satisfies it, and what is paid to it is lost");
  const locks = new Set(Array.from(walk(root)).filter((it) => ["older", "after"].includes(it.name)).map((it) => `${it.name} ${it.arguments[0]}`));
  for (const lock of locks) {
    const [kind, operand] = lock.split(" ");
    const why = weaker(kind, Number(operand));
    if (why) found.push(`${kind}(${operand}) ${why}`);
  }
  return found;
}

const NETWORKS = [["main", "bc"], ["test", "tb"], ["regtest", "bcrt"]];
const FIVES = "qpzry9x8gf2tvdw0s3jn54khce6mua7l";

function polymod(values) {
  let check = 1;
  for (const value of values) {
    const top = check >>> 25;
    check = ((check & 0x1ffffff) << 5) ^ value;
    [0x3b6a57b2, 0x26508e6d, 0x1ea119fa, 0x3d4233dd, 0x2a1462b3].forEach((step, bit) => (check ^= (top >>> bit) & 1 ? step : 0));
  }
  return check;
}

// The address of a witness program, of version 0 by BIP 173, and of later ones by BIP 350.
function address(network, program, version = 0) {
  const bits = Array.from(program, (byte) => byte.toString(2).padStart(8, "0")).join("");
  const values = [version, ...bits.match(/.{1,5}/g).map((part) => parseInt(part.padEnd(5, "0"), 2))];
  const letters = Array.from(network, (letter) => letter.charCodeAt(0));
  const spread = [...letters.map((letter) => letter >> 5), 0, ...letters.map((letter) => letter & 31)];
  const check = polymod([...spread, ...values, 0, 0, 0, 0, 0, 0]) ^ (version ? 0x2bc830a3 : 1);
  const checks = Array.from({ length: 6 }, (_, at) => (check >>> (5 * (5 - at))) & 31);
  return network + "1" + [...values, ...checks].map((value) => FIVES[value]).join("");
}
