// SPDX-License-Identifier: MIT
// What a person pastes, made into the text that the core is asked, as python/msat/explain/given.py makes it: white space, `wsh(..)` and a
// checksum are taken off, names get digits, and a Script is read back. Each byte of the text knows which place of what was pasted it
// comes of, so that a mark stands there.

const SPACE = /[\t-\r\x1c-\x20\x85\xa0\u1680\u2000-\u200a\u2028\u2029\u202f\u205f\u3000]/u;
const SCRIPT = /^(?:[0-9a-fA-F]{2})+$/;
const KEY = /^0[23][0-9a-fA-F]{64}$/;
const DIGITS = /^[0-9a-fA-F]{40,}$/;
const NAME = /^[A-Za-z_[][^]*$/;
const EXTENDED = /([A-Za-z]pub[0-9A-Za-z]{2})[0-9A-Za-z]{90,}([0-9A-Za-z]{4})/g;
const KEYED = ["pk", "pkh", "pk_k", "pk_h"];

// Why something can't be asked of the core: as a report, with its place in what was pasted.
class Unfit extends Error {
  constructor(report, place, sentence, advice) {
    super(sentence);
    Object.assign(this, { report, place, sentence, advice });
  }
}

// The checksum of a descriptor (BIP 380), or none where a letter is one that no descriptor has.
function checksum(text) {
  const letters = "0123456789()[],'/*abcdefgh@:$%{}IJKLMNOPQRSTUVWXYZ&+-.;<=>?!^_|~ijklmnopqrstuvwxyzABCDEFGH`#\"\\ ";
  const steps = [0xf5dee51989n, 0xa9fdca3312n, 0x1bab10e32dn, 0x3706b1677an, 0x644d626ffdn];
  let check = 1n;
  const take = (value) => {
    const top = check >> 35n;
    check = ((check & 0x7ffffffffn) << 5n) ^ BigInt(value);
    steps.forEach((step, bit) => (check ^= (top >> BigInt(bit)) & 1n ? step : 0n));
  };
  let [group, count] = [0, 0];
  for (const letter of text) {
    const place = letters.indexOf(letter);
    if (place < 0) return "";
    take(place & 31);
    [group, count] = [group * 3 + (place >> 5), count + 1];
    if (count === 3) {
      take(group);
      [group, count] = [0, 0];
    }
  }
  if (count) take(group);
  for (let at = 0; at < 8; at++) take(0);
  check ^= 1n;
  return Array.from({ length: 8 }, (_, at) => "qpzry9x8gf2tvdw0s3jn54khce6mua7l"[Number((check >> BigInt(5 * (7 - at))) & 31n)]).join("");
}

// A condition: as it was pasted, and as the core is asked. `origin` has for each byte of the text the place in what was pasted, and one
// more for its end; `names` the name of each key and hash value in digits; `standins` the names that had no digits, and `used` all that
// stand in it, with what they are; `done` what was done to what was pasted.
class Given {
  constructor(parts) {
    Object.assign(this, parts);
  }

  place(byte) {
    return this.origin[Math.min(byte, this.origin.length - 1)];
  }

  nameOf(value) {
    const name = this.names.get(value.toLowerCase());
    return name ? name.replace(EXTENDED, "$1..$2") : `${value.slice(0, 8).toLowerCase()}..${value.slice(-4).toLowerCase()}`;
  }

  isStandin(value) {
    return this.standins.includes(this.names.get(value.toLowerCase()));
  }
}

const keyOf = (name) => "02" + hexOf(sha256(bytesOf("msat-explain: a stand-in for the key " + name)));
const preimageOf = (value) => sha256(bytesOf("msat-explain: a stand-in for the preimage of " + value));
const digestOf = (name, value) => hexOf(HASHES.get(name)(preimageOf(value)));

// What was pasted, as the core is asked. `digits` has the digits of names, and `keys` further keys, for a Script.
function read(core, raw, digits, keys) {
  const letters = [];
  let at = 0;
  for (const letter of raw) {
    if (!SPACE.test(letter)) letters.push([letter, at]);
    at += letter.length;
  }
  const done = [];
  const inner = letters.length ? raw.slice(letters[0][1], letters[letters.length - 1][1] + 1) : "";
  if ([...inner].some((letter) => SPACE.test(letter))) done.push("White space was taken out");
  const mark = letters.findIndex(([letter]) => letter === "#");
  const bodyLetters = mark < 0 ? letters : letters.slice(0, mark);
  const body = bodyLetters.map(([letter]) => letter).join("");
  if (mark >= 0) {
    const check = letters.slice(mark + 1).map(([letter]) => letter).join("");
    testChecksum(body, check, letters[mark][1]);
    done.push("The checksum is right, and was taken off");
  }
  let [from, to] = [0, bodyLetters.length];
  if (body.startsWith("wsh(") && body.endsWith(")")) {
    [from, to] = [4, to - 1];
    done.push("The wsh(..) around it was taken off");
  }
  if (SCRIPT.test(body)) return decoded(core, body, digits, keys, done);
  const end = to < letters.length ? letters[to][1] : raw.length;
  return named(letters.slice(from, to), end, digits, { shown: raw, done });
}

function testChecksum(body, check, place) {
  const right = checksum(body);
  if (check === right) return;
  const said = right ? `For what stands before it, it is ${right}.` : "What stands before it has a letter that no descriptor has.";
  const advice =
    "copy the text again: it was changed or cut after its checksum was made. Where you changed it yourself, leave out # and what stands behind it";
  throw new Unfit("refused input Checksum", place, `The checksum #${check} isn't that of the text. ${said}`, advice);
}

// The condition that a Script is read back as, with the keys that were named for its hashes of keys.
function decoded(core, script, digits, keys, done) {
  const known = [...digits.values(), ...keys].filter((key) => KEY.test(key));
  const { status, report } = core.answer("msat", ["decode", script, ...known]);
  const said = new TextDecoder().decode(report).trim();
  if (status) throw new Unfit(said, null, "The Script isn't read back as a condition.", null);
  const text = said.slice("text ".length);
  const names = new Map(Array.from(digits, ([name, value]) => [value.toLowerCase(), name]));
  const origin = Array.from({ length: text.length + 1 }, (_, place) => place);
  return new Given({ shown: text, text, origin, names, standins: [], used: new Map(), done: [...done, "The text was read back of a Script"] });
}

// The text with digits for its names.
function named(letters, end, digits, rest) {
  const text = letters.map(([letter]) => letter).join("");
  const places = [];
  for (const [letter, at] of letters) for (let unit = 0; unit < letter.length; unit++) places.push(at);
  const [parts, origin, names, standins, used] = [[], [], new Map(), [], new Map()];
  // The fragments that are open, each with the number of its argument.
  const open = [];
  let last = "";
  for (const found of text.matchAll(/[(),]|[^(),]+/g)) {
    const word = found[0];
    if (word === "(") open.push([last.slice(last.lastIndexOf(":") + 1), 0]);
    else if (word === ")") open.pop();
    else if (word === "," && open.length) open[open.length - 1][1]++;
    last = word;
    const kind = open.length && !"(),".includes(word) && text[found.index + word.length] !== "(" ? kindOf(word, ...open[open.length - 1], digits) : "";
    if (kind) {
      const value = digits.get(word) || (HASHES.has(kind) ? digestOf(kind, word) : keyOf(word));
      if (!digits.has(word) && !standins.includes(word)) standins.push(word);
      names.set(value.toLowerCase(), word);
      used.set(word, kind);
      parts.push(value);
      for (let byte = 0; byte < value.length; byte++) origin.push(places[found.index]);
    } else {
      parts.push(word);
      let unit = found.index;
      for (const letter of word) {
        for (let byte = bytesOf(letter).length; byte; byte--) origin.push(places[unit]);
        unit += letter.length;
      }
    }
  }
  origin.push(end);
  const all = new Map([...Array.from(digits, ([name, value]) => [value.toLowerCase(), name]), ...names]);
  return new Given({ ...rest, text: parts.join(""), origin, names: all, standins, used });
}

// What a word that is a name stands for, in this argument of this fragment: "key" or the function of a hash; "" where it is no name.
function kindOf(word, fragment, at, digits) {
  const isHash = HASHES.has(fragment) && at === 0;
  const isKey = (KEYED.includes(fragment) && at === 0) || ((fragment === "multi" || fragment === "sortedmulti") && at > 0);
  if (!isHash && !isKey) return "";
  if (DIGITS.test(word) || (!digits.has(word) && !NAME.test(word))) return "";
  return isHash ? fragment : "key";
}
