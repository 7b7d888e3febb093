// SPDX-License-Identifier: MIT
// The calls of the module that wasm/build makes: words and a source, as the programs msat and msat-psbt read them, and their report.

const NO_MEMORY = 7;
const UNREADABLE = 11;
const LEAST_ROOM = 65536;

class Core {
  // The module is compiled once; `calls` are those of an instance of it, and null where there is none.
  constructor(module) {
    this.module = module;
    this.calls = null;
  }

  static async of(bytes) {
    const core = new Core(await WebAssembly.compile(bytes));
    await core.renew();
    return core;
  }

  // A new instance, with a memory of its own.
  async renew() {
    this.calls = null;
    this.calls = (await WebAssembly.instantiate(this.module)).exports;
  }

  // How many bytes of memory the instance has taken.
  get taken() {
    return this.calls.memory.buffer.byteLength;
  }

  // What the program, "msat" or "msat_psbt", answers to the words, each a string or bytes: the status and the report's bytes. Where the
  // engine throws, as where the stack is too small, the instance may be left half written: it isn't called again, and has to be renewed.
  answer(program, words, source = new Uint8Array()) {
    const calls = this.calls;
    if (!calls) throw new Error("the core has to be renewed");
    this.calls = null;
    const told = answered(calls, calls[program + "_answer"], lined(words), words.length, source);
    this.calls = calls;
    return told;
  }
}

// The words as the module reads them: each with a 0 behind it.
function lined(words) {
  const parts = words.map((word) => (typeof word === "string" ? new TextEncoder().encode(word) : word));
  const line = new Uint8Array(parts.reduce((sum, part) => sum + part.length + 1, 0));
  let at = 0;
  for (const part of parts) {
    line.set(part, at);
    at += part.length + 1;
  }
  return line;
}

function answered(calls, call, line, count, source) {
  const lent = [];
  // A place for so many bytes, or 0 where memory is wanting.
  const lend = (length) => {
    const at = BigInt.asUintN(64, calls.room(BigInt(length)));
    if (at) lent.push(at);
    return at;
  };
  const put = (bytes) => {
    const at = lend(bytes.length);
    if (at) new Uint8Array(calls.memory.buffer, Number(at), bytes.length).set(bytes);
    return at;
  };
  const told = (status, report = new Uint8Array()) => {
    for (const at of lent.reverse()) calls.leave(at);
    return { status, report };
  };
  const places = [put(line), put(source), lend(8)];
  if (places.includes(0n)) return told(NO_MEMORY);
  const [words, from, needed] = places;
  for (let room = Math.max(LEAST_ROOM, 2 * source.length); ; ) {
    const report = lend(room);
    if (!report) return told(NO_MEMORY);
    const lengths = [BigInt(line.length), BigInt(source.length), BigInt(room)];
    const status = call(BigInt(count), words, lengths[0], from, lengths[1], report, lengths[2], needed) >>> 0;
    if (status === NO_MEMORY || status === UNREADABLE) return told(status);
    const length = Number(new DataView(calls.memory.buffer).getBigUint64(Number(needed), true));
    if (length <= room) return told(status, new Uint8Array(calls.memory.buffer, Number(report), length).slice());
    calls.leave(lent.pop());
    room = length;
  }
}
