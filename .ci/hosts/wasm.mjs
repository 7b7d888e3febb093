// Asks a module that wasm/build has made, in Node, by the page's own scripts. Reads a job of JSON, and writes what came of it.
// Usage: node wasm.mjs JOB ANSWERS
//   script, module   files: the page's scripts without the page itself, and the module
//   ask              [program, words, source] ..: the status and the report of each, or why the engine threw
//   fail             the same, of a module with counted requests: each request of memory fails in turn, as far as `most`
//   look             [text, names, keys, consensus] ..: what the page says of each
//   hash, address, weaker, psbt, shuffle    what parts of the page, and of a module of .ci/browser, give
import fs from "node:fs";
import vm from "node:vm";

const job = JSON.parse(fs.readFileSync(process.argv[2], "utf8"));
const names = `Core, looked, markedLine, bytesOf, bytesOfHex, hexOf, HASHES, checksum, address, weaker, addressesOf, inputMaps, originOf, virtualSize,
  missingOf, unknownKeys, stepsOf, psbtLetters`;
const page = vm.runInThisContext(`(() => {"use strict";${fs.readFileSync(job.script, "utf8")};return { ${names} };})()`);
const bytes = fs.readFileSync(job.module);
if (WebAssembly.Module.imports(new WebAssembly.Module(bytes)).length) throw new Error("the module imports something");
const core = await page.Core.of(bytes);
const unpacked = (text) => new Uint8Array(Buffer.from(text, "base64"));
const packed = (data) => Buffer.from(data).toString("base64");
const out = () => (core.calls.blocks_out ? Number(core.calls.blocks_out()) : 0);

async function asked([program, words, source]) {
  try {
    const { status, report } = core.answer(program, words.map(unpacked), unpacked(source));
    return [status, packed(report), out()];
  } catch (error) {
    await core.renew();
    return ["threw", `${error.name}: ${error.message}`, 0];
  }
}

// How the answers differ from that without a failure, and how many requests failed.
async function failed(question, most) {
  core.calls.fail(0n);
  const whole = await asked(question);
  const requests = Number(core.calls.requests_made());
  const said = [];
  for (let number = 1; number <= Math.min(requests, most); number++) {
    core.calls.fail(BigInt(number));
    const [status, report, left] = await asked(question);
    const isRight = status === 7 ? report === "" : status === whole[0] && report === whole[1];
    if (!isRight || left) said.push(`request ${number}: status ${status}, ${left} blocks left`);
    core.calls.fail(0n);
    const again = await asked(question);
    if (again[0] !== whole[0] || again[1] !== whole[1]) said.push(`request ${number}: the next answer is another one`);
  }
  return { requests: Math.min(requests, most), said };
}

// The place counts letters, as Python does.
function seen([raw, digits, keys, isConsensus]) {
  const found = page.looked(core, raw, new Map(Object.entries(digits)), keys, isConsensus);
  const text = found.given ? found.given.text : null;
  if (!found.refusal) {
    const { policy, keys: least, warnings } = found;
    const nodes = Array.from(found.seen.nodes.values(), (it) => [it.name, it.place, it.kind, it.arguments]);
    const instructions = found.instructions.map((it) => [it.offset, it.place]);
    return { nodes, instructions, text, type: found.checked.get("type"), form: found.checked.get("text"), policy, keys: least, warnings, notes: found.given.done, standins: found.given.standins };
  }
  const { report, place, shown, sentence, advice, mend } = found.refusal;
  const [line, column] = place === null ? [null, null] : page.markedLine(shown, place, 100);
  return { text, refusal: { report, place: place === null ? null : [...shown.slice(0, place)].length, line, column, rule: sentence, advice }, mend };
}

const told = {};
if (job.ask) {
  told.ask = [];
  for (const question of job.ask) told.ask.push(await asked(question));
}
if (job.fail) {
  told.fail = [];
  for (const question of job.fail) told.fail.push(await failed(question, job.most));
}
if (job.look) told.look = job.look.map(seen);
if (job.hash) {
  const data = job.hash.map(unpacked);
  told.hash = data.map((part) => Array.from(page.HASHES, ([name, call]) => [name, page.hexOf(call(part))]));
}
if (job.address) told.address = job.address.map(([network, program]) => page.address(network, unpacked(program)));
if (job.weaker) told.weaker = job.weaker.map(([kind, operand]) => page.weaker(kind, operand));
if (job.psbt) {
  const { addresses, origins, sizes, missing, unknown, steps, letters } = job.psbt;
  const maps = (source) => page.inputMaps(unpacked(source), 1)[0];
  told.psbt = {
    addresses: addresses.map(page.addressesOf),
    origins: origins.map(([source, key]) => page.originOf(maps(source), key)),
    sizes: sizes.map(page.virtualSize),
    missing: missing.map(([policy, source, transaction]) => page.missingOf(policy, maps(source), transaction).map(({ said }) => said)),
    unknown: unknown.map(([script, source]) => page.unknownKeys(page.bytesOfHex(script), maps(source))),
    letters: letters.map((source) => page.psbtLetters(unpacked(source))),
    steps: steps.map(([report, witness]) => page.stepsOf(report, witness).map(({ kind, name, place, main, alt }) => [kind, name, place, main, alt])),
  };
}
if (job.shuffle) {
  const places = [0, 1, 2].map(() => core.calls.room(16n));
  const at = (place) => new Uint8Array(core.calls.memory.buffer, Number(place), 16);
  told.shuffle = job.shuffle.map((pair) => {
    pair.forEach((data, which) => at(places[which]).set(unpacked(data)));
    core.calls.shuffled(...places);
    return packed(at(places[2]));
  });
}
fs.writeFileSync(process.argv[3], JSON.stringify(told));
