// SPDX-License-Identifier: MIT
// The run of an input that `finalize` made final, step by step: a trace as the core prints it, read as python/msat/explain/steps.py has it. No
// opcode is known here.

const MOST_STEPS = 400;

// A run file of what the final witness is, with the signatures of the map it came of as good ones.
function runFile(items, isOfKey, pairs, transaction) {
  const keyScript = (key) => `76a914${hexOf(HASHES.get("hash160")(key))}88ac`;
  const signed = pairs.filter(({ type, data }) => type === KEY_TYPES.signature && isCompressed(data));
  return {
    script: isOfKey ? keyScript(items[1]) : hexOf(items[items.length - 1]),
    witness: (isOfKey ? items : items.slice(0, -1)).map(hexOf),
    signatures: signed.map(({ data, value }) => ({ key: data, sig: hexOf(value) })),
    ...transaction,
  };
}

// Each line of a trace but the last: its kind, what its instruction is called, the place of the node that wrote it, and the stacks behind it.
function stepsOf(report, witness) {
  const main = witness.map((item) => item || "-");
  const alt = [];
  const found = [];
  let place = null;
  const change = (words) => {
    place = null;
    for (let at = 0; at < words.length; at++) {
      const next = () => words[++at];
      switch (words[at]) {
        case "pop": main.length -= Number(next()); break;
        case "push": main.push(next()); break;
        case "altpush": alt.push(next()); break;
        case "altpop": alt.pop(); break;
        case "open": next(); break;
        case "check": at += 2; break;
        case "node": place = Number(next()); break;
      }
    }
  };
  for (const line of report.trimEnd().split("\n").slice(0, -1)) {
    const [kind, , ...words] = line.split(" ");
    const length = words[0].startsWith("OP_") ? 1 : 2;
    if (kind === "step" && words[0] === "push") change(words.slice(0, 2));
    change(words.slice(length));
    found.push({ kind, name: words.slice(0, length).join(" "), place, main: main.slice(), alt: alt.slice() });
  }
  return found;
}
