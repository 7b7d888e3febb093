// SPDX-License-Identifier: MIT
// What the core says of what was pasted: its refusal with the place, or what is known of a sane condition.

const ALLOWED = { size: [3600, 10000], ops: [201, 201], items: [100, null], weight: [null, null], height: [1000, 1000] };

// The lines of a report by their first word.
const linesOf = (report) => new Map(report.trimEnd().split("\n").map((line) => [line.split(" ", 1)[0], line.slice(line.indexOf(" ") + 1)]));

function asked(core, words) {
  const { status, report } = core.answer("msat", words);
  return { status, report: new TextDecoder().decode(report).trimEnd() };
}

// Either `refusal`, or `given` with `checked`, `instructions`, `policy`, `keys`, `warnings`; of a text that is valid and not sane the refusal has
// `script`. With both, `seen` is what the core tells of the nodes of a text that it can read.
function looked(core, raw, digits, keys, isConsensus) {
  let given;
  try {
    given = read(core, raw, digits, keys);
  } catch (unfit) {
    if (!(unfit instanceof Unfit)) throw unfit;
    const advice = unfit.advice === null ? adviceFor(unfit.report) : unfit.advice;
    return { refusal: { report: unfit.report, place: unfit.place, shown: raw, sentence: unfit.message, advice, mend: null } };
  }
  const by = isConsensus ? ["--consensus"] : [];
  const { status, report } = asked(core, ["tree", ...by, given.text]);
  if (status === NO_MEMORY || status === UNREADABLE) {
    const sentence = status === NO_MEMORY ? "Memory was wanting." : "The text isn't UTF-8, or has a NUL.";
    return { given, refusal: { report: "refused input", place: null, shown: raw, sentence, advice: adviceFor("refused input"), mend: null } };
  }
  const seen = outlineOf(given.text, report);
  if (status) {
    const valid = /^refused text (Malleable|NoSignature|MixedLocks|RepeatedKey)/.test(seen.refusal) ? asked(core, ["script", ...by, given.text]) : null;
    return { given, seen, refusal: { ...refusalOf(seen, given), script: valid && !valid.status ? valid.report : null } };
  }
  const checked = linesOf(asked(core, ["check", ...by, given.text]).report);
  const instructions = instructionsOf(asked(core, ["asm", ...by, given.text]).report);
  const demanded = asked(core, ["policy", given.text]);
  const lines = linesOf(demanded.report);
  const policy = demanded.status ? null : lines.get("policy");
  return { given, seen, checked, instructions, policy, keys: policy && lines.get("keys"), warnings: warnings(seen.root, checked.get("limits")) };
}

// The limits that `check` prints, each with its number and what is allowed.
function limitsOf(line, isConsensus) {
  const words = line.split(" ");
  const found = [];
  for (let at = 0; at < words.length; at += 2) found.push([words[at], Number(words[at + 1]), ALLOWED[words[at]][isConsensus ? 1 : 0]]);
  return found;
}

// A policy or a text with names for its digits.
function withNames(text, given) {
  return text.replace(/[0-9a-f]{40,}/g, (value) => (given.names.has(value) ? given.nameOf(value) : value));
}

// A node with its keys, hash values and numbers, and without its children.
function labelOf(node, given) {
  if (node.isLetter) return `${node.name}:`;
  const said = node.arguments.map((it) => (it.length >= 40 ? given.nameOf(it) : it));
  if (node.children.length) said.push("..");
  return node.name + (said.length ? `(${said.join(", ")})` : "");
}

// What a timelock waits for.
function waitOf(kind, operand) {
  if (kind === "older") return `${saidOlder(Number(operand))} after the output confirms`;
  return kind === "after" ? `from ${saidAfter(Number(operand))} on` : "";
}

// What one thing is that a policy demands.
function atomSaid({ kind, value }, given) {
  if (kind === "never") return "nobody can spend by this";
  if (kind === "key") return `${given.nameOf(value)} signs`;
  return waitOf(kind, value) || `the preimage of ${given.nameOf(value)} is shown`;
}

// How many of some parts it demands.
function gateSaid({ kind, need, parts }) {
  if (kind === "all") return "all of these:";
  return kind === "any" ? "any one of these:" : `at least ${need} of these ${parts.length}:`;
}
