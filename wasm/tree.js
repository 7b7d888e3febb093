// SPDX-License-Identifier: MIT
// The tree of a text, as the core prints it by `tree`: each node with its place, its type and its arguments, and the letter that fits; read as
// python/msat/explain/tree.py reads it. And the instructions of a Script, by `asm`. Nothing of them is reckoned here.

// The node that is named at this place: by its first letter alone, where its word stands before a colon.
function nodeAt(text, place, kind, rest) {
  const word = /[^(),:]+/y;
  word.lastIndex = place;
  const name = word.exec(text)[0];
  const isLetter = text[word.lastIndex] === ":";
  return { name: isLetter ? name[0] : name, place, isLetter, kind, arguments: rest, children: [] };
}

// The nodes of a text whose report of `tree` this is, by their places, the refusal and the letter that fits, where there are such. Of several
// lines with one place the first is the node as it stands in the text; of the others, which its name stands for besides, the arguments are taken.
function outlineOf(text, report) {
  const nodes = new Map();
  const open = [];
  let [refusal, fit] = ["", null];
  for (const line of report.split("\n")) {
    const [word, ...words] = line.split(" ");
    if (word === "refused") refusal = line;
    if (word === "fits") fit = { letter: words[0], place: Number(words[2]) };
    if (word !== "node") continue;
    const [place, depth, kind, , ...rest] = words;
    const same = nodes.get(Number(place));
    if (same) {
      same.arguments.push(...rest);
      continue;
    }
    const node = nodeAt(text, Number(place), kind, rest);
    nodes.set(node.place, node);
    open.length = Number(depth);
    if (open.length) open[open.length - 1].children.push(node);
    open.push(node);
  }
  const [root = null] = nodes.values();
  return { root, nodes, refusal, fit };
}

// The instructions that a report of `asm` has: the offset, what is carried out, and the place of the node that wrote it.
function instructionsOf(report) {
  return report.split("\n").map((line) => {
    const [, offset, ...words] = line.split(" ");
    return { offset: Number(offset), said: words.slice(0, -2), place: Number(words[words.length - 1]) };
  });
}

function* walk(node) {
  yield node;
  for (const child of node.children) yield* walk(child);
}

// The end of the expression that begins at a place of a text.
function endOf(text, place) {
  let depth = 0;
  for (let at = place; at < text.length; at++) {
    depth += (text[at] === "(") - (text[at] === ")");
    if (depth < 0 || (depth === 0 && text[at] === ",")) return at;
  }
  return text.length;
}

const REFUSED = /^refused text ([A-Z]\w*)(?: ([A-Z]\w*))?(?: at (\d+))?(?: (\d+))?$/;

// What a report refuses a text for.
function refusedFor(report) {
  const [, name, subject, place, number] = REFUSED.exec(report);
  return { name, subject: subject || null, place: place === undefined ? null : Number(place), number: number === undefined ? null : Number(number) };
}

// What a policy demands: one thing with its kind and value, or so many of some parts.
function demandOf(policy) {
  const words = policy.match(/[a-z0-9]+|[(),]/g);
  let at = 0;
  const next = () => words[at++];
  const part = () => {
    const kind = next();
    if (words[at] !== "(") return { kind };
    next();
    if (!["all", "any", "thresh"].includes(kind)) {
      const value = next();
      next();
      return { kind, value };
    }
    const number = kind === "thresh" ? Number(next()) : null;
    if (kind === "thresh") next();
    const parts = [part()];
    while (next() === ",") parts.push(part());
    return { kind, need: kind === "all" ? parts.length : number || 1, parts };
  };
  return part();
}
