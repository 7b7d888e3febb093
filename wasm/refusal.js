// SPDX-License-Identifier: MIT
// Why something is refused, for a person: the rule in a sentence, and what to do, as python/msat/explain/refusals.py has it. WORDS are its
// tables, which ./page puts before this script.

const counted = (number) => String(number).replace(/\B(?=(\d{3})+$)/g, ",");

// What a report asks for.
function adviceFor(report) {
  const said = report.split(/\s+/);
  for (const [reports, , advice] of WORDS.advice) {
    const names = Array.from(reports.matchAll(/`([^`]*)`/g), (found) => found[1]);
    const start = /^refused \w+ /.exec(names[0] || "");
    for (const name of names) {
      const whole = name === names[0] || !start ? name : start[0] + name;
      const words = whole.split(/\s+/).filter((word) => !/^([A-Z]|NAME|FAULT|at)$/.test(word));
      if (words.every((word, at) => word === said[at])) {
        const plain = advice.replace(/ \(\[[^\]]*\]\([^)]*\)\)|`/g, "");
        return plain.replaceAll("byte P", "the mark").replace(" Or see --malleable below", "");
      }
    }
  }
  return "";
}

// What a rule requires.
function requiredBy(rule) {
  for (const [rules, wanted] of WORDS.required) {
    const at = rules.indexOf(rule);
    if (at < 0) continue;
    const said = wanted[wanted.length > 1 ? at % wanted.length : 0];
    return at === 0 || !rule.startsWith("Wrap") ? said : "the child is " + said.replace("the child is ", "");
  }
  return "";
}

// What the rules call the children of a node.
function partsOf(node) {
  if (node.name === "thresh") return node.children.map((_, at) => `child ${at + 1}`);
  if (node.isLetter) return [""];
  return { andor: ["X", "Y", "Z"] }[node.name] || (node.name.startsWith("or_") ? ["X", "Z"] : ["X", "Y"]);
}

function formOf(node) {
  if (node.isLetter) return `${node.name}:X`;
  const inner = node.name === "thresh" || node.name === "multi" ? "k,.." : node.children.length ? partsOf(node).join(",") : "n";
  return `${node.name}(${inner})`;
}

// The rule of a node that breaks one, what its letters mean, and of which types its children are.
function brokenRule(refused, node) {
  const names = partsOf(node);
  const parts = node.children.slice(0, names.length).map(({ kind }, at) => `${names[at] || "the child"} is ${kind}`);
  const wanted = requiredBy(refused.subject);
  const letters = [...new Set(wanted.match(/\b[A-Za-z]\b/g))].filter((letter) => letter in WORDS.letters);
  const meant = letters.map((letter) => `${letter} ${WORDS.letters[letter]}`).join("; ");
  const here = parts.length ? ` Here ${parts.slice(0, 8).join(", ")}${parts.length > 8 ? " .." : ""}.` : "";
  return `${formOf(node)} requires: ${wanted}.${here}${meant ? ` (${meant}.)` : ""}`;
}

// The letter that fits, its place in what was pasted, and what stands there, cut where that is long.
function mendOf({ letter, place }, given) {
  const said = [...given.shown.slice(given.place(place), given.place(endOf(given.text, place)))].filter((it) => !SPACE.test(it));
  return { letter, place: given.place(place), shown: said.length <= 40 ? said.join("") : said.slice(0, 38).join("") + ".." };
}

// The refusal of a text, where its wrong place came from. `mend` is the letter that fits, if one does.
function refusalOf(seen, given) {
  const report = seen.refusal;
  const refused = refusedFor(report);
  const place = refused.place === null ? null : given.place(refused.place);
  const mend = seen.fit && mendOf(seen.fit, given);
  let [sentence, advice] = ["", adviceFor(report)];
  if (refused.name === "Rule" || refused.name === "Malleable") {
    sentence = brokenRule(refused, seen.nodes.get(refused.place));
    advice = advice.replace(/\.+$/, "") + (mend ? `. It fits with ${mend.letter}: before ${mend.shown}` : "");
  } else {
    sentence = WORDS.sentences[refused.name].replace(/\{number\}/g, counted(refused.number || 0));
  }
  if (refused.name === "Syntax") {
    const rest = new TextDecoder().decode(bytesOf(given.text).slice(refused.place));
    const word = /^[\p{L}\p{N}_]+/u.exec(rest);
    if (word && word[0] in WORDS.foreign) advice = WORDS.foreign[word[0]];
  }
  return { report, place, shown: given.shown, sentence, advice, mend };
}

const WIDTH = 76;

// The line that a place is in, cut to what is near it, and the column of the place in it.
function markedLine(shown, place, width = WIDTH) {
  const start = place > 0 ? shown.lastIndexOf("\n", place - 1) + 1 : 0;
  const end = shown.indexOf("\n", place);
  const line = [...shown.slice(start, end < 0 ? shown.length : end)].map((letter) => (/\p{C}/u.test(letter) ? "\ufffd" : letter));
  const column = Math.min([...shown.slice(start, place)].length, line.length);
  const first = line.length > width ? Math.max(0, column - Math.floor(width / 2)) : 0;
  const before = first ? ".." : "";
  const after = first + width < line.length ? ".." : "";
  return [before + line.slice(first, first + width).join("") + after, before.length + column - first];
}
