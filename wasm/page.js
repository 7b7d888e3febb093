// SPDX-License-Identifier: MIT
// The page: what stands in its fields goes to the core at each change, and what comes back is shown. Nothing is written as HTML.

const MOST_SOURCE = 16777217; // A byte more than the most that is read of a PSBT: the core refuses it by itself.
const MOST_VERIFIED = 1 << 20; // Signatures of a larger PSBT are looked at when that is asked for: it may take minutes.
const MOST_NODES = 2000; // A tree of more isn't drawn.
const at = (id) => document.getElementById(id);

function element(tag, parts = {}, ...inner) {
  const { on, ...attributes } = parts;
  const made = document.createElement(tag);
  for (const [name, value] of Object.entries(attributes)) if (value !== null && value !== false) made.setAttribute(name, value === true ? "" : value);
  if (on) made.addEventListener(...on);
  made.append(...inner);
  return made;
}

const code = (text) => element("code", {}, text);
const by = (whom) => element("span", { class: `by ${whom}` }, whom);

// A table: the first cell of each row names it. Each column has a class.
function table(caption, heads, rows, classes = [null, null, "from"]) {
  const cell = (inner, place) => element(place ? "td" : "th", { scope: place ? null : "row", class: classes[place] }, inner);
  const head = element("tr", {}, ...heads.map((name, place) => element("th", { scope: "col", class: classes[place] }, ...[].concat(name))));
  const body = rows.map((row) => element("tr", {}, ...row.map(cell)));
  const made = element("table", {}, element("caption", {}, caption), element("thead", {}, head), element("tbody", {}, ...body));
  return element("div", { class: "wide", tabindex: "0", role: "region", "aria-label": caption }, made);
}

class Page {
  constructor(core, worked) {
    this.core = core;
    this.worked = worked;
    this.psbts = 0;
    this.digits = new Map();
    this.links = new Map();
    this.rows = new Map();
    this.turn = 0;
    this.mark = null;
  }

  start() {
    at("unable").hidden = true;
    at("all").hidden = false;
    for (const id of ["text", "consensus", "keys", "assets"]) at(id).addEventListener("input", () => this.change());
    for (const button of document.querySelectorAll("button.example")) {
      button.addEventListener("click", () => this.put(button.dataset.text));
    }
    at("file").addEventListener("change", (event) => this.take([...event.target.files]));
    this.dropping();
    this.change();
  }

  // Puts a text into the field, and the cursor to a place of it.
  put(text, place = 0) {
    at("text").value = text;
    at("text").focus();
    at("text").setSelectionRange(place, place);
    this.change();
  }

  // Runs something over the core; where the engine throws, over a new instance once more.
  async over(work, failed) {
    for (let tries = 0; tries < 2; tries++) {
      try {
        if (!this.core.calls || this.core.taken > MOST_MEMORY) await this.core.renew();
        return work();
      } catch (error) {
        if (tries) failed(`The core has stopped: ${error.message}. It was started anew.`);
      }
    }
    return this.core.renew();
  }

  change() {
    const turn = ++this.turn;
    return this.over(
      () => turn === this.turn && this.show(),
      (said) => turn === this.turn && this.say("verdict", said),
    );
  }

  say(id, said, kind = null) {
    at(id).textContent = said;
    at(id).className = kind || "";
  }

  show() {
    const raw = at("text").value;
    const answer = at("answer");
    const body = [...raw].filter((letter) => !SPACE.test(letter)).join("").split("#")[0];
    at("script-keys").hidden = !SCRIPT.test(body);
    if (!body) {
      this.showNames(new Map());
      this.showHeld(null);
      answer.replaceChildren();
      at("text").removeAttribute("aria-invalid");
      return this.say("verdict", "Paste a condition, or take an example.");
    }
    const keys = at("keys").value.split(/[\s,]+/).filter((key) => key);
    const found = looked(this.core, raw, this.digits, keys, at("consensus").checked);
    if (found.given) this.showNames(found.given.used);
    at("text").setAttribute("aria-invalid", String(Boolean(found.refusal)));
    answer.replaceChildren(...(found.refusal ? this.refusal(found.refusal) : this.facts(found)), ...this.nodes(found));
    this.showHeld(found.refusal ? null : found);
    return found;
  }

  // A row for each name, with a field for its digits; one that stands already stays as it is.
  showNames(used) {
    for (const [name, row] of this.rows) {
      if (!used.has(name)) {
        row.remove();
        this.rows.delete(name);
      }
    }
    // A row that is moved would lose the cursor.
    let last = null;
    for (const [name, kind] of used) {
      if (!this.rows.has(name)) this.rows.set(name, this.nameRow(name, kind));
      const row = this.rows.get(name);
      const next = last ? last.nextSibling : at("names-rows").firstChild;
      if (row !== next) at("names-rows").insertBefore(row, next);
      last = row;
    }
    at("names").hidden = !used.size;
  }

  nameRow(name, kind) {
    const id = `name-${this.turn}-${this.rows.size}`;
    const length = kind === "key" ? 66 : kind === "ripemd160" || kind === "hash160" ? 40 : 64;
    const take = (event) => {
      const value = event.target.value.replace(/\s/g, "");
      const isDigits = SCRIPT.test(value);
      event.target.setAttribute("aria-invalid", String(Boolean(value) && (!isDigits || value.length !== length)));
      if (isDigits) this.digits.set(name, value);
      else this.digits.delete(name);
      this.change();
    };
    const field = { id, value: this.digits.get(name) || "", placeholder: `${length} digits`, spellcheck: "false", autocomplete: "off", on: ["input", take] };
    return element("div", { class: "name-row" }, element("label", { for: id }, `${shortName(name)} `, element("span", { class: "soft" }, kind)), element("input", field));
  }

  refusal(found) {
    const said = [];
    const isPasted = found.shown === at("text").value; // Else the text was read back of a Script.
    const reason = found.report.replace(/^refused (text|input) ?/, "").replace(/ at \d+$/, "");
    this.say("verdict", found.report === "no reading" ? "No reading" : `Refused: ${reason || "it can’t be read"}`, "bad");
    if (found.place !== null) {
      const width = Math.max(24, Math.floor(at("answer").clientWidth / 8.6) - 6);
      const [line, column] = markedLine(found.shown, found.place, Math.min(width, 100));
      const mark = element("b", { class: "bad", id: "mark" }, "^");
      said.push(element("div", { class: "wide", tabindex: "0", role: "region", "aria-label": "the condition, with a mark below the wrong place" },
        element("pre", { class: "marked" }, `${line}\n${" ".repeat(column)}`, mark)));
      const go = () => {
        at("text").focus();
        at("text").setSelectionRange(found.place, Math.min(found.place + 1, at("text").value.length));
      };
      if (isPasted) said.push(element("button", { type: "button", id: "go", on: ["click", go] }, "Put the cursor there"));
    }
    said.push(element("p", { id: "rule" }, found.sentence, " "));
    if (found.advice) said.push(element("p", {}, element("strong", {}, "What to do: "), element("span", { id: "advice" }, found.advice), "."));
    if (found.mend && isPasted) said.push(this.mendButton(found.mend));
    if (found.script) {
      const bytes = counted(found.script.length / 2);
      said.push(element("p", { class: "soft" }, `It is valid all the same: its Script has ${bytes} bytes. `, by("core")));
    }
    said.push(element("p", { class: "soft" }, code(found.report), " ", by(found.report.startsWith("refused input") ? "page" : "core")));
    said.push(element("p", { class: "soft" }, "The mark, the rule in words and the advice ", by("page"), ", the types in them and the letter that fits ", by("core")));
    return said;
  }

  mendButton({ letter, place, shown }) {
    const mend = () => {
      const text = at("text").value;
      const isRun = /^\s*[a-z\s]+:/.test(text.slice(place));
      this.put(text.slice(0, place) + letter + (isRun ? "" : ":") + text.slice(place), place);
    };
    return element("button", { type: "button", id: "mend", on: ["click", mend] }, `Put ${letter}: before ${shown}`);
  }

  facts(found) {
    const { given, checked, policy } = found;
    const isReal = !given.standins.length;
    const notes = given.done.map((done) => element("p", { class: "note" }, `${done}. `, by("page")));
    if (!isReal) notes.push(element("p", { class: "note" }, WORDS.standins.replace("{names}", listed(given.standins)), " ", by("page")));
    for (const warning of found.warnings) notes.push(element("p", { class: "note warning" }, element("strong", { class: "bad" }, "Warning: "), `${warning}. `, by("page")));
    this.say("verdict", `Sane: type ${checked.get("type")}`, "good");
    const rows = [];
    if (policy) {
      rows.push(["Demands", code(withNames(policy, given)), by("core")]);
      rows.push(["Keys that sign at least", found.keys, by("core")]);
    } else rows.push(["Demands", "not told: only the limits of consensus take this condition", by("core")]);
    rows.push(["Type", this.letters(checked.get("type")), by("core")]);
    rows.push(["Without sugar", code(withNames(checked.get("text"), given)), by("core")]);
    if (isReal) {
      rows.push(["Script", code(checked.get("script")), by("core")]);
      rows.push(["Program", code(checked.get("program")), by("core")]);
      const program = bytesOfHex(checked.get("program")).slice(2);
      for (const [name, start] of NETWORKS) rows.push([`Address, ${name} network`, code(address(start, program)), by("page")]);
    }
    const spent = policy ? this.spent(policy, given) : [];
    return [...notes, ...spent, table("what is known of the condition", ["What", "Answer", "By"], rows), this.limits(checked.get("limits"))];
  }

  // Who can spend, and when: the policy as a list.
  spent(policy, given) {
    const item = (part) => {
      if (!part.parts) return [atomSaid(part, given)];
      return [gateSaid(part), element("ul", {}, ...part.parts.map((it) => element("li", {}, ...item(it))))];
    };
    const whole = demandOf(policy);
    const list = element("ul", { class: "demands", id: "demands" }, ...(whole.kind === "any" ? whole.parts : [whole]).map((it) => element("li", {}, ...item(it))));
    const said = whole.kind === "any" ? "Any one of these is enough. " : "This is needed. ";
    return [element("h3", {}, "Who can spend, and when"), element("p", {}, said, element("span", { class: "soft" }, "The policy is the core’s, the words are the page’s. "), by("core"), " ", by("page")), list];
  }

  // The tree of a text that the core can read, and the instructions of the Script of one that is sane. A node that is pressed is lit with what
  // stands below it, in the tree and in the Script.
  nodes(found) {
    if (!found.seen || !found.seen.root) return [];
    const { given, seen, instructions } = found;
    if (seen.nodes.size > MOST_NODES) return [element("p", { class: "soft" }, `Its tree has ${counted(seen.nodes.size)} nodes, and isn’t drawn. `, by("core"))];
    const light = (node) => {
      const own = new Set(Array.from(walk(node), ({ place }) => String(place)));
      for (const it of at("answer").querySelectorAll("[data-place]")) it.classList.toggle("lit", own.has(it.dataset.place));
    };
    const branch = (node) => {
      const label = element("button", { type: "button", class: node.kind === "-" ? "node wrong" : "node", "data-place": node.place, on: ["click", () => light(node)] }, code(labelOf(node, given)));
      const wait = waitOf(node.name, node.arguments[0]);
      const kind = element("span", { class: "soft" }, ` ${node.kind === "-" ? "no type" : node.kind}${wait ? `: ${wait}` : ""}`);
      return element("li", {}, label, kind, ...(node.children.length ? [element("ul", {}, ...node.children.map(branch))] : []));
    };
    const tree = element("details", { open: true, id: "tree" }, element("summary", {}, "The tree, each node with its type ", by("core")), element("ul", { class: "tree" }, branch(seen.root)));
    return instructions ? [tree, this.script(found)] : [tree];
  }

  script({ given, seen, instructions }) {
    const said = ([name, pushed]) => (name === "push" ? `push ${pushed.length >= 40 ? given.nameOf(pushed) : pushed}` : name);
    const rows = instructions.map((it) => [String(it.offset), code(said(it.said)), code(labelOf(seen.nodes.get(it.place), given))]);
    const made = table("each instruction, its byte in the Script, and the node that wrote it", ["Byte", "Instruction", "Node"], rows, []);
    made.querySelectorAll("tbody tr").forEach((row, number) => row.setAttribute("data-place", instructions[number].place));
    return element("details", { id: "script" }, element("summary", {}, "The Script, instruction by instruction ", by("core")), made);
  }

  // What `satisfy` makes of a sane text and of the asset file in its field, and the run of that.
  showHeld(found) {
    const assets = at("assets").value;
    at("held").hidden = !found;
    const answer = at("held-answer");
    answer.replaceChildren();
    at("held-verdict").textContent = "";
    if (!found || !assets.trim()) return;
    const isConsensus = at("consensus").checked;
    const text = found.given.text;
    const { status, report } = this.core.answer("msat", ["satisfy", ...(isConsensus ? ["--consensus"] : []), text], bytesOf(assets));
    const lines = new TextDecoder().decode(report).trimEnd().split("\n");
    this.say("held-verdict", status ? `Not satisfied: ${lines[0] || "memory was wanting"}` : "Satisfied", status ? "bad" : "good");
    if (status) return;
    const named = (line) => code(withNames(line.slice(line.indexOf(" ") + 1), found.given));
    const items = lines.filter((line) => line.startsWith("item "));
    const rows = items.map((line, place) => [`Item ${place}`, named(line), by("core")]);
    rows.push(...lines.filter((line) => /^(witness|replay) /.test(line)).map((line) => [line.startsWith("w") ? "Witness" : "Replay", named(line), by("core")]));
    const { version, sequence, locktime, signatures } = JSON.parse(assets);
    const file = { script: found.checked.get("script"), witness: items.map((line) => line.slice(5).replace("-", "")), version, sequence, locktime, signatures };
    const run = this.core.answer("msat", isConsensus ? ["trace"] : ["trace", text], bytesOf(JSON.stringify(file)));
    const title = element("summary", {}, "The run, step by step ", by("core"));
    answer.replaceChildren(
      table("what satisfy writes, bottom first", ["What", "Answer", "By"], rows),
      element("details", {}, title, ...ran("the run of what satisfy writes", text, file.witness, run)),
    );
  }

  letters(type) {
    const meanings = [...type].map((letter) => element("li", {}, `${letter}: ${WORDS.letters[letter]}`));
    return element("details", {}, element("summary", {}, code(type)), element("ul", {}, ...meanings));
  }

  limits(line) {
    const names = { size: "Script, bytes", ops: "opcodes that count", items: "witness items", weight: "witness weight", height: "stack elements" };
    const rows = limitsOf(line, at("consensus").checked).map(([name, number, allowed]) => [names[name], counted(number), allowed === null ? "" : counted(allowed)]);
    const kind = at("consensus").checked ? "consensus" : "policy";
    return table(`by the limits of ${kind}`, ["Limit", ["Number ", by("core")], ["Allowed ", by("page")]], rows, [null, "n", "n"]);
  }

  dropping() {
    const set = (isOver) => document.body.classList.toggle("dropping", isOver);
    document.addEventListener("dragover", (event) => {
      event.preventDefault();
      set(true);
    });
    document.addEventListener("dragleave", (event) => event.relatedTarget || set(false));
    document.addEventListener("drop", (event) => {
      event.preventDefault();
      set(false);
      this.take([...event.dataTransfer.files]);
    });
  }

  // A PSBT, or several of one transaction.
  async take(files) {
    if (!files.length) return;
    const name = files.length > 1 ? `${files.length} PSBTs` : files[0].name;
    this.worked.stop();
    const turn = ++this.psbts;
    const isLast = () => turn === this.psbts;
    const stop = () => {
      this.psbts++;
      this.worked.stop();
      this.say("psbt-verdict", `${name}: stopped`);
      at("psbt").replaceChildren();
    };
    this.say("psbt-verdict", files.length > 1 ? `${name} are read ..` : `${name} is read ..`);
    at("psbt").replaceChildren(element("button", { type: "button", on: ["click", stop] }, "Stop"));
    try {
      const sources = await Promise.all(files.map(async (file) => new Uint8Array(await file.slice(0, MOST_SOURCE).arrayBuffer())));
      await (files.length > 1 ? this.combine(files, sources, isLast) : this.inspect(name, sources[0], isLast));
    } catch (error) {
      if (isLast()) this.say("psbt-verdict", `${name}: the core has stopped: ${error.message}`, "bad");
    }
  }

  // Puts several together, in their order, and tells what is known of what they hold.
  async combine(files, sources, isLast) {
    const lines = sources.map(psbtLetters);
    const empty = lines.indexOf(""); // It would be passed over as a line.
    if (empty >= 0) return this.inspect(files[empty].name, sources[empty], isLast);
    const { status, report } = await this.psbt("combine", bytesOf(lines.join("\n")).subarray(0, MOST_SOURCE));
    if (!isLast()) return;
    const said = new TextDecoder().decode(report).trimEnd();
    const [, line] = /^refused line (\d+) /.exec(said) || [];
    if (status) return this.refused(line ? files[line - 1].name : "What they hold together", said);
    const combined = psbtBytes(report);
    const to = files[0].name.replace(/(\.psbt)?$/i, ".combined.psbt");
    await this.inspect(`${files.length} PSBTs, combined`, combined, isLast, to);
    if (isLast()) at("psbt").prepend(element("p", {}, this.link("combined", to, combined), " It holds what they hold together. ", by("core")));
  }

  // A PSBT that is refused, and why.
  refused(name, said) {
    const [, kind, reason] = /^refused (psbt|line) (?:\d+ )?(.*)$/.exec(said);
    const [fault] = reason.split(" ");
    const rule = WORDS.faults[`${kind} ${fault}`] || WORDS.faults[fault] || "";
    this.say("psbt-verdict", `${name} is refused: ${reason}`, "bad");
    const why = element("p", {}, rule && `${rule[0].toUpperCase()}${rule.slice(1)}. `, by("page"));
    at("psbt").replaceChildren(why, element("p", { class: "soft" }, code(said), " ", by("core")));
  }

  async psbt(command, source) {
    const { status, report } = await this.worked.answer("msat_psbt", [command], source);
    if (status === NO_MEMORY) throw new Error("memory was wanting");
    return { status, report };
  }

  async inspect(name, source, isLast, file = name) {
    const { status, report } = await this.psbt("inspect", source);
    const text = new TextDecoder().decode(report).trimEnd();
    if (text.startsWith("refused psbt")) return isLast() && this.refused(name, text);
    const { status: left, report: final } = await this.psbt("finalize", source);
    const network = left ? null : new TextDecoder().decode((await this.psbt("extract", final)).report).trimEnd();
    const verified = final.length <= MOST_VERIFIED ? new TextDecoder().decode((await this.psbt("verify", final)).report).trimEnd() : null;
    if (!isLast()) return;
    this.say("psbt-verdict", `${name}: ${status ? "an input is neither Final nor Ready" : "each input is Final or Ready"}`, status ? "bad" : "good");
    const shown = inspected(text, source, final, network, verified, this);
    const more = [this.plain("Hashes that signatures sign", "hashes", source)];
    if (verified === null) more.push(this.plain("Whether its final fields are valid", "verify", final));
    at("psbt").replaceChildren(this.save(file, final, network), ...shown, ...more);
  }

  // A link that saves bytes as a file. What the one before it held is let go.
  link(id, to, bytes) {
    if (this.links.has(id)) URL.revokeObjectURL(this.links.get(id));
    this.links.set(id, URL.createObjectURL(new Blob([bytes], { type: "application/octet-stream" })));
    return element("a", { class: "save", id, href: this.links.get(id), download: to }, `Save ${to}`);
  }

  // The finalized PSBT as a file to save, and its transaction where all inputs are final.
  save(file, final, network) {
    const link = this.link("save", file.replace(/(\.psbt)?$/i, ".final.psbt"), final);
    const said = network === null ? " Not all inputs are final in it. " : " All inputs are final in it. ";
    const title = element("summary", {}, "The network transaction ", by("core"));
    const rest = network === null ? [] : [element("details", {}, title, element("pre", { id: "extract" }, network))];
    return element("div", {}, element("p", {}, link, said, by("core")), ...rest);
  }

  // The run of an input that was made final, when it is opened.
  run(number, input, items) {
    const inner = element("div", { class: "run" });
    const ask = async (event) => {
      if (!event.target.open || inner.firstChild) return;
      const file = runFile(items, input.kind.endsWith("p2wpkh"), input.pairs, input.transaction);
      const told = await this.worked.answer("msat", ["trace", input.text], bytesOf(JSON.stringify(file)));
      const note = element("p", { class: "soft" }, "In it the signatures that stand in the PSBT are good, whether or not they are.");
      inner.replaceChildren(...ran(`the run of input ${number}`, input.text, file.witness, told), note);
    };
    return element("details", { on: ["toggle", ask] }, element("summary", {}, `Its run, step by step `, by("core")), inner);
  }

  // A report that is asked when it is opened.
  plain(title, command, source) {
    const shown = element("pre", { id: command });
    const ask = async (event) => {
      if (!event.target.open || shown.textContent) return;
      shown.textContent = "..";
      try {
        shown.textContent = new TextDecoder().decode((await this.psbt(command, source)).report).trimEnd();
      } catch (error) {
        shown.textContent = error.message;
      }
    };
    return element("details", { on: ["toggle", ask] }, element("summary", {}, `${title} `, by("core")), shown);
  }
}

const shortName = (name) => (name.length <= 24 ? name : name.slice(0, 22) + "..");
const listed = (names) => (names.length === 1 ? names[0] : `${names.slice(0, -1).join(", ")} and ${names[names.length - 1]}`);

// A run as it was traced: what it came to, and a table of its instructions.
function ran(caption, text, witness, { status, report }) {
  const said = new TextDecoder().decode(report).trimEnd();
  const stack = (items) => element("span", {}, ...items.flatMap((item) => [code(shortened(item || "-")), " "]));
  const rows = stepsOf(said, witness).map(({ kind, name, place, main, alt }) => {
    const both = stack(main);
    if (alt.length) both.append(`beside: ${alt.map(shortened).join(" ")}`);
    return [code(`${kind === "step" ? "" : `${kind}: `}${shortened(name)}`), code(nameAt(text, place)), both];
  });
  const heads = [["Instruction ", by("core")], "Node", ["The stack behind it, top last ", by("page")]];
  const made = [element("p", { class: status ? "bad" : "good" }, code(said.slice(said.lastIndexOf("\n") + 1)), " ", by("core"))];
  made.push(table(caption, heads, [["the witness", "", stack(witness)], ...rows.slice(0, MOST_STEPS)], [null, null, null]));
  if (rows.length > MOST_STEPS) made.push(element("p", { class: "soft" }, `${counted(rows.length - MOST_STEPS)} more instructions aren’t shown.`));
  return made;
}

// Digits as a person compares them: their ends.
const shortened = (text) => text.replace(/[0-9a-f]{17,}/g, (digits) => `${digits.slice(0, 8)}..${digits.slice(-8)}`);

// The name or letter of the node at a place of a text.
const nameAt = (text, place) => (place === null ? "" : /^[a-z_0-9]+(?=\()|^[01]|^[a-z]/.exec(text.slice(place))[0]);

// What the lines of `inspect` say of the transaction and of each input, in numbers and words, beside the pairs of its map.
function facts(report, source) {
  const [first, ...lines] = report.split("\n");
  const [, , count, , version, , locktime] = first.split(" ");
  const maps = inputMaps(source, Number(count));
  const inputs = [];
  for (const line of lines) {
    const [word, ...rest] = line.split(" ");
    const last = inputs[inputs.length - 1];
    if (word === "input") inputs.push({ state: rest[1], pairs: maps[inputs.length], transaction: { version: Number(version), locktime: Number(locktime), sequence: null } });
    else if (word === "outpoint") last.transaction.sequence = Number(rest[3]);
    else if (last && ["kind", "text", "policy"].includes(word)) last[word] = rest.join(" ");
  }
  return inputs;
}

// The report of `inspect`: a table of the transaction, and one for each input, with what the page finds besides.
function inspected(report, source, final, network, verified, page) {
  const inputs = facts(report, source);
  const verdicts = (verified || "").split("\n").filter((line) => line.startsWith("input "));
  const parts = [{ title: null, rows: [] }];
  const named = (value) => {
    const found = Array.from(page.digits).find(([, digits]) => digits.toLowerCase() === value);
    return found ? element("span", {}, `${found[0]} `, by("page"), " ", code(value)) : code(value);
  };
  let fee = null;
  for (const line of report.split("\n")) {
    const { parts: said, title } = psbtLine(line, named, page);
    const last = () => parts[parts.length - 1];
    if (title) parts.push({ title, rows: [] });
    else last().rows.push([...said, by("core")]);
    const [word, ...rest] = line.split(" ");
    if (word === "output") for (const row of paid(rest)) last().rows.push(row);
    if (word === "ask" || word === "signature") last().rows.push(...signer(rest[0], inputs[parts.length - 2].pairs));
    if (word === "fee") fee = rest[0];
  }
  if (network !== null) parts[0].rows.push(...size(network, fee));
  const finals = inputMaps(final, inputs.length);
  return parts.flatMap(({ title, rows }) => {
    if (!title) return [table("the transaction", ["What", "Answer", "By"], rows)];
    const [number, state] = title;
    const input = inputs[number];
    const meaning = WORDS.states[state.split(" ")[0]];
    const heads = [element("h3", {}, `Input ${number}: ${state} `, by("core")), element("p", { class: "soft" }, meaning ? `${state.split(" ")[0]}: ${meaning}. ` : "", by("page"))];
    rows.push(...verdict(verdicts[number]));
    rows.push(...lacks(state, input, rows.some(([what]) => what === "No plan")));
    const witness = state === "Ready" ? valueOf(finals[number], KEY_TYPES.witness) : null;
    const run = witness ? [page.run(number, input, new Reader(witness).items())] : [];
    return rows.length ? [...heads, table(`input ${number}`, ["What", "Answer", "By"], rows), ...run] : heads;
  });
}

// Where an output pays to.
function paid([number, , script]) {
  const [main, test] = addressesOf(script);
  return main ? [[`Output ${number} pays to`, element("span", {}, code(main), " (main network), ", code(test), " (test)"), by("page")]] : [];
}

// Whom a key is of: the fingerprint of a master key, and the path from it.
function signer(key, pairs) {
  const origin = originOf(pairs, key);
  return origin ? [["Its origin", code(origin), by("page")]] : [];
}

// How large the transaction is, and what it pays for that.
function size(network, fee) {
  const bytes = virtualSize(network);
  const rate = /^\d+$/.test(fee || "") ? [["Fee rate", `${(Number(fee) / bytes).toFixed(2)} satoshis a virtual byte`, by("page")]] : [];
  return [["Virtual bytes", counted(bytes), by("page")], ...rate];
}

// What `verify` says of an input's final fields, as they came or as `finalize` writes them.
function verdict(line) {
  const said = line ? line.split(" ").slice(2).join(" ") : "open";
  if (said.startsWith("open")) return [];
  const isValid = said === "valid";
  const kind = isValid ? "good" : said.startsWith("unknown") ? "soft" : "bad";
  const shown = element("span", { class: kind }, isValid ? "valid: each signature that its run asks about was looked at" : said);
  return [["Its final fields", shown, by("core")]];
}

// The first causes of a state: a key that nobody tells, a preimage, a lock.
function lacks(state, input, hasNoPlan) {
  const row = (said, why) => ["Lacks", element("span", {}, code(said), `: ${why}`), by("page")];
  const script = valueOf(input.pairs, KEY_TYPES.script);
  if (state === "NoReading" && script) return unknownKeys(script, input.pairs).map((hash) => row(hash, "the key with this HASH160 stands in no signature and no derivation here"));
  if (!hasNoPlan || !input.policy) return [];
  return missingOf(input.policy, input.pairs, input.transaction).map(({ said, why }) => row(said, why));
}

// How a signature is judged, where that is told.
const judged = (word) => (word ? [": ", element("span", { class: word === "good" ? "good" : "bad" }, word)] : []);

// A line of the report: its name and its answer, or the number and the state of an input that begins with it.
function psbtLine(line, named, page) {
  const [word, ...rest] = line.split(" ");
  const all = rest.join(" ");
  const money = (amount) => (/^\d+/.test(amount) ? amount.replace(/^\d+/, (digits) => `${counted(digits)} satoshis,`) : amount);
  switch (word) {
    case "psbt": return { parts: ["Transaction", element("span", {}, `inputs ${rest[1]}, outputs ${rest[3]}, version ${rest[5]}, lock time ${rest[7]}, id `, code(rest[9]))] };
    case "final": return { parts: ["Final id", code(rest[1])] };
    case "output": return { parts: [`Output ${rest[0]}`, element("span", {}, `${counted(rest[1])} satoshis to `, code(rest[2]))] };
    case "fee": return { parts: ["Fee", money(all)] };
    case "input": return { title: [rest[0], rest.slice(1).join(" ")] };
    case "outpoint": return { parts: ["Spends", element("span", {}, `output ${rest[1]} of `, code(rest[0]), `, sequence ${rest[3]}`)] };
    case "amount": return { parts: ["Amount", money(all)] };
    case "unchecked": return { parts: ["Unchecked", "its final fields came from outside, and nothing says that they are valid"] };
    case "kind": return { parts: ["Kind of output", all] };
    case "signature": return { parts: ["Signature of", element("span", {}, named(rest[0]), `, type ${rest[1]}`, ...judged(rest[2]))] };
    case "ask": return { parts: ["Ask for a signature", named(rest[0])] };
    case "weight": return { parts: rest[0] === "at" ? ["Weight at most", rest[2]] : ["Weight", all] };
    case "no": return { parts: ["No plan", "no signatures would be enough"] };
    case "policy": return { parts: ["Demands", code(all)] };
    case "text": {
      const look = () => page.put(all);
      return { parts: ["Condition", element("span", {}, code(all), " ", element("button", { type: "button", on: ["click", look] }, "Look at it above"))] };
    }
    default: return { parts: [word, all] };
  }
}

async function open() {
  const bytes = Uint8Array.from(atob(at("module").textContent.trim()), (letter) => letter.charCodeAt(0));
  const page = new Page(await Core.of(bytes), new Worked(bytes));
  page.start();
  // For the console, and for tests: what the core answers to the words of a program.
  window.msat = (program, words, source) => page.core.answer(program, words, source);
  document.documentElement.dataset.ready = "yes";
  return page;
}
