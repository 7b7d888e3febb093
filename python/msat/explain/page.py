# SPDX-License-Identifier: MIT
"""An explanation or a refusal as one page of HTML, without a script and without any outside resource."""

import re
from html import escape
from typing import Iterable, Sequence, Union

from . import drawing, words
from .explanation import Explanation, Held
from .held import ACCEPTED, Run, Spend
from .locks import said, said_fields
from .refusals import Refusal
from .report import marked, printable
from .style import STYLE
from .tree import Node
from .wallets import Wallet

_POLICY = "default-src 'none'; style-src 'unsafe-inline'; base-uri 'none'; form-action 'none'"


def safe(text: str) -> str:
    """The text as HTML has it, without letters that turn the direction of writing."""
    return escape(printable(text))


def cell(text: str) -> str:
    """The same for a cell of a table: a long word may go on in the next line at some places.

    >>> cell("alice <" + 30 * "x")
    'alice &lt;xxxxxxxxx<wbr>xxxxxxxxxx<wbr>xxxxxxxxxx<wbr>x'
    """
    parts = [[word] if len(word) <= 20 else re.findall(".{1,10}", word) for word in printable(text).split(" ")]
    return " ".join("<wbr>".join(map(escape, part)) for part in parts)


def given_text(text: str) -> str:
    """What was given as HTML has it, in its lines."""
    return "\n".join(map(safe, text.strip().splitlines()))


def page(found: Union[Explanation, Refusal]) -> str:
    """The page."""
    title, body = _refusal(found) if isinstance(found, Refusal) else _explanation(found)
    style = STYLE if isinstance(found, Refusal) else STYLE + _lit(found)
    return (
        '<!doctype html>\n<html lang="en">\n<head>\n<meta charset="utf-8">\n'
        '<meta name="viewport" content="width=device-width, initial-scale=1">\n'
        f'<meta http-equiv="Content-Security-Policy" content="{escape(_POLICY)}">\n'
        f"<title>{safe(title)}</title>\n<style>{style}</style>\n</head>\n<body>\n{body}\n</body>\n</html>\n"
    )


def _refusal(found: Refusal) -> tuple[str, str]:
    shown = ""
    if found.place is not None:
        line, column = marked(found.shown, found.place)
        # A long line is not broken, so that the mark stays below its place.
        marked_text = f'<pre class="marked">{safe(line)}\n{" " * column}<b class="bad">^</b></pre>'
        shown = region("the condition, with a mark below the wrong place", marked_text)
    elif found.shown:
        shown = f"<pre>{given_text(found.shown)}</pre>"
    advice = f"<p><strong>What to do:</strong> {safe(found.advice.rstrip('.'))}.</p>" if found.advice else ""
    return "Refused: a Miniscript condition", (
        f'<main><h1>A Miniscript condition, <span class="bad">refused</span></h1>{shown}'
        f"<p>{safe(found.sentence)}</p>{advice}<p class=\"soft code\">{safe(found.report)}</p></main>"
    )


def region(label: str, inner: str) -> str:
    """What may be wider than a phone: it is moved to and fro in a frame of its own, by the keyboard too."""
    return f'<div class="wide" tabindex="0" role="region" aria-label="{escape(label)}">{inner}</div>'


def table(caption: str, heads: Sequence[str], rows: Iterable[Sequence[str]], numbers: Sequence[int] = ()) -> str:
    """A table: its cells are HTML, the first of each row names it."""

    def cells(row: Sequence[str], head: bool) -> str:
        parts = []
        for at, inner in enumerate(row):
            kind = ' class="n"' if at in numbers else ""
            scope = "col" if head else "row"
            parts.append(f'<th scope="{scope}"{kind}>{inner}</th>' if head or at == 0 else f"<td{kind}>{inner}</td>")
        return "<tr>" + "".join(parts) + "</tr>"

    body = "".join(cells(row, False) for row in rows)
    return region(caption, f"<table><caption>{caption}</caption><thead>{cells(heads, True)}</thead><tbody>{body}</tbody></table>")


def _code(text: str) -> str:
    return f"<code>{safe(text)}</code>"


def _explanation(found: Explanation) -> tuple[str, str]:
    sections = [(name, title, body) for name, title, body in _sections(found) if body]
    links = "".join(f'<li><a href="#{name}">{title}</a></li>' for name, title, _ in sections)
    notes = "".join(f'<p class="note">{safe(note)}</p>' for note in words.notes(found))
    notes += "".join(f'<p class="note"><strong class="bad">Warning:</strong> {safe(warning)}.</p>' for warning in words.warnings(found))
    bodies = "".join(
        f'<section id="{name}" aria-labelledby="{name}-title"><h2 id="{name}-title">{title}</h2>{body}</section>'
        for name, title, body in sections
    )
    return "A Miniscript condition", (
        f'<header><h1>A Miniscript condition</h1><p><span class="good">Sane</span>: type {safe(found.checked.type)}, '
        f"a Script of {words.count(found.limits[0].number, 'byte')}.</p><pre>{given_text(found.given.shown)}</pre>{notes}"
        f'<nav aria-label="Parts"><ul>{links}</ul></nav></header><main>{bodies}</main>'
        '<footer><p class="soft">Written by msat-explain. Tree, types, Script, limits, policy and weights come of calls of msat’s proved library; that '
        "ways, names, mark and pictures are right is tested. Nothing here was loaded from elsewhere.</p></footer>"
    )


def _sections(found: Explanation) -> Iterable[tuple[str, str, str]]:
    spending = found.spending
    yield "keys", "Keys and hashes", _keys(found)
    yield "wallet", "Addresses", _wallet(found.wallet) if found.wallet else ""
    yield "ways", "Ways to spend", _ways(found) if spending else "<p>Not told: only the limits of consensus take this condition.</p>"
    yield "held", "With the asset file", _held(found, found.held) if found.held else ""
    yield "time", "As time passes", _time(found) if spending else ""
    yield "able", "What one key and two keys can do", _able(found) if spending else ""
    yield "tree", "Tree", _tree(found)
    yield "script", "Script", _script(found)
    yield "limits", "Limits", _limits(found)
    yield "address", f"Address of branch {found.wallet.branch}, index {found.wallet.index}" if found.wallet else "Address", _address(found)


def _keys(found: Explanation) -> str:
    rows = [("key", it) for it in found.keys] + list(found.hashes)
    if not rows:
        return ""
    cells = [(cell(found.given.name_of(value)), cell(kind), _code(words.digits_of(value, found))) for kind, value in rows]
    return table("what is called by a name here", ("Name", "What", "Digits"), cells)


def _wallet(wallet: Wallet) -> str:
    rows = [(f"branch {it.number}, index {spot.index}", _code(spot.address or spot.refusal or "")) for it in wallet.branches for spot in it.spots]
    caption = f"the first of each branch, of the {wallet.network} network: compare them with the ones that your wallet shows"
    return table(caption, ("Place", "Address"), rows) + f"<details><summary>The descriptor with its checksum</summary><pre>{safe(wallet.text)}</pre></details>"


def _ways(found: Explanation) -> str:
    spending = found.spent
    rows = []
    for at, it in enumerate(spending.shown, 1):
        names = words.way_of(it.way, found, with_locks=False)
        when = cell(said(it.way.locks)) + ("" if it.way.locks.is_none() else f'<br><span class="soft">set {cell(said_fields(it.way.locks))}</span>')
        rows.append((str(at), cell(names), when, str(it.weight), str(it.witness)))
    more = words.more_of(found)
    least = "" if spending.is_all else "at least "
    return (
        f"<p>{least.capitalize()}{words.count(spending.count, 'way')}: each a least set of keys, preimages and locks, "
        "of which nothing can be left out.</p>"
        f'<p><strong>Policy:</strong> {_code(found.said_policy())}; {words.keys_of(spending.keys)}, with every preimage and when all locks hold.</p>'
        + region("picture of the ways", drawing.ways(found))
        + table("weights in bytes of the witness, with signatures of 72 bytes; the whole witness has the Script too",
                ("Way", "Takes", "When", "Weight", "Witness"), rows, (0, 3, 4))
        + (f"<p>{more}</p>" if more else "")
    )  # fmt: skip


def _time(found: Explanation) -> str:
    rows = []
    for it in found.spent.openings:
        fewest = "" if it.keys is None else words.count(it.keys, "key is", "keys are") + " enough"
        least = "" if found.spent.is_all else "at least "
        rows.append((cell(said(it.locks)), least + words.count(it.count, "way"), fewest))
    return table("what opens when, and the least number of keys that are enough by then, with every preimage", ("When", "Opens", "Keys"), rows)


def _able(found: Explanation) -> str:
    spending = found.spent

    def rows(pairs: list[tuple[str, str]]) -> list[tuple[str, str]]:
        return [(cell(names), cell(times)) for names, times in pairs]

    parts = [table("what each key can do alone", ("Key", "Enough"), rows(words.alone_rows(found)))]
    if spending.together:
        parts.append(table("what two keys can do beyond each of them alone", ("Keys", "Enough"), rows(words.together_rows(found))))
    if spending.pairs:
        parts += [f"<p>{other[0].upper()}{other[1:]}.</p>" for other in words.other_pairs(spending)]
    return "".join(parts)


def _tree(found: Explanation) -> str:
    return (
        '<p class="soft">Each node with its type; that of a wrapper stands before that of what it wraps. '
        'Dots: <span class="is-key">keys</span>, <span class="is-lock">timelocks</span>, <span class="is-hash">hashes</span>.</p>'
        + region("picture of the tree", drawing.tree(found))
        + f"<details><summary>The tree as a list</summary>{region('the tree as a list', _list(found))}</details>"
        f"<details><summary>What the letters mean</summary>{_letters()}</details>"
    )


def _list(found: Explanation) -> str:
    return f'<ul class="tree">{_branch(found.root, found)}</ul>'


def _branch(node: Node, found: Explanation) -> str:
    note = words.note_of(node)
    inner = "".join(_branch(it, found) for it in node.children)
    below = f'<ul>{inner}</ul>' if inner else ""
    name = f'<span class="node-{node.place}">{_code(words.node_of(node, found))}</span>'
    return f"<li>{name} <span class=\"soft\">{cell(node.kind)}{': ' if note else ''}{cell(note)}</span>{below}</li>"


def _letters() -> str:
    from .refusals import LETTERS

    return table("the letters of types (BIP 379)", ("Letter", "Meaning"), [(letter, escape(said_)) for letter, said_ in LETTERS.items()])


def _script(found: Explanation) -> str:
    rows = [(str(it.at), _code(words.line_of(it, found)), _code(words.writer_of(it, found))) for it in found.lines]
    whole = "" if found.given.standins else f"<details><summary>The Script in digits</summary><pre>{found.checked.script.hex()}</pre></details>"
    return table("each instruction, its byte in the Script, and the node that wrote it", ("Byte", "Instruction", "Node"), rows, (0,)) + whole


def _limits(found: Explanation) -> str:
    rows = []
    for it in found.limits:
        part = 100 * it.number / it.allowed if it.allowed else 0
        bar = f'<div class="bar" aria-hidden="true"><span style="width:{min(part, 100):.1f}%"></span></div>' if it.allowed else ""
        rows.append((f"{it.name} <span class=\"soft\">{it.unit}</span>", words.allowed_of(it), bar))
    return table(f"by the limits of {'consensus' if found.consensus else 'policy'}", ("Limit", "Number", "Part"), rows, (1,))


def _address(found: Explanation) -> str:
    if not found.addresses:
        return "<p>There is none, since a key or a hash value is a stand-in: nobody could spend what is paid to it.</p>"
    rows = [(f"{name} network", _code(it)) for name, it in found.addresses.items()]
    return table("compare it with the one that your wallet shows", ("Where", "Address"), [*rows, ("program", _code(found.checked.program.hex())), *((name, _code(it)) for name, it in words.output_of(found))])


def _held(found: Explanation, held: Held) -> str:
    spend = held.spend
    shown = found.spending.shown if found.spending else ()
    pairs = enumerate(zip(shown, held.missing), 1)
    rows = [(str(at), cell(words.way_of(it.way, found)), cell(words.missing_of(lack, found))) for at, (it, lack) in pairs]
    lacks = table("what is missing on each way", ("Way", "Takes", "Missing"), rows, (0,)) if rows else ""
    own = _own_run(found, held.run) if held.run else ""
    if not spend:
        return own + f'<p class="bad">The file makes no satisfaction.</p>{lacks}'
    items = [(str(at), cell(it.name), _code(it.data.hex() or "-")) for at, it in enumerate(spend.items)]
    run = [(_code(words.node_of(it.node, found)), "satisfied" if it.satisfied else "dissatisfied") for it in spend.parts]
    checks = "".join(f"<li>the signature of {cell(found.given.name_of(key))} is good</li>" for key in spend.checks)
    counted = (
        f"Accepted, with {words.count(spend.replay.ops, 'opcode')} that count "
        f"and at most {words.count(spend.replay.peak, 'element')} on the stacks."
    )
    return own + (
        f'<p class="good">The file makes a satisfaction: weight {spend.replay.weight}, '
        f"{len(spend.witness)} bytes of witness with the Script.</p>{lacks}"
        + table("the items of the witness, bottom first", ("Item", "What it is", "Bytes"), items, (0,))
        + f"<h3>The run</h3><p>{counted}</p>"
        + (f"<ol>{checks}</ol>" if checks else "")
        + (table("the nodes that take part, children first", ("Node", "In this run"), run) if run else "")
        + (_run(found, spend) if not held.run else "")
    )


def _own_run(found: Explanation, run: Run) -> str:
    """The run of the witness that a run file has."""
    items = [(str(at), cell(it.name), _code(it.data.hex() or "-")) for at, it in enumerate(run.items)]
    kind = "good" if run.status == ACCEPTED else "bad"
    return (
        f'<p>The run of the file’s witness is <strong class="{kind}">{escape(words.came_to(run))}</strong>.</p>'
        + (table("the items of the file’s witness, bottom first", ("Item", "What it is", "Bytes"), items, (0,)) if items else "")
        + _run(found, run)
    )


# A longer run isn't shown step by step.
_MOST_STEPS = 400


def _run(found: Explanation, spend: Union[Spend, Run]) -> str:
    """The run, a step at a time: links go forward and back, and the node that wrote the step's instruction is lit in the tree."""
    if not 0 < len(spend.steps) <= _MOST_STEPS:
        return ""
    named = words.items_of(found, spend.items)
    panels = "".join(_step(at, spend, named) for at in range(len(spend.steps)))
    return f'<h3>Step by step</h3><div class="run"><div class="steps">{panels}</div>{region("the tree, with the node of the step", _list(found))}</div>'


def _step(at: int, spend: Union[Spend, Run], named: dict[str, str]) -> str:
    steps, it = spend.steps, spend.steps[at]
    rows = [(str(place), _code(item), cell(named.get(item, ""))) for place, item in enumerate(it.main)]
    rows += [(f"alt {place}", _code(item), cell(named.get(item, ""))) for place, item in enumerate(it.alt)]
    stacks = table("the stack behind it, bottom first", ("Place", "Element", "What it is"), rows, (0,)) if rows else "<p>The stack is empty.</p>"
    links = [(at - 1, "Back"), (at + 1, "Forward")]
    walk = " ".join(f'<a href="#step-{to}">{name}</a>' for to, name in links if 0 <= to < len(steps))
    first = " first" * (at == spend.first)
    return (
        f'<div id="step-{at}" class="step{first}"><p><strong>Step {at + 1} of {len(steps)}</strong>, at byte {it.offset}: '
        f"{_code(it.name)}, {escape(words.done_of(it))}.</p><p>{walk}</p>{stacks}</div>"
    )


def _lit(found: Explanation) -> str:
    """How the node of a step is lit while the step is shown."""
    spend = found.held.shown if found.held else None
    if not spend or not 0 < len(spend.steps) <= _MOST_STEPS:
        return ""
    rules = [f".run:has(#step-{at}:target) .node-{it.place}" for at, it in enumerate(spend.steps) if it.place is not None]
    first = spend.steps[spend.first].place
    rules += [f".run:not(:has(.step:target)) .node-{first}"] * (first is not None)
    return "".join(f"{rule} {{ background: var(--key); color: var(--paper); }}\n" for rule in rules)
