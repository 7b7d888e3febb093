# SPDX-License-Identifier: MIT
"""An explanation or a refusal as text for a terminal."""

import unicodedata
from typing import Iterable, Sequence

from . import words
from .explanation import Explanation, Held, Opening, Spending
from .held import ACCEPTED, Run
from .locks import Locks, said, said_fields
from .refusals import Refusal
from .steps import Step
from .tree import Node
from .wallets import Wallet

_STYLES = {"title": "1", "name": "36", "dim": "2", "good": "32", "bad": "31", "note": "33"}
WIDTH = 100


class Paper:
    """Lines of text, in colours where they are wanted."""

    def __init__(self, color: bool):
        self.color = color
        self.lines: list[str] = []

    def styled(self, text: str, style: str) -> str:
        return f"\x1b[{_STYLES[style]}m{text}\x1b[0m" if self.color and text else text

    def add(self, line: str = "") -> None:
        self.lines.append(line.rstrip())

    def title(self, text: str, rest: str = "") -> None:
        self.add()
        self.add(self.styled(text, "title") + (f"  {rest}" if rest else ""))

    def table(self, rows: Iterable[Sequence[str]], styles: Sequence[str] = (), right: Sequence[int] = (), bands: Sequence[str] = ()) -> None:
        """Rows in columns, each as wide as its widest cell, without those that are empty; cells of `right` end at one place. Above a
        row stands its band, where it is another than that of the row before."""
        cells = [[printable(cell) for cell in row] for row in rows]
        widths = [max(map(len, column)) for column in zip(*cells)]
        for number, row in enumerate(cells):
            if bands and bands[number] not in bands[max(0, number - 1) : number]:
                self.add("  " + bands[number])
            parts = []
            for at, (cell, width) in enumerate(zip(row, widths)):
                if width == 0:
                    continue
                filled = cell.rjust(width) if at in right else cell.ljust(width)
                style = styles[at] if at < len(styles) else ""
                parts.append(self.styled(filled, style) if style else filled)
            self.add("  " + "  " * bool(bands) + "  ".join(parts))

    def text(self) -> str:
        return "\n".join(self.lines).strip("\n") + "\n"


def printable(text: str) -> str:
    """The text without what would move a terminal's cursor or turn the direction of writing."""
    return "".join(it if unicodedata.category(it)[0] != "C" else "\ufffd" for it in text)


def bar(number: int, allowed: int, length: int = 30) -> str:
    """A bar of how much of what is allowed is taken.

    >>> bar(1, 2, 4), bar(1, 1000, 4), bar(0, 5, 4)
    ('[##..]', '[#...]', '[....]')
    """
    filled = min(length, -(-number * length // allowed))
    return "[" + "#" * filled + "." * (length - filled) + "]"


def refused(refusal: Refusal, color: bool) -> str:
    """A refusal: the report, the text with a mark below its wrong place, the rule, and what to do.

    >>> print(refused(Refusal("refused text Syntax at 3", 2, "pk(1)", 3, "So.", "look there"), False), end="")
    refused text Syntax at 3
    <BLANKLINE>
      pk(1)
         ^
      So.
      What to do: look there.
    """
    paper = Paper(color)
    paper.add(paper.styled(refusal.report, "bad"))
    paper.add()
    if refusal.place is not None:
        line, column = marked(refusal.shown, refusal.place)
        paper.add("  " + line)
        paper.add("  " + " " * column + paper.styled("^", "bad"))
    elif refusal.shown and len(refusal.shown) <= 4 * WIDTH:
        for line in refusal.shown.splitlines():
            paper.add("  " + printable(line))
    paper.add("  " + printable(refusal.sentence))
    if refusal.advice:
        paper.add(f"  {paper.styled('What to do:', 'title')} {printable(refusal.advice).rstrip('.')}.")
    return paper.text()


def marked(shown: str, place: int) -> tuple[str, int]:
    """The line that a place is in, cut to what is near it, and the column of the place in it.

    >>> marked("or_d(\\n  pk(1)", 11)
    ('  pk(1)', 5)
    """
    start = shown.rfind("\n", 0, place) + 1
    end = shown.find("\n", place)
    line = printable(shown[start : end if end >= 0 else len(shown)])
    column = min(place - start, len(line))
    first = max(0, column - WIDTH // 2) if len(line) > WIDTH else 0
    cut = line[first : first + WIDTH]
    before, after = ("..", ".." if first + WIDTH < len(line) else "") if first else ("", ".." if len(line) > WIDTH else "")
    return before + cut + after, len(before) + column - first


def tree_rows(node: Node, shown: Explanation, stem: str = "", below: str = "") -> list[tuple[str, str, str]]:
    """The lines of a tree: the node behind its branches, its type, and what a timelock waits for. Letters stand on one line with
    what they wrap."""
    chain = node.chain()
    last = chain[-1]
    rows = [(stem + words.word_of(chain, shown), words.kinds_of(chain), words.note_of(last))]
    for at, child in enumerate(last.children):
        is_last = at == len(last.children) - 1
        rows += tree_rows(child, shown, below + ("└ " if is_last else "├ "), below + ("  " if is_last else "│ "))
    return rows


def explained(shown: Explanation, color: bool) -> str:
    """The whole explanation."""
    paper = Paper(color)
    _head(paper, shown)
    if shown.wallet:
        _addresses(paper, shown.wallet)
    paper.title("Tree", paper.styled("each node with its type; a wrapper's stands before that of what it wraps", "dim"))
    paper.table(tree_rows(shown.root, shown), ("name", "", "dim"))
    _script(paper, shown)
    _limits(paper, shown)
    if shown.spending:
        _spending(paper, shown)
    else:
        paper.title("Ways to spend")
        paper.add("  Not told: only the limits of consensus take this condition, and `policy` goes by those of policy.")
    if shown.held:
        _held(paper, shown, shown.held)
    return paper.text()


def _head(paper: Paper, shown: Explanation) -> None:
    paper.add(paper.styled("Sane", "good") + f": type {shown.checked.type}, {words.allowed_of(shown.limits[0])} bytes of Script")
    for note in words.notes(shown):
        paper.add(paper.styled("Note", "note") + f": {printable(note)}")
    for warning in words.warnings(shown):
        paper.add(paper.styled("Warning", "bad") + f": {warning}")
    for title, values in (("Keys", [("", it) for it in shown.keys]), ("Hashes", shown.hashes)):
        if values:
            paper.title(title)
            paper.table([(shown.given.name_of(it), function, words.digits_of(it, shown)) for function, it in values], ("name",))


def _addresses(paper: Paper, wallet: Wallet) -> None:
    paper.title("Addresses", f"the first of each branch, of the {wallet.network} network: compare them with your wallet's")
    rows = [(str(spot.index), spot.address or spot.refusal or "") for branch in wallet.branches for spot in branch.spots]
    bands = [f"branch {branch.number}" for branch in wallet.branches for _ in branch.spots]
    paper.table(rows, ("dim",), (0,), bands=bands)


def _script(paper: Paper, shown: Explanation) -> None:
    paper.title("Script", paper.styled("the byte, the opcode, and the node that wrote it", "dim"))
    paper.table([(str(it.at), words.line_of(it, shown), words.writer_of(it, shown)) for it in shown.lines], ("dim", "", "name"), (0,))
    paper.add()
    if shown.addresses:
        paper.table([("script", shown.checked.script.hex()), ("program", shown.checked.program.hex()), *words.output_of(shown), *shown.addresses.items()], ("dim",))
    else:
        paper.add("  " + paper.styled("no script, program and address, since a key or a hash value is a stand-in", "note"))


def _limits(paper: Paper, shown: Explanation) -> None:
    paper.title("Limits", "of consensus" if shown.consensus else "of policy")
    rows = [(it.name, words.allowed_of(it), bar(it.number, it.allowed) if it.allowed else "", it.unit) for it in shown.limits]
    paper.table(rows, ("", "", "good", "dim"), (1,))


def _spending(paper: Paper, shown: Explanation) -> None:
    spending = shown.spent
    paper.title("Policy")
    paper.add("  " + printable(shown.said_policy()))
    paper.add(f"  {words.keys_of(spending.keys)}".rstrip() + ", with every preimage and when all locks hold")
    least = "" if spending.is_all else "at least "
    paper.title("Ways to spend", f"{least}{spending.count:,}" + (f", of which {len(spending.shown)} are shown" if words.more_of(shown) else ""))
    paper.table(
        [(str(at), words.way_of(it.way, shown, with_locks=False), f"weight {it.weight}", f"witness {it.witness} bytes")
         for at, it in enumerate(spending.shown, 1)],
        ("dim", "name"), (0,), bands=[_band(it.way.locks) for it in spending.shown],
    )  # fmt: skip
    if words.more_of(shown):
        paper.add("  " + words.more_of(shown))
    paper.title("As time passes")
    paper.table([_opening_row(it, spending) for it in spending.openings], ("name",))
    paper.title("Each key alone")
    paper.table(words.alone_rows(shown), ("name",))
    _together(paper, shown)


def _band(locks: Locks) -> str:
    return said(locks) + ("" if locks.is_none() else f": set {said_fields(locks)}")


def _opening_row(opening: Opening, spending: Spending) -> tuple[str, str, str]:
    numbers = [str(at + 1) for at in opening.shown]
    named = f": {', '.join(numbers)}" if len(numbers) == opening.count and len(numbers) <= 16 else ""
    fewest = "" if opening.keys is None else f"{words.count(opening.keys, 'key is', 'keys are')} enough"
    return said(opening.locks), words.opening_of(opening, spending) + named, fewest


def _together(paper: Paper, shown: Explanation) -> None:
    spending = shown.spent
    if not spending.pairs:
        return
    paper.title("Each two keys", f"what they can do beyond each of them alone, of {words.count(spending.pairs, 'pair')}")
    paper.table(words.together_rows(shown), ("name",))
    for other in words.other_pairs(spending):
        paper.add("  " + other)


def _held(paper: Paper, shown: Explanation, held: Held) -> None:
    paper.title("With the asset file", "" if held.spend else paper.styled("no satisfaction", "bad"))
    paper.table(
        [(str(at), words.way_of(it.way, shown), "lacks " + words.missing_of(lack, shown) if not lack.is_nothing() else "open now")
         for at, (it, lack) in enumerate(zip(shown.spending.shown if shown.spending else (), held.missing), 1)],
        ("dim", "name"), (0,),
    )  # fmt: skip
    if held.run:
        _own_run(paper, shown, held.run)
    if not held.spend:
        return
    spend = held.spend
    paper.title("Witness", f"the items that `satisfy` writes, bottom first: weight {spend.replay.weight}, {len(spend.witness)} bytes with the Script")
    paper.table([(str(at), it.name, it.data.hex() or "-") for at, it in enumerate(spend.items)], ("dim", "name"), (0,))
    paper.title("Run", f"accepted: opcodes {spend.replay.ops}, stack {spend.replay.peak} elements at most")
    for at, key in enumerate(spend.checks, 1):
        paper.add(f"  check {at}: the signature of {shown.given.name_of(key)} is good")
    if spend.parts:
        rows = [(words.node_of(it.node, shown), "satisfied" if it.satisfied else "dissatisfied") for it in spend.parts]
        paper.table(rows, ("name",))


def _own_run(paper: Paper, shown: Explanation, run: Run) -> None:
    """The run of the witness that a run file has, step by step: the one that fails first."""
    style = "good" if run.status == ACCEPTED else "bad"
    paper.title("Run of the file's witness", paper.styled(words.came_to(run), style))
    paper.table([(str(at), it.name, it.data.hex() or "-") for at, it in enumerate(run.items)], ("dim", "name"), (0,))
    if not run.steps:
        return
    named, nodes = words.items_of(shown, run.items), words.nodes_of(shown)
    rows = [_step_row(at, it, named, nodes, shown) for at, it in enumerate(run.steps)]
    if run.status != ACCEPTED:
        paper.title("Where it fails", "the step, its instruction, the node that wrote it, and the stack behind it, bottom first")
        paper.table([rows[run.first]], ("bad", "", "", "name"), (0,))
    paper.title("Step by step", "each with the stack behind it, bottom first")
    paper.table(rows, ("dim", "", "", "name"), (0,))


def _step_row(at: int, step: Step, named: dict[str, str], nodes: dict[int, str], shown: Explanation) -> Sequence[str]:
    def element(digits: str) -> str:
        short = digits if len(digits) <= 20 else shown.given.name_of(digits)
        return named.get(digits) or ("empty" if digits == "-" else short)

    kind = {"step": "", "skip": "passed over", "stop": "fails"}[step.kind]
    push, _, digits = step.name.partition(" ")
    name = f"{push} {element(digits)}" if digits else push
    alt = f"; alt: {', '.join(map(element, step.alt))}" if step.alt else ""
    node = "" if step.place is None else nodes.get(step.place, "")
    return str(at + 1), kind, name, node, (", ".join(map(element, step.main)) or "nothing") + alt
