# SPDX-License-Identifier: MIT
"""What an asset file makes possible: the witness that `satisfy` writes with each item named, how its run goes, and what is missing
on each way."""

import json
from dataclasses import dataclass
from typing import Any, Callable, Iterator, Optional

import msat

from . import hashes
from .demand import Atom
from .locks import COUNT, NO_SEQUENCE, SECONDS, TIMES, Locks, older_bits
from .steps import Step, steps
from .tree import Node
from .ways import Way

Naming = Callable[[str], str]
# The statuses of a trace: the run is accepted or refused, or the file has another script.
ACCEPTED, REFUSED, OTHER_SCRIPT = 0, 8, 9


@dataclass(frozen=True)
class Holding:
    """What a file holds: the keys with a signature, the preimages, and the transaction's three numbers."""

    keys: frozenset[str]
    preimages: tuple[bytes, ...]
    version: int
    sequence: int
    locktime: int

    def has(self, atom: Atom) -> bool:
        """Whether there is a signature of a key, or the preimage of a hash value."""
        if atom.kind == "key":
            return atom.value in self.keys
        return any(hashes.FUNCTIONS[atom.kind](it).hex() == atom.value for it in self.preimages)

    def meets(self, locks: Locks) -> tuple[bool, bool]:
        """Whether the transaction waits for both locks of a way."""
        older = locks.older is None or (
            self.version >= 2
            and self.sequence < 1 << 31
            and self.sequence & SECONDS == locks.older & SECONDS
            and self.sequence & COUNT >= older_bits(locks.older) & COUNT
        )
        after = locks.after is None or (
            self.sequence != 0xFFFFFFFF
            and (self.locktime < TIMES) == (locks.after < TIMES)
            and self.locktime >= locks.after
        )
        return older, after


def holding(file: bytes) -> Holding:
    """What a file holds that the library has read."""
    said = json.loads(file)
    return Holding(
        frozenset(it["key"].lower() for it in said.get("signatures", [])),
        tuple(bytes.fromhex(it) for it in said.get("preimages", [])),
        said.get("version", 2),
        said.get("sequence", NO_SEQUENCE),
        said.get("locktime", 0),
    )


@dataclass(frozen=True)
class Missing:
    """What a way lacks: keys, hash values, and locks that the transaction doesn't wait for."""

    keys: tuple[str, ...]
    hashes: tuple[Atom, ...]
    locks: Locks

    def is_nothing(self) -> bool:
        return not self.keys and not self.hashes and self.locks.is_none()


def missing(way: Way, held: Holding) -> Missing:
    older, after = held.meets(way.locks)
    return Missing(
        tuple(it for it in way.keys if it not in held.keys),
        tuple(it for it in way.hashes if not held.has(it)),
        Locks(None if older else way.locks.older, None if after else way.locks.after),
    )


@dataclass(frozen=True)
class Item:
    """An item of a witness, and what it is."""

    data: bytes
    name: str


@dataclass(frozen=True)
class Part:
    """A node that takes part in a run: whether it is satisfied."""

    node: Node
    satisfied: bool


@dataclass(frozen=True)
class Spend:
    """The witness that `satisfy` writes: its items, what the interpreter counted, which nodes take part, children first, the keys
    whose signatures were found good, in order, and the steps of its run."""

    items: tuple[Item, ...]
    witness: bytes
    replay: msat.Replay
    parts: tuple[Part, ...]
    checks: tuple[str, ...]
    steps: tuple[Step, ...]
    # The step that is shown first.
    first = 0


@dataclass(frozen=True)
class Run:
    """The run of the witness that a run file has: its items by what they are, bottom first; the status and the last line of the
    library's trace; and its steps, none where the file has another script than the condition's."""

    items: tuple[Item, ...]
    status: int
    said: str
    steps: tuple[Step, ...]

    @property
    def first(self) -> int:
        """The step that is shown first: the one that fails, or the last one where the run fails behind it."""
        return max(len(self.steps) - 1, 0) if self.status == REFUSED else 0


def run(text: str, root: Node, script: bytes, file: bytes, name_of: Naming) -> Optional[Run]:
    """The run of the witness of a run file on a sane text's Script; None where the file has no witness. A file without a script has
    that of the text."""
    try:
        said = json.loads(file)
    except (ValueError, RecursionError):
        return None
    if not isinstance(said, dict) or "witness" not in said:
        return None
    said.setdefault("script", script.hex())
    status, report = _traced(text, script, said)
    named = _named(root, said, name_of)
    items = tuple(Item(bytes.fromhex(it), named.get(it.lower(), "" if it else "empty")) for it in said["witness"])
    return Run(items, status, report.splitlines()[-1], steps(report, said["witness"]))


def _traced(text: str, script: bytes, said: dict[str, Any]) -> tuple[int, str]:
    """The status and the trace of a run; without its nodes where only consensus takes the text."""
    file = json.dumps(said)
    status, report = msat.answer(["trace", text], file)
    if status not in (ACCEPTED, REFUSED, OTHER_SCRIPT):
        run_file = msat.answer(["trace"], file)
        if run_file[0] not in (ACCEPTED, REFUSED):
            msat.report(["trace"], file)
        status, report = run_file if said["script"].lower() == script.hex() else (OTHER_SCRIPT, "not accepted WrongScript\n")
    return status, report


def _named(root: Node, said: dict[str, Any], name_of: Naming) -> dict[str, str]:
    """What items may be, by their digits: signatures that the file has, keys, and preimages of the text's hash values."""
    found = {it: f"the key {name_of(it)}" for it in _keys(root)}
    for pair in said.get("signatures", []):
        found[pair["sig"].lower()] = f"signature of {name_of(pair['key'])}"
    for item in said["witness"]:
        for function, value in _values(root):
            if hashes.FUNCTIONS[function](bytes.fromhex(item)).hex() == value.lower():
                found[item.lower()] = f"preimage of {name_of(value)}"
    return found


def _keys(root: Node) -> Iterator[str]:
    """The keys of a tree, in lower case."""
    for node in root.walk():
        if node.name in ("pk", "pk_k", "pkh", "pk_h"):
            yield node.arguments[0].lower()
        elif node.name == "multi":
            yield from (it.lower() for it in node.arguments[1:])


def _values(root: Node) -> Iterator[tuple[str, str]]:
    """The hash values of a tree, each with its function."""
    return ((node.name, node.arguments[0]) for node in root.walk() if node.name in hashes.LENGTHS)


def spend(text: str, root: Node, file: bytes, consensus: bool, name_of: Naming) -> Optional[Spend]:
    """How the file spends a sane text; None where it can't. `name_of` names a key or a hash value."""
    try:
        found = msat.satisfy(text, file, consensus=consensus)
    except msat.NoSatisfaction:
        return None
    said = json.loads(file)
    run: dict[str, Any] = {name: said[name] for name in ("version", "sequence", "locktime", "signatures") if name in said}
    run.update(script=found.script.hex(), witness=[it.hex() for it in found.items])
    checks = msat.run(json.dumps(run)).checks
    rows = _rows(text, run)
    names = _Names(rows, [(key.hex(), sig) for key, sig in checks], found.items, name_of).all(root)
    places = {node.place: node for node in reversed(list(root.walk()))}
    return Spend(
        tuple(Item(*it) for it in zip(found.items, names)),
        found.witness,
        found.replay,
        tuple(Part(places[it.place], it.satisfied) for it in _once(rows)),
        tuple(key.hex() for key, _ in checks),
        _steps(text, run),
    )


def _steps(text: str, run: dict[str, Any]) -> tuple[Step, ...]:
    """The steps of a run; without their nodes where only consensus takes the text."""
    file = json.dumps(run)
    try:
        report = msat.report(["trace", text], file)
    except msat.TextRefused:
        report = msat.report(["trace"], file)
    return steps(report, run["witness"])


def _rows(text: str, run: dict[str, object]) -> tuple[msat.Step, ...]:
    """The steps by which a run satisfies a text; none of one that only consensus takes, which no audit takes."""
    try:
        return msat.audit(text, json.dumps(run)).steps
    except msat.TextRefused:
        return ()


def _once(rows: tuple[msat.Step, ...]) -> Iterator[msat.Step]:
    """The steps without those that another one of the same place follows: a name such as `pk` stands for two nodes."""
    for step, after in zip(rows, (*rows[1:], None)):
        if after is None or after.place != step.place:
            yield step


class _Names:
    """The names of a witness's items, by the rows of BIP 379's table that an audit has found. It is read from its end: a node stands
    behind its children there."""

    def __init__(self, rows: tuple[msat.Step, ...], checks: list[tuple[str, bytes]], items: tuple[bytes, ...], name_of: Naming):
        self.left, self.checks, self.items, self.name_of = list(rows), checks, items, name_of

    def all(self, root: Node) -> list[str]:
        """The names of all items; plain ones where the audit doesn't fit, as for a text that only consensus takes."""
        try:
            names = self.of(root)
        except IndexError:
            names = []
        if len(names) != len(self.items):
            names = [self.plain(it) for it in self.items]
        return names

    def plain(self, item: bytes) -> str:
        """What an item is, by its bytes alone: keys may have signatures of the same ones."""
        signers = [self.name_of(key) for key, sig in self.checks if sig == item]
        return f"signature of {' or '.join(dict.fromkeys(signers))}" if signers else "" if item else "empty"

    def next_is(self, place: int) -> bool:
        return bool(self.left) and self.left[-1].place == place

    def of(self, node: Node) -> list[str]:
        """The names of a node's items, bottom first."""
        satisfied = self.left.pop().satisfied
        if node.name in ("pk", "pkh"):
            self.left.pop()
        if not node.children:
            return self.leaf(node, satisfied)
        # The 0 or 1 that and_n, t, l and u stand for beside their children: before the child, but with l, where it is the first one.
        constant = self.next_is(node.place)
        if constant and node.name != "l":
            self.left.pop()
        taken = [(at, self.of(child)) for at, child in reversed(list(enumerate(node.children))) if self.next_is(child.place)]
        if self.next_is(node.place):
            self.left.pop()
        return sum((names for _, names in taken), []) + self.choice(node, [at for at, _ in taken], satisfied)

    def choice(self, node: Node, taken: list[int], satisfied: bool) -> list[str]:
        """The item that a node has of its own, above those of its children."""
        form = node.name + ":" * node.is_letter
        if form == "or_i":
            return [f"{('1', 'empty')[taken[0]]}: the {('first', 'second')[taken[0]]} branch of or_i"]
        if form in ("l:", "u:"):
            first = bool(taken) == (form == "u:")
            return ["1: the first branch of or_i" if first else "empty: the second branch of or_i"]
        if form == "d:":
            return ["1: d takes its child" if satisfied else "empty: d leaves its child out"]
        return ["empty: j leaves its child out"] if form == "j:" and not satisfied else []

    def leaf(self, node: Node, satisfied: bool) -> list[str]:
        """The items of a node without children."""
        if node.name in ("pk", "pk_k", "pkh", "pk_h"):
            key = self.name_of(node.arguments[0])
            names = [f"signature of {key}" if satisfied else f"empty: no signature of {key}"]
            return names + [f"the key {key}, whose hash the Script has"] * (node.name in ("pkh", "pk_h"))
        if node.name == "multi":
            signers = {key for key, _ in self.checks}
            signed = [f"signature of {self.name_of(key)}" for key in node.arguments[1:] if key.lower() in signers]
            none = ["empty: no signature"] * int(node.arguments[0])
            return ["empty: what CHECKMULTISIG takes besides"] + (signed if satisfied else none)
        if node.name in hashes.LENGTHS:
            value = self.name_of(node.arguments[0])
            return [f"preimage of {value}" if satisfied else f"32 bytes that aren't the preimage of {value}"]
        return []
