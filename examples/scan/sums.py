# SPDX-License-Identifier: MIT
"""What is added up over spends: by what was found of them, by value, and by height."""

from collections import Counter
from dataclasses import dataclass, field
from typing import Iterable

from findings import Finding, signatures
from spends import Spend

HASH_TYPES = {1: "ALL", 2: "NONE", 3: "SINGLE", 0x81: "ALL|ANYONECANPAY", 0x82: "NONE|ANYONECANPAY", 0x83: "SINGLE|ANYONECANPAY"}
KINDS = ("sane", "not sane", "no reading")


@dataclass
class Sums:
    """How many spends there are of each kind, and what they are worth in satoshis, as far as that is known; the weights of stacks, beside
    the least; and the spends of each height by their kind."""

    spends: Counter[tuple[str, str]] = field(default_factory=Counter)
    values: Counter[tuple[str, str]] = field(default_factory=Counter)
    weights: Counter[str] = field(default_factory=Counter)
    heights: Counter[tuple[int, str]] = field(default_factory=Counter)

    def add(self, spend: Spend, found: Finding) -> None:
        """Adds a spend of which this was found."""
        for group in _groups(spend, found):
            self.spends[group] += 1
            self.values[group] += spend.value or 0
        for sig in signatures(spend.stack or ()):
            self.spends["signature", HASH_TYPES.get(sig[-1], f"type {sig[-1]}")] += 1
        if found.weight is not None and found.least is not None:
            self.weights["stacks"] += found.weight
            self.weights["least"] += found.least
            self.weights["lighter"] += found.least < found.weight
        if spend.height is not None:
            self.heights[spend.height, kind(found)] += 1

    def merge(self, other: "Sums") -> None:
        """Adds what another part came to."""
        self.spends.update(other.spends)
        self.values.update(other.values)
        self.weights.update(other.weights)
        self.heights.update(other.heights)

    def lines(self, every: int) -> Iterable[str]:
        """The sums as lines of columns, with a line for so many heights each."""
        yield "what\tname\tspends\tsatoshis"
        for what in ("all", "output", "reading", "sanity", "shape", "stack", "signature"):
            found = [(name, number) for (group, name), number in self.spends.items() if group == what]
            for name, number in sorted(found, key=lambda it: (-it[1], it[0])):
                worth = "-" if what == "signature" else str(self.values[what, name])
                yield f"{what}\t{name}\t{number}\t{worth}"
        yield "what\tname\tweight\t-"
        for name, title in (("stacks", "as they were spent"), ("least", "as satisfy would have")):
            yield f"weight\t{title}\t{self.weights[name]}\t-"
        yield f"lighter\tspends that satisfy makes lighter\t{self.weights['lighter']}\t-"
        yield "height\tsane\tnot sane\tno reading"
        for first, counts in self.bins(every):
            yield "\t".join(map(str, (first, *counts)))

    def bins(self, every: int) -> list[tuple[int, tuple[int, ...]]]:
        """The first height of each so many, and how many spends of each kind there are in these."""
        found: Counter[tuple[int, str]] = Counter()
        for (height, name), number in self.heights.items():
            found[height - height % every, name] += number
        return [(first, tuple(found[first, name] for name in KINDS)) for first in sorted({first for first, _ in found})]


def kind(found: Finding) -> str:
    """Whether a Script is sane, is none or has no reading."""
    return "no reading" if found.text is None else "sane" if found.verdict == "sane" else "not sane"


def row(spend: Spend, found: Finding) -> str:
    """What was found of a spend as a line of columns."""
    columns = (spend.height, spend.name, spend.value, found.verdict, found.shape, found.stack, found.weight, found.least, found.text)
    return "\t".join("-" if it is None else str(it) for it in columns)


ROW_NAMES = "height\tspend\tsatoshis\tverdict\tshape\tstack\tweight\tleast\ttext"


def _groups(spend: Spend, found: Finding) -> Iterable[tuple[str, str]]:
    yield "all", "spends"
    yield "output", {None: "not told", False: "native", True: "nested"}[spend.nested]
    yield "reading", "read" if found.text is not None else found.verdict
    if found.text is not None:
        yield "sanity", found.verdict
    if found.shape is not None:
        yield "shape", found.shape
    if found.stack is not None:
        yield "stack", found.stack
