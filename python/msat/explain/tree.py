# SPDX-License-Identifier: MIT
"""The tree of a text, as the library prints it by `tree`: each node with its place, by which refusals, traces and audits name nodes, with its
type and its arguments; and of a text that breaks a rule of the types the letter that fits. Nothing of it is reckoned here."""

import re
from dataclasses import dataclass, field
from typing import Iterator, Optional

import msat

_WORD = re.compile(r"[^(),:]+")


@dataclass
class Node:
    """A fragment or a wrapper letter as it stands in the text: its name, its place, its type, its arguments that are no nodes, and its
    children."""

    name: str
    place: int
    is_letter: bool
    kind: str
    arguments: list[str]
    children: list["Node"] = field(default_factory=list)

    def walk(self) -> Iterator["Node"]:
        """The node and all below it, as they are written."""
        yield self
        for child in self.children:
            yield from child.walk()

    def chain(self) -> list["Node"]:
        """The node, and where it is a letter what it wraps, down to the first fragment: what stands in one word of a text."""
        found = [self]
        while found[-1].is_letter:
            found += found[-1].children
        return found


@dataclass(frozen=True)
class Fit:
    """A letter that lets a node pass, and the place before which it stands."""

    letter: str
    place: int


@dataclass(frozen=True)
class Outline:
    """What the library says of the nodes of a text: the root, none where the text can't be read; and the letter that fits, where there is one."""

    root: Optional[Node]
    fit: Optional[Fit] = None


def read(text: str, report: str) -> Outline:
    """The tree of a text whose report of `tree` this is. Of several lines with one place the first is the node as it stands in the text; the
    others are what its name stands for besides, of which the arguments are taken.

    >>> outline = read("t:and_b(pk(A),0)", '''node 0 0 - and_v
    ... node 2 1 - and_b
    ... node 8 2 Bonduse c
    ... node 8 3 Konduse pk_k 02
    ... node 14 2 Bzduse 0
    ... node 0 1 Bzuf 1
    ... refused text Rule AndBY at 2
    ... fits a at 14
    ... ''')
    >>> [(it.name, it.place, it.kind, it.arguments) for it in outline.root.walk()]
    [('t', 0, '-', []), ('and_b', 2, '-', []), ('pk', 8, 'Bonduse', ['02']), ('0', 14, 'Bzduse', [])]
    >>> [it.name for it in outline.root.chain()], outline.fit
    (['t', 'and_b'], Fit(letter='a', place=14))
    """
    nodes: dict[int, Node] = {}
    open_: list[Node] = []
    fit = None
    for line in report.splitlines():
        kind, *words = line.split(" ")
        if kind == "fits":
            fit = Fit(words[0], int(words[2]))
        if kind != "node":
            continue
        place, depth, type_, _, *arguments = words
        if int(place) in nodes:
            nodes[int(place)].arguments += arguments
            continue
        node = nodes[int(place)] = _node(text, int(place), type_, arguments)
        del open_[int(depth) :]
        if open_:
            open_[-1].children.append(node)
        open_.append(node)
    return Outline(next(iter(nodes.values()), None), fit)


def _node(text: str, place: int, kind: str, arguments: list[str]) -> Node:
    """The node that is named at this place: by its first letter alone, where its word stands before a colon."""
    word = _WORD.match(text, place)
    assert word is not None
    is_letter = text[word.end() : word.end() + 1] == ":"
    return Node(word[0][:1] if is_letter else word[0], place, is_letter, kind, arguments)


def outline(text: str, *, consensus: bool = False) -> Outline:
    """What the library says of the nodes of a text."""
    try:
        report = msat.report(["tree", *(["--consensus"] if consensus else []), text])
    except msat.TextRefused as refused:
        report = refused.report
    return read(text, report)


def expression(text: str, place: int) -> str:
    """The expression that begins at a place of a text.

    >>> text = "or_d(pk(A),and_v(v:pkh(B),older(144)))"
    >>> expression(text, 5), expression(text, 17), expression(text, 26)
    ('pk(A)', 'v:pkh(B)', 'older(144)')
    """
    depth = 0
    for at in range(place, len(text)):
        depth += (text[at] == "(") - (text[at] == ")")
        if depth < 0 or depth == 0 and text[at] == ",":
            return text[place:at]
    return text[place:]
