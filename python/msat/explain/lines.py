# SPDX-License-Identifier: MIT
"""A Script as lines, each with the node of the text that wrote it, as the library prints them by `asm`. No opcode is known here."""

from dataclasses import dataclass
from typing import Optional

import msat

from .tree import Node


@dataclass(frozen=True)
class Line:
    """An instruction: at which byte of the Script, its bytes, its name, what it pushes, the node that wrote it, and the `v` that
    made its VERIFY of it."""

    at: int
    code: bytes
    name: str
    pushed: Optional[bytes]
    node: Node
    by_v: Optional[Node] = None


def lines(text: str, script: bytes, root: Node, *, consensus: bool = False) -> list[Line]:
    """The lines of the Script of a valid text, whose tree this is."""
    return read(msat.report(["asm", *(["--consensus"] if consensus else []), text]), script, root)


def read(report: str, script: bytes, root: Node) -> list[Line]:
    """The lines of a report of `asm`.

    >>> v = Node("v", 0, True, "Vzf", [], [Node("1", 2, False, "Bzuf", [])])
    >>> for it in read("at 0 push 01 node 2\\nat 1 OP_VERIFY node 0\\n", bytes.fromhex("5169"), v):
    ...     print(it.at, it.code.hex(), it.name, it.pushed, it.node.name)
    0 51 push b'\\x01' 1
    1 69 OP_VERIFY None v
    """
    rows = [line.split(" ") for line in report.splitlines()]
    nodes = {it.place: it for it in root.walk()}
    ends = [int(row[1]) for row in rows[1:]] + [len(script)]
    by_v = _verifying(root, [int(row[-1]) for row in rows])
    found = []
    for number, (row, end) in enumerate(zip(rows, ends)):
        at, name = int(row[1]), row[2]
        pushed = bytes.fromhex(row[3].replace("-", "")) if name == "push" else None
        found.append(Line(at, script[at:end], name, pushed, nodes[int(row[-1])], by_v.get(number)))
    return found


def _verifying(root: Node, writers: list[int]) -> dict[int, Node]:
    """The letters `v` that wrote no instruction, by the line whose opcode does their VERIFY too: the last one below them."""
    found = {}
    for node in root.walk():
        if node.is_letter and node.name == "v" and node.place not in writers:
            below = {it.place for it in node.walk()}
            found[max(at for at, place in enumerate(writers) if place in below)] = node
    return found


def number(pushed: bytes) -> int:
    """The number that pushed bytes are, as Script reads them. Miniscript writes none below 0."""
    return int.from_bytes(pushed, "little")
