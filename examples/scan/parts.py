# SPDX-License-Identifier: MIT
"""Files in parts that any worker can scan by itself: documents of JSON, one after the other, and rows of CSV."""

from dataclasses import dataclass
from pathlib import Path
from typing import Iterable, Iterator

from findings import Ask, findings
from spends import Spend, Unreadable, of_document, of_table
from sums import Sums, row


@dataclass(frozen=True)
class Part:
    """Some documents of a file, or rows of a table whose columns `header` names: where they begin, and as far as which byte the file is
    read behind them."""

    path: str
    line: int
    header: str
    texts: tuple[str, ...]
    end: int


def parts_of(path: str, size: int) -> Iterator[Part]:
    """The parts of a file, each of about so many bytes or of one document.

    A document ends with the line `}`, as `bitcoin-cli` prints it, or with its only line. A file that doesn't begin with `{` is a table
    in CSV, whose first line names the columns.
    """
    with open(path, encoding="utf-8", newline="\n") as file:
        first = file.readline()
        table = not first.lstrip().startswith("{")
        held: list[str] = []
        lines: list[str] = [] if table else [first]
        begun, number, end, room = 1 + table, 1, len(first.encode()), size
        if not table and _ends(first):
            held, lines = [first], []
        for line in file:
            number += 1
            if not held and not lines:
                begun = number
            lines.append(line)
            end += len(line.encode())
            room -= len(line)
            if table or _ends(line):
                held.append("".join(lines))
                lines = []
                if room <= 0:
                    yield Part(path, begun, first if table else "", tuple(held), end)
                    held, room = [], size
        if "".join(lines).strip():
            held.append("".join(lines))
        if held:
            yield Part(path, begun, first if table else "", tuple(held), end)


def _ends(line: str) -> bool:
    """Whether a document ends with this line."""
    told = line.rstrip()
    return told == "}" or (line.startswith("{") and told.endswith("}"))


@dataclass(frozen=True)
class Scanned:
    """What the scan of a part came to: the sums, and the rows of its spends where they are wanted."""

    sums: Sums
    rows: list[str]
    path: str
    end: int


def scanned(part: Part, rows: bool, ask: Ask) -> Scanned:
    """What a part comes to."""
    spends = list(_spends(part))
    found = findings(spends, ask)
    sums = Sums()
    for spend, it in zip(spends, found):
        sums.add(spend, it)
    return Scanned(sums, [row(*it) for it in zip(spends, found)] if rows else [], part.path, part.end)


def _spends(part: Part) -> Iterable[Spend]:
    line = part.line
    for text in part.texts:
        try:
            if part.header:
                yield from of_table(part.header, text)
            elif text.strip():
                yield from of_document(text)
        except Unreadable as error:
            raise Unreadable(f"{part.path}: at line {line}: {error}") from error
        line += text.count("\n")


def size_of(paths: Iterable[str]) -> int:
    """How many bytes the files have."""
    return sum(Path(path).stat().st_size for path in paths)
