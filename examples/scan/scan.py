#!/usr/bin/env python3
# SPDX-License-Identifier: MIT
"""Says of each P2WSH spend of some blocks or tables whether its Script is a miniscript, whether it is sane or why not, what its policy
is, and what its stack weighs beside the one that `satisfy` would have taken; and prints the sums over all of them."""

import argparse
import os
import sys
from pathlib import Path
from typing import Iterable, Iterator, Optional, TextIO

from parts import Scanned, parts_of, size_of
from plot import plot
from spends import Unreadable
from sums import ROW_NAMES, Sums
from workers import each


def main() -> int:
    told = _options().parse_args()
    try:
        paths = [str(Path(path)) for path in told.files]
        whole = size_of(paths)
        parts = (part for path in paths for part in parts_of(path, told.part))
        sums = _summed(_watched(each(parts, told.rows is not None, told.on, told.workers), whole), told.rows)
    except (Unreadable, OSError, UnicodeDecodeError) as error:
        print(f"scan: {error}", file=sys.stderr)
        return 1
    sys.stdout.writelines(line + "\n" for line in sums.lines(told.every))
    if told.plot is not None:
        Path(told.plot).write_text(plot(sums, told.every))
    return 0


def _options() -> argparse.ArgumentParser:
    parser = argparse.ArgumentParser(prog="scan.py", description=__doc__)
    parser.add_argument("files", nargs="+", metavar="FILE", help="blocks as `getblock HASH 3` prints them, or a table (README.md)")
    parser.add_argument("--on", default="threads", help="threads, processes, dask, or the address of Dask's scheduler (threads)")
    parser.add_argument("--workers", type=_positive, default=os.cpu_count(), help="how many (as many as processors)")
    parser.add_argument("--rows", metavar="FILE", help="writes a line for each spend")
    parser.add_argument("--plot", metavar="FILE", help="draws the spends by height, as SVG")
    parser.add_argument("--every", type=_positive, default=1, help="how many heights are added up in a line and a bar (1)")
    parser.add_argument("--part", type=_positive, default=1 << 20, help="about how many bytes are handed to a worker at once (1048576)")
    return parser


def _positive(word: str) -> int:
    number = int(word)
    if number < 1:
        raise argparse.ArgumentTypeError("a number from 1 is wanted")
    return number


def _summed(parts: Iterable[Scanned], rows: Optional[str]) -> Sums:
    """The sums of all parts; and each spend's line, where they are wanted in a file."""
    sums = Sums()
    with open(rows or os.devnull, "w", encoding="utf-8") as file:
        print(ROW_NAMES, file=file)
        for part in parts:
            sums.merge(part.sums)
            file.writelines(line + "\n" for line in part.rows)
    return sums


def _watched(parts: Iterable[Scanned], whole: int, out: TextIO = sys.stderr) -> Iterator[Scanned]:
    """The parts as they are, with a bar of how far the files are read, where standard error is a terminal."""
    if not out.isatty():
        yield from parts
        return
    ends: dict[str, int] = {}
    for part in parts:
        ends[part.path] = part.end
        done = sum(ends.values()) / max(whole, 1)
        out.write(f"\rscan: [{'#' * int(40 * done):40}] {done:4.0%}")
        out.flush()
        yield part
    out.write("\n")


if __name__ == "__main__":
    sys.exit(main())
