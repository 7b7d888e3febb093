#!/usr/bin/env python3
# SPDX-License-Identifier: MIT
"""Prints what a descriptor gives at many indices, by the library on all processors: the lines that `msat-descriptor derive` prints of the same words,
part by part, as each is there. A bar on standard error says how far it is, where that is a terminal. The first part that is refused ends it: its
refusal goes to standard error.
Usage: derive.py [--testnet or --regtest] [--branch B] DESCRIPTOR INDEX COUNT
"""
import itertools
import os
import sys
from concurrent.futures import ThreadPoolExecutor

import msat

PART = 50


def parts_of(words):
    """The words of each part, with how many indices it has."""
    *front, first, count = words
    for done in range(0, int(count), PART):
        many = min(PART, int(count) - done)
        yield [*front, str(int(first) + done), str(many)], many


def watched(answers, whole, out=sys.stderr):
    """The answers as they are, with a bar of how many indices are done, where standard error is a terminal."""
    done = 0
    for answer, many in answers:
        yield answer
        done += many
        if out.isatty():
            out.write(f"\rderive: [{'#' * int(40 * done / whole):40}] {done / whole:4.0%}")
            out.flush()
    if out.isatty():
        out.write("\n")


def main():
    words = sys.argv[1:]
    if len(words) < 3 or not all(word.isascii() and word.isdigit() for word in words[-2:]):
        print(__doc__.strip().splitlines()[-1], file=sys.stderr)
        return 1
    parts = parts_of(words)
    with ThreadPoolExecutor() as pool:
        ask = lambda part: (pool.submit(msat.descriptor_answer, ["derive", *part[0]]), part[1])  # noqa: E731
        under_way = [ask(part) for part in itertools.islice(parts, 2 * (os.cpu_count() or 1))]

        def answers():
            while under_way:
                asked, many = under_way.pop(0)
                yield asked.result(), many
                under_way.extend(map(ask, itertools.islice(parts, 1)))

        for status, report in watched(answers(), int(words[-1])):
            if status != 0:
                under_way.clear()
                sys.stderr.write(report.decode())
                return status
            sys.stdout.write(report.decode())
    return 0


if __name__ == "__main__":
    sys.exit(main())
