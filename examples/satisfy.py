#!/usr/bin/env python3
# SPDX-License-Identifier: MIT
"""Prints the witness of a text and an asset file, item by item, by a call of the library.

Usage: satisfy.py TEXT ASSET-FILE
"""

import sys
from pathlib import Path

import msat


def main() -> int:
    if len(sys.argv) != 3:
        print("usage: satisfy.py TEXT ASSET-FILE", file=sys.stderr)
        return 1
    text, file = sys.argv[1:]
    try:
        found = msat.satisfy(text, Path(file).read_bytes())
    except msat.TextRefused as refused:
        place = "" if refused.place is None else f" at byte {refused.place}"
        print(f"the text is refused: {refused.name}{place}", file=sys.stderr)
        return 2
    except msat.NoSatisfaction:
        print("what the file holds isn't enough", file=sys.stderr)
        return 4
    for item in found.stack:
        print(item.hex() or "-")
    return 0


if __name__ == "__main__":
    sys.exit(main())
