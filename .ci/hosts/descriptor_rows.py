#!/usr/bin/env python3
"""Writes each row of examples/descriptors/ into a folder of its own below FOLDER: its words, its source, its status, its report, and an
empty file `descriptor`, for hosts that can't read the rows. One with a word that is empty or has a space, or whose source can't be read, is left out. Usage: descriptor_rows.py FOLDER"""
import importlib.machinery
import importlib.util
import os
import pathlib
import sys

TOP = pathlib.Path(__file__).resolve().parent.parent.parent
MOST = 4 << 20


def reader():
    """The script .ci/descriptor, which reads the rows."""
    loader = importlib.machinery.SourceFileLoader("descriptor", str(TOP / ".ci/descriptor"))
    spec = importlib.util.spec_from_loader("descriptor", loader)
    module = importlib.util.module_from_spec(spec)
    sys.dont_write_bytecode = True
    loader.exec_module(module)
    return module


def main():
    folder = pathlib.Path(sys.argv[1]).resolve()
    os.chdir(TOP)
    script = reader()
    count = 0
    for file in sorted(script.ROWS.glob("*.rows")):
        for _, words, source, status, report in script.rows_of(file):
            if status == 5 or any(not word or word.split() != [word] for word in words) or sum(map(len, words)) > MOST:
                continue
            place = folder / f"{count:04}"
            place.mkdir(parents=True)
            (place / "words").write_text(" ".join(words) + "\n")
            (place / "descriptor").touch()
            (place / "source").write_bytes(source or b"")
            (place / "status").write_text(f"{status}\n")
            (place / "report").write_bytes(report)
            count += 1
    print(f"{count} rows of descriptors")


main()
