#!/usr/bin/env python3
"""Writes each question of examples/psbt/ into a folder of its own below FOLDER: its words, its source, its status and its report, for
hosts that can't read the rows. A source over 4 MiB is left out. Usage: psbt_rows.py FOLDER"""
import importlib.machinery
import importlib.util
import os
import pathlib
import sys

TOP = pathlib.Path(__file__).resolve().parent.parent.parent
MOST = 4 << 20


def psbt():
    """The script .ci/psbt, which reads the rows."""
    loader = importlib.machinery.SourceFileLoader("psbt", str(TOP / ".ci/psbt"))
    spec = importlib.util.spec_from_loader("psbt", loader)
    module = importlib.util.module_from_spec(spec)
    sys.dont_write_bytecode = True
    loader.exec_module(module)
    return module


def main():
    folder = pathlib.Path(sys.argv[1]).resolve()
    os.chdir(TOP)
    script = psbt()
    script.rows_of(script.ROWS / "pieces")
    rows = [script.row_of(it) for it in sorted(script.ROWS.glob("*/"))]
    rows += [row for file in sorted(script.ROWS.glob("*.rows")) for row in script.rows_of(file)]
    count = 0
    for row in rows:
        for words, source, report in row.questions():
            if source is None or len(source) > MOST or len(report) > MOST or any(" " in word or not word for word in words):
                continue
            place = folder / f"{count:04}"
            place.mkdir(parents=True)
            (place / "words").write_text(" ".join(words) + "\n")
            (place / "source").write_bytes(source)
            (place / "status").write_text(f"{row.status}\n")
            (place / "report").write_bytes(report)
            count += 1
    print(f"{count} questions of {len(rows)} rows")


main()
