#!/usr/bin/env python3
# SPDX-License-Identifier: MIT
"""Tries examples/scan: on made-up blocks its sums and lines are those of a brute force, spend by spend by single calls of the library;
they are the same on threads, on processes and on Dask, where it is installed, in one part and in many, of blocks that are printed in
lines or over many, and of a table of the same witnesses; sources that can't be read are refused with their place. Says every fault, and
ends with 1 where there is one. The library is that of MSAT_LIBRARY. Usage: scan.py
"""

import hashlib
import importlib.util
import json
import os
import subprocess
import sys
import tempfile
from collections import Counter
from decimal import Decimal
from pathlib import Path
from typing import Any, Iterator

TOP = Path(__file__).resolve().parent.parent.parent
SCAN = TOP / "examples" / "scan"
sys.path[:0] = [str(TOP / "python"), str(SCAN)]

import made_up  # noqa: E402

import msat  # noqa: E402

BLOCKS, SPENDS = 12, 60
faults = 0


def fault(told: str) -> None:
    global faults
    faults += 1
    print(f"scan: {told}")


def scan(*words: str) -> tuple[int, str, str]:
    """The status, the output and the errors of the program."""
    environment = {**os.environ, "PYTHONPATH": f"{TOP / 'python'}:{SCAN}:{os.environ.get('PYTHONPATH', '')}"}
    done = subprocess.run([sys.executable, str(SCAN / "scan.py"), *words], capture_output=True, text=True, env=environment)
    return done.returncode, done.stdout, done.stderr


def brute(blocks: list[dict[str, Any]]) -> tuple[Counter[tuple[str, str]], Counter[tuple[str, str]], Counter[str], list[str]]:
    """How many spends there are of each kind, their values, the weights, and each spend's verdict, by single calls."""
    count: Counter[tuple[str, str]] = Counter()
    worth: Counter[tuple[str, str]] = Counter()
    weights: Counter[str] = Counter()
    verdicts = []
    for it, transaction, block in inputs(blocks):
        groups = set()
        items = [bytes.fromhex(item) for item in it["txinwitness"]]
        program = b"\0\x20" + hashlib.sha256(items[-1]).digest()
        if it["prevout"]["scriptPubKey"]["hex"] == program.hex():
            groups.add(("output", "native"))
        elif it["scriptSig"]["hex"] == (b"\x22" + program).hex():
            groups.add(("output", "nested"))
        else:
            continue
        groups.add(("all", "spends"))
        sigs = [item for item in items[:-1] if 68 < len(item) < 74]
        for sig in sigs:
            name = {1: "ALL", 2: "NONE", 3: "SINGLE", 129: "ALL|ANYONECANPAY", 130: "NONE|ANYONECANPAY", 131: "SINGLE|ANYONECANPAY"}[sig[-1]]
            count["signature", name] += 1
        verdict, least = judged(items, sigs, it, transaction, groups)
        verdicts.append(f"{block['height']} {verdict}")
        if least is not None:
            weight = sum(len(item) + 1 for item in items[:-1])
            weights.update({"stacks": weight, "least": least, "lighter": int(least < weight)})
        for group in groups:
            count[group] += 1
            worth[group] += round(Decimal(str(it["prevout"]["value"])) * 10**8)
    return count, worth, weights, verdicts


def inputs(blocks: list[dict[str, Any]]) -> Iterator[tuple[dict[str, Any], dict[str, Any], dict[str, Any]]]:
    for block in blocks:
        for transaction in block["tx"]:
            for given in transaction["vin"]:
                if "coinbase" not in given:
                    yield given, transaction, block


def judged(items: list[bytes], sigs: list[bytes], given: dict[str, Any], transaction: dict[str, Any], groups: set[tuple[str, str]]) -> Any:
    """The verdict of a spend, and the weight of what `satisfy` would have taken; adds the groups that it belongs to."""
    *stack, script = items
    try:
        text = msat.decode(script, [item for item in stack if len(item) == 33])
    except msat.NoReading:
        verdict = "no reading, with a key hash" if bytes.fromhex("76a914") in script else "no reading"
        groups.add(("reading", verdict))
        return verdict, None
    groups.add(("reading", "read"))
    try:
        msat.check(text)
        verdict = "sane"
        groups.add(("shape", shape(msat.policy(text).policy)))
    except msat.TextRefused as refused:
        verdict = refused.name
    groups.add(("sanity", verdict))
    keys = [bytes.fromhex(word) for word in text.replace("(", ",").replace(")", ",").split(",") if len(word) == 66]
    pairs = tuple(msat.Signature(key, sig) for key in keys for sig in sigs)
    locks = transaction["version"], given["sequence"], transaction["locktime"]
    run = msat.Run(script, tuple(stack), pairs, *locks)
    groups.add(("stack", "canonical" if msat.audit(text, run).canonical else "not canonical"))
    good = tuple(dict.fromkeys(msat.Signature(*pair) for pair in msat.run(run).checks))
    held = msat.Assets(*locks, good, tuple(item for item in stack if len(item) == 32))
    chosen = msat.satisfy(text, held, malleable=verdict != "sane")
    return verdict, sum(len(item) + 1 for item in chosen.items)


def shape(policy: str) -> str:
    """A policy without what stands in the parentheses of keys, hashes and locks."""
    out, rest = "", policy
    while rest:
        name = next((it for it in ("key", "older", "after", "sha256", "hash256", "ripemd160", "hash160") if rest.startswith(it + "(")), None)
        if name:
            out, rest = out + name, rest[rest.index(")") + 1 :]
        else:
            out, rest = out + rest[0], rest[1:]
    return out


def compare(report: str, rows: str, blocks: list[dict[str, Any]]) -> None:
    """Whether sums and lines are those of the brute force."""
    count, worth, weights, verdicts = brute(blocks)
    lines = [line.split("\t") for line in report.splitlines()]
    ends = [place for place, line in enumerate(lines) if line[0] in ("what", "height")]
    told = {(what, name): int(number) for what, name, number, _ in lines[1 : ends[1]]}
    if told != dict(count):
        fault(f"other numbers: {sorted(set(told.items()) ^ set(count.items()))[:5]}")
    values = {(what, name): int(value) for what, name, _, value in lines[1 : ends[1]] if value != "-"}
    if values != {group: value for group, value in worth.items()}:
        fault(f"other values: {sorted(set(values.items()) ^ set(worth.items()))[:5]}")
    if [int(line[2]) for line in lines[ends[1] + 1 : ends[2]]] != [weights["stacks"], weights["least"], weights["lighter"]]:
        fault(f"other weights: {lines[ends[1] + 1 : ends[2]]}, and by brute force {weights}")
    found = [line.split("\t") for line in rows.splitlines()[1:]]
    if [f"{line[0]} {line[3]}" for line in found] != verdicts:
        fault("other verdicts in the lines of spends")
    if sum(sum(map(int, line[1:])) for line in lines[ends[2] + 1 :]) != count["all", "spends"]:
        fault("the heights don't add up to all spends")
    wanted = {"sane", "NoSignature", "RepeatedKey", "no reading", "no reading, with a key hash"}
    if not wanted <= {line[3] for line in found}:
        fault(f"the made-up blocks lack a kind: {wanted - {line[3] for line in found}}")
    if not {"canonical", "not canonical"} <= {line[5] for line in found}:
        fault("the made-up blocks lack stacks that aren't canonical")


def refused(name: str, text: str, folder: Path, told: str) -> None:
    """Whether a source is refused with this line."""
    (folder / name).write_text(text)
    status, out, errors = scan(str(folder / name))
    if status != 1 or out or not errors.startswith(f"scan: {folder / name}: {told}") or errors.count("\n") != 1:
        fault(f"{name}: {status} {out[:80]!r} {errors[:200]!r} in place of {told!r}")


def main() -> int:
    maker = made_up.Maker(7)
    blocks = [made_up.block(maker, 800_000 + number, SPENDS) for number in range(BLOCKS)]
    with tempfile.TemporaryDirectory() as name:
        folder = Path(name)
        lines, pretty = folder / "blocks.jsonl", folder / "blocks.json"
        lines.write_text("".join(json.dumps(block) + "\n" for block in blocks))
        pretty.write_text("".join(json.dumps(block, indent=2) + "\n" for block in blocks))
        status, report, errors = scan(str(lines), "--rows", str(folder / "rows"), "--plot", str(folder / "plot.svg"), "--every", "5")
        if status != 0 or errors:
            fault(f"ends with {status}: {errors[-400:]}")
            return 1
        rows = (folder / "rows").read_text()
        compare(report, rows, blocks)
        if (folder / "plot.svg").read_text().count("<rect") != 1 + 3 + 3 * 3:
            fault("another picture than of three bars")
        ways = [("threads", "1"), ("threads", "4"), ("processes", "2")]
        if importlib.util.find_spec("distributed"):
            ways.append(("dask", "2"))
        else:
            print("scan: no Dask (python3-dask, python3-distributed), so it wasn't tried there")
        for on, workers in ways:
            for path in (lines, pretty):
                told = scan(str(path), "--on", on, "--workers", workers, "--every", "5", "--part", "20000", "--rows", str(folder / "again"))
                if told[:2] != (0, report) or (folder / "again").read_text() != rows:
                    fault(f"other bytes on {on}, {workers}, of {path.name}: {told[0]} {told[2][-300:]}")
        table(folder, blocks, report)
        refused("none.json", '{"tx":[{"txid":"00","vin":[{"txinwitness":["51"]}]}]}\n', folder, "at line 1: an input without its `prevout`")
        refused("half.json", '{"tx":[]}\n{"tx":\n', folder, "at line 2: no JSON")
        refused("short.csv", "witness\n0201\n", folder, "at line 2: a row that can't be read: a witness that ends inside")
        refused("wide.csv", "script,stack\n51\n", folder, "at line 2: a row of 1 columns, and 2 have names")
    print(f"scan: {len(rows.splitlines()) - 1} spends, {len(ways)} ways, {faults} faults")
    return 1 if faults else 0


def table(folder: Path, blocks: list[dict[str, Any]], report: str) -> None:
    """Whether a table of the same witnesses comes to the same shapes, stacks and verdicts."""
    found = ["witness,sequence,locktime"]
    for given, transaction, _ in inputs(blocks):
        items = [bytes.fromhex(it) for it in given["txinwitness"]]
        if items[-1][:1] in (b"\2", b"\3") and len(items) == 2:
            continue
        lengths = [bytes([len(it)]) if len(it) < 253 else b"\xfd" + len(it).to_bytes(2, "little") for it in items]
        witness = bytes([len(items)]) + b"".join(length + it for length, it in zip(lengths, items))
        found.append(f"{witness.hex()},{given['sequence']},{transaction['locktime']}")
    (folder / "table.csv").write_text("\n".join(found) + "\n")
    status, told, errors = scan(str(folder / "table.csv"), "--part", "5000")
    groups = ("reading", "sanity", "shape", "stack", "signature")

    def numbers(text: str) -> list[list[str]]:
        return [line.split("\t")[:3] for line in text.splitlines() if line.split("\t")[0] in groups]

    if status != 0 or numbers(told) != numbers(report):
        fault(f"the table of the same witnesses comes to something else: {status} {errors[-300:]}")


if __name__ == "__main__":
    sys.exit(main())
