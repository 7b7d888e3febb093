#!/usr/bin/env python3
"""Tries the Python module msat.descriptor, and the library below it: each row of examples/descriptors/ by the library's call, byte for byte, and
what the classes say of it. Ends with 1 where anything differs.
"""
import copy
import doctest
import importlib.machinery
import importlib.util
import os
import pickle
import sys
from pathlib import Path

TOP = Path(__file__).resolve().parents[2]
os.chdir(TOP)
sys.path.insert(0, str(TOP / "python"))
sys.dont_write_bytecode = True

import msat  # noqa: E402
from msat import descriptor as module  # noqa: E402

loader = importlib.machinery.SourceFileLoader("rows", ".ci/descriptor")
rows = importlib.util.module_from_spec(importlib.util.spec_from_loader("rows", loader))
loader.exec_module(rows)


def path_of(key):
    """Where a key comes from, as a report says it."""
    steps = (f"/{step - 2**31}h" if step >= 2**31 else f"/{step}" for step in key.steps)
    return key.fingerprint.hex() + "".join(steps)


def check_lines(told):
    """What `check` reports of this."""
    yield f"descriptor {told.text}"
    yield f"kind {told.kind}"
    yield f"keys {told.keys}"
    yield f"ranged {'yes' if told.is_ranged else 'no'}"
    yield f"branches {told.branches}"
    if told.type is not None:
        yield f"type {told.type}"
        yield f"limits size {told.limits.size} ops {told.limits.ops} items {told.limits.items} weight {told.limits.weight}"
    if told.unfit is not None:
        yield f"unfit {told.unfit}"


def derive_lines(told):
    """What `derive` reports of this."""
    yield f"index {told.index}"
    yield f"address {told.address}"
    if told.output != told.program:
        yield f"output {told.output.hex()}"
    yield f"program {told.program.hex()}"
    if told.script:
        yield f"script {told.script.hex()}"
        yield f"text {told.text}"
    for key in told.keys:
        yield f"key {key.key.hex()} {path_of(key)}"


def derived(words):
    """What is derived by these words, which stand behind `derive`."""
    words = list(words)
    network = {"--testnet": "test", "--regtest": "regtest"}.get(words[0])
    if network:
        words.pop(0)
    branch = 0
    if words[0] == "--branch":
        branch = int(words[1])
        words = words[2:]
    text, first, *count = words
    indices = range(int(first), int(first) + int(count[0] if count else 1))
    return msat.derive_all(text, indices, branch, network)


def fault_of(name, words, source, status, report):
    """What is wrong about a row, if anything is."""
    if msat.descriptor_answer(words, source or b"") != (status, report):
        return f"{name}: the library has another answer"
    if status == 1 or words[0] == "update":
        return None
    report = report.decode()
    try:
        if words[0] == "check":
            said = "".join(line + "\n" for line in check_lines(msat.descriptor_check(words[1])))
        else:
            said = "".join(line + "\n" for told in derived(words[1:]) for line in derive_lines(told))
    except msat.DescriptorRefused as refused:
        said = refused.report
        if [copy.copy(refused).__dict__, pickle.loads(pickle.dumps(refused)).__dict__] != 2 * [refused.__dict__]:
            return f"{name}: a copy of the refusal differs"
        if status != 2 or refused.name not in report or (refused.place is not None) != (" at " in report):
            return f"{name}: the refusal is told as {refused.__dict__}"
    return None if said == report else f"{name}: the classes say {said[:300]!r}"


def main():
    faults, count = [], 0
    for file in sorted(rows.ROWS.glob("*.rows")):
        for row in rows.rows_of(file):
            if row[3] != 5:
                count += 1
                faults += filter(None, [fault_of(*row)])
    for call, wanted in ((lambda: msat.derive("wpkh(x)", 0, network="main"), ValueError), (lambda: msat.descriptor_check("\0"), msat.Unreadable),
                         (lambda: msat.derive("wpkh(x)", -1), msat.Usage), (lambda: msat.derive_all("x", range(0, 4, 2)), ValueError)):  # fmt: skip
        try:
            call()
            faults.append(f"{wanted.__name__} isn't raised")
        except wanted:
            pass
    failed, tried = doctest.testmod(module)
    print("\n".join(faults), end="\n" if faults else "")
    print(f"descriptors from Python: {count} rows, {tried} examples, {len(faults) + failed} faults")
    return int(bool(faults or failed) or not count)


if __name__ == "__main__":
    sys.exit(main())
