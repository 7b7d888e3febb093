#!/usr/bin/env python3
"""Tries the Python package on each example, and runs the examples in its docstrings; and tries what is asked without a report on
texts and files that are refused in each way, against the report. Ends with 1 where anything differs."""

import copy
import doctest
import json
import pickle
import random
import re
import sys
import threading
from dataclasses import replace
from pathlib import Path

TOP = Path(__file__).resolve().parents[2]
sys.path.insert(0, str(TOP / "python"))
sys.dont_write_bytecode = True

import msat  # noqa: E402
import msat.results  # noqa: E402
from msat import errors  # noqa: E402

faults = []


def example_words(folder: Path) -> list[str]:
    words = (folder / "words").read_text().split()
    text = folder / "text"
    return words + ([text.read_text().rstrip("\n")] if text.exists() else [])


def example_source(folder: Path) -> bytes:
    found = [folder / name for name in ("assets.json", "run.json", "plan.json") if (folder / name).exists()]
    return found[0].read_bytes() if found else b""


def try_answer(folder: Path) -> None:
    status = folder / "status"
    wanted = (int(status.read_text()) if status.exists() else 0, (folder / "report").read_text())
    words, source = example_words(folder), example_source(folder)
    if msat.answer(words, source) != wanted:
        faults.append(f"{folder.name}: another answer")
    length = len(wanted[1])
    for room in (0, 1, length - 1, length):
        if msat._library.answer([word.encode() for word in words], source, room) != (wanted[0], wanted[1].encode()):
            faults.append(f"{folder.name}: another answer with room for {room} bytes at first")


def try_class(folder: Path) -> None:
    """The result by its class says what the report does, or the refusal is raised."""
    words, source = example_words(folder), example_source(folder)
    options = {"malleable": "--malleable" in words, "consensus": "--consensus" in words}
    report = (folder / "report").read_text()
    try:
        if words[0] == "satisfy":
            found = msat.satisfy(words[-1], source, **options)
            said = found.witness.hex() in report and len(found.items) == found.replay.items
        elif words[0] == "check":
            said = f"type {msat.check(words[-1], consensus=options['consensus']).type}\n" in report
        elif words[0] == "script":
            said = msat.script(words[-1], consensus=options["consensus"]).hex() + "\n" == report
        elif words[0] == "run":
            said = f" peak {msat.run(source).peak}\n" in report
        elif words[0] == "policy":
            said = msat.policy(words[-1]).policy in report
        elif words[0] == "plan":
            said = f"weight at most {msat.plan(words[-1], source).weight}\n" in report
        elif words[0] == "audit":
            audit = msat.audit(words[-1], source)
            said = f" peak {audit.peak}\n" in report and report.count("node ") == len(audit.steps)
            said = said and ("canonical yes" in report) == audit.canonical and report.count(" extra\n") == sum(step.extra for step in audit.steps)
        elif words[0] in ("trace", "asm", "tree"):
            said = msat.report(words, source) == report
        elif words[0] == "decode":
            said = msat.decode(bytes.fromhex(words[1]), [bytes.fromhex(key) for key in words[2:]]) in report
        else:
            return
    except msat.MsatError as refused:
        said = refused.report == report
    if not said:
        faults.append(f"{folder.name}: the class says something else")


def refusal(call, *arguments, **options):
    """What a call gives, or the report of its refusal."""
    try:
        return call(*arguments, **options)
    except msat.MsatError as refused:
        return type(refused).__name__, refused.report


named: set[str] = set()


def note_names(report: object) -> None:
    """Takes down the words of a refusal: its name, its rule, its member."""
    if isinstance(report, tuple):
        named.update(f"{report[0]} {word}" for word in report[1].split()[2:] if not word.isdigit())


def try_queries(text: str, file: bytes, consensus: bool) -> None:
    """What is asked without a report is what the report says."""
    checked = refusal(msat.check, text, consensus=consensus)
    known = refusal(msat.facts, text, consensus=consensus)
    if isinstance(checked, msat.Checked):
        same = known.type == checked.type and checked.limits in (known.limits, replace(known.limits, height=None))
    else:
        same = known == checked
    if not same:
        faults.append(f"check {text}: {known}, and by the report {checked}")
    printed = refusal(msat.report, ["script", *(["--consensus"] if consensus else []), text])
    script = refusal(msat.script, text, consensus=consensus)
    if (script.hex() + "\n" if isinstance(script, bytes) else script) != printed:
        faults.append(f"script {text}: {script}, and by the report {printed}")
    for malleable in (False, True):
        satisfied = refusal(msat.satisfy, text, file, malleable=malleable, consensus=consensus)
        items = refusal(msat.witness, text, file, malleable=malleable, consensus=consensus)
        if (satisfied.stack if isinstance(satisfied, msat.Satisfaction) else satisfied) != items:
            faults.append(f"witness {text}: {items}, and by the report {satisfied}")
    weight = refusal(msat.least_weight, text, file, consensus=consensus)
    note_names(checked), note_names(weight)
    if (satisfied.replay.weight if isinstance(satisfied, msat.Satisfaction) else satisfied) != weight:
        faults.append(f"least_weight {text}: {weight}, and by the report {satisfied}")


KEYS = [f"02{number:064x}" for number in range(1, 8)]
HASH = "66687aadf862bd776c8fc18b8e9f8e20089714856ee233b3902a591d0d5f2925"  # of 32 zeros
PLAIN = ["0", "1", "older(9)", "older(4194305)", "after(9)", "after(600000000)", f"sha256({HASH})", *(f"pk({key})" for key in KEYS)]
FILE = b'{"sequence":144,"locktime":9,"signatures":[%s],"preimages":["%s"]}' % (
    b",".join(b'{"key":"%s","sig":"3044"}' % key.encode() for key in KEYS), b"00" * 32,
)  # fmt: skip


def any_text(depth: int) -> str:
    """A text of any types, which most often breaks a rule."""
    if depth == 0:
        return random.choice(PLAIN)
    parts = [any_text(random.randrange(depth)) for _ in range(3)]
    form = random.choice(["andor({},{},{})", "and_v(v:{},{})", "and_b({},a:{})", "or_b({},a:{})", "or_c({},v:{})", "or_d({},{})",
                          "or_i({},{})", "thresh(2,{},a:{},a:{})", "and_v({},{})", "and_b({},{})", "or_b({},{})", "or_c({},{})",
                          "thresh(4,{},s:{},s:{})", "t:or_c({},v:{})", "and_n({},{})", "{}{}"])  # fmt: skip
    return random.choice(["", "", "", "a:", "s:", "c:", "d:", "v:", "j:", "n:", "dv:", "l:", "u:"]) + form.format(*parts)


BROKEN = [
    "", "pk(1)", "older(0)", "after(2147483648)", "older(2147483648)", f"multi(3,{KEYS[0]},{KEYS[1]})", "thresh(0,1)", "a:1", "\udcff",
    f"{'n' * 256}:0", f"{'n' * 257}:0", f"{'n' * 255}:0", "0" * 65536, "0" * 65537, f"thresh(1,pk({KEYS[0]})" + 99 * f",s:pk({KEYS[0]})" + ")",
    100 * f"and_v(v:pk({KEYS[0]})," + f"pk({KEYS[0]})" + 100 * ")", f"or_b(pk({KEYS[0]}),a:1)", f"or_d(or_i(0,1),pk({KEYS[0]}))",
    f"or_b(or_i(0,1),s:pk({KEYS[0]}))", f"t:or_c(or_i(0,1),v:pk({KEYS[0]}))", f"thresh(1,or_i(0,1),s:pk({KEYS[0]}))",
    f"andor(or_i(0,1),pk({KEYS[0]}),pk({KEYS[1]}))", "or_i(1,1)", "or_b(l:1,al:1)", "or_d(l:1,1)", "t:or_c(l:1,v:1)", "andor(l:1,1,1)",
    "thresh(1,l:1,al:1,al:1)",
    f"and_v(v:and_v(v:pk({KEYS[0]}),older(9)),older(4194305))", f"and_v(v:pk({KEYS[0]}),pk({KEYS[0]}))", "n:v:1", "vv:1",
]  # fmt: skip
BROKEN_FILES = [
    b"", b"[]", b"{", b" " * 1048577, b'{"version":-1}', b'{"sequence":1.0}', b'{"locktime":4294967296}', b'{"signatures":0}',
    b'{"preimages":[0]}', b'{"preimages":["0"]}', b'{"signatures":[{"key":"zz","sig":""}]}', b'{"signatures":[{"key":"00","sig":"00"}]}',
    b'{"signatures":[{"key":"%s","sig":""}]}' % KEYS[0].encode(), b'{"preimages":["00"]}', b'{"preimages":[%s]}' % b",".join([b'"%s"' % (b"00" * 32)] * 257),
    b'{"signatures":[%s]}' % b",".join([b'{"key":"%s","sig":"00"}' % KEYS[0].encode()] * 2),
    b'{"signatures":[%s]}' % b",".join(b'{"key":"02%064x","sig":"00"}' % number for number in range(257)),
]  # fmt: skip


def try_refusals() -> None:
    random.seed(1)
    for consensus in (False, True):
        for text in [*BROKEN, *(any_text(1 + number % 3) for number in range(1000))]:
            try_queries(text, FILE, consensus)
    for file in BROKEN_FILES:
        try_queries(f"pk({KEYS[0]})", file, False)
    wanted = {f"TextRefused {name}" for name in (*errors.TEXT_KINDS, *errors.RULES)} | {f"FileRefused {name}" for name in errors.FILE_KINDS[:-1]}
    if wanted - named:
        faults.append(f"not tried: {sorted(wanted - named)}")


def try_names() -> None:
    """The rules and members are numbered in the order of docs/FORMATS.md, and the kinds of struct msat_reason as include/msat.h does."""
    formats = (TOP / "docs/FORMATS.md").read_text()
    tables = re.findall(r"^\| Rule \|.*?\n\n", formats, re.M | re.S)
    rules = [name for table in tables for row in table.strip().splitlines()[2:] for name in re.findall(r"`([A-Z]\w+)`", row.split("|")[1])]
    if tuple(rules) != errors.RULES:
        faults.append(f"docs/FORMATS.md has the rules {rules}")
    order = re.search(r"in\s+the\s+order\s+(`file`.*?),\s+then\s+by\s+the\s+first\s+element", formats, re.S)
    if (*re.findall(r"`(\w+)`", order[1]), "keys") != errors.MEMBERS:
        faults.append(f"docs/FORMATS.md has the members {order[1]}")
    header = (TOP / "include/msat.h").read_text()
    for start, wanted_names in (("MSAT_RULE_", errors.RULES), ("MSAT_MEMBER_", errors.MEMBERS), ("MSAT_RUN_", errors.FAULTS)):
        found = re.findall(rf"^    {start}(\w+)(?: = \d)?,?(?: /\*.*\*/)?$", header, re.M)
        if [name.replace("_", "").lower() for name in found] != [name.lower() for name in wanted_names]:
            faults.append(f"include/msat.h has {start}.. of {found}")
    numbered = (TOP / "crates/ms_calls/specs/Reasons.antt").read_text()
    for called, wanted_names in (("rule", errors.RULES), ("member", ("Whole", *(name.title() for name in errors.MEMBERS[1:-1])))):
        found = re.findall(rf"^code_of_{called} {called}\.(\w+) = (\d+)$", numbered, re.M)
        if found != [(name, str(number)) for number, name in enumerate(wanted_names)]:
            faults.append(f"ms_calls numbers each {called} otherwise: {found}")
    faults_numbered = re.findall(r"^number_of_fault fault\.(\w+) = (\d+)$", (TOP / "crates/ms_calls/specs/Ran.antt").read_text(), re.M)
    if faults_numbered != [(name, str(number + 1)) for number, name in enumerate(errors.FAULTS[:-1])]:
        faults.append(f"ms_calls numbers each fault otherwise: {faults_numbered}")
    listed = re.search(r"enum \{\s*/\* of a text \*/(.*?)\};", (TOP / "include/msat.h").read_text(), re.S)
    kinds = [name.lower().replace("_", "") for name in re.findall(r"MSAT_(\w+)", listed[1])]
    wanted = [*map(str.lower, errors.TEXT_KINDS), "filetoolong", *map(str.lower, errors.FILE_KINDS[1:-2]), "filerepeatedkey", "length"]
    if kinds != wanted:
        faults.append(f"include/msat.h has the kinds {kinds}")


def try_edges() -> None:
    """Texts and files that aren't UTF-8 or have a NUL, exceptions that are copied, and files of no kind."""
    for word in ("\ud800", "\udcff", "a\0", "\0"):
        if msat.answer(["script", word]) != (11, ""):
            faults.append(f"answer {word!a}: {msat.answer(['script', word])}")
        for call in (msat.script, msat.facts, msat.check, msat.policy):
            if refusal(call, word) != ("Unreadable", ""):
                faults.append(f"{call.__name__} {word!a}: {refusal(call, word)}")
        for call in (msat.satisfy, msat.witness, msat.least_weight, msat.plan, msat.audit):
            if refusal(call, word, b"{}") != ("Unreadable", ""):
                faults.append(f"{call.__name__} {word!a}: {refusal(call, word, b'{}')}")
    for file in ("\ud800", "\udcff", b"\xff", bytearray(b"\xff")):
        if refusal(msat.least_weight, f"pk({KEYS[0]})", file) != ("FileRefused", "refused file NotJson\n"):
            faults.append(f"a file {file!a}")
    for file in ([1, 2], 5, None, Path("/")):
        try:
            msat.satisfy(f"pk({KEYS[0]})", file)
            faults.append(f"a file {file!r} is taken")
        except TypeError:
            pass
    refused = [errors.MsatError("r\n"), errors.Unreadable(""), errors.TextRefused("refused text Size 9\n", "Size", None, None, 9),
               errors.FileRefused("refused file Hex script 1\n", "Hex", "script", 1)]  # fmt: skip
    for one in refused:
        for other in (copy.copy(one), copy.deepcopy(one), pickle.loads(pickle.dumps(one))):
            if type(other) is not type(one) or vars(other) != vars(one) or str(other) != str(one):
                faults.append(f"a copy of {one!r} is {other!r}")


def held_by(file: dict) -> msat.Assets:
    """The assets of an asset file."""
    numbers = {name: file[name] for name in ("version", "sequence", "locktime") if name in file}
    signatures = tuple(msat.Signature(bytes.fromhex(it["key"]), bytes.fromhex(it["sig"])) for it in file.get("signatures", []))
    return msat.Assets(signatures=signatures, preimages=tuple(map(bytes.fromhex, file.get("preimages", []))), **numbers)


def try_arrays() -> None:
    """What is held in arrays gives what a file with the same does, also where it is refused, in rooms of several lengths."""
    random.seed(2)
    keys = [bytes.fromhex(key) for key in KEYS]
    held = [held_by(json.loads(path.read_text())) for path in TOP.glob("examples/*/assets.json")]
    for number in range(400):
        some = random.choices(keys, k=random.randrange(6))
        signatures = tuple(msat.Signature(key, random.choice([b"", b"\x30"]) + random.randbytes(random.choice([1, 40, 71, 72, 73]))) for key in some)
        if number % 40 == 0:
            signatures += (msat.Signature(b"\5" + keys[0][1:], b"1"),)
        known = tuple(random.choices([bytes(32), b"\1" * 32], k=random.randrange(3)))
        held.append(msat.Assets(random.choice([1, 2]), random.choice([9, 144, 4194305, 2**32 - 1]), random.choice([0, 9, 600000000]), signatures, known))
    texts = [path.read_text().rstrip("\n") for path in TOP.glob("examples/*/text")]
    texts += [f"multi(2,{','.join(KEYS[:3])})", f"or_d(pk({KEYS[0]}),and_v(v:pkh({KEYS[1]}),older(9)))", f"and_v(v:pk({KEYS[2]}),sha256({HASH}))", "pk(1)", "\udcff"]
    for assets in held:
        for text in random.sample(texts, 6):
            for malleable, consensus in ((False, False), (True, True)):
                by_arrays = refusal(msat.witness, text, assets, malleable=malleable, consensus=consensus)
                by_file = refusal(msat.witness, text, assets.json(), malleable=malleable, consensus=consensus)
                if by_arrays != by_file:
                    faults.append(f"arrays {text} {assets}: {by_arrays}, and by the file {by_file}")
    room = [msat._library.satisfy(False, False, texts[-5].encode(), *held_of(keys), size, most)[1] for size, most in ((0, 0), (1, 1), (150, 3), (9000, 9))]
    if len({*room}) != 1 or len(room[0]) != 4:
        faults.append(f"arrays: other items with other room: {room}")


def plan_by(file: dict) -> msat.Assets:
    """The assets of a plan file."""
    keys = tuple(msat.Estimate(bytes.fromhex(it["key"]), it["length"]) for it in file.get("keys", []))
    return replace(held_by(file), keys=keys)


def run_by(file: dict) -> msat.Run:
    """The run of a run file."""
    numbers = {name: file[name] for name in ("version", "sequence", "locktime") if name in file}
    signatures = tuple(msat.Signature(bytes.fromhex(it["key"]), bytes.fromhex(it["sig"])) for it in file.get("signatures", []))
    return msat.Run(bytes.fromhex(file["script"]), tuple(map(bytes.fromhex, file.get("witness", []))), signatures, **numbers)


def read_files(name: str, made_of) -> list:
    """What the files of this name in the examples are made to, where they can be."""
    found = []
    for path in TOP.glob(f"examples/*/{name}"):
        try:
            found.append(made_of(json.loads(path.read_text())))
        except (KeyError, TypeError, ValueError):
            pass
    return found


def try_plan_arrays(texts: list[str]) -> None:
    """Plans by arrays are those by a file with the same, also where either is refused."""
    random.seed(3)
    keys = [bytes.fromhex(key) for key in KEYS] + [b"\5" * 33]
    held = read_files("plan.json", plan_by)
    for number in range(300):
        some = random.sample(keys[: len(keys) - (number % 9 > 0)], random.randrange(5)) + [keys[0]] * (number % 50 == 0)
        estimates = tuple(msat.Estimate(key, random.choice([70, 71, 72, 73, 1, 74, 0] if number % 5 == 0 else [71, 72])) for key in some)
        known = tuple(random.choices([bytes(32), b"\1" * 32], k=random.randrange(3)))
        held.append(msat.Assets(2, random.choice([9, 144, 2**32 - 1]), random.choice([0, 9]), (), known, keys=estimates))
    for assets in held:
        for text in random.sample(texts, 6):
            by_arrays, by_file = refusal(msat.plan, text, assets), refusal(msat.plan, text, assets.json())
            # a file without the member `keys` says the same as one without a key
            if by_arrays != by_file:
                faults.append(f"a plan by arrays {text} {assets}: {by_arrays}, and by the file {by_file}")
            note_names(by_arrays)
    if {"FileRefused Length", "FileRefused KeyForm", "FileRefused RepeatedKey"} - named:
        faults.append("not every refusal of plans was tried")


def try_run_arrays(texts: list[str]) -> None:
    """Runs and audits by arrays are those by a file with the same, also where either is refused, in rooms of several lengths."""
    random.seed(4)
    runs = read_files("run.json", run_by)
    runs += [replace(run, stack=run.stack[1:]) for run in runs] + [replace(run, signatures=()) for run in runs]
    runs += [replace(runs[0], stack=(b"",) * 2001), replace(runs[0], signatures=runs[0].signatures * 257)]
    for run in runs:
        if refusal(msat.run, run) != refusal(msat.run, run.json()):
            faults.append(f"a run by arrays {run}: {refusal(msat.run, run)}, and by the file {refusal(msat.run, run.json())}")
        for text in texts:
            if refusal(msat.audit, text, run) != refusal(msat.audit, text, run.json()):
                faults.append(f"an audit by arrays {text} {run}: {refusal(msat.audit, text, run)}, and by the file {refusal(msat.audit, text, run.json())}")
    for run, text in zip(runs, texts):
        lent = run.arrays()
        if lent is None:
            continue
        told = {(code, items) for code, items, _, _ in (msat._library.run(*lent, size, most) for size, most in ((0, 0), (1, 1), (9000, 9)))}
        steps = [msat._library.audit(text.encode(errors="surrogateescape"), *lent, most)[:3] for most in (0, 1, 300)]
        if len(told) != 1 or any(step != steps[0] for step in steps):
            faults.append(f"a run or an audit says something else with other room: {run}")


def try_more_arrays() -> None:
    texts = [path.read_text().rstrip("\n") for path in sorted(TOP.glob("examples/*/text"))] + ["pk(1)", "\udcff", "1"]
    try_plan_arrays(texts)
    try_run_arrays(texts)


def held_of(keys: list[bytes]) -> tuple:
    """A signature of each key, in arrays."""
    return (2, 9, 9), [(key, b"\x30" * 71) for key in keys], []


def try_version() -> None:
    """The versions of the package, of the library, of the header and of the crates of Rust are one."""
    header = (TOP / "include/msat.h").read_text()
    told = tuple(int(re.search(rf"MSAT_VERSION_{part} (\d+)", header)[1]) for part in ("MAJOR", "MINOR", "PATCH"))
    named = ".".join(map(str, told))
    crates = [re.search(r'^version = "(.*)"', (TOP / f"rust/{name}/Cargo.toml").read_text(), re.M)[1] for name in ("msat-sys", "msat")]
    packaged = re.search(r"^Version: (.*)", (TOP / "include/msat.pc.in").read_text(), re.M)[1]
    logged = re.search(r"^## (\d.*)", (TOP / "CHANGELOG.md").read_text(), re.M)[1]
    if msat._library.version() != told or {msat.__version__, packaged, logged, *crates} != {named}:
        faults.append(f"versions: {msat._library.version()}, {told}, {msat.__version__}, {packaged}, {logged}, {crates}")


def try_folders(folders: list[Path]) -> None:
    for folder in folders:
        try_answer(folder)
        try_class(folder)


def in_threads(count: int, *calls) -> None:
    """Calls with their arguments one after the other, in each of so many threads at once, whose stacks have 512 KiB."""
    threading.stack_size(512 * 1024)

    def each() -> None:
        for call, *arguments in calls:
            call(*arguments)

    threads = [threading.Thread(target=each) for _ in range(count)]
    for thread in threads:
        thread.start()
    for thread in threads:
        thread.join()


folders = sorted(path.parent for path in TOP.glob("examples/*/words"))
try_folders(folders)
in_threads(8, (try_folders, folders))
in_threads(1, (try_refusals,))
try_arrays()
try_more_arrays()
try_names()
try_version()
try_edges()
for module in (msat, msat.results, errors, msat._library):
    failed = doctest.testmod(module, optionflags=doctest.IGNORE_EXCEPTION_DETAIL).failed
    if failed:
        faults.append(f"{module.__name__}: {failed} examples of docstrings fail")
print("\n".join(sorted(set(faults))), end="\n" if faults else "")
print(f"python: {len(folders)} examples tried, {len(faults)} faults")
sys.exit(bool(faults))
