#!/usr/bin/env python3
"""Tries the Python module msat.psbt, and the library below it: each row of examples/psbt/ by the library's call, byte for byte; what the
classes say of the folders there; signatures that are good and that aren't; the rows of examples/signatures/; and that bad ones count for
nothing, and nothing is lost. Ends with 1 where anything differs.
"""
import base64
import copy
import doctest
import hashlib
import importlib.machinery
import importlib.util
import os
import pickle
import sys
from pathlib import Path

TOP = Path(__file__).resolve().parents[2]
os.chdir(TOP)
sys.path.insert(0, str(TOP / "python"))
sys.dont_write_bytecode = True

import msat  # noqa: E402
from msat import curve, psbt  # noqa: E402

loader = importlib.machinery.SourceFileLoader("rows", ".ci/psbt")
rows = importlib.util.module_from_spec(importlib.util.spec_from_loader("rows", loader))
loader.exec_module(rows)
faults = []


def fault(text):
    faults.append(f"msat.psbt: {text}")


def try_rows():
    """The library's call gives what the program has to."""
    rows.rows_of(rows.ROWS / "pieces")
    count = 0
    for place in [*sorted(rows.ROWS.glob("*/")), *sorted(rows.ROWS.glob("*.rows"))]:
        for row in [rows.row_of(place)] if place.is_dir() else rows.rows_of(place):
            if row.sources:
                count += 1
                faults.extend(row.faults(lambda words, source: psbt._library_answer([word.encode() for word in words], source)))
    return count


def try_classes():
    """What the classes say of each folder is its report."""
    for folder in sorted(rows.ROWS.glob("*/")):
        row = rows.row_of(folder)
        if row.words[0] == ["combine"]:
            try_combined(row)
        elif row.words[0][0] in ("finalize", "inspect", "extract", "hashes", "verify") and row.status != 1:
            for source in (row.sources[0], row.sources[0].decode("latin-1")):
                if isinstance(source, bytes) or source.isascii():
                    try_call(row, row.words[0][0], source, verify=len(row.words[0]) == 1)


def in_kind(source, report):
    return report if isinstance(source, bytes) else report.decode().rstrip("\n")


def try_call(row, word, source, verify):
    """A call of the module against a row: what it gives, or what it raises."""
    report = row.report.decode("latin-1")
    try:
        if word == "finalize":
            said = psbt.finalize(source, verify) == in_kind(source, row.report)
        elif word == "extract":
            digits = psbt.extract(source)
            said = (digits.hex() if isinstance(digits, bytes) else digits) + "\n" == report
        elif word == "inspect":
            told = psbt.inspect(source, verify)
            said = told.is_settled == (row.status == 0) and lines_of(told) == report
        elif word == "verify":
            said = validity_lines_of(psbt.validity(source)) == report
        else:
            said = hash_lines_of(psbt.hashes(source, verify)) == report
    except psbt.PsbtRefused as refused:
        where = "" if refused.place is None else f" at {refused.place}"
        said = row.status == 3 and f"refused psbt {refused.name}{where}\n" == report
        try_copies(refused)
    except psbt.NotFinal as refused:
        said = row.status == 4 and f"not final {refused.input}\n" == report
        try_copies(refused)
    if not said:
        fault(f"{row.name}: {word} says something else of {type(source).__name__}")


def try_combined(row):
    """Lines of PSBTs, each a part, as a str and as bytes: what they give, or what is raised. A line of nothing is no part."""
    lines = row.sources[0].decode("latin-1").split("\n")
    if not all(line.isascii() and "\0" not in line for line in lines):
        return
    places = [number for number, line in enumerate(lines, 1) if line.strip(" \t\r")]
    parts = [lines[number - 1] for number in places]
    report = row.report.decode("latin-1")
    try:
        said = psbt.combine(parts) + "\n" == report and psbt.combine([it.encode() for it in parts]) == row.report
        said = said and psbt.combine([base64.b64decode(it) for it in parts]) == base64.b64decode(report)
    except psbt.PsbtRefused as refused:
        where = "" if refused.place is None else f" at {refused.place}"
        front = "refused psbt" if refused.number is None else f"refused line {places[refused.number - 1]}"
        said = row.status == 3 and f"{front} {refused.name}{where}\n" == report
        try_copies(refused)
    if not said:
        fault(f"{row.name}: combine says something else")


def try_copies(one):
    for other in (copy.copy(one), copy.deepcopy(one), pickle.loads(pickle.dumps(one))):
        if type(other) is not type(one) or vars(other) != vars(one) or str(other) != str(one):
            fault(f"a copy of {one!r} is {other!r}")


def digits(part):
    return part.hex() or "-"


def lines_of(told):
    """The report that an inspection was read from."""
    lines = [
        f"psbt inputs {len(told.inputs)} outputs {len(told.outputs)} version {told.version} locktime {told.locktime} txid {told.txid}",
        *([f"final txid {told.final_txid}"] if told.final_txid else []),
        *(f"output {number} {output.amount} {digits(output.script)}" for number, output in enumerate(told.outputs)),
        "fee " + " ".join(map(str, filter(lambda part: part is not None, (told.fee.satoshis, told.fee.kind)))),
    ]
    for it in told.inputs:
        lines.append(f"input {it.number} {it.state}" + (f" {it.reason}" if it.reason else ""))
        lines.append(f"outpoint {it.txid} {it.index} sequence {it.sequence}")
        kind = "proved" if it.is_proved else "claimed"
        lines.append("amount unknown" if it.amount is None else f"amount {it.amount} {kind}")
        lines += ["unchecked"] if it.state == "Final" else []
        lines += [f"kind {it.kind}"] if it.kind else []
        words = [f" {word}" for word in it.words] or len(it.signatures) * [""]
        lines += [f"signature {key.hex()} {kind}{word}" for (key, kind), word in zip(it.signatures, words, strict=True)]
        lines += [f"text {it.text}"] if it.text else []
        lines += [f"policy {it.policy}"] if it.policy else []
        lines += [] if it.weight is None else [f"weight {it.weight}"]
        lines += [f"ask {key.hex()}" for key in it.asked]
        lines += [] if it.most is None else [f"weight at most {it.most}"]
        lines += ["no plan"] if it.is_vain else []
    return "".join(line + "\n" for line in lines)


def hash_lines_of(told):
    """The report that hashes were read from."""
    lines = []
    for it in told:
        lines.append(f"input {it.number} {it.state}")
        if it.type is not None:
            front = "sign 1" if it.type == 1 else f"sign-other {it.type}"
            lines.append(f"{front} {digits(it.hash or b'')}")
        for check in it.checks:
            lines.append(f"check {check.key.hex()} {check.sig.hex()} {digits(check.hash or b'')}" + (f" {check.word}" if check.word else ""))
    return "".join(line + "\n" for line in lines)


def validity_lines_of(told):
    """The report that verdicts were read from."""
    lines = []
    for it in told:
        lines.append(f"input {it.number} {it.verdict}" + (f" {it.reason}" if it.reason else ""))
        lines += [f"signature {key.hex()} {kind} {word}" for key, kind, word in it.signatures]
    return "".join(line + "\n" for line in lines)


# Signatures, by Python's own arithmetic: with the nonce 1 their point is the generator, so r is its x coordinate.

ORDER = 0xFFFFFFFFFFFFFFFFFFFFFFFFFFFFFFFEBAAEDCE6AF48A03BBFD25E8CD0364141
# The public keys of the private keys 1, 2 and 3.
KEYS = [
    bytes.fromhex("0279be667ef9dcbbac55a06295ce870b07029bfcdb2dce28d959f2815b16f81798"),
    bytes.fromhex("02c6047f9441ed7d6d3045406e95c07cd85c778e4b8cef3ca7abac09b95c709ee5"),
    bytes.fromhex("02f9308a019258c31049344f85f89d5229b531c845836f99b08601f113bce036f9"),
]
POINT = int.from_bytes(KEYS[0][1:], "big")


def signature(secret, digest, is_high=False):
    """In DER, without the byte of its type, with a low S or a high one."""
    s = (int.from_bytes(digest, "big") + secret * POINT) % ORDER
    return der(POINT, max(s, ORDER - s) if is_high else min(s, ORDER - s))


def der(*numbers):
    parts = b"".join(b"\2" + bytes([len(it)]) + it for it in (n.to_bytes(n.bit_length() // 8 + 1, "big") for n in numbers))
    return b"\x30" + bytes([len(parts)]) + parts


def try_signatures():
    digest = hashlib.sha256(b"a PSBT").digest()
    for secret, key in enumerate(KEYS, 1):
        good = signature(secret, digest)
        if not psbt.is_signature_of(key, good, digest):
            fault(f"a good signature of the private key {secret} isn't")
        if psbt.is_signature_of(key, signature(secret, digest, is_high=True), digest):
            fault("a signature with a high s is good")
        if psbt.is_signature_of(key, good, hashlib.sha256(digest).digest()) or psbt.is_signature_of(KEYS[secret % 3], good, digest):
            fault("a signature of another hash or of another key is good")
        for place in range(len(good)):
            if psbt.is_signature_of(key, good[:place] + bytes([good[place] ^ 1]) + good[place + 1 :], digest):
                fault(f"a signature with another byte {place} is good")
    if psbt.is_signature_of(b"\2" + 32 * b"\0", good, digest):
        fault("a key that isn't on the curve has signed")


def spelled(word):
    return b"" if word == "-" else bytes.fromhex(word)


def try_curve():
    """The rows of signatures and keys."""
    for row in (TOP / "examples/signatures/signature.rows").read_text().splitlines():
        name, key, digest, sig, word = row.split()
        if msat.signature(spelled(key), spelled(digest), spelled(sig)) != word:
            fault(f"the signature {name} is another one than {word}")
    for row in (TOP / "examples/signatures/point.rows").read_text().splitlines():
        key, point = row.split()
        if msat.point(spelled(key)) != (spelled(point) or None):
            fault(f"the key {key} has another point")


def pair(key, value):
    return rows.sized(key) + rows.sized(value)


TWO_OF_THREE = b"\x52" + b"".join(map(rows.sized, KEYS)) + b"\x53\xae"


# The version of the PSBTs that are made.
version = 0


def psbt_of(script, *inputs, sequence=0):
    """A PSBT of inputs with this witness script, each with further pairs."""
    spent = (100_000).to_bytes(8, "little") + rows.sized(b"\0\x20" + hashlib.sha256(script).digest())
    ids = [bytes(31) + bytes([i]) for i in range(len(inputs))]
    sequence = sequence.to_bytes(4, "little")
    utxo = pair(b"\1", spent) + pair(b"\5", script)
    if version == 0:
        unsigned = b"\2\0\0\0" + bytes([len(inputs)]) + b"".join(one + bytes(5) + sequence for one in ids) + bytes(5)
        return b"psbt\xff" + pair(b"\0", unsigned) + b"\0" + b"".join(utxo + pairs + b"\0" for pairs in inputs)
    counts = pair(b"\4", bytes([len(inputs)])) + pair(b"\5", b"\0")
    fields = [pair(b"\x0e", one) + pair(b"\x0f", bytes(4)) + pair(b"\x10", sequence) for one in ids]
    maps = b"".join(own + utxo + pairs + b"\0" for own, pairs in zip(fields, inputs))
    return b"psbt\xff" + pair(b"\2", b"\2\0\0\0") + counts + pair(b"\xfb", b"\2\0\0\0") + b"\0" + maps


def signed(*signatures):
    return b"".join(pair(b"\2" + key, sig) for key, sig in signatures)


def signed_psbt(signatures, inputs=2):
    """A PSBT of inputs of two of the three keys; only the last one has these pairs of keys and signatures."""
    return psbt_of(TWO_OF_THREE, *(inputs - 1) * [b""], signed(*signatures))


def try_leaving_out():
    """Of three signatures, of which one is bad and the shortest, the two good ones are taken."""
    digest = psbt.hashes(signed_psbt([]))[-1].hash
    good = [(key, signature(secret, digest) + b"\1") for secret, key in enumerate(KEYS, 1)]
    high = signature(2, digest, is_high=True) + b"\1"
    for bad in (der(1, 1) + b"\1", high, good[2][1], signature(2, digest) + b"\2", signature(2, digest) + b"\4"):
        whole = signed_psbt([good[0], (KEYS[1], bad), good[2]])
        # One of another type than is asked isn't passed over.
        wanted = psbt.finalize(signed_psbt([good[0], good[2]]), verify=False) if bad.endswith(b"\1") else whole
        if [is_good for _, is_good in psbt.verify(whole)] != [True, False, True]:
            fault(f"verify says {psbt.verify(whole)}")
        if psbt.finalize(whole) != wanted:
            fault(f"finalize doesn't leave out {bad.hex()}")
        text = base64.b64encode(whole).decode()
        spaced = "\n".join(text[i : i + 64] for i in range(0, len(text), 64)) + "\n"
        if psbt.finalize(spaced) != base64.b64encode(wanted).decode() or psbt.finalize(spaced.encode()) != base64.b64encode(wanted) + b"\n":
            fault("finalize of base64 gives something else")
    told = psbt.inspect(psbt.finalize(signed_psbt(good)))
    if [it.state for it in told.inputs] != ["Unsatisfied", "Final"]:
        fault(f"finalize of good signatures gives {told}")
    unchecked = psbt.finalize(signed_psbt([good[0], (KEYS[1], der(1, 1) + b"\1"), good[2]]), verify=False)
    if der(1, 1) + b"\1" not in unchecked:
        fault("without verify the shortest signatures aren't taken")


# Where the number of inputs stands: in version 0 in the transaction behind its version, in version 2 by itself.
COUNTED = {b"\0": 4, b"\4": 0}


def size_at(it, at):
    """The CompactSize that stands here, and where it ends."""
    width = {253: 2, 254: 4, 255: 8}.get(it[at], 0)
    return (int.from_bytes(it[at + 1 : at + 1 + width], "little"), at + 1 + width) if width else (it[at], at + 1)


def pairs_at(it, at):
    """The pairs of the map that begins here: where each ends, its key, and where its value begins."""
    while it[at] != 0:
        length, at = size_at(it, at)
        key = it[at : at + length]
        length, value = size_at(it, at + length)
        at = value + length
        yield at, key, value


def maps_of(it):
    """What stands before the maps of inputs, each of them with the 00 at its end, and what stands behind them."""
    at, count = 5, 0
    for at, key, value in pairs_at(it, at):
        if key in COUNTED:
            count, _ = size_at(it, value + COUNTED[key])
    places = [at + 1]
    for _ in range(count):
        at = places[-1]
        for at, _, _ in pairs_at(it, at):
            pass
        places.append(at + 1)
    return it[: places[0]], [it[start:end] for start, end in zip(places, places[1:])], it[places[-1] :]


def kept_forms(source):
    """A PSBT as bytes, as base64 in one line and in several, and what it has to be where nothing of it becomes final."""
    text = base64.b64encode(source).decode()
    yield source, source
    yield text, text
    yield "\n".join(text[i : i + 64] for i in range(0, len(text), 64)), text
    yield text.encode(), text.encode() + b"\n"


def try_nothing_lost():
    """Inputs that stay open come out byte for byte as they went in, with their bad signatures, also beside one that becomes final."""
    digest = psbt.hashes(signed_psbt([]))[-1].hash
    good = [(key, signature(secret, digest) + b"\1") for secret, key in enumerate(KEYS, 1)]
    bad = [(key, signature(secret, digest, is_high=True) + b"\1") for secret, key in enumerate(KEYS, 1)]
    derived = b"".join(pair(b"\6" + key, b"\1\2\3\4" + bytes(8)) for key in KEYS)
    for pairs in (signed(bad[1]), signed(good[0], bad[1]), signed(*bad), signed(bad[2]) + derived, derived + signed(bad[0], good[1]) + pair(b"\xfc\1", b"kept")):
        for source, wanted in kept_forms(psbt_of(TWO_OF_THREE, b"", pairs)):
            if psbt.finalize(source) != wanted:
                fault(f"finalize changes an input that stays open: {pairs.hex()}")
    digest = psbt.hashes(psbt_of(TWO_OF_THREE, *3 * [b""]))[1].hash
    good = [(key, signature(secret, digest) + b"\1") for secret, key in enumerate(KEYS, 1)]
    _, (empty, final, _), _ = maps_of(psbt.finalize(psbt_of(TWO_OF_THREE, b"", signed(good[0], good[2]), b""), verify=False))
    for open_ in (signed(*bad), derived + signed(bad[1]), b""):
        start, (first, _, last), end = maps_of(psbt_of(TWO_OF_THREE, open_, b"", open_))
        wanted = start + first + final + last + end
        source = psbt_of(TWO_OF_THREE, open_, signed(good[0], bad[1], good[2]), open_)
        if final == empty or psbt.finalize(source) != wanted or psbt.finalize(wanted) != wanted:
            fault(f"beside an input that becomes final another one changes: {open_.hex()}")


def try_known_keys():
    """or_d(pk(A),and_v(v:pkh(B),older(144))): the key B is told by a bad signature alone, and is known all the same."""
    a, b = KEYS[:2]
    hashed = b"\x76\xa9" + rows.sized(rows.CALLS["hash160"](b)) + b"\x88\xad"
    script = rows.sized(a) + b"\xac\x73\x64" + hashed + b"\2\x90\0\xb2\x68"
    digest = psbt.hashes(psbt_of(script, pair(b"\6" + b, bytes(4)), sequence=144))[0].hash
    good = [(key, signature(secret, digest) + b"\1") for secret, key in enumerate((a, b), 1)]
    bad = [(key, signature(secret, digest, is_high=True) + b"\1") for secret, key in enumerate((a, b), 1)]
    for pairs, wanted in ((signed(good[0], bad[1]), good[0]), (signed(bad[0], good[1]), good[1]), (signed(bad[1], good[0]), good[0])):
        source = psbt_of(script, pairs, sequence=144)
        final = psbt.finalize(source)
        if [it.state for it in psbt.inspect(source).inputs] != ["Ready"] or [it.state for it in psbt.inspect(final).inputs] != ["Final"]:
            fault(f"with a bad signature the input isn't made final: {psbt.inspect(final)}")
        if final != psbt.finalize(psbt_of(script, signed(wanted) + pair(b"\6" + b, bytes(4)), sequence=144), verify=False):
            fault("the input is made final with another witness, or keeps what was made up")
    for pairs in (signed(bad[1]), signed(*bad)):
        source = psbt_of(script, pairs, sequence=144)
        if psbt.finalize(source) != source:
            fault("an input that stays open has lost a key")


def try_edges():
    for given in (5, None, ["psbt"]):
        try:
            psbt.inspect(given)
            fault(f"a PSBT {given!r} is taken")
        except TypeError:
            pass
    for parts in ([], [""], [signed_psbt([]), b""]):
        try:
            psbt.combine(parts)
            fault(f"{len(parts)} parts are combined")
        except psbt.PsbtRefused:
            pass
    if psbt.inspect(bytearray(signed_psbt([]))) != psbt.inspect(memoryview(signed_psbt([]))):
        fault("a bytearray is another PSBT")
    try_copies(psbt.NoCurve("there is no curve"))


count = try_rows()
try_classes()
try_edges()
try_signatures()
try_curve()
for version in (0, 2):
    try_leaving_out()
    try_nothing_lost()
    try_known_keys()
failed = sum(doctest.testmod(it, optionflags=doctest.IGNORE_EXCEPTION_DETAIL).failed for it in (psbt, curve))
if failed:
    fault(f"{failed} examples of docstrings fail")
print("\n".join(faults), end="\n" if faults else "")
print(f"msat.psbt: {count} rows tried, {len(faults)} faults")
sys.exit(bool(faults))
