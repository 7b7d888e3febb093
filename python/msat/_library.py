# SPDX-License-Identifier: MIT
"""The shared object, by ctypes: the one place that knows what C is called, and with which types."""

import ctypes
import os
from pathlib import Path
from typing import Any, Callable, Optional, Sequence

NAME = "libmsat.so.1"
DONE = 0
NO_MEMORY = 7
UNREADABLE = 11
POINT = 65  # the bytes of a point
NEVER = 2**64 - 1  # the number of keys where no signatures are enough
MAJOR = 1  # the major version of the library that this package is for


class Reason(ctypes.Structure):
    """struct msat_reason: why a text or an asset file is refused."""

    _fields_ = [
        ("kind", ctypes.c_uint32),
        ("rule", ctypes.c_uint32),
        ("place", ctypes.c_uint32),
        ("number", ctypes.c_uint64),
    ]


class Facts(ctypes.Structure):
    """struct msat_facts: what is known of a sane text."""

    _fields_ = [
        *((name, ctypes.c_uint64) for name in ("size", "ops", "items", "weight", "height")),
        ("base", ctypes.c_uint32),
        *((letter, ctypes.c_bool) for letter in "zondusfe"),
    ]


class Outcome(ctypes.Structure):
    """struct msat_outcome: what a run comes to."""

    _fields_ = [(name, ctypes.c_uint32) for name in ("ops", "peak", "fault", "place")]


class Step(ctypes.Structure):
    """struct msat_step: how a node of a text takes part in a satisfaction."""

    _fields_ = [("place", ctypes.c_uint32), ("sat", ctypes.c_bool), ("extra", ctypes.c_bool)]


def places(package: Path) -> list[Path]:
    """Where the shared object of a package may lie, whose folder this is: beside it, and where `./install` has put both, in the
    folder `lib` of the prefix or, as on Debian, in `lib/x86_64-linux-gnu`. No other place is looked at, so that nothing is loaded that
    others could have put there.

    >>> [str(place) for place in places(Path("/usr/lib/python3/dist-packages/msat"))]
    ['/usr/lib/python3/dist-packages/msat/libmsat.so.1', '/usr/lib/libmsat.so.1', '/usr/lib/x86_64-linux-gnu/libmsat.so.1']
    >>> [str(place) for place in places(Path("/tmp/checkout/python/msat"))]
    ['/tmp/checkout/python/msat/libmsat.so.1']
    """
    installed = any(package.match(f"lib/python3*/{name}/msat") for name in ("dist-packages", "site-packages"))
    libraries = (package.parents[2], package.parents[2] / "x86_64-linux-gnu") if installed else ()
    return [folder / NAME for folder in (package, *libraries)]


def _load() -> ctypes.CDLL:
    """The shared object, with each call that this package makes. ImportError where it isn't there, can't be loaded or lacks one."""
    told = os.environ.get("MSAT_LIBRARY")
    tried = [Path(told)] if told else places(Path(__file__).resolve().parent)
    place = next((it for it in tried if it.exists()), None)
    if place is None:
        names = ", ".join(map(str, tried))
        raise ImportError(f"msat: {NAME} isn't there ({names}): ./install puts it there, and MSAT_LIBRARY names another place")
    try:
        library = ctypes.CDLL(str(place))
        for name, types in _CALLS.items():
            getattr(library, name).restype = ctypes.c_uint32
            getattr(library, name).argtypes = types
    except (OSError, AttributeError) as error:
        raise ImportError(f"msat: {place} can't be loaded as the library that this package is for: {error}") from error
    return library


_READ = [ctypes.c_char_p, ctypes.c_size_t]
_BYTES = [ctypes.POINTER(ctypes.c_uint8), ctypes.c_size_t]
_SIZES = [ctypes.POINTER(ctypes.c_size_t), ctypes.c_size_t]
_SIZE = ctypes.POINTER(ctypes.c_size_t)
_REASON = ctypes.POINTER(Reason)
_OUTCOME = ctypes.POINTER(Outcome)
_RUN = [*3 * [ctypes.c_uint32], *_READ, *_READ, *_SIZES, *_READ, *_READ, *_SIZES]  # the locks, the script, the stack, the good pairs
_CALLS: dict[str, list[Any]] = {
    "msat_version": [],
    "msat_answer": [ctypes.c_size_t, *_READ, *_READ, *_BYTES, _SIZE],
    "msat_psbt_answer": [ctypes.c_size_t, *_READ, *_READ, *_BYTES, _SIZE],
    "msat_descriptor_answer": [ctypes.c_size_t, *_READ, *_READ, *_BYTES, _SIZE],
    "msat_script": [ctypes.c_bool, *_READ, *_BYTES, _SIZE, _REASON],
    "msat_check": [ctypes.c_bool, *_READ, ctypes.POINTER(Facts), _REASON],
    "msat_least_weight": [ctypes.c_bool, *_READ, *_READ, ctypes.POINTER(ctypes.c_uint64), _REASON],
    "msat_satisfy": [
        ctypes.c_bool, ctypes.c_bool, *_READ, *3 * [ctypes.c_uint32], *_READ, *_READ, *_SIZES, *_READ, *_BYTES, _SIZE, *_SIZES, _SIZE, _REASON,
    ],  # fmt: skip
    "msat_plan": [
        *_READ, *3 * [ctypes.c_uint32], *_READ, *_SIZES, *_READ, *_BYTES, _SIZE, ctypes.POINTER(ctypes.c_uint64), _REASON,
    ],  # fmt: skip
    "msat_run": [*_RUN, *_BYTES, _SIZE, *_SIZES, _SIZE, _OUTCOME, _REASON],
    "msat_audit": [
        *_READ, *_RUN, ctypes.POINTER(Step), ctypes.c_size_t, _SIZE, ctypes.POINTER(ctypes.c_bool), _OUTCOME, _REASON,
    ],  # fmt: skip
    "msat_policy": [*_READ, *_BYTES, _SIZE, ctypes.POINTER(ctypes.c_uint64), _REASON],
    "msat_decode": [*_READ, *_READ, *_BYTES, _SIZE],
    "msat_witness": [ctypes.c_bool, ctypes.c_bool, *_READ, *_READ, *_BYTES, _SIZE, *_SIZES, _SIZE, _REASON],
    "msat_signature": [*_READ, *_READ, *_READ],
    "msat_point": [*_READ, *_BYTES, _SIZE],
}

_library = _load()


def version() -> tuple[int, int, int]:
    """The version of the shared object that is loaded."""
    number = _library.msat_version()
    return number // 1000000, number // 1000 % 1000, number % 1000


if version()[0] != MAJOR:
    raise ImportError(f"msat: {_library._name} has the version {'.'.join(map(str, version()))}, and this package is for {MAJOR}")


def answer(words: Sequence[bytes], source: bytes, room: int = 32768, call: str = "msat_answer") -> tuple[int, bytes]:
    """The code and the whole report of a call of msat_answer, or of another that takes words. Codes 7 and 11 come without a report.

    The report is given room for so many bytes at first, and for all that it needs where it is longer.
    """
    joined = b"".join(word + b"\0" for word in words)
    needed = ctypes.c_size_t(0)
    while True:
        report = (ctypes.c_uint8 * room)()
        code = getattr(_library, call)(
            len(words), joined, len(joined), source, len(source), report, room, ctypes.byref(needed)
        )
        if code in (NO_MEMORY, UNREADABLE):
            return code, b""
        if needed.value <= room:
            return code, bytes(memoryview(report)[: needed.value])
        room = needed.value


def script(consensus: bool, text: bytes, room: int = 4096) -> tuple[int, bytes, Reason]:
    """The code, the Script and the reason of a call of msat_script."""
    needed, reason = ctypes.c_size_t(0), Reason()
    while True:
        found = (ctypes.c_uint8 * room)()
        code = _library.msat_script(
            consensus, text, len(text), found, room, ctypes.byref(needed), ctypes.byref(reason)
        )
        if needed.value <= room:
            return code, bytes(memoryview(found)[: needed.value]), reason
        room = needed.value


def check(consensus: bool, text: bytes) -> tuple[int, Facts, Reason]:
    """The code, the facts and the reason of a call of msat_check."""
    facts, reason = Facts(), Reason()
    code = _library.msat_check(consensus, text, len(text), ctypes.byref(facts), ctypes.byref(reason))
    return code, facts, reason


def least_weight(consensus: bool, text: bytes, file: bytes) -> tuple[int, Optional[int], Reason]:
    """The code, the weight and the reason of a call of msat_least_weight."""
    weight, reason = ctypes.c_uint64(0), Reason()
    code = _library.msat_least_weight(
        consensus, text, len(text), file, len(file), ctypes.byref(weight), ctypes.byref(reason)
    )
    return code, weight.value if code == DONE else None, reason


def witness(
    malleable: bool, consensus: bool, text: bytes, file: bytes, room: int = 8192, most: int = 128
) -> tuple[int, tuple[bytes, ...], Reason]:
    """The code, the items and the reason of a call of msat_witness."""
    return _items(room, most, lambda *out: _library.msat_witness(malleable, consensus, text, len(text), file, len(file), *out))


def satisfy(
    malleable: bool, consensus: bool, text: bytes, locks: tuple[int, int, int], pairs: Sequence[tuple[bytes, bytes]],
    preimages: Sequence[bytes], room: int = 8192, most: int = 128,
) -> tuple[int, tuple[bytes, ...], Reason]:  # fmt: skip
    """The code, the items and the reason of a call of msat_satisfy, of keys with their signatures."""
    keys, signatures = b"".join(key for key, _ in pairs), b"".join(sig for _, sig in pairs)
    sizes, known = (ctypes.c_size_t * len(pairs))(*(len(sig) for _, sig in pairs)), b"".join(preimages)
    held = (text, len(text), *locks, keys, len(keys), signatures, len(signatures), sizes, len(pairs), known, len(known))
    return _items(room, most, lambda *out: _library.msat_satisfy(malleable, consensus, *held, *out))


def plan(
    text: bytes, locks: tuple[int, int, int], keys: Sequence[tuple[bytes, int]], preimages: Sequence[bytes]
) -> tuple[int, tuple[bytes, ...], int, Reason]:
    """The code, the keys to ask, the weight and the reason of a call of msat_plan, of keys with the lengths of their signatures."""
    joined, known = b"".join(key for key, _ in keys), b"".join(preimages)
    sizes = (ctypes.c_size_t * len(keys))(*(length for _, length in keys))
    needed, weight, reason, asked = ctypes.c_size_t(0), ctypes.c_uint64(0), Reason(), (ctypes.c_uint8 * len(joined))()
    code = _library.msat_plan(
        text, len(text), *locks, joined, len(joined), sizes, len(keys), known, len(known), asked, len(joined), ctypes.byref(needed),
        ctypes.byref(weight), ctypes.byref(reason),
    )  # fmt: skip
    found = bytes(memoryview(asked)[: needed.value])
    return code, _parts(found, [33] * (len(found) // 33)), weight.value, reason


def run(
    locks: tuple[int, int, int], script: bytes, stack: Sequence[bytes], pairs: Sequence[tuple[bytes, bytes]], room: int = 8192, most: int = 128
) -> tuple[int, tuple[bytes, ...], Outcome, Reason]:  # fmt: skip
    """The code, the good keys and signatures in turn, the outcome and the reason of a call of msat_run."""
    outcome, lent = Outcome(), _run(locks, script, stack, pairs)

    def call(*out: object) -> int:
        return int(_library.msat_run(*lent, *out[:-1], ctypes.byref(outcome), out[-1]))

    code, items, reason = _items(room, most, call)
    return code, items, outcome, reason


def audit(
    text: bytes, locks: tuple[int, int, int], script: bytes, stack: Sequence[bytes], pairs: Sequence[tuple[bytes, bytes]], most: int = 256
) -> tuple[int, list[tuple[int, bool, bool]], bool, Outcome, Reason]:  # fmt: skip
    """The code, the steps, whether they are canonical, the outcome and the reason of a call of msat_audit."""
    lent = _run(locks, script, stack, pairs)
    count, canonical, outcome, reason = ctypes.c_size_t(0), ctypes.c_bool(False), Outcome(), Reason()
    while True:
        steps = (Step * most)()
        code = _library.msat_audit(
            text, len(text), *lent, steps, most, ctypes.byref(count), ctypes.byref(canonical), ctypes.byref(outcome), ctypes.byref(reason)
        )  # fmt: skip
        if count.value <= most:
            return code, [(step.place, step.sat, step.extra) for step in steps[: count.value]], canonical.value, outcome, reason
        most = count.value


def _run(locks: tuple[int, int, int], script: bytes, stack: Sequence[bytes], pairs: Sequence[tuple[bytes, bytes]]) -> tuple[object, ...]:
    """What msat_run and msat_audit are given of a run."""
    items, keys, signatures = b"".join(stack), b"".join(key for key, _ in pairs), b"".join(sig for _, sig in pairs)
    lengths = (ctypes.c_size_t * len(stack))(*map(len, stack))
    sizes = (ctypes.c_size_t * len(pairs))(*(len(sig) for _, sig in pairs))
    return (
        *locks, script, len(script), items, len(items), lengths, len(stack), keys, len(keys), signatures, len(signatures), sizes, len(pairs),
    )  # fmt: skip


def policy(text: bytes, room: int = 4096) -> tuple[int, str, int, Reason]:
    """The code, the printed policy, the number of keys and the reason of a call of msat_policy."""
    needed, keys, reason = ctypes.c_size_t(0), ctypes.c_uint64(0), Reason()
    while True:
        found = (ctypes.c_uint8 * room)()
        code = _library.msat_policy(
            text, len(text), found, room, ctypes.byref(needed), ctypes.byref(keys), ctypes.byref(reason)
        )
        if needed.value <= room:
            return code, bytes(memoryview(found)[: needed.value]).decode(), keys.value, reason
        room = needed.value


def decode(script: bytes, keys: bytes, room: int = 4096) -> tuple[int, str]:
    """The code and the text of a call of msat_decode."""
    needed = ctypes.c_size_t(0)
    while True:
        found = (ctypes.c_uint8 * room)()
        code = _library.msat_decode(script, len(script), keys, len(keys), found, room, ctypes.byref(needed))
        if needed.value <= room:
            return code, bytes(memoryview(found)[: needed.value]).decode()
        room = needed.value


def signature(key: bytes, hash: bytes, sig: bytes) -> int:
    """The answer of a call of msat_signature."""
    return int(_library.msat_signature(key, len(key), hash, len(hash), sig, len(sig)))


def point(key: bytes) -> tuple[int, bytes]:
    """The code and the point of a call of msat_point."""
    found, needed = (ctypes.c_uint8 * POINT)(), ctypes.c_size_t(0)
    code = _library.msat_point(key, len(key), found, POINT, ctypes.byref(needed))
    return code, bytes(memoryview(found)[: needed.value])


def _items(room: int, most: int, call: Callable[..., int]) -> tuple[int, tuple[bytes, ...], Reason]:
    """The code, the items and the reason of a call that gives items, which is made again where there was too little room."""
    needed, count, reason = ctypes.c_size_t(0), ctypes.c_size_t(0), Reason()
    while True:
        found, lengths = (ctypes.c_uint8 * room)(), (ctypes.c_size_t * most)()
        code = call(found, room, ctypes.byref(needed), lengths, most, ctypes.byref(count), ctypes.byref(reason))
        if needed.value <= room and count.value <= most:
            return code, _parts(bytes(memoryview(found)[: needed.value]), lengths[: count.value]), reason
        room, most = max(room, needed.value), max(most, count.value)


def _parts(joined: bytes, lengths: Sequence[int]) -> tuple[bytes, ...]:
    """Bytes that lie one after the other, with these lengths."""
    parts, start = [], 0
    for length in lengths:
        parts.append(joined[start : start + length])
        start += length
    return tuple(parts)
