# SPDX-License-Identifier: MIT
"""Output descriptors (BIPs 380, 382, 383, 389) of P2WSH conditions and of single keys: what they are, and what they give at each index.

What is asked is answered by the proved library, as the program msat-descriptor answers it. What is Python here, the reading of reports into
classes, is tested and not proved. Compare the first address with the wallet's before money goes there.
"""

from dataclasses import dataclass
from typing import NoReturn, Optional, Sequence

from . import _library
from .errors import MsatError, Refused, Unreadable, Usage
from .psbt import Psbt, source_bytes
from .results import Limits, spelled

__all__ = ["Derived", "DerivedKey", "Descriptor", "DescriptorRefused", "answer", "check", "derive", "derive_all"]

# The options of networks, by their names.
NETWORKS = {"test": "--testnet", "regtest": "--regtest"}
# The most bytes that a report is given room for before its length is known.
_MOST_ROOM = 1 << 26


class DescriptorRefused(Refused):
    """The descriptor is refused: `name` is the reason, and `place` the byte of the descriptor, from 0, where it has one. Where it is read, and
    has no sane condition at a branch and an index, these are `branch` and `index`, and `reason` is the whole reason."""

    def __init__(self, report: str, name: str, place: Optional[int] = None, branch: Optional[int] = None, index: Optional[int] = None,
                 reason: Optional[str] = None):  # fmt: skip
        super().__init__(report, name, place=place)
        self.branch = branch
        self.index = index
        self.reason = reason

    def __reduce__(self) -> tuple[object, ...]:
        """Copies and pickles are made of what it was made of."""
        return type(self), (self.report, self.name, self.place, self.branch, self.index, self.reason)


@dataclass(frozen=True)
class Descriptor:
    """What a descriptor is: its text as it came, with its checksum; its kind, `wsh`, `sh(wsh)`, `wpkh` or `sh(wpkh)`; how many key expressions
    it has; whether it goes by an index; and how many branches it has. Of the first two kinds also the type letters and the limits of its
    condition at branch 0 and index 0, or `unfit`, the reason why there is no sane one there."""

    text: str
    kind: str
    keys: int
    is_ranged: bool
    branches: int
    type: Optional[str] = None
    limits: Optional[Limits] = None
    unfit: Optional[str] = None


@dataclass(frozen=True)
class DerivedKey:
    """A key, and where it comes from: the fingerprint of a key, and the steps from there, to hardened ones of which 2^31 is added."""

    key: bytes
    fingerprint: bytes
    steps: tuple[int, ...] = ()


@dataclass(frozen=True)
class Derived:
    """What a descriptor gives at an index: the address; the output's script; the witness program's script, which is the output's, and of the kinds
    `sh(..)` the redeem script; of conditions the Script and the text that msat takes, which are empty of a single key; and each key, in the
    text's order."""

    index: int
    address: str
    output: bytes
    program: bytes
    script: bytes
    text: str
    keys: tuple[DerivedKey, ...]


def answer(words: Sequence[str], source: Psbt = b"") -> tuple[int, bytes]:
    """The exit status and the report of the program msat-descriptor for these words, where its standard input holds `source`, for `update` a PSBT, as
    bytes or as base64.

    A word that isn't UTF-8, as one with a lone surrogate, or that has a NUL gives 11 and no report.

    >>> answer(["check", "pk(1)"])
    (2, b'refused descriptor Other at 0\\n')
    >>> answer(["check"])
    (1, b'refused usage\\n')
    """
    return _with_room(words, source_bytes(source), 32768)


def _with_room(words: Sequence[str], source: bytes, room: int) -> tuple[int, bytes]:
    """The answer, whose report is given room for so many bytes at first, since a longer one is made twice."""
    if any("\0" in word for word in words):
        return _library.UNREADABLE, b""
    return _library.answer([spelled(word) for word in words], source, max(room, 2 * len(source)), "msat_descriptor_answer")


def check(descriptor: str) -> Descriptor:
    """What a descriptor is, and whether its condition is sane.

    >>> check("wsh(pk(0279be667ef9dcbbac55a06295ce870b07029bfcdb2dce28d959f2815b16f81798))").limits
    Limits(size=35, ops=1, items=1, weight=74, height=None)
    """
    told = dict(line.split(" ", 1) for line in _answered(["check", descriptor], (0, 4)).splitlines())
    return Descriptor(
        text=told["descriptor"],
        kind=told["kind"],
        keys=int(told["keys"]),
        is_ranged=told["ranged"] == "yes",
        branches=int(told["branches"]),
        type=told.get("type"),
        limits=_limits(told["limits"]) if "limits" in told else None,
        unfit=told.get("unfit"),
    )


def derive(descriptor: str, index: int, branch: int = 0, network: Optional[str] = None) -> Derived:
    """What a descriptor gives at an index of a branch. `network` is `test` or `regtest`; without it the address is of the test network where the
    descriptor has a `tpub`, and else of the main one.

    >>> derive("wpkh(0279be667ef9dcbbac55a06295ce870b07029bfcdb2dce28d959f2815b16f81798)", 0).address
    'bc1qw508d6qejxtdg4y5r3zarvary0c5xw7kv8f3t4'
    """
    return derive_all(descriptor, range(index, index + 1), branch, network)[0]


def derive_all(descriptor: str, indices: range, branch: int = 0, network: Optional[str] = None) -> tuple[Derived, ...]:
    """What a descriptor gives at each of some indices of a branch, one after the other: at most 10,000 in one call.

    >>> xpub = "xpub661MyMwAqRbcFW31YEwpkMuc5THy2PSt5bDMsktWQcFF8syAmRUapSCGu8ED9W6oDMSgv6Zz8idoc4a6mr8BDzTJY47LJhkJ8UB7WEGuduB"
    >>> [(given.index, given.keys[0].steps) for given in derive_all(f"wpkh({xpub}/<7;8>/*)", range(2, 4), branch=1)]
    [(2, (8, 2)), (3, (8, 3))]
    """
    if indices.step != 1:
        raise ValueError("indices stand one after the other")
    options = [] if network is None else [_option(network)]
    if branch != 0:
        options += ["--branch", str(branch)]
    room = min(_MOST_ROOM, 32768 + len(indices) * (1024 + 4 * len(descriptor)))
    report = _answered(["derive", *options, descriptor, str(indices.start), str(len(indices))], (0,), room)
    parts: list[list[str]] = []
    for line in report.splitlines():
        if line.startswith("index "):
            parts.append([])
        parts[-1].append(line)
    return tuple(map(_derived, parts))


def _option(network: str) -> str:
    """The option of a network.

    >>> _option("main")
    Traceback (most recent call last):
    ValueError: a network is test or regtest, and no main
    """
    if network not in NETWORKS:
        raise ValueError(f"a network is test or regtest, and no {network}")
    return NETWORKS[network]


def _answered(words: Sequence[str], wanted: tuple[int, ...], room: int = 32768) -> str:
    """The report of these words, where the status is one of those that are wanted; otherwise the refusal is raised."""
    code, report = _with_room(words, b"", room)
    if code not in wanted:
        _refuse(code, report.decode())
    return report.decode()


def _refuse(code: int, report: str) -> NoReturn:
    """Raises the refusal of a report with this status."""
    if code == 2:
        raise _refusal(report)
    if code == 7:
        raise MemoryError("msat: memory was wanting")
    raise {1: Usage, 11: Unreadable}.get(code, MsatError)(report)


def _refusal(report: str) -> DescriptorRefused:
    """The refusal that a report tells.

    >>> refused = _refusal("refused branch 1 index 7 RepeatedKey at 9\\n")
    >>> refused.name, refused.place, refused.branch, refused.index, refused.reason
    ('RepeatedKey', 9, 1, 7, 'RepeatedKey at 9')
    >>> refused = _refusal("refused descriptor TooLong\\n")
    >>> refused.name, refused.place, refused.branch
    ('TooLong', None, None)
    """
    words = report.split()
    at = int(words[words.index("at") + 1]) if "at" in words else None
    if words[1] == "branch":
        return DescriptorRefused(report, words[5], at, int(words[2]), int(words[4]), " ".join(words[5:]))
    return DescriptorRefused(report, words[2], at)


def _limits(line: str) -> Limits:
    """Limits, of what stands behind their name.

    >>> _limits("size 1 ops 2 items 3 weight 4")
    Limits(size=1, ops=2, items=3, weight=4, height=None)
    """
    words = line.split()
    told = dict(zip(words[::2], map(int, words[1::2])))
    return Limits(told["size"], told["ops"], told["items"], told["weight"])


def _derived(lines: list[str]) -> Derived:
    """What is given at an index, of its lines."""
    told = dict(line.split(" ", 1) for line in lines)
    program = bytes.fromhex(told["program"])
    return Derived(
        index=int(told["index"]),
        address=told["address"],
        output=bytes.fromhex(told["output"]) if "output" in told else program,
        program=program,
        script=bytes.fromhex(told.get("script", "")),
        text=told.get("text", ""),
        keys=tuple(_key(line) for line in lines if line.startswith("key ")),
    )


def _key(line: str) -> DerivedKey:
    """A key, of its line.

    >>> _key("key 02aa 0badcafe/84h/3")
    DerivedKey(key=b'\\x02\\xaa', fingerprint=b'\\x0b\\xad\\xca\\xfe', steps=(2147483732, 3))
    """
    _, key, path = line.split()
    print_, *steps = path.split("/")
    return DerivedKey(bytes.fromhex(key), bytes.fromhex(print_), tuple(map(_step, steps)))


def _step(step: str) -> int:
    """A step, of its word: `h` adds 2^31."""
    return int(step[:-1]) + 2**31 if step.endswith("h") else int(step)
