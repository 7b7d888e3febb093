# SPDX-License-Identifier: MIT
"""What the calls give, and what they are given."""

import json
from dataclasses import dataclass, field
from typing import Optional, Union


@dataclass(frozen=True)
class Limits:
    """What a miniscript takes at most: the bytes of its Script, the opcodes that count in a run of it, and the items and the
    weight of a canonical satisfaction. By the rules of consensus also the elements that the stacks hold together in its run."""

    size: int
    ops: int
    items: int
    weight: int
    height: Optional[int] = None


@dataclass(frozen=True)
class Checked:
    """What is known of a sane text: its printed form, its type letters, its Script, the program of its output, its limits."""

    text: str
    type: str
    script: bytes
    program: bytes
    limits: Limits


@dataclass(frozen=True)
class Facts:
    """What is known of a sane text without its Script: its limits with the height, and its type letters."""

    limits: Limits
    type: str


@dataclass(frozen=True)
class Replay:
    """What the run of a witness did: opcodes, the stack's items and weight, and the most elements that the stacks held."""

    ops: int
    items: int
    weight: int
    peak: int


@dataclass(frozen=True)
class Satisfaction:
    """How an output is spent: its Script and program, the stack, bottom first, and the whole witness as BIP 144 has it."""

    script: bytes
    program: bytes
    limits: Limits
    items: tuple[bytes, ...]
    witness: bytes
    replay: Replay

    @property
    def stack(self) -> tuple[bytes, ...]:
        """The items of the witness: those of the satisfaction, and the Script as the last one."""
        return (*self.items, self.script)


@dataclass(frozen=True)
class Accepted:
    """An accepted run: opcodes, the most elements that the stacks held, and the pairs of key and signature that were good."""

    ops: int
    peak: int
    checks: tuple[tuple[bytes, bytes], ...]


@dataclass(frozen=True)
class Step:
    """A node that takes part in a satisfaction, at this byte of the text: whether it is satisfied or dissatisfied, and whether
    the row of BIP 379's table isn't canonical."""

    place: int
    satisfied: bool
    extra: bool


@dataclass(frozen=True)
class Audit:
    """How a stack satisfies a text: what its run counted, by which rows, children first, and whether all are canonical."""

    ops: int
    peak: int
    steps: tuple[Step, ...]
    canonical: bool


@dataclass(frozen=True)
class Policy:
    """What a text demands, and the least number of keys that have to sign; None where no signatures are enough."""

    policy: str
    keys: Optional[int]


@dataclass(frozen=True)
class Plan:
    """The keys to ask for a signature, and the most that the satisfaction will weigh then, where none of theirs is longer than
    estimated."""

    keys: tuple[bytes, ...]
    weight: int


@dataclass(frozen=True)
class Signature:
    """A signature as it stands in a witness, in DER with the byte of its hash type, and its key."""

    key: bytes
    sig: bytes


@dataclass(frozen=True)
class Estimate:
    """A key that can sign, and how long its signature will be."""

    key: bytes
    length: int


@dataclass(frozen=True)
class Assets:
    """What a wallet holds for a spend, or in a plan what it will hold. Of several signatures of one key the shortest is taken.

    >>> Assets(sequence=144).json()
    b'{"version": 2, "sequence": 144, "locktime": 0, "signatures": [], "preimages": []}'
    """

    version: int = 2
    sequence: int = 4294967294
    locktime: int = 0
    signatures: tuple[Signature, ...] = ()
    preimages: tuple[bytes, ...] = ()
    keys: tuple[Estimate, ...] = field(default=(), kw_only=True)

    def arrays(self) -> Optional[tuple[tuple[int, int, int], list[tuple[bytes, bytes]], tuple[bytes, ...]]]:
        """The numbers of the locks, the keys with their signatures, and the preimages, as the library takes them in arrays; None
        where they don't lie there piece by piece, or are too many, and are refused as a file.

        >>> Assets(signatures=(Signature(33 * b"\\2", b"\\0"),), locktime=9).arrays()[0]
        (2, 4294967294, 9)
        >>> Assets(signatures=(Signature(b"\\2", b"\\0"),)).arrays() is None
        True
        """
        locks = (self.version, self.sequence, self.locktime)
        fit = all(len(it.key) == 33 for it in self.signatures) and all(len(it) == 32 for it in self.preimages)
        few = len(self.signatures) <= 256 and len(self.preimages) <= 256
        if not fit or not few or not all(0 <= number < 2**32 for number in locks):
            return None
        return locks, [(it.key, it.sig) for it in self.signatures], tuple(self.preimages)

    def plan_arrays(self) -> Optional[tuple[tuple[int, int, int], list[tuple[bytes, int]], tuple[bytes, ...]]]:
        """The numbers of the locks, the keys with the lengths of their signatures, and the preimages, as the library takes them in arrays;
        None where they are given as a file.

        >>> Assets(keys=(Estimate(33 * b"\\2", 72),)).plan_arrays()[1][0][1]
        72
        """
        locks = (self.version, self.sequence, self.locktime)
        fit = all(len(it.key) == 33 and 0 <= it.length < 2**32 for it in self.keys) and all(len(it) == 32 for it in self.preimages)
        few = len(self.keys) <= 256 and len(self.preimages) <= 256
        if not fit or not few or not all(0 <= number < 2**32 for number in locks):
            return None
        return locks, [(it.key, it.length) for it in self.keys], tuple(self.preimages)

    def json(self) -> bytes:
        """The asset file, in format 2 where a key has several signatures, or with `keys` the plan file.

        >>> two = (Signature(b"\\2", b"\\0"), Signature(b"\\2", b"\\1"))
        >>> json.loads(Assets(signatures=two).json())["format"]
        2
        """
        file: dict[str, object] = {
            "version": self.version,
            "sequence": self.sequence,
            "locktime": self.locktime,
            "signatures": [{"key": it.key.hex(), "sig": it.sig.hex()} for it in self.signatures],
            "preimages": [it.hex() for it in self.preimages],
        }
        if len({it.key for it in self.signatures}) < len(self.signatures):
            file["format"] = 2
        if self.keys:
            file["keys"] = [{"key": it.key.hex(), "length": it.length} for it in self.keys]
        return json.dumps(file).encode()


@dataclass(frozen=True)
class Run:
    """A script, the stack that it runs on, bottom first and without the script, and the signatures that are good.

    >>> Run(b"\\x51").json()
    b'{"version": 2, "sequence": 4294967294, "locktime": 0, "script": "51", "witness": [], "signatures": []}'
    """

    script: bytes
    stack: tuple[bytes, ...] = ()
    signatures: tuple[Signature, ...] = ()
    version: int = 2
    sequence: int = 4294967294
    locktime: int = 0

    def arrays(self) -> Optional[tuple[tuple[int, int, int], bytes, tuple[bytes, ...], list[tuple[bytes, bytes]]]]:
        """The numbers of the locks, the script, the stack and the good pairs, as the library takes them in arrays; None where they don't
        lie there piece by piece, and are given as a file.

        >>> Run(b"\\x51", signatures=(Signature(b"\\2", b"\\0"),)).arrays() is None
        True
        """
        locks = (self.version, self.sequence, self.locktime)
        if not all(len(it.key) == 33 for it in self.signatures) or not all(0 <= number < 2**32 for number in locks):
            return None
        return locks, self.script, tuple(self.stack), [(it.key, it.sig) for it in self.signatures]

    def json(self) -> bytes:
        """The run file."""
        file = {
            "version": self.version,
            "sequence": self.sequence,
            "locktime": self.locktime,
            "script": self.script.hex(),
            "witness": [item.hex() for item in self.stack],
            "signatures": [{"key": it.key.hex(), "sig": it.sig.hex()} for it in self.signatures],
        }
        return json.dumps(file).encode()


File = Union[Assets, Run, dict, str, bytes]


def file_bytes(file: File) -> bytes:
    """The bytes of a file that is given as assets, as an object of JSON, as its text or as they are.

    >>> file_bytes(5)
    Traceback (most recent call last):
    TypeError: a file is Assets, a Run, a dict, a str or bytes, and no int
    """
    if isinstance(file, (Assets, Run)):
        return file.json()
    if isinstance(file, dict):
        return json.dumps(file).encode()
    if isinstance(file, str):
        return spelled(file)
    if isinstance(file, (bytes, bytearray, memoryview)):
        return bytes(file)
    raise TypeError(f"a file is Assets, a Run, a dict, a str or bytes, and no {type(file).__name__}")


def spelled(word: str) -> bytes:
    r"""A text as the bytes that the library reads. A lone surrogate stands for a byte that isn't UTF-8, as in `sys.argv`, and one
    that stands for none gives bytes that aren't UTF-8 either.

    >>> spelled("\udcff"), spelled("\ud800")
    (b'\xff', b'\xed\xa0\x80')
    """
    try:
        return word.encode(errors="surrogateescape")
    except UnicodeEncodeError:
        return word.encode(errors="surrogatepass")
