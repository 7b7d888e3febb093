# SPDX-License-Identifier: MIT
"""PSBTs (BIP 174, BIP 370) whose inputs spend P2WSH outputs of sane miniscripts or P2WPKH outputs, by themselves or in P2SH: combined,
finalized, inspected, extracted, what their signatures sign, and whether their final fields are valid.

A PSBT is bytes, or a str of base64, and what comes out is of the same kind. What is asked is answered by the proved library, as the
program msat-psbt answers it: signatures are judged by the library, and those that aren't good don't count. What is Python here, the
reading of reports into classes, is tested and not proved.
"""

import base64
import ctypes
from dataclasses import dataclass
from typing import Iterable, Iterator, NoReturn, Optional, TypeVar, Union

from . import _library
from .curve import signature
from .errors import MsatError, Refused

__all__ = [
    "Check", "Fee", "Hashes", "Input", "Inspection", "NoCurve", "NotFinal", "Output", "PsbtRefused", "Validity", "answer", "combine",
    "extract", "finalize", "hashes", "inspect", "is_signature_of", "validity", "verify",
]  # fmt: skip

Psbt = Union[str, bytes]
P = TypeVar("P", str, bytes, Psbt)


class PsbtRefused(Refused):
    """The PSBT is refused: `name` is the reason, and `place` the byte of the PSBT, from 0, where it has one. Of several that are combined
    `number` is that of the one that is refused, from 1."""


class NotFinal(MsatError):
    """An input isn't Final, so there is no network transaction yet: `input` is the number of the first one, from 0."""

    def __init__(self, report: str, input: int):
        super().__init__(report)
        self.input = input

    def __reduce__(self) -> tuple[object, ...]:
        """Copies and pickles are made of what it was made of."""
        return type(self), (self.report, self.input)


class NoCurve(MsatError):
    """It isn't raised any more: the library judges signatures itself. It was where libsecp256k1 wasn't there."""


@dataclass(frozen=True)
class Output:
    """An output: its amount in satoshis, and the Script that guards it."""

    amount: int
    script: bytes


@dataclass(frozen=True)
class Fee:
    """What the inputs spend beyond the outputs. `kind` is `proved` or `claimed`, with the fee in satoshis, `negative` where the outputs
    are more, or `unknown`. It is proved where a previous transaction proves each amount."""

    kind: str
    satoshis: Optional[int] = None


@dataclass(frozen=True)
class Input:
    """An input as `inspect` tells it, from its number on: `state` is its first word, and `reason` why a miniscript isn't sane. What isn't
    told of its state is None or empty. `kind` is that of the spent output: `p2wsh`, `p2wpkh`, `p2sh-p2wsh`, `p2sh-p2wpkh` or `other`.

    `words` has a word for each of the signatures, `good`, `high` or `bad`; it is empty where none is told, as in states in which it
    isn't known what they sign, and without `verify`. `asked` are the keys to ask for a signature, and `most` what the satisfaction then
    weighs at most; `weight` is what that of a Ready input weighs. `is_vain` says that no signatures would be enough: a preimage is missing,
    or a lock doesn't hold."""

    number: int
    state: str
    reason: Optional[str]
    txid: str
    index: int
    sequence: int
    amount: Optional[int]
    is_proved: bool
    signatures: tuple[tuple[bytes, int], ...] = ()
    text: Optional[str] = None
    policy: Optional[str] = None
    weight: Optional[int] = None
    asked: tuple[bytes, ...] = ()
    most: Optional[int] = None
    is_vain: bool = False
    kind: Optional[str] = None
    words: tuple[str, ...] = ()


@dataclass(frozen=True)
class Inspection:
    """What a transaction does with the money, and of each input what it is, what it demands, and what is missing. `txid` is the id that
    it has with empty scriptSigs: where an output of P2SH is spent the final transaction has another one, which `final_txid` is where
    each final scriptSig is known and one has a byte. `is_settled` says whether all inputs are Final or Ready."""

    version: int
    locktime: int
    txid: str
    outputs: tuple[Output, ...]
    fee: Fee
    inputs: tuple[Input, ...]
    is_settled: bool
    final_txid: Optional[str] = None


@dataclass(frozen=True)
class Check:
    """A signature of an input, by its number: its key, the signature with the byte of its hash type behind, and the hash that it has to
    sign by that byte; None where it is no hash type. `word` is `good`, `high` or `bad`, and None where signatures aren't verified."""

    input: int
    key: bytes
    sig: bytes
    hash: Optional[bytes]
    word: Optional[str] = None

    def is_good(self) -> bool:
        """Whether the key has signed the hash, with a low s: by the word alone."""
        return self.word == "good"


@dataclass(frozen=True)
class Hashes:
    """What an input's signatures sign: `type` is the hash type that is asked, and `hash` what a signature of it signs, None where it is no
    hash type; both are None where the input's state says that no miniscript is known to be sane. Only type 1 (ALL) keeps others from
    changing the transaction."""

    number: int
    state: str
    type: Optional[int]
    hash: Optional[bytes]
    checks: tuple[Check, ...]


@dataclass(frozen=True)
class Validity:
    """Whether the final fields of an input are valid: `verdict` is `open`, with its state as the reason, `unknown` or `invalid`, with what
    isn't known or is wrong first, or `valid`. Then `signatures` has the keys that its run took a signature of, each with the number of
    the signature's hash type, and `good`, or `high` where nodes don't relay it."""

    number: int
    verdict: str
    reason: Optional[str]
    signatures: tuple[tuple[bytes, int, str], ...] = ()


def answer(word: str, psbt: Psbt, verify: bool = True) -> tuple[int, bytes]:
    """The exit status and the report of the program msat-psbt for this word, where its standard input holds the PSBT. Without `verify` the
    option `--unverified` stands behind it. The word `lines` is none here."""
    words = [word] if verify else [word, "--unverified"]
    return _library_answer([it.encode(errors="surrogatepass") for it in words], source_bytes(psbt))


def source_bytes(psbt: Psbt) -> bytes:
    """The bytes of a PSBT that is given as bytes, or as base64. A str with another character is refused as the library refuses it.

    >>> source_bytes(" cHNidP8= "), source_bytes("\\u20ac")
    (b' cHNidP8= ', b'\\xe2\\x82\\xac')
    >>> source_bytes(5)
    Traceback (most recent call last):
    TypeError: a PSBT is bytes or a str of base64, and no int
    """
    if isinstance(psbt, str):
        return psbt.encode(errors="surrogatepass")
    if isinstance(psbt, (bytes, bytearray, memoryview)):
        return bytes(psbt)
    raise TypeError(f"a PSBT is bytes or a str of base64, and no {type(psbt).__name__}")


def finalize(psbt: P, verify: bool = True) -> P:
    """The PSBT with each input that is Ready made final, in the form in which it came. All other inputs come out byte for byte as they went
    in, with their bad signatures.

    A signature that isn't good counts for nothing, so that it is chosen nowhere. One of another type than is asked makes its input
    WrongSighash, whether it is good or not. Without `verify` no signature is looked at, a bad one may be chosen, and what isn't needed is
    cleared: keep the PSBT until the transaction is accepted.

    >>> finalize("cHNidP8BAAoCAAAAAAAAAAAAAA==")
    'cHNidP8BAAoCAAAAAAAAAAAAAA=='
    """
    return _of_kind(psbt, _answered("finalize", psbt, (0, 4), verify)[1])


def extract(psbt: P) -> P:
    """The network transaction of a PSBT whose inputs are all Final: its bytes, or its digits where the PSBT is a str. Nothing is checked
    of inputs that were Final when they came. Raises NotFinal where one isn't Final."""
    digits = _answered("extract", psbt, (0,))[1]
    return _of_kind(psbt, digits if isinstance(psbt, str) else bytes.fromhex(digits.decode()))


def validity(psbt: Psbt) -> tuple[Validity, ...]:
    """Whether the final scriptSig and witness of each input are valid: by a run of what they have consensus run, under the signatures that
    consensus takes, each looked at by ECDSA over secp256k1.

    >>> validity("cHNidP8BAAoCAAAAAAAAAAAAAA==")
    ()
    """
    _, report = _answered("verify", psbt, (0, 4))
    _, *inputs = _by_input(report.decode())
    return tuple(_validity(lines) for lines in inputs)


def combine(psbts: Iterable[P]) -> P:
    """One PSBT that holds what several of one transaction hold, in the form of the first one: in each map the pairs of the first, then those
    of the second whose keys haven't stood yet, and so on. So of a key with several values the first one's stays.

    >>> combine(["cHNidP8BAAoCAAAAAAAAAAAAAA==", "cHNidP8BAAoCAAAAAAAAAAAAAA=="])
    'cHNidP8BAAoCAAAAAAAAAAAAAA=='
    """
    parts = list(psbts)
    made = _answered("combine", b"\n".join(map(_line, parts)), (0,))[1]
    is_base64 = isinstance(parts[0], str) or not source_bytes(parts[0]).startswith(_MAGIC)
    return _of_kind(parts[0], made if is_base64 else base64.b64decode(made))


def _line(psbt: Psbt) -> bytes:
    """A PSBT as one line of base64. An empty one is no line, and is refused by itself."""
    source = source_bytes(psbt)
    line = base64.b64encode(source) if source.startswith(_MAGIC) else source.translate(None, b" \t\r\n")
    return line or _answered("hashes", source, (0,))[1]


def _of_kind(psbt: P, made: bytes) -> P:
    """What is made of a PSBT: a str where that is one. A report of base64 or of digits is one line."""
    given: Psbt = made.decode().rstrip("\n") if isinstance(psbt, str) else made
    return given  # type: ignore[return-value]


def inspect(psbt: Psbt, verify: bool = True) -> Inspection:
    """What the transaction does with the money, and of each input what it is, what it demands, and what is missing. Without `verify` no
    signature is looked at."""
    status, report = _answered("inspect", psbt, (0, 4), verify)
    head, *inputs = _by_input(report.decode())
    told = head[0].split()
    final = next((line.split()[2] for line in head if line.startswith("final txid ")), None)
    return Inspection(
        version=int(told[6]),
        locktime=int(told[8]),
        txid=told[10],
        outputs=tuple(_output(line) for line in head if line.startswith("output ")),
        fee=_fee(head[-1]),
        inputs=tuple(_input(lines) for lines in inputs),
        is_settled=status == 0,
        final_txid=final,
    )


def hashes(psbt: Psbt, verify: bool = True) -> tuple[Hashes, ...]:
    """What the signatures of each input sign, and which of them are good. Without `verify` no signature is looked at."""
    _, report = _answered("hashes", psbt, (0,), verify)
    _, *inputs = _by_input(report.decode())
    return tuple(_hashes(lines) for lines in inputs)


def checks(psbt: Psbt) -> Iterator[Check]:
    """The signatures of all inputs that `hashes` tells, each with what it has to sign."""
    return (check for told in hashes(psbt) for check in told.checks)


def verify(psbt: Psbt) -> tuple[tuple[Check, bool], ...]:
    """The signatures of all inputs that `hashes` tells, each with whether it is good."""
    return tuple((check, check.is_good()) for check in checks(psbt))


# ---- signatures


def is_signature_of(key: bytes, sig: bytes, hash: bytes) -> bool:
    """Whether a compressed key has signed a hash of 32 bytes by a signature without the byte of its hash type: it is in strict DER
    (BIP 66), its s is low (BIP 146), and ECDSA takes it. A key of 65 bytes has signed nothing."""
    return signature(key, hash, bytes(sig) + b"\x01") == "good"


_MAGIC = b"psbt\xff"


# ---- the library's answers


def _library_answer(words: list[bytes], source: bytes, room: int = 65536) -> tuple[int, bytes]:
    """The code and the whole report of a call of msat_psbt_answer. Codes 7 and 11 come without a report."""
    joined = b"".join(word + b"\0" for word in words)
    needed = ctypes.c_size_t(0)
    room = max(room, 2 * len(source))
    while True:
        report = (ctypes.c_uint8 * room)()
        code = _call()(len(words), joined, len(joined), source, len(source), report, room, ctypes.byref(needed))
        if code in (_library.NO_MEMORY, _library.UNREADABLE):
            return code, b""
        if needed.value <= room:
            return code, bytes(memoryview(report)[: needed.value])
        room = needed.value


def _call() -> "ctypes._NamedFuncPointer":
    """The library's call."""
    return _library._library.msat_psbt_answer


def _answered(word: str, psbt: Psbt, wanted: tuple[int, ...], verify: bool = True) -> tuple[int, bytes]:
    """The status, one of those that are wanted, and the report; otherwise the refusal is raised."""
    code, report = answer(word, psbt, verify)
    if code not in wanted:
        _refuse(code, report.decode())
    return code, report


def _refuse(code: int, text: str) -> NoReturn:
    """Raises the refusal of a report with this status."""
    words = text.split()
    if code == 3:
        number = int(words.pop(2)) if words[1] == "line" else None
        raise PsbtRefused(text, words[2], place=int(words[4]) if "at" in words else None, number=number)
    if code == 4:
        raise NotFinal(text, int(words[2]))
    if code == 7:
        raise MemoryError("msat: memory was wanting")
    raise MsatError(text)


# ---- the lines of reports


def _by_input(report: str) -> list[list[str]]:
    """The lines before the first input, and those of each input."""
    parts: list[list[str]] = [[]]
    for line in report.splitlines():
        if line.startswith("input "):
            parts.append([])
        parts[-1].append(line)
    return parts


def _bytes(digits: str) -> bytes:
    return b"" if digits == "-" else bytes.fromhex(digits)


def _output(line: str) -> Output:
    """An output, of its line.

    >>> _output("output 0 90000 51"), _output("output 1 0 -")
    (Output(amount=90000, script=b'Q'), Output(amount=0, script=b''))
    """
    _, _, amount, script = line.split()
    return Output(int(amount), _bytes(script))


def _fee(line: str) -> Fee:
    """The fee, of its line.

    >>> _fee("fee 10000 claimed"), _fee("fee unknown")
    (Fee(kind='claimed', satoshis=10000), Fee(kind='unknown', satoshis=None))
    """
    words = line.split()[1:]
    return Fee(words[-1], int(words[0]) if len(words) == 2 else None)


def _amount(line: str) -> tuple[Optional[int], bool]:
    """An amount, and whether it is proved, of its line.

    >>> _amount("amount 5 proved"), _amount("amount unknown")
    ((5, True), (None, False))
    """
    words = line.split()[1:]
    return (int(words[0]), words[1] == "proved") if len(words) == 2 else (None, False)


def _input(lines: list[str]) -> Input:
    """An input, of its lines in `inspect`."""
    _, number, state, *reason = lines[0].split()
    _, txid, index, _, sequence = lines[1].split()
    amount, is_proved = _amount(lines[2])
    told: dict[str, list[str]] = {}
    for line in lines[3:]:
        name, _, value = line.partition(" ")
        told.setdefault(name, []).append(value)
    weights = [value.rsplit(" ", 1) for value in told.get("weight", [])]
    return Input(
        number=int(number),
        state=state,
        reason=" ".join(reason) or None,
        txid=txid,
        index=int(index),
        sequence=int(sequence),
        amount=amount,
        is_proved=is_proved,
        kind=next(iter(told.get("kind", [])), None),
        signatures=tuple(_signature(value) for value in told.get("signature", [])),
        words=tuple(word for value in told.get("signature", []) for word in value.split()[2:]),
        text=next(iter(told.get("text", [])), None),
        policy=next(iter(told.get("policy", [])), None),
        weight=next((int(words[0]) for words in weights if len(words) == 1), None),
        asked=tuple(bytes.fromhex(key) for key in told.get("ask", [])),
        most=next((int(words[1]) for words in weights if len(words) == 2), None),
        is_vain="no" in told,
    )


def _signature(value: str) -> tuple[bytes, int]:
    """A key, and the number of its signature's hash type, of a line in `inspect`, with a word behind or without.

    >>> _signature("02 1 good"), _signature("03 129")
    ((b'\\x02', 1), (b'\\x03', 129))
    """
    key, kind, *_ = value.split()
    return bytes.fromhex(key), int(kind)


def _validity(lines: list[str]) -> Validity:
    """Whether an input's final fields are valid, of its lines in `verify`.

    >>> _validity(["input 2 invalid NullFail at 5"])
    Validity(number=2, verdict='invalid', reason='NullFail at 5', signatures=())
    """
    _, number, verdict, *reason = lines[0].split()
    signatures = (line.split()[1:] for line in lines[1:])
    return Validity(int(number), verdict, " ".join(reason) or None, tuple((bytes.fromhex(key), int(kind), word) for key, kind, word in signatures))


def _hashes(lines: list[str]) -> Hashes:
    """What an input's signatures sign, of its lines in `hashes`."""
    _, number, *state = lines[0].split()
    kind, hash, checks = None, None, []
    for line in lines[1:]:
        name, *words = line.split()
        if name == "check":
            key, sig, signed, *judged = words
            checks.append(Check(int(number), bytes.fromhex(key), bytes.fromhex(sig), _bytes(signed) or None, next(iter(judged), None)))
        else:
            kind, hash = int(words[0]), _bytes(words[1]) or None
    return Hashes(int(number), " ".join(state), kind, hash, tuple(checks))
