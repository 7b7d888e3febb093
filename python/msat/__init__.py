# SPDX-License-Identifier: MIT
"""msat: a Miniscript satisfier for P2WSH outputs, over its proved library.

Each call is one call of the library, which is proved to answer what msat's definitions say. What is Python here, the reading of
reports into classes, is tested and not proved. Calls may be made from several threads at once: no state is kept.

>>> KEY = "020101010101010101010101010101010101010101010101010101010101010101"
>>> script(f"pk({KEY})").hex()
'21020101010101010101010101010101010101010101010101010101010101010101ac'
>>> held = Assets(signatures=(Signature(bytes.fromhex(KEY), 71 * b"\\xaa"),))
>>> [len(item) for item in satisfy(f"pk({KEY})", held).stack]
[71, 35]
>>> try:
...     script("pk(1)")
... except TextRefused as refused:
...     print(refused.name, refused.place)
Syntax 3
"""

from typing import NoReturn, Optional, Sequence

from . import _library
from ._many import ask_all
from .curve import point, signature
from .descriptor import Derived, DerivedKey, Descriptor, DescriptorRefused, derive, derive_all
from .descriptor import answer as descriptor_answer
from .descriptor import check as descriptor_check
from .errors import (
    FileRefused,
    MsatError,
    NoReading,
    NoSatisfaction,
    NotAccepted,
    Refused,
    ScriptRefused,
    TextRefused,
    Unreadable,
    Usage,
    fault_line,
    file_line,
    text_line,
)
from .psbt import (
    Check,
    Fee,
    Hashes,
    Input,
    Inspection,
    NoCurve,
    NotFinal,
    Output,
    PsbtRefused,
    Validity,
    combine,
    extract,
    finalize,
    hashes,
    inspect,
    validity,
    verify,
)
from .results import (
    Accepted,
    Assets,
    Audit,
    Checked,
    Estimate,
    Facts,
    File,
    Limits,
    Plan,
    Policy,
    Replay,
    Run,
    Satisfaction,
    Signature,
    Step,
    file_bytes,
    spelled,
)

__all__ = [
    "Accepted", "Assets", "Audit", "Checked", "Estimate", "Facts", "File", "FileRefused", "Limits", "MsatError", "NoReading",
    "NoSatisfaction", "NotAccepted", "Plan", "Policy", "Refused", "Replay", "Run", "Satisfaction", "ScriptRefused", "Signature", "Step",
    "TextRefused", "Unreadable", "Usage", "answer", "ask_all", "audit", "check", "decode", "facts", "least_weight", "plan", "policy", "report",
    "run", "satisfy", "script", "witness",
    # of signatures and keys
    "point", "signature",
    # of descriptors
    "Derived", "DerivedKey", "Descriptor", "DescriptorRefused", "derive", "derive_all", "descriptor_answer", "descriptor_check",
    # of PSBTs
    "Check", "Fee", "Hashes", "Input", "Inspection", "NoCurve", "NotFinal", "Output", "PsbtRefused", "Validity", "combine",
    "extract", "finalize", "hashes", "inspect", "validity", "verify",
]  # fmt: skip

__version__ = ".".join(map(str, _library.version()))  # of the library that is loaded


def answer(words: Sequence[str], source: File = b"") -> tuple[int, str]:
    """The exit status and the report of the program for these words, where its standard input holds `source`.

    A word that isn't UTF-8, as one with a lone surrogate, or that has a NUL gives 11 and no report.

    >>> answer(["script", "1"])
    (0, '51\\n')
    >>> answer(["no", "command"])
    (1, 'refused usage\\n')
    >>> answer(["script", "\\udcff"])
    (11, '')

    The one word `lines` answers many questions in one call, one a line, and other threads run meanwhile.

    >>> answer(["lines"], b'{"id": 1, "words": ["script", "1"]}\\n{}')[1].split("\\n")
    ['{"id":1,"status":0,"report":"51\\\\n"}', '{"status":12,"report":"refused line Shape words\\\\n"}', '']
    """
    if any("\0" in word for word in words):
        return _library.UNREADABLE, ""
    code, text = _library.answer([spelled(word) for word in words], file_bytes(source))
    return code, text.decode()


def report(words: Sequence[str], source: File = b"") -> str:
    """The report of these words where the status is 0; otherwise the refusal is raised.

    >>> report(["policy", "older(144)"])
    Traceback (most recent call last):
    msat.errors.TextRefused: refused text NoSignature
    >>> report(["trace"], {"script": "51"}).splitlines()
    ['step 0 push 01', 'accepted ops 0 peak 1']
    >>> try: report(["trace"], {"script": "5100"})
    ... except ScriptRefused as refused: refused.name, refused.place, refused.report.splitlines()
    ('CleanStack', 2, ['step 0 push 01', 'step 1 push -', 'refused script CleanStack at 2'])
    >>> try: report(["tree", "and_v(older(1),1)"])
    ... except TextRefused as refused: refused.name, refused.place, refused.report.splitlines()[-1]
    ('Rule', 0, 'fits v at 6')
    """
    code, text = answer(words, source)
    if code != 0:
        _refuse(code, text)
    return text


def script(text: str, *, consensus: bool = False) -> bytes:
    """The Script of a valid text, by the limits of policy, or by those of consensus alone.

    >>> script("older(144)").hex()
    '029000b2'
    """
    code, found, reason = _library.script(consensus, _text(text))
    _refuse_by(code, reason)
    return found


def check(text: str, *, consensus: bool = False) -> Checked:
    """What is known of a sane text.

    >>> check("pk(020101010101010101010101010101010101010101010101010101010101010101)").limits
    Limits(size=35, ops=1, items=1, weight=74, height=None)
    """
    lines = _lines(report(["check", *_rules(consensus), text]))
    return Checked(
        text=lines["text"][0],
        type=lines["type"][0],
        script=bytes.fromhex(lines["script"][0]),
        program=bytes.fromhex(lines["program"][0]),
        limits=Limits(**_numbers(lines["limits"][0])),
    )


def facts(text: str, *, consensus: bool = False) -> Facts:
    """The limits and the type letters of a sane text, without its Script.

    >>> facts("pk(020101010101010101010101010101010101010101010101010101010101010101)")
    Facts(limits=Limits(size=35, ops=1, items=1, weight=74, height=2), type='Bonduse')
    """
    code, found, reason = _library.check(consensus, _text(text))
    _refuse_by(code, reason)
    limits = Limits(found.size, found.ops, found.items, found.weight, found.height)
    return Facts(limits, "BVKW"[found.base] + "".join(letter for letter in "zondusfe" if getattr(found, letter)))


def satisfy(text: str, assets: File, *, malleable: bool = False, consensus: bool = False) -> Satisfaction:
    """The canonical satisfaction of a sane text by these assets that nobody can change without a signature that it doesn't show,
    another preimage than the first known one of its hash, or another key with the same HASH160; or with `malleable` the lightest
    canonical one of a valid text.

    >>> satisfy("pk(020101010101010101010101010101010101010101010101010101010101010101)", Assets())
    Traceback (most recent call last):
    msat.errors.NoSatisfaction: no satisfaction
    """
    options = (["--malleable"] if malleable else []) + _rules(consensus)
    lines = _lines(report(["satisfy", *options, text], file_bytes(assets)))
    return Satisfaction(
        script=bytes.fromhex(lines["script"][0]),
        program=bytes.fromhex(lines["program"][0]),
        limits=Limits(**_numbers(lines["limits"][0])),
        items=tuple(b"" if item == "-" else bytes.fromhex(item) for item in lines.get("item", [])),
        witness=bytes.fromhex(lines["witness"][0]),
        replay=Replay(**_numbers(lines["replay"][0])),
    )


def least_weight(text: str, assets: File, *, consensus: bool = False) -> int:
    """The least weight of a canonical satisfaction of a valid text by these assets: for each item 1 and its length, the Script aside.

    >>> least_weight("or_i(pk(020101010101010101010101010101010101010101010101010101010101010101),older(9))", Assets(sequence=9))
    1
    """
    code, weight, reason = _library.least_weight(consensus, _text(text), file_bytes(assets))
    _refuse_by(code, reason)
    assert weight is not None
    return weight


def witness(text: str, assets: File, *, malleable: bool = False, consensus: bool = False) -> tuple[bytes, ...]:
    """The items of the witness of the satisfaction that `satisfy` gives: the stack, bottom first, and the Script. `Assets` are handed
    over as they are, bytes and numbers, without a file.

    >>> KEY = "020101010101010101010101010101010101010101010101010101010101010101"
    >>> [item.hex() for item in witness(f"or_i(pk({KEY}),older(9))", Assets(sequence=9), malleable=True)]
    ['', '6321020101010101010101010101010101010101010101010101010101010101010101ac6759b268']
    """
    held = assets.arrays() if isinstance(assets, Assets) else None
    if held is not None:
        code, items, reason = _library.satisfy(malleable, consensus, _text(text), *held)
    else:
        code, items, reason = _library.witness(malleable, consensus, _text(text), file_bytes(assets))
    _refuse_by(code, reason)
    return items


def run(file: File) -> Accepted:
    """The run of a script on a stack, where the interpreter accepts it. A `Run` is handed over as it is, bytes and numbers, without a
    file; anything else is a run file.

    >>> run(Run(b"\\x51"))
    Accepted(ops=0, peak=1, checks=())
    >>> run({"script": "6a"})
    Traceback (most recent call last):
    msat.errors.ScriptRefused: refused script Unsupported at 0
    """
    lent = file.arrays() if isinstance(file, Run) else None
    if lent is not None:
        code, items, outcome, reason = _library.run(*lent)
        _refuse_by(code, reason, outcome)
        return Accepted(ops=outcome.ops, peak=outcome.peak, checks=tuple(zip(items[::2], items[1::2])))
    lines = _lines(report(["run"], file_bytes(file)))
    counted = _numbers(lines["accepted"][0])
    pairs = (check.split() for check in lines.get("check", []))
    return Accepted(
        ops=counted["ops"],
        peak=counted["peak"],
        checks=tuple((bytes.fromhex(key), bytes.fromhex(sig)) for key, sig in pairs),
    )


def policy(text: str) -> Policy:
    """What a sane text demands, and how many keys have to sign at least where every hash and lock is met.

    >>> policy("pk(020101010101010101010101010101010101010101010101010101010101010101)").keys
    1
    """
    code, found, keys, reason = _library.policy(_text(text))
    _refuse_by(code, reason)
    return Policy(policy=found, keys=None if keys == _library.NEVER else keys)


def plan(text: str, file: File) -> Plan:
    """Which keys to ask for a signature, by assets whose `keys` say who can sign, or by a plan file. They are enough, and where none of
    their signatures is longer than estimated the satisfaction weighs no more than is told. `Assets` are handed over as they are, bytes
    and numbers, without a file.

    >>> KEY = bytes.fromhex("020101010101010101010101010101010101010101010101010101010101010101")
    >>> plan(f"pk({KEY.hex()})", Assets(keys=(Estimate(KEY, 72),))).weight
    73
    """
    held = file.plan_arrays() if isinstance(file, Assets) else None
    if held is not None:
        code, keys, weight, reason = _library.plan(_text(text), *held)
        _refuse_by(code, reason)
        return Plan(keys=keys, weight=weight)
    lines = _lines(report(["plan", text], file_bytes(file)))
    return Plan(keys=tuple(bytes.fromhex(key) for key in lines.get("ask", [])), weight=int(lines["weight"][0].split()[-1]))


def audit(text: str, file: File) -> Audit:
    """By which rows of BIP 379's table the stack of a run satisfies a valid text. A `Run` is handed over as it is, bytes and numbers,
    without a file; anything else is a run file.

    >>> audit("older(9)", Run(bytes.fromhex("59b2"), sequence=9))
    Audit(ops=1, peak=1, steps=(Step(place=0, satisfied=True, extra=False),), canonical=True)
    >>> audit("older(9)", {"script": "59b2"})
    Traceback (most recent call last):
    msat.errors.NotAccepted: not accepted UnmetLock at 1
    """
    lent = file.arrays() if isinstance(file, Run) else None
    if lent is not None:
        code, steps, canonical, outcome, reason = _library.audit(_text(text), *lent)
        _refuse_by(code, reason, outcome)
        return Audit(ops=outcome.ops, peak=outcome.peak, steps=tuple(Step(*step) for step in steps), canonical=canonical)
    lines = _lines(report(["audit", text], file_bytes(file)))
    counted = _numbers(lines["accepted"][0])
    nodes = (node.split() for node in lines.get("node", []))
    return Audit(
        ops=counted["ops"],
        peak=counted["peak"],
        steps=tuple(Step(int(node[0]), node[1] == "sat", "extra" in node) for node in nodes),
        canonical=lines["canonical"][0] == "yes",
    )


def decode(script: bytes, keys: Sequence[bytes] = ()) -> str:
    """The text, valid by the limits of policy, that a Script is read back as. The keys are those that its hashes of keys may be of.

    >>> decode(bytes.fromhex("029000b2"))
    'older(144)'
    """
    joined = b"".join(bytes(key) if len(key) == 33 else b"\0" for key in keys)
    code, found = _library.decode(bytes(script), joined)
    if code != _library.DONE:
        _refuse(code, {1: "refused usage\n", 10: "no reading\n"}.get(code, ""))
    return found


def _text(text: str) -> bytes:
    """A text as the bytes that the library reads. One with a NUL is no word, and is refused as `answer` refuses it."""
    if "\0" in text:
        raise Unreadable("")
    return spelled(text)


def _rules(consensus: bool) -> list[str]:
    return ["--consensus"] if consensus else []


def _lines(text: str) -> dict[str, list[str]]:
    """The lines of a report by their first word, in their order."""
    found: dict[str, list[str]] = {}
    for line in text.splitlines():
        name, _, value = line.partition(" ")
        found.setdefault(name, []).append(value)
    return found


def _numbers(line: str) -> dict[str, int]:
    """The numbers of a line, each after its name."""
    words = line.split()
    return {name: int(number) for name, number in zip(words[::2], words[1::2])}


def _refuse_by(code: int, reason: _library.Reason, outcome: Optional[_library.Outcome] = None) -> None:
    """Raises the refusal of a call without a report, where there is one."""
    lines = {4: "no satisfaction\n"}
    if code == 2:
        lines[2] = text_line(reason.kind, reason.rule, reason.place, reason.number)
    if code == 3:
        lines[3] = file_line(reason.kind, reason.rule, reason.place)
    if outcome is not None and code in (8, 9):
        lines[code] = fault_line("refused script" if code == 8 else "not accepted", outcome.fault, outcome.place)
    if code != _library.DONE:
        _refuse(code, lines.get(code, ""))


def _refuse(code: int, text: str) -> NoReturn:
    """Raises the refusal of a report with this status."""
    words = text.split()
    plain = {1: Usage, 4: NoSatisfaction, 10: NoReading, 11: Unreadable}
    if code in plain:
        raise plain[code](text)
    if code == 2:
        # `tree` tells the nodes before the refusal, and what fits behind it.
        words = next(line for line in text.splitlines() if line.startswith("refused text ")).split()
        raise _text_refusal(text, words[2], words[3:])
    if code == 3:
        raise _file_refusal(text, words[2], words[3:])
    if code == 8:
        # A trace ends with what its run came to.
        words = text.splitlines()[-1].split()
        raise ScriptRefused(text, words[2], place=int(words[4]))
    if code == 9:
        raise NotAccepted(text, words[2], place=int(words[4]) if "at" in words else None)
    if code == 7:
        raise MemoryError("msat: memory was wanting")
    raise MsatError(text)


def _text_refusal(text: str, name: str, rest: list[str]) -> TextRefused:
    place = int(rest[-1]) if "at" in rest else None
    subject = rest[0] if len(rest) == 3 else None
    number = int(rest[0]) if len(rest) == 1 else None
    return TextRefused(text, name, subject, place, number)


def _file_refusal(text: str, name: str, rest: list[str]) -> FileRefused:
    place = int(rest[-1]) if rest and rest[-1].isdigit() else None
    subject = rest[0] if rest and not rest[0].isdigit() else None
    return FileRefused(text, name, subject, place)
