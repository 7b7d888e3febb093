# SPDX-License-Identifier: MIT
"""Why a call gives no result: an exception for each kind of refusal, with its parts as fields."""

from typing import Optional


class MsatError(Exception):
    """What all the refusals are. `report` is the report as the program prints it.

    >>> MsatError("refused usage\\n").report
    'refused usage\\n'
    """

    def __init__(self, report: str):
        super().__init__(report.strip() or type(self).__name__)
        self.report = report

    def __reduce__(self) -> tuple[object, ...]:
        """Copies and pickles are made of what it was made of."""
        return type(self), (self.report,)


class Usage(MsatError):
    """The words are those of no command."""


class Unreadable(MsatError):
    """A word isn't UTF-8, or has a NUL."""


class Refused(MsatError):
    """A refusal with a name, and as far as it has them the rule or member that it names, a place and a number."""

    def __init__(self, report: str, name: str, subject: Optional[str] = None, place: Optional[int] = None, number: Optional[int] = None):
        super().__init__(report)
        self.name = name
        self.subject = subject
        self.place = place
        self.number = number

    def __reduce__(self) -> tuple[object, ...]:
        """Copies and pickles are made of what it was made of."""
        return type(self), (self.report, self.name, self.subject, self.place, self.number)


class TextRefused(Refused):
    """The text is refused: `name` is the reason, `subject` the requirement that is false, `place` the byte in the text, and
    `number` what a limit comes to."""


class FileRefused(Refused):
    """The file is refused: `name` is the reason, `subject` the member, and `place` the element, from 0."""


class ScriptRefused(Refused):
    """The interpreter refused a script: `name` is the fault, and `place` the number of the instruction."""


class NotAccepted(Refused):
    """A stack doesn't satisfy a text: `name` is `WrongScript` where the file has another script than the text's, and otherwise the
    interpreter's fault, with `place` the number of the instruction."""


class NoSatisfaction(MsatError):
    """No canonical satisfaction exists with what the file holds, or no plan with the keys that it lists."""


class NoReading(MsatError):
    """No valid miniscript has this Script, or a key isn't among those that were named."""


# The kinds of struct msat_reason, from 1 on: of a text, and then of a file.
TEXT_KINDS = (
    "TooLong", "Syntax", "TooDeep", "Rule", "TopNotB", "Size", "Ops", "Items", "Malleable", "NoSignature", "MixedLocks",
    "RepeatedKey",
)  # fmt: skip
FILE_KINDS = (
    "TooLong", "NotJson", "Shape", "Number", "Hex", "KeyForm", "SigLength", "PreimageLength", "TooMany", "RepeatedKey",
    "Length",
)  # fmt: skip
# Rules and members, from 0 on, in the order of docs/FORMATS.md.
RULES = (
    "OlderRange", "AfterRange", "AndOrX", "AndOrYZ", "AndVX", "AndVY", "AndBX", "AndBY", "OrBX", "OrBZ", "OrCX", "OrCZ", "OrDX",
    "OrDZ", "OrIXZ", "ThreshRange", "ThreshFirst", "ThreshOther", "MultiRange", "WrapA", "WrapS", "WrapC", "WrapD", "WrapV",
    "WrapJ", "WrapN", "AndOrE", "AndOrS", "OrBE", "OrBS", "OrCE", "OrCS", "OrDE", "OrDS", "OrIS", "ThreshE", "ThreshS",
)  # fmt: skip
MEMBERS = ("file", "version", "sequence", "locktime", "signatures", "preimages", "script", "witness", "format", "keys")
# The faults of a run, from 1 on, and the one of an audit alone.
FAULTS = (
    "ScriptSize", "ElementSize", "Truncated", "NonMinimalPush", "Unsupported", "OpCount", "StackUnderflow", "AltUnderflow", "Unbalanced",
    "MinimalIf", "Verify", "NumberForm", "NegativeLock", "UnmetLock", "KeyForm", "NullFail", "NullDummy", "KeyCount", "SigCount",
    "StackSize", "CleanStack", "EvalFalse", "WrongScript",
)  # fmt: skip


def text_line(kind: int, rule: int, place: int, number: int) -> str:
    """The report of a text's refusal, of its numbers.

    >>> text_line(2, 0, 3, 0)
    'refused text Syntax at 3\\n'
    """
    name = TEXT_KINDS[kind - 1]
    subject = {"Rule": f" {RULES[rule]}", "Malleable": f" {RULES[rule]}"}.get(name, "")
    counted = f" {number}" if name in ("Size", "Ops", "Items") else ""
    where = f" at {place}" if name in ("Syntax", "TooDeep", "Rule", "Malleable", "MixedLocks", "RepeatedKey") else ""
    return f"refused text {name}{subject}{counted}{where}\n"


def file_line(kind: int, member: int, place: int) -> str:
    """The report of a file's refusal, of its numbers.

    >>> file_line(17, 4, 1)
    'refused file Hex signatures 1\\n'
    """
    name = FILE_KINDS[kind - 1 - len(TEXT_KINDS)]
    subject = f" {MEMBERS[member]}" if name in ("Shape", "Number", "Hex", "TooMany") else ""
    where = f" {place}" if name in ("Hex", "KeyForm", "SigLength", "PreimageLength", "RepeatedKey", "Length") else ""
    return f"refused file {name}{subject}{where}\n"


def fault_line(start: str, fault: int, place: int) -> str:
    """The report of a run that is refused or not accepted, of its numbers.

    >>> fault_line("refused script", 21, 1)
    'refused script CleanStack at 1\\n'
    """
    name = FAULTS[fault - 1]
    return f"{start} {name}\n" if name == "WrongScript" else f"{start} {name} at {place}\n"
