# SPDX-License-Identifier: MIT
"""The run of a script, step by step: a trace as the library prints it, read into what stands behind each line. No opcode is known
here, as docs/FORMATS.md says."""

from dataclasses import dataclass
from typing import Iterable, Optional


@dataclass(frozen=True)
class Step:
    """A line of a trace: its kind, which is `step`, `skip` or `stop`; the offset of its instruction and what that is called; the place
    of the node that wrote it, where it is told; and what stands behind it: both stacks, the top last, an empty element as `-`, and
    whether each open branch is taken, the innermost last."""

    kind: str
    offset: int
    name: str
    place: Optional[int]
    main: tuple[str, ...]
    alt: tuple[str, ...]
    branches: tuple[bool, ...]


class _Stacks:
    """Both stacks and the open branches, to which changes are done."""

    def __init__(self, witness: Iterable[str]):
        self.main = [it or "-" for it in witness]
        self.alt: list[str] = []
        self.branches: list[bool] = []

    def change(self, words: list[str]) -> Optional[int]:
        """Does the changes, from left to right, and says the place of the node."""
        rest = iter(words)
        for word in rest:
            if word == "pop":
                del self.main[-int(next(rest)) :]
            elif word == "push":
                self.main.append(next(rest))
            elif word == "altpush":
                self.alt.append(next(rest))
            elif word == "altpop":
                self.alt.pop()
            elif word == "open":
                self.branches.append(next(rest) == "yes")
            elif word == "turn":
                self.branches[-1] = not self.branches[-1]
            elif word == "close":
                self.branches.pop()
            elif word == "check":
                next(rest), next(rest)
            elif word == "node":
                return int(next(rest))
        return None


def steps(report: str, witness: Iterable[str]) -> tuple[Step, ...]:
    """The steps of a trace over the items of a witness below its script, in digits, bottom first.

    >>> for it in steps("step 0 OP_IF pop 1 open no\\nskip 1 push 02\\nstep 2 OP_ELSE turn\\nstep 3 push -\\naccepted ops 3 peak 2\\n", ["07", ""]):
    ...     print(it.kind, it.offset, it.name, it.main, it.branches)
    step 0 OP_IF ('07',) (False,)
    skip 1 push 02 ('07',) (False,)
    step 2 OP_ELSE ('07',) (True,)
    step 3 push - ('07', '-') (True,)
    """
    stacks = _Stacks(witness)
    found = []
    for line in report.splitlines()[:-1]:
        kind, offset, *words = line.split(" ")
        length = 1 if words[0].startswith("OP_") else 2
        named, changes = words[:length], words[length:]
        if kind == "step" and named[0] == "push":
            stacks.change(named)
        place = stacks.change(changes)
        name = " ".join(named)
        found.append(Step(kind, int(offset), name, place, tuple(stacks.main), tuple(stacks.alt), tuple(stacks.branches)))
    return tuple(found)
