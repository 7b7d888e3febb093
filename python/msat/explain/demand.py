# SPDX-License-Identifier: MIT
"""What a condition demands, read from the line that `policy` prints."""

import re
from dataclasses import dataclass
from typing import Callable, Iterator, Union

_WORD = re.compile(r"[a-z0-9]+")


@dataclass(frozen=True)
class Atom:
    """One thing that is asked for: a `key`, a timelock or the preimage of a hash, by its kind and its digits or number."""

    kind: str
    value: Union[str, int]

    def is_lock(self) -> bool:
        return self.kind in ("older", "after")

    @property
    def digits(self) -> str:
        """Those of a key or of a hash value."""
        assert isinstance(self.value, str)
        return self.value

    @property
    def operand(self) -> int:
        """That of a timelock."""
        assert isinstance(self.value, int)
        return self.value


@dataclass(frozen=True)
class Gate:
    """At least so many of the parts."""

    need: int
    parts: tuple["Demand", ...]


Demand = Union[Atom, Gate]
NEVER = Gate(1, ())


def _word(text: str, at: int) -> str:
    """The word that begins here."""
    found = _WORD.match(text, at)
    assert found is not None
    return found[0]


def _read(text: str, at: int) -> tuple[Demand, int]:
    """The demand that begins here, and the place behind it."""
    name = _word(text, at)
    at += len(name)
    if name in ("never", "always"):
        return Gate(int(name == "never"), ()), at
    at += 1
    if name not in ("all", "any", "thresh"):
        value = _word(text, at)
        return Atom(name, int(value) if name in ("older", "after") else value), at + len(value) + 1
    need = 0
    if name == "thresh":
        number = _word(text, at)
        need, at = int(number), at + len(number) + 1
    parts = []
    while text[at - 1] != ")":
        part, at = _read(text, at)
        parts.append(part)
        at += 1
    return Gate({"all": len(parts), "any": 1}.get(name, need), tuple(parts)), at


def demand(policy: str) -> Demand:
    """The demand of a policy.

    >>> demand("any(key(02),all(key(03),older(144)))").parts[1]
    Gate(need=2, parts=(Atom(kind='key', value='03'), Atom(kind='older', value=144)))
    """
    return _read(policy, 0)[0]


def atoms(wanted: Demand) -> Iterator[Atom]:
    """All that is asked for, in the order of the text, as often as it stands there."""
    if isinstance(wanted, Atom):
        yield wanted
    else:
        for part in wanted.parts:
            yield from atoms(part)


def said(wanted: Demand, name_of: Callable[[Atom], str]) -> str:
    """The demand with names: `name_of` gives that of an atom."""
    if isinstance(wanted, Atom):
        return name_of(wanted)
    if not wanted.parts:
        return "never" if wanted.need else "always"
    inner = ", ".join(said(part, name_of) for part in wanted.parts)
    if wanted.need == len(wanted.parts):
        return f"all({inner})"
    return f"any({inner})" if wanted.need == 1 else f"thresh({wanted.need}, {inner})"
