# SPDX-License-Identifier: MIT
"""Timelocks: which of them hold with another one, what has to be set in the transaction for them, and how a person says them."""

from dataclasses import dataclass
from datetime import datetime, timedelta, timezone
from typing import Optional

# Bit 22 of nSequence and of the operand of `older`: units of 512 seconds in place of blocks. The lower 16 bits are the count.
SECONDS = 1 << 22
COUNT = 0xFFFF
# From here on nLockTime and the operand of `after` are times, and below heights.
TIMES = 500_000_000
# The time of Bitcoin's first block: no test network has an earlier one.
FIRST_BLOCK = 1231006505
# What an asset file has where it doesn't say: no lock holds with it.
NO_SEQUENCE = 4294967294


@dataclass(frozen=True)
class Locks:
    """What the transaction waits for: the bits of nSequence that count for `older`, and nLockTime for `after`. None is no lock."""

    older: Optional[int] = None
    after: Optional[int] = None

    def is_none(self) -> bool:
        return self.older is None and self.after is None

    def holds(self, kind: str, operand: int) -> bool:
        """Whether a timelock holds in a transaction that waits for no more than this.

        >>> Locks(older=144).holds("older", 100), Locks(older=144).holds("older", SECONDS + 1)
        (True, False)
        """
        if kind == "older":
            wanted = older_bits(operand)
            return self.older is not None and self.older & SECONDS == wanted & SECONDS and self.older >= wanted
        return self.after is not None and (self.after < TIMES) == (operand < TIMES) and self.after >= operand

    def fields(self) -> dict[str, int]:
        """The numbers of an asset file whose transaction waits for this."""
        found = {} if self.older is None else {"sequence": self.older}
        return found if self.after is None else {**found, "locktime": self.after}


def older_bits(operand: int) -> int:
    """The bits of the operand of `older` that count."""
    return operand & (SECONDS | COUNT)


def levels(kind: str, operands: set[int]) -> list[list[int]]:
    """The values that matter, of each unit for itself and rising: what a transaction waits for is one of them, or nothing."""
    found = {older_bits(it) if kind == "older" else it for it in operands}
    split = SECONDS if kind == "older" else TIMES
    units = [sorted(it for it in found if it < split), sorted(it for it in found if it >= split)]
    return [unit for unit in units if unit]


def span(seconds: int) -> str:
    """About how long that is.

    >>> span(600), span(90000), span(31536000), span(0)
    ('10 minutes', '25 hours', '12 months', 'no time')
    """
    for name, unit, least in (("years", 31557600, 2), ("months", 2629800, 2), ("days", 86400, 2), ("hours", 3600, 2), ("minutes", 60, 2)):
        if seconds >= least * unit - unit // 60:
            return f"{round(seconds / unit):,} {name}"
    return f"{seconds} seconds" if seconds else "no time"


def said_older(bits: int) -> str:
    """How long `older` waits, and about how long that takes.

    >>> said_older(144), said_older(SECONDS + 2)
    ('144 blocks (about 24 hours)', '1,024 seconds (about 17 minutes)')
    """
    count = bits & COUNT
    if bits & SECONDS:
        return f"{512 * count:,} seconds" + (f" (about {span(512 * count)})" if count else "")
    return f"{count:,} block" + ("s" if count != 1 else "") + (f" (about {span(600 * count)})" if count else "")


def said_after(value: int) -> str:
    """When `after` opens.

    >>> said_after(800000), said_after(1700000000)
    ('height 800,000', '2023-11-14 22:13:20 UTC')
    """
    if value < TIMES:
        return f"height {value:,}"
    return (datetime(1970, 1, 1, tzinfo=timezone.utc) + timedelta(seconds=value)).strftime("%Y-%m-%d %H:%M:%S UTC")


def weaker(kind: str, operand: int) -> str:
    """How a timelock waits for less than its number seems to say; nothing where it waits for what it says.

    >>> weaker("older", 65535), weaker("older", SECONDS + 1), weaker("after", 1700000000), weaker("after", 1)
    ('', '', '', '')
    >>> weaker("older", 65536)
    'waits for nothing, and holds at once: only bits 0 to 15 and 22 of its number count (BIP 68)'
    >>> weaker("older", 65536 + 144)
    'waits for 144 blocks (about 24 hours) and no longer: only bits 0 to 15 and 22 of its number count (BIP 68)'
    >>> weaker("after", 500000000)
    'waits for nothing, and holds at once: it is a time before the first block, 1985-11-05 00:53:20 UTC'
    """
    if kind == "after":
        is_past = TIMES <= operand < FIRST_BLOCK
        return f"waits for nothing, and holds at once: it is a time before the first block, {said_after(operand)}" if is_past else ""
    bits = older_bits(operand)
    if bits == operand and bits & COUNT:
        return ""
    counted = "only bits 0 to 15 and 22 of its number count (BIP 68)"
    return f"waits for {said_older(bits)} and no longer: {counted}" if bits & COUNT else f"waits for nothing, and holds at once: {counted}"


def said(locks: Locks) -> str:
    """When this much time has passed.

    >>> said(Locks()), said(Locks(older=1, after=5))
    ('at once', '1 block (about 10 minutes) after the output confirms, and from height 5 on')
    """
    parts = [] if locks.older is None else [f"{said_older(locks.older)} after the output confirms"]
    parts += [] if locks.after is None else [f"from {said_after(locks.after)} on"]
    return ", and ".join(parts) or "at once"


def in_short(locks: Locks) -> str:
    """The same where there is little room.

    >>> in_short(Locks(older=144)), in_short(Locks(older=SECONDS + 2, after=800000)), in_short(Locks())
    ('after 144 blocks', 'after 1,024 seconds, from height 800,000', 'at once')
    """
    parts = [] if locks.older is None else [f"after {said_older(locks.older).partition(' (')[0]}"]
    parts += [] if locks.after is None else [f"from {said_after(locks.after)}"]
    return ", ".join(parts) or "at once"


def said_fields(locks: Locks) -> str:
    """What has to be set in the transaction.

    >>> said_fields(Locks(older=144)), said_fields(Locks(after=7)), said_fields(Locks())
    ('version 2 or more, nSequence 144', 'nLockTime 7, nSequence not 4294967295', 'nothing')
    """
    if locks.is_none():
        return "nothing"
    parts = [] if locks.older is None else ["version 2 or more", f"nSequence {locks.older}"]
    parts += [] if locks.after is None else [f"nLockTime {locks.after}"]
    return ", ".join(parts + (["nSequence not 4294967295"] if locks.older is None else []))
