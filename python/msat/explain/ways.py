# SPDX-License-Identifier: MIT
"""The ways to spend: each least set of keys, preimages and locks that meets a demand, counted without being made, and made one by
one where they are wanted.

Timelocks, and hashes that stand several times, are settled first, to one of the few settings that matter; what is left stands once
each, since a sane text has no key twice. A way of a setting is a least set of what is left that meets the demand there, and doesn't
in any setting just below it: with a lower lock, or without one of the hashes. So nothing in a way can be left out or lowered.
"""

from collections import Counter
from dataclasses import dataclass
from itertools import islice, product
from typing import Any, Iterator, Optional

from .demand import Atom, Demand, atoms
from .locks import Locks, levels

# So many settings are looked at that they and what is asked for, multiplied, come to no more: enough for all timelocks of one kind
# that a Script has room for, or twenty of each. Of hashes that stand several times so many are settled.
MOST_STEPS = 20000
MOST_REPEATED = 6


@dataclass(frozen=True)
class Setting:
    """What is settled first: the locks, and which of the repeated hashes have a known preimage."""

    locks: Locks
    hashes: frozenset[Atom] = frozenset()

    def gives(self, atom: Atom) -> bool:
        return self.locks.holds(atom.kind, atom.operand) if atom.is_lock() else atom in self.hashes


@dataclass(frozen=True)
class Way:
    """A least set: its keys and hash values in the order of the text, and its locks."""

    keys: tuple[str, ...]
    hashes: tuple[Atom, ...]
    locks: Locks


Truth = tuple[bool, ...]
Choice = tuple[Truth, int]
End = tuple[int, tuple[int, ...], int]


@dataclass
class _Part:
    """A part of the demand over a setting and those just below it: whether each meets it with nothing more, and how many least
    sets of what is left make the first meet it, by which of the settings they meet it in and by their number of keys."""

    plain: Truth
    counts: Counter[Choice]
    atom: Optional[Atom] = None
    need: int = 0
    parts: tuple["_Part", ...] = ()
    # Of the parts from each place on: how many choices come to so many taken, to so many met by setting, with so many keys.
    tails: tuple[Counter[End], ...] = ()


class _Count:
    """The count over one setting after the other. `most_keys` bounds the keys of a way. A part over the same parts is counted once."""

    def __init__(self, free: frozenset[Atom], most_keys: int):
        self.free, self.most_keys = free, most_keys
        self.known: dict[tuple[Any, ...], _Part] = {}

    def part(self, wanted: Demand, settings: tuple[Setting, ...]) -> _Part:
        if isinstance(wanted, Atom):
            return self.atom(wanted, settings)
        parts = tuple(self.part(it, settings) for it in wanted.parts)
        shape = (wanted.need, len(settings), *map(id, parts))
        if shape not in self.known:
            plain = tuple(sum(part.plain[at] for part in parts) >= wanted.need for at in range(len(settings)))
            found = self.known[shape] = _Part(plain, Counter(), need=wanted.need, parts=parts)
            if not plain[0]:
                self.choices(found)
        return self.known[shape]

    def atom(self, atom: Atom, settings: tuple[Setting, ...]) -> _Part:
        is_free = atom in self.free
        plain = (False,) * len(settings) if is_free else tuple(it.gives(atom) for it in settings)
        if (atom, plain) not in self.known:
            keys = int(atom.kind == "key")
            is_choice = is_free and keys <= self.most_keys
            counts: Counter[Choice] = Counter({((True,) * len(settings), keys): 1} if is_choice else {})
            self.known[atom, plain] = _Part(plain, counts, atom)
        return self.known[atom, plain]

    def choices(self, found: _Part) -> None:
        """Counts from the last part to the first, and keeps the counts, by which sets are made without a dead end."""
        short = found.need - sum(part.plain[0] for part in found.parts)
        tails: list[Counter[End]] = [Counter({(0, (0,) * len(found.plain), 0): 1})]
        for part in reversed(found.parts):
            tail: Counter[End] = Counter()
            for (taken, met, keys), times in tails[-1].items():
                for is_taken, truth, added, count in _options(part):
                    if keys + added <= self.most_keys and taken + is_taken <= short:
                        tail[taken + is_taken, tuple(a + b for a, b in zip(met, truth)), keys + added] += times * count
            tails.append(tail)
        found.tails = tuple(reversed(tails))
        for (taken, met, keys), times in found.tails[0].items():
            if taken == short:
                found.counts[tuple(it >= found.need for it in met), keys] += times


def _options(part: _Part) -> Iterator[tuple[int, Truth, int, int]]:
    """What can be done with a part: each least set that meets it, by what it does, or nothing. With how many sets do so."""
    for (truth, keys), count in part.counts.items():
        yield 1, truth, keys, count
    yield 0, part.plain, 0, 1


def _sets(part: _Part, wanted: Choice) -> Iterator[tuple[Atom, ...]]:
    """The least sets of a part with this truth and number of keys, one by one."""
    if part.plain[0]:
        yield ()
        return
    if part.atom:
        yield (part.atom,)
        return
    short = part.need - sum(it.plain[0] for it in part.parts)
    ends = [end for end in part.tails[0] if end[0] == short and (tuple(it >= part.need for it in end[1]), end[2]) == wanted]
    for end in ends:
        yield from _tail_sets(part, 0, end)


def _tail_sets(part: _Part, at: int, end: End) -> Iterator[tuple[Atom, ...]]:
    """The sets from the part at this place on that come to this end."""
    if at == len(part.parts):
        yield ()
        return
    taken, met, keys = end
    for is_taken, truth, added, _ in _options(part.parts[at]):
        left = (taken - is_taken, tuple(a - b for a, b in zip(met, truth)), keys - added)
        if part.tails[at + 1].get(left, 0) == 0:
            continue
        firsts = _sets(part.parts[at], (truth, added)) if is_taken else iter([()])
        for first in firsts:
            for rest in _tail_sets(part, at + 1, left):
                yield first + rest


@dataclass(frozen=True)
class Opening:
    """The ways of one setting of the locks: how many there are."""

    locks: Locks
    count: int


class Ways:
    """All ways of a demand. `count` is how many there are, and `is_all` whether every setting was looked at."""

    def __init__(self, wanted: Demand, most_keys: int = 1 << 30):
        self.order = {atom: at for at, atom in reversed(list(enumerate(atoms(wanted))))}
        times = Counter(atoms(wanted))
        locks = {kind: levels(kind, {it.operand for it in times if it.kind == kind}) for kind in ("older", "after")}
        repeated = [it for it, count in times.items() if not it.is_lock() and count > 1]
        free = frozenset(it for it in times if not it.is_lock() and it not in repeated)
        self.found: list[tuple[Setting, _Part, list[Choice]]] = []
        most = 1 + MOST_STEPS // (1 + sum(times.values()))
        everything = list(islice(_settings(locks, repeated), most + 1))
        self.is_all = len(everything) <= most and len(repeated) <= MOST_REPEATED
        counted = _Count(free, most_keys)
        for settings in everything[:most]:
            part = counted.part(wanted, settings)
            if part.plain[0]:
                part.counts[part.plain, 0] = 1
            only_here = [choice for choice in part.counts if choice[0] == (True,) + (False,) * (len(settings) - 1)]
            if only_here:
                self.found.append((settings[0], part, sorted(only_here, key=lambda choice: choice[1])))
        self.count = sum(part.counts[choice] for _, part, choices in self.found for choice in choices)

    def count_of(self, keys: int) -> int:
        """How many ways have so many keys."""
        return sum(part.counts[choice] for _, part, choices in self.found for choice in choices if choice[1] == keys)

    def openings(self) -> list[Opening]:
        """How many ways each setting of the locks opens, in their order."""
        counts: Counter[Locks] = Counter()
        for setting, part, choices in self.found:
            counts[setting.locks] += sum(part.counts[choice] for choice in choices)
        return [Opening(locks, count) for locks, count in counts.items()]

    def first(self, most: int, keys: Optional[int] = None) -> list[Way]:
        """So many of the ways, of those with so many keys where a number is given: a fair share of each setting, those with the
        fewest keys first, in the order of the settings."""
        sources = [
            self._of(setting, part, [it for it in choices if keys is None or it[1] == keys]) for setting, part, choices in self.found
        ]
        found: list[list[Way]] = [[] for _ in sources]
        live = list(range(len(sources)))
        while live and most > 0:
            share = max(1, most // len(live))
            for at in list(live):
                drawn = list(islice(sources[at], min(share, most)))
                found[at] += drawn
                most -= len(drawn)
                if len(drawn) < share:
                    live.remove(at)
        return [way for ways in found for way in ways]

    def _of(self, setting: Setting, part: _Part, choices: list[Choice]) -> Iterator[Way]:
        for choice in choices:
            for chosen in _sets(part, choice):
                hashes = sorted((it for it in (*setting.hashes, *chosen) if it.kind != "key"), key=self.order.__getitem__)
                keys = sorted((it for it in chosen if it.kind == "key"), key=self.order.__getitem__)
                yield Way(tuple(it.digits for it in keys), tuple(hashes), setting.locks)


def _settings(locks: dict[str, list[list[int]]], repeated: list[Atom]) -> Iterator[tuple[Setting, ...]]:
    """Each setting, with those just below it behind it: the locks that wait for less come first."""
    below: dict[str, dict[Optional[int], Optional[int]]] = {kind: {None: None} for kind in locks}
    for kind, units in locks.items():
        below[kind].update({it: prior for unit in units for prior, it in zip([None, *unit], unit)})
    few = repeated if len(repeated) <= MOST_REPEATED else []
    subsets = [frozenset(it for it, is_known in zip(few, known) if is_known) for known in product((False, True), repeat=len(few))]
    for older, after, hashes in product(below["older"], below["after"], sorted(subsets, key=len)):
        lower = [] if older is None else [Setting(Locks(below["older"][older], after), hashes)]
        lower += [] if after is None else [Setting(Locks(older, below["after"][after]), hashes)]
        lower += [Setting(Locks(older, after), hashes - {it}) for it in repeated if it in hashes]
        yield Setting(Locks(older, after), hashes), *lower


def fewest(wanted: Demand, locks: Locks) -> Optional[int]:
    """The least number of keys that meet a demand with these locks and every preimage; None where none do."""
    if isinstance(wanted, Atom):
        if wanted.is_lock():
            return 0 if locks.holds(wanted.kind, wanted.operand) else None
        return int(wanted.kind == "key")
    found = sorted(it for it in (fewest(part, locks) for part in wanted.parts) if it is not None)
    return sum(found[: wanted.need]) if len(found) >= wanted.need else None
