# SPDX-License-Identifier: MIT
"""What there is to say of a condition. Verdicts, limits and weights are calls of the library; the ways come of the policy that it
prints, and what each weighs, and that it is one, is asked of `satisfy` with exactly its keys and preimages."""

from collections import Counter
from dataclasses import dataclass, replace
from itertools import combinations, product
from typing import Optional, Union

import msat
from msat import Assets, Signature

from . import held as holding
from .bech32 import addresses
from .demand import Atom, Demand, atoms, demand, said
from .given import Given, with_known_preimages
from .lines import Line, lines
from .locks import Locks, levels
from .tree import Node, outline
from .wallets import Wallet
from .ways import Way, Ways, fewest

# A signature of ECDSA in DER with the byte of its hash type has at most so many bytes as nodes relay it, with a low S.
SIGNATURE = 72
# How many ways are shown, of all, and of those with one or two keys.
MOST_WAYS = 64
# How many ways of one key, and how many of two, are looked at to tell which keys and which pairs have one.
MOST_LOOKED = 5000
# How many pairs of keys that have none are asked one by one whether they can do anything.
MOST_PAIRS = 120


@dataclass(frozen=True)
class Limit:
    """A limit: its name, what the condition comes to, and the most that is allowed, where anything is said of it."""

    name: str
    unit: str
    number: int
    allowed: Optional[int]


@dataclass(frozen=True)
class Priced:
    """A way, with what `satisfy` told of it: the items and the weight of its satisfaction, and the bytes of the whole witness."""

    way: Way
    items: int
    weight: int
    witness: int


@dataclass(frozen=True)
class Opening:
    """What opens when this much has been waited for: how many ways, which of those that are shown, and the least number of keys
    that are enough by then, with every preimage."""

    locks: Locks
    count: int
    shown: tuple[int, ...]
    keys: Optional[int]


@dataclass(frozen=True)
class Group:
    """One key, or two: the ways that want these and no other one. `count` is how many there are, of which `ways` are shown; None where
    not all ways of so few keys were looked at."""

    keys: tuple[str, ...]
    ways: tuple[Priced, ...]
    count: Optional[int]


@dataclass(frozen=True)
class Spending:
    """How the condition is spent: its policy, the least number of keys, the ways that are shown, how many there are (at least so
    many where `is_all` is false), what opens when, and what one key and two keys can do. `pairs` is how many pairs there are, `able` how
    many of them can do more than each of the two alone, of which `together` shows some, and `idle` how many can do no more; None where
    they weren't looked at, or not asked."""

    policy: str
    keys: Optional[int]
    shown: tuple[Priced, ...]
    count: int
    is_all: bool
    openings: tuple[Opening, ...]
    alone: tuple[Group, ...]
    together: tuple[Group, ...]
    pairs: int
    able: Optional[int]
    idle: Optional[int]


@dataclass(frozen=True)
class Held:
    """What an asset file makes possible: how it is spent, if it can be, and what is missing on each way that is shown; and how the run of
    its witness goes, where it is a run file."""

    spend: Optional[holding.Spend]
    missing: tuple[holding.Missing, ...]
    run: Optional[holding.Run]

    @property
    def shown(self) -> Union[holding.Spend, holding.Run, None]:
        """What is shown step by step: the file's own run before that of what `satisfy` writes."""
        return self.run or self.spend


@dataclass(frozen=True)
class Explanation:
    """All that is said of a sane condition, and of the descriptor that it is of, where it was given one with extended keys."""

    given: Given
    consensus: bool
    checked: msat.Checked
    root: Node
    lines: tuple[Line, ...]
    limits: tuple[Limit, ...]
    addresses: Optional[dict[str, str]]
    keys: tuple[str, ...]
    hashes: tuple[tuple[str, str], ...]
    spending: Optional[Spending]
    held: Optional[Held]
    wallet: Optional[Wallet] = None

    def said_atom(self, atom: Atom) -> str:
        """What is asked for, in a word."""
        if atom.is_lock():
            return f"{atom.kind}({atom.value})"
        name = self.given.name_of(atom.digits)
        return name if atom.kind == "key" else f"{atom.kind}({name})"

    @property
    def spent(self) -> Spending:
        """How it is spent, where that is known: not of a condition beyond the limits of policy."""
        assert self.spending is not None
        return self.spending

    def said_policy(self) -> str:
        return said(demand(self.spending.policy), self.said_atom) if self.spending else ""


def explain(given: Given, *, consensus: bool = False, assets: Optional[bytes] = None) -> Explanation:
    """What there is to say of a condition. A text that isn't sane is refused as `msat.check` refuses it, and a file as `msat.satisfy`."""
    text = given.text
    checked = msat.check(text, consensus=consensus)
    root = outline(text, consensus=consensus).root
    assert root is not None
    keys, values = _keys_and_hashes(root)
    spending = None if consensus and not _is_by_policy(text) else _spending(text, keys, consensus)
    return Explanation(
        given, consensus, checked, root, tuple(lines(text, checked.script, root, consensus=consensus)), _limits(text, consensus),
        None if given.standins else addresses(checked.program), keys, values, spending,
        None if assets is None else _held(text, root, checked.script, assets, consensus, given, spending),
    )  # fmt: skip


def _is_by_policy(text: str) -> bool:
    try:
        msat.facts(text)
    except msat.TextRefused:
        return False
    return True


def _keys_and_hashes(root: Node) -> tuple[tuple[str, ...], tuple[tuple[str, str], ...]]:
    """The keys of a condition, and its hash values with their functions, each once, in the order of the text."""
    keys: dict[str, None] = {}
    values: dict[tuple[str, str], None] = {}
    for node in root.walk():
        if node.name in ("pk", "pkh", "pk_k", "pk_h", "multi"):
            keys.update((key.lower(), None) for key in node.arguments[node.name == "multi" :])
        elif node.name in ("sha256", "hash256", "ripemd160", "hash160"):
            values[node.name, node.arguments[0].lower()] = None
    return tuple(keys), tuple(values)


def _limits(text: str, consensus: bool) -> tuple[Limit, ...]:
    limits = msat.facts(text, consensus=consensus).limits
    return (
        Limit("Script", "bytes", limits.size, 10000 if consensus else 3600),
        Limit("opcodes", "that count", limits.ops, 201),
        Limit("witness items", "without the Script", limits.items, None if consensus else 100),
        Limit("stack", "elements at most", limits.height or 0, 1000),
        Limit("witness weight", "at most, without the Script", limits.weight, None),
    )


class _Prices:
    """What ways weigh, each asked once. Where a hash stands in the text another one stands in what is asked, of which a preimage is
    known: no size depends on its digits."""

    def __init__(self, text: str, consensus: bool):
        self.text, self.known = with_known_preimages(text)
        self.consensus = consensus
        self.priced: dict[Way, Priced] = {}

    def assets(self, keys: tuple[str, ...], hashes: tuple[Atom, ...], locks: Locks) -> Assets:
        signatures = tuple(Signature(bytes.fromhex(key), bytes([0x30]) * SIGNATURE) for key in keys)
        preimages = tuple(self.known[it.kind, it.digits] for it in hashes)
        return replace(Assets(signatures=signatures, preimages=preimages), **locks.fields())

    def of(self, way: Way) -> Priced:
        if way not in self.priced:
            found = msat.satisfy(self.text, self.assets(way.keys, way.hashes, way.locks), consensus=self.consensus)
            self.priced[way] = Priced(way, found.replay.items, found.replay.weight, len(found.witness))
        return self.priced[way]

    def is_enough(self, keys: tuple[str, ...], hashes: tuple[Atom, ...], locks: Locks) -> bool:
        """Whether these are enough to spend."""
        try:
            msat.least_weight(self.text, self.assets(keys, hashes, locks), consensus=self.consensus)
        except msat.NoSatisfaction:
            return False
        return True


def _latest(wanted: Demand) -> list[Locks]:
    """The locks of a transaction that waits for all that one can wait for: of each unit the latest."""
    operands = {kind: {it.operand for it in atoms(wanted) if it.kind == kind} for kind in ("older", "after")}
    last: dict[str, list[Optional[int]]] = {kind: [unit[-1] for unit in levels(kind, values)] or [None] for kind, values in operands.items()}
    return [Locks(older, after) for older, after in product(last["older"], last["after"])]


def _spending(text: str, keys: tuple[str, ...], consensus: bool) -> Spending:
    printed = msat.policy(text)
    wanted = demand(printed.policy)
    prices = _Prices(text, consensus)
    ways = Ways(wanted)
    shown = tuple(prices.of(way) for way in ways.first(MOST_WAYS))
    openings = tuple(
        Opening(it.locks, it.count, tuple(at for at, way in enumerate(shown) if way.way.locks == it.locks), fewest(wanted, it.locks))
        for it in ways.openings()
    )
    few = _few(wanted, printed.keys)
    alone = _groups(few, [(key,) for key in keys], max(MOST_WAYS, len(keys)), prices)
    together = _groups(few, [it for it in few.ways if len(it) == 2], MOST_WAYS, prices)
    able = sum(len(it) == 2 for it in few.ways) if few.is_all else None
    return Spending(
        printed.policy, printed.keys, shown, ways.count, ways.is_all, openings, alone, tuple(it for it in together if it.ways),
        len(keys) * (len(keys) - 1) // 2, able, _idle(few, wanted, printed.keys, keys, prices),
    )  # fmt: skip


@dataclass(frozen=True)
class _Few:
    """The ways of one key and of two, by their keys, and whether all of them were looked at."""

    ways: dict[tuple[str, ...], list[Way]]
    is_all: bool


def _few(wanted: Demand, least: Optional[int]) -> _Few:
    """The ways of one key and of two, where the library says that `least` keys have to sign at least."""
    if least is None or least > 2:
        return _Few({}, True)
    ways = Ways(wanted, 2)
    found: dict[tuple[str, ...], list[Way]] = {}
    for number in (1, 2):
        for way in ways.first(MOST_LOOKED, number):
            found.setdefault(way.keys, []).append(way)
    return _Few(found, ways.is_all and all(ways.count_of(number) <= MOST_LOOKED for number in (1, 2)))


def _groups(few: _Few, some: list[tuple[str, ...]], most: int, prices: _Prices) -> tuple[Group, ...]:
    """A group for each of these keys. So many ways are shown: of each group the first one, then of each the second, and so on."""
    ways = [few.ways.get(keys, []) for keys in some]
    turns = sorted((turn, at) for at, its in enumerate(ways) for turn in range(len(its)))
    shown = Counter(at for _, at in turns[:most])
    counts = [len(its) if few.is_all else None for its in ways]
    return tuple(Group(keys, tuple(map(prices.of, ways[at][: shown[at]])), counts[at]) for at, keys in enumerate(some))


def _idle(few: _Few, wanted: Demand, least: Optional[int], keys: tuple[str, ...], prices: _Prices) -> Optional[int]:
    """How many pairs can do no more than each of the two alone: all, where the library says that more keys have to sign. Else the
    library is asked of each pair and key that can do nothing at all; None where not all ways were looked at, or these are too many."""
    able = {frozenset(it) for it in few.ways}
    idle = [pair for pair in combinations(keys, 2) if frozenset(pair) not in able]
    if least is None or least > 2:
        return len(idle)
    unable = [some for some in (*idle, *((key,) for key in keys)) if not any(frozenset((key,)) in able for key in some)]
    if not few.is_all or sum(len(some) == 2 for some in unable) > MOST_PAIRS:
        return None
    hashes = tuple(dict.fromkeys(it for it in atoms(wanted) if not it.is_lock() and it.kind != "key"))
    if any(prices.is_enough(some, hashes, locks) for some in unable for locks in _latest(wanted)):
        raise AssertionError("the library finds a way that isn't among those of the policy")
    return len(idle)


def _held(text: str, root: Node, script: bytes, assets: bytes, consensus: bool, given: Given, spending: Optional[Spending]) -> Held:
    """What the file makes possible. A run file may be none of assets, as one with a signature of another length: then its run alone is told."""
    run = holding.run(text, root, script, assets, given.name_of)
    try:
        spend = holding.spend(text, root, assets, consensus, given.name_of)
    except msat.FileRefused:
        if run is None:
            raise
        return Held(None, (), run)
    file = holding.holding(assets)
    return Held(spend, tuple(holding.missing(it.way, file) for it in (spending.shown if spending else ())), run)
