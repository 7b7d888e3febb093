"""Ways: against a brute force that asks the library of every set of keys, preimages and locks; and their count and their time where
there are thousands."""

import itertools
import json
import time
import unittest
from dataclasses import replace

import samples
import msat
from msat.explain import given, hashes
from msat.explain.command import answer
from msat.explain.demand import Atom, demand
from msat.explain.explanation import MOST_WAYS, _Prices, explain
from msat.explain.locks import COUNT, SECONDS, TIMES, Locks, levels
from msat.explain.ways import Ways


def is_sane(text: str) -> bool:
    try:
        msat.facts(text)
    except msat.MsatError:
        return False
    return True


def waits_no_more(a: Locks, b: Locks) -> bool:
    """Whether each lock of the first is one of the second, or earlier in its unit."""
    older = a.older is None or b.older is not None and a.older & SECONDS == b.older & SECONDS and a.older & COUNT <= b.older & COUNT
    after = a.after is None or b.after is not None and (a.after < TIMES) == (b.after < TIMES) and a.after <= b.after
    return older and after


def least(sets: list) -> set:
    """The sets with nothing in them that could be left out."""
    return {
        it
        for it in sets
        if not any(o != it and o[0] <= it[0] and o[1] <= it[1] and waits_no_more(o[2], it[2]) for o in sets)
    }


def subsets(things) -> list[frozenset]:
    return [frozenset(it) for count in range(len(things) + 1) for it in itertools.combinations(things, count)]


class BruteForce(unittest.TestCase):
    def ways_by_asking(self, found) -> set:
        """Every set of assets that the library takes, and the least of them. Nothing of the policy is looked at."""
        operands = {"older": set(), "after": set()}
        for node in found.root.walk():
            if node.name in operands:
                operands[node.name].add(int(node.arguments[0]))
        choices = {kind: [None] + [it for unit in levels(kind, values) for it in unit] for kind, values in operands.items()}
        prices = _Prices(found.given.text, False)
        taken = []
        for older, after in itertools.product(choices["older"], choices["after"]):
            for keys in subsets(found.keys):
                for values in subsets(prices.known):
                    atoms = tuple(Atom(kind, value) for kind, value in values)
                    if prices.is_enough(tuple(keys), atoms, Locks(older, after)):
                        taken.append((keys, values, Locks(older, after)))
        return least(taken)

    def test_ways_are_those_of_a_brute_force(self):
        tried = seed = 0
        while tried < 150:
            seed += 1
            text = samples.Maker(seed).is_b(3)
            if not is_sane(text):
                continue
            found = explain(given.read(text, {}))
            settings = sum(node.name in ("older", "after") for node in found.root.walk())
            if 2 ** (len(found.keys) + len(found.hashes)) * (1 + settings) > 600:
                continue
            tried += 1
            ways = Ways(demand(found.spending.policy))
            made = [(frozenset(it.keys), frozenset((a.kind, a.value) for a in it.hashes), it.locks) for it in ways.first(1 << 30)]
            with self.subTest(text):
                self.assertEqual(set(made), self.ways_by_asking(found))
                self.assertEqual(len(made), len(set(made)))
                self.assertEqual(len(made), ways.count)
                self.assertTrue(ways.is_all)
                self.assertEqual(found.spending.count, ways.count)
                self.assertEqual(sum(it.count for it in found.spending.openings), ways.count)
                self.assertEqual(found.spending.keys, min(len(it[0]) for it in made) if made else None)
                self.check_groups(found, made)

    def check_groups(self, found, made):
        for group in (*found.spending.alone, *found.spending.together):
            if len(group.ways) < 8:
                wanted = {it for it in made if it[0] == frozenset(group.keys)}
                said = {(frozenset(it.way.keys), frozenset((a.kind, a.value) for a in it.way.hashes), it.way.locks) for it in group.ways}
                self.assertEqual(said, wanted)
        if found.spending.idle is not None:
            pairs = {it[0] for it in made if len(it[0]) == 2}
            self.assertEqual(found.spending.idle, found.spending.pairs - len(pairs))


class Asked(unittest.TestCase):
    """Each way against the library, with the real preimages, which the samples' hash values have."""

    KNOWN = {function(bytes([it]) * 32).hex(): bytes([it]) * 32 for function in hashes.FUNCTIONS.values() for it in range(3)}

    def assets(self, keys, atoms, locks: Locks) -> bytes:
        said = {"signatures": [{"key": key, "sig": "30" * 72} for key in keys], "preimages": [self.KNOWN[it.value].hex() for it in atoms]}
        return json.dumps({**said, **locks.fields()}).encode()

    def lower(self, found, locks: Locks) -> list[Locks]:
        """The locks with one of them left out, or at the next lower value of its unit."""
        lower = []
        for kind in ("older", "after"):
            value = getattr(locks, kind)
            operands = {int(node.arguments[0]) for node in found.root.walk() if node.name == kind}
            for unit in levels(kind, operands):
                if value in unit:
                    at = unit.index(value)
                    lower.append(replace(locks, **{kind: unit[at - 1] if at else None}))
        return lower

    def test_each_way_is_one_and_least(self):
        seed = ways = 0
        while ways < 250:
            seed += 1
            text = samples.Maker(seed + 5000).is_b(4)
            if not is_sane(text):
                continue
            found = answer(text, {})
            for at, priced in enumerate(found.spending.shown[:12]):
                way, ways = priced.way, ways + 1
                with self.subTest(text, way=at):
                    self.check_way(text, found, at, priced)
                    keys, atoms = way.keys, way.hashes
                    fewer = [([it for it in keys if it != key], atoms, way.locks) for key in keys]
                    fewer += [(keys, [it for it in atoms if it != atom], way.locks) for atom in atoms]
                    fewer += [(keys, atoms, locks) for locks in self.lower(found, way.locks)]
                    for it in fewer:
                        with self.assertRaises(msat.NoSatisfaction):
                            msat.satisfy(text, self.assets(*it))

    def check_way(self, text, found, at, priced):
        """The file with exactly the way's assets makes it, by the weight that was told, and all items have their names."""
        file = self.assets(priced.way.keys, priced.way.hashes, priced.way.locks)
        held = answer(text, {}, assets=file).held
        self.assertTrue(held.missing[at].is_nothing())
        self.assertEqual((held.spend.replay.items, held.spend.replay.weight), (priced.items, priced.weight))
        self.assertEqual(len(held.spend.witness), priced.witness)
        self.assertEqual(len(held.spend.items), priced.items)
        for item in held.spend.items:
            is_like = {
                "signature of": item.data == b"\x30" * 72,
                "the key": len(item.data) == 33,
                "preimage of": item.data in self.KNOWN.values(),
                "32 bytes that": item.data == bytes(32),
                "empty": item.data == b"",
                "1: ": item.data == b"\1",
            }
            self.assertEqual([is_like[start] for start in is_like if item.name.startswith(start)], [True], item)


class Large(unittest.TestCase):
    def explained(self, text: str):
        start = time.process_time()
        found = explain(given.read(text, {}))
        self.assertLess(time.process_time() - start, 2)
        return found.spending

    def test_half_of_twenty(self):
        keys = ",".join(f"k{at}" for at in range(20))
        found = self.explained(f"multi(10,{keys})")
        self.assertEqual((found.count, len(found.shown)), (184756, MOST_WAYS))

    def test_thresholds_and_locks(self):
        keys = ",".join(f"k{at}" for at in range(10))
        more = "".join(f",s:pk(m{at})" for at in range(9))
        found = self.explained(f"or_d(multi(5,{keys}),and_v(v:thresh(5,pk(m){more}),older(1000)))")
        self.assertEqual((found.count, len(found.shown)), (252 + 252, MOST_WAYS))
        self.assertEqual([(it.count, len(it.shown)) for it in found.openings], [(252, 32), (252, 32)])

    def test_many_settings(self):
        locks = "".join(f",s:pk(a{at}),sln:older({at + 1})" for at in range(11))
        found = self.explained(f"thresh(12,pk(a){locks})")
        self.assertTrue(found.is_all)
        self.assertEqual(len(found.openings), 12)
        both = "".join(f",aj:and_v(v:pk(p{at}),sha256(h{at})),aj:and_v(v:pk(q{at}),sha256(h{at}))" for at in range(6))
        found = self.explained(f"thresh(6,pk(k){both})")
        self.assertTrue(found.is_all)
        self.assertEqual(found.count, 1716)

    def test_the_bound_of_settings(self):
        for hashes_, locks, is_all in ((7, 0, False), (6, 1, True), (0, 60, True), (0, 256, False)):
            parts = "".join(f",all(key(a{at}),sha256({at})),all(key(b{at}),sha256({at}))" for at in range(hashes_))
            parts += "".join(f",all(key(c{at}),older({at + 1}))" for at in range(locks))
            start = time.process_time()
            ways = Ways(demand(f"any(key(k){parts})"))
            self.assertEqual(ways.is_all, is_all)
            self.assertEqual(ways.count, len(ways.first(1 << 20)))
            self.assertLess(time.process_time() - start, 2)

    def test_many_hashes(self):
        parts = "".join(f",aj:and_v(v:pk(p{at}),sha256(h{at}))" for at in range(12))
        text = f"thresh(6,pk(k){parts})"
        found = self.explained(text)
        self.assertEqual(found.count, 1716)


if __name__ == "__main__":
    unittest.main()
