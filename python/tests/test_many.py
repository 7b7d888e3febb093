"""A thousand random conditions with many ways, by the words of the program: each ends with a stated status, and what is said of one key
and of two keys is what the library says of them."""

import io
import random
import sys
import time
import unittest
from unittest import mock

import samples
from msat.explain import command, given
from msat.explain.demand import Atom, demand
from msat.explain.explanation import MOST_WAYS, Explanation, _latest, _Prices, explain
from msat.explain.report import explained


def said_by(text: str) -> tuple[int, str, object]:
    """The status of the program for this condition, what it printed, and the explanation or refusal that it printed."""
    found, printed = [], io.TextIOWrapper(io.BytesIO())

    def kept(*words, **options):
        found.append(answer(*words, **options))
        return found[-1]

    answer = command.answer
    with mock.patch.object(command, "answer", kept), mock.patch.object(sys, "stdout", printed):
        status = command.main([text])
    printed.seek(0)
    return status, printed.read(), found[0]


class ByTheLibrary:
    """What the library says of some keys, with all preimages, when all locks hold."""

    def __init__(self, found: Explanation):
        self.prices = _Prices(found.given.text, False)
        self.hashes = tuple(Atom(function, value) for function, value in found.hashes)
        self.latest = _latest(demand(found.spending.policy))

    def is_enough(self, *keys: str) -> bool:
        return any(self.prices.is_enough(keys, self.hashes, locks) for locks in self.latest)


class Many(unittest.TestCase):
    def test_a_thousand_conditions(self):
        chance = random.Random(2)
        statuses, ways, unknown = {}, 0, 0
        start = time.process_time()
        for number in range(1000):
            text = samples.Many(number).text()
            with self.subTest(text):
                status, printed, found = said_by(text)
                statuses[status] = statuses.get(status, 0) + 1
                self.assertIn(status, (command.DONE, command.TEXT))
                self.assertTrue(printed.startswith("Sane" if status == command.DONE else "refused text"))
                if status == command.DONE:
                    ways += found.spending.count > MOST_WAYS
                    unknown += found.spending.able is None
                    self.check(found, chance)
        seconds = time.process_time() - start
        print(f"explain: {statuses} of a thousand conditions with many ways, {ways} of them with over {MOST_WAYS}, {unknown} too many to look at, {seconds:.0f} seconds")
        # Enough of them are explained, and have that many, for this to say anything.
        self.assertGreater(statuses[command.DONE], 800)
        self.assertGreater(ways, 200)
        self.assertGreater(unknown, 5)

    def check(self, found: Explanation, chance: random.Random):
        spending = found.spending
        library = ByTheLibrary(found)
        alone = {group.keys[0]: group for group in spending.alone}
        self.assertEqual(list(alone), list(found.keys))
        for key in chance.sample(found.keys, min(3, len(found.keys))):
            if alone[key].count is not None:
                self.assertEqual(library.is_enough(key), bool(alone[key].count))
        for group in (*spending.alone, *spending.together):
            self.assertTrue(group.count is None or bool(group.ways) == bool(group.count) and len(group.ways) <= group.count)
        if spending.able is None:
            self.assertIsNone(spending.idle)
            return
        self.assertTrue(spending.idle is None or spending.able + spending.idle == spending.pairs)
        self.assertLessEqual(len(spending.together), min(spending.able, MOST_WAYS))
        shown = {frozenset(group.keys) for group in spending.together}
        if len(shown) == spending.able and len(found.keys) > 1:
            for _ in range(4):
                pair = chance.sample(found.keys, 2)
                is_able = frozenset(pair) in shown or any(alone[key].count for key in pair)
                self.assertEqual(library.is_enough(*pair), is_able)


class Cut(unittest.TestCase):
    """Conditions that have more ways of one key or of two than are shown."""

    def spending(self, text: str):
        found = explain(given.read(text, {}))
        self.assertIsInstance(found, Explanation)
        return found.spending, explained(found, False)

    def test_every_pair(self):
        for count in (12, 16, 20):
            keys = [f"k{at}" for at in range(count)]
            for text in (f"multi(2,{','.join(keys)})", f"thresh(2,pk(k0){''.join(f',s:pk({it})' for it in keys[1:])})"):
                spending, said = self.spending(text)
                pairs = count * (count - 1) // 2
                self.assertEqual((spending.pairs, spending.able, spending.idle, len(spending.together)), (pairs, pairs, 0, MOST_WAYS))
                self.assertIn(f"  {pairs - MOST_WAYS} pairs more can do something\n", said)
                self.assertIn("nothing, at any time", said)

    def test_every_key(self):
        lists = [f"multi(1,{','.join(f'k{20 * part + at}' for at in range(20))})" for part in range(4)]
        spending, said = self.spending(f"or_i(or_i({lists[0]},{lists[1]}),or_i({lists[2]},{lists[3]}))")
        self.assertEqual([len(group.ways) for group in spending.alone], 80 * [1])
        self.assertEqual((spending.able, spending.idle), (0, 3160))
        self.assertNotIn("nothing, at any time", said)

    def test_many_ways_of_a_pair(self):
        spending, said = self.spending(f"thresh(10,pk(a),s:pk(b),s:pk(c){''.join(f',altv:sha256(h{at})' for at in range(9))})")
        self.assertEqual([(group.count, len(group.ways)) for group in spending.alone], 3 * [(1, 1)])
        self.assertEqual([group.count for group in spending.together], 3 * [9])
        self.assertIn("; and 1 more\n", said)

    def test_more_than_are_looked_at(self):
        for hashes, is_known in ((6, True), (7, False)):
            both = "".join(f",aj:and_v(v:pk(p{at}),sha256(h{at})),aj:and_v(v:pk(q{at}),sha256(h{at}))" for at in range(hashes))
            for text in (f"thresh(2,pk(k){both})", f"thresh(1,pk(k){both})"):
                spending, said = self.spending(text)
                self.assertEqual((spending.able is not None, spending.idle is not None), (is_known, is_known))
                self.assertEqual("not known, since not all ways were looked at" in said, not is_known)
                self.assertEqual("of other pairs nothing is known" in said, not is_known)

    def test_warnings(self):
        for text, warned in (
            ("and_v(v:pk(a),older(65536))", ["older(65536) waits for nothing"]),
            ("and_v(v:pk(a),older(4194304))", ["older(4194304) waits for nothing"]),
            ("or_d(pk(a),and_v(v:pk(b),or_i(older(65680),and_v(v:pk(c),older(144)))))", ["older(65680) waits for 144 blocks"]),
            ("and_v(v:pk(a),after(500000000))", ["after(500000000) waits for nothing"]),
            ("and_v(v:pk(a),0)", ["nobody can spend"]),
            ("0", ["nobody can spend"]),
            ("or_d(pk(a),and_v(v:pk(b),older(144)))", []),
        ):  # fmt: skip
            with self.subTest(text):
                _, said = self.spending(text)
                self.assertEqual(said.count("\nWarning: "), len(warned))
                for warning in warned:
                    self.assertIn(f"\nWarning: {warning}", said)

    def test_that_nobody_can_spend_by_consensus_alone(self):
        lists = [f"multi(1,{','.join(f'k{number}_{at}' for at in range(20))})" for number in range(6)]
        any_of_them = lists[0]
        for it in lists[1:]:
            any_of_them = f"or_i({it},{any_of_them})"
        found = command.answer(f"and_v(v:{any_of_them},0)", {}, consensus=True)
        self.assertIsNone(found.spending)
        self.assertIn("\nWarning: nobody can spend", explained(found, False))


if __name__ == "__main__":
    unittest.main()
