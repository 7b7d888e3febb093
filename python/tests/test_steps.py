"""The run of a witness, step by step, and its page."""

import json
import unittest

import msat
import samples  # noqa: F401
from msat.explain.command import _status, answer
from msat.explain.document import document
from msat.explain.page import page
from msat.explain.report import explained
from test_held import A, B, C, NAMES, file

TEXT = "or_d(pk(alice),and_v(v:pkh(bob),older(144)))"


class Steps(unittest.TestCase):
    def steps(self):
        return answer(TEXT, NAMES, assets=file(B, sequence=144)).held.spend.steps

    def test_each_step_has_its_node_and_its_stack(self):
        steps = self.steps()
        self.assertEqual([it.offset for it in steps], [0, 34, 35, 36, 37, 38, 39, 60, 61, 62, 65, 66])
        self.assertEqual({it.kind for it in steps}, {"step"})
        self.assertEqual([it.name for it in steps][:4], [f"push {A}", "OP_CHECKSIG", "OP_IFDUP", "OP_NOTIF"])
        self.assertEqual(steps[0].main, (71 * "30", B, "-", A))
        self.assertEqual(steps[-1].main, ("9000",))
        self.assertEqual((steps[3].branches, steps[-1].branches), ((True,), ()))

    def test_a_page_goes_forward_and_back_and_lights_the_node(self):
        found = answer(TEXT, NAMES, assets=file(B, sequence=144))
        shown = page(found)
        for at, it in enumerate(self.steps()):
            self.assertEqual(shown.count(f'<div id="step-{at}" '), 1)
            self.assertIn(f".run:has(#step-{at}:target) .node-{it.place} ", shown)
            self.assertIn(f'class="node-{it.place}"', shown)
        self.assertEqual(shown.count('class="step first"'), 1)
        self.assertIn('<a href="#step-1">Forward</a>', shown)
        self.assertNotIn("<script", shown)

    def test_a_file_without_a_satisfaction_has_no_run(self):
        self.assertNotIn('class="run"', page(answer(TEXT, NAMES, assets=file(B, sequence=143))))


def run_file(*witness: str, **others) -> bytes:
    """A run file with alice's and bob's signatures."""
    return json.dumps({**json.loads(file(A, B, sequence=144)), "witness": list(witness), **others}).encode()


class Runs(unittest.TestCase):
    """A run file in the place of an asset file."""

    SIGNED = (71 * "31", B, "")

    def shown(self, *witness: str, **others):
        return answer(TEXT, NAMES, assets=run_file(*witness, **others))

    def test_a_run_that_is_accepted(self):
        found = self.shown(*self.SIGNED)
        run = found.held.run
        self.assertEqual((run.status, run.said, run.first, _status(found)), (0, "accepted ops 9 peak 4", 0, 0))
        self.assertEqual([it.name for it in run.items], ["signature of bob", "the key bob", "empty"])
        self.assertEqual(run.steps[-1].main, ("9000",))
        self.assertEqual(explained(found, False).count("Where it fails"), 0)

    def test_the_step_that_fails_comes_first(self):
        found = self.shown(71 * "31", C, "")
        run = found.held.run
        self.assertEqual((run.status, run.said, _status(found)), (8, "refused script Verify at 7", 8))
        self.assertEqual((run.first, run.steps[run.first].kind, run.steps[run.first].name), (7, "stop", "OP_EQUALVERIFY"))
        shown = page(found)
        self.assertIn('<div id="step-7" class="step first">', shown)
        self.assertEqual(shown.count('class="step first"'), 1)
        self.assertIn(f".run:not(:has(.step:target)) .node-{run.steps[7].place} ", shown)
        said = explained(found, False)
        self.assertLess(said.index("OP_EQUALVERIFY", said.index("Where it fails")), said.index("Step by step"))
        told = document(found)["held"]["run"]
        self.assertEqual((told["status"], told["first"], told["steps"][7]["node"]), (8, 7, "pkh(bob)"))

    def test_a_run_that_fails_behind_its_last_step(self):
        run = self.shown(*self.SIGNED, sequence=143).held.run
        self.assertEqual(run.said.split()[2], "UnmetLock")
        run = answer("pk(alice)", NAMES, assets=run_file("")).held.run
        self.assertEqual((run.said, run.first, len(run.steps)), ("refused script EvalFalse at 2", 1, 2))
        self.assertEqual(run.steps[run.first].main, ("-",))

    def test_another_script(self):
        found = self.shown(*self.SIGNED, script="51")
        self.assertEqual((found.held.run.status, found.held.run.steps, _status(found)), (9, (), 9))
        self.assertIn("another script", explained(found, False))
        self.assertIn("another script", page(found))

    def test_a_run_file_that_is_no_asset_file(self):
        twice = run_file("30", signatures=[{"key": A, "sig": "30"}, {"key": A, "sig": "31"}])
        found = answer("pk(alice)", NAMES, assets=twice)
        self.assertEqual((found.held.run.status, found.held.spend, found.held.missing), (0, None, ()))
        with self.assertRaises(msat.FileRefused):
            msat.satisfy(found.given.text, twice)

    def test_a_run_file_that_is_refused(self):
        self.assertEqual(self.shown("0").report, "refused file Hex witness 0")
        self.assertEqual(self.shown(7).report, "refused file Shape witness")

    def test_by_consensus_alone(self):
        keys = [f"02{at:064x}" for at in range(1, 102)]
        text = "and_v(" * 100 + f"v:pk({keys[0]})" + "".join(f",v:pk({it}))" for it in keys[1:100]) + f",pk({keys[100]}))"
        held = answer(text, {}, consensus=True, assets=json.dumps({"witness": []}).encode()).held
        self.assertEqual((held.run.status, held.run.steps[held.run.first].kind), (8, "stop"))
