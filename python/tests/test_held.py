"""With an asset file: the items of the witness by their names, and what is missing on each way."""

import json
import unittest

import samples
from msat.explain.command import answer

A, B, C = "02" + 32 * "01", "0279be667ef9dcbbac55a06295ce870b07029bfcdb2dce28d959f2815b16f81798", 33 * "03"
NAMES = {"alice": A, "bob": B, "carol": C}


def file(*keys: str, **others) -> bytes:
    return json.dumps({"signatures": [{"key": key, "sig": 71 * f"{at:02x}"} for at, key in enumerate(keys, 0x30)], **others}).encode()


class Held(unittest.TestCase):
    def names(self, text: str, assets: bytes) -> list[str]:
        found = answer(text, NAMES, assets=assets)
        return [it.name for it in found.held.spend.items]

    def test_a_later_key(self):
        text = "or_d(pk(alice),and_v(v:pkh(bob),older(144)))"
        self.assertEqual(
            self.names(text, file(B, sequence=144)),
            ["signature of bob", "the key bob, whose hash the Script has", "empty: no signature of alice"],
        )
        found = answer(text, NAMES, assets=file(B, sequence=143))
        self.assertIsNone(found.held.spend)
        self.assertEqual([(it.keys, it.locks.older) for it in found.held.missing], [((A,), None), ((), 144)])

    def test_a_threshold(self):
        self.assertEqual(
            self.names("thresh(2,pk(alice),s:pk(bob),sln:older(9))", file(A, sequence=9)),
            ["empty: the second branch of or_i", "empty: no signature of bob", "signature of alice"],
        )

    def test_a_multisignature(self):
        self.assertEqual(
            self.names("multi(2,alice,bob,carol)", file(A, C)),
            ["empty: what CHECKMULTISIG takes besides", "signature of alice", "signature of carol"],
        )

    def test_signatures_of_the_same_bytes(self):
        same = json.dumps({"signatures": [{"key": key, "sig": 71 * "30"} for key in (A, B, C)]}).encode()
        self.assertEqual(
            self.names("and_v(v:pk(alice),multi(2,bob,carol))", same),
            ["empty: what CHECKMULTISIG takes besides", "signature of bob", "signature of carol", "signature of alice"],
        )

    def test_items_are_named_by_consensus_too(self):
        found = answer("or_d(pk(alice),pkh(bob))", NAMES, consensus=True, assets=file(B))
        self.assertEqual(
            [it.name for it in found.held.spend.items],
            ["signature of bob", "the key bob, whose hash the Script has", "empty: no signature of alice"],
        )

    def test_branches_and_preimages(self):
        preimage = bytes(31) + b"\1"
        digest = samples.hashes.sha256(preimage).hex()
        text = f"or_i(and_v(v:pk(alice),sha256({digest})),pkh(bob))"
        assets = file(A, preimages=[preimage.hex()])
        self.assertEqual(self.names(text, assets), [f"preimage of {digest[:8]}..{digest[-4:]}", "signature of alice", "1: the first branch of or_i"])
        self.assertEqual(
            self.names(text, file(B)), ["signature of bob", "the key bob, whose hash the Script has", "empty: the second branch of or_i"]
        )
        found = answer(text, NAMES, assets=file(A))
        self.assertEqual([len(it.hashes) for it in found.held.missing], [1, 0])

    def test_wrappers(self):
        self.assertEqual(
            self.names("thresh(2,pk(alice),s:pk(bob),sndv:older(9))", file(A, B)),
            ["empty: d leaves its child out", "signature of bob", "signature of alice"],
        )
        self.assertEqual(self.names("and_b(pk(alice),adv:older(9))", file(A, sequence=9)), ["1: d takes its child", "signature of alice"])
        self.assertEqual(
            self.names("andor(pk(alice),tv:pk(bob),and_n(pk(carol),older(9)))", file(C, sequence=9)),
            ["signature of carol", "empty: no signature of alice"],
        )
        self.assertEqual(
            self.names("and_v(v:pk(bob),u:pk(alice))", file(A, B)),
            ["signature of alice", "1: the first branch of or_i", "signature of bob"],
        )
        self.assertEqual(self.names("and_v(v:pk(bob),lt:v:pk(alice))", file(A, B))[:2], ["signature of alice", "empty: the second branch of or_i"])
        self.assertEqual(self.names("or_b(pk(alice),aj:and_v(v:pk(bob),pk(carol)))", file(A)), ["empty: j leaves its child out", "signature of alice"])

    def test_ready_ways_are_those_that_satisfy(self):
        text = "or_d(multi(2,alice,bob,carol),and_v(v:pkh(dave),older(144)))"
        for keys in ((), (A,), (A, B), (B, C), (C,)):
            found = answer(text, NAMES, assets=file(*keys))
            self.assertEqual(found.held.spend is not None, any(it.is_nothing() for it in found.held.missing))


if __name__ == "__main__":
    unittest.main()
