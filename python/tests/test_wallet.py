"""Descriptors with extended keys: that what is shown is what msat-descriptor and the library say, and that marks stand below the right character."""

import unittest

import samples  # noqa: F401
import msat
from msat.explain import wallet
from msat.explain.command import answer, main
from msat.explain.document import document
from msat.explain.explanation import Explanation
from msat.explain.page import page
from msat.explain.refusals import Refusal
from msat.explain.report import explained

X = "xpub661MyMwAqRbcFW31YEwpkMuc5THy2PSt5bDMsktWQcFF8syAmRUapSCGu8ED9W6oDMSgv6Zz8idoc4a6mr8BDzTJY47LJhkJ8UB7WEGuduB"
Y = "[73c5da0a/84h/0h/0h]xpub6CatWdiZiodmUeTDp8LT5or8nmbKNcuyvz7WyksVFkKB4RHwCD3XyuvPEbvqAQY3rAPshWcMLoP2fMFMKHPJ4ZeZXYVUhLv1VMrjPC7PW6V"
GOOD = f"wsh(or_d(pk({Y}/<0;1>/*),and_v(v:pkh({X}/7/<0;1>/*),older(144))))"
PRIVATE = "xprv9s21ZrQH143K3QTDL4LXw2F7HEK3wJUD2nW2nRk4stbPy6cq3jPPqjiChkVvvNKmPGJxWUtg6LnF5kejMRNNU3TGtRBeJgk33yuGBxrMPHi"


class Wallets(unittest.TestCase):
    def explained(self, raw: str, digits: dict[str, str] = {}, **place: str) -> Explanation:
        found = answer(raw, digits, **place)
        self.assertIsInstance(found, Explanation)
        return found

    def refused(self, raw: str, **place: str) -> Refusal:
        found = answer(raw, {}, **place)
        self.assertIsInstance(found, Refusal)
        return found

    def test_each_place_is_as_it_is_derived(self):
        for branch, index in (("0", "0"), ("1", "0"), ("1", "3"), ("0", "2147483647")):
            found = self.explained(GOOD, branch=branch, index=index)
            code, report = wallet.ask(["derive", "--branch", branch, GOOD, index])
            self.assertEqual(code, 0)
            told = dict(line.split(" ", 1) for line in report.splitlines())
            self.assertEqual(found.given.text, told["text"])
            self.assertEqual((found.checked.script.hex(), found.checked.program.hex()), (told["script"], told["program"]))
            self.assertEqual(found.addresses["main"], told["address"])
            self.assertEqual(found.checked, msat.check(told["text"]))
            keys = [line.split()[1:] for line in report.splitlines() if line.startswith("key ")]
            self.assertEqual({key: f"[{path}]" for key, path in keys}, {key: found.given.name_of(key) for key in found.keys})

    def test_first_addresses(self):
        known = self.explained(GOOD).wallet
        self.assertEqual([it.number for it in known.branches], [0, 1])
        for branch in known.branches:
            report = wallet.ask(["derive", "--branch", str(branch.number), GOOD, "0", "5"])[1]
            self.assertEqual([it.address for it in branch.spots], [line[8:] for line in report.splitlines() if line.startswith("address ")])

    def test_what_it_is_called(self):
        found = self.explained(GOOD, {"ada": "73c5da0a"})
        self.assertEqual([found.given.name_of(it) for it in found.keys], ["ada/84h/0h/0h/0/0", "[bd16bee5/7/0/0]"])

    def test_white_space_and_checksum(self):
        plain = self.explained(GOOD)
        whole = plain.wallet.text
        self.assertEqual(whole[: len(GOOD)], GOOD)
        self.assertIn(f"No checksum stands behind it: it is {whole[len(GOOD):]}", plain.given.done)
        spaced = self.explained(f" {whole[:4]}\n\t{whole[4:40]} {whole[40:]} \n")
        self.assertEqual((spaced.wallet, spaced.given.text), (plain.wallet, plain.given.text))
        self.assertEqual(spaced.given.done[:2], ("White space was taken out", "The checksum is right"))

    def test_sorted_keys_and_sh(self):
        found = self.explained(f"sh(wsh(sortedmulti(1,{X}/0/*,{Y}/0/*)))")
        self.assertEqual(found.root.name, "multi")
        self.assertTrue(found.wallet.output.startswith("a914"))
        self.assertIn(found.wallet.output, explained(found, False))

    def test_test_network(self):
        tpub = "tpubD6NzVbkrYhZ4XJDrzRvuxHEyQaPd1mwwdDofEJwekX18tAdsqeKfxss79AJzg1431FybXg5rfpTrJF4iAhyR7RubberdzEQXiRmXGADH2eA"
        found = self.explained(f"wsh(pk({tpub}/5))")
        self.assertEqual((found.wallet.network, list(found.addresses)), ("test", ["test", "regtest"]))
        self.assertEqual([len(it.spots) for it in found.wallet.branches], [1])

    def test_marks(self):
        for raw, mark, report in (
            (f"wsh(\n pk({X}/7h/*))", "7h", "refused descriptor Hardened at"),
            (f"wsh(pk( {PRIVATE}/0/*))", "xprv", "refused descriptor Private at"),
            (f"wsh(multi(1,,{PRIVATE}))", ",", "refused descriptor Syntax at"),
            (f"wsh(pk(z{X[1:]}/0/*))", "zpub", "refused descriptor Key at"),
            (f" wsh(pk({X}/0/*) )#qqqqqqqq", "#", "refused descriptor Checksum at"),
            (f"tr({X}/0/*)", "tr", "refused descriptor Other at"),
            (f"wsh(or_d(pk({Y}/*),\n and_v(pk({X}/*),older(144))))", "and_v", "refused branch 0 index 0 Rule AndVX at"),
            (f"wsh(or_b(pk({X}/*), s:pk({X}/*)))", X, "refused branch 0 index 0 RepeatedKey at"),
        ):  # fmt: skip
            found = self.refused(raw)
            self.assertTrue(found.report.startswith(report), found.report)
            self.assertEqual(found.status, 2)
            self.assertTrue(raw[found.place :].startswith(mark) or mark == X, (raw[found.place :][:20], mark))
            self.assertTrue(found.sentence and found.advice)
            self.assertNotIn(PRIVATE[4:12], found.shown + found.report + found.sentence + found.advice)

    def test_reasons_without_a_place(self):
        self.assertEqual(self.refused(GOOD, branch="2").report, "refused descriptor NoBranch")
        self.assertEqual(self.refused(f"wsh(pk({X}))", index="1").report, "refused descriptor NotRanged")
        found = self.refused(f"wsh(thresh(1,pk({X}/*),a:older(4)))")
        self.assertTrue(found.report.startswith("refused branch 0 index 0 "))

    def test_what_is_none(self):
        self.assertFalse(wallet.is_descriptor(f"or_d(pk({X}),pk(a))"))
        self.assertFalse(wallet.is_descriptor("wsh(pk([d34db33f/48h]xpub6A/0/*))"))
        self.assertEqual(self.refused(f"wpkh({X}/0/*)").report, "refused input Kind")
        with self.assertRaises(msat.Unreadable):
            wallet.ask(["check", "a\0b"])

    def test_private_keys_are_not_shown(self):
        found = answer(f"wsh(pk({PRIVATE}/0/*))\0", {})
        self.assertEqual(found.report, "refused input")
        self.assertNotIn(PRIVATE[4:12], found.shown)

    def test_words(self):
        for words in (["pk(alice)", "--index", "1"], [GOOD, "--branch", "16"], [GOOD, "--index", "01"], [GOOD, "--index", "2147483648"]):
            self.assertEqual(main(words), 1)

    def test_page_and_document(self):
        found = self.explained(GOOD, branch="1", index="4")
        told = document(found)["descriptor"]
        self.assertEqual((told["branch"], told["index"], told["kind"]), (1, 4, "wsh"))
        for branch in found.wallet.branches:
            for spot in branch.spots:
                self.assertIn(spot.address, page(found))
        self.assertIn("branch 1, index 4", page(found))


if __name__ == "__main__":
    unittest.main()
