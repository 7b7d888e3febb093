"""What is pasted: white space, wsh(..), checksums, names, Scripts, and that marks stand below the right character."""

import os
import subprocess
import sys
import tempfile
import unittest

import samples  # noqa: F401
import msat
from msat.explain.checksum import checksum
from msat.explain.command import answer
from msat.explain.given import Unfit, key_of, read
from msat.explain.refusals import Refusal
from msat.explain.report import marked

A = "02" + 32 * "01"
B = "0279be667ef9dcbbac55a06295ce870b07029bfcdb2dce28d959f2815b16f81798"


class Reading(unittest.TestCase):
    def test_white_space_and_wsh(self):
        found = read(f" wsh( or_d(pk({A}),\r\n\tpk({B})) )\n", {})
        self.assertEqual(found.text, f"or_d(pk({A}),pk({B}))")
        self.assertEqual(len(found.origin), len(found.text) + 1)

    def test_checksum(self):
        text = f"wsh(pk({A}))"
        self.assertEqual(read(f"{text}#{checksum(text)}", {}).text, f"pk({A})")
        for wrong in ("", "q", checksum(text)[:-1], checksum(text) + "q", checksum(text).upper(), "#" + checksum(text)[1:]):
            with self.assertRaises(Unfit) as caught:
                read(f"{text}#{wrong}", {})
            self.assertEqual((caught.exception.name, caught.exception.place), ("Checksum", len(text)))

    def test_checksums_of_bip_380(self):
        for wrong in ("raw(deadbeef)#", "raw(deadbeef)#89f8spxmx", "raw(deadbeef)#89f8spx", "raw(deedbeef)#89f8spxm", "raw(deadbeef)##9f8spxm", "raw(Ü)#00000000"):
            with self.assertRaises(Unfit):
                read(wrong, {})
        self.assertEqual(read("raw(deadbeef)#89f8spxm", {}).text, "raw(deadbeef)")

    def test_names(self):
        found = read("or_d(pk(alice),multi(2,bob,[d34db33f/48h/0']xpub6A/<0;1>/*,carol))", {"alice": A})
        bob, carol = key_of("bob"), key_of("carol")
        other = key_of("[d34db33f/48h/0']xpub6A/<0;1>/*")
        self.assertEqual(found.text, f"or_d(pk({A}),multi(2,{bob},{other},{carol}))")
        self.assertEqual(found.standins, ("bob", "[d34db33f/48h/0']xpub6A/<0;1>/*", "carol"))
        self.assertEqual(found.name_of(A), "alice")
        self.assertEqual(found.name_of(B), "0279be66..1798")

    def test_names_of_hashes(self):
        found = read("and_v(v:pk(a),sha256(H))", {})
        self.assertEqual(found.standins, ("a", "H"))
        self.assertEqual(len(msat.script(found.text)), 34 + 1 + 39)

    def test_what_is_no_name(self):
        for word in ("02", "1", "", A + "00", 64 * "a"):
            self.assertEqual(read(f"pk({word})", {}).text, f"pk({word})")

    def test_digits_make_a_name_of_other_words_alone(self):
        self.assertEqual(read("pk(@0)", {"@0": A}).text, f"pk({A})")
        self.assertEqual(read(f"pk({A})", {A: B}).text, f"pk({A})")

    def test_script(self):
        text = f"or_d(pk({A}),and_v(v:pkh({B}),older(144)))"
        script = msat.script(text).hex()
        found = read(f" {script[:20]}\n{script[20:]} ", {"bob": B})
        self.assertEqual(msat.script(found.text).hex(), script)
        self.assertEqual(found.name_of(B), "bob")
        self.assertIsInstance(answer(script, {}), Refusal)
        self.assertEqual(answer(script, {}, (B,)).given.text, found.text)

    def test_every_byte_has_its_character(self):
        raw = " or_d(pk(é),\n pk( alice ))"
        found = read(raw, {"é": A})
        self.assertEqual(len(found.origin), len(found.text.encode()) + 1)
        self.assertEqual(raw[found.place(found.text.index("pk"))], "p")
        self.assertEqual(raw[found.place(found.text.index(A))], "é")
        self.assertEqual(raw[found.place(found.text.index(A) + 30)], "é")
        self.assertEqual(raw[found.place(found.text.rindex("02"))], "a")


class Marks(unittest.TestCase):
    def refusal(self, raw: str) -> Refusal:
        found = answer(raw, {})
        self.assertIsInstance(found, Refusal)
        return found

    def test_the_mark_stands_at_the_wrong_place(self):
        for raw, at in (
            ("or_d(pk(alice),\n  and_v(v:pk(bob),  oldr(144)))", "oldr"),
            ("and_v( pk(alice), pk(bob) )", "and_v"),
            ("pk(02)", "02"),
            ("or_i(pk(a),older( 01 ))", "01"),
            ("or_b(pk(alice),pk(bob))", "or_b"),
            ("or_d(pk(alice),pk(alice))", "pk(alice))"),
            ("sh(wsh(pk(a)))", "sh"),
        ):
            with self.subTest(raw):
                line, column = marked(raw, self.refusal(raw).place)
                self.assertTrue(line[column:].startswith(at), (line, column))

    def test_long_lines_are_cut_around_the_mark(self):
        raw = "and_v(v:pk(a)," * 40 + "oldr(1)" + ")" * 40 + " " * 300
        line, column = marked(raw, self.refusal(raw).place)
        self.assertTrue(line[column:].startswith("oldr"))
        self.assertLess(len(line), 110)

    def test_rules_tell_the_types(self):
        found = self.refusal("and_v(pk(alice),pk(bob))")
        self.assertIn("and_v(X,Y) requires: X is V.", found.sentence)
        self.assertTrue(found.advice.endswith("It fits with v: before pk(alice)"), found.advice)
        self.assertIn("X is Bonduse", found.sentence)
        self.assertEqual(found.status, 2)

    def test_letters_that_fit_are_the_library_s(self):
        for raw, fits in (
            ("thresh(1,pk(a),pk(b))", "s: before pk(b)"),
            ("or_d(pk(a), and_v( v:pk( b ),and_b(pk(c),pk(d))))", "s: before pk(d)"),
            ("pk_k(a)", ""),
            ("dv:pk(a)", ""),
            ("or_b(pk(a),sha256(H))", "s: before sha256(H)"),
            ("or_b(pk(a),multi(1,b))", "a: before multi(1,b)"),
        ):
            with self.subTest(raw):
                found = self.refusal(raw)
                self.assertEqual(found.advice.partition("It fits with ")[2], fits)

    def test_foreign_words(self):
        self.assertIn("sort the keys", self.refusal("wsh(sortedmulti(2,a,b))").advice)
        self.assertIn("Taproot", self.refusal("tr(a)").advice)


class Program(unittest.TestCase):
    def test_the_package_is_the_program(self):
        words = ["-", "--key", f"b={B}"]
        given = {"input": f"or_d(pk({A}),\n  pkh(b))\n".encode(), "capture_output": True}
        whole = subprocess.run([samples.TOP / "msat-explain", *words], **given)
        environment = {**os.environ, "PYTHONPATH": str(samples.TOP / "python"), "PYTHONDONTWRITEBYTECODE": "1"}
        package = subprocess.run([sys.executable, "-m", "msat", *words], env=environment, **given)
        self.assertEqual((whole.returncode, whole.stderr), (0, b""))
        self.assertEqual((package.returncode, package.stdout), (0, whole.stdout))

    def ended(self, words: str, **given) -> tuple[int, bytes, bytes]:
        done = subprocess.run(["sh", "-c", f'"$0" {words}', samples.TOP / "msat-explain"], capture_output=True, **given)
        return done.returncode, done.stdout, done.stderr

    def test_files_are_refused_with_3(self):
        with tempfile.TemporaryDirectory() as folder:
            for said in ('{"a":"0"}', '{"a":5}', "[]", "{", "\udcff"):
                path = os.path.join(folder, "keys")
                with open(path, "wb") as file:
                    file.write(said.encode(errors="surrogateescape"))
                self.assertEqual(self.ended(f"'pk(a)' --keys {path}")[:2], (3, b""), said)
        self.assertEqual(self.ended("'pk(a)' --key a=0")[:2], (1, b""))

    def test_a_page_of_what_is_not_utf_8(self):
        with tempfile.TemporaryDirectory() as folder:
            for text in (b"pk(a\xff)", b"pk(\xff)"):
                page = os.path.join(folder, "page.html")
                done = subprocess.run([samples.TOP / "msat-explain", text, "--html", page], capture_output=True)
                self.assertEqual((done.returncode in (0, 2), done.stderr), (True, b""))
                with open(page, encoding="utf-8") as file:
                    self.assertTrue(file.read().endswith("</html>\n"))

    def test_closed_and_full_streams(self):
        for words, status in (("- <&-", 5), ("'pk(a)' >&-", 6), ("'pk(a)' >/dev/full", 6), ("--help >/dev/full", 6), ("--version >/dev/full", 6)):
            found = self.ended(words)
            self.assertEqual(found[0], status, words)
            self.assertNotIn(b"Traceback", found[2])

    def test_a_name_moves_no_cursor(self):
        done = subprocess.run([samples.TOP / "msat-explain", "pk(a\x1b[31m)"], capture_output=True)
        self.assertEqual((done.returncode, b"\x1b" in done.stdout), (0, False))
        done = subprocess.run([samples.TOP / "msat-explain", "pk(a)#\x1b[31m"], capture_output=True)
        self.assertEqual((done.returncode, b"\x1b" in done.stdout), (2, False))

    def test_a_reader_that_goes_away(self):
        program = subprocess.Popen([samples.TOP / "msat-explain", f"pk({A})"], stdout=subprocess.PIPE, stderr=subprocess.PIPE)
        program.stdout.close()
        self.assertEqual((program.wait(), program.stderr.read()), (6, b""))
        program.stderr.close()


if __name__ == "__main__":
    unittest.main()
