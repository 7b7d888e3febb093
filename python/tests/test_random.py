"""A thousand random texts, most of them wrong in some way: there is an explanation or a refusal, never an exception, and each can be
printed in every form. And what is said of each node agrees with what the library says of it alone."""

import contextlib
import html.parser
import io
import json
import random
import re
import sys
import unittest

import samples
import msat
from msat.explain import command, given
from msat.explain.command import answer
from msat.explain.document import document
from msat.explain.page import page
from msat.explain.refusals import Refusal
from msat.explain.report import explained, refused
from msat.explain.tree import expression, outline

SCHEMA = json.loads((samples.TOP / "schema/explain.json").read_text())
KINDS = {"object": dict, "array": list, "string": str, "integer": int, "boolean": bool, "null": type(None)}


def is_kind(value, kind: str) -> bool:
    return isinstance(value, KINDS[kind]) and (kind != "integer" or not isinstance(value, bool))


def fault(schema: dict, value, at: str = "") -> str:
    """Where a value isn't as the schema says; nothing where it is. A keyword that isn't known here is an error."""
    for word, said in schema.items():
        found = ""
        if word == "$ref":
            found = fault(SCHEMA["$defs"][said.rpartition("/")[2]], value, at)
        elif word == "oneOf":
            found = "" if sum(not fault(it, value, at) for it in said) == 1 else f"{at}: not one of"
        elif word == "type":
            found = "" if is_kind(value, said) else f"{at}: no {said}"
        elif word == "properties" and isinstance(value, dict):
            found = next((it for name in said if name in value for it in [fault(said[name], value[name], f"{at}/{name}")] if it), "")
            found = found or next((f"{at}: another member {name}" for name in value if name not in said), "")
        elif word == "required":
            found = next((f"{at}: no {name}" for name in said if name not in value), "")
        elif word == "items":
            found = next((it for number, part in enumerate(value) for it in [fault(said, part, f"{at}/{number}")] if it), "")
        elif word == "maxItems":
            found = "" if len(value) <= said else f"{at}: too many"
        elif word == "enum":
            found = "" if value in said else f"{at}: another word"
        elif word == "pattern":
            found = "" if re.search(said.replace("$", r"\Z"), value) else f"{at}: not like {said}"
        elif word == "minimum":
            found = "" if value >= said else f"{at}: too little"
        elif word not in ("$schema", "$comment", "$defs", "title", "description", "properties"):
            raise AssertionError(f"the keyword {word} isn't known here")
        if found:
            return found
    return ""


@contextlib.contextmanager
def deep():
    """Room for the validator's own calls in a deep document."""
    before = sys.getrecursionlimit()
    sys.setrecursionlimit(20000)
    yield
    sys.setrecursionlimit(before)


class Page(html.parser.HTMLParser):
    """What a page has that it mustn't have, and what it has to have."""

    VOID = ("meta", "br", "wbr")

    def __init__(self, text: str):
        super().__init__()
        self.open, self.faults, self.ids, self.links, self.tags = [], [], set(), set(), set()
        self.feed(text)
        if self.open:
            self.faults.append(f"left open: {self.open}")
        self.faults += [f"no {it}" for it in self.links - self.ids]
        self.faults += [f"no <{it}>" for it in ("html", "title", "main", "h1") if it not in self.tags]

    def handle_starttag(self, tag, attrs):
        self.tags.add(tag)
        given_ = dict(attrs)
        if tag in ("script", "link", "img", "iframe", "object", "embed", "base", "form") or any(name.startswith("on") for name in given_):
            self.faults.append(f"<{tag}>")
        for name, value in attrs:
            if name in ("src", "href", "srcset", "action", "data", "poster") and not value.startswith("#"):
                self.faults.append(f"{name}={value}")
        if tag == "a":
            self.links.add(given_["href"][1:])
        if "id" in given_:
            if given_["id"] in self.ids:
                self.faults.append(f"twice: {given_['id']}")
            self.ids.add(given_["id"])
        if tag == "svg" and not (given_.get("role") == "img" and given_.get("aria-label")):
            self.faults.append("a picture without words")
        if tag not in self.VOID:
            self.open.append(tag)

    def handle_startendtag(self, tag, attrs):
        self.handle_starttag(tag, attrs)
        if tag not in self.VOID:
            self.handle_endtag(tag)

    def handle_endtag(self, tag):
        if not self.open or self.open.pop() != tag:
            self.faults.append(f"</{tag}>")


def assets(chance: random.Random, text: str) -> bytes:
    """A file that holds some of what a text asks for."""
    keys = dict.fromkeys(re.findall(r"0[23][0-9a-f]{64}", text))
    said = {
        "version": chance.choice((1, 2)),
        "sequence": chance.choice((0, 144, 4194400, 4294967295)),
        "locktime": chance.choice((0, 800000, 1700000000)),
        "signatures": [{"key": key, "sig": (71 * b"\x30").hex()} for key in keys if chance.randrange(3)],
        "preimages": [(bytes([it]) * 32).hex() for it in range(3) if chance.randrange(2)],
    }
    return chance.choice((json.dumps(said).encode(), json.dumps(said).encode(), b"{}", b"[", b'{"sequence":-1}', b"\xff"))


class Random(unittest.TestCase):
    def test_a_thousand_texts(self):
        chance = random.Random(379)
        sane = held = 0
        for number in range(1000):
            text = samples.Maker(number + 10000).is_b(chance.randrange(5))
            raw = samples.mangled(text, chance) if number % 2 else text
            file = assets(chance, text) if chance.randrange(2) else None
            with self.subTest(raw):
                found = answer(raw, {"alice": "02" + 64 * "7"}, consensus=chance.randrange(4) == 0, assets=file)
                is_refused = isinstance(found, Refusal)
                sane += not is_refused
                held += not is_refused and found.held is not None and found.held.spend is not None
                for color in (False, True):
                    printed = refused(found, color) if is_refused else explained(found, color)
                    self.assertTrue(printed.endswith("\n"))
                    printed.encode()
                self.assertEqual(fault(SCHEMA, json.loads(json.dumps(document(found)))), "")
                self.assertEqual(Page(page(found)).faults, [])
                if not is_refused:
                    self.check_types(found)
        # Enough of them are explained, and spent, for this to say anything.
        self.assertGreater(sane, 150)
        self.assertGreater(held, 10)

    def test_deep_and_long_texts(self):
        key = "pk(02" + 64 * "1" + ")"
        chain = key
        for at in range(24):
            chain = f"or_d(pk(02{at:064x}),and_v(v:pk(03{at:064x}),{chain}))"
        for raw in (
            190 * "n" + ":" + key, 190 * "n:" + key, 255 * "n" + ":" + key, 300 * "n:" + key, 600 * "(", 600 * "pk(", chain, chain + ")",
            100 * "and_v(v:" + key + 100 * ",1)", 250 * "t:" + key, 120 * "or_i(0," + key + 120 * ")", 60000 * "(", 70000 * "a", 200000 * "pk(",
            "thresh(1" + 900 * ("," + key) + ")", "multi(1" + 25 * ",k" + ")", "and_b(" + 200 * "n" + ":" + key + "," + 200 * "n" + ":" + key + ")",
        ):  # fmt: skip
            with self.subTest(raw[:40]):
                found = answer(raw, {})
                printed = refused(found, True) if isinstance(found, Refusal) else explained(found, True)
                self.assertTrue(printed)
                self.assertEqual(Page(page(found)).faults, [])
                said = json.loads(json.dumps(document(found)))
                with deep():
                    self.assertEqual(fault(SCHEMA, said), "")

    def check_types(self, found):
        """The letters of the whole, and of each part that is sane alone, are those that the library tells."""
        self.assertEqual(found.root.kind, found.checked.type)
        for node in found.root.walk():
            part = expression(found.given.text, node.place)
            with contextlib.suppress(msat.TextRefused):
                self.assertEqual(node.kind, msat.facts(part, consensus=True).type)
            with contextlib.suppress(msat.TextRefused):
                self.check_lines(found, node, part)

    def check_lines(self, found, node, part):
        """What the lines of a part come to is the Script that the library tells of it alone, where no `v` above takes a part in it."""
        below = {it.place for it in node.walk()}
        own = [line for line in found.lines if line.node.place in below]
        if all(line.by_v is None or line.by_v.place in below for line in own):
            self.assertEqual(b"".join(line.code for line in own), msat.script(part, consensus=True))
            self.assertEqual([line.at for line in own[1:]], [line.at + len(line.code) for line in own[:-1]])

    def test_types_of_parts_that_are_not_sane_alone(self):
        # As BIP 379's table of types has them.
        key = "02" + 64 * "1"
        for text, kind in (
            ("0", "Bzduse"), ("1", "Bzuf"), ("older(1)", "Bzf"), ("after(1)", "Bzf"), (f"pk_k({key})", "Konduse"),
            (f"pk_h({key})", "Knduse"), (f"sha256({64 * '1'})", "Bondu"), (f"v:pk({key})", "Vonsf"), ("v:older(1)", "Vzf"),
            ("n:older(1)", "Bzuf"), ("dv:older(1)", "Bonde"), (f"a:pk({key})", "Wduse"), (f"s:pk({key})", "Wduse"),
            (f"multi(1,{key})", "Bnduse"), (f"j:pk({key})", "Bondus"), ("l:older(1)", "Bode"), ("tv:1", "Bzuf"),
        ):  # fmt: skip
            with self.subTest(text):
                self.assertEqual(outline(text).root.kind, kind)

    def test_words_of_the_command_line(self):
        for words, status in (
            (["--help"], 0), (["--version"], 0), ([], 1), (["a", "b"], 1), (["--no-such"], 1), (["-f", "/no/such"], 5),
            (["pk(a)", "--key", "x"], 1), (["pk(a)", "--key", "a=0"], 1), (["pk(a)", "--keys", __file__], 3), (["pk(a)", "--color", "red"], 1),
            (["1"], 2), (["pk(a)"], 0), (["pk(a)", "--html", "/no/such/page"], 6), (["pk(a)", "--assets", __file__], 3), (["ac"], 10),
            (["pk(\udcff)"], 2), (["pk(_\udcff)"], 0), (["pk(a)\0"], 2), (["pk(a)", "-f", __file__], 1), (["é\udcff("], 2), (["pk(a)", "--json", "--consensus"], 0),
        ):  # fmt: skip
            with self.subTest(words):
                out = io.TextIOWrapper(io.BytesIO(), encoding="utf-8")
                with contextlib.redirect_stdout(out), contextlib.redirect_stderr(io.StringIO()):
                    try:
                        found = command.main(words)
                    except SystemExit as end:
                        found = end.code
                self.assertEqual(found, status)


class Tables(unittest.TestCase):
    def test_what_to_do_is_the_table_of_the_guide(self):
        from msat.explain.refusals import ADVICE

        rows = [f"| {reports} | {status} | {said} |" for reports, status, said in ADVICE]
        part = (samples.TOP / "docs/USE.md").read_text().partition("## 8. What a refusal asks for")[2].partition("\n## ")[0]
        self.assertEqual([it for it in part.splitlines() if it.startswith("| ")][1:], rows)

    def test_rules_are_the_tables_of_the_formats(self):
        from msat.explain.refusals import REQUIRED

        rows = {f"| {', '.join(f'`{it}`' for it in rules)} | {'; '.join(wanted)} |" for rules, wanted in REQUIRED}
        text = (samples.TOP / "docs/FORMATS.md").read_text().splitlines()
        self.assertLessEqual(rows, set(text))
        said = {it for rules, _ in REQUIRED for it in rules}
        self.assertEqual(said, set(msat.errors.RULES))

    def test_each_refusal_has_advice(self):
        from msat.explain.refusals import advice

        for name in msat.errors.TEXT_KINDS:
            self.assertTrue(advice(f"refused text {name} at 3"), name)
        for name in msat.errors.FILE_KINDS:
            self.assertTrue(advice(f"refused file {name} 3"), name)
        self.assertTrue(advice("no reading") and advice("no satisfaction"))


class Given(unittest.TestCase):
    def test_stand_ins_give_no_address(self):
        found = answer("pk(alice)", {})
        for said in (explained(found, False), page(found), json.dumps(document(found))):
            self.assertNotIn("bc1", said)
            self.assertNotIn(msat.check(found.given.text).script.hex(), said)
            self.assertNotIn(given.key_of("alice"), explained(found, False) + page(found))

    def test_names_are_no_html(self):
        found = answer("and_v(v:pk(<b>&amp;),pk([\"'x\u202e]))", {})
        said = page(found)
        self.assertNotIn("<b>&", said)
        self.assertNotIn("\u202e", said)
        self.assertEqual(Page(said).faults, [])


if __name__ == "__main__":
    unittest.main()
