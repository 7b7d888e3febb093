# SPDX-License-Identifier: MIT
"""Why something is refused, for a person: the rule in a sentence, and what to do.

The tables stand here: docs/USE.md has the one of what to do, and docs/FORMATS.md the rules of the types, row by row, which
`.ci/explain` compares.
"""

import re
from dataclasses import dataclass
from typing import Optional

import msat

from .given import Given, Unfit
from .tree import Fit, Node, expression, outline

# What each report asks for: the reports, their exit status, and what to do, as the table of docs/USE.md has them.
ADVICE = (
    (
        "`refused usage`",
        "1",
        "the words are no stated form: the text is one word, so put it in quotes",
    ),
    (
        "`refused text Syntax at P`",
        "2",
        "look at byte P: a space, a name that isn't known, a key or hash value of another length, a number with a leading zero, a checksum",
    ),
    (
        "`refused text TooLong`, `TooDeep at P`",
        "2",
        "over 65,536 bytes; over 256 names and letters deep: split the condition",
    ),
    (
        "`refused text Rule NAME at P`",
        "2",
        "the fragment or wrapper at byte P has a child of another type, or a number out of its range ([rules](FORMATS.md))",
    ),
    (
        "`refused text TopNotB`",
        "2",
        "the whole leaves nothing to be tested, as `v:pk(K)`, or is a part alone, as `pk_k(K)`: wrap it in `c:`, or take away `v:`",
    ),
    (
        "`refused text Size N`, `Ops N`, `Items N`",
        "2",
        "too large to be relayed or run: N bytes of at most 3,600, opcodes of 201, items of 100. Split the condition. Where a miner spends the output himself, `--consensus` takes up to 10,000 bytes and any number of items",
    ),
    (
        "`refused text Malleable NAME at P`",
        "2",
        "somebody else could change the witness: let an alternative ask for a signature, or satisfy what can be without one first. Or see `--malleable` below",
    ),
    (
        "`refused text NoSignature`",
        "2",
        "anybody could spend it, or change the witness: let each way ask for a signature",
    ),
    (
        "`refused text MixedLocks at P`",
        "2",
        "a timelock in blocks and one in seconds would have to hold at once, which no transaction meets: keep to one unit, or put them into alternatives",
    ),
    (
        "`refused text RepeatedKey at P`",
        "2",
        "a key stands twice: derive another one, or nothing is promised about its signature",
    ),
    (
        "`refused file NotJson`, `Shape M`, `Number M`, `Hex M I`",
        "3",
        "mend the member M, at its element I from 0; `format` is 1 or 2",
    ),
    (
        "`refused file KeyForm I`, `SigLength I`, `Length I`, `PreimageLength I`",
        "3",
        "element I: a compressed key, a signature or a length of 1 to 73 bytes with the hash type, 32 bytes",
    ),
    (
        "`refused file TooMany M`, `RepeatedKey I`, `TooLong`",
        "3",
        'over 256 elements; a key that stands twice (with `"format":2` in an asset file: one signature twice with its key); over 1,048,576 bytes',
    ),
    (
        "`no satisfaction`",
        "4",
        "a signature, a key that can sign or a preimage is missing, or a timelock doesn't hold with these three numbers. Or a hash would have to be dissatisfied whose preimage is 32 zero bytes",
    ),
    (
        "`not accepted WrongScript`",
        "9",
        "the run file's `script` isn't the text's: look at what `script` prints",
    ),
    (
        "`not accepted FAULT at I`",
        "9",
        "the witness doesn't satisfy the text: a signature that isn't in the file, another item, or a timelock that doesn't hold",
    ),
    (
        "`no reading`",
        "10",
        "no expression that is valid within the limits of policy has this Script, or a key of a `pk_h` isn't among the words",
    ),
    (
        'nothing',
        "5, 6, 7, 11",
        "reading failed, writing failed, memory was wanting, a word isn't UTF-8",
    ),
)
# What each rule of the types requires, as the tables of docs/FORMATS.md have them: the rules, and a requirement for each.
REQUIRED = (
    (("OlderRange", "AfterRange"), ("the number is 1 to 2,147,483,647",)),
    (("AndOrX", "AndOrYZ"), ("X is B d u", "Y and Z are both B, both K or both V")),
    (("AndVX", "AndVY"), ("X is V", "Y is B, K or V")),
    (("AndBX", "AndBY"), ("X is B", "Y is W")),
    (("OrBX", "OrBZ"), ("X is B d", "Z is W d")),
    (("OrCX", "OrCZ"), ("X is B d u", "Z is V")),
    (("OrDX", "OrDZ"), ("X is B d u", "Z is B")),
    (("OrIXZ",), ("X and Z are both B, both K or both V",)),
    (
        ("ThreshRange", "ThreshFirst", "ThreshOther"),
        ("k is 1 to the number of children", "the first child is B d u", "each other one is W d u"),
    ),
    (("MultiRange",), ("k is 1 to the number of keys, of which there are at most 20",)),
    (("WrapA", "WrapS", "WrapC", "WrapD", "WrapV", "WrapJ", "WrapN"), ("the child is B", "B o", "K", "V z", "B", "B n", "B")),
    (("AndOrE", "AndOrS"), ("X is e", "one of X, Y and Z is s")),
    (("OrBE", "OrBS"), ("X and Z are e", "one of them is s")),
    (("OrCE", "OrCS", "OrDE", "OrDS"), ("X is e", "X or Z is s")),
    (("OrIS",), ("X or Z is s",)),
    (("ThreshE", "ThreshS"), ("all children are e", "at most k of them aren't s")),
)
# What the letters of a type mean (BIP 379).
LETTERS = {
    "B": "leaves a value that says whether it is satisfied",
    "V": "goes on only where it is satisfied, and leaves nothing",
    "K": "leaves a key, for a signature check",
    "W": "takes what lies below the top, and leaves a value",
    "z": "takes nothing from the stack",
    "o": "takes exactly one element",
    "n": "takes an element first that is never 0 in a satisfaction",
    "d": "can be dissatisfied",
    "u": "leaves exactly 1 where it is satisfied",
    "s": "can't be satisfied without a signature",
    "f": "can't be dissatisfied without a signature, or at all",
    "e": "can be dissatisfied in one way alone, without a signature",
}
# What the reasons against a text are, in a sentence.
_SENTENCES = {
    "Syntax": "No miniscript goes on like this here.",
    "TooLong": "The text has more than 65,536 bytes.",
    "TooDeep": "Here more than 256 names and letters stand within one another.",
    "TopNotB": "The whole has to be of type B: to leave a value that says whether it is satisfied.",
    "Size": "The Script has {number} bytes.",
    "Ops": "The Script has {number} opcodes that count, with the keys of multisignatures.",
    "Items": "A witness may have {number} items.",
    "NoSignature": "It can be satisfied without any signature, so anybody could spend it or change the witness.",
    "MixedLocks": "Here a timelock in blocks and one in seconds may have to hold at once.",
    "RepeatedKey": "A key here stands elsewhere too.",
}
# What a word that no miniscript has may have been meant for.
_FOREIGN = {
    "sh": "sh(..) is another output than the P2WSH outputs that msat knows: give what stands in wsh(..) alone",
    "tr": "tr(..) is a Taproot output, which msat doesn't know",
    "multi_a": "multi_a(..) is for Taproot alone: in P2WSH it is multi(..)",
    "wpkh": "wpkh(..) is another output than the P2WSH outputs that msat knows",
    "sortedmulti": "sortedmulti(..) is no miniscript: sort the keys by their bytes yourself, and write multi(..)",
    "sortedmulti_a": "sortedmulti_a(..) is for Taproot alone",
    "and": "and(..) stands in policies: give what a policy compiler makes of it",
    "or": "or(..) stands in policies: give what a policy compiler makes of it",
    "wsh": "wsh(..) has to stand around the whole, with its closing parenthesis",
}


@dataclass(frozen=True)
class Refusal:
    """A refusal: the report, the exit status, what was given and at which of its characters, the rule, and what to do."""

    report: str
    status: int
    shown: str
    place: Optional[int]
    sentence: str
    advice: str


def plain(markdown: str) -> str:
    """A cell of a table for a terminal, without the links and marks of Markdown.

    >>> plain("a `b` ([rules](FORMATS.md))")
    'a b'
    """
    return re.sub(r" \(\[[^]]*\]\([^)]*\)\)|`", "", markdown)


def advice(report: str) -> str:
    """What a report asks for.

    >>> advice("refused text NoSignature")
    'anybody could spend it, or change the witness: let each way ask for a signature'
    """
    for reports, _, said in ADVICE:
        names = re.findall(r"`([^`]*)`", reports)
        first = names[0] if names else ""
        for name in names:
            whole = name if name == first else "".join(re.findall(r"^refused \w+ ", first)) + name
            words = [word for word in whole.split() if not re.fullmatch(r"[A-Z]|NAME|FAULT|at", word)]
            if report.split()[: len(words)] == words:
                return plain(said).replace("byte P", "the mark").replace(" Or see --malleable below", "")
    return ""


def required(rule: str) -> str:
    """What a rule requires.

    >>> required("OrBZ"), required("WrapD"), required("OrDE")
    ('Z is W d', 'the child is V z', 'X is e')
    """
    for rules, wanted in REQUIRED:
        if rule in rules:
            at = rules.index(rule)
            said = wanted[at % len(wanted)] if len(wanted) > 1 else wanted[0]
            return said if at == 0 or not rule.startswith("Wrap") else "the child is " + said.replace("the child is ", "")
    raise KeyError(rule)


def sentence_of(name: str, number: int) -> str:
    """What a reason against a text is, but for the rules.

    >>> sentence_of("RepeatedKey", 0)
    'A key here stands elsewhere too.'
    """
    return _SENTENCES[name].format(number=f"{number:,}")


def of_text(refused: msat.TextRefused, given: Given) -> Refusal:
    """The refusal of a text, where its wrong place came from."""
    place = None if refused.place is None else given.place(refused.place)
    said = advice(refused.report)
    if refused.name in ("Rule", "Malleable"):
        seen = outline(given.text)
        assert seen.root is not None
        sentence = _broken(refused, next(it for it in seen.root.walk() if it.place == refused.place))
        said = said.rstrip(".") + (f". It fits with {_fitting(seen.fit, given)}" if seen.fit else "")
    else:
        sentence = sentence_of(refused.name, refused.number or 0)
    if refused.name == "Syntax":
        word = re.match(r"\w+", given.text.encode(errors="replace")[refused.place :].decode(errors="replace"))
        said = _FOREIGN.get(word[0], said) if word else said
    return Refusal(refused.report.strip(), 2, given.shown, place, sentence, said)


def _broken(refused: msat.TextRefused, node: Node) -> str:
    """The rule of a node that breaks one, what its letters mean, and of which types its children are."""
    parts = []
    for name, child in zip(_parts_of(node), node.children):
        parts.append(f"{name} is {child.kind}" if name else f"the child is {child.kind}")
    form = f"{node.name}:X" if node.is_letter else f"{node.name}({_form_of(node)})"
    wanted = required(refused.subject or "")
    meant = "; ".join(f"{it} {LETTERS[it]}" for it in dict.fromkeys(re.findall(r"\b[A-Za-z]\b", wanted)) if it in LETTERS)
    here = f" Here {', '.join(parts[:8])}{' ..' if len(parts) > 8 else ''}." if parts else ""
    return f"{form} requires: {wanted}.{here}" + (f" ({meant}.)" if meant else "")


def _fitting(fit: Fit, given: Given) -> str:
    """The letter that fits, and before what of that which was given, cut where that is long."""
    end = fit.place + len(expression(given.text, fit.place))
    said = "".join(given.shown[given.place(fit.place) : given.place(end)].split())
    return f"{fit.letter}: before {said if len(said) <= 40 else said[:38] + '..'}"


def _parts_of(node: Node) -> list[str]:
    """What the rules call the children of a node."""
    if node.name == "thresh":
        return [f"child {at}" for at in range(1, len(node.children) + 1)]
    if node.is_letter:
        return [""]
    return {"andor": ["X", "Y", "Z"]}.get(node.name, ["X", "Z"] if node.name.startswith("or_") else ["X", "Y"])


def _form_of(node: Node) -> str:
    if node.name in ("thresh", "multi"):
        return "k,.."
    return ",".join(_parts_of(node)) if node.children else "n"


def of_input(unfit: Unfit, shown: str) -> Refusal:
    """The refusal of something that isn't asked of the library at all."""
    return Refusal(f"refused input {unfit.name}", 2, shown, unfit.place, unfit.sentence, unfit.advice)


def of_error(error: msat.MsatError, status: int, sentence: str, shown: str) -> Refusal:
    """The refusal of a file, of a Script, or of what can't be read at all."""
    return Refusal(error.report.strip() or "refused input", status, shown, None, sentence, advice(error.report.strip()))
