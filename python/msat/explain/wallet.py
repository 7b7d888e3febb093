# SPDX-License-Identifier: MIT
"""An output descriptor with extended keys, as a wallet exports it. All that is said of it is the report that the proved library gives to the words of msat-descriptor:
no key is derived here, no address made and no checksum tested."""

import re
from dataclasses import dataclass, replace
from typing import Mapping, Optional, Union

import msat

from . import given as giving
from . import refusals
from .explanation import Explanation, explain
from .given import Given, Unfit
from .refusals import Refusal
from .wallets import Branch, Spot, Wallet

# How many addresses of each branch are shown.
FIRST = 5
_OUTPUT = re.compile(r"(wsh|sh|wpkh|tr|rawtr|combo)\(")
# Extended keys, and private keys: of these the program has to say that they are none that it takes.
_EXTENDED = re.compile(r"[A-Za-z](?:pub|prv)[0-9A-Za-z]{100,}|(?<![0-9A-Za-z_])[59KLc][1-9A-HJ-NP-Za-km-z]{50,51}(?![0-9A-Za-z_])")
# What a private key may look like, in whichever place.
_PRIVATE = re.compile(r"[A-Za-z]prv[0-9A-Za-z]*|(?<![0-9A-Za-z_])[59KLc][0-9A-Za-z]{50,51}(?![0-9A-Za-z_])")
_SENTENCES = {
    "TooLong": ("The descriptor has more than 65,536 bytes.", "split the condition"),
    "Syntax": ("No descriptor goes on like this here.", "look at the mark: a name that isn't known, a number that is too large or has a leading zero, a parenthesis"),
    "TooDeep": ("Here more than 256 names and letters stand within one another.", "split the condition"),
    "Other": ("This kind of output isn't read.", "give wsh(..) or wpkh(..), by itself or in sh(..)"),
    "Private": ("A private key stands here.", "give the public key in its place: nothing here needs a private one, and no other program that shows a condition does"),
    "Key": ("This is neither a compressed key nor an extended public key, xpub or tpub.", "copy the key again: it was changed or cut, or its wallet writes it in another form, as zpub"),
    "Point": ("This key is no point of the curve, so nobody can sign by it.", "copy the key again"),
    "Network": ("An xpub, of the main network, and a tpub, of a test network, stand together.", "export all keys for one network"),
    "Depth": ("A key can have at most 255 steps.", "copy the descriptor again"),
    "Hardened": ("A hardened step can't be taken from an extended public key.", "have the wallet export the key behind its last hardened step"),
    "Multipath": ("This <..> doesn't go with what stands before it.", "each key has at most one <..>, all have equally many numbers, at most 16, and none stands twice"),
    "Checksum": ("What stands behind # isn't the checksum of what is before it.",
                 "copy the descriptor again: it was changed or cut after its checksum was made. Where you changed it yourself, leave out # and what stands behind it"),
    "NoBranch": ("The descriptor hasn't so many branches.", "--branch counts the numbers in <..> from 0"),
    "NotRanged": ("No key of the descriptor has *, so there is index 0 alone.", "leave out --index"),
    "NoKey": ("There is no key at this index of this extended key.", "take another index"),
}  # fmt: skip


def is_descriptor(raw: str, digits: Mapping[str, str] = {}) -> bool:
    """Whether this is an output with an extended key, or with a private one, of which no key expression is a name that has digits.

    >>> key = "xpub661MyMwAqRbcFW31YEwpkMuc5THy2PSt5bDMsktWQcFF8syAmRUapSCGu8ED9W6oDMSgv6Zz8idoc4a6mr8BDzTJY47LJhkJ8UB7WEGuduB"
    >>> is_descriptor(f"wsh(pk({key}/0/*))"), is_descriptor(f"pk({key})"), is_descriptor("wsh(pk(xpub))"), is_descriptor(f"wsh(pk({key}))", {key: "02"})
    (True, False, False, False)
    """
    text = "".join(raw.split())
    found = _EXTENDED.findall(text) if _OUTPUT.match(text) else []
    return bool(found) and not any(key in name for key in found for name in digits)


def ask(words: list[str]) -> tuple[int, str]:
    """The status and the report of the proved library for these words of msat-descriptor.

    >>> ask(["check", "pk(1)"])
    (2, 'refused descriptor Other at 0\\n')
    """
    status, report = msat.descriptor_answer(words)
    if status == 7:
        raise MemoryError("msat: memory was wanting")
    if status == 1:
        raise msat.Usage(report.decode())
    if status == 11:
        raise msat.Unreadable("")
    return status, report.decode()


def shown(raw: str) -> str:
    """What was given, as it may be shown: of what looks like a private key all letters but four are `*`.

    >>> shown("wsh(pk(tprv8ZgxMBicQKsPd))")
    'wsh(pk(tprv*************))'
    """
    return _Text(raw).shown


class _Text:
    """A descriptor without white space. Each of its bytes knows of which character of what was given it comes."""

    def __init__(self, raw: str):
        letters = [(letter, at) for at, letter in enumerate(raw) if not letter.isspace()]
        self.text = "".join(letter for letter, _ in letters)
        self.origin = [at for letter, at in letters for _ in msat.results.spelled(letter)]
        self.origin.append(letters[-1][1] + 1 if letters else 0)
        self.is_squeezed = len(letters) < len(raw.strip())
        hidden = {letters[at][1] for found in _PRIVATE.finditer(self.text) for at in range(found.start() + 4, found.end())}
        # As it was given, but for private keys: these are shown nowhere.
        self.shown = "".join("*" if at in hidden else letter for at, letter in enumerate(raw))

    def place(self, byte: int) -> int:
        return self.origin[min(byte, len(self.origin) - 1)]

    def refusal(self, report: str) -> Refusal:
        """The refusal that a report tells: `refused descriptor ..`, or `refused branch B index I ..`."""
        words = report.split()
        reason = words[5:] if words[1] == "branch" else words[2:]
        place = self.place(int(reason[-1])) if "at" in reason else None
        name = reason[0]
        if name in _SENTENCES and (words[1] == "descriptor" or name == "NoKey"):
            return Refusal(report.strip(), 2, self.shown, place, *_SENTENCES[name])
        told = self._by_text(reason) or _plain(reason)
        return replace(told, report=report.strip(), shown=self.shown, place=place)

    def _by_text(self, reason: list[str]) -> Optional[Refusal]:
        """What is said of the condition with stand-ins for its keys, where that breaks the same rule: the types are the same."""
        body = self.text.partition("#")[0]
        given = giving.read(body[3:-1] if body.startswith("sh(") else body, {})
        try:
            msat.check(given.text)
        except msat.TextRefused as refused:
            if (refused.name, refused.subject) == (reason[0], reason[1] if len(reason) == 4 else None):
                return refusals.of_text(refused, given)
        return None


def _plain(reason: list[str]) -> Refusal:
    """What is said of a reason against a condition, by its words alone."""
    number = int(reason[1]) if len(reason) == 2 else 0
    is_rule = reason[0] in ("Rule", "Malleable")
    sentence = f"It requires: {refusals.required(reason[1])}." if is_rule else refusals.sentence_of(reason[0], number)
    return Refusal("", 2, "", None, sentence, refusals.advice(f"refused text {' '.join(reason)}"))


def explained(
    raw: str, digits: Mapping[str, str], *, branch: str = "0", index: str = "0", consensus: bool = False, assets: Optional[bytes] = None
) -> Union[Explanation, Refusal]:
    """What there is to say of a descriptor, whose condition is that of one branch and one index."""
    text = _Text(raw)
    code, report = ask(["check", text.text])
    if code == 2:
        return text.refusal(report)
    told = dict(line.split(" ", 1) for line in report.splitlines())
    options = [] if branch == "0" else ["--branch", branch]
    code, report = ask(["derive", *options, text.text, index])
    if code == 2:
        return text.refusal(report)
    if "wsh" not in told["kind"]:
        advice = "msat-descriptor derive tells its addresses"
        raise Unfit("Kind", None, f"{told['kind']}(..) is of a single key, and has no condition to explain.", advice)
    place = _places(report)[0]
    wallet = _wallet(text.text, told, int(branch), place, options)
    given = Given(raw, place["text"][0], (0,) * (len(place["text"][0]) + 1), _names(wallet, digits), (), _done(text, told, wallet))
    return replace(explain(given, consensus=consensus, assets=assets), addresses=wallet.addresses, wallet=wallet)


def _places(report: str) -> list[dict[str, list[str]]]:
    """The lines of each index, by their first word."""
    found: list[dict[str, list[str]]] = []
    for line in report.splitlines():
        name, _, value = line.partition(" ")
        if name == "index":
            found.append({})
        found[-1].setdefault(name, []).append(value)
    return found


def _wallet(text: str, told: Mapping[str, str], branch: int, place: Mapping[str, list[str]], options: list[str]) -> Wallet:
    index, own = place["index"][0], place["address"][0]
    others = {name: _places(ask(["derive", option, *options, text, index])[1])[0]["address"][0] for name, option in (("test", "--testnet"), ("regtest", "--regtest"))}
    is_test = own == others["test"]
    return Wallet(
        text=told["descriptor"], kind=told["kind"], is_ranged=told["ranged"] == "yes", branch=branch, index=int(index),
        network="test" if is_test else "main", addresses=others if is_test else {"main": own, **others},
        output=place["output"][0] if "output" in place else None, keys=tuple((key, path) for key, path in (it.split(" ") for it in place["key"])),
        branches=tuple(_branch(text, at, told["ranged"] == "yes") for at in range(int(told["branches"]))),
    )  # fmt: skip


def _branch(text: str, branch: int, is_ranged: bool) -> Branch:
    """The first addresses of a branch: where one index has none, each is asked alone."""
    words = ["derive", "--branch", str(branch), text]
    count = FIRST if is_ranged else 1
    code, report = ask([*words, "0", str(count)])
    if code == 0:
        return Branch(branch, tuple(Spot(int(it["index"][0]), it["address"][0], None) for it in _places(report)))
    return Branch(branch, tuple(_spot(words, at) for at in range(count)))


def _spot(words: list[str], index: int) -> Spot:
    code, report = ask([*words, str(index)])
    return Spot(index, _places(report)[0]["address"][0], None) if code == 0 else Spot(index, None, report.strip())


def _names(wallet: Wallet, digits: Mapping[str, str]) -> dict[str, str]:
    """What each key is called: its origin, of which the fingerprint may have a name; or its own name."""
    named = {value.lower(): name for name, value in digits.items()}
    names = {}
    for key, path in wallet.keys:
        print_, mark, steps = path.partition("/")
        names[key] = f"{named[print_]}{mark}{steps}" if print_ in named else f"[{path}]"
    return {**names, **named}


def _done(text: _Text, told: Mapping[str, str], wallet: Wallet) -> tuple[str, ...]:
    done = ["White space was taken out"] * text.is_squeezed
    said = told["descriptor"]
    done.append("The checksum is right" if said == text.text else f"No checksum stands behind it: it is {said[len(text.text) :]}")
    count = len(wallet.branches)
    many = f"{count} branch{'es' * (count > 1)}, {'at each index' if wallet.is_ranged else 'at index 0 alone'}"
    done.append(f"A descriptor of the kind {wallet.kind}, of {many}: what follows is of branch {wallet.branch}, index {wallet.index}")
    return tuple(done)
