# SPDX-License-Identifier: MIT
"""What a person pastes, made into the text that the library is asked: white space, `wsh(..)` and a checksum are taken off, names
get digits, and a Script is read back. Each byte of that text knows which character it comes of, so that a mark stands there."""

import re
from dataclasses import dataclass, replace
from typing import Mapping, Optional

import msat

from . import hashes
from .checksum import checksum

_PARTS = re.compile(r"[(),]|[^(),]+")
_DIGITS = re.compile(r"[0-9a-fA-F]{40,}")
_NAME = re.compile(r"[A-Za-z_\[].*", re.DOTALL)
_EXTENDED = re.compile(r"([A-Za-z]pub[0-9A-Za-z]{2})[0-9A-Za-z]{90,}([0-9A-Za-z]{4})")
_SCRIPT = re.compile(r"([0-9a-fA-F]{2})+")
_KEY = re.compile(r"0[23][0-9a-fA-F]{64}")
_HASH = re.compile(r"\b(sha256|hash256|ripemd160|hash160)\(([0-9a-fA-F]+)\)")
_KEYED = ("pk", "pkh", "pk_k", "pk_h")
_MULTI = ("multi", "sortedmulti")


class Unfit(Exception):
    """What was given can't be asked of the library: why, and at which of its characters."""

    def __init__(self, name: str, place: Optional[int], sentence: str, advice: str):
        super().__init__(sentence)
        self.name, self.place, self.sentence, self.advice = name, place, sentence, advice


@dataclass(frozen=True)
class Given:
    """A condition: as it was given, and as the library is asked. `origin` has for each byte of the text the place in what was given,
    and one more for its end; `names` the name of each key and hash value in digits; `standins` the names that had no digits;
    `done` what was done to what was given; `digits` the digits of each name that stands in it."""

    shown: str
    text: str
    origin: tuple[int, ...]
    names: Mapping[str, str]
    standins: tuple[str, ...] = ()
    done: tuple[str, ...] = ()

    def place(self, byte: int) -> int:
        """Where in what was given a byte of the text comes of."""
        return self.origin[min(byte, len(self.origin) - 1)]

    def name_of(self, value: str) -> str:
        """What a key or a hash value is called: its name, of which an extended key is cut short, or its first and last digits."""
        name = self.names.get(value.lower())
        return _EXTENDED.sub(r"\1..\2", name) if name else f"{value[:8].lower()}..{value[-4:].lower()}"

    def is_standin(self, value: str) -> bool:
        """Whether these digits stand in for a name that had none."""
        return self.names.get(value.lower()) in self.standins


def key_of(name: str) -> str:
    """The stand-in key for a name without digits. Nobody can sign for it: nothing may be paid to its address."""
    return "02" + hashes.sha256(b"msat-explain: a stand-in for the key " + msat.results.spelled(name)).hex()


def preimage_of(value: str) -> bytes:
    """The stand-in preimage for a hash value, by its name or its digits."""
    return hashes.sha256(b"msat-explain: a stand-in for the preimage of " + msat.results.spelled(value))


def digest_of(function: str, value: str) -> str:
    """The hash value that the stand-in preimage has."""
    return hashes.FUNCTIONS[function](preimage_of(value)).hex()


def with_known_preimages(text: str) -> tuple[str, dict[tuple[str, str], bytes]]:
    """The text with other hash values of the same length, whose preimages are known: they stand here by function and value of the
    text that is given. All sizes and weights are the same, since each preimage has 32 bytes."""
    known = {(found[1], found[2].lower()): preimage_of(found[1] + found[2].lower()) for found in _HASH.finditer(text)}
    return _HASH.sub(lambda it: f"{it[1]}({digest_of(it[1], it[1] + it[2].lower())})", text), known


def read(raw: str, digits: Mapping[str, str], keys: tuple[str, ...] = ()) -> Given:
    """What was given, as the library is asked. `digits` has the digits of names, and `keys` further keys, for a Script.

    >>> read(" wsh( pk(alice) )\\n", {"alice": "02" + 32 * "ab"}).text == "pk(02" + 32 * "ab" + ")"
    True
    """
    letters = [(letter, at) for at, letter in enumerate(raw) if not letter.isspace()]
    text = "".join(letter for letter, _ in letters)
    done = ["White space was taken out"] if len(letters) < len(raw.strip()) else []
    body, mark, check = text.partition("#")
    if mark:
        _test(body, check, letters[len(body)][1])
        done.append("The checksum is right, and was taken off")
    from_, to = 0, len(body)
    if body.startswith("wsh(") and body.endswith(")"):
        from_, to = 4, to - 1
        done.append("The wsh(..) around it was taken off")
    if _SCRIPT.fullmatch(body):
        return _decoded(body, digits, keys, done)
    places = [at for _, at in letters[from_:to]] + [letters[to][1] if to < len(letters) else len(raw)]
    return replace(_named(body[from_:to], places, digits), shown=raw, done=tuple(done))


def _test(body: str, check: str, place: int) -> None:
    right = checksum(body)
    if check != right:
        said = f"For what stands before it, it is {right}." if right else "What stands before it has a letter that no descriptor has."
        advice = (
            "copy the text again: it was changed or cut after its checksum was made. "
            "Where you changed it yourself, leave out # and what stands behind it"
        )
        raise Unfit("Checksum", place, f"The checksum #{check} isn't that of the text. {said}", advice)


def _decoded(script: str, digits: Mapping[str, str], keys: tuple[str, ...], done: list[str]) -> Given:
    """The condition that a Script is read back as, with the keys that were named for its hashes of keys."""
    known = [bytes.fromhex(it) for it in (*digits.values(), *keys) if _KEY.fullmatch(it)]
    text = msat.decode(bytes.fromhex(script), known)
    names = {value.lower(): name for name, value in digits.items()}
    return Given(text, text, tuple(range(len(text) + 1)), names, (), (*done, "The text was read back of a Script"))


def _named(text: str, places: list[int], digits: Mapping[str, str]) -> Given:
    """The text with digits for its names. `places` has a place for each of its characters and for its end."""
    parts: list[str] = []
    origin: list[int] = []
    names: dict[str, str] = {}
    standins: dict[str, None] = {}
    # The fragments that are open, each with the number of its argument.
    open_: list[tuple[str, int]] = []
    last = ""
    for found in _PARTS.finditer(text):
        word, start = found[0], found.start()
        if word == "(":
            open_.append((last.rpartition(":")[2], 0))
        elif word == ")":
            del open_[-1:]
        elif word == "," and open_:
            open_[-1] = (open_[-1][0], open_[-1][1] + 1)
        last = word
        value = _value(word, open_[-1], digits) if open_ and word not in "()," else None
        if value is not None and text[found.end() : found.end() + 1] != "(":
            if word not in digits:
                standins[word] = None
            names[value.lower()] = word
            parts.append(value)
            origin += [places[start]] * len(value)
        else:
            parts.append(word)
            for at, letter in enumerate(word, start):
                origin += [places[at]] * len(msat.results.spelled(letter))
    named = {value.lower(): name for name, value in digits.items()}
    return Given(text, "".join(parts), (*origin, places[-1]), {**named, **names}, tuple(standins))


def _value(word: str, open_: tuple[str, int], digits: Mapping[str, str]) -> Optional[str]:
    """The digits of a word that is a name, in this argument of this fragment; None where it is none, and stays as it is."""
    fragment, at = open_
    is_hash = fragment in hashes.LENGTHS and at == 0
    if not (is_hash or fragment in _KEYED and at == 0 or fragment in _MULTI and at > 0):
        return None
    if _DIGITS.fullmatch(word):
        return None
    if word in digits:
        return digits[word]
    if not _NAME.fullmatch(word):
        return None
    return digest_of(fragment, word) if is_hash else key_of(word)
