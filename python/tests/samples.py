"""Random conditions for tests, and the way to every module of msat-explain in a checkout."""

import os
import random
import re
import sys
from pathlib import Path

TOP = Path(__file__).resolve().parents[2]
sys.path.insert(0, str(TOP / "python"))
os.environ.setdefault("MSAT_LIBRARY", str(TOP / "crates/msat_c/out/libmsat.so.1"))
sys.dont_write_bytecode = True

from msat.explain import hashes  # noqa: E402

LOCKS = (1, 2, 3, 144, 65536, 4194305, 4194400)
TIMES = (1, 2, 800000, 500000000, 1700000000)


class Maker:
    """Makes texts whose parts have the right base type; whether they are valid and sane is for the library to say. Keys are new ones
    each time, hash values come from few."""

    def __init__(self, seed: int, keys: int = 1 << 30):
        self.random = random.Random(seed)
        self.count = 0
        self.most = keys

    def key(self) -> str:
        self.count += 1
        return "02" + f"{min(self.count, self.most):064x}"

    def digest(self) -> str:
        function = self.random.choice(("sha256", "hash256", "ripemd160", "hash160"))
        return f"{function}({hashes.FUNCTIONS[function](bytes([self.random.randrange(3)]) * 32).hex()})"

    def leaf(self) -> str:
        kind = self.random.randrange(12)
        if kind < 5:
            return f"{self.random.choice(('pk', 'pk', 'pkh'))}({self.key()})"
        if kind < 7:
            return f"older({self.random.choice(LOCKS)})"
        if kind < 8:
            return f"after({self.random.choice(TIMES)})"
        if kind < 9:
            return self.digest()
        if kind < 10:
            return self.random.choice("01")
        keys = [self.key() for _ in range(self.random.randint(1, 3))]
        return f"multi({self.random.randint(1, len(keys))},{','.join(keys)})"

    def is_b(self, depth: int) -> str:
        """A text that is B, if its letters are as they have to be."""
        if depth == 0:
            return self.leaf()
        form = self.random.choice(
            ("leaf", "or_d", "or_d", "or_b", "or_i", "and_v", "and_v", "and_b", "andor", "thresh", "thresh", "and_n", "t", "j", "l", "u", "n", "d", "c")
        )
        below = depth - 1
        if form == "leaf":
            return self.leaf()
        if form in ("or_d", "or_i", "and_n"):
            return f"{form}({self.is_b(below)},{self.is_b(below)})"
        if form == "andor":
            return f"andor({self.is_b(below)},{self.is_b(below)},{self.is_b(below)})"
        if form in ("or_b", "and_b"):
            return f"{form}({self.is_b(below)},{self.is_w(below)})"
        if form == "and_v":
            return f"and_v({self.is_v(below)},{self.is_b(below)})"
        if form == "thresh":
            parts = [self.is_b(below)] + [self.is_w(below) for _ in range(self.random.randint(0, 3))]
            return f"thresh({self.random.randint(1, len(parts))},{','.join(parts)})"
        if form == "t":
            return wrapped("t", self.is_v(below))
        if form == "d":
            return wrapped("d", self.is_v(0))
        if form == "c":
            return f"c:{self.random.choice(('pk_k', 'pk_h'))}({self.key()})"
        return wrapped(form, self.is_b(below))

    def is_v(self, depth: int) -> str:
        if depth > 0 and self.random.randrange(6) == 0:
            return f"or_c({self.is_b(depth - 1)},{self.is_v(depth - 1)})"
        return wrapped("v", self.is_b(depth))

    def is_w(self, depth: int) -> str:
        return wrapped(self.random.choice("as"), self.is_b(depth))


def wrapped(letter: str, text: str) -> str:
    """The text with a wrapper letter before it: within the letters that stand there already."""
    return letter + text if re.match(r"[a-z]+:", text) else f"{letter}:{text}"


def mangled(text: str, chance: random.Random) -> str:
    """The text with something wrong, or with something that is taken out again."""
    at = chance.randrange(len(text) + 1)
    form = chance.randrange(9)
    if form == 0:
        return text[:at] + chance.choice("()," + ":#éß\u202e\0 \n\tx0Z☃[]<>'/*@") + text[at:]
    if form == 1:
        return text[:at]
    if form == 2:
        return text[:at] + text[at + 1 :]
    if form == 3:
        return f" wsh(\n{text} )\t"
    if form == 4:
        return f"wsh({text})#" + "".join(chance.choice("qpzry9x8") for _ in range(8))
    if form == 5:
        other = chance.randrange(len(text) + 1)
        return text[:at] + text[other:]
    if form == 6:
        return text.replace("pk(02", chance.choice(("pk(", "pk(alice", "pk([d34db33f/48h/0h]xpub", "pk(03")))
    if form == 7:
        return text.replace("pkh", "pk").replace("and_v", chance.choice(("and", "and_b", "or_i")))
    return "".join(chance.choice("abv:()0123,pk_ \n") for _ in range(chance.randrange(40)))


class Many:
    """Makes conditions that have many ways: lists and thresholds of keys, of keys with preimages, and of preimages and timelocks beside keys, one
    or several of them, joined. Keys are new ones each time; hash values come from few, so that some stand several times."""

    def __init__(self, seed: int):
        self.random = random.Random(seed)
        self.count = 0
        self.hashes = self.random.randint(1, 9)

    def key(self) -> str:
        self.count += 1
        return f"k{self.count}"

    def digest(self) -> str:
        return f"{self.random.choice(('sha256', 'sha256', 'hash160'))}(h{self.random.randrange(self.hashes)})"

    def lock(self) -> str:
        return self.random.choice((f"older({self.random.choice(LOCKS[:5])})", f"after({self.random.choice(TIMES[:3])})"))

    def least(self, low: int, high: int) -> int:
        """Few, many, or all of them."""
        return min(high, max(low, self.random.choice((1, 2, 2, 2, 3, high // 2, high - 1, high, self.random.randint(low, high)))))

    def part(self, most: int) -> str:
        """A part of at most so many children that can be dissatisfied, without a dissatisfaction that somebody else could make."""
        count = self.random.randint(2, most)
        form = self.random.randrange(4)
        if form == 0:
            return f"multi({self.least(1, min(count, 20))},{','.join(self.key() for _ in range(min(count, 20)))})"
        if form == 1:
            return f"thresh({self.least(1, count)},pk({self.key()}){''.join(f',s:pk({self.key()})' for _ in range(count - 1))})"
        more = [f",aj:and_v(v:pk({self.key()}),{self.digest()})" for _ in range(self.random.randint(1, count))]
        free = [f",sln:{self.lock()}" if self.random.randrange(2) else f",altv:{self.digest()}" for _ in range(count // 3 * (form == 3))]
        keys = "".join(f",s:pk({self.key()})" for _ in range(self.random.randint(0, count)))
        children = keys.count(",s:") + len(more) + len(free) + 1
        return f"thresh({self.least(len(free) + 1, children)},pk({self.key()}){keys}{''.join(more + free)})"

    def twice(self, hashes: int) -> str:
        """Keys with preimages, each of which two keys want."""
        both = "".join(2 * f",aj:and_v(v:pk({{}}),sha256(h{at}))" for at in range(hashes))
        return f"thresh({self.least(1, 2 * hashes)},pk({self.key()}){both.format(*(self.key() for _ in range(2 * hashes)))})"

    def text(self) -> str:
        form = self.random.randrange(20)
        if form == 19:
            return self.twice(self.random.randint(4, 8))
        form %= 6
        if form < 3:
            return self.part(self.random.choice((5, 12, 20)))
        if form == 3:
            return f"or_i({self.part(12)},{self.part(12)})"
        if form == 4:
            return f"or_i({self.part(6)},or_i(and_v(v:{self.part(6)},{self.lock()}),{self.part(6)}))"
        keys = ",".join(self.key() for _ in range(self.random.randint(2, 14)))
        return f"or_d(multi({self.least(1, keys.count(',') + 1)},{keys}),and_v(v:{self.part(8)},{self.lock()}))"
