"""Makes texts at random by the types of BIP 379, with every fragment, for the scripts beside it."""
import random

HASHES = {"sha256": 32, "hash256": 32, "ripemd160": 20, "hash160": 20}


class Texts:
    """Makes texts. Each maker is given how deep the expression may be."""

    def __init__(self, seed):
        self.random = random.Random(seed)
        self.keys = []
        self.fragments = 0

    def text(self):
        self.keys = []
        return self.b(self.random.choice((1, 2, 3, 4, 5, 6)))

    def key(self):
        self.keys.append(self.random.choice(("02", "03")) + self.random.randbytes(32).hex())
        return self.keys[-1]

    def one_of(self, leaves, others, deep):
        """One of the makers: of a fragment without children where no more may stand below it."""
        self.fragments += 1
        return self.random.choice(leaves if deep == 0 else leaves + 3 * others)(max(deep - 1, 0))

    def hashed(self):
        name = self.random.choice(list(HASHES))
        return f"{name}({self.random.randbytes(HASHES[name]).hex()})"

    def multi(self):
        count = self.random.randint(1, 4)
        return f"multi({self.random.randint(1, count)}{''.join(',' + self.key() for _ in range(count))})"

    def lock(self):
        number = self.random.choice((self.random.randint(1, 20), self.random.randint(1, 2**31 - 1)))
        return f"{self.random.choice(('older', 'after'))}({number})"

    def k(self, deep):
        return self.one_of(
            [lambda _: f"pk_k({self.key()})", lambda _: f"pk_h({self.key()})"],
            [
                lambda d: f"and_v({self.v(d)},{self.k(d)})",
                lambda d: f"or_i({self.k(d)},{self.k(d)})",
                lambda d: f"andor({self.bdu(d)},{self.k(d)},{self.k(d)})",
            ],
            deep,
        )

    def wrapped(self, letters, x):
        return letters + x if x.partition(":")[1] and x.partition(":")[0].isalpha() else f"{letters}:{x}"

    def v(self, deep):
        return self.one_of(
            [lambda d: self.wrapped("v", self.b(d))],
            [
                lambda d: f"and_v({self.v(d)},{self.v(d)})",
                lambda d: f"or_c({self.bdu(d)},{self.v(d)})",
                lambda d: f"or_i({self.v(d)},{self.v(d)})",
                lambda d: f"andor({self.bdu(d)},{self.v(d)},{self.v(d)})",
            ],
            deep,
        )

    def bdu(self, deep):
        return self.one_of(
            [lambda _: f"pk({self.key()})", lambda _: f"pkh({self.key()})", lambda _: self.multi(), lambda _: self.hashed(), lambda _: "0"],
            [
                lambda d: self.wrapped("c", self.k(d)),
                lambda d: self.wrapped("j", f"and_v({self.wrapped('v', self.hashed())},{self.b(d)})"),
                lambda d: self.wrapped("nd", self.wrapped("v", self.lock())),
                lambda d: self.wrapped("l", self.wrapped("n", self.b(d))),
                lambda d: self.wrapped("u", self.wrapped("n", self.b(d))),
                lambda d: f"and_b({self.bdu(d)},{self.wdu(d)})",
                lambda d: f"or_b({self.bdu(d)},{self.wdu(d)})",
                lambda d: f"or_d({self.bdu(d)},{self.bdu(d)})",
                lambda d: f"andor({self.bdu(d)},{self.bdu(d)},{self.bdu(d)})",
                lambda d: self.thresh(d),
            ],
            deep,
        )

    def thresh(self, deep):
        count = self.random.randint(1, 4)
        return f"thresh({self.random.randint(1, count)},{self.bdu(deep)}{''.join(',' + self.wdu(deep) for _ in range(count - 1))})"

    def wdu(self, deep):
        return self.one_of(
            [lambda _: f"s:pk({self.key()})", lambda _: self.wrapped("s", self.hashed())],
            [lambda d: self.wrapped("a", self.bdu(d)), lambda d: self.wrapped("s", self.wrapped("c", self.k(d)))],
            deep,
        )

    def b(self, deep):
        return self.one_of(
            [lambda _: "1", lambda _: self.lock(), lambda _: self.bdu(0)],
            [
                lambda d: self.bdu(d),
                lambda d: f"and_v({self.v(d)},{self.b(d)})",
                lambda d: f"and_b({self.b(d)},{self.wrapped('a', self.b(d))})",
                lambda d: f"or_d({self.bdu(d)},{self.b(d)})",
                lambda d: f"or_i({self.b(d)},{self.b(d)})",
                lambda d: f"andor({self.bdu(d)},{self.b(d)},{self.b(d)})",
                lambda d: f"and_n({self.bdu(d)},{self.b(d)})",
                lambda d: self.wrapped("t", self.v(d)),
                lambda d: self.wrapped("n", self.b(d)),
            ],
            deep,
        )
