# SPDX-License-Identifier: MIT
"""The hash functions of hash locks, as Script has them. RIPEMD-160 is written out, since Python over some builds of OpenSSL has none."""

import hashlib
from typing import Callable

# For each of the five rounds of both lines: which word of the block each step takes, and by how many bits it turns.
_WORDS = (
    ("0123456789abcdef", "74d1a6f3c0952eb8", "3ae49f812706db5c", "19ba08c4d37fe562", "40597c2ae138b6fd"),
    ("5e7092b4d6f81a3c", "6b370d5aef8c4912", "f5137e69b8c2a04d", "86413bf05c2d97ae", "cfa4158762de039b"),
)
_TURNS = (
    ("befc5879bdef6798", "768db97f7cf9b7dc", "bd67e9dfe8d65c75", "bcefef989e56865c", "9f5b68dc5cdeb856"),
    ("899bdff5778beec6", "9df7c89b77c76fdb", "97fb866ecd5edd75", "f58bee6e69c9c5f8", "85c9c5e68d65fdbb"),
)
_ADDED = (
    (0x00000000, 0x5A827999, 0x6ED9EBA1, 0x8F1BBCDC, 0xA953FD4E),
    (0x50A28BE6, 0x5C4DD124, 0x6D703EF3, 0x7A6D76E9, 0x00000000),
)
_MIXES: tuple[Callable[[int, int, int], int], ...] = (
    lambda x, y, z: x ^ y ^ z,
    lambda x, y, z: (x & y) | (~x & z),
    lambda x, y, z: (x | ~y) ^ z,
    lambda x, y, z: (x & z) | (y & ~z),
    lambda x, y, z: x ^ (y | ~z),
)
_START: tuple[int, ...] = (0x67452301, 0xEFCDAB89, 0x98BADCFE, 0x10325476, 0xC3D2E1F0)
_MASK = 0xFFFFFFFF


def _turned(value: int, bits: int) -> int:
    value &= _MASK
    return (value << bits | value >> (32 - bits)) & _MASK


def _line(line: int, state: tuple[int, ...], words: list[int]) -> tuple[int, ...]:
    """One of the two lines of a block, of five rounds each."""
    a, b, c, d, e = state
    for turn in range(5):
        mix = _MIXES[4 - turn if line else turn]
        for word, bits in zip(_WORDS[line][turn], _TURNS[line][turn]):
            total = a + mix(b, c, d) + words[int(word, 16)] + _ADDED[line][turn]
            a, b, c, d, e = e, (_turned(total, int(bits, 16)) + e) & _MASK, b, _turned(c, 10), d
    return a, b, c, d, e


def ripemd160(data: bytes) -> bytes:
    """RIPEMD-160.

    >>> ripemd160(b"abc").hex()
    '8eb208f7e05d987a9b044a8e98c6b087f15a0bfc'
    """
    padded = data + b"\x80" + bytes(-(len(data) + 9) % 64) + (8 * len(data)).to_bytes(8, "little")
    state = _START
    for start in range(0, len(padded), 64):
        words = [int.from_bytes(padded[start + at : start + at + 4], "little") for at in range(0, 64, 4)]
        left, right = _line(0, state, words), _line(1, state, words)
        state = tuple((state[(at + 1) % 5] + left[(at + 2) % 5] + right[(at + 3) % 5]) & _MASK for at in range(5))
    return b"".join(part.to_bytes(4, "little") for part in state)


def sha256(data: bytes) -> bytes:
    return hashlib.sha256(data).digest()


# The functions by the names of their fragments, and how many bytes each gives.
FUNCTIONS: dict[str, Callable[[bytes], bytes]] = {
    "sha256": sha256,
    "hash256": lambda data: sha256(sha256(data)),
    "ripemd160": ripemd160,
    "hash160": lambda data: ripemd160(sha256(data)),
}
LENGTHS = {"sha256": 32, "hash256": 32, "ripemd160": 20, "hash160": 20}
