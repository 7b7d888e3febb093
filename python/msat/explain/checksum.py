# SPDX-License-Identifier: MIT
"""The checksum behind a descriptor's `#` (BIP 380).

>>> checksum("raw(deadbeef)")
'89f8spxm'
"""

_LETTERS = (
    "0123456789()[],'/*abcdefgh@:$%{}"
    "IJKLMNOPQRSTUVWXYZ&+-.;<=>?!^_|~"
    'ijklmnopqrstuvwxyzABCDEFGH`#"\\ '
)
_DIGITS = "qpzry9x8gf2tvdw0s3jn54khce6mua7l"
_STEPS = (0xF5DEE51989, 0xA9FDCA3312, 0x1BAB10E32D, 0x3706B1677A, 0x644D626FFD)


def _next(check: int, value: int) -> int:
    top = check >> 35
    check = (check & 0x7FFFFFFFF) << 5 ^ value
    for bit, step in enumerate(_STEPS):
        check ^= step if top >> bit & 1 else 0
    return check


def checksum(text: str) -> str:
    """The eight letters for this text, or none where it has a letter that no descriptor has."""
    check, group, count = 1, 0, 0
    for letter in text:
        place = _LETTERS.find(letter)
        if place < 0:
            return ""
        check = _next(check, place & 31)
        group, count = group * 3 + (place >> 5), count + 1
        if count == 3:
            check, group, count = _next(check, group), 0, 0
    if count:
        check = _next(check, group)
    for _ in range(8):
        check = _next(check, 0)
    check ^= 1
    return "".join(_DIGITS[check >> 5 * (7 - at) & 31] for at in range(8))
