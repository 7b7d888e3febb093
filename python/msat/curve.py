# SPDX-License-Identifier: MIT
"""Signatures and keys of secp256k1 (SEC 1, SEC 2), judged and found by the proved library."""

from typing import Optional

from . import _library

_JUDGEMENTS = ("bad", "good", "high")


def signature(key: bytes, hash: bytes, sig: bytes) -> str:
    """What a signature with the byte of its hash type behind is, by a compressed key and for a hash of 32 bytes: `good` where the key has
    signed the hash, the signature is in strict DER (BIP 66) and its s is low (BIP 146); `high` where only its s is over half of the
    order, which nodes don't relay; and else `bad`, as by a key or for a hash of another length.

    >>> key = bytes.fromhex("0279be667ef9dcbbac55a06295ce870b07029bfcdb2dce28d959f2815b16f81798")
    >>> hash = bytes.fromhex("a0dc65ffca799873cbea0ac274015b9526505daaaed385155425f7337704883e")
    >>> sig = bytes.fromhex(
    ...     "3045022100934b1ea10a4b3c1757e2b0c017d0b6143ce3c9a7e6a4a49860d7a6ab210ee3d8"
    ...     "02202442ce9d2b916064108014783e923ec36b49743e2ffa1c4496f01a512aafd9e501"
    ... )
    >>> signature(key, hash, sig), signature(key, hash[::-1], sig), signature(key, hash, sig[:-1])
    ('good', 'bad', 'bad')
    """
    return _JUDGEMENTS[_library.signature(bytes(key), bytes(hash), bytes(sig))]


def point(key: bytes) -> Optional[bytes]:
    """The point of a compressed key: 04, x and y (SEC 1, 2.3.3); None where the bytes are no key, or no point has its x.

    >>> point(bytes.fromhex("0279be667ef9dcbbac55a06295ce870b07029bfcdb2dce28d959f2815b16f81798"))[:5].hex()
    '0479be667e'
    >>> point(b"\\x02" + 31 * b"\\0" + b"\\5") is None
    True
    """
    code, found = _library.point(bytes(key))
    return found if code == _library.DONE else None
