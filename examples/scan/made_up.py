#!/usr/bin/env python3
# SPDX-License-Identifier: MIT
"""Writes made-up blocks as `getblock HASH 3` prints them, a line each, of spends of many kinds; the same seed gives the same blocks.

Usage: made_up.py BLOCKS SPENDS SEED
"""

import hashlib
import json
import random
import sys
from typing import Any, Optional

import msat
from msat import Assets, Signature


class Maker:
    """Makes spends by a random source of its own. No signature is one of a curve: nothing of a scan asks for that."""

    def __init__(self, seed: int) -> None:
        self.random = random.Random(seed)

    def key(self) -> bytes:
        return self.random.choice((b"\2", b"\3")) + self.random.randbytes(32)

    def signature(self, hash_type: int = 1) -> bytes:
        """Bytes in the form of DER with low lengths, of 70 to 72 bytes."""
        r = b"\2" + bytes([32 + self.random.randrange(2)])
        r += self.random.randbytes(r[1])
        s = b"\2\x20" + self.random.randbytes(32)
        return b"\x30" + bytes([len(r) + len(s)]) + r + s + bytes([hash_type])

    def spend(self) -> tuple[bytes, list[bytes], int, int]:
        """A Script, the stack below it, the sequence number and the locktime of its transaction."""
        return self.random.choice(
            (self.multi, self.multi, self.funding, self.delayed, self.after, self.hashed, self.unsafe, self.both, self.commitment, self.large)
        )()

    def multi(self) -> tuple[bytes, list[bytes], int, int]:
        keys = [self.key() for _ in range(self.random.choice((2, 3, 3, 5)))]
        needed = self.random.randrange(1, len(keys) + 1)
        text = f"multi({needed},{','.join(it.hex() for it in keys)})"
        return self.satisfied(text, self.random.sample(keys, needed))

    def funding(self) -> tuple[bytes, list[bytes], int, int]:
        keys = sorted(self.key() for _ in range(2))
        return self.satisfied(f"multi(2,{keys[0].hex()},{keys[1].hex()})", keys)

    def delayed(self) -> tuple[bytes, list[bytes], int, int]:
        first, second = self.key(), self.key()
        text = f"or_d(pk({first.hex()}),and_v(v:pkh({second.hex()}),older(144)))"
        later = self.random.random() < 0.5
        return self.satisfied(text, [second if later else first], sequence=144 if later else 0xFFFFFFFD)

    def after(self) -> tuple[bytes, list[bytes], int, int]:
        keys = [self.key() for _ in range(3)]
        text = f"or_i(and_v(v:pk({keys[0].hex()}),after(700000)),thresh(2,pk({keys[1].hex()}),s:pk({keys[2].hex()})))"
        late = self.random.random() < 0.5
        return self.satisfied(text, keys[:1] if late else keys[1:], locktime=700001 if late else 0)

    def hashed(self) -> tuple[bytes, list[bytes], int, int]:
        preimage, key = self.random.randbytes(32), self.key()
        text = f"and_v(v:pk({key.hex()}),sha256({hashlib.sha256(preimage).hexdigest()}))"
        return self.satisfied(text, [key], [preimage])

    def unsafe(self) -> tuple[bytes, list[bytes], int, int]:
        """A Script that a stranger can spend who has seen the preimage, and one with a key twice."""
        preimage, key = self.random.randbytes(32), self.key()
        if self.random.random() < 0.5:
            return self.satisfied(f"sha256({hashlib.sha256(preimage).hexdigest()})", [], [preimage])
        return self.satisfied(f"and_v(v:pk({key.hex()}),pk({key.hex()}))", [key])

    def both(self) -> tuple[bytes, list[bytes], int, int]:
        """A stack that satisfies both options of an `or_b`, which is no canonical one."""
        keys = [self.key(), self.key()]
        script = msat.script(f"or_b(pk({keys[0].hex()}),s:pk({keys[1].hex()}))")
        return script, [self.signature(), self.signature()], 0xFFFFFFFD, 0

    def commitment(self) -> tuple[bytes, list[bytes], int, int]:
        """The output of a channel's commitment to its own side, with DROP, which is no miniscript."""
        key, revoked = self.key(), self.key()
        script = b"\x63\x21" + revoked + b"\x67\x02\x90\x00\xb2\x75\x21" + key + b"\x68\xac"
        return script, [self.signature(), b""], 144, 0

    def large(self) -> tuple[bytes, list[bytes], int, int]:
        """A heavier stack than needed: an `or_d` by its second option, whose first one could be satisfied."""
        keys = [self.key() for _ in range(3)]
        text = f"or_d(pk({keys[0].hex()}),and_v(v:pk({keys[1].hex()}),pk({keys[2].hex()})))"
        return self.satisfied(text, keys[1:])

    def satisfied(
        self, text: str, signing: list[bytes], preimages: Optional[list[bytes]] = None, sequence: int = 0xFFFFFFFD, locktime: int = 0
    ) -> tuple[bytes, list[bytes], int, int]:
        types = (1, 1, 1, 0x81, 2, 3)
        pairs = tuple(Signature(key, self.signature(self.random.choice(types))) for key in signing)
        *stack, script = msat.witness(text, Assets(2, sequence, locktime, pairs, tuple(preimages or ())), malleable=True)
        return script, stack, sequence, locktime


def block(maker: Maker, height: int, spends: int) -> dict[str, Any]:
    """A block with so many spends of P2WSH outputs, native and nested, beside inputs of other kinds."""
    coinbase = {"coinbase": "03" + height.to_bytes(3, "little").hex(), "txinwitness": [32 * "00"], "sequence": 0xFFFFFFFF}
    transactions = [{"txid": maker.random.randbytes(32).hex(), "version": 2, "locktime": 0, "vin": [coinbase], "vout": []}]
    for _ in range(spends):
        script, stack, sequence, locktime = maker.spend()
        program = b"\x00\x20" + hashlib.sha256(script).digest()
        nested = maker.random.random() < 0.3
        spent = b"\xa9\x14" + hashlib.new("ripemd160", hashlib.sha256(program).digest()).digest() + b"\x87" if nested else program
        given = {
            "txid": maker.random.randbytes(32).hex(),
            "vout": maker.random.randrange(4),
            "scriptSig": {"asm": "", "hex": "22" + program.hex() if nested else ""},
            "txinwitness": [it.hex() for it in (*stack, script)],
            "prevout": {
                "generated": False,
                "height": height - 1,
                "value": maker.random.randrange(1000, 10**9) / 10**8,
                "scriptPubKey": {"asm": "", "hex": spent.hex(), "type": "scripthash" if nested else "witness_v0_scripthash"},
            },
            "sequence": sequence,
        }
        other = {
            "txid": maker.random.randbytes(32).hex(),
            "vout": 0,
            "scriptSig": {"asm": "", "hex": ""},
            "txinwitness": [maker.signature().hex(), maker.key().hex()],
            "prevout": {"value": 0.0001, "scriptPubKey": {"hex": "0014" + maker.random.randbytes(20).hex()}},
            "sequence": 0xFFFFFFFD,
        }
        inputs = [given, other] if maker.random.random() < 0.2 else [given]
        transactions.append({"txid": maker.random.randbytes(32).hex(), "version": 2, "locktime": locktime, "vin": inputs, "vout": []})
    return {"hash": maker.random.randbytes(32).hex(), "height": height, "time": 1600000000 + 600 * height, "tx": transactions}


def main() -> int:
    if len(sys.argv) != 4 or not all(word.isdigit() for word in sys.argv[1:]):
        print("usage: made_up.py BLOCKS SPENDS SEED", file=sys.stderr)
        return 1
    blocks, spends, seed = map(int, sys.argv[1:])
    maker = Maker(seed)
    for height in range(800_000, 800_000 + blocks):
        print(json.dumps(block(maker, height, spends)))
    return 0


if __name__ == "__main__":
    sys.exit(main())
