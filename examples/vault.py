#!/usr/bin/env python3
# SPDX-License-Identifier: MIT
"""The keys, the wallet and the signers of the vault in docs/USE.md. Each key is made of a name, so anybody can sign: it is for trying alone.
Two of Ada, Ben and Cleo spend at once, and Dora after a year. Needs nothing but Python.
Usage: vault.py descriptor              the descriptor that a wallet would export
       vault.py wallet                  a PSBT of a wallet that knows the outputs it spends, and no keys: in base64
       vault.py sign NAME <PSBT         the PSBT with NAME's signature of each input that has a key of NAME's: from base64, in base64
"""
import base64
import hashlib
import hmac
import sys

P = 2**256 - 2**32 - 977
N = 0xFFFFFFFFFFFFFFFFFFFFFFFFFFFFFFFEBAAEDCE6AF48A03BBFD25E8CD0364141
G = (0x79BE667EF9DCBBAC55A06295CE870B07029BFCDB2DCE28D959F2815B16F81798, 0x483ADA7726A3C4655DA4FBFC0E1108A8FD17B448A68554199C47D08FFB10D4B8)
HARDENED = 1 << 31
ORIGIN = (48 + HARDENED, 1 + HARDENED, HARDENED, 2 + HARDENED)
NAMES = ("Ada", "Ben", "Cleo", "Dora")


# Keys (SEC 1, SEC 2; BIP 32).


def added(a, b):
    """The sum of two points of secp256k1, neither of which is infinity or the other's negative."""
    slope = 3 * a[0] * a[0] * pow(2 * a[1], -1, P) if a == b else (b[1] - a[1]) * pow(b[0] - a[0], -1, P)
    x = (slope * slope - a[0] - b[0]) % P
    return x, (slope * (a[0] - x) - a[1]) % P


def multiple(number):
    """That multiple of the generator."""
    total, doubled = None, G
    while number:
        if number & 1:
            total = added(total, doubled) if total else doubled
        doubled, number = added(doubled, doubled), number >> 1
    return total


def public(secret):
    x, y = multiple(secret)
    return bytes([2 + y % 2]) + x.to_bytes(32, "big")


def child(secret, chain, number):
    """The secret and the chain code of a child (BIP 32, CKDpriv)."""
    key = b"\0" + secret.to_bytes(32, "big") if number >= HARDENED else public(secret)
    made = hmac.digest(chain, key + number.to_bytes(4, "big"), "sha512")
    return (int.from_bytes(made[:32], "big") + secret) % N, made[32:]


def along(name, steps):
    """The secret and the chain code at the end of these steps from a name's own key (BIP 32, master key generation)."""
    made = hmac.digest(b"Bitcoin seed", hashlib.sha256(f"msat vault {name}".encode()).digest(), "sha512")
    secret, chain = int.from_bytes(made[:32], "big"), made[32:]
    for step in steps:
        secret, chain = child(secret, chain, step)
    return secret, chain


def hash256(text):
    return hashlib.sha256(hashlib.sha256(text).digest()).digest()


def fingerprint(key):
    return hashlib.new("ripemd160", hashlib.sha256(key).digest()).digest()[:4]


def base58(payload):
    payload += hash256(payload)[:4]
    number, digits = int.from_bytes(payload, "big"), ""
    while number:
        number, digit = divmod(number, 58)
        digits = "123456789ABCDEFGHJKLMNPQRSTUVWXYZabcdefghijkmnopqrstuvwxyz"[digit] + digits
    return digits


def key_expression(name):
    """A name's key in the descriptor: its origin, its extended key, and a branch to receive and one for change."""
    parent = fingerprint(public(along(name, ORIGIN[:-1])[0]))
    secret, chain = along(name, ORIGIN)
    extended = b"\x04\x35\x87\xcf\x04" + parent + ORIGIN[-1].to_bytes(4, "big") + chain + public(secret)
    return f"[{fingerprint(public(along(name, ())[0])).hex()}/48h/1h/0h/2h]{base58(extended)}/<0;1>/*"


def descriptor():
    first, second, third, last = map(key_expression, NAMES)
    return f"wsh(or_d(multi(2,{first},{second},{third}),and_v(v:pkh({last}),older(52560))))"


# PSBTs (BIP 174).


def sized(text):
    return (bytes([len(text)]) if len(text) < 253 else b"\xfd" + len(text).to_bytes(2, "little")) + text


def program(branch, index):
    """The output of the vault at a place: 00, 20 and the SHA256 of its Script."""
    *three, last = (public(along(name, (*ORIGIN, branch, index))[0]) for name in NAMES)
    hashed = hashlib.new("ripemd160", hashlib.sha256(last).digest()).digest()
    script = b"\x52" + b"".join(map(sized, three)) + b"\x53\xae\x73\x64\x76\xa9" + sized(hashed) + b"\x88\xad\x03\x50\xcd\x00\xb2\x68"
    return b"\0\x20" + hashlib.sha256(script).digest()


def wallet():
    """Spends 50,000 and 30,000 satoshis of the vault, sends 60,000 to somebody, and the rest but for 1,000 back to the vault."""
    spent = [(50000, program(0, 3)), (30000, program(0, 4))]
    outputs = [(60000, b"\0\x14" + bytes(range(20))), (19000, program(1, 7))]
    written = [value.to_bytes(8, "little") + sized(script) for value, script in spent + outputs]
    inputs = b"".join(bytes([number + 1]) * 32 + bytes(4) + b"\0\xfd\xff\xff\xff" for number in range(2))
    transaction = b"\2\0\0\0\2" + inputs + b"\2" + b"".join(written[2:]) + bytes(4)
    return b"psbt\xff" + sized(b"\0") + sized(transaction) + b"\0" + b"".join(b"\1\1" + sized(it) + b"\0" for it in written[:2]) + b"\0\0"


def pieces(psbt):
    """The maps of a PSBT: of each the pairs of key and value."""
    at, maps = 5, [[]]

    def piece():
        nonlocal at
        size, at = (psbt[at], at + 1) if psbt[at] < 253 else (int.from_bytes(psbt[at + 1 : at + 3], "little"), at + 3)
        at += size
        return psbt[at - size : at]

    while at < len(psbt):
        if key := piece():
            maps[-1].append((key, piece()))
        else:
            maps.append([])
    return maps[:-1]


def digest(transaction, number, spent, script):
    """What SIGHASH_ALL signs (BIP 143), of a transaction with less than 253 inputs without scriptSigs."""
    inputs = [transaction[5 + 41 * at : 46 + 41 * at] for at in range(transaction[4])]
    outputs = transaction[6 + 41 * len(inputs) : -4]
    outpoints, sequences = b"".join(it[:36] for it in inputs), b"".join(it[37:] for it in inputs)
    own = inputs[number]
    text = transaction[:4] + hash256(outpoints) + hash256(sequences) + own[:36] + sized(script) + spent[:8] + own[37:] + hash256(outputs)
    return hash256(text + transaction[-4:] + b"\1\0\0\0")


def signature(secret, hashed):
    """ECDSA with the nonce of RFC 6979 and a low s, in DER, with the type ALL behind it."""
    number, text = int.from_bytes(hashed, "big"), secret.to_bytes(32, "big") + (int.from_bytes(hashed, "big") % N).to_bytes(32, "big")
    value, key = b"\1" * 32, bytes(32)
    for mark in (b"\0", b"\1"):
        key = hmac.digest(key, value + mark + text, "sha256")
        value = hmac.digest(key, value, "sha256")
    value = hmac.digest(key, value, "sha256")
    nonce = int.from_bytes(value, "big")
    r = multiple(nonce)[0] % N
    s = pow(nonce, -1, N) * (number + r * secret) % N
    whole = b"".join(b"\2" + sized(it.to_bytes(it.bit_length() // 8 + 1, "big")) for it in (r, min(s, N - s)))
    return b"\x30" + sized(whole) + b"\1"


def sign(name, psbt):
    """A signer looks for its own keys by their origins, and signs with each."""
    maps, own = pieces(psbt), fingerprint(public(along(name, ())[0]))
    transaction = dict(maps[0])[b"\0"]
    for number, pairs in enumerate(maps[1 : 1 + transaction[4]]):
        known = dict(pairs)
        for key, origin in [it for it in pairs if it[0][0] == 6 and it[1][:4] == own]:
            steps = [int.from_bytes(origin[at : at + 4], "little") for at in range(4, len(origin), 4)]
            hashed = digest(transaction, number, known[b"\1"], known[b"\5"])
            pairs.append((b"\2" + key[1:], signature(along(name, steps)[0], hashed)))
    return b"psbt\xff" + b"".join(b"".join(sized(key) + sized(value) for key, value in pairs) + b"\0" for pairs in maps)


def main():
    if sys.argv[1:] == ["descriptor"]:
        print(descriptor())
    elif sys.argv[1:] == ["wallet"]:
        print(base64.b64encode(wallet()).decode())
    elif sys.argv[1:2] == ["sign"] and sys.argv[2:] and sys.argv[2] in NAMES and not sys.argv[3:]:
        print(base64.b64encode(sign(sys.argv[2], base64.b64decode(sys.stdin.read()))).decode())
    else:
        sys.exit(__doc__)


if __name__ == "__main__":
    main()
