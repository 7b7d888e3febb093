# SPDX-License-Identifier: MIT
"""Addresses of segwit outputs: bech32 (BIP 173) for version 0, and bech32m (BIP 350) for the later ones.

>>> address("tb", 0, bytes.fromhex("1863143c14c5166804bd19203356da136c985678cd4d27a1b8c6329604903262"))
'tb1qrp33g0q5c5txsp9arysrx4k6zdkfs4nce4xj0gdcccefvpysxf3q0sl5k7'
"""

_DIGITS = "qpzry9x8gf2tvdw0s3jn54khce6mua7l"
_STEPS = (0x3B6A57B2, 0x26508E6D, 0x1EA119FA, 0x3D4233DD, 0x2A1462B3)
_BECH32 = 1
_BECH32M = 0x2BC830A3

# The first part of an address, for each network.
NETWORKS = {"main": "bc", "test": "tb", "regtest": "bcrt"}


def polymod(values: list[int]) -> int:
    """The checksum of the values, each of five bits."""
    check = 1
    for value in values:
        top = check >> 25
        check = (check & 0x1FFFFFF) << 5 ^ value
        for bit, step in enumerate(_STEPS):
            check ^= step if top >> bit & 1 else 0
    return check


def _spread(part: str) -> list[int]:
    return [ord(letter) >> 5 for letter in part] + [0] + [ord(letter) & 31 for letter in part]


def _by_fives(data: bytes) -> list[int]:
    """The bits of the bytes, five to a value, filled up with zeros at the end."""
    bits = "".join(f"{byte:08b}" for byte in data)
    bits += "0" * (-len(bits) % 5)
    return [int(bits[at : at + 5], 2) for at in range(0, len(bits), 5)]


def address(network: str, version: int, program: bytes) -> str:
    """The address of a witness program, whose network is told by the address's first part."""
    values = [version, *_by_fives(program)]
    check = polymod(_spread(network) + values + [0] * 6) ^ (_BECH32M if version else _BECH32)
    values += [check >> 5 * (5 - at) & 31 for at in range(6)]
    return network + "1" + "".join(_DIGITS[value] for value in values)


def addresses(program: bytes) -> dict[str, str]:
    """The address on each network of a script that is a witness program, as `0020..`: its version, and a push of the rest."""
    version = program[0] - 0x50 if program[0] else 0
    return {name: address(part, version, program[2:]) for name, part in NETWORKS.items()}
