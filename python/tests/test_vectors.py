"""Published vectors: of RIPEMD-160's paper, of BIP 173 and BIP 350, and of BIP 380."""

import hashlib
import unittest

import samples  # noqa: F401
from msat.explain import bech32, checksum, hashes


class Hashes(unittest.TestCase):
    def test_ripemd160_of_its_paper(self):
        wanted = {
            b"": "9c1185a5c5e9fc54612808977ee8f548b2258d31",
            b"a": "0bdc9d2d256b3ee9daae347be6f4dc835a467ffe",
            b"abc": "8eb208f7e05d987a9b044a8e98c6b087f15a0bfc",
            b"message digest": "5d0689ef49d2fae572b881b123a85ffa21595f36",
            b"abcdefghijklmnopqrstuvwxyz": "f71c27109c692c1b56bbdceb5b9d2865b3708dbc",
            b"abcdbcdecdefdefgefghfghighijhijkijkljklmklmnlmnomnopnopq": "12a053384a9c0c88e405a06c27dcf49ada62eb2b",
            b"ABCDEFGHIJKLMNOPQRSTUVWXYZabcdefghijklmnopqrstuvwxyz0123456789": "b0e20b6e3116640286ed3a87a5713079b21f5189",
            8 * b"1234567890": "9b752e45573d4b39f4dbd3323cab82bf63326bfb",
        }
        for data, digest in wanted.items():
            self.assertEqual(hashes.ripemd160(data).hex(), digest)

    def test_the_other_functions(self):
        # HASH160 of the public key of the private key 1, as BIP 173 has it in an address.
        key = bytes.fromhex("0279be667ef9dcbbac55a06295ce870b07029bfcdb2dce28d959f2815b16f81798")
        self.assertEqual(hashes.FUNCTIONS["hash160"](key).hex(), "751e76e8199196d454941c45d1b3a323f1433bd6")
        twice = hashlib.sha256(hashlib.sha256(b"x").digest()).digest()
        self.assertEqual(hashes.FUNCTIONS["hash256"](b"x"), twice)
        for name, function in hashes.FUNCTIONS.items():
            self.assertEqual(len(function(b"")), hashes.LENGTHS[name])


class Addresses(unittest.TestCase):
    def test_of_bip_173_and_350(self):
        wanted = {
            "BC1QW508D6QEJXTDG4Y5R3ZARVARY0C5XW7KV8F3T4": "0014751e76e8199196d454941c45d1b3a323f1433bd6",
            "tb1qrp33g0q5c5txsp9arysrx4k6zdkfs4nce4xj0gdcccefvpysxf3q0sl5k7": "00201863143c14c5166804bd19203356da136c985678cd4d27a1b8c6329604903262",
            "tb1qqqqqp399et2xygdj5xreqhjjvcmzhxw4aywxecjdzew6hylgvsesrxh6hy": "0020000000c4a5cad46221b2a187905e5266362b99d5e91c6ce24d165dab93e86433",
            "bc1pw508d6qejxtdg4y5r3zarvary0c5xw7kw508d6qejxtdg4y5r3zarvary0c5xw7kt5nd6y": "5128751e76e8199196d454941c45d1b3a323f1433bd6751e76e8199196d454941c45d1b3a323f1433bd6",
            "BC1SW50QGDZ25J": "6002751e",
            "bc1zw508d6qejxtdg4y5r3zarvaryvaxxpcs": "5210751e76e8199196d454941c45d1b3a323",
            "tb1pqqqqp399et2xygdj5xreqhjjvcmzhxw4aywxecjdzew6hylgvsesf3hn0c": "5120000000c4a5cad46221b2a187905e5266362b99d5e91c6ce24d165dab93e86433",
            "bc1p0xlxvlhemja6c4dqv22uapctqupfhlxm9h8z3k2e72q4k9hcz7vqzk5jj0": "512079be667ef9dcbbac55a06295ce870b07029bfcdb2dce28d959f2815b16f81798",
        }
        for address, program in wanted.items():
            network = {"bc": "main", "tb": "test"}[address[:2].lower()]
            self.assertEqual(bech32.addresses(bytes.fromhex(program))[network], address.lower())

    def test_regtest(self):
        found = bech32.addresses(bytes.fromhex("0014751e76e8199196d454941c45d1b3a323f1433bd6"))["regtest"]
        self.assertEqual(found, "bcrt1qw508d6qejxtdg4y5r3zarvary0c5xw7kygt080")


class Checksums(unittest.TestCase):
    def test_of_bip_380(self):
        self.assertEqual(checksum.checksum("raw(deadbeef)"), "89f8spxm")
        self.assertNotEqual(checksum.checksum("raw(deedbeef)"), "89f8spxm")
        self.assertEqual(checksum.checksum("raw(Ü)"), "")


if __name__ == "__main__":
    unittest.main()
