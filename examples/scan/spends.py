# SPDX-License-Identifier: MIT
"""The P2WSH spends of blocks, as Bitcoin Core's `getblock HASH 3` prints them, and of tables of witnesses."""

import csv
import hashlib
import json
from dataclasses import dataclass
from decimal import Decimal
from typing import Any, Iterator, Optional


class Unreadable(Exception):
    """A source that isn't as it has to be: where, and why."""


@dataclass(frozen=True)
class Spend:
    """A spend of a P2WSH output: its name, what is known of its block and its value in satoshis, whether its program is nested in P2SH,
    the Script, the stack below it, bottom first, and the numbers of its transaction that locks are held against.

    In a table of Scripts alone no stack is known.
    """

    name: str
    script: bytes
    stack: Optional[tuple[bytes, ...]]
    height: Optional[int] = None
    value: Optional[int] = None
    nested: Optional[bool] = None
    version: int = 2
    sequence: int = 0xFFFFFFFE
    locktime: int = 0


def of_document(text: str) -> Iterator[Spend]:
    """The spends of a JSON document: of a block, or the one that a row of a table tells.

    >>> [it.script.hex() for it in of_document('{"name": "a", "witness": ["", "51"]}')]
    ['51']
    """
    try:
        found = json.loads(text, parse_float=Decimal)
    except ValueError as error:
        raise Unreadable(f"no JSON: {error}") from error
    if not isinstance(found, dict):
        raise Unreadable("no object of JSON")
    try:
        return iter(list(_of_block(found))) if "tx" in found else iter([_of_row(found)])
    except (KeyError, TypeError, ValueError, AttributeError, ArithmeticError) as error:
        raise Unreadable(f"not as Bitcoin Core prints a block, nor a row of a table: {error!r}") from error


def of_table(header: str, lines: str) -> Iterator[Spend]:
    """The spends of some lines of a table in CSV with these names of columns.

    >>> [it.stack for it in of_table("witness", "02010151")]
    [(b'\\x01',)]
    >>> [it.stack for it in of_table("script,stack", "51,01 -")]
    [(b'\\x01', b'')]
    """
    names = next(csv.reader([header]))
    for row in csv.reader(lines.splitlines()):
        if len(row) != len(names):
            raise Unreadable(f"a row of {len(row)} columns, and {len(names)} have names: {','.join(row)[:60]}")
        try:
            yield _of_row({name: text for name, text in zip(names, row) if text or name in ("stack", "witness")})
        except (KeyError, ValueError) as error:
            raise Unreadable(f"a row that can't be read: {error}: {','.join(row)[:60]}") from error


def _of_block(block: dict[str, Any]) -> Iterator[Spend]:
    for transaction in block["tx"]:
        for place, given in enumerate(transaction["vin"]):
            if "coinbase" in given or not given.get("txinwitness"):
                continue
            if "prevout" not in given:
                raise Unreadable("an input without its `prevout`: blocks are wanted as `getblock HASH 3` prints them")
            items = tuple(map(bytes.fromhex, given["txinwitness"]))
            nested = _nested(given["prevout"]["scriptPubKey"]["hex"], given.get("scriptSig", {}).get("hex", ""), items[-1])
            if nested is None:
                continue
            yield Spend(
                name=f"{transaction['txid']}:{place}",
                script=items[-1],
                stack=items[:-1],
                height=block["height"],
                value=int(given["prevout"]["value"] * 100_000_000),
                nested=nested,
                version=transaction["version"] & 0xFFFFFFFF,
                sequence=given["sequence"],
                locktime=transaction["locktime"],
            )


def _nested(spent: str, script_sig: str, script: bytes) -> Optional[bool]:
    """Whether the spent program is that of this Script in P2SH, or itself the output's; None where it isn't this Script's."""
    program = "0020" + hashlib.sha256(script).hexdigest()
    if spent == program:
        return False
    return True if script_sig == "22" + program else None


def _of_row(row: dict[str, Any]) -> Spend:
    stack: Optional[tuple[bytes, ...]]
    if "witness" in row:
        found = row["witness"]
        items = tuple(map(bytes.fromhex, found)) if isinstance(found, list) else tuple(_items(bytes.fromhex(found)))
        if not items:
            raise ValueError("a witness of no items")
        script, stack = items[-1], items[:-1]
    else:
        script = bytes.fromhex(row["script"])
        stack = tuple(b"" if it == "-" else bytes.fromhex(it) for it in row["stack"].split()) if "stack" in row else None
    numbers = {name: int(row[name]) for name in ("height", "value", "version", "sequence", "locktime") if name in row}
    nested = str(row["nested"]).lower() in ("true", "yes", "1") if "nested" in row else None
    return Spend(name=str(row.get("name", "-")), script=script, stack=stack, nested=nested, **numbers)


def _items(witness: bytes) -> Iterator[bytes]:
    """The items of a witness as BIP 144 writes it: their number, and each with its length."""
    count, at = _number(witness, 0)
    for _ in range(count):
        length, at = _number(witness, at)
        if at + length > len(witness):
            raise ValueError("a witness that ends inside an item")
        yield witness[at : at + length]
        at += length
    if at != len(witness):
        raise ValueError("a witness with bytes behind its last item")


def _number(witness: bytes, at: int) -> tuple[int, int]:
    """A CompactSize, and where it ends."""
    wide = {0xFD: 2, 0xFE: 4, 0xFF: 8}.get(witness[at] if at < len(witness) else 0, 0)
    if at + 1 + wide > len(witness):
        raise ValueError("a witness that ends inside a number")
    number = witness[at : at + 1] if wide == 0 else witness[at + 1 : at + 1 + wide]
    return int.from_bytes(number, "little"), at + 1 + wide
