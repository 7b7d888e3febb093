# SPDX-License-Identifier: MIT
"""The words of `msat-explain`, which is `python3 -m msat` too."""

import argparse
import json
import os
import re
import sys
from typing import NoReturn, Optional, Sequence, Union

import msat

from . import refusals, report, wallet
from .explanation import Explanation, explain
from .given import Unfit, read
from .refusals import Refusal

ABOUT = """\
Shows a Miniscript condition of a P2WSH output as a person looks at it: what is wrong with it and where, or its tree with types, its
Script beside the nodes that wrote it, its address, its limits, what it demands, each way to spend with what it weighs and what has
to be set in the transaction, and what opens as time passes. Types, Script, limits and weights come of msat's proved library."""
STATUSES = """\
exit status: 0 explained; 1 other words; 2 the text was refused; 3 a file was refused; 4 the asset file makes no satisfaction;
5 a file can't be read; 6 something can't be written; 7 memory was wanting; 8 the run of a run file's witness was refused, 9 its script
is another one; 10 the Script can't be read back"""
DONE, USAGE, TEXT, FILE, NO_SATISFACTION, READING, WRITING, NO_MEMORY, NO_READING = 0, 1, 2, 3, 4, 5, 6, 7, 10
Found = Union[Explanation, Refusal]
_KEY = re.compile(r"0[23][0-9a-fA-F]{64}")
_DIGITS = re.compile(r"([0-9a-fA-F]{2})+")


class Stop(Exception):
    """The end of the program before an answer: its status, and what is said of it."""

    def __init__(self, status: int, said: str):
        super().__init__(said)
        self.status = status


class _Parser(argparse.ArgumentParser):
    def error(self, message: str) -> NoReturn:
        raise Stop(USAGE, f"{message}\n{self.format_usage().rstrip()}")


def parser() -> argparse.ArgumentParser:
    found = _Parser(
        prog="msat-explain", description=ABOUT, epilog=STATUSES, allow_abbrev=False, add_help=False,
        formatter_class=argparse.RawDescriptionHelpFormatter,
    )
    of_text = "the condition: a miniscript, wsh(..), a descriptor with extended keys, or a Script in digits; - is standard input"
    found.add_argument("text", metavar="TEXT", nargs="?", help=of_text)
    found.add_argument("-f", "--file", metavar="FILE", help="a file that holds the condition")
    of_key = "the digits of a name in the condition; as HEX alone, a key of a Script"
    found.add_argument("--key", metavar="NAME=HEX", action="append", default=[], help=of_key)
    found.add_argument("--keys", metavar="FILE", help='a file of JSON with the digits of names: {"alice":"02.."}')
    of_assets = "an asset file: what it makes possible, and what is missing on each way; a run file: how the run of its witness goes too"
    found.add_argument("--assets", metavar="FILE", help=of_assets)
    of_branch = "of a descriptor with extended keys: the branch whose condition is shown, from 0; without it 0"
    found.add_argument("--branch", metavar="B", help=of_branch)
    found.add_argument("--index", metavar="I", help="of such a descriptor: the index; without it 0")
    found.add_argument("--html", metavar="PAGE", help="writes one page, without any outside resource, to this file")
    found.add_argument("--json", action="store_true", help="prints JSON (schema/explain.json) in place of text")
    found.add_argument("--consensus", action="store_true", help="by the limits of consensus, not by those of policy")
    of_color = "whether the text is coloured; auto: on a terminal"
    found.add_argument("--color", choices=("auto", "always", "never"), default="auto", help=of_color)
    found.add_argument("-h", "--help", action="store_true", help="prints this")
    found.add_argument("--version", action="store_true", help="prints the version")
    return found


def _read_file(name: str) -> bytes:
    if name == "-" and sys.stdin is None:
        raise Stop(READING, "standard input can't be read: it is closed")
    try:
        if name == "-":
            return sys.stdin.buffer.read()
        with open(name, "rb") as file:
            return file.read()
    except OSError as error:
        raise Stop(READING, f"{name} can't be read: {error.strerror}") from error


def _text(options: argparse.Namespace) -> str:
    if (options.text is None) == (options.file is None):
        raise Stop(USAGE, "a TEXT, or -f FILE, or - for standard input: one of them\n" + parser().format_usage().rstrip())
    if options.text is not None and options.text != "-":
        return str(options.text)
    return _read_file(options.file or "-").decode(errors="surrogateescape")


def _digits(name: str, value: object, status: int) -> str:
    if not isinstance(value, str) or not _DIGITS.fullmatch(value):
        raise Stop(status, f"what is given for {name} isn't an even number of hexadecimal digits")
    return value


def _keys(options: argparse.Namespace) -> tuple[dict[str, str], tuple[str, ...]]:
    """The digits of names, and keys without names."""
    digits, keys = {}, []
    if options.keys is not None:
        try:
            said = json.loads(_read_file(options.keys))
        except (ValueError, RecursionError) as error:
            raise Stop(FILE, f"{options.keys} is no JSON") from error
        if not isinstance(said, dict):
            raise Stop(FILE, f"{options.keys} is no object of JSON with names and digits")
        digits = {name: _digits(name, value, FILE) for name, value in said.items()}
    for word in options.key:
        name, mark, value = word.rpartition("=")
        value = _digits(name or "a key", value, USAGE)
        if mark:
            digits[name] = value
        elif _KEY.fullmatch(value):
            keys.append(value)
        else:
            raise Stop(USAGE, f"--key {word} is neither NAME=HEX nor a compressed key")
    return digits, tuple(keys)


def answer(
    raw: str, digits: dict[str, str], keys: tuple[str, ...] = (), *, consensus: bool = False, assets: Optional[bytes] = None,
    branch: str = "0", index: str = "0",
) -> Found:  # fmt: skip
    """The explanation of what was given, or its refusal."""
    given = None
    try:
        if wallet.is_descriptor(raw, digits):
            return wallet.explained(raw, digits, branch=branch, index=index, consensus=consensus, assets=assets)
        given = read(raw, digits, keys)
        return explain(given, consensus=consensus, assets=assets)
    except Unfit as unfit:
        return refusals.of_input(unfit, wallet.shown(raw))
    except msat.TextRefused as refused:
        assert given is not None
        return refusals.of_text(refused, given)
    except msat.Unreadable as error:
        return refusals.of_error(error, TEXT, "The text isn't UTF-8, or has a NUL.", wallet.shown(raw))
    except msat.FileRefused as error:
        return refusals.of_error(error, FILE, "The asset file is refused.", "")
    except msat.NoReading as error:
        return refusals.of_error(error, NO_READING, "The Script isn't read back as a condition.", raw)


_NUMBER = re.compile(r"0|[1-9][0-9]{0,9}")


def _place(options: argparse.Namespace, is_descriptor: bool) -> tuple[str, str]:
    """The branch and the index that are asked for."""
    for name, value, most in (("--branch", options.branch, 15), ("--index", options.index, 2**31 - 1)):
        if value is not None and not is_descriptor:
            raise Stop(USAGE, f"{name} is of descriptors with extended keys alone")
        if value is not None and (not _NUMBER.fullmatch(value) or int(value) > most):
            raise Stop(USAGE, f"{name} {value} is no number up to {most:,} without a leading zero")
    return options.branch or "0", options.index or "0"


def _status(found: Found) -> int:
    if isinstance(found, Refusal):
        return found.status
    if found.held and found.held.run:
        return found.held.run.status
    return NO_SATISFACTION if found.held and not found.held.spend else DONE


def _printed(found: Found, options: argparse.Namespace) -> str:
    if options.json:
        from .document import document

        return json.dumps(document(found), indent=2) + "\n"
    is_terminal = sys.stdout is not None and sys.stdout.isatty()
    color = options.color == "always" or options.color == "auto" and is_terminal and "NO_COLOR" not in os.environ
    return report.refused(found, color) if isinstance(found, Refusal) else report.explained(found, color)


def _write_page(found: Found, name: str) -> None:
    from .page import page

    try:
        with open(name, "wb") as file:
            file.write(page(found).encode(errors="replace"))
    except OSError as error:
        raise Stop(WRITING, f"{name} can't be written: {error.strerror}") from error


def _write(said: str) -> bool:
    """Writes to standard output. False where that can't be done."""
    if sys.stdout is None:
        return False
    try:
        sys.stdout.buffer.write(said.encode(errors="replace"))
        sys.stdout.buffer.flush()
    except OSError:
        os.dup2(os.open(os.devnull, os.O_WRONLY), sys.stdout.fileno())
        return False
    return True


def _run(words: Optional[Sequence[str]]) -> int:
    options = parser().parse_args(words)
    if options.version or options.help:
        return DONE if _write(f"msat-explain {msat.__version__}\n" if options.version else parser().format_help()) else WRITING
    digits, keys = _keys(options)
    assets = None if options.assets is None else _read_file(options.assets)
    text = _text(options)
    branch, index = _place(options, wallet.is_descriptor(text, digits))
    found = answer(text, digits, keys, consensus=options.consensus, assets=assets, branch=branch, index=index)
    if options.html is not None:
        _write_page(found, options.html)
    return _status(found) if _write(_printed(found, options)) else WRITING


def main(words: Optional[Sequence[str]] = None) -> int:
    """Answers the words, those of the command line where none are given, and returns the exit status."""
    try:
        return _run(words)
    except Stop as stop:
        print(f"msat-explain: {stop}", file=sys.stderr)
        return stop.status
    except MemoryError:
        print("msat-explain: memory was wanting", file=sys.stderr)
        return NO_MEMORY
