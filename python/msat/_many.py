# SPDX-License-Identifier: MIT
"""Many questions at once, as lines of which the library answers thousands in one call."""

import json
import os
from collections import deque
from concurrent.futures import Future, ThreadPoolExecutor
from itertools import islice
from typing import Iterable, Iterator, Optional, Sequence

from . import _library
from .results import File, file_bytes

Question = tuple[Sequence[str], File]

LONGEST = 1 << 20  # the bytes of a line
PART = 2000  # questions in one call
ROOM = 1 << 22  # the bytes that a report is given room for at first

_quoted = json.JSONEncoder().encode


def ask_all(questions: Iterable[Question], threads: Optional[int] = None) -> list[tuple[int, str]]:
    """The exit status and the report for each question, which are words and what standard input holds, in their order: as of `answer`.

    Up to 2,000 questions are one call of the library, which doesn't hold Python's lock meanwhile; so many calls are made at once
    as there are threads, or processors where it isn't told.

    A question of the one word `lines`, with a word or a source that isn't UTF-8, with a NUL in a word, or with a line of over a
    mebibyte is asked by itself.

    >>> ask_all([(["script", "1"], b""), (["no", "command"], b"")])
    [(0, '51\\n'), (1, 'refused usage\\n')]
    """
    if threads is not None and threads < 1:
        raise ValueError("ask_all wants a thread at least")
    parts = _parts(iter(questions))
    if threads == 1:
        return [it for part in parts for it in _answers(part)]
    count = threads or os.cpu_count() or 1
    with ThreadPoolExecutor(count) as pool:
        waiting: deque[Future[list[tuple[int, str]]]] = deque()
        found: list[tuple[int, str]] = []
        for part in parts:
            waiting.append(pool.submit(_answers, part))
            if len(waiting) > 2 * count:
                found.extend(waiting.popleft().result())
        while waiting:
            found.extend(waiting.popleft().result())
    return found


def _parts(questions: Iterator[Question]) -> Iterator[list[Question]]:
    while part := list(islice(questions, PART)):
        yield part


def _answers(part: Sequence[Question]) -> list[tuple[int, str]]:
    """The answers to some questions: those that stand in lines by one call, and each other one by its own."""
    lines = [_line(words, source) for words, source in part]
    code, report = _library.answer([b"lines"], b"".join(it for it in lines if it is not None), ROOM)
    if code != _library.DONE:
        return [_alone(words, source) for words, source in part]
    told = iter(report.decode().split("\n"))
    return [_alone(words, source) if line is None else _read(next(told)) for line, (words, source) in zip(lines, part)]


def _line(words: Sequence[str], source: File) -> Optional[bytes]:
    """A question as a line; None where it is to be asked by itself.

    >>> _line(["script", "1"], b""), _line(["\\udcff"], b""), _line(["script", "1\\0"], b""), _line(["run"], b"\\xff")
    (b'{"words":["script","1"],"source":""}\\n', None, None, None)
    """
    if list(words) == ["lines"]:
        return None
    try:
        told = file_bytes(source).decode()
        "".join(words).encode()  # fails at a lone surrogate, which stands for a byte that isn't UTF-8
    except (UnicodeDecodeError, UnicodeEncodeError):
        return None
    if any("\0" in word for word in words):
        return None
    line = f'{{"words":[{",".join(map(_quoted, words))}],"source":{_quoted(told)}}}\n'.encode()
    return line if len(line) <= LONGEST + 1 else None


def _read(answer: str) -> tuple[int, str]:
    """The status and the report of an answer without an id, in which nothing but the ends of lines is escaped.

    >>> _read('{"status":2,"report":"refused text Syntax at 3\\\\n"}')
    (2, 'refused text Syntax at 3\\n')
    """
    status, _, report = answer.removeprefix('{"status":').partition(',"report":"')
    return int(status), report.removesuffix('"}').replace("\\n", "\n")


def _alone(words: Sequence[str], source: File) -> tuple[int, str]:
    from . import answer

    return answer(words, source)
