# SPDX-License-Identifier: MIT
"""Parts on threads, on processes or on Dask: always in their order, so that what comes of them is the same to the byte."""

import multiprocessing
import sys
from collections import deque
from concurrent.futures import Executor, Future, ProcessPoolExecutor, ThreadPoolExecutor
from contextlib import contextmanager
from functools import partial
from pathlib import Path
from typing import Any, Callable, Iterable, Iterator

from findings import ask_the_library
from parts import Part, Scanned, scanned

WAITING = 4  # parts that are handed out to each worker ahead of what is taken back


def scan_part(part: Part, rows: bool) -> Scanned:
    """What a part comes to, by the library in this thread."""
    return scanned(part, rows, ask_the_library)


def each(parts: Iterable[Part], rows: bool, on: str, workers: int) -> Iterator[Scanned]:
    """What each part comes to, in their order: `on` is `threads`, `processes`, `dask`, or the address of Dask's scheduler."""
    work = partial(scan_part, rows=rows)
    with _submitting(on, workers) as submit:
        yield from _in_order(partial(submit, work), parts, WAITING * workers)


@contextmanager
def _submitting(on: str, workers: int) -> Iterator[Callable[..., Any]]:
    """How a part is handed to a worker, which gives what has its result one day."""
    if on in ("threads", "processes"):
        with _pool(on, workers) as pool:
            yield pool.submit
        return
    try:
        from dask.distributed import Client
    except ImportError as error:
        raise SystemExit(f"scan: there is no Dask (Debian: python3-dask, python3-distributed): {error}") from error
    where: dict[str, Any] = {"address": on}
    if on == "dask":
        where = {"n_workers": workers, "threads_per_worker": 1, "dashboard_address": None, "silence_logs": 50}
    client: Any
    with Client(**where) as client:  # type: ignore[no-untyped-call]
        client.run(_know, str(Path(__file__).resolve().parent))
        yield partial(client.submit, pure=False)


def _pool(on: str, workers: int) -> Executor:
    if on == "threads":
        return ThreadPoolExecutor(workers)
    return ProcessPoolExecutor(workers, multiprocessing.get_context("spawn"))


def _know(folder: str) -> None:
    """Lets a worker of Dask find these modules, where its machine has them in the same folder."""
    if folder not in sys.path:
        sys.path.insert(0, folder)


def _in_order(hand_out: Callable[[Part], Any], parts: Iterable[Part], most: int) -> Iterator[Scanned]:
    """The results of parts in their order, of which at most so many are out at once."""
    waiting: deque[Future[Scanned]] = deque()
    for part in parts:
        waiting.append(hand_out(part))
        if len(waiting) >= most:
            yield waiting.popleft().result()
    while waiting:
        yield waiting.popleft().result()
