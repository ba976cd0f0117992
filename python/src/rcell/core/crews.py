# SPDX-License-Identifier: Apache-2.0 OR GPL-2.0-or-later
"""Process tiles in threads that run their own programs, or on the workers of a cluster."""

from __future__ import annotations

import contextvars
import dataclasses
import math
import threading
import time
from collections.abc import Callable, Iterator, Sequence
from concurrent.futures import FIRST_COMPLETED, Future, ThreadPoolExecutor, wait
from types import TracebackType
from typing import Any, Optional, TypeVar

from .clusters import PATIENCE_SECONDS, Cluster, result_of
from .host import host, serving, warn
from .process import WATCH_SECONDS
from .rectangles import Rectangle
from .showing import Bar
from .tile_work import TileDone, TileWork, run_work
from .tiling import work as settings

__all__ = ["Crew"]

# The number of tiles submitted per worker. It limits the finished results in memory.
AHEAD = 2

Result = TypeVar("Result")


def _ready(done: TileDone) -> Future[TileDone]:
    """Return a finished future for a tile whose results an earlier run has saved."""
    future: Future[TileDone] = Future()
    future.set_result(done)
    return future


class _Stopped(Exception):
    """Raised in the threads of a call that has ended, to stop the threads' programs."""


class Crew:
    """The threads that process the tiles of a call.

    An instance is a context manager, which stops the programs of all threads on exit.

    Parameters
    ----------
    workers : int
        The number of tiles to process at a time.
    steps : int
        The number of progress steps. Each processed tile is one step.
    is_shown : bool
        Whether to report the progress to the host.
    cluster : Cluster, optional
        The cluster whose workers process the tiles instead of threads.
    """

    def __init__(
        self,
        workers: int,
        steps: int,
        is_shown: bool = True,
        cluster: Optional[Cluster] = None,
    ) -> None:
        self._caller = host()
        self._workers = workers
        self._cluster = cluster
        self._steps = steps
        self._done = 0
        self._stop = threading.Event()
        self._warnings: dict[str, None] = {}  # an ordered set
        self._pool = ThreadPoolExecutor(workers, thread_name_prefix="rcell")
        self._is_shown = is_shown
        self._bar = Bar(steps, self._caller)
        if (meanwhile := settings().meanwhile) is not None:
            # As a daemon, the thread does not delay the end of an interrupted call.
            threading.Thread(target=meanwhile, daemon=True).start()

    def __enter__(self) -> Crew:
        return self

    def __exit__(
        self, kind: Optional[type[BaseException]], _: Any, __: Optional[TracebackType]
    ) -> None:
        self._stop.set()
        if self._cluster is not None:
            self._cluster.cancel()
        self._pool.shutdown(wait=True, cancel_futures=True)
        self._bar.close()
        if kind is None:
            for text in self._warnings:
                warn(text)

    def each(
        self, do: Callable[[Rectangle], Result], places: Sequence[Rectangle]
    ) -> Iterator[tuple[int, Result]]:
        """Call a function for each place, and yield (index, result) pairs as the calls finish."""
        yield from self._in_turn(lambda place: self._pool.submit(self._run, do, place), places)

    def run(
        self,
        prepare: Callable[[Rectangle], TileWork],
        finish: Callable[[TileWork, TileDone], Result],
        places: Sequence[Rectangle],
    ) -> Iterator[tuple[int, Result]]:
        """Process the tile at each place, and yield (index, result) pairs as the tiles finish.

        A result is the value that `finish` returns for the processed tile.
        """

        def do(place: Rectangle) -> Result:
            work = prepare(place)
            return finish(work, self._without_warnings(run_work(work)))

        if self._cluster is None:
            yield from self.each(do, places)
            return
        cluster = self._cluster
        submitted: dict[Rectangle, TileWork] = {}

        def submit(place: Rectangle) -> Future[TileDone]:
            submitted[place] = work = prepare(place)
            return _ready(work.known) if work.known is not None else cluster.submit(work)

        for index, done in self._in_turn(submit, places):
            work = submitted.pop(places[index])
            yield index, finish(work, self._without_warnings(done))

    def _without_warnings(self, done: TileDone) -> TileDone:
        """Keep a tile's warnings until the end of the call, and return the tile."""
        self._warnings.update(dict.fromkeys(done.warnings))
        return done

    def _in_turn(
        self, submit: Callable[[Rectangle], Future[Result]], places: Sequence[Rectangle]
    ) -> Iterator[tuple[int, Result]]:
        """Submit places, staying a few ahead of the workers, and yield results as tiles finish.

        The largest tiles are first, so that no worker waits long for the last tile.
        """
        running: dict[Future[Any], int] = {}  # the index of each future's place
        waiting = iter(sorted(range(len(places)), key=lambda index: -places[index].cells))
        while True:
            # A cluster can gain and lose workers meanwhile.
            workers = self._workers if self._cluster is None else self._cluster.threads
            while len(running) < AHEAD * workers and (index := next(waiting, None)) is not None:
                running[submit(places[index])] = index
            if not running:
                return
            for future in self._ended(running):
                yield running.pop(future), result_of(future)
                self._step()

    def _run(self, do: Callable[[Rectangle], Any], place: Rectangle) -> Any:
        """Process a place in a thread, keeping its warnings until the end of the call."""
        caller = dataclasses.replace(
            self._caller,
            warn=lambda text: self._warnings.setdefault(text, None),
            watch=self._check,
            progress=None,
            started=None,
        )

        def run() -> Any:
            with serving(caller):
                self._check()
                return do(place)

        # In an empty context, the caller's settings, for example of `working`, do not apply.
        return contextvars.Context().run(run)

    def _check(self) -> None:
        if self._stop.is_set():
            raise _Stopped

    def _ended(self, running: dict[Future[Any], int]) -> set[Future[Any]]:
        """Wait until some tiles finish, checking for interrupts, and return their futures."""
        patience = time.monotonic() + PATIENCE_SECONDS
        while True:
            if self._caller.watch is not None:
                self._caller.watch()
            ended = wait(list(running), WATCH_SECONDS, FIRST_COMPLETED).done
            if ended:
                return ended
            if self._cluster is not None and time.monotonic() > patience:
                self._cluster.warn_if_empty()
                patience = math.inf  # warn only once

    def _step(self) -> None:
        self._done += 1
        self._bar.step()
        if self._is_shown and self._caller.progress is not None:
            self._caller.progress(self._done / self._steps)
