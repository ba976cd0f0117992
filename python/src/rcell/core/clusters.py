# SPDX-License-Identifier: Apache-2.0 OR GPL-2.0-or-later
"""Process tiles on the workers of a Dask cluster, using the given or the current client."""

from __future__ import annotations

import sys
import warnings
from collections.abc import Mapping
from concurrent.futures import CancelledError, Future
from dataclasses import replace
from typing import Any, Optional, TypeVar

from ..readers.handles import begin_call
from .errors import (
    BadArgument,
    MissingProgram,
    RcellError,
    ReadFailed,
    WriteFailed,
    WrongProgram,
)
from .host import warn
from .pieces import State, check_files_are, chunks_of, filled, is_file, sendable, states_of
from .tile_work import TileDone, TileWork, run_work

__all__ = ["Cluster", "client_of", "current_client", "result_of", "run_on_worker", "sent_parts"]

Result = TypeVar("Result")

# The assumed memory per thread if a worker has no limit, or if there is no worker yet.
_UNKNOWN = 2 << 30
_LARGE = "(?s).*[Ll]arge (object|graph)"
_ITS_SCHEDULERS = ("dask.distributed", "distributed")
# How long to wait for the first worker before warning.
PATIENCE_SECONDS = 30.0


def client_of(workers: Any) -> Any:
    """Return the argument `workers` if it is a Dask client, or None otherwise."""
    # Dask may not be installed, so a client is recognised by its methods.
    if not (hasattr(workers, "scheduler_info") and hasattr(workers, "get_executor")):
        return None
    if getattr(workers, "asynchronous", False):
        raise BadArgument("workers", f"must be a synchronous Client; got {workers!r}")
    return workers


def current_client() -> Any:
    """Return the client that Dask would currently use, or None if there is no client.

    Also returns None inside a task on a worker, so that the task does not wait for other workers.
    """
    distributed, dask = sys.modules.get("distributed"), sys.modules.get("dask")
    if distributed is None or dask is None or _is_in_task():
        return None
    if dask.config.get("scheduler", None) not in (None, *_ITS_SCHEDULERS):
        return None
    try:
        client = distributed.default_client()
    except ValueError:
        return None
    return None if client.asynchronous else client


def _is_in_task() -> bool:
    """Return whether this thread is running a task on a cluster's worker."""
    worker = sys.modules.get("distributed.worker")
    return hasattr(getattr(worker, "thread_state", None), "execution_state")


class Cluster:
    """The workers that a Dask client can use.

    Parameters
    ----------
    client : distributed.Client
    """

    def __init__(self, client: Any) -> None:
        self._client = client
        self._executor = client.get_executor(pure=False)

    def __str__(self) -> str:
        return f"{len(self._workers)} workers of {self._client.scheduler.address}"

    @property
    def _workers(self) -> list[Mapping[str, Any]]:
        return list(self._client.scheduler_info()["workers"].values())

    @property
    def threads(self) -> int:
        """The number of tiles that the workers can process at the same time, at least 1."""
        return max(sum(int(worker["nthreads"]) for worker in self._workers), 1)

    @property
    def memory(self) -> int:
        """The smallest memory per thread among the workers, in bytes."""
        limits = []
        for worker in self._workers:
            threads, limit = worker["nthreads"], worker["memory_limit"]  # 0 or None: no limit
            limits.append(limit // threads if limit else _UNKNOWN)
        return min(limits, default=_UNKNOWN)

    def submit(self, work: TileWork) -> Future[TileDone]:
        """Submit a tile to the cluster and return the tile's future.

        If a worker is lost, another worker processes the tile.
        """
        work, states, version, arrays = sent_parts(work)
        # The cluster computes these arrays and passes their cells to `run_on_worker`.
        cells = {name: self._client.compute(array) for name, array in arrays.items()}
        with warnings.catch_warnings():
            # Dask warns about large arguments, but a tile's cells are sent only once.
            warnings.filterwarnings("ignore", _LARGE)
            future: Future[TileDone] = self._executor.submit(
                run_on_worker, work, states, version, cells
            )
        return future

    def warn_if_empty(self) -> None:
        """Warn if the cluster does not have any workers yet."""
        if not self._workers:
            warn(f"the cluster at {self._client.scheduler.address} has no workers: waiting for one")

    def cancel(self) -> None:
        """Cancel the tiles that no worker has begun."""
        self._executor.shutdown(wait=False)


def result_of(future: Future[Result]) -> Result:
    """Return a tile's result, or raise the cluster's error as an error of this package."""
    try:
        return future.result()
    except CancelledError:
        problem = (
            "the cluster cancelled the work: its client was closed, or the cluster was restarted"
        )
        raise RcellError(problem) from None
    except ModuleNotFoundError as error:
        problem = f"a worker of the cluster cannot import the package rcell: {error}"
        raise MissingProgram(f"{problem}: install the package on every worker") from None
    except Exception as error:
        if type(error).__name__ != "KilledWorker":
            raise
        problem = "workers of the cluster died one after another while processing the same tile"
        raise RcellError(f"{problem}, probably because memory ran out: {error}") from None


def sent_parts(work: TileWork) -> tuple[TileWork, dict[str, State], str, dict[str, Any]]:
    """Return the four arguments that `run_on_worker` needs to process a tile.

    The last argument contains Dask arrays that must be computed first.
    """
    maps, arrays = {}, {}
    for name, source in work.maps.items():
        maps[name] = sendable(source, work.outer)
        array = chunks_of(maps[name])
        if array is not None:
            arrays[name] = array
            maps[name] = filled(maps[name], None)  # the worker fills in the computed cells
    files: list[str] = []
    for source in maps.values():
        if is_file(source):
            files += source.files
    return replace(work, maps=maps), states_of(files), _version(), arrays


def run_on_worker(
    work: TileWork,
    states: Mapping[str, State],
    version: str,
    cells: Optional[Mapping[str, Any]] = None,
) -> TileDone:
    """Process a tile in a worker process and return the tile's results.

    Parameters
    ----------
    work : TileWork
    states : mapping of str to states
        The files to read, and the state of each file on the calling machine.
    version : str
        The version of this package on the calling machine.
    cells : mapping of str to array
        The computed cells of each map that is a Dask array.

    Raises
    ------
    WrongProgram
        The worker has a different version of this package.
    ReadFailed
        A file on the worker's machine differs from the file on the calling machine.
    """
    if version != _version():
        own = f"rcell {_version()} is installed{_where()}"
        problem = f"{own}, but the calling machine has rcell {version}"
        raise WrongProgram(f"{problem}: install the same version")
    maps = dict(work.maps)
    for name, computed in (cells or {}).items():
        maps[name] = filled(maps[name], computed)
    begin_call(work.call)
    try:
        check_files_are(states)
        return run_work(replace(work, maps=maps))
    except ReadFailed as error:
        raise ReadFailed(error.source, f"{error.text}{_where()}") from None
    except (MissingProgram, WrongProgram, WriteFailed) as error:
        raise type(error)(f"{error}{_where()}") from None


def _version() -> str:
    """Return the version of this package.

    The import is local because some copies of the core have no version.
    """
    from .._version import __version__

    return __version__


def _where() -> str:
    """Return the words that name this worker in messages, or an empty string outside a worker."""
    if not _is_in_task():
        return ""
    return f" on the worker {sys.modules['distributed'].get_worker().address}"
