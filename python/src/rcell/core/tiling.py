# SPDX-License-Identifier: Apache-2.0 OR GPL-2.0-or-later
"""Decide whether a call uses one run or tiles, and how large the tiles are."""

from __future__ import annotations

import contextlib
import contextvars
import math
import os
from collections.abc import Callable, Iterable, Iterator, Mapping, Sequence
from concurrent.futures import ThreadPoolExecutor
from dataclasses import dataclass, replace
from typing import Any, Optional, TypeVar

from .arguments import whole_number_of
from .clusters import Cluster, client_of, current_client
from .edges import SIDE_LIMIT, fits_one_run
from .errors import OutOfMemory
from .memory import free_memory, processors
from .protocol import Margin, Statement
from .sources import Source, has_windows

__all__ = [
    "Demand",
    "DryRun",
    "Work",
    "cluster",
    "in_threads",
    "is_small",
    "takes_one_run",
    "threads",
    "tile_size",
    "work",
    "working",
]

Made = TypeVar("Made")

# Maps with fewer cells use one run, because starting more programs would cost more than it saves.
SMALL_CELLS = 10_000_000
# The sides of tiles. Smaller tiles cost time for halos and programs, larger tiles cost memory.
LEAST_SIDE, USUAL_SIDE, MOST_SIDE = 256, 1_024, 4_096
# The number of tiles per worker. With several tiles, no worker waits long for the last tile.
TILES_EACH = 8
# The share of free memory that tiles may use.
SHARE = 0.8
# The memory of a program and its buffers, in bytes.
PROGRAM_BYTES = 4 << 20
# The program's memory in bytes per cell, for a map without runs of equal cells and for clumping.
MAP_BYTES, CLUMP_BYTES = 4.15, 4.0
_TEST_SIZE = "RCELL_TEST_TILES"


@dataclass(frozen=True)
class Work:
    """The settings for processing a call.

    Attributes
    ----------
    workers : int or None
        The number of tiles to process at a time, or None for one tile per processor or for the
        current Dask client.
    client : distributed.Client or None
        The client whose workers process tiles.
    resume : str or None
        A folder that keeps the results of finished tiles.
    size : tuple of two ints or None
        The number of rows and columns in each tile, for tests. If set, all maps are cut into tiles.
    is_dry : bool
        Whether the call raises `DryRun` instead of beginning to read.
    engine : callable or None
        A function that runs scripts instead of the program. Its arguments are a script, maps, the
        names of requested maps, and a fold.
    meanwhile : callable or None
        A function that a thread calls while tiles are processed, for example to import a library.
    """

    workers: Optional[int] = None
    client: Any = None
    resume: Optional[str] = None
    size: Optional[tuple[int, int]] = None
    is_dry: bool = False
    engine: Optional[Callable[..., Any]] = None
    meanwhile: Optional[Callable[[], Any]] = None


_work: contextvars.ContextVar[Work] = contextvars.ContextVar("rcell.work", default=Work())


def work() -> Work:
    """Return the settings of the current call."""
    current = _work.get()
    size = os.environ.get(_TEST_SIZE)
    if size and current.size is None:
        rows, _, cols = size.partition("x")
        return replace(current, size=(int(rows), int(cols)))
    return current


@contextlib.contextmanager
def working(
    workers: Any = None,
    resume: Any = None,
    size: Optional[tuple[int, int]] = None,
    is_dry: bool = False,
    engine: Optional[Callable[..., Any]] = None,
    meanwhile: Optional[Callable[[], Any]] = None,
) -> Iterator[None]:
    """Change the given settings for the calls in a `with` block. See `Work` for the settings."""
    before = _work.get()
    count, client = before.workers, before.client
    if workers is not None:
        client = client_of(workers)
        count = whole_number_of("workers", workers, 1) if client is None else None
    folder = before.resume if resume is None else os.fspath(resume) or before.resume
    token = _work.set(
        Work(
            workers=count,
            client=client,
            resume=folder,
            size=size or before.size,
            is_dry=is_dry or before.is_dry,
            engine=engine or before.engine,
            meanwhile=meanwhile or before.meanwhile,
        )
    )
    try:
        yield
    finally:
        _work.reset(token)


def threads() -> int:
    """Return the number of threads that the current call may use."""
    return work().workers or processors()


def in_threads(do: Callable[..., Made], *items: Iterable[Any]) -> list[Made]:
    """Return `list(map(do, *items))`, computed in threads.

    Examples
    --------
    >>> in_threads(pow, [2, 3], [3, 2])
    [8, 9]
    """
    with ThreadPoolExecutor(threads()) as pool:
        return list(pool.map(do, *items))


def cluster() -> Optional[Cluster]:
    """Return the cluster of the current call, or None.

    The cluster belongs to the given client or, unless `workers` is a number, to the current client.
    """
    current = work()
    client = current.client
    if client is None and current.workers is None:
        client = current_client()
    return None if client is None else Cluster(client)


class DryRun(Exception):
    """Raised in place of a dry run's result, with the plan of the call as the argument."""


def describe(
    plan: Sequence[Statement], maps: Mapping[str, Source], demand: Demand, reads: int
) -> str:
    """Describe how a script would run: its tiles, their memory, and the maps it would read."""
    rows, cols = next(iter(maps.values())).region.shape
    lines = [f"{rows:,} rows and {cols:,} columns: {rows * cols:,} cells"]
    if is_small(maps) or takes_one_run(plan, maps, demand):
        lines.append(f"one run, at most {_megabytes(demand.of_tile(rows, cols))}")
    else:
        machines = cluster()
        (high, wide), workers = tile_size(maps, demand, machines)
        high, wide = min(high, rows), min(wide, cols)
        tiles = math.ceil(rows / high) * math.ceil(cols / wide)
        memory = _megabytes(demand.of_tile(high, wide))
        lines.append(f"{tiles:,} tiles of up to {high:,} x {wide:,} cells, at most {memory} each")
        free = free_memory() if machines is None else machines.memory
        where = "" if machines is None else f" on {machines}"
        lines.append(f"{workers} tiles at a time{where}; {_megabytes(free)} of memory are free")
    times = "once" if reads == 1 else f"{reads} times"
    for name, source in maps.items():
        size = _megabytes(rows * cols * source.dtype.itemsize)
        lines.append(f"{name}: {size} of {source.dtype}, read {times}")
    return "\n".join(lines) + "\n"


def _megabytes(count: int) -> str:
    return f"{-(-count // 1_000_000):,} MB"


@dataclass(frozen=True)
class Demand:
    """The memory per cell that a tile needs, and its halo.

    Attributes
    ----------
    bytes : float
        The number of bytes per cell.
    reach : Margin
        The halo.
    """

    bytes: float
    reach: Margin

    @classmethod
    def of(
        cls, maps: Mapping[str, Source], results: int, grids: int, clumps: int, reach: Margin
    ) -> Demand:
        """Return the demand of a script.

        `results`, `grids` and `clumps` are the numbers of maps that the script creates, of maps
        that it writes, and of its r.clump statements.
        """
        read = sum(_read_bytes(source) for source in maps.values())
        program = MAP_BYTES * (len(maps) + results) + CLUMP_BYTES * clumps
        written = 2 * 4 * grids  # in memory twice, as int32: in the response and in its result
        return cls(read + program + written, reach)

    def of_tile(self, rows: int, cols: int) -> int:
        """Return the memory, in bytes, that a tile and its program need."""
        up, down, left, right = self.reach
        cells = (rows + up + down) * (cols + left + right)
        return PROGRAM_BYTES + math.ceil(self.bytes * cells)


# The bytes per cell of the masks for checking cells.
_CHECKING_BYTES = 3


def _read_bytes(source: Source) -> int:
    """Return the bytes of memory per cell while a map is read.

    Cells of more than two bytes are checked and copied.
    """
    size = source.dtype.itemsize
    mask = 1 if source.is_masked else 0
    return (2 * size + _CHECKING_BYTES if size > 2 else size) + mask


def is_small(maps: Mapping[str, Source]) -> bool:
    """Return whether maps are small enough that one run is fastest."""
    rows, cols = shape = next(iter(maps.values())).region.shape
    return work().size is None and rows * cols <= SMALL_CELLS and fits_one_run(shape)


def takes_one_run(plan: Sequence[Statement], maps: Mapping[str, Source], demand: Demand) -> bool:
    """Return whether maps are processed in one run even if they are not small.

    A table with `-1` lists cells, which tiles cannot do. Text grids cannot be read in windows. With
    one processor, tiles are not faster.
    """
    if any("1" in statement.options for statement in plan):
        return True
    if not all(map(has_windows, maps.values())):
        return True
    shape = next(iter(maps.values())).region.shape
    current = work()
    if current.size is not None or current.resume is not None or not fits_one_run(shape):
        return False
    return threads() == 1 and cluster() is None and demand.of_tile(*shape) <= free_memory() * SHARE


def tile_size(
    maps: Mapping[str, Source], demand: Demand, cluster: Optional[Cluster] = None
) -> tuple[tuple[int, int], int]:
    """Return the rows and columns of tiles, and the number of tiles to process at a time.

    Tiles are squares. If the first map stores complete rows, tiles are bands of complete rows,
    because square tiles would have to read the rows completely. If a cluster is given, its machines
    process the tiles, instead of threads.

    Raises
    ------
    OutOfMemory
        Even the smallest tile needs more memory than is available.
    """
    current = work()
    first = next(iter(maps.values()))
    rows, cols = first.region.shape
    workers = threads() if cluster is None else cluster.threads
    if current.size is not None:
        return current.size, workers
    balanced = math.isqrt(rows * cols // (workers * TILES_EACH)) + 1
    side = min(max(balanced, USUAL_SIDE), MOST_SIDE)
    free = free_memory() if cluster is None else cluster.memory * workers
    while side > LEAST_SIDE and demand.of_tile(side, side) * workers > free * SHARE:
        side //= 2
    workers = min(workers, int(free * SHARE // demand.of_tile(side, side)))
    if workers < 1:
        raise _too_little(demand.of_tile(side, side), side, free)
    block_rows, block_cols = getattr(first, "block_shape", (LEAST_SIDE, LEAST_SIDE))
    _, _, left, right = demand.reach
    if block_cols >= cols > side and cols + left + right <= SIDE_LIMIT:
        band_rows = max(side * side // cols, 1)  # as many cells as in a square
        return (_multiple(band_rows, block_rows), cols), workers
    return (_even_side(rows, side, block_rows), _even_side(cols, side, block_cols)), workers


def _multiple(side: int, block: int) -> int:
    """Round a side down to a multiple of the block's side, unless the block is larger."""
    return side if block > side else side // block * block


def _even_side(length: int, most: int, block: int) -> int:
    """Return the side length that cuts a map into tiles of about equal size.

    A narrow last tile would cost the program as much per row as a wide tile. The side is at most
    `most` and, if the map's blocks are not larger, a multiple of their side `block`.

    Examples
    --------
    >>> _even_side(16000, 2829, 256), _even_side(8000, 1415, 256), _even_side(1000, 700, 2000)
    (2816, 1024, 500)
    """
    most = _multiple(most, block)
    count = math.ceil(length / most)
    if block > most:
        return math.ceil(length / count)
    side = math.ceil(length / (count * block)) * block
    if 0 < length % side < side // 2:  # the last tile is narrow
        count += 1
    return math.ceil(length / (count * block)) * block


def _too_little(needed: int, side: int, free: int) -> OutOfMemory:
    problem = f"a tile of {side} x {side} cells may need {needed:,} bytes; only {free:,} are free"
    return OutOfMemory(f"{problem}: close other programs, or use fewer maps", "arguments", status=3)
