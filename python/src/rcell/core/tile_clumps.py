# SPDX-License-Identifier: Apache-2.0 OR GPL-2.0-or-later
"""Join the clumps of tiles: find their numbers in the full map, and combine their measures.

The proved program rcell-pipe joins the clumps, using only the borders of the tiles. This module
reads its responses into numpy arrays, without a Python object per clump.
"""

from __future__ import annotations

from collections.abc import Iterator, Sequence
from contextlib import contextmanager
from dataclasses import dataclass
from typing import Any

import numpy as np

from . import protocol
from .arrays import NDArray
from .errors import OutOfMemory, WrongProgram
from .host import host
from .programs import find_pipe, program_errors
from .protocol import NO_MEMORY, NULL
from .responses import BORDER_HEAD_BYTES, PATCH_BYTES, ZONE_BYTES

__all__ = [
    "PATCH",
    "ZONED_PATCH",
    "Joined",
    "join",
    "join_patches",
    "open_clumps",
    "renumber",
    "sum_patch_tables",
    "wide",
]

Integers = NDArray[Any]

PATCH = np.dtype(
    [("class", "<i4")]
    + [
        (name, "<i8")
        for name in ("cells", "ends", "flanks", "core", "top", "bottom", "left", "right")
    ]
)
"""The program's measures of a patch.

`ends` counts the northern and southern cell sides on its border, and `flanks` the western and
eastern cell sides.
"""
ZONED_PATCH = np.dtype([*PATCH.descr, ("zones", "<i4")])
"""The measures of a patch, and the zone that contains most of its cells."""
assert (PATCH.itemsize, ZONED_PATCH.itemsize) == (PATCH_BYTES, PATCH_BYTES + ZONE_BYTES)
# A patch of a tile in a join request, and a patch of the full map in the response.
_TILE_PATCH = np.dtype([("tile", "<u8"), ("patch", "<u8"), ("measures", PATCH)])
_JOINED_PATCH = np.dtype([("number", "<i8"), ("measures", PATCH)])

PIECE = 2**18
"""The number of cells that are renumbered at a time, which fit in a processor's cache."""


@dataclass(frozen=True, eq=False)
class Joined:
    """The numbers of the clumps of tiles in the full map.

    Attributes
    ----------
    clumps : int
        The number of clumps in the full map.
    runs : ndarray of int64, shape (n, 4)
        Runs of clumps with consecutive numbers, as in `responses.JoinFrame`.
    starts : ndarray of integers, shape (tiles + 1,)
        The index of each tile's first run, followed by the number of runs.
    """

    clumps: int
    runs: Integers
    starts: Integers

    def numbers_of(self, tile: int) -> Integers:
        """Return the full map's number of each clump of a tile, indexed by its number in the tile.

        `tile` is counted from 0. Clumps are numbered from 1, so the element at index 0 is `NULL`.
        """
        _, first, last, number = self.runs[self.starts[tile] : self.starts[tile + 1]].T
        offsets = np.repeat(number - first, last - first + 1)
        return np.concatenate([[NULL], offsets + np.arange(1, offsets.size + 1)])


def open_clumps(border: Integers) -> Integers:
    """Return the clumps in the border of a tile, which may continue outside the tile.

    By the law `closed_patches_are_full_map_patches`, the other clumps are clumps of the full map.

    Examples
    --------
    >>> head = np.zeros(BORDER_HEAD_BYTES, np.uint8)
    >>> sides = np.array([1, 2] + [8, NULL, 1, NULL] * 2 + [8, 1, NULL, NULL, 1], np.int32)
    >>> open_clumps(np.concatenate([head, sides.view(np.uint8)])).tolist()
    [1]
    """
    sides = border[BORDER_HEAD_BYTES:].view(np.int32)
    rows, cols = sides[:2]
    lines = np.split(sides[2:-rows], np.cumsum([cols] * 4 + [rows] * 3))
    clumps: Integers = np.setdiff1d(np.concatenate(lines[1::2]), NULL)
    return clumps


def join(borders: Sequence[Integers], columns: int, connectivity: int) -> Joined:
    """Join the clumps of tiles and number them in the order of their first cells in the full map.

    By the law `runs_number_full_map_patches`, these are the numbers of r.clump in the full map.

    Parameters
    ----------
    borders : sequence of ndarrays
        The borders of all tiles, row by row from the top left, as in `responses.BorderFrame`.
    columns : int
        The number of columns of tiles.
    connectivity : {4, 8}

    Raises
    ------
    OutOfMemory, Killed, MissingProgram, WrongProgram

    Examples
    --------
    >>> import struct
    >>> sides = np.array([1, 1] + [4, 1] * 4 + [1], np.int32)  # a tile with one cell of class 4
    >>> tiles = [struct.pack("<B2Q", 4, row, 0) + sides.tobytes() for row in (0, 1)]
    >>> joined = join([np.frombuffer(tile, np.uint8) for tile in tiles], columns=1, connectivity=4)
    >>> joined.clumps, joined.numbers_of(1).tolist()
    (1, [-2147483648, 1])
    """
    shape = len(borders) // columns, columns
    given = [border.data for border in borders]
    with _joining("the border of tile") as path:
        joined = protocol.join(path, given, shape, connectivity, watch=host().watch)
    runs = np.asarray(joined.runs).view(np.int64).reshape(-1, 4)
    starts = np.searchsorted(runs[:, 0], np.arange(1, len(borders) + 2))
    return Joined(joined.patches, runs, starts)


def join_patches(joined: Joined, patches: Sequence[tuple[Integers, Integers]]) -> Integers:
    """Join patches of tiles, and combine their measures.

    By the law `joined_parts_are_full_map_patches`, these are patches of the full map if all open
    clumps with their numbers are given.

    Parameters
    ----------
    joined : Joined
    patches : sequence of pairs of ndarrays
        For each tile, the numbers of patches in ascending order, and their measures in the full map
        as `PATCH`.

    Returns
    -------
    structured ndarray
        For each patch of the full map that has a part in `patches`, the fields `number` (its number
        in the full map) and `measures` (as `PATCH`), in ascending order.

    Raises
    ------
    OutOfMemory, Killed, MissingProgram, WrongProgram
    """
    rows = np.empty(sum(numbers.size for numbers, _ in patches), _TILE_PATCH)
    rows["tile"] = np.repeat(np.arange(len(patches)) + 1, [own.size for own, _ in patches])
    rows["patch"] = np.concatenate([own for own, _ in patches])
    rows["measures"] = np.concatenate([measures for _, measures in patches])
    sent = rows.view(np.uint8).data
    with _joining("part") as path:
        found = protocol.join_patches(
            path, joined.runs.reshape(-1).data, rows.size, sent, watch=host().watch
        )
    return np.frombuffer(found.rows, _JOINED_PATCH)


def sum_patch_tables(joined: Joined, tables: Sequence[tuple[int, Integers]]) -> Integers:
    """Add up tables of tiles by the numbers of their clumps in the full map.

    Each sum is the sum of the given rows. By the law `patch_tables_add_up`, the sum of the complete
    tables of all tiles is the table of the full map.

    Parameters
    ----------
    joined : Joined
    tables : sequence of pairs of an int and an ndarray
        Tiles, counted from 0, and their tables. A row of a table has the number of a clump in the
        tile, categories of other maps, and a number of cells.

    Returns
    -------
    ndarray of int64
        The rows of the sum, by clump. Each row has the number of a clump in the full map,
        categories of the other maps with `NULL` for null, and a number of cells. Cells outside
        clumps come first, with the number `NULL`.

    Raises
    ------
    OutOfMemory, Killed, MissingProgram, WrongProgram
    """
    maps = tables[0][1].shape[1] - 1
    sent = [
        (
            tile + 1,
            np.ascontiguousarray(table[:, -1], np.int64).data,
            np.ascontiguousarray(table[:, :-1], np.int32).reshape(-1).data,
        )
        for tile, table in tables
    ]
    with _joining("part") as path:
        found = protocol.sum_patch_tables(
            path, joined.runs.reshape(-1).data, maps, sent, watch=host().watch
        )
    rows = np.empty((len(found.numbers), maps + 1), np.int64)
    rows[:, 0] = np.frombuffer(found.numbers, np.int64)
    rows[rows[:, 0] == 0, 0] = NULL
    rows[:, 1:-1] = np.frombuffer(found.cells, np.int32).reshape(len(rows), maps - 1)
    rows[:, -1] = np.frombuffer(found.counts, np.int64)
    return rows


@contextmanager
def _joining(part: str) -> Iterator[str]:
    """Yield the program's path, and convert errors of a join request to this package's errors.

    In messages, `part` precedes the number of the part of the request that was rejected.
    """
    with program_errors("", [], path := find_pipe()):
        try:
            yield path
        except protocol.Rejected as error:
            if error.status == NO_MEMORY:
                problem = f"{error.text} to join the tiles"
                raise OutOfMemory(problem, "arguments", status=error.status) from None
            problem = f"{path} rejected {part} {error.map + 1}: {error.text}"
            raise WrongProgram(problem) from None


def renumber(clumps: Integers, numbers: Integers, out: Integers) -> None:
    """Replace the clump numbers of a tile with clump numbers of the full map.

    Parameters
    ----------
    clumps : ndarray of int32, rows x cols
        The clump numbers of the tile from r.clump, with `NULL` for null.
    numbers : ndarray
        The result of `Joined.numbers_of` for the tile.
    out : ndarray, rows x cols
        The array for the result, which may be `clumps`. Its type must be able to hold the numbers.

    Examples
    --------
    >>> cells = np.array([[1, NULL, 2]], np.int32)
    >>> renumber(cells, np.array([NULL, 5, 6]), out=cells)
    >>> cells.tolist()
    [[5, -2147483648, 6]]
    """
    numbers = numbers.astype(out.dtype)
    step = max(PIECE // clumps.shape[1], 1)
    for top in range(0, len(clumps), step):
        rows = slice(top, top + step)
        out[rows] = numbers.take(clumps[rows], mode="clip")  # null becomes index 0


def wide(cells: Integers) -> Integers:
    """Convert the cells of a response to int32, with `NULL` for null."""
    if cells.dtype == np.int32:
        return cells
    wide_cells: Integers = cells.astype(np.int32)
    np.copyto(wide_cells, NULL, where=cells == protocol.NULL_BYTE)
    return wide_cells
