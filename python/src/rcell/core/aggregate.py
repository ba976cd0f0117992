# SPDX-License-Identifier: Apache-2.0 OR GPL-2.0-or-later
"""Aggregate blocks of cells to coarser maps of the most frequent class and of class shares."""

from __future__ import annotations

import dataclasses
from dataclasses import dataclass
from functools import cached_property
from typing import Any, NamedTuple

import numpy as np

from .arguments import MAX_CATEGORY, is_number, whole_number_of
from .arrays import Floats, Integers
from .columns import distinct_names
from .counting import Maps, places_of
from .errors import BadArgument
from .protocol import NULL
from .region import Region
from .sources import ArrayMap, MapLike

__all__ = ["Aggregate", "BlockShares", "aggregate"]


class Aggregate(NamedTuple):
    """The result of `aggregate`: maps with one cell per block.

    Parameters
    ----------
    majority : Raster
        The most frequent class of each block.
    shares : Shares
        The percentage of each class in each block.
    cells : Raster
        The number of non-null cells in each block.

    Examples
    --------
    >>> import numpy as np, rcell
    >>> found = rcell.aggregate(np.array([[1, 1, 2], [1, 3, 2]]), factor=2)
    >>> found.majority.array.tolist(), found.cells.array.tolist()
    ([[1, 2]], [[4, 2]])
    >>> found.shares[3].tolist()
    [[25.0, 0.0]]
    """

    majority: Any
    shares: Any
    cells: Any


@dataclass(frozen=True)
class BlockShares:
    """The percentage of each class in each block.

    Blocks are numbered row by row from 0.

    Attributes
    ----------
    blocks : ArrayMap
        The most frequent class of each block, or null if the block is null.
    classes : list of int
        The classes in ascending order.
    entries : array of int64
        A row for each class in each block: the block, the index of the class in `classes`, and the
        number of cells.
    cells : array of int64
        The number of non-null cells in each block.
    """

    blocks: ArrayMap
    classes: list[int]
    entries: Integers
    cells: Integers

    @property
    def names(self) -> list[str]:
        """The label of each class, or its number if it has no label.

        If two classes have the same label, their numbers are appended.
        """
        [names] = distinct_names([(np.array(self.classes, np.int64), self.blocks.labels)])
        return names

    @cached_property
    def percent(self) -> Floats:
        """The percentages as an array of classes x rows x columns, with NaN for null blocks."""
        block, index, count = self.entries.T
        percent = np.zeros((len(self.classes), self.cells.size))
        percent[index, block] = count * 100.0 / self.cells[block]
        percent[:, self.blocks.array.reshape(-1) == NULL] = np.nan
        return percent.reshape(-1, *self.blocks.region.shape)


def aggregate(map: MapLike, factor: int, min_percent: float = 0, *, crs: Any = None) -> Aggregate:
    """Aggregate blocks of `factor` by `factor` cells, starting at the north-west corner.

    Parameters
    ----------
    map : path, array, or any map that `run` accepts
    factor : int
        The number of rows and columns in a block. Blocks at the southern and eastern edges may
        extend beyond the map.
    min_percent : float
        The minimum percentage of a block's cells that must be inside the map and not null. Blocks
        with a lower percentage are null. A block with only null cells is always null.
    crs : any, optional
        The coordinate reference system to assume for a map that does not have one.

    Returns
    -------
    Aggregate
        A named tuple. `majority` contains the most frequent class of each block, or the smallest of
        these classes in a tie. `shares` contains each class's percentage of the block's non-null
        cells, and `cells` the number of non-null cells.

    Raises
    ------
    Refused
        See `run`.
    BadArgument
        An argument is out of range.

    Examples
    --------
    >>> import rcell
    >>> lc = rcell.Raster([[1, 1, 2], [1, 3, 2]], (10, 0, 0, 0, -10, 20))
    >>> found = rcell.aggregate(lc, factor=2, min_percent=75)
    >>> found.majority
    <Raster majority: north 20, south 0, east 40, west 0, 1 rows, 2 columns>
    >>> found.majority.array.tolist()
    [[1, None]]
    """
    whole_number_of("factor", factor, least=1, most=MAX_CATEGORY)
    if not is_number(min_percent) or not 0 <= min_percent <= 100:
        raise BadArgument("min_percent", f"must be a number from 0 to 100; got {min_percent!r}")
    maps = Maps({"map": map}, crs)
    source = maps.first
    rows, cols = (-(-size // factor) for size in source.region.shape)
    if rows * cols > MAX_CATEGORY:
        rule = f"must produce at most {MAX_CATEGORY} blocks"
        raise BadArgument("factor", f"{rule}; got {factor}, which produces {rows * cols}")
    # The program's row() and col() begin at 1, and its / drops the remainder.
    script = f"r.mapcalc block = (row() - 1) / {factor} * {cols} + (col() - 1) / {factor}"
    [entries] = maps.tables(f"{script}\nr.stats -c -n input=block,map")
    classes, indices = np.unique(entries[:, 1], return_inverse=True)
    entries[:, 1] = indices.reshape(-1)  # as in BlockShares: indices in place of classes
    majorities, cells = _counted(entries, classes, blocks=rows * cols)
    majorities[cells * 100.0 < min_percent * factor**2] = NULL
    width, _, west, _, height, north = source.transform
    transform = (width * factor, 0.0, west, 0.0, height * factor, north)
    array = majorities.reshape(rows, cols).astype(np.int32)
    majority = ArrayMap(
        "majority",
        array,
        Region.from_transform(transform, rows, cols),
        array == NULL,
        labels=source.labels,
        crs=maps.crs,
        exact_transform=transform,
        colors=source.colors,
        files=source.files,
    )
    counts = cells.reshape(rows, cols)
    cells_map = dataclasses.replace(
        majority, name="cells", array=counts, null=None, labels={}, colors={}
    )
    return Aggregate(majority, BlockShares(majority, classes.tolist(), entries, cells), cells_map)


def _counted(entries: Integers, classes: Integers, blocks: int) -> tuple[Integers, Integers]:
    """Return each block's most frequent class and number of cells.

    The class is null for a block without cells. The entries, as in `BlockShares`, must be sorted by
    block.
    """
    block, index, count = entries.T
    first = places_of(block)
    majorities, cells = np.full(blocks, NULL, np.int64), np.zeros(blocks, np.int64)
    if first.size:
        # The largest key of a block has the largest count and, in a tie, the smallest class.
        last = classes.size - 1
        keys = count * classes.size + (last - index)
        best = last - np.maximum.reduceat(keys, first) % classes.size
        majorities[block[first]] = classes[best]
        cells[block[first]] = np.add.reduceat(count, first)
    return majorities, cells
