# SPDX-License-Identifier: Apache-2.0 OR GPL-2.0-or-later
"""Collect the measures of patches from tiles, and join the patches of the full map."""

from __future__ import annotations

from typing import Any, Optional

import numpy as np

from .arrays import NDArray
from .tile_clumps import Joined, join_patches, sum_patch_tables
from .tiling import in_threads

__all__ = ["PatchSum"]

PIECE = 2**14
"""The number of patches whose measures are written at a time, which fit in a processor's cache."""

Integers = NDArray[Any]


class PatchSum:
    """Collects patch measures from all tiles.

    Excluded patches are dropped immediately, unless they may continue in other tiles.

    Parameters
    ----------
    classes : list of int, optional
        The classes whose patches are kept. By default, all patches are kept.
    fewest : int
        The smallest number of cells in a kept patch.
    """

    def __init__(self, classes: Optional[list[int]], fewest: int) -> None:
        self._listed, self._fewest = classes, fewest
        self._closed: dict[int, tuple[Integers, Integers]] = {}
        self._open: dict[int, tuple[Integers, Integers]] = {}
        self._tables: dict[int, list[Integers]] = {}
        self.numbers: Integers = np.empty(0, np.int64)
        self.counts: dict[str, Integers] = {}
        self.tables: list[Integers] = []

    def add(self, tile: int, rows: Integers, waiting: Integers, tables: list[Integers]) -> None:
        """Add a tile's patches, its open patches, and its tables of patches."""
        is_open = np.zeros(len(rows), np.bool_)
        is_open[waiting - 1] = True
        kept = is_open | (rows["cells"] >= self._fewest)
        if self._listed is not None:
            kept &= np.isin(rows["class"], self._listed)
        for parts, mask in ((self._closed, kept & ~is_open), (self._open, kept & is_open)):
            found = np.flatnonzero(mask)
            parts[tile] = found + 1, rows if found.size == rows.size else rows.take(found)
        self._tables[tile] = [table[kept[table[:, 0] - 1]] for table in tables]

    def join(self, joined: Optional[Joined]) -> None:
        """Join the patches of all tiles. `joined` is None if there was only one run."""
        closed = [self._closed[tile] for tile in sorted(self._closed)]
        numbers, parts = [own for own, _ in closed], [rows for _, rows in closed]
        if joined is not None:
            numbers_of = [joined.numbers_of(tile) for tile in sorted(self._closed)]
            numbers = [in_map[own] for in_map, own in zip(numbers_of, numbers)]
            whole = join_patches(joined, [self._open[tile] for tile in sorted(self._open)])
            whole = whole[whole["measures"]["cells"] >= self._fewest]
            numbers.append(whole["number"])
            parts.append(whole["measures"])
        self.tables = self._joined_tables(joined)
        self.numbers, indices = _merged(numbers)
        for name in parts[0].dtype.names or ():
            self.counts[name] = np.empty(self.numbers.size, np.int64)
        in_threads(self._fill, indices, parts)

    def _joined_tables(self, joined: Optional[Joined]) -> list[Integers]:
        """Return the tables of the full map, whose first column is the number of a patch."""
        if joined is None:
            [tables] = self._tables.values()
            return tables
        return [
            sum_patch_tables(joined, list(zip(self._tables, tables)))
            for tables in zip(*self._tables.values())
        ]

    def _fill(self, indices: Integers, rows: Integers) -> None:
        """Store the measures of patches at the given indices of the arrays in `counts`."""
        for start in range(0, indices.size, PIECE):
            piece = slice(start, start + PIECE)
            for name, counts in self.counts.items():
                counts[indices[piece]] = rows[name][piece]


def _merged(parts: list[Integers]) -> tuple[Integers, list[Integers]]:
    """Return the numbers of all parts in ascending order, and the index of each part's numbers.

    Examples
    --------
    >>> _merged([np.array([2, 9]), np.array([5])])
    (array([2, 5, 9]), [array([0, 2]), array([1])])
    """
    count = sum(part.size for part in parts)
    if count == max(part.max(initial=0) for part in parts):  # no number is missing
        return np.arange(1, count + 1), [part - 1 for part in parts]
    numbers = np.sort(np.concatenate(parts), kind="stable")
    return numbers, [np.searchsorted(numbers, part) for part in parts]
