# SPDX-License-Identifier: Apache-2.0 OR GPL-2.0-or-later
"""Warn if a common nodata value fills most of a map's border but is not declared."""

from __future__ import annotations

import threading
from collections.abc import Iterator
from typing import Any

import numpy as np

from .arrays import NDArray
from .host import warn
from .sources import Block, Source

__all__ = ["Watch", "watched"]

# Common nodata values: the extremes of 8 and 16 bits, and a conventional number.
_USUAL = (255, -9999, -32768)


class Watch:
    """A counter of common nodata values along the border of a map.

    Blocks or windows may be added in any order.

    Parameters
    ----------
    name : str
    source : Source
        The map, or a part of it.
    shape : tuple of two ints
        The numbers of rows and columns in the map.
    """

    def __init__(self, name: str, source: Any, shape: tuple[int, int]) -> None:
        self._name = name
        self._shape = shape
        self._scale = getattr(source, "scale", 1)  # blocks of a scaled map are already multiplied
        self._values = [
            value for value in _USUAL if _may_be_undeclared(source, value * self._scale)
        ]
        self.counts = np.zeros(len(self._values), np.int64)
        self._lock = threading.Lock()

    def add(self, block: Block, row: int, col: int) -> None:
        """Count the common nodata values in a block that begins at the given row and column."""
        if self._values:
            cells, null = _border(block, row, col, self._shape)
            counts = [
                np.count_nonzero((cells == value * self._scale) & ~null) for value in self._values
            ]
            self.merge(np.array(counts, np.int64))

    def merge(self, counts: NDArray[np.int64]) -> None:
        """Add the counts from other windows of the map."""
        with self._lock:
            self.counts += counts

    def finish(self) -> None:
        """Warn if a common nodata value fills more than half of the border."""
        rows, cols = self._shape
        border = rows * cols - max(rows - 2, 0) * max(cols - 2, 0)
        for value, count in zip(self._values, self.counts.tolist()):
            if 2 * count > border:
                warn(
                    f"{self._name}: {count:,} of the {border:,} cells along its border are "
                    f"{value}, which is not declared as nodata: "
                    f"if {value} means nodata, declare it, for example with gdal_edit.py "
                    f"-a_nodata {value}"
                )


def watched(name: str, source: Source) -> Iterator[Block]:
    """Yield a map's blocks, then warn if a common nodata value fills over half of the border."""
    watch = Watch(name, source, source.region.shape)
    row = 0
    for block in source.blocks():
        watch.add(block, row, col=0)
        row += len(block.cells)
        yield block
    watch.finish()


def _may_be_undeclared(source: Any, value: int) -> bool:
    """Return whether a value may be an undeclared nodata value of a map.

    The value 255 is considered only in maps of bytes.
    """
    if source.nodata == value:
        return False
    limits = np.iinfo(source.dtype)
    return limits.min <= value <= limits.max and (value != 255 or source.dtype == np.uint8)


def _border(
    block: Block, row: int, col: int, shape: tuple[int, int]
) -> tuple[NDArray[Any], NDArray[np.bool_]]:
    """Return the cells of a block that are on the map's border, and a mask of the null cells.

    The block begins at the given row and column of the map.
    """
    rows, cols = shape
    high, wide = block.cells.shape
    is_last = row + high == rows and rows > 1
    inner = slice(int(row == 0), high - is_last)  # without corners, which rows include
    parts: list[Any] = [np.s_[:0, 0]]  # no cells, if the block does not touch the border
    if row == 0:
        parts.append(np.s_[0, :])
    if is_last:
        parts.append(np.s_[-1, :])
    if col == 0:
        parts.append(np.s_[inner, 0])
    if col + wide == cols and cols > 1:
        parts.append(np.s_[inner, -1])
    cells = np.concatenate([block.cells[part] for part in parts])
    if block.null is None:
        return cells, np.zeros(cells.shape, np.bool_)
    return cells, np.concatenate([block.null[part] for part in parts])
