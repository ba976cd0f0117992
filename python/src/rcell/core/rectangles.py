# SPDX-License-Identifier: Apache-2.0 OR GPL-2.0-or-later
"""Cut large maps into rectangles."""

from __future__ import annotations

from typing import Any, NamedTuple

from .arrays import NDArray
from .protocol import Margin

__all__ = ["NO_MARGIN", "Rectangle", "rectangles_of"]

NO_MARGIN = Margin()


class Rectangle(NamedTuple):
    """A rectangle of cells, given by its first row and column (from 0) and its size."""

    top: int
    left: int
    rows: int
    cols: int

    @property
    def cells(self) -> int:
        """The number of cells in the rectangle."""
        return self.rows * self.cols

    @property
    def slices(self) -> tuple[slice, slice]:
        """The rectangle's rows and columns, as an index into the map's array."""
        return slice(self.top, self.top + self.rows), slice(self.left, self.left + self.cols)

    def is_within(self, outer: Rectangle) -> bool:
        """Return whether another rectangle contains this rectangle."""
        row, col = self.top - outer.top, self.left - outer.left
        fits = row + self.rows <= outer.rows and col + self.cols <= outer.cols
        return fits and row >= 0 and col >= 0

    def with_halo(self, reach: Margin, shape: tuple[int, int]) -> Rectangle:
        """Return the rectangle with a margin around it, clipped to the map.

        Examples
        --------
        >>> Rectangle(0, 4, 2, 3).with_halo(Margin(1, 1, 2, 2), (8, 8))
        Rectangle(top=0, left=2, rows=3, cols=6)
        """
        top, left = max(self.top - reach.up, 0), max(self.left - reach.left, 0)
        low = min(self.top + self.rows + reach.down, shape[0])
        right = min(self.left + self.cols + reach.right, shape[1])
        return Rectangle(top, left, low - top, right - left)

    def part_of(self, outer: Rectangle, cells: NDArray[Any]) -> NDArray[Any]:
        """Extract this rectangle's cells from the cells of an enclosing rectangle."""
        top, left = self.top - outer.top, self.left - outer.left
        return cells[top : top + self.rows, left : left + self.cols]


def rectangles_of(shape: tuple[int, int], size: tuple[int, int]) -> list[Rectangle]:
    """Return the tiles of a map, row by row, so that each cell is in exactly one tile.

    Examples
    --------
    >>> [tuple(tile) for tile in rectangles_of((2, 5), (2, 3))]
    [(0, 0, 2, 3), (0, 3, 2, 2)]
    """
    (rows, cols), (high, wide) = shape, size
    rectangles = []
    for top in range(0, rows, high):
        for left in range(0, cols, wide):
            place = Rectangle(top, left, min(high, rows - top), min(wide, cols - left))
            rectangles.append(place)
    return rectangles
