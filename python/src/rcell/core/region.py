# SPDX-License-Identifier: Apache-2.0 OR GPL-2.0-or-later
"""Define `Region`, the edges and the size of a map, in the program's precision."""

from __future__ import annotations

import math
import numbers
from dataclasses import dataclass
from fractions import Fraction
from functools import cached_property
from typing import Any, Sequence

import numpy as np

from .edges import DECIMALS, UNITS, differences_of, edge_text

from .arrays import NDArray
from .errors import BadMap

__all__ = [
    "Region",
    "Shift",
    "Transform",
    "check_upright",
    "edges_of_transform",
    "six_numbers",
    "units_of",
]

# a, b, c, d, e, f of x = a * column + b * row + c and y = d * column + e * row + f, as in
# rasterio's Affine.
Transform = tuple[float, float, float, float, float, float]
# North, south, east and west in units of 10^-8.
Units = tuple[int, int, int, int]

EDGE_LIMIT = 10**10 * UNITS
# The tolerance, in cells, within which two grids are a whole number of cells apart.
NEARLY_WHOLE = 1e-3


def units_of(edge: float | Fraction) -> int:
    """Convert an edge to integer units of 10^-8, the precision of the program."""
    return int(round(Fraction(edge) * UNITS))


def _is_number(value: Any) -> bool:
    return isinstance(value, numbers.Real)


def six_numbers(name: str, transform: Any) -> Transform:
    """Convert a transform of any type to six floats."""
    try:
        # An Affine has nine numbers, of which the last three are always 0, 0, 1.
        a, b, c, d, e, f = (float(number) for number in tuple(transform)[:6])
    except (TypeError, ValueError):
        raise BadMap(
            name, f"its transform must be an Affine or six numbers; got {transform!r}"
        ) from None
    return a, b, c, d, e, f


def check_upright(name: str, transform: Transform) -> None:
    """Raise BadMap unless rows run from north to south and columns from west to east."""
    a, b, _, d, e, _ = transform
    if not all(map(math.isfinite, transform)):
        raise BadMap(name, f"its transform must have finite numbers; got {transform}")
    if b or d:
        raise BadMap(
            name, f"its transform is rotated, {transform}: warp the map to a north-up grid first"
        )
    if a <= 0 or e >= 0:
        rule = "its transform must have rows from north to south and columns from west to east"
        raise BadMap(name, f"{rule}; got {transform}")


def edges_of_transform(
    transform: Transform, rows: int, cols: int
) -> tuple[Fraction, Fraction, Fraction, Fraction]:
    """Return the exact north, south, east and west edges of an upright map."""
    width, _, west, _, height, north = map(Fraction, transform)
    return north, north + height * rows, west + width * cols, west


@dataclass(frozen=True, eq=False)
class Region:
    """A map's region: its four edges and its numbers of rows and columns.

    The program stores edges with 8 decimals. Two regions are therefore equal if their sizes are
    equal and their edges are equal after rounding to 8 decimals.

    Parameters
    ----------
    north, south, east, west : float
        The outer edges of the outermost cells, in map units.
    rows, cols : int
        The numbers of cells from north to south and from west to east.

    Raises
    ------
    BadMap
        An edge has more than ten digits before the decimal point; north does not exceed south, or
        east does not exceed west, after rounding; or there are no rows or columns.

    Examples
    --------
    >>> import rcell
    >>> region = rcell.Region(north=300, south=0, east=200, west=0, rows=3, cols=2)
    >>> region.transform
    (100.0, 0.0, 0.0, 0.0, -100.0, 300.0)
    >>> region == rcell.Region(300.000000001, 0, 200, 0, 3, 2)
    True
    """

    north: float | Fraction
    south: float | Fraction
    east: float | Fraction
    west: float | Fraction
    rows: int
    cols: int

    def __post_init__(self) -> None:
        for name in ("north", "south", "east", "west"):
            edge: Any = getattr(self, name)
            if not _is_number(edge):
                raise BadMap("region", f"{name} must be a number; got {edge!r}")
            if not math.isfinite(edge) or abs(units_of(edge)) >= EDGE_LIMIT:
                raise BadMap("region", f"{name} must have at most ten digits; got {float(edge):g}")
        self._check_sizes()
        north, south, east, west = self.units
        if north <= south or east <= west:
            low, high = ("south", "north") if north <= south else ("west", "east")
            raise BadMap(
                "region",
                f"{high} must exceed {low} after rounding to {DECIMALS} decimals; got {self}",
            )

    def _check_sizes(self) -> None:
        """Raise BadMap unless the numbers of rows and columns are positive integers."""
        if not (
            isinstance(self.rows, numbers.Integral) and isinstance(self.cols, numbers.Integral)
        ):
            raise BadMap(
                "region",
                f"rows and columns must be whole numbers; got {self.rows!r} and {self.cols!r}",
            )
        if self.rows < 1 or self.cols < 1:
            sizes = f"rows = {self.rows}, columns = {self.cols}"
            raise BadMap("region", f"must have at least one row and one column; got {sizes}")

    @classmethod
    def from_transform(cls, transform: Sequence[float], rows: int, cols: int) -> Region:
        """Return the region of a north-up transform.

        Parameters
        ----------
        transform : sequence of float
            A rasterio Affine, or its first six numbers.
        rows, cols : int
            The shape of the map.

        Returns
        -------
        Region

        Raises
        ------
        BadMap
            The transform is rotated or upside down.

        Examples
        --------
        >>> import rcell
        >>> rcell.Region.from_transform((25, 0, 512300, 0, -25, 284450), 14, 22)
        Region(north=284450.0, south=284100.0, east=512850.0, west=512300.0, rows=14, cols=22)
        """
        upright = six_numbers("region", transform)
        check_upright("region", upright)
        _, _, west, _, _, north = upright
        _, south, east, _ = edges_of_transform(upright, rows, cols)
        return cls(north, float(south), float(east), west, rows, cols)

    @classmethod
    def of_cells(cls, rows: int, cols: int) -> Region:
        """Return the region of an array without a position, whose cells have size 1.

        Parameters
        ----------
        rows, cols : int
            The shape of the array.

        Returns
        -------
        Region
            The region from 0 to the number of rows, and from 0 to the number of columns.

        Examples
        --------
        >>> import rcell
        >>> rcell.Region.of_cells(2, 3)
        Region(north=2, south=0, east=3, west=0, rows=2, cols=3)
        """
        return cls(rows, 0, cols, 0, rows, cols)

    @cached_property
    def units(self) -> Units:
        """The north, south, east and west edges in units of 10^-8, as the program compares them.

        Examples
        --------
        >>> import rcell
        >>> rcell.Region(1, 0, 2, 0, 1, 2).units
        (100000000, 0, 200000000, 0)
        """
        return (
            units_of(self.north),
            units_of(self.south),
            units_of(self.east),
            units_of(self.west),
        )

    @property
    def shape(self) -> tuple[int, int]:
        """The number of rows and of columns, like the shape of a numpy array.

        Examples
        --------
        >>> import rcell
        >>> rcell.Region.of_cells(2, 3).shape
        (2, 3)
        """
        return self.rows, self.cols

    @property
    def res(self) -> tuple[float, float]:
        """The width and the height of a cell, in map units.

        Examples
        --------
        >>> import rcell
        >>> rcell.Region(300, 0, 100, 0, 3, 2).res
        (50.0, 100.0)
        """
        return (
            float(self.east - self.west) / self.cols,
            float(self.north - self.south) / self.rows,
        )

    @property
    def bounds(self) -> tuple[float, float, float, float]:
        """The west, south, east and north edges.

        Examples
        --------
        >>> import rcell
        >>> rcell.Region(300, 0, 100, 50, 3, 2).bounds
        (50.0, 0.0, 100.0, 300.0)
        """
        return float(self.west), float(self.south), float(self.east), float(self.north)

    @property
    def transform(self) -> Transform:
        """The six numbers of the region's transform, in the order of `rasterio.Affine`.

        Examples
        --------
        >>> import rcell
        >>> rcell.Region.of_cells(2, 3).transform
        (1.0, 0.0, 0.0, 0.0, -1.0, 2.0)
        """
        width, height = self.res
        return width, 0.0, float(self.west), 0.0, -height, float(self.north)

    @property
    def edges(self) -> tuple[str, str, str, str]:
        """The north, south, east and west edges, as strings in the program's format.

        Examples
        --------
        >>> import rcell
        >>> rcell.Region.of_cells(2, 3).edges
        ('2', '0', '3', '0')
        """
        north, south, east, west = map(edge_text, self.units)
        return north, south, east, west

    def differences(self, other: Region) -> list[str]:
        """Describe each edge and size in which another region differs from this region.

        Parameters
        ----------
        other : Region
            The other region.

        Returns
        -------
        list of str
            A description of each difference. The list is empty if the regions are equal.

        Examples
        --------
        >>> import rcell
        >>> rcell.Region.of_cells(2, 3).differences(rcell.Region(2, 0, 3.5, 0, 2, 3))
        ['east is 3.5, not 3 (0.5 more)']
        """
        return differences_of(self.units + self.shape, other.units + other.shape)

    def __eq__(self, other: object) -> bool:
        return isinstance(other, Region) and self.units == other.units and self.shape == other.shape

    def __hash__(self) -> int:
        return hash((self.units, self.shape))

    def __str__(self) -> str:
        north, south, east, west = self.edges
        return (
            f"north {north}, south {south}, east {east}, west {west}, {self.rows} rows, "
            f"{self.cols} columns"
        )


@dataclass(frozen=True)
class Shift:
    """The position and cell size of a grid relative to another grid.

    Attributes
    ----------
    rows, cols : float
        The row and column of the other grid, counted from 0, at which the first cell begins. These
        are integers if the grids are shifted by whole cells.
    height, width : float
        The size of a cell, in cells of the other grid.
    shape : tuple of int
        The rows and columns of the grid.
    sizes : tuple of tuple of float
        The heights and widths of cells in both grids, beginning with the other grid.
    """

    rows: float
    cols: float
    height: float
    width: float
    shape: tuple[int, int]
    sizes: tuple[tuple[float, float], tuple[float, float]]

    @classmethod
    def between(cls, other: Transform, grid: Transform, shape: tuple[int, int]) -> Shift:
        """Return the shift of a grid relative to another grid.

        Examples
        --------
        >>> shift = Shift.between((10, 0, 0, 0, -10, 30), (10, 0, 20, 0, -10, 35), (3, 2))
        >>> shift.rows, shift.cols, shift.is_whole
        (-0.5, 2, False)
        """
        other_width, _, other_west, _, other_height, other_north = other
        width, _, west, _, height, north = grid
        return cls(
            rows=_whole((other_north - north) / -other_height),
            cols=_whole((west - other_west) / other_width),
            height=height / other_height,
            width=width / other_width,
            shape=shape,
            sizes=((-other_height, other_width), (-height, width)),
        )

    @property
    def has_other_cells(self) -> bool:
        """Whether cell sizes differ so much that the last cells do not coincide."""
        rows, cols = self.shape
        down, across = abs(self.height - 1) * rows, abs(self.width - 1) * cols  # at the last cell
        return max(down, across) > NEARLY_WHOLE

    @property
    def is_whole(self) -> bool:
        """Whether each cell coincides with a cell of the other grid."""
        is_shifted_by_cells = isinstance(self.rows, int) and isinstance(self.cols, int)
        return is_shifted_by_cells and not self.has_other_cells

    def centres(self) -> tuple[NDArray[np.float64], NDArray[np.float64]]:
        """Return the centres of rows and columns, in units of the other grid's cells."""
        rows, cols = self.shape
        if self.is_whole:
            return self.rows + np.arange(rows) + 0.5, self.cols + np.arange(cols) + 0.5
        down = self.rows + self.height * (np.arange(rows) + 0.5)
        across = self.cols + self.width * (np.arange(cols) + 0.5)
        return down, across

    def misfit(self, name: str) -> str:
        """Explain why the cells of the other grid and of the grid `name` do not coincide."""
        if self.has_other_cells:
            other_size, size = (f"{width:.10g} x {height:.10g}" for height, width in self.sizes)
            return f"cells of {other_size}, but `{name}` has cells of {size}"
        return f"shifted by {self.rows:.10g} rows and {self.cols:.10g} columns, not by whole cells"


def _whole(shift: float) -> float | int:
    return round(shift) if abs(shift - round(shift)) <= NEARLY_WHOLE else shift
