# SPDX-License-Identifier: Apache-2.0 OR GPL-2.0-or-later
"""Align a map with another map's grid and count the cells used, repeated and lost."""

from __future__ import annotations

from typing import Any, NamedTuple, Optional

import numpy as np

from .arrays import NDArray
from .crs import are_same_crs, common_crs, known
from .errors import BadArgument, BadMap, OtherCrs, OtherRegion
from .host import option
from .kept import cells_for
from .rectangles import Rectangle, rectangles_of
from .region import Region, Shift
from .sources import (
    ArrayMap,
    Block,
    Cells,
    MapLike,
    Mask,
    Source,
    has_windows,
    null_cells,
    source_of,
)

__all__ = ["Aligned", "align"]

# How far, in cells, a centre may be outside a cell's northern or western border and still count as
# inside.
_ON_BORDER = 1e-6
# The side of the squares in which cells are looked up if the reference systems differ.
_SIDE = 1024


class Aligned(NamedTuple):
    """The shift that `rcell.align` applied, and the numbers of cells used, repeated and lost.

    Parameters
    ----------
    shift_rows, shift_columns : float or None
        The map's row and column, counted from 0, at which the new grid begins. None if the
        reference systems differ.
    cells_used, cells_repeated, cells_lost : int
        The numbers of the map's non-null cells that the result contains, contains more than once,
        and does not contain.

    Examples
    --------
    >>> import numpy as np, rcell
    >>> lc = np.array([[1, 2, 3]])
    >>> rcell.align(lc, to=lc).aligned
    Aligned(shift_rows=0, shift_columns=0, cells_used=3, cells_repeated=0, cells_lost=0)
    """

    shift_rows: Optional[float]
    shift_columns: Optional[float]
    cells_used: int
    cells_repeated: int
    cells_lost: int


def align(
    map: MapLike, to: MapLike, resample: Optional[str] = None, *, crs: Any = None
) -> tuple[ArrayMap, Aligned]:
    """Align a map with another map's grid, by whole-cell shifts or nearest-neighbour resampling.

    Parameters
    ----------
    map, to : path, array, or any map that `run` accepts
        The map to align, and the map with the new grid.
    resample : {"nearest"}, optional
        "nearest" gives each new cell the value of the old cell that contains the new cell's centre.
        A centre on a border belongs to the southern or eastern cell. By default, whole rows and
        columns are cropped or, with null cells, added.
    crs : any, optional
        The coordinate reference system to assume for maps that do not have one.

    Returns
    -------
    Raster
        The map on the new grid. Its attribute `aligned` is an `Aligned` tuple, which contains the
        shift and the numbers of cells used, repeated and lost.

    Raises
    ------
    OtherRegion
        The grids are shifted by part of a cell or have cells of different sizes, and `resample` is
        not given.
    OtherCrs
        The reference systems differ, and `resample` is not given.
    BadMap
        No cell of the map is in the extent of `to`.

    Examples
    --------
    >>> import rcell
    >>> lc = rcell.Raster([[1, 2, 3]], (10, 0, 0, 0, -10, 10))
    >>> found = rcell.align(lc, to=rcell.Raster([[0, 0]], (10, 0, 20, 0, -10, 10)))
    >>> found.array.tolist()
    [[3, None]]
    >>> found.aligned
    Aligned(shift_rows=0, shift_columns=2, cells_used=1, cells_repeated=0, cells_lost=2)
    """
    if resample not in (None, "nearest"):
        raise BadArgument("resample", f'must be "nearest" or None; got {resample!r}')
    source, like = source_of("map", map), source_of("to", to)
    try:
        system = common_crs(
            {"to": like.crs, "map": source.crs}, crs, titles={"to": like.name, "map": source.name}
        )
    except OtherCrs as fault:
        # Different systems are an error, unless cells are resampled and both systems are known.
        if resample is None or source.crs is None or like.crs is None:
            fault.advice = None if resample else 'rcell.align(.., resample="nearest")'
            raise
        system = like.crs
    target = _Target(source, like.region.shape)
    if source.crs is None or like.crs is None or are_same_crs(source.crs, like.crs):
        aligned = _shifted(source, like, target, resample)
    else:
        aligned = _projected(source, like, target)
    # The other map's transform is kept only if it leads to the other map's region.
    is_exact = Region.from_transform(like.transform, *like.region.shape) == like.region
    moved = ArrayMap(
        source.name,
        target.cells,
        like.region,
        target.null,
        target.nodata,
        labels=source.labels,
        crs=system,
        exact_transform=like.transform if is_exact else None,
        colors=source.colors,
        files=(*source.files, *like.files),
    )
    return moved, aligned


class _Target:
    """The map on the new grid. At first, all cells are null.

    The cells are kept in a file if they do not fit in memory.

    Parameters
    ----------
    source : Source
    shape : tuple of two ints
        The numbers of rows and columns in the new grid.
    """

    def __init__(self, source: Source, shape: tuple[int, int]) -> None:
        self.nodata = source.nodata
        self.cells = cells_for(shape, source.dtype)
        self.cells[...] = 0 if self.nodata is None else self.nodata
        self.null: Optional[Mask] = None
        if self.nodata is None:
            self.null = cells_for(shape, np.bool_)
            self.null[...] = True

    def put(self, part: Any, cells: Cells, null: Mask, where: Any = True) -> None:
        """Write cells to a part of the grid, optionally only where a mask is true."""
        if self.null is not None:
            _copy(self.null[part], null, where)
        elif null.any():
            cells = np.where(null, cells.dtype.type(self.nodata), cells)
        _copy(self.cells[part], cells, where)


def _copy(target: NDArray[Any], values: NDArray[Any], where: Any) -> None:
    """Write values to an array, optionally only where a mask is true."""
    if where is True:
        target[...] = values
    else:
        target[where] = values


def _null_of(source: Source, block: Block) -> Mask:
    """Return a mask of the null cells in a block."""
    return null_cells(block.cells, block.null, source.nodata)


class _Axis(NamedTuple):
    """The rows (or columns) of a map that a grid uses.

    `taken` lists the used rows of the map in ascending order, `first` is the grid's first row
    inside the map, and `uses` counts how often the grid uses each row of the map.
    """

    taken: NDArray[np.int64]
    first: int
    uses: NDArray[np.int64]

    @classmethod
    def of(cls, centres: NDArray[np.float64], size: int) -> _Axis:
        """Find the rows (or columns) of a map that a grid uses.

        `centres` contains the centres of the grid's rows, in units of the map's cells.
        """
        indices = np.floor(centres + _ON_BORDER).astype(np.int64)
        inside = np.flatnonzero((indices >= 0) & (indices < size))
        taken = indices[inside]
        first = int(inside[0]) if inside.size else 0
        return cls(taken, first, np.bincount(taken, minlength=size))

    def part(self, begin: int, end: int) -> tuple[slice, Any]:
        """Return the grid rows that use a range of map rows, and the indices used in the range."""
        low, high = (int(place) for place in np.searchsorted(self.taken, (begin, end)))
        return slice(self.first + low, self.first + high), _as_slice(self.taken[low:high] - begin)


def _shifted(source: Source, like: Source, target: _Target, resample: Optional[str]) -> Aligned:
    """Copy a map to another map's grid with the same reference system.

    The shift must be by whole rows and columns, unless the nearest cells are requested.
    """
    shift = Shift.between(source.transform, like.transform, like.region.shape)
    if resample is None and not shift.is_whole:
        cure = f"use {option('resample', 'nearest')} to get the nearest cells"
        raise OtherRegion(source.name, f"{shift.misfit(like.name)}: {cure}")
    rows, cols = map(_Axis.of, shift.centres(), source.region.shape)
    target_cols, source_cols = cols.part(0, source.region.cols)
    row = not_null = used = once = 0
    for block in source.blocks():
        end = row + len(block.cells)
        null = _null_of(source, block)
        target_rows, block_rows = rows.part(row, end)
        cells = block.cells[block_rows][:, source_cols]
        target.put((target_rows, target_cols), cells, null[block_rows][:, source_cols])
        uses = rows.uses[row:end]
        not_null += null.size - int(np.count_nonzero(null))
        used += int(np.count_nonzero(~null[uses > 0][:, cols.uses > 0]))
        once += int(np.count_nonzero(~null[uses == 1][:, cols.uses == 1]))
        row = end
    repeated, lost = used - once, not_null - used
    return Aligned(shift.rows, shift.cols, used, repeated, lost)


def _as_slice(indices: NDArray[np.int64]) -> Any:
    """Return consecutive indices as a slice, for speed, and other indices unchanged."""
    # Evenly spaced rows repeat indices or skip some, never both, so comparing lengths is enough.
    if not indices.size:
        return slice(0, 0)
    first, last = int(indices[0]), int(indices[-1])
    return slice(first, last + 1) if last + 1 - first == indices.size else indices


def _projected(source: Source, like: Source, target: _Target) -> Aligned:
    """Resample a map to a grid in another reference system, using the nearest cells."""
    system, source_system = known(like.crs), known(source.crs)
    assert system is not None and source_system is not None
    width, _, west, _, height, north = source.transform
    rows, cols = source.region.shape
    windows: Any = source if has_windows(source) else _in_memory(source)
    uses = cells_for((rows, cols), np.uint8)  # 2 means two or more
    uses[...] = 0
    overlaps = False
    for place in rectangles_of(like.region.shape, (_SIDE, _SIDE)):
        x, y = system.points(source_system, *_centres(like, place))
        down = np.floor((y - north) / height + _ON_BORDER)
        across = np.floor((x - west) / width + _ON_BORDER)
        is_inside = (down >= 0) & (down < rows) & (across >= 0) & (across < cols)
        if not is_inside.any():
            continue
        overlaps = True
        window = _Window.of(down[is_inside], across[is_inside])
        block = windows.window(*window.place)
        cells = block.cells.reshape(-1)[window.flat]
        null = _null_of(source, block).reshape(-1)[window.flat]
        target.put(place.slices, cells, null, is_inside)
        window.note(uses, null)
    if not overlaps:
        raise BadMap(source.name, f"has no cell in the extent of `{like.name}`")
    total = sum(int(np.count_nonzero(~_null_of(source, block))) for block in source.blocks())
    used, repeated = int(np.count_nonzero(uses)), int(np.count_nonzero(uses > 1))
    no_shift = (None, None)
    return Aligned(*no_shift, used, repeated, cells_lost=total - used)


class _Window(NamedTuple):
    """The smallest window that contains the given cells, and each cell's index in the window."""

    place: Rectangle
    flat: NDArray[np.int64]

    @classmethod
    def of(cls, down: NDArray[np.float64], across: NDArray[np.float64]) -> _Window:
        """Return the smallest window that contains the cells in these rows and columns."""
        top, left = int(down.min()), int(across.min())
        rows, cols = int(down.max()) + 1 - top, int(across.max()) + 1 - left
        down_in_window = down.astype(np.int64) - top
        across_in_window = across.astype(np.int64) - left
        return cls(Rectangle(top, left, rows, cols), down_in_window * cols + across_in_window)

    def note(self, uses: NDArray[np.uint8], null: Mask) -> None:
        """Count how often each non-null cell has been used, up to 2."""
        part = uses[self.place.slices]
        times = np.bincount(self.flat[~null], minlength=self.place.cells)
        part[...] = np.minimum(times.reshape(part.shape) + part, 2)


def _in_memory(source: Source) -> ArrayMap:
    """Read a map that cannot be read in windows, such as a text grid, into memory."""
    blocks = list(source.blocks())
    cells = np.concatenate([block.cells for block in blocks])
    nulls = [block.null for block in blocks if block.null is not None]
    null = np.concatenate(nulls) if nulls else None
    return ArrayMap(source.name, cells, source.region, null, source.nodata)


def _centres(like: Source, place: Rectangle) -> list[NDArray[np.float64]]:
    """Return the x and y coordinates of the cell centres in a rectangle."""
    width, _, west, _, height, north = like.transform
    x = west + width * (np.arange(place.left, place.left + place.cols) + 0.5)
    y = north + height * (np.arange(place.top, place.top + place.rows) + 0.5)
    return list(np.meshgrid(x, y))
