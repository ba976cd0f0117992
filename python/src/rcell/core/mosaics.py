# SPDX-License-Identifier: Apache-2.0 OR GPL-2.0-or-later
"""Read several files, given as a list or as a file name pattern, as one map."""

from __future__ import annotations

import glob
import os
from collections.abc import Iterator, Mapping, Sequence
from dataclasses import dataclass, replace
from functools import cached_property
from typing import Any, ClassVar, NamedTuple, Optional

import numpy as np

from .arrays import NDArray
from .crs import common_crs
from .errors import BadMap, OtherRegion, ReadFailed
from .host import warn
from .rectangles import Rectangle
from .region import Region, Shift, Transform
from .sources import BLOCK_CELLS, Block, Source, in_region, null_cells

__all__ = ["MosaicMap", "is_pattern", "open_files", "open_pattern"]

_WILD = "*?["


class Part(NamedTuple):
    """A file in a mosaic, and the rectangle of the map that the file covers."""

    source: Any
    place: Rectangle


def is_pattern(path: str) -> bool:
    """Return whether a path is a file name pattern rather than an existing file."""
    return any(letter in path for letter in _WILD) and not os.path.exists(path)


def open_pattern(name: str, pattern: str) -> Source:
    """Open the files that match a pattern as one map, in alphabetical order."""
    paths = sorted(glob.glob(pattern, recursive=True))
    if not paths:
        raise ReadFailed(name, f"cannot open: {pattern}: no file matches this pattern")
    return open_files(name, paths)


def open_files(name: str, paths: Sequence[Any]) -> Source:
    """Open several files on the same grid as one map.

    Gaps between files are null. If files overlap, the later file's cells are used unless they are
    null.

    Parameters
    ----------
    name : str
        The name of the map, for error messages.
    paths : sequence of paths

    Raises
    ------
    OtherCrs, OtherRegion, BadMap
        Two files differ in reference system, cell size, alignment, data type or nodata value. The
        message names both files and describes the difference.
    ReadFailed
        A file cannot be opened.
    """
    from .text_grids import open_path

    sources: list[Any] = []
    for path in map(os.fsdecode, paths):
        source: Any = open_path(path, path)
        if not hasattr(source, "window"):
            raise BadMap(
                name,
                f"{path} is a text grid, but only rasters can be combined: convert it to a raster",
            )
        sources.append(source)
    if len(sources) == 1:
        only: Source = replace(sources[0], name=name)
        return only
    crs = common_crs({source.name: source.crs for source in sources})
    first = sources[0]
    shifts = [_shift_of(name, first, source) for source in sources]
    rows_of_files, cols_of_files = zip(*shifts)
    top, left = min(rows_of_files), min(cols_of_files)
    parts = tuple(
        Part(source, Rectangle(row - top, col - left, *source.region.shape))
        for source, (row, col) in zip(sources, shifts)
    )
    rows = max(part.place.top + part.place.rows for part in parts)
    cols = max(part.place.left + part.place.cols for part in parts)
    width, _, west, _, height, north = first.transform
    transform = (width, 0.0, west + left * width, 0.0, height, north + top * height)
    region = in_region(name, Region.from_transform, transform, rows, cols)
    # Gaps need a mask if there is no nodata value.
    may_have_gaps = first.nodata is None and not _is_full(parts, rows * cols)
    is_masked = may_have_gaps or any(part.source.is_masked for part in parts)
    mosaic = MosaicMap(name, parts, region, transform, crs, is_masked)
    _warn_of_overlaps(mosaic)
    return mosaic


def _shift_of(name: str, first: Any, source: Any) -> tuple[int, int]:
    """Return the row and column of the first file's grid at which another file begins.

    Raises OtherRegion or BadMap if the two files cannot be combined.
    """
    both = f"{source.name} and {first.name}"
    shift = Shift.between(first.transform, source.transform, source.region.shape)
    if not shift.is_whole:
        other = Shift.between(source.transform, first.transform, first.region.shape)
        raise OtherRegion(name, f"{both} differ: {other.misfit(first.name)}")
    for noun, its, own in (
        ("data type", source.dtype, first.dtype),
        ("nodata value", source.nodata, first.nodata),
    ):
        if its != own:
            difference = f"{both} differ: the {noun} is {its} in the first and {own} in the second"
            raise BadMap(
                name, f"{difference}; convert one of them first, for example with gdal_translate"
            )
    return int(shift.rows), int(shift.cols)


def _is_full(parts: Sequence[Part], cells: int) -> bool:
    """Return whether files cover all `cells` cells of a map without overlaps."""
    places = np.array([place for _, place in parts])
    is_apart = all(len(_overlapping(places, place)) == 1 for _, place in parts)  # itself
    return is_apart and sum(place.cells for _, place in parts) == cells


def _overlapping(places: NDArray[Any], place: Rectangle) -> NDArray[np.intp]:
    """Return the indices of the rectangles that overlap another rectangle."""
    tops, lefts, rows, cols = places.T
    in_rows = (tops < place.top + place.rows) & (tops + rows > place.top)
    in_cols = (lefts < place.left + place.cols) & (lefts + cols > place.left)
    return np.flatnonzero(in_rows & in_cols)


def _warn_of_overlaps(mosaic: MosaicMap) -> None:
    pairs = mosaic.overlaps
    if pairs:
        later, earlier = (mosaic.parts[index].source.name for index in pairs[0])
        more = f", and so do {len(pairs) - 1:,} more pairs of files" if len(pairs) > 1 else ""
        warn(
            f"{mosaic.name}: {earlier} and {later} overlap{more}: the cells of the file listed "
            "later are used unless they are null"
        )


@dataclass(frozen=True)
class MosaicMap:
    """Several files on the same grid as one map, as returned by `open_files`.

    Attributes
    ----------
    name : str
    parts : tuple of Part
    region : Region
    transform : tuple of six float
    crs : any
    is_masked : bool
        Whether the map's blocks have masks. They have masks if a file has a mask, or if the map may
        have gaps and has no nodata value.
    """

    name: str
    parts: tuple[Part, ...]
    region: Region
    transform: Transform
    crs: Any
    is_masked: bool
    is_file: ClassVar[bool] = True

    @cached_property
    def _places(self) -> NDArray[Any]:
        return np.array([place for _, place in self.parts])

    @cached_property
    def overlaps(self) -> Sequence[tuple[int, int]]:
        """The pairs of overlapping files, as indices with the later file first."""
        pairs = []
        for index, (_, place) in enumerate(self.parts):
            for other in _overlapping(self._places, place).tolist():
                if other < index:
                    pairs.append((index, other))
        return pairs

    def sent(self, outer: Rectangle) -> Optional[MosaicMap]:
        """Return a map of only the files in a window, or of the first file if there are none.

        Returns None if another process cannot open one of these files.
        """
        parts = []
        for index in _overlapping(self._places, outer).tolist() or [0]:
            source, place = self.parts[index]
            sent = source.sent(outer) if hasattr(source, "sent") else None
            if sent is None:
                return None
            parts.append(Part(sent, place))
        return replace(self, parts=tuple(parts))

    @property
    def dtype(self) -> np.dtype[Any]:
        """The data type of the map's blocks."""
        dtype: np.dtype[Any] = self.parts[0].source.dtype
        return dtype

    @property
    def nodata(self) -> Optional[int]:
        """The value that marks null in the map's blocks."""
        nodata: Optional[int] = self.parts[0].source.nodata
        return nodata

    @property
    def labels(self) -> Mapping[int, str]:
        """The labels of the map's categories, from the first file."""
        labels: Mapping[int, str] = self.parts[0].source.labels
        return labels

    @property
    def colors(self) -> Mapping[int, str]:
        """The colours of the map's categories, from the first file."""
        colors: Mapping[int, str] = self.parts[0].source.colors
        return colors

    @property
    def files(self) -> tuple[str, ...]:
        """The paths of all files from which the map is read."""
        return tuple(file for part in self.parts for file in part.source.files)

    @property
    def block_shape(self) -> tuple[int, int]:
        """The number of rows and columns in each block of the first file."""
        shape: tuple[int, int] = self.parts[0].source.block_shape
        return shape

    def blocks(self) -> Iterator[Block]:
        """Yield the rows from north to south."""
        rows, cols = self.region.shape
        step = max(1, BLOCK_CELLS // cols)
        for row in range(0, rows, step):
            yield self.window(row, 0, min(step, rows - row), cols)

    def window(self, row: int, col: int, rows: int, cols: int) -> Block:
        """Return a window of cells, with rows and columns counted from the north-west corner."""
        nodata = self.nodata
        cells = np.full((rows, cols), 0 if nodata is None else nodata, self.dtype)
        null = np.ones((rows, cols), np.bool_) if self.is_masked else None
        for index in _overlapping(self._places, Rectangle(row, col, rows, cols)):
            source, place = self.parts[index]
            # The part of the window that the file covers.
            top, left = max(row, place.top), max(col, place.left)
            bottom = min(row + rows, place.top + place.rows)
            right = min(col + cols, place.left + place.cols)
            block = source.window(top - place.top, left - place.left, bottom - top, right - left)
            target = np.s_[top - row : bottom - row, left - col : right - col]
            is_written: Any = True
            if self.overlaps:
                is_written = ~null_cells(block.cells, block.null, nodata)
            np.copyto(cells[target], block.cells, where=is_written)
            if null is not None:
                is_null = (
                    np.zeros(block.cells.shape, np.bool_) if block.null is None else block.null
                )
                np.copyto(null[target], is_null, where=is_written)
        return Block(cells, null)
