# SPDX-License-Identifier: Apache-2.0 OR GPL-2.0-or-later
"""Read text grids with rcell-pipe."""

from __future__ import annotations

import contextlib
import os
import re
from collections.abc import Iterator, Mapping
from dataclasses import dataclass, field, replace
from fractions import Fraction
from typing import Any

import numpy as np

from . import protocol
from .errors import BadMap, ReadFailed
from .files import opened
from .grid_files import ONE_CELL, PRINT_GRID, GridFile, Header, is_text_grid
from .host import host
from .programs import find_pipe, program_errors
from .region import Region, Transform, units_of
from .runs import values_of
from .sources import ArrayMap, Block, Source
from .tile_clumps import wide

__all__ = ["TextMap", "is_grid", "open_path"]

_VIRTUAL = re.compile(r"/vsi|[A-Za-z][A-Za-z0-9+.-]+:")


@dataclass(frozen=True)
class TextMap:
    """A map read from a text grid, created by `open_path`.

    Attributes
    ----------
    name : str
    file : GridFile
    region : Region
    """

    name: str
    file: GridFile
    region: Region
    files: tuple[str, ...] = ()
    labels: Mapping[int, str] = field(default_factory=dict)
    colors: Mapping[int, str] = field(default_factory=dict)
    crs: Any = None
    nodata: int | None = protocol.NULL
    dtype: np.dtype[Any] = np.dtype(np.int32)
    is_masked: bool = False

    def with_labels(self, labels: Mapping[int, str]) -> TextMap:
        """Return a copy of the map with these labels."""
        return replace(self, labels=labels)

    @property
    def transform(self) -> Transform:
        """The transform of results."""
        return self.region.transform

    def read(self) -> ArrayMap:
        """Read the map as an array, which stores cells as bytes if they fit.

        Raises
        ------
        Refused
            The program rejects the grid.
        ReadFailed
            The file cannot be read.
        """
        program = find_pipe()
        with self.file.maps() as maps, program_errors("", [self.name], program):
            [frame] = protocol.run(program, maps, PRINT_GRID, watch=host().watch)
        assert isinstance(frame, protocol.GridFrame)
        return ArrayMap(self.name, values_of(frame), self.region, nodata_value=frame.null)

    def blocks(self) -> Iterator[Block]:
        """Yield the rows from north to south, with the errors of `read`."""
        for block in self.read().blocks():
            yield Block(wide(block.cells), null=None)


def is_grid(path: str) -> bool:
    """Return whether a file begins like a text grid."""
    with contextlib.suppress(OSError, ValueError), open(path, "rb") as file:
        return is_text_grid(file.read(64))
    return False


def open_path(name: str, path: str | os.PathLike[str]) -> Source:
    """Open a text grid, or a file that rasterio can open, as a map.

    Raises
    ------
    ReadFailed
        The file cannot be opened.
    BadMap
        The file cannot be a map.
    Refused
        The program rejects the header of the text grid.
    """
    text = os.fsdecode(path)
    if "\0" in text:
        raise ReadFailed(name, f"cannot open: {text!r}: a path cannot contain a NUL byte")
    if _VIRTUAL.match(text) and not os.path.exists(text):
        return _raster(name, text)
    try:
        file = GridFile(name, text)
    except IsADirectoryError:
        return _raster(name, text)
    except OSError as error:
        raise ReadFailed(name, f"cannot open: {text}: {error.strerror}") from None
    except UnicodeEncodeError:
        raise ReadFailed(
            name, f"cannot open: {text!r}: a path cannot contain a surrogate character"
        ) from None
    if is_text_grid(file.start):
        opened(text)
        return _text_map(name, file)
    file.close()
    if not file.is_file:
        problem = f"{text} is neither a text grid nor a regular file"
        raise BadMap(name, f"{problem}: a raster must be a regular file")
    return _raster(name, text)


def _raster(name: str, path: str) -> Source:
    from ..readers import open_raster

    return open_raster(name, path)


def _text_map(name: str, file: GridFile) -> TextMap:
    """Return a text grid as a map, or raise the program's error about its header."""
    files = (file.path,) if file.is_file else ()
    if file.header is not None:
        return TextMap(name, file, _region_of(file.header), files)
    for _ in TextMap(name, file, _region_of(ONE_CELL)).blocks():
        pass
    raise BadMap(name, f"{file.path} does not begin with a valid grid header")


def _region_of(header: Header) -> Region:
    north, south, east, west = map(_edge_of, header.edges)
    return Region(north, south, east, west, header.rows, header.cols)


def _edge_of(text: str) -> float | Fraction:
    """Return an edge as a float or, if a float is not precise enough, as a Fraction."""
    exact = Fraction(text)
    return float(exact) if units_of(float(exact)) == units_of(exact) else exact
