# SPDX-License-Identifier: Apache-2.0 OR GPL-2.0-or-later
"""Convert maps between formats for `rcell-gis convert`.

Conversions between text formats need only the standard library.
"""

from __future__ import annotations

from collections.abc import Iterator
from typing import Any, Optional

from . import protocol
from .errors import Refused
from .esri_grids import esri_of_grid, grid_of_esri, is_esri
from .files import opened
from .grid_files import PRINT_GRID, GridFile, is_text_grid
from .programs import find_pipe, program_errors

__all__ = ["converted", "like", "printed_map"]


def converted(path: str, to_esri: bool) -> Optional[Iterator[bytes]]:
    """Convert a text grid to the ESRI ASCII or rcell format.

    Returns the text in pieces, or None if the file is not a text grid, or is an ESRI ASCII grid and
    `to_esri` is true.
    """
    try:
        file = GridFile("map", path)
    except OSError:
        return None  # a path that only GDAL can open
    if is_text_grid(file.start):
        opened(path)  # an error if the output would overwrite this file
        return esri_of_grid(_printed(file)) if to_esri else _printed(file)
    file.close()
    if is_esri(file.start) and not to_esri:
        opened(path)
        return grid_of_esri(path)
    return None


def _printed(file: GridFile) -> Iterator[bytes]:
    """Yield the pieces of a text grid in the layout that rcell prints."""
    program = find_pipe()
    with file.maps() as maps, program_errors("", ["map"], program):
        yield from protocol.text(program, maps, PRINT_GRID)


def printed_map(raster: Any, to_esri: bool) -> Iterator[bytes]:
    """Yield the pieces of a map's text as an rcell grid or an ESRI ASCII grid."""
    pieces = iter([raster.text()])
    return esri_of_grid(pieces) if to_esri else pieces


def like(raster: Any, path: str) -> Any:
    """Return a copy of a map with the reference system and exact extent of another map.

    The edges of the two maps may differ by up to half a cell.

    Raises
    ------
    Refused
        The numbers of rows or columns differ, or an edge differs by more than half a cell.
    """
    from .sources import source_of

    other = source_of("like", path)
    mine, its = raster.region, other.region
    if mine.shape != its.shape:
        shape = f"{its.rows} rows and {its.cols} columns"
        problem = f"{path} has {shape}, but the map has {mine.rows} and {mine.cols}"
        raise Refused(problem, "like", status=1)
    height = (its.north - its.south) / its.rows
    width = (its.east - its.west) / its.cols
    for name, size in (("north", height), ("south", height), ("east", width), ("west", width)):
        edge, other_edge = getattr(mine, name), getattr(its, name)
        if abs(edge - other_edge) * 2 > size:
            rule = f"{name} must be within half a cell of {edge}; got {other_edge}"
            raise Refused(f"{path}: {rule}", "like", status=1)
    crs = raster.crs if other.crs is None else other.crs
    legend = {"labels": raster.labels, "colors": raster.colors}
    return type(raster)(raster.array, other.transform, crs, **legend)
