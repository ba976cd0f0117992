# SPDX-License-Identifier: Apache-2.0 OR GPL-2.0-or-later
"""Find the cells within given distances of classes (buffers)."""

from __future__ import annotations

import dataclasses
import math
from collections.abc import Iterable, Sequence
from fractions import Fraction
from typing import Any

import numpy as np

from .area import metres_of
from .arguments import classes_of, is_number, list_of
from .errors import BadArgument
from .kept import cells_for
from .protocol import NULL, NULL_BYTE
from .scripts import Run
from .sources import ArrayMap, MapLike

__all__ = ["within"]

# The largest distance in cells. The time per cell grows with it.
MOST_STEPS = 255
# The number of cells, in complete rows, to process at a time, so that their bits fit in a cache.
_CACHED = 1 << 20


def within(
    map: MapLike,
    classes: int | Iterable[int],
    distances: float | Iterable[float],
    *,
    crs: Any = None,
) -> ArrayMap:
    """Find the cells within given distances of classes, measured between cell centres.

    Parameters
    ----------
    map : path, array, or any map that `run` accepts
        A map in metres or feet. Maps in degrees are not accepted.
    classes : int or iterable of int
        The classes from which distances are measured.
    distances : float or iterable of float
        The distances in metres, in ascending order, up to 255 cells.
    crs : any, optional
        The coordinate reference system to assume for a map that does not have one.

    Returns
    -------
    Raster
        A map that is 0 in the classes, 1 up to the first distance, 2 up to the second distance, and
        so on, and null beyond the last distance. Null cells of the map are treated like other
        cells. The labels name the distances. Passed as `zones` to `composition`, the map yields the
        classes in each ring.

    Raises
    ------
    Refused
        See `run`.
    BadArgument
        No class is given; the distances are too large or not in ascending order; or the length of
        the map's unit is unknown.

    Examples
    --------
    >>> import rcell
    >>> lc = rcell.Raster([[7, 1, 1, 1]], (10, 0, 0, 0, -10, 10), crs="EPSG:25832")
    >>> found = rcell.within(lc, classes=[7], distances=[10, 25])
    >>> found.array.tolist(), found.labels
    ([[0, 1, 2, None]], {0: 'inside', 1: 'up to 10 m', 2: '10 to 25 m'})
    """
    listed = sorted(set(classes_of(classes) or ()))
    if not listed:
        raise BadArgument("classes", f"must be a list of whole numbers; got {classes!r}")
    steps = _ascending(distances)
    rules = "\n".join(f"{code} = 0" for code in listed)
    script = f"r.reclass input=map output=within\n{rules}\nend"
    run = Run(script, {"map": map}, named={}, crs=crs)
    metres = metres_of("distances", run.crs)
    width, _, _, _, height, _ = run.first.transform
    # The first ring contains only the cell itself.
    rings = [[0], *(reaches(distance, width * metres, -height * metres) for distance in steps)]
    [inside] = run.maps(["within"])
    null = NULL_BYTE if inside.is_narrow and len(rings) < NULL_BYTE else NULL
    ends = [f"{distance:.10g}" for distance in steps]
    begins = ["up", *ends[:-1]]
    labels = ["inside", *(f"{begin} to {end} m" for begin, end in zip(begins, ends))]
    return dataclasses.replace(
        inside,
        array=_ring_of(inside.array, rings, null),
        nodata_value=null,
        labels=dict(enumerate(labels)),
        is_narrow=null == NULL_BYTE,
    )


def _ascending(distances: Any) -> list[float]:
    """Return distances as floats, or raise BadArgument unless they are positive and ascending."""
    listed = list_of("distances", distances, "numbers, for example [100, 500]")
    if not listed:
        raise BadArgument("distances", "must have at least one number; got none")
    last = 0.0
    for distance in listed:
        if not is_number(distance) or not last < distance < math.inf:
            raise BadArgument("distances", f"must be ascending numbers above 0; got {distance!r}")
        last = float(distance)
    return listed


def reaches(distance: float, width: float, height: float) -> list[int]:
    """Return how many columns away a cell within the distance may be, for 0, 1, 2, .. rows.

    Examples
    --------
    >>> reaches(2.5, 1, 1)
    [2, 2, 1]
    """
    # Squares of fractions are exact, so that no cell on the edge of a circle is lost by rounding.
    distance2, width2, height2 = (Fraction(length) ** 2 for length in (distance, width, height))
    if distance2 >= min(width2, height2) * (MOST_STEPS + 1) ** 2:
        cells = distance / min(width, height)
        rule = (
            f"must be at most {MOST_STEPS} cells; got {distance:.10g} m, which is {cells:.1f} cells"
        )
        raise BadArgument("distances", rule)
    cols: list[int] = []
    while (remaining := distance2 - len(cols) ** 2 * height2) >= 0:
        cols.append(math.isqrt(math.floor(remaining / width2)))
    return cols


def _ring_of(cells: Any, rings: Sequence[Sequence[int]], null: int) -> Any:
    """Return the index of each cell's smallest ring that contains a 0, or null if none does."""
    largest = rings[-1]
    ring_rows, ring_cols = len(largest) - 1, largest[0]
    rows, cols = cells.shape
    if hasattr(cells, "map_overlap"):  # a Dask array
        depth = min(ring_rows, rows), min(ring_cols, cols)
        options = {"rings": rings, "null": NULL, "dtype": np.int32, "boundary": "none"}
        return cells.map_overlap(_ring_of, depth=depth, **options).rechunk(cells.chunks)
    step = max(1, _CACHED // cols)
    parts = [slice(start, start + step) for start in range(0, rows, step)]
    # One bit per cell, and zeros after each row, so that a widened row does not reach the next row.
    inside = np.zeros((rows, (cols + ring_cols) // 64 + 1), "<u8")
    for part in parts:
        bits = np.packbits(cells[part] == 0, axis=1, bitorder="little")
        inside[part].view(np.uint8)[:, : bits.shape[1]] = bits
    nearest = cells_for(cells.shape, np.uint8 if null == NULL_BYTE else np.int32)
    nearest.fill(null)
    # Smaller rings come later and replace larger rings.
    for number, ring in reversed(list(enumerate(rings))):
        near = _near(inside, ring, parts).view(np.uint8)
        for part in parts:
            is_near = np.unpackbits(near[part], axis=1, count=cols, bitorder="little")
            np.copyto(nearest[part], number, where=is_near.view(np.bool_))
    return nearest


def _near(inside: Any, ring: Sequence[int], parts: Sequence[slice]) -> Any:
    """Return the bits of the cells whose ring contains a cell in `inside`."""
    most = len(ring) - 1
    # With `most` additional rows above and below, for rings that reach beyond the map.
    near = np.zeros((len(inside) + 2 * most, inside.shape[1]), inside.dtype)
    for part in parts:
        wide, width = inside[part], 0
        # The ring is narrowest in its farthest rows, so the bits are widened from these rows on.
        for row, reach in reversed(list(enumerate(ring))):
            wide, width = _widened(wide, reach - width), reach
            for top in (part.start + most - row, part.start + most + row):
                near[top : top + len(wide)] |= wide
    return near[most : most + len(inside)]


def _widened(bits: Any, times: int) -> Any:
    """Return bits in which all bits up to `times` places from a set bit are also set."""
    flat = bits.reshape(-1)
    for _ in range(times):
        wide = flat | flat << 1 | flat >> 1
        # A bit at the end of a 64-bit word also widens into the next word.
        wide[1:] |= flat[:-1] >> 63
        wide[:-1] |= flat[1:] << 63
        flat = wide
    return flat.reshape(bits.shape)
