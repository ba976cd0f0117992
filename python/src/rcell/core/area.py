# SPDX-License-Identifier: Apache-2.0 OR GPL-2.0-or-later
"""Compute cell areas: one area for a projected map, or one per row for a map in degrees."""

from __future__ import annotations

import math
from dataclasses import dataclass
from typing import Any

import numpy as np

from .arrays import NDArray
from .crs import UNITS_OF_AREA, Crs, known, metres_of_unit
from .errors import BadArgument, MissingLibrary, Refused
from .host import option, warn
from .region import Transform
from .sources import Source

__all__ = ["AUTO", "Measure", "flat_measure", "measure_of", "metres_of", "row_areas", "unit_of"]

AUTO = "auto"

# How far a row may extend beyond a pole, in cells: half a cell, and a margin for rounding.
_MOST_BEYOND = 0.5 + 1e-6


def row_areas(
    north: float, height: float, width: float, rows: int, ellipsoid: tuple[float, float]
) -> NDArray[np.float64]:
    """Return the area of a cell in each row, in square metres on the ellipsoid.

    Parameters
    ----------
    north, height, width : float
        The grid's northern edge and a cell's height and width, in radians.
    rows : int
    ellipsoid : tuple of float
        The semi-major axis in metres and the flattening.

    Examples
    --------
    >>> float(row_areas(math.pi / 2, math.pi, 2 * math.pi, 1, (1.0, 0.0))[0] / math.pi)
    4.0
    """
    # The area between two parallels: equation 3-12 and the authalic radius in Snyder, Map
    # Projections: A Working Manual (1987).
    axis, flattening = ellipsoid
    edges = north - height * np.arange(rows + 1)
    # Cells may be centred on a pole. Their half beyond the pole has no area.
    if rows and max(edges[0], -edges[-1]) > math.pi / 2 + height * _MOST_BEYOND:
        side, edge = ("north", edges[0]) if edges[0] > math.pi / 2 else ("south", edges[-1])
        problem = f"the map extends beyond the pole: {side} is {math.degrees(edge):.10g}"
        raise Refused(problem, "map")
    upper, lower = np.minimum(edges[:-1], math.pi / 2), np.maximum(edges[1:], -math.pi / 2)
    is_cut_at_pole = (upper < edges[:-1]) | (lower > edges[1:])
    step = np.where(is_cut_at_pole, upper - lower, height)
    # The difference of the sines, from a product: a subtraction would lose digits for thin rows.
    sines = 2 * np.cos((upper + lower) / 2) * np.sin(step / 2)
    if flattening == 0:
        return np.asarray(width * axis**2 * sines)
    e2 = flattening * (2 - flattening)  # the eccentricity squared
    e, s1, s2 = math.sqrt(e2), np.sin(upper), np.sin(lower)
    # The terms of equation 3-12 for both parallels, subtracted as fractions and logarithms.
    fractions = sines * (1 + e2 * s1 * s2) / ((1 - e2 * s1**2) * (1 - e2 * s2**2))
    logarithms = np.arctanh(e * sines / (1 - e2 * s1 * s2)) / e
    semi_minor = axis * (1 - flattening)
    return np.asarray(width / 2 * semi_minor**2 * (fractions + logarithms))


@dataclass(frozen=True)
class Measure:
    """The cell sizes of a map, and the unit of areas.

    Attributes
    ----------
    unit : str or None
        The unit of areas, or None if no areas are wanted.
    divisor : float
        The number of square metres in a unit of area.
    cell : float
        The area of a cell in square metres, if the map is projected.
    by_row : array of float64 or None
        The area of a cell in each row, in square metres, if the map is in degrees and areas are
        wanted.
    metres : float or None
        The length of the map's unit in metres, NaN if the unit is degrees, or None if it is
        unknown.
    """

    unit: str | None
    divisor: float
    cell: float
    by_row: NDArray[np.float64] | None
    metres: float | None

    def length(self) -> float:
        """Return the length of the map's unit in metres, or NaN if the unit is unknown or degrees.

        Warns if the map is in degrees.
        """
        if self.metres is None:
            return math.nan
        if math.isnan(self.metres):
            warn("lengths are not computed for maps in degrees")
        return self.metres

    @property
    def column(self) -> str:
        """The suffix of size column names: the unit of areas, or `cells` without areas."""
        return self.unit or "cells"

    def area(self, weights: NDArray[Any]) -> NDArray[np.float64]:
        """Convert sizes to areas in the requested unit.

        Sizes are numbers of cells if the map is projected, and square metres if it is in degrees.
        """
        return weights * self.cell / self.divisor


def measure_of(area: Any, source: Source, crs: Any) -> Measure:
    """Return the cell sizes of a map and the unit of areas.

    Parameters
    ----------
    area : {"auto", "ha", "km2", "m2"} or None
        The unit of areas. "auto" means hectares if the map has a reference system, and no areas
        otherwise.
    source : Source
    crs : any

    Raises
    ------
    BadArgument
        The unit is unknown, or a unit is given but the map has no reference system.
    Refused
        The reference system is neither geographic nor projected, so cells have no area.
    """
    unit = unit_of(area, crs)
    metres = _metres(crs, is_needed=unit is not None)
    divisor = UNITS_OF_AREA.get(unit or "", 1.0)
    if unit is None or metres is None:
        return Measure(unit, divisor, cell=1.0, by_row=None, metres=metres)
    if math.isnan(metres):
        return Measure(unit, divisor, cell=1.0, by_row=_by_row(source, crs), metres=metres)
    return Measure(unit, divisor, _cell(source.transform, metres), by_row=None, metres=metres)


def flat_measure(area: str, transform: Transform, crs: Any) -> Measure:
    """Return the cell sizes of a map whose cells all have the same area.

    Raises
    ------
    BadArgument
        The map is in degrees. See `measure_of` for other reasons.
    """
    unit = unit_of(area, crs)
    metres = _metres(crs, is_needed=True)
    assert unit is not None and metres is not None
    if math.isnan(metres):
        rule = "requires a map in metres or feet, but this map is in degrees"
        advice = "use composition or cross, which compute the cell area of each row"
        raise BadArgument("area", f"{rule}: {advice}")
    return Measure(unit, UNITS_OF_AREA[unit], _cell(transform, metres), by_row=None, metres=metres)


def metres_of(name: str, crs: Any, advice: str = "") -> float:
    """Return the length of a map's unit in metres, or raise an error that names the argument."""
    if crs is None:
        rule = "requires a coordinate reference system, but the map has none"
        raise BadArgument(name, f"{rule}: state it, for example {option('crs', 'EPSG:25832')}")
    metres = _metres(crs, is_needed=True)
    if metres is None or math.isnan(metres):
        rule = "requires a map in metres or feet, but this map is in degrees"
        raise BadArgument(name, rule + advice)
    return metres


def _cell(transform: Transform, metres: float) -> float:
    """Return the area of a cell in square metres."""
    width, _, _, _, height, _ = transform  # the height is negative
    return -height * width * metres**2


def unit_of(area: Any, crs: Any) -> str | None:
    """Return the requested unit of areas, or None if no areas are wanted.

    Examples
    --------
    >>> unit_of("auto", None) is None
    True
    """
    if area is None or area == AUTO:
        return None if area is None or crs is None else "ha"
    if not isinstance(area, str) or area not in UNITS_OF_AREA:
        raise BadArgument("area", f"must be ha, km2, m2 or None; got {area!r}")
    if crs is None:
        problem = "requires a coordinate reference system, but the maps have none"
        example = option("crs", "EPSG:25832")
        raise BadArgument("area", f'"{area}" {problem}: state it, for example {example}')
    return area


def _metres(crs: Any, is_needed: bool) -> float | None:
    """Return the unit's length in metres, NaN for degrees, or None if unknown and not needed."""
    system = known(crs) if is_needed or crs is None else _understood(crs)
    if system is None:
        return None
    if system.kind == "geographic":
        return math.nan
    return metres_of_unit(crs) if is_needed or system.kind == "projected" else None


def _understood(crs: Any) -> Crs | None:
    """Return a reference system, or None if no library that can read it is installed."""
    try:
        return known(crs)
    except MissingLibrary:
        return None


def _by_row(source: Source, crs: Any) -> NDArray[np.float64]:
    """Return the area of a cell in each row, on the reference system's ellipsoid."""
    system = known(crs)
    assert system is not None
    width, _, _, _, height, north = source.transform
    return row_areas(
        north * system.unit,  # radians
        -height * system.unit,
        width * system.unit,
        source.region.rows,
        system.ellipsoid,
    )
