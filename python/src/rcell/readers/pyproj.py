# SPDX-License-Identifier: Apache-2.0 OR GPL-2.0-or-later
"""Handle reference systems with pyproj."""

from __future__ import annotations

import math
from dataclasses import dataclass
from typing import Any

import pyproj

from ..core.arrays import NDArray
from ..core.crs import CONFIDENCE, Crs, eastward

__all__ = ["PyprojCrs", "crs_of"]


@dataclass(frozen=True, eq=False)
class PyprojCrs(Crs):
    """A reference system from pyproj."""

    system: Any

    def is_equal(self, other: Crs) -> bool:
        """Return whether pyproj considers both systems equal, ignoring axis order."""
        assert isinstance(other, PyprojCrs)
        first, second = (pyproj.CRS(eastward(crs.system.to_json())) for crs in (self, other))
        return bool(first.equals(second, ignore_axis_order=True))

    def points(
        self, to: Crs, x: NDArray[Any], y: NDArray[Any]
    ) -> tuple[NDArray[Any], NDArray[Any]]:
        """Transform points to another system.

        Points outside the other system become infinite or NaN.
        """
        assert isinstance(to, PyprojCrs)
        change = pyproj.Transformer.from_crs(self.system, to.system, always_xy=True)
        moved: tuple[NDArray[Any], NDArray[Any]] = change.transform(x, y)
        return moved


def crs_of(text: str) -> PyprojCrs:
    """Parse the text of a reference system.

    Raises
    ------
    ValueError
        The text does not describe a reference system.

    Examples
    --------
    >>> crs_of("EPSG:4326").same(crs_of("OGC:CRS84"))
    True
    """
    try:
        system = pyproj.CRS.from_user_input(text)
    except pyproj.exceptions.CRSError as error:
        raise ValueError(str(error)) from None
    kind = _kind_of(system)
    unit = math.radians(1)  # one degree, unless the axes have a unit
    if system.axis_info:
        first_axis = system.axis_info[0]
        unit = float(first_axis.unit_conversion_factor)
    ellipsoid = (math.nan, math.nan)
    geod = system.get_geod() if kind == "geographic" else None
    if geod is not None:
        ellipsoid = (geod.a, geod.f)
    title = str(system.name)
    if title in ("unknown", "unnamed"):
        title = ""
    return PyprojCrs(
        wkt=str(system.to_wkt()),
        codes=_codes_of(system),
        title=title,
        kind=kind,
        unit=unit,
        ellipsoid=ellipsoid,
        system=system,
    )


def _kind_of(system: Any) -> str:
    if system.is_geographic:
        return "geographic"
    if system.is_projected:
        return "projected"
    if system.is_geocentric:
        return "geocentric"
    return "vertical" if system.is_vertical else "local"


def _codes_of(system: Any) -> tuple[str, ...]:
    """Return the codes that reliably identify a system, beginning with the system's own code."""
    own = system.to_authority(min_confidence=100)
    codes = [own] if own else []
    codes += [
        (match.auth_name, match.code)
        for match in system.list_authority(min_confidence=CONFIDENCE)
        if match.confidence >= CONFIDENCE
    ]
    return tuple(dict.fromkeys(":".join(code) for code in codes))
