# SPDX-License-Identifier: Apache-2.0 OR GPL-2.0-or-later
"""Handle reference systems with GDAL's Python bindings."""

from __future__ import annotations

import contextlib
import math
from collections.abc import Iterator
from dataclasses import dataclass
from typing import Any

import numpy as np
from osgeo import gdal, osr

from ..core.arrays import NDArray
from ..core.crs import CONFIDENCE, Crs, eastward

__all__ = ["OsrCrs", "crs_of", "quiet"]


@contextlib.contextmanager
def quiet() -> Iterator[None]:
    """Silence GDAL's messages on standard error in this thread, but not its exceptions."""
    gdal.PushErrorHandler("CPLQuietErrorHandler")
    try:
        yield
    finally:
        gdal.PopErrorHandler()


_EXCEPT_AXES = [
    "IGNORE_DATA_AXIS_TO_SRS_AXIS_MAPPING=YES",
    "CRITERION=EQUIVALENT_EXCEPT_AXIS_ORDER_GEOGCRS",
]


@dataclass(frozen=True, eq=False)
class OsrCrs(Crs):
    """A reference system from osr."""

    system: Any

    def is_equal(self, other: Crs) -> bool:
        """Return whether osr considers both systems equal, ignoring axis order."""
        assert isinstance(other, OsrCrs)
        with quiet():
            first, second = osr.SpatialReference(), osr.SpatialReference()
            first.SetFromUserInput(eastward(self.system.ExportToPROJJSON()))
            second.SetFromUserInput(eastward(other.system.ExportToPROJJSON()))
            return bool(first.IsSame(second, _EXCEPT_AXES))

    def points(
        self, to: Crs, x: NDArray[Any], y: NDArray[Any]
    ) -> tuple[NDArray[Any], NDArray[Any]]:
        """Transform points to another system.

        Points outside the other system become infinite or NaN.
        """
        assert isinstance(to, OsrCrs)
        with quiet():
            change = osr.CoordinateTransformation(self.system, to.system)
            moved = np.array(change.TransformPoints(np.column_stack([x.ravel(), y.ravel()])))
        new_x, new_y = moved[:, 0], moved[:, 1]  # without heights
        return new_x.reshape(x.shape), new_y.reshape(x.shape)


def crs_of(text: str) -> OsrCrs:
    """Parse the text of a reference system.

    Raises
    ------
    ValueError
        The text does not describe a reference system.
    """
    system = osr.SpatialReference()
    with quiet():
        try:
            is_known = system.SetFromUserInput(text) == 0  # the code for no error
        except RuntimeError:
            is_known = False
    if not is_known:
        raise ValueError(f"not a reference system: {text}")
    system.SetAxisMappingStrategy(osr.OAMS_TRADITIONAL_GIS_ORDER)
    kind = _kind_of(system)
    unit, ellipsoid = math.nan, (math.nan, math.nan)
    if kind == "projected":
        unit = system.GetLinearUnits()
    elif kind == "geographic":
        unit = system.GetAngularUnits()
        inverse = system.GetInvFlattening()
        flattening = 1 / inverse if inverse else 0.0
        ellipsoid = (system.GetSemiMajor(), flattening)
    title = system.GetName() or ""
    if title in ("unknown", "unnamed"):
        title = ""
    return OsrCrs(
        wkt=str(system.ExportToWkt(["FORMAT=WKT2_2019"])),
        codes=_codes_of(system),
        title=title,
        kind=kind,
        unit=unit,
        ellipsoid=ellipsoid,
        system=system,
    )


def _kind_of(system: Any) -> str:
    if system.IsGeographic():
        return "geographic"
    if system.IsProjected():
        return "projected"
    if system.IsGeocentric():
        return "geocentric"
    return "vertical" if system.IsVertical() else "local"


def _codes_of(system: Any) -> tuple[str, ...]:
    """Return the codes that reliably identify a system, beginning with the system's own code."""
    codes = [(system.GetAuthorityName(None), system.GetAuthorityCode(None))]
    with quiet():
        try:
            matches = system.FindMatches() or []
        except RuntimeError:
            matches = []
    codes += [
        (match.GetAuthorityName(None), match.GetAuthorityCode(None))
        for match, confidence in matches
        if confidence >= CONFIDENCE
    ]
    named = [f"{register}:{code}" for register, code in codes if register and code]
    return tuple(dict.fromkeys(named))
