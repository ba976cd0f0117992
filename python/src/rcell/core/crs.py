# SPDX-License-Identifier: Apache-2.0 OR GPL-2.0-or-later
"""Compare coordinate reference systems and look up their units."""

from __future__ import annotations

import functools
import json
from dataclasses import dataclass
from typing import Any, Mapping

from .arrays import NDArray
from .errors import BadArgument, BadMap, MissingLibrary, OtherCrs, Refused
from .host import host, option

__all__ = [
    "UNITS_OF_AREA",
    "Crs",
    "are_same_crs",
    "common_crs",
    "eastward",
    "is_geographic",
    "known",
    "metres_of_unit",
    "wkt_of",
]

UNITS_OF_AREA = {"m2": 1.0, "ha": 1e4, "km2": 1e6}
# The smallest confidence, in percent, with which a library may match a text to a registered system.
CONFIDENCE = 90
_SHOWN = 60  # the number of characters of a long text that messages show


@dataclass(frozen=True, eq=False)
class Crs:
    """A coordinate reference system, as read by a library.

    `readers.pyproj` implements this class with pyproj, and `readers.gdal` with GDAL's osr.

    Attributes
    ----------
    wkt : str
        The well-known text of the system.
    codes : tuple of str
        The system's codes in registries, for example `EPSG:3035`.
    title : str
        The name of the system.
    kind : {"geographic", "projected", "geocentric", "vertical", "local"}
    unit : float
        The size of the unit, in radians if the system is geographic, otherwise in metres.
    ellipsoid : tuple of float
        The semi-major axis in metres and the flattening, if the system is geographic.
    """

    wkt: str
    codes: tuple[str, ...]
    title: str
    kind: str
    unit: float
    ellipsoid: tuple[float, float]

    @property
    def name(self) -> str:
        """The code and the title of the system, for messages."""
        title = self.title or "an unnamed system"
        return f"{self.codes[0]} ({title})" if self.codes else title

    @property
    def code(self) -> str:
        """The first code of the system, for commands and options, or `WKT` without a code."""
        return self.codes[0] if self.codes else "WKT"

    def same(self, other: Crs) -> bool:
        """Return whether two systems are the same for coordinates in the order x, y."""
        return (
            self.wkt == other.wkt
            or bool(set(self.codes) & set(other.codes))
            or self.is_equal(other)
        )

    def is_equal(self, other: Crs) -> bool:
        """Return whether the library considers two systems equal, ignoring the axis order."""
        raise NotImplementedError

    def points(
        self, to: Crs, x: NDArray[Any], y: NDArray[Any]
    ) -> tuple[NDArray[Any], NDArray[Any]]:
        """Transform points to another system.

        Points outside the other system's domain become infinite or NaN.
        """
        raise NotImplementedError


def eastward(projjson: str) -> str:
    """Return a system's PROJJSON with the axes in the order x, y and without a code.

    Examples
    --------
    >>> eastward('{"coordinate_system": {"axis": [{"direction": "north"}, {"direction": "east"}]}}')
    '{"coordinate_system": {"axis": [{"direction": "east"}, {"direction": "north"}]}}'
    """
    form = json.loads(projjson)
    axes = form.get("coordinate_system", {}).get("axis", [])
    # False sorts before True: the axis to the east or west becomes the first.
    axes.sort(key=lambda axis: axis.get("direction") not in ("east", "west"))
    form.pop("id", None)
    return json.dumps(form)


def known(crs: Any) -> Crs | None:
    """Convert a reference system to a `Crs`, or return None for None.

    The reference system may be a library's object, a code or well-known text.

    Raises
    ------
    ValueError
        The reference system is not understood.
    MissingLibrary
        Neither pyproj nor GDAL's Python package is installed.
    """
    if isinstance(crs, Crs):
        return crs
    text = _text_of(crs)
    return _known(text) if text else None


@functools.lru_cache(maxsize=64)
def _known(text: str) -> Crs:
    from ..readers import crs_of

    return crs_of(text)


def _text_of(crs: Any) -> str:
    """Return a reference system as a string, or an empty string for None."""
    if crs is None:
        return ""
    for method in ("to_wkt", "ExportToWkt"):  # of pyproj and rasterio, and of GDAL
        if hasattr(crs, method):
            return str(getattr(crs, method)())
    if isinstance(crs, Mapping):  # PROJ parameters
        words = []
        for key, value in crs.items():
            words.append(f"+{key}" if value is True else f"+{key}={value}")
        return " ".join(words)
    return f"EPSG:{crs}" if isinstance(crs, int) else str(crs)


def wkt_of(crs: Any) -> str:
    """Return the well-known text of a reference system, or an empty string for None.

    Examples
    --------
    >>> wkt_of(None)
    ''
    """
    text = _text_of(crs)
    return text if not text or "[" in text else _known(text).wkt


def _checked(name: str, crs: Any) -> Any:
    """Return a reference system, or raise BadMap if it is not understood.

    If no library is installed, the reference system is returned unchecked.
    """
    try:
        return None if known(crs) is None else crs
    except MissingLibrary:
        return crs
    except ValueError:
        raise BadMap(
            name, f"its coordinate reference system is not understood: {str(crs)[:_SHOWN]!r}"
        ) from None


def _named(crs: Any) -> tuple[str, str]:
    """Return the code and the name of a reference system, for messages."""
    try:
        system = known(crs)
    except MissingLibrary:
        system = None
    return ("WKT", _text_of(crs)[:_SHOWN]) if system is None else (system.code, system.name)


def common_crs(
    maps: Mapping[str, Any],
    stated: Any = None,
    warp: str = "gdalwarp",
    titles: Mapping[str, str] | None = None,
) -> Any:
    """Return the reference system that all maps share, or raise OtherCrs if two maps differ.

    Parameters
    ----------
    maps : mapping of str to any
        The reference system of each map by name, or None for a map without a reference system.
    stated : any, optional
        The coordinate reference system to assume for maps that do not have one.
    warp : str
        The name of the GDAL program that reprojects the maps, for messages.
    titles : mapping of str to str, optional
        The names of the maps in messages, if they differ from the names in `maps`.

    Raises
    ------
    OtherCrs
        Two reference systems differ, or only some maps have one and `stated` is not given.
    BadMap
        The reference system of a map is not understood.
    BadArgument
        The stated reference system is not understood.

    Examples
    --------
    >>> common_crs({"a": None, "b": None}) is None
    True
    """
    try:
        common = _checked("arguments", stated)
    except BadMap:  # an argument is not a map, so its error has another type
        rule = f"must be a coordinate reference system; got {str(stated)[:_SHOWN]!r}"
        raise BadArgument("crs", rule) from None
    systems = {name: _checked(name, crs) for name, crs in maps.items()}
    first = next((name for name, crs in systems.items() if crs is not None), None)
    if first is None:
        return common
    common = systems[first] if common is None else common
    titles = titles or {name: name for name in maps}
    for name, crs in systems.items():
        if crs is None and stated is None:
            code, title = _named(common)
            text = f"it has no coordinate reference system, but `{titles[first]}` has {title}"
            raise OtherCrs(titles[name], f"{text}: state it with {option('crs', code)}")
        if crs is not None and not are_same_crs(crs, common):
            code, title = _named(common)
            _, own_title = _named(crs)
            has = f"`{titles[first]}` has" if stated is None else f"{option('crs')} is"
            text = f"its coordinate reference system is {own_title}, but {has} {title}"
            hint = f"reproject one of them first, for example with {_warping(warp, code)}"
            raise OtherCrs(titles[name], f"{text}: {hint}")
    return common


def _warping(program: str, code: str) -> str:
    """Return the command, or the QGIS tool, that reprojects a map or polygons."""
    if host().words == "qgis":
        return "Warp (reproject)" if program == "gdalwarp" else "Reproject layer"
    return f"{program} -t_srs {code}"


def are_same_crs(crs: Any, other: Any) -> bool:
    """Return whether two reference systems are the same."""
    if crs is other or _text_of(crs) == _text_of(other):
        return True
    mine, its = known(crs), known(other)
    return mine is its or (mine is not None and its is not None and mine.same(its))


def is_geographic(crs: Any) -> bool:
    """Return whether a reference system is in degrees (False for None).

    Examples
    --------
    >>> is_geographic(None)
    False
    """
    system = known(crs)
    return system is not None and system.kind == "geographic"


def metres_of_unit(crs: Any) -> float:
    """Return the length of a reference system's unit in metres, or 1 for None.

    Raises
    ------
    Refused
        The reference system is not projected, so cells have no area.
    """
    system = known(crs)
    if system is None:
        return 1.0
    if system.kind != "projected":
        problem = f"the reference system {system.name} is {system.kind}, so cells have no area"
        raise Refused(f"{problem}: reproject the map, or leave areas out", "map")
    return system.unit
