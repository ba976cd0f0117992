# SPDX-License-Identifier: Apache-2.0 OR GPL-2.0-or-later
"""Count the cells of a map's classes, by zone or in combination with other maps."""

from __future__ import annotations

from typing import Any, Mapping

from .protocol import NULL

from .counting import Maps
from .arguments import check_named_maps
from .errors import BadArgument
from .sources import MapLike, named_once
from .columns import Column, Table

__all__ = ["composition", "cross"]


def composition(
    map: MapLike,
    zones: Any = None,
    area: str | None = "auto",
    labels: Any = None,
    zone_labels: Any = None,
    *,
    zone_field: str | None = None,
    layer: str | None = None,
    each: bool = False,
    include_null: bool = False,
    crs: Any = None,
) -> Table:
    """Count the cells of each class, with areas and percentages, in the full map or by zone.

    Parameters
    ----------
    map : path, array, or any map that `run` accepts
    zones : map, or path of polygons, GeoDataFrame or GeoSeries, optional
        The zones in which to count separately. A cell belongs to the polygon that contains the
        cell's centre. Features without a geometry or without a value are ignored.
    area : {"ha", "km2", "m2"} or None
        The unit of areas; None leaves areas out. By default, areas are in hectares if the map has a
        reference system with a known unit, and are left out otherwise. If the map is in degrees,
        areas are computed on the reference system's ellipsoid.
    labels, zone_labels : path, dict, Series or DataFrame, optional
        A legend that replaces the map's or the zones' labels: a CSV or TSV file with the columns
        `value` and `label`, a QGIS style (`.qml`), or a dict or Series of labels by value.
    zone_field : str, optional
        The polygon field that contains the ids or names of the zones. By default, zones are
        identified by feature id, which is the index for a GeoDataFrame.
    layer : str, optional
        The layer to read if the polygon file has several layers.
    each : bool
        Whether to process overlapping polygons separately, so that each polygon counts all of its
        cells. By default, cells in several polygons belong to the last polygon, and a warning is
        issued.
    include_null : bool
        Whether to also count null cells.
    crs : any, optional
        The coordinate reference system to assume for maps that do not have one.

    Returns
    -------
    pandas.DataFrame
        The columns are `zone` and `zone_label` (if there are zones), `class`, `label` (if there are
        labels), `cells`, `area_ha` and `percent`. `percent` is the class's percentage of the zone's
        non-null area or, without areas, of the zone's non-null cells.

    Raises
    ------
    Refused
        A legend or a polygon is invalid. See `run` for other reasons.

    Examples
    --------
    >>> import numpy as np, rcell
    >>> cells, labels = np.array([[1, 1, 2], [3, 2, 2]]), {1: "wood", 2: "water", 3: "town"}
    >>> lc = rcell.Raster(cells, (100, 0, 0, 0, -100, 200), labels=labels)
    >>> rcell.composition(lc, crs="EPSG:25832")
       class  label  cells  area_ha    percent
    0      1   wood      2      2.0  33.333333
    1      2  water      3      3.0  50.000000
    2      3   town      1      1.0  16.666667
    """
    maps = Maps({"map": map}, crs, zones, zone_field, layer, each)
    measure = maps.measure(area)
    names = ["map"] if zones is None else ["zones", "map"]
    [counts] = maps.counts([names], measure, include_null)
    zone_columns: list[Column] = []
    if zones is not None:
        counts = counts.where(counts.classes[:, 0] != NULL)
        zone_columns = maps.columns("zone", counts.classes[:, 0], "zones", zone_labels)
    class_columns = maps.columns("class", counts.classes[:, -1], "map", labels, label="label")
    percent = counts.percent(groups=0 if zones is None else 1)
    return Table(zone_columns + class_columns + counts.columns(measure, percent))


def cross(
    maps: Mapping[str, MapLike] | None = None,
    /,
    *,
    area: str | None = "auto",
    labels: Mapping[str, Any] | None = None,
    include_null: bool = False,
    crs: Any = None,
    **named: MapLike,
) -> Table:
    """Count the cells of each combination of classes in several maps, with areas and percentages.

    Parameters
    ----------
    maps : mapping, optional
        Maps by name. Use this mapping for names that are also parameters of this call.
    area : {"ha", "km2", "m2"} or None
        The unit of areas, as in `composition`.
    labels : mapping, optional
        Legends by map name, each as in `composition`.
    include_null : bool
        Whether to also count combinations that contain null.
    crs : any, optional
        The coordinate reference system to assume for maps that do not have one.
    **named
        At most 16 maps by name, or 15 if areas are computed for maps in degrees.

    Returns
    -------
    pandas.DataFrame
        For each map, a column `NAME` and, if the map has labels, a column `NAME_label`, followed by
        `cells`, `area_ha` and `percent`. `percent` is the row's percentage of the area (or, without
        areas, of the cells) in which no map is null.

    Raises
    ------
    Refused
        A legend is invalid. See `run` for other reasons.

    Examples
    --------
    >>> import numpy as np, rcell
    >>> a, b = np.array([[1, 1, 2]]), np.array([[7, 8, 8]])
    >>> rcell.cross(a=a, b=b)
       a  b  cells    percent
    0  1  7      1  33.333333
    1  1  8      1  33.333333
    2  2  8      1  33.333333
    """
    check_named_maps(maps, named, ("area", "labels", "include_null", "crs"))
    sources = named_once(maps, named)
    legends = {} if labels is None else labels
    is_mapping = isinstance(legends, Mapping)
    unknown = set(legends) - set(sources) if is_mapping else set()
    if not is_mapping or unknown:
        wrong = next(iter(unknown), labels)
        example = f'{{{next(iter(sources))!r}: "legend.csv"}}'
        rule = f"must contain legends by map name, for example {example}; got {wrong!r}"
        raise BadArgument("labels", rule)
    crossed = Maps(sources, crs)
    measure = crossed.measure(area)
    [counts] = crossed.counts([list(sources)], measure, include_null)
    columns: list[Column] = []
    for place, name in enumerate(sources):
        columns += crossed.columns(name, counts.classes[:, place], name, legends.get(name))
    return Table(columns + counts.columns(measure, counts.percent()))
