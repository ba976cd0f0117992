# SPDX-License-Identifier: Apache-2.0 OR GPL-2.0-or-later
"""Find the most frequent and the rarest class of each zone."""

from __future__ import annotations

from typing import Any

import numpy as np

from .columns import Column, Table
from .counting import Maps, coded, legend_for, places_of
from .sources import MapLike

__all__ = ["dominant"]


def dominant(
    map: MapLike,
    zones: Any,
    area: str | None = "auto",
    labels: Any = None,
    zone_labels: Any = None,
    *,
    zone_field: str | None = None,
    layer: str | None = None,
    each: bool = False,
    crs: Any = None,
) -> Table:
    """Find the most frequent and the rarest class of each zone, and count the classes.

    Parameters
    ----------
    map : path, array, or any map that `run` accepts
    zones : map, or path of polygons, GeoDataFrame or GeoSeries
        See `composition`.
    area : {"ha", "km2", "m2"} or None
        The unit of areas, as in `composition`.
    labels, zone_labels : path, dict, Series or DataFrame, optional
        Legends, as in `composition`.
    zone_field, layer : str, optional
        See `composition`.
    each : bool
        Whether to process overlapping polygons separately, as in `composition`.
    crs : any, optional
        The coordinate reference system to assume for maps that do not have one.

    Returns
    -------
    pandas.DataFrame
        The columns are `zone`, `zone_label`, `cells`, `area_ha`, `classes` (the number of classes),
        `majority`, `majority_label`, `majority_percent`, `minority`, `minority_label` and
        `minority_percent`. Frequencies and percentages are based on the zone's non-null cells, not
        on areas, even if the map is in degrees. In a tie, the smallest class is used. Zones with
        only null cells are left out.

    Raises
    ------
    Refused
        A legend or a polygon is invalid. See `run` for other reasons.

    Examples
    --------
    >>> import numpy as np, rcell
    >>> land, zone = np.array([[1, 1, 2, 5]]), np.array([[7, 7, 7, 8]])
    >>> rcell.dominant(land, zone)[["zone", "cells", "classes", "majority", "minority"]]
       zone  cells  classes  majority  minority
    0     7      3        2         1         2
    1     8      1        1         5         5
    """
    maps = Maps({"map": map}, crs, zones, zone_field, layer, each)
    measure = maps.measure(area)
    [counts] = maps.counts([["zones", "map"]], measure)
    zone, classes = counts.classes.T
    first = places_of(zone)  # the index of each zone's first entry
    sums = counts.summed(first)
    columns = maps.columns("zone", zone[first], "zones", zone_labels) + sums.columns(measure)
    class_counts = np.diff([*first, len(zone)]).astype(np.int64)
    columns.append(Column("classes", "count", class_counts))
    legend = legend_for(labels, maps.sources["map"].labels, [(maps.first.name, classes)])
    for title, sign in (("majority", -1), ("minority", 1)):
        # lexsort sorts by its last key first: by zone, then by cells (descending for the majority),
        # then by class. So each zone still begins at its first index, now with the wanted entry.
        entries = np.lexsort([classes, sign * counts.cells, zone])[first]
        columns += coded(title, classes[entries], legend)
        percent = counts.cells[entries] * 100.0 / sums.cells
        columns.append(Column(f"{title}_percent", "measure", percent))
    return Table(columns)
