# SPDX-License-Identifier: Apache-2.0 OR GPL-2.0-or-later
"""Compute landscape metrics of patches, classes and landscapes, for the full map or by zone.

The definitions follow FRAGSTATS 4 (McGarigal, Cushman and Ene 2012), without a background class.
Edges are borders between two classes.
"""

from __future__ import annotations

from typing import Any

import numpy as np

from .area import Measure
from .arguments import check_connectivity
from .arrays import Floats, Integers
from .columns import Column, Table, measures
from .counting import Maps, sized
from .errors import BadArgument
from .landscapes import Landscapes, landscapes_of, summed
from .sources import MapLike

__all__ = ["metrics"]

LEVELS = ("patch", "class", "landscape")
_SQUARE_KM = 1e6
# The fractal dimension is undefined for areas this close to 1 m2, because its divisor is the area's
# logarithm.
_NEARLY_ONE = 1e-9


def metrics(
    map: MapLike,
    level: str = "class",
    connectivity: int = 4,
    area: str | None = "auto",
    zones: Any = None,
    *,
    labels: Any = None,
    zone_labels: Any = None,
    zone_field: str | None = None,
    layer: str | None = None,
    each: bool = False,
    crs: Any = None,
) -> Table:
    """Compute landscape metrics of each class, each patch or each landscape.

    Parameters
    ----------
    map : path, array, or any map that `run` accepts
    level : {"class", "landscape", "patch"}
        What each row of the table describes.
    connectivity : {4, 8}
        4 connects cells that share an edge, and 8 also connects cells that share a corner.
    area : {"ha", "km2", "m2"} or None
        The unit of areas, as in `composition`. Without areas, sizes are in cells.
    zones : map, or path of polygons, GeoDataFrame or GeoSeries, optional
        The zones, each of which is a separate landscape. Patches end at a zone's border and are
        numbered from 1 in each zone. Cell sides along a zone's border are not edges.
    labels, zone_labels : path, dict, Series or DataFrame, optional
        Legends, as in `composition`.
    zone_field, layer : str, optional
        See `composition`.
    each : bool
        Whether to process overlapping polygons separately, as in `composition`.
    crs : any, optional
        The coordinate reference system to assume for maps that do not have one.

    Returns
    -------
    pandas.DataFrame
        If there are zones, the first columns are `zone` and `zone_label`. For classes, the columns
        are `class`, `label`, `cells`, `area_ha`, `percent`, `patches`, `patches_km2`,
        `largest_patch_percent`, `mean_patch_ha`, `area_weighted_mean_patch_ha`,
        `effective_mesh_ha`, `edge_m`, `edge_density_m_ha`, `mean_shape_index`, `aggregation_index`,
        `cohesion` and `interspersion_index`. For landscapes, `classes`, `contagion`,
        `shannon_diversity`, `shannon_evenness` and `simpson_diversity` replace `class`, `label` and
        `percent`. For patches, the columns are `patch`, `class`, `label`, `cells`, `area_ha`,
        `perimeter_m`, `shape_index` and `fractal_dimension`. A landscape consists of all non-null
        cells of the map or zone. Percentages and densities refer to the landscape, and edges are
        cell sides between two classes of the landscape. Undefined measures are NaN. Measures that
        depend on a length are NaN if the map has no reference system or, with a warning, if the map
        is in degrees.

    Raises
    ------
    Refused
        A legend or a polygon is invalid. See `run` for other reasons.
    BadArgument
        An argument is out of range.

    Examples
    --------
    >>> import numpy as np, rcell
    >>> cells = np.array([[1, 1, 2], [1, 2, 2]])
    >>> lc = rcell.Raster(cells, (10, 0, 0, 0, -10, 20), crs="EPSG:25832")
    >>> rcell.metrics(lc, area="m2")[["class", "area_m2", "patches", "edge_m", "aggregation_index"]]
       class  area_m2  patches  edge_m  aggregation_index
    0      1    300.0        1    30.0              100.0
    1      2    300.0        1    30.0              100.0
    """
    check_connectivity(connectivity)
    if level not in LEVELS:
        levels = f"{', '.join(LEVELS[:-1])} or {LEVELS[-1]}"
        raise BadArgument("level", f"must be {levels}; got {level!r}")
    maps = Maps({"map": map}, crs, zones, zone_field, layer, each)
    measure = maps.measure(area)
    land = landscapes_of(maps, connectivity, measure, has_zones=zones is not None)
    # The member (a class in a landscape) of each row. The rows of landscapes have no member.
    members = {"patch": land.member_at, "class": np.arange(land.classes.size)}.get(level)
    zone_of_row = np.arange(land.zones.size) if members is None else land.zone_at[members]
    columns: list[Column] = []
    if zones is not None:
        columns += maps.columns("zone", land.zones[zone_of_row], "zones", zone_labels)
    if level == "patch":
        first_of_zone = np.searchsorted(zone_of_row, zone_of_row)
        numbers = np.arange(zone_of_row.size) - first_of_zone + 1
        columns.append(Column("patch", "class", numbers))
    if members is not None:
        columns += maps.columns("class", land.classes[members], "map", labels, label="label")
    of_level = {"patch": _of_patches, "class": _of_classes, "landscape": _of_landscapes}[level]
    return Table(columns + of_level(land, measure))


def _shapes(land: Landscapes) -> Floats:
    """Return each patch's shape index: a quarter of its perimeter over its area's square root."""
    shapes: Floats = 0.25 * land.perimeters / np.sqrt(land.cells * land.end * land.flank)
    return shapes


def _of_patches(land: Landscapes, measure: Measure) -> list[Column]:
    areas = land.cells * land.end * land.flank  # in square metres
    areas[np.abs(areas - 1) <= _NEARLY_ONE] = np.nan
    values = {
        "perimeter_m": land.perimeters,
        "shape_index": _shapes(land),
        "fractal_dimension": 2 * np.log(0.25 * land.perimeters) / np.log(areas),
    }
    return sized(measure, land.cells, measure.area(land.weights)) + measures(values)


def _of_classes(land: Landscapes, measure: Measure) -> list[Column]:
    cells, weights = land.by_member(land.cells), land.by_member(land.weights)
    cells_of_zone = land.by_zone(cells)[land.zone_at]
    weights_of_zone = land.by_zone(weights)[land.zone_at]
    # Count a border for both of its classes.
    members = np.concatenate([land.sides.first, land.sides.second])
    borders = np.concatenate([land.borders, land.borders])
    edges = summed(members, borders, cells.size) + 0 * land.end  # NaN if lengths are unknown
    others = np.bincount(land.zone_at, minlength=land.zones.size)[land.zone_at] - 1
    values = {
        "aggregation_index": _aggregation(land),
        "cohesion": _cohesion(land.member_at, land, cells_of_zone),
        "interspersion_index": _interspersion(members, borders, edges, kinds=others, others=others),
    }
    columns = sized(measure, cells, measure.area(weights))
    columns.append(Column("percent", "measure", 100 * weights / weights_of_zone))
    columns += _of_sizes(land.member_at, land, weights, weights_of_zone, edges, measure)
    return columns + measures(values)


def _of_landscapes(land: Landscapes, measure: Measure) -> list[Column]:
    size, zone_of_patch = land.zones.size, land.zone_at[land.member_at]
    weights = land.by_member(land.weights)
    cells, weights_of_zone = land.by_zone(land.by_member(land.cells)), land.by_zone(weights)
    shares = weights / weights_of_zone[land.zone_at]
    zone_of_border, borders = land.zone_at[land.sides.first], land.borders
    edges = summed(zone_of_border, borders, size) + 0 * land.end  # NaN if lengths are unknown
    classes = np.bincount(land.zone_at, minlength=size)
    pairs = classes * (classes - 1) // 2
    # The largest entropy. Measures are undefined for one class, because the logarithm of 1 is 0.
    most = np.where(classes >= 2, np.log(np.maximum(classes, 2)), np.nan)
    diversity = _entropy(land.zone_at, weights, size)
    interspersion = _interspersion(zone_of_border, borders, edges, kinds=pairs, others=classes - 1)
    values = {
        "aggregation_index": land.by_zone(np.nan_to_num(_aggregation(land)) * shares),
        "cohesion": _cohesion(zone_of_patch, land, cells),
        "interspersion_index": interspersion,
        "contagion": 100 * (1 - _entropy_of_sides(land, shares) / (2 * most)),
        "shannon_diversity": diversity,
        "shannon_evenness": diversity / most,
        "simpson_diversity": 1 - land.by_zone(shares**2),
    }
    columns = sized(measure, cells, measure.area(weights_of_zone))
    columns.append(Column("classes", "count", classes))
    columns += _of_sizes(zone_of_patch, land, weights_of_zone, weights_of_zone, edges, measure)
    return columns + measures(values)


def _of_sizes(
    groups: Integers,
    land: Landscapes,
    weights: Floats,
    weights_of_zone: Floats,
    edges: Floats,
    measure: Measure,
) -> list[Column]:
    """Return the columns that classes and landscapes have in common.

    `groups` contains the index of each patch's class or landscape. The other arrays contain each
    class's or landscape's weight, the weight of its landscape, and the length of its edges.
    """
    unit, size, area_of_zone = measure.column, weights.size, measure.area(weights_of_zone)
    count = np.bincount(groups, minlength=size)
    largest = np.zeros(size)
    np.maximum.at(largest, groups, land.weights)
    squares = summed(groups, land.weights**2, size)
    values = {
        "patches_km2": count / (area_of_zone * (measure.divisor / _SQUARE_KM)),
        "largest_patch_percent": 100 * largest / weights_of_zone,
        f"mean_patch_{unit}": measure.area(weights) / count,
        f"area_weighted_mean_patch_{unit}": measure.area(squares / weights),
        f"effective_mesh_{unit}": measure.area(squares / weights_of_zone),
        "edge_m": edges,
        f"edge_density_m_{unit}": edges / area_of_zone,
        "mean_shape_index": summed(groups, _shapes(land), size) / count,
    }
    if measure.unit is None:  # densities need areas
        del values["patches_km2"], values[f"edge_density_m_{unit}"]
    return [Column("patches", "count", count), *measures(values)]


def _aggregation(land: Landscapes) -> Floats:
    """Return the aggregation index of each member (He, DeZonia and Mladenoff 2000).

    The index is the number of like sides as a percentage of the largest possible number for the
    same number of cells.
    """
    cells = land.by_member(land.cells)
    side = np.sqrt(cells).astype(np.int64)  # exact, because maps have fewer than 2^31 cells
    # A square shares the most sides. Its remaining cells fill up to two of its edges.
    rest = cells - side**2
    more = np.where(rest <= side, 2 * rest - 1, 2 * rest - 2)
    most = 2 * side * (side - 1) + np.where(rest == 0, 0, more)
    return np.where(most > 0, 100 * land.like / np.maximum(most, 1), np.nan)


def _cohesion(groups: Integers, land: Landscapes, cells_of_zone: Integers) -> Floats:
    """Return the patch cohesion index of each group (Schumaker 1996).

    Perimeters are in cell sides, and areas in cells. The index is NaN in a landscape of one cell.
    `cells_of_zone` contains the number of cells in each group's landscape.
    """
    sides = (land.ends + land.flanks).astype(np.float64)
    perimeters = summed(groups, sides, cells_of_zone.size)
    weighted = summed(groups, sides * np.sqrt(land.cells), cells_of_zone.size)
    most = np.where(cells_of_zone > 1, 1 - 1 / np.sqrt(cells_of_zone), np.nan)
    return np.asarray(100 * (1 - perimeters / weighted) / most)


def _interspersion(
    groups: Integers, borders: Floats, edges: Floats, kinds: Integers, others: Integers
) -> Floats:
    """Return each group's interspersion index: the entropy of the borders relative to its maximum.

    `groups` and `borders` contain the group and the length of each border. The other arrays contain
    each group's total length, number of possible kinds of borders, and number of classes less one.
    The index is NaN if there are fewer than three classes, or no edges.
    """
    is_defined = (others >= 2) & (edges > 0)
    most = np.where(is_defined, np.log(np.maximum(kinds, 2)), np.nan)
    return np.asarray(100 * _entropy(groups, borders, edges.size) / most)


def _entropy(groups: Integers, parts: Floats, size: int) -> Floats:
    """Return the entropy, in nats, of the parts of each group."""
    total = summed(groups, parts, size)[groups]
    shares = parts / np.where(total > 0, total, np.nan)
    return summed(groups, -shares * np.log(np.where(shares > 0, shares, 1)), size)


def _entropy_of_sides(land: Landscapes, shares: Floats) -> Floats:
    """Return the entropy of each landscape's class adjacencies (Riitters et al. 1996).

    Each cell side is counted twice, once from each of its cells.
    """
    members = np.concatenate([land.sides.first, land.sides.second, np.arange(land.classes.size)])
    unlike = land.sides.ends + land.sides.flanks
    counts = np.concatenate([unlike, unlike, 2 * land.like]).astype(np.float64)
    total = summed(members, counts, land.classes.size)[members]
    parts = np.where(counts > 0, shares[members] * counts / np.maximum(total, 1), 0)
    return summed(
        land.zone_at[members],
        -parts * np.log(np.where(parts > 0, parts, 1)),
        land.zones.size,
    )
