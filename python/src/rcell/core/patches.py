# SPDX-License-Identifier: Apache-2.0 OR GPL-2.0-or-later
"""List the patches of a map, with their sizes, perimeters, cores and extents."""

from __future__ import annotations

import dataclasses
from collections.abc import Iterable
from typing import Any, Optional

import numpy as np

from .area import Measure
from .arguments import check_connectivity, classes_of, whole_number_of
from .arrays import NDArray
from .columns import Column, Table, measures
from .counting import Maps
from .errors import BadArgument
from .patch_measures import PatchMeasures, clump_line, patch_measures
from .patch_summary import class_summary
from .region import Transform
from .scripts import Run, Stats
from .sources import BLOCK_CELLS, ArrayMap, MapLike, source_of
from .tiling import in_threads

__all__ = ["clump", "patches"]

MOST_CORE_DEPTH = 20


def patches(
    map: MapLike,
    connectivity: int = 4,
    area: str | None = "auto",
    zones: Optional[Any] = None,
    classes: int | Iterable[int] | None = None,
    min_cells: int | None = None,
    core_depth: int = 1,
    *,
    labels: Any = None,
    zone_labels: Any = None,
    zone_field: str | None = None,
    layer: str | None = None,
    each: bool = False,
    summary: str | None = None,
    crs: Any = None,
) -> Table:
    """List a map's patches: groups of connected cells of one class, numbered as in r.clump.

    Parameters
    ----------
    map : path, array, or any map that `run` accepts
    connectivity : {4, 8}
        4 connects cells that share an edge, and 8 also connects cells that share a corner.
    area : {"ha", "km2", "m2"} or None
        The unit of areas, as in `composition`. Without areas, `core_cells` replaces `core_ha`.
    zones : map, or path of polygons, GeoDataFrame or GeoSeries, optional
        The zones, as in `composition`. A patch is assigned to the zone that contains most of its
        cells. In a tie, the smallest zone is used.
    classes : int or iterable of int, optional
        List only patches of these classes. Patch numbers do not change.
    min_cells : int, optional
        List only patches with at least this many cells. Patch numbers do not change.
    core_depth : int
        The depth of the core in steps across edges. A cell is in the core of a patch if all cells
        within this many steps are in the patch.
    labels, zone_labels : path, dict, Series or DataFrame, optional
        Legends, as in `composition`.
    zone_field, layer : str, optional
        See `composition`.
    each : bool
        Whether to process overlapping polygons separately, as in `composition`.
    summary : {"class"}, optional
        "class" returns a row per class instead of a row per patch. The table of all patches, which
        may be too large for memory, is then not created.
    crs : any, optional
        The coordinate reference system to assume for maps that do not have one.

    Returns
    -------
    pandas.DataFrame
        The columns are `patch`, `class`, `label`, `cells`, `area_ha`, `perimeter_m`, `core_ha`,
        `west`, `south`, `east` and `north` and, if there are zones, `zone` and `zone_label`. The
        perimeter includes cell sides next to other patches, next to null cells and along the map's
        edge. It is NaN if the map has no reference system or, with a warning, if the map is in
        degrees. For a summary, the columns are `class`, `label`, `patches`, `cells`, `area_ha`,
        `largest_ha` and `mean_ha`. Without areas, `largest_cells` and `mean_cells` replace the last
        three columns.

    Raises
    ------
    Refused
        See `run`.
    BadArgument
        An argument is out of range.

    Examples
    --------
    >>> import numpy as np, rcell
    >>> lc = rcell.Raster(np.array([[5, 5, 7, 5]]), (10, 0, 0, 0, -10, 10), crs="EPSG:25832")
    >>> rcell.patches(lc, area="m2").iloc[:, :5]
       patch  class  cells  area_m2  perimeter_m
    0      1      5      2    200.0         60.0
    1      2      7      1    100.0         40.0
    2      3      5      1    100.0         40.0
    """
    check_connectivity(connectivity)
    depth = whole_number_of("core_depth", core_depth, 1, MOST_CORE_DEPTH)
    fewest = 1 if min_cells is None else whole_number_of("min_cells", min_cells, 1)
    listed = classes_of(classes)
    if summary is not None and (summary != "class" or zones is not None):
        rule = "must be left out if zones are given" if summary == "class" else 'must be "class"'
        raise BadArgument("summary", f"{rule}; got {summary!r}")
    maps = Maps({"map": map}, crs, zones, zone_field, layer, each)
    measure = maps.measure(area)
    if summary is not None:
        return class_summary(maps, connectivity, measure, listed, fewest, labels)
    measured = patch_measures(maps, measure, connectivity, depth, listed, fewest, zones is not None)
    transform = maps.first.transform
    *area_column, core_column = _areas(measured, measure)
    columns = [
        Column("patch", "class", measured.numbers),
        *maps.columns("class", measured.classes, "map", legend=labels, label="label"),
        Column("cells", "count", measured.cells),
        *area_column,
        Column("perimeter_m", "measure", _perimeter(measured, transform, measure.length())),
        core_column,
        *_extents(measured, transform),
    ]
    if measured.zones is not None:
        columns += maps.columns("zone", measured.zones, "zones", legend=zone_labels)
    return Table(columns)


def _areas(measured: PatchMeasures, measure: Measure) -> list[Column]:
    """Return the columns of patch and core areas or, without areas, the column of core cells."""
    if measured.area is None or measured.core_area is None:
        return [Column("core_cells", "count", measured.core)]
    return [
        Column(f"area_{measure.unit}", "measure", measured.area),
        Column(f"core_{measure.unit}", "measure", measured.core_area),
    ]


def _perimeter(measured: PatchMeasures, transform: Transform, unit: float) -> NDArray[np.float64]:
    """Return the perimeter of each patch in metres, if the map's unit is `unit` metres long.

    An end is as long as a cell is wide, and a flank is as long as a cell is high.
    """
    width, _, _, _, height, _ = transform
    return (measured.ends * width + measured.flanks * -height) * unit


def _extents(measured: PatchMeasures, transform: Transform) -> list[Column]:
    """Return the columns with the bounding box of each patch."""
    width, _, west, _, height, north = transform
    # The far edge of the last row or column is the near edge of the next row or column.
    edges = {
        "west": (west, width, measured.left),
        "south": (north, height, measured.bottom + 1),
        "east": (west, width, measured.right + 1),
        "north": (north, height, measured.top),
    }

    def edge(name: str) -> NDArray[np.float64]:
        origin, step, cells = edges[name]
        return origin + step * cells

    return measures(dict(zip(edges, in_threads(edge, edges))))


def clump(
    map: MapLike,
    connectivity: int = 4,
    classes: int | Iterable[int] | None = None,
    min_cells: Optional[int] = None,
    *,
    crs: Any = None,
) -> ArrayMap:
    """Return a map in which each cell contains the number of its patch, as in `patches`.

    Parameters
    ----------
    map : path, array, or any map that `run` accepts
    connectivity : {4, 8}
        4 connects cells that share an edge, and 8 also connects cells that share a corner.
    classes : int or iterable of int, optional
        Keep only patches of these classes. All other cells become null. Patch numbers do not
        change.
    min_cells : int, optional
        Keep only patches with at least this many cells. Patch numbers do not change.
    crs : any, optional
        The coordinate reference system to assume for a map that does not have one.

    Returns
    -------
    Raster
        The map of patch numbers. Patches are numbered from 1 in the order of their first cells, as
        in r.clump.

    Raises
    ------
    Refused
        See `run`.
    BadArgument
        An argument is out of range.

    Examples
    --------
    >>> import numpy as np, rcell
    >>> rcell.clump(np.array([[5, 5, 7, 5]]), min_cells=2).array.tolist()
    [[1, 1, None, None]]
    """
    check_connectivity(connectivity)
    fewest = 1 if min_cells is None else whole_number_of("min_cells", min_cells, 1)
    listed = classes_of(classes)
    run = Run(clump_line(connectivity), {"map": source_of("map", map)}, named={}, crs=crs)
    if fewest == 1 and listed is None:
        [all_patches] = run.maps(["patch"])
        return dataclasses.replace(all_patches, labels={}, colors={})
    run.script += "\nr.stats -c -n input=patch,map"
    stats, numbers = run.outputs(["patch"])
    assert isinstance(stats, Stats) and isinstance(numbers, ArrayMap) and stats.cells is not None
    # Patches are numbered from 1, and each has one entry in the table, in the same order.
    kept = np.zeros(len(stats.categories) + 1, np.bool_)
    kept[1:] = stats.cells >= fewest
    if listed is not None:
        kept[1:] &= np.isin(stats.categories[:, 1], listed)
    _leave_out(numbers, kept)
    return dataclasses.replace(numbers, labels={}, colors={})


def _leave_out(numbers: ArrayMap, kept: NDArray[np.bool_]) -> None:
    """Set the cells of all patches that are not `kept` to null, one block of rows at a time."""
    null = numbers.nodata_value
    assert null is not None
    step = max(1, BLOCK_CELLS // numbers.region.cols)
    for row in range(0, numbers.region.rows, step):
        block = numbers.array[row : row + step]
        is_kept = (block != null) & kept[np.where(block == null, 0, block)]
        np.copyto(block, null, where=~is_kept)
