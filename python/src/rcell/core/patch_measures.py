# SPDX-License-Identifier: Apache-2.0 OR GPL-2.0-or-later
"""Measure the patches of a map, either with the program or from the tables of a script."""

from __future__ import annotations

from dataclasses import dataclass
from typing import Any, Optional

import numpy as np

from .area import Measure
from .arrays import Floats, Integers, NDArray
from .counting import Maps, places_of, sums_of
from .protocol import NULL, Question
from .tile_patches import PatchSum

__all__ = ["PatchMeasures", "clump_line", "patch_measures"]

# A cell has up to two ends (north, south) and two flanks (west, east) on its patch's border. They
# are counted as one number: ends + 3 * flanks.
_FLANK = 3


@dataclass(frozen=True)
class PatchMeasures:
    """The measures of patches, in arrays with one value per patch.

    Attributes
    ----------
    numbers : array of int64
        The patch numbers from r.clump, in ascending order.
    classes, cells, core : array of int64
        The class, the number of cells, and the number of core cells. A cell is in the core if all
        cells within the core depth, counted in steps across edges, are in the same patch.
    ends, flanks : array of int64
        The numbers of cell sides on the patch's border: northern and southern sides (ends), and
        western and eastern sides (flanks).
    top, bottom, left, right : array of int64
        The first and last row, and the first and last column, counted from 0.
    zones : array of int64 or None
        The zone that contains most of the patch's cells, or `NULL` if no cell is in a zone.
    area, core_area : array of float64 or None
        The areas of the patch and the patch's core, in the unit of the call.
    """

    numbers: Integers
    classes: Integers
    cells: Integers
    core: Integers
    ends: Integers
    flanks: Integers
    top: Integers
    bottom: Integers
    left: Integers
    right: Integers
    zones: Optional[Integers]
    area: Optional[Floats]
    core_area: Optional[Floats]


def patch_measures(
    maps: Maps,
    measure: Measure,
    connectivity: int,
    depth: int,
    classes: Optional[list[int]],
    fewest: int,
    has_zones: bool,
) -> PatchMeasures:
    """Measure the patches of the map `map`.

    Parameters
    ----------
    maps : Maps
    measure : Measure
    connectivity : {4, 8}
    depth : int
        The depth of the core, in steps across edges.
    classes : list of int, optional
        Measure only patches of these classes.
    fewest : int
        Measure only patches with at least this many cells.
    has_zones : bool
        Whether the maps include a map `zones`.
    """
    # The program counts the cells of a patch, but not by row, as areas in degrees require.
    if measure.by_row is None:
        patch_sum = PatchSum(classes, fewest)
        question = Question("map", connectivity, depth, zones="zones" if has_zones else "")
        if maps.ask(question, clump_line(connectivity), patch_sum):
            return _of_sum(patch_sum, measure)
    return _of_tables(maps, measure, connectivity, depth, classes, fewest, has_zones)


def _of_sum(patch_sum: PatchSum, measure: Measure) -> PatchMeasures:
    """Convert the program's patch counts to patch measures."""
    counts, has_area = patch_sum.counts, measure.unit is not None
    zones = counts.get("zones")
    if patch_sum.tables:  # measured in tiles, each of which sees only a part of a patch's zones
        zones = _zones(patch_sum.numbers, patch_sum.tables[0])
    names = ("cells", "core", "ends", "flanks", "top", "bottom", "left", "right")
    return PatchMeasures(
        numbers=patch_sum.numbers,
        classes=counts["class"],
        zones=zones,
        area=measure.area(counts["cells"]) if has_area else None,
        core_area=measure.area(counts["core"]) if has_area else None,
        **{name: counts[name] for name in names},
    )


def _zones(numbers: Integers, table: Integers) -> Integers:
    """Return the zone that contains most of each patch's cells, or null if no cell is in a zone.

    In a tie, the smallest zone is returned.

    Parameters
    ----------
    numbers : array of int64
        The patch numbers, in ascending order.
    table : array of int64
        A table with the columns patch, zone and cells.
    """
    patch, zone, cells = table.T
    order = np.lexsort([zone, -cells, patch])  # by patch, then from most cells, then by zone
    first = order[places_of(patch[order])]
    at, is_listed = _places(numbers, patch[first])
    zones = np.full(numbers.size, NULL, np.int64)
    zones[at] = zone[first[is_listed]]
    return zones


def _places(numbers: Integers, values: Integers) -> tuple[NDArray[np.intp], NDArray[np.bool_]]:
    """Look up values in an ascending array.

    Returns the indices of the values that are found, and a mask of these values.
    """
    if not numbers.size:
        return np.empty(0, np.intp), np.zeros(values.size, np.bool_)
    at = np.minimum(np.searchsorted(numbers, values), numbers.size - 1)
    is_found = numbers[at] == values
    return at[is_found], is_found


def clump_line(connectivity: int, name: str = "map") -> str:
    """Return the script line that numbers a map's patches."""
    return f"r.clump {'-d ' if connectivity == 8 else ''}input={name} output=patch"


def _of_tables(
    maps: Maps,
    measure: Measure,
    connectivity: int,
    depth: int,
    classes: Optional[list[int]],
    fewest: int,
    has_zones: bool,
) -> PatchMeasures:
    """Compute patch measures from a script's tables of sides, cores, rows, columns and zones."""
    by_row = measure.by_row is not None
    script = _script(connectivity, classes, depth, has_zones, by_row)
    sides, core, by_rows, by_cols, *by_zones = maps.tables(script, once=4)
    tables = _Tables(sides, fewest)
    ends, flanks = tables.sides()
    top, bottom = tables.ends_of(by_rows)
    left, right = tables.ends_of(by_cols)
    core_cells = tables.summed(core[:, 0], core[:, -1])
    area, core_area = tables.areas(measure, by_rows, core, core_cells)
    return PatchMeasures(
        numbers=tables.numbers,
        classes=tables.classes,
        cells=tables.cells,
        core=core_cells,
        ends=ends,
        flanks=flanks,
        top=top - 1,  # row() and col() count from 1
        bottom=bottom - 1,
        left=left - 1,
        right=right - 1,
        zones=_zones(tables.numbers, by_zones[0]) if has_zones else None,
        area=area,
        core_area=core_area,
    )


def _script(
    connectivity: int, classes: Optional[list[int]], depth: int, has_zones: bool, by_row: bool
) -> str:
    """Return a script that counts the sides, cores, rows, columns and zones of patches."""
    # Whether the neighbour at an offset (row, column) is outside the patch: 1 or 0.
    leaves = "(isnull(patch[{0}]) ||| patch[{0}] != patch)"
    north, south, west, east = (leaves.format(offset) for offset in ("-1,0", "1,0", "0,-1", "0,1"))
    # Removes the outermost cells of each patch: one step of the core's depth.
    core = (
        "if({0}[-1,0] == {0} && {0}[1,0] == {0} && {0}[0,-1] == {0} && {0}[0,1] == {0}, {0}, "
        "null())"
    )
    lines = [clump_line(connectivity)]
    lines += [
        f"r.mapcalc side = if(isnull(patch), null(), {north} + {south} + {_FLANK} * ({west} + "
        f"{east}))"
    ]
    for step in range(depth):
        previous = f"core{step}" if step else "patch"
        lines.append(f"r.mapcalc core{step + 1} = {core.format(previous)}")
    lines += ["r.mapcalc row = row()", "r.mapcalc col = col()"]
    kept, inner = "patch", f"core{depth}"
    if classes is not None:
        rules = "\n".join(f"{one} = {one}" for one in classes)
        lines += [
            f"r.reclass input=map output=listed\n{rules}\nend",
            "r.mapcalc kept = if(isnull(listed), null(), patch)",
            f"r.mapcalc inner = if(isnull(listed), null(), {inner})",
        ]
        kept, inner = "kept", "inner"
    lines += [
        f"r.stats -c -n input={kept},map,side",
        f"r.stats -c -n input={inner}{',row' if by_row else ''}",
        f"r.stats {'-c ' if by_row else ''}-n input={kept},row",
        f"r.stats -n input={kept},col",
    ]
    if has_zones:
        lines.append(f"r.stats -c -n input={kept},zones")
    return "\n".join(lines)


class _Tables:
    """The patches of a map that have at least `fewest` cells, read from a script's tables.

    Parameters
    ----------
    sides : array of int64
        A table with the columns patch, class, coded sides on the patch's border, and cells.
    fewest : int
    """

    def __init__(self, sides: Integers, fewest: int) -> None:
        first = places_of(sides[:, 0])
        cells = sums_of(sides[:, 3], first)
        is_large = cells >= fewest
        self.numbers, self.classes = sides[first[is_large], 0], sides[first[is_large], 1]
        self.cells = cells[is_large]
        self._sides = sides

    def sides(self) -> list[Integers]:
        """Return the number of ends and the number of flanks of each patch."""
        numbers, _, codes, cells = self._sides.T
        return [self.summed(numbers, cells * part) for part in (codes % _FLANK, codes // _FLANK)]

    def summed(self, numbers: Integers, values: NDArray[Any]) -> NDArray[Any]:
        """Return the sum of each patch's values, or 0 for patches without values.

        Entries with the same patch number must be consecutive.
        """
        first = places_of(numbers)
        sums = np.zeros(self.numbers.size, values.dtype)
        at, is_kept = _places(self.numbers, numbers[first])
        sums[at] = sums_of(values, first)[is_kept]
        return sums

    def ends_of(self, table: Integers) -> tuple[Integers, Integers]:
        """Return the first row (or column) and the last row (or column) of each patch."""
        first = places_of(table[:, 0])
        next_first = np.append(first, len(table))[1:]
        _, is_kept = _places(self.numbers, table[first, 0])
        return table[first[is_kept], 1], table[next_first[is_kept] - 1, 1]

    def areas(
        self, measure: Measure, rows: Integers, core: Integers, core_cells: Integers
    ) -> tuple[Optional[Floats], Optional[Floats]]:
        """Return the areas of the patches and of their cores, or None if no areas are wanted.

        If the map is in degrees, areas are summed row by row, from tables `rows` and `core` with
        the columns patch, row and cells.
        """
        if measure.unit is None:
            return None, None
        if measure.by_row is None:
            return measure.area(self.cells), measure.area(core_cells)
        areas = []
        for numbers, row, cells in (rows.T, core.T):
            square_metres = self.summed(numbers, cells * measure.by_row[row - 1])
            areas.append(square_metres / measure.divisor)
        return areas[0], areas[1]
