# SPDX-License-Identifier: Apache-2.0 OR GPL-2.0-or-later
"""Summarise the patches of each class without creating a table of all patches."""

from __future__ import annotations

from typing import Any, NamedTuple, Optional

import numpy as np

from .area import Measure
from .arrays import Floats, Integers, NDArray
from .columns import Column, Table
from .counting import Maps, places_of, sums_of
from .patch_measures import clump_line
from .protocol import Question
from .runs import execute
from .tile_clumps import Joined

__all__ = ["class_summary"]


def class_summary(
    maps: Maps,
    connectivity: int,
    measure: Measure,
    classes: Optional[list[int]],
    fewest: int,
    labels: Any = None,
) -> Table:
    """Return a table with the number of patches and the patch sizes of each class.

    Parameters
    ----------
    maps : Maps
    connectivity : {4, 8}
    measure : Measure
    classes : list of int, optional
        Count only patches of these classes.
    fewest : int
        Count only patches with at least this many cells.
    labels : any, optional
        A legend that replaces the labels of the map.
    """
    summary, clump = _Summary(measure, classes, fewest), clump_line(connectivity)
    question = Question("map", connectivity)
    # In degrees, areas depend on the rows of a patch, which are not among its measures.
    if measure.by_row is not None or not maps.ask(question, clump, summary):
        rows = [] if measure.by_row is None else ["r.mapcalc row = row()"]
        inputs = "map,patch" + (",row" if rows else "")
        script = "\n".join([clump, *rows, f"r.stats -c -n input={inputs}"])
        execute(script, maps.sources, fold=summary)
    return Table(summary.columns(maps, labels))


class Numbers(NamedTuple):
    """The totals of a class: patches, cells, area, and the size of the largest patch."""

    patches: int = 0
    cells: int = 0
    area: float = 0.0
    largest_cells: int = 0
    largest_area: float = 0.0

    def plus(self, more: Numbers) -> Numbers:
        """Return the combined totals of two disjoint sets of patches."""
        return Numbers(
            self.patches + more.patches,
            self.cells + more.cells,
            self.area + more.area,
            max(self.largest_cells, more.largest_cells),
            max(self.largest_area, more.largest_area),
        )


class _Summary:
    """Adds up the patches of each class, tile by tile.

    Patches that may continue in other tiles are set aside until the tiles are joined. Tiles may be
    added in any order. Areas are summed in the order of the tiles, so that rounding is
    reproducible.
    """

    def __init__(self, measure: Measure, classes: Optional[list[int]], fewest: int) -> None:
        self._measure, self._listed, self._fewest = measure, classes, fewest
        self._waiting: dict[int, tuple[Integers, Floats]] = {}
        self._complete: dict[int, dict[int, Numbers]] = {}

    def add(self, tile: int, rows: NDArray[Any], waiting: Integers, _: list[Integers]) -> None:
        """Add a tile's patches and set aside those that may continue in other tiles.

        The rows are measures of patches, or a table with the columns class, patch, row (only in
        degrees) and cells. `waiting` lists the numbers of the patches to set aside.
        """
        table = rows if rows.dtype.names is None else _table_of(rows)
        if self._listed is not None:
            table = table[np.isin(table[:, 0], self._listed)]
        patches, area = self._patches_of(table)
        is_open = np.isin(patches[:, 1], waiting)
        self._waiting[tile] = patches[is_open], area[is_open]
        self._complete[tile] = self._counted(patches[~is_open], area[~is_open])

    def join(self, joined: Optional[Joined]) -> None:
        """Count the patches that were set aside, using their numbers in the full map."""
        if joined is None:
            return
        tiles = sorted(self._waiting)
        for tile in tiles:
            patches = self._waiting[tile][0]
            patches[:, 1] = joined.numbers_of(tile)[patches[:, 1]]
        tables, areas = zip(*(self._waiting.pop(tile) for tile in tiles))
        patches, area = _added(np.concatenate(tables), np.concatenate(areas))
        # Joined patches are counted last, as if they were in another tile.
        self._complete[tiles[-1] + 1] = self._counted(patches, area)

    def _patches_of(self, table: Integers) -> tuple[Integers, Floats]:
        """Return the patches in a table as rows of class, number and cells, and their areas."""
        if self._measure.by_row is None:
            return table, self._measure.area(table[:, -1])
        code, patch, row, cells = table.T
        area = cells * self._measure.by_row[row - 1] / self._measure.divisor
        return _added(np.column_stack([code, patch, cells]), area)

    def _counted(self, patches: Integers, area: Floats) -> dict[int, Numbers]:
        """Return the totals by class, counting only patches that are large enough."""
        is_large = patches[:, 2] >= self._fewest
        patches, area = patches[is_large], area[is_large]
        first = places_of(patches[:, 0])
        if not first.size:
            return {}
        cells = patches[:, 2]
        numbers = map(
            Numbers,
            np.diff([*first, len(patches)]).tolist(),
            np.add.reduceat(cells, first).tolist(),
            np.add.reduceat(area, first).tolist(),
            np.maximum.reduceat(cells, first).tolist(),
            np.maximum.reduceat(area, first).tolist(),
        )
        return dict(zip(patches[first, 0].tolist(), numbers))

    def _by_class(self) -> dict[int, Numbers]:
        """Return the totals by class, summed over all tiles."""
        by_class: dict[int, Numbers] = {}
        for tile in sorted(self._complete):
            for code, numbers in self._complete[tile].items():
                by_class[code] = by_class.get(code, Numbers()).plus(numbers)
        return by_class

    def columns(self, maps: Maps, labels: Any) -> list[Column]:
        """Return the columns of the summary table, with one row per class."""
        by_class = self._by_class()
        codes = np.array(sorted(by_class), np.int64)
        totals = [by_class[code] for code in codes.tolist()]
        patches = np.array([total.patches for total in totals], np.int64)
        cells = np.array([total.cells for total in totals], np.int64)
        columns = [
            *maps.columns("class", codes, "map", legend=labels, label="label"),
            Column("patches", "count", patches),
            Column("cells", "count", cells),
        ]
        unit = self._measure.unit
        if unit is None:
            largest_cells = np.array([total.largest_cells for total in totals], np.int64)
            columns.append(Column("largest_cells", "count", largest_cells))
            return [*columns, Column("mean_cells", "measure", cells / np.maximum(patches, 1))]
        area = np.array([total.area for total in totals], np.float64)
        if self._measure.by_row is None:  # exact, unlike a sum of rounded areas
            area = self._measure.area(cells)
        largest = np.array([total.largest_area for total in totals], np.float64)
        columns.append(Column(f"area_{unit}", "measure", area))
        columns.append(Column(f"largest_{unit}", "measure", largest))
        return [*columns, Column(f"mean_{unit}", "measure", area / np.maximum(patches, 1))]


def _table_of(rows: NDArray[Any]) -> Integers:
    """Convert patch measures to a table with the columns class, patch and cells."""
    order = np.argsort(rows["class"], kind="stable")
    return np.array([rows["class"][order], order + 1, rows["cells"][order]]).T


def _added(patches: Integers, area: Floats) -> tuple[Integers, Floats]:
    """Merge entries with the same class and patch number, adding up their cells and areas."""
    order = np.lexsort([patches[:, 1], patches[:, 0]])
    patches, area = patches[order], area[order]
    first = places_of(patches[:, :2])
    sums = patches[first]
    sums[:, 2] = sums_of(patches[:, 2], first)
    return sums, sums_of(area, first)
