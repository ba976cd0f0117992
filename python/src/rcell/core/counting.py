# SPDX-License-Identifier: Apache-2.0 OR GPL-2.0-or-later
"""Read the maps of a call and count the combinations of their classes."""

from __future__ import annotations

from collections.abc import Mapping, Sequence
from dataclasses import dataclass
from typing import Any, Optional

import numpy as np

from ..readers import open_features
from .area import Measure, measure_of
from .arrays import Floats, Integers, NDArray
from .columns import Column
from .arguments import first_of
from .errors import BadArgument
from .host import warn
from .legends import labels_of
from .protocol import NULL, Question
from .runs import Fold, ask, execute
from .sources import Source, source_of, sources_of
from .tile_tables import in_order, order_of
from .zones import Zones, zones_of

__all__ = ["Counts", "Maps", "coded", "legend_for", "places_of", "sized", "sums_of"]

# The largest number of maps in one r.stats; in degrees, one of the maps contains row numbers.
MOST_MAPS = 16


@dataclass(frozen=True)
class Counts:
    """The number of cells in each combination of classes.

    Attributes
    ----------
    classes : array of int64, entries x maps
        The combinations in ascending order. Null is -2147483648 and is sorted last.
    cells : array of int64
    area : array of float64 or None
        The areas in the requested unit if the maps are in degrees. None for other maps, whose areas
        follow from the numbers of cells.
    """

    classes: Integers
    cells: Integers
    area: Optional[Floats]

    def where(self, kept: NDArray[Any]) -> Counts:
        """Return the entries that a mask or an array of indices selects."""
        area = None if self.area is None else self.area[kept]
        return Counts(self.classes[kept], self.cells[kept], area)

    def summed(self, first: NDArray[np.intp]) -> Counts:
        """Return the sums of groups of consecutive entries.

        Each group begins at an index in `first` and keeps the classes of its first entry.
        """
        area = None if self.area is None else sums_of(self.area, first)
        return Counts(self.classes[first], sums_of(self.cells, first), area)

    def weights(self) -> NDArray[Any]:
        """Return the weights for percentages: areas for maps in degrees, otherwise cell counts."""
        return self.cells if self.area is None else self.area

    def areas(self, measure: Measure) -> Floats:
        """Return the areas, or the numbers of cells if no areas are wanted."""
        return measure.area(self.cells) if self.area is None else self.area

    def percent(self, groups: int = 0) -> Floats:
        """Return each entry's percentage of its group's total.

        Null entries are not part of the total, and their percentage is NaN.

        Parameters
        ----------
        groups : int
            The number of leading classes that all entries of a group have in common.
        """
        is_null = (self.classes == NULL).any(axis=1)
        weights = np.where(is_null, 0, self.weights())
        first = places_of(self.classes[:, :groups])
        group_sizes = np.diff([*first, weights.size])
        totals = np.repeat(sums_of(weights, first), group_sizes)
        return np.where(is_null, np.nan, weights * 100.0 / np.where(totals == 0, 1, totals))

    def columns(self, measure: Measure, percent: Optional[Floats] = None) -> list[Column]:
        """Return a table's columns of cells and, if requested, of areas and percentages."""
        return sized(measure, self.cells, self.areas(measure), percent)


class Maps:
    """The maps of a call, which must have the same region and reference system.

    Parameters
    ----------
    maps : mapping of str to any
    crs : any
        The coordinate reference system to assume for maps that do not have one.
    zones : any, optional
        A map or polygons, which are used as the map `zones`.
    zone_field, layer : str, optional
        The polygon field that contains ids or names, and the layer of the polygon file to read.
    each : bool
        Whether to process overlapping polygons separately.
    """

    def __init__(
        self,
        maps: Mapping[str, Any],
        crs: Any = None,
        zones: Any = None,
        zone_field: Optional[str] = None,
        layer: Optional[str] = None,
        each: bool = False,
    ) -> None:
        given: dict[str, Any] = {name: source_of(name, map) for name, map in maps.items()}
        polygons = None if zones is None else open_features("zones", zones, layer)
        self._zones: Optional[Zones] = None
        if polygons is not None:
            first = next(iter(given.values()))
            self._zones = zones_of(polygons, zone_field, first, crs, each)
            given["zones"] = self._zones.maps[0]  # `tables` also uses the others
        elif zones is not None:
            given["zones"] = source_of("zones", zones)
        if polygons is None:
            description = "not given" if zones is None else "a raster"
            rule = f"requires polygons, but zones is {description}"
            for name, value in (("zone_field", zone_field), ("layer", layer), ("each", each)):
                if value:
                    raise BadArgument(name, rule)
        self.sources: dict[str, Source]
        self.sources, self.crs = sources_of(given, crs, written={**maps, "zones": zones})
        self.first = next(iter(self.sources.values()))

    def measure(self, area: Any) -> Measure:
        """Return the cell sizes of the maps and the unit of areas."""
        return measure_of(area, self.first, self.crs)

    def tables(self, script: str, once: int = 0) -> list[Integers]:
        """Run a script over the maps and return the tables that the script prints.

        If overlapping polygons are processed separately, their rows are merged and sorted.

        Parameters
        ----------
        script : str
        once : int
            The number of leading tables that do not depend on the zones.
        """
        if self._zones is None or len(self._zones.maps) == 1:
            return [output.values for output in execute(script, self.sources)]
        tables_of_runs = []
        for zones in self._zones.maps:
            outputs = execute(script, {**self.sources, "zones": zones})
            tables_of_runs.append([output.values for output in outputs])
        parts_of_tables = list(zip(*tables_of_runs))
        merged = [in_order(np.concatenate(parts)) for parts in parts_of_tables[once:]]
        return tables_of_runs[0][:once] + merged

    def ask(self, question: Question, clump: str, fold: Fold) -> bool:
        """Pass the patches of a map to a fold with `runs.ask`, and return whether they were passed.

        No patches are passed if overlapping polygons are processed separately.
        """
        if self._zones is not None and len(self._zones.maps) > 1:
            return False
        return ask(question, clump, self.sources, fold)

    def counts(
        self, tables: Sequence[Sequence[str]], measure: Measure, include_null: bool = False
    ) -> list[Counts]:
        """Count the combinations of classes for each list of maps in `tables`."""
        flags = "-c" if include_null else "-c -n"
        row_maps = [] if measure.by_row is None else ["row"]  # in degrees, areas depend on the row
        lines = ["r.mapcalc row = row()"] if row_maps else []
        most = MOST_MAPS - len(row_maps)
        for names in tables:
            if len(names) > most:
                limit = f"{most} maps{' in degrees' if row_maps else ''}"
                raise BadArgument("maps", f"must be at most {limit}; got {len(names)}")
            lines.append(f"r.stats {flags} input={','.join([*row_maps, *names])}")
        return [counts_of(values, measure) for values in self.tables("\n".join(lines))]

    def columns(
        self, title: str, classes: Integers, name: str, legend: Any = None, label: str = "{}_label"
    ) -> list[Column]:
        """Return the class column of the map `name` and, if there are labels, the label column."""
        argument, map_labels = "labels", self.sources[name].labels
        if name == "zones" and self._zones is not None:
            is_null = classes == NULL
            indices = np.where(is_null, 0, classes - 1)  # the map numbers the polygons from 1
            classes = np.where(is_null, NULL, self._zones.ids[indices])
            argument, map_labels = "zone_labels", self._zones.labels
        labels = legend_for(legend, map_labels, [(self.sources[name].name, classes)], argument)
        return coded(title, classes, labels, label)


def counts_of(values: Integers, measure: Measure) -> Counts:
    """Return the counts of the combinations in a table.

    If the maps are in degrees, the table's first column contains map rows, over which the counts
    are summed.
    """
    cells = values[:, -1]
    if measure.by_row is None:
        return Counts(values[:, :-1], cells.copy(), area=None)
    rows, classes = values[:, 0], values[:, 1:-1]
    area = cells * measure.by_row[rows - 1]
    by_row = Counts(classes, cells, area).where(order_of(classes))
    sums = by_row.summed(places_of(by_row.classes))
    assert sums.area is not None
    return Counts(sums.classes, sums.cells, sums.area / measure.divisor)


def places_of(ordered: Integers) -> NDArray[np.intp]:
    """Return the indices at which a new combination begins in sorted rows."""
    if not len(ordered):
        return np.empty(0, np.intp)
    rows = ordered if ordered.ndim == 2 else ordered[:, None]
    differs = (rows[1:] != rows[:-1]).any(axis=1)
    return np.concatenate([[0], np.flatnonzero(differs) + 1])


def sums_of(values: NDArray[Any], first: NDArray[np.intp]) -> NDArray[Any]:
    """Return the sums of groups of consecutive values that begin at the indices in `first`."""
    return np.add.reduceat(values, first) if first.size else values[:0]


def sized(
    measure: Measure, cells: Integers, area: Floats, percent: Optional[Floats] = None
) -> list[Column]:
    """Return columns of cells, of areas if requested, and of percentages if given."""
    columns = [Column("cells", "count", cells)]
    if measure.unit is not None:
        columns.append(Column(f"area_{measure.unit}", "measure", area))
    return columns if percent is None else [*columns, Column("percent", "measure", percent)]


def legend_for(
    legend: Any,
    own: Mapping[int, str],
    classes: Sequence[tuple[str, Integers]],
    argument: str = "labels",
) -> Mapping[int, str]:
    """Return class labels from a legend, or the map's own labels if there is no legend.

    Warns about classes that the legend does not contain.

    Parameters
    ----------
    legend : any
    own : mapping of int to str
        The map's own labels.
    classes : sequence of (str, array)
        The name and the classes of each map.
    argument : str
        The name of the legend's argument, for warnings.
    """
    if legend is None:
        return own
    labels = labels_of(legend)
    lacking: dict[int, list[str]] = {}
    for name, values in classes:
        for code in sorted(set(np.unique(values).tolist()) - set(labels) - {NULL}):
            lacking.setdefault(code, []).append(name)
    if lacking:
        codes = sorted(lacking)
        names = dict.fromkeys(name for code in codes for name in lacking[code])
        warn(f"{argument}: no label for {first_of(codes)} in {' and '.join(names)}")
    return labels


def coded(
    title: str, classes: Integers, labels: Mapping[int, str], label: str = "{}_label"
) -> list[Column]:
    """Return a column of classes and, if there are labels, a column of labels."""
    columns = [Column(title, "class", classes)]
    if labels:
        texts = [labels.get(code) for code in classes.tolist()]
        columns.append(Column(label.format(title), "label", texts))
    return columns
