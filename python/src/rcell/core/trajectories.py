# SPDX-License-Identifier: Apache-2.0 OR GPL-2.0-or-later
"""Count sequences of classes over many years, and map when classes changed."""

from __future__ import annotations

import dataclasses
from collections.abc import Iterable, Iterator, Mapping, Sequence
from typing import Any, NamedTuple, Optional

import numpy as np

from .area import Measure
from .arguments import MAX_CATEGORY
from .arrays import Integers
from .change import checked_years, maps_in_time
from .columns import Column, Table
from .counting import MOST_MAPS, Counts, Maps, coded, counts_of, legend_for, places_of, sized
from .errors import BadArgument
from .protocol import NULL
from .scripts import Run
from .sources import MapLike

__all__ = ["MAPS", "Trajectories", "trajectories"]

# The maps that can be requested.
MAPS = ("changes", "first_change", "last_change")
# The largest number of comparisons that fit in an expression of 1,000 tokens.
_TERMS = 50


class Trajectories(NamedTuple):
    """The result of `trajectories`: the classes of cells over the years.

    Parameters
    ----------
    table : pandas.DataFrame
        A row for each sequence of classes: each year's class and label, `cells`, `area_ha`,
        `percent`, the number of `changes`, the number of distinct `classes`, and the years
        `first_change` and `last_change`. A change is dated to the first year with the new class.
    changes : pandas.DataFrame
        A row for each number of changes, with `changes`, `cells`, `area_ha` and `percent`.
    intervals : pandas.DataFrame
        A row for each pair of consecutive years: the change between them, the annual percentage
        `percent_year`, and the average annual percentage over all years, `uniform_percent_year`
        (Aldwaik and Pontius 2012, equations 1 and 2).
    maps : dict of str to Raster
        With `include_maps`, the maps `changes`, `first_change` and `last_change`.

    Examples
    --------
    >>> import numpy as np, rcell
    >>> maps = [np.array([[1, 1]]), np.array([[1, 2]]), np.array([[1, 1]])]
    >>> rcell.trajectories(maps, [2000, 2010, 2020]).changes
       changes  cells  percent
    0        0      1     50.0
    1        2      1     50.0
    """

    table: Any
    changes: Any
    intervals: Any
    maps: Any


def trajectories(
    maps: Sequence[MapLike],
    years: Optional[Iterable[int]] = None,
    area: Optional[str] = "auto",
    *,
    labels: Any = None,
    include_maps: bool = False,
    crs: Any = None,
) -> Trajectories:
    """Count each sequence of classes over the years, in cells that are not null in any year.

    Parameters
    ----------
    maps : list of maps, or DataArray with the dimension `time`
        Two or more maps that `run` accepts, in the order of their years. More than 16 maps, or 15
        in degrees, are accepted only if they contain few classes.
    years : iterable of int
        The year of each map, in ascending order. A DataArray does not need years.
    area, labels
        See `change`.
    include_maps : bool
        Whether to compute maps of the number of changes, of the year of the first change, and of
        the year of the last change.
    crs : any, optional
        The coordinate reference system to assume for maps that do not have one.

    Returns
    -------
    Trajectories
        A named tuple of the DataFrames `table`, `changes` and `intervals`, and the dict `maps`.

    Raises
    ------
    Refused
        See `run`.
    BadArgument
        The years are not in ascending order, their number differs from the number of maps, or there
        are too many maps for the number of classes.

    Examples
    --------
    >>> import numpy as np, rcell
    >>> found = rcell.trajectories([np.array([[1, 1, 2]]), np.array([[1, 2, 2]])], [2000, 2010])
    >>> found.table[["class_2000", "class_2010", "cells", "first_change"]]
       class_2000  class_2010  cells  first_change
    0           1           1      1          <NA>
    1           1           2      1          2010
    2           2           2      1          <NA>
    """
    listed, dates = maps_in_time(maps, years)
    if len(listed) < 2:
        raise BadArgument("maps", f"must be a list of two or more maps; got {len(listed)}")
    steps = checked_years(dates, len(listed))
    if steps is None or steps != sorted(steps):
        outcome = "none" if steps is None else ", ".join(map(str, steps))
        raise BadArgument("years", f"must be ascending, one for each map; got {outcome}")
    series = Maps({f"map_{number}": map for number, map in enumerate(listed, 1)}, crs)
    measure = series.measure(area)
    counts = _counts(series, measure)
    sequences = _Sequences(counts, steps, measure)
    table = sequences.table(_labels_of(series, counts, labels))
    changes, intervals = sequences.changes(), sequences.intervals()
    if not include_maps:
        return Trajectories(table, changes, intervals, maps={})
    script = "\n".join(_lines_of_maps(list(series.sources), steps))
    run = Run(script, series.sources, named={}, crs=series.crs)
    return Trajectories(table, changes, intervals, maps=dict(zip(MAPS, run.maps(MAPS))))


def _labels_of(series: Maps, counts: Counts, legend: Any) -> list[Mapping[int, str]]:
    """Return each map's labels, from the legend, the map itself, or the first map with labels."""
    own = [source.labels for source in series.sources.values()]
    if legend is not None:
        classes = list(zip(series.sources, counts.classes.T))
        return [legend_for(legend, own={}, classes=classes)] * len(own)
    first_labels: Mapping[int, str] = next((labels for labels in own if labels), {})
    return [labels or first_labels for labels in own]


class _Sequences:
    """The sequences of classes that occur in a series of maps."""

    def __init__(self, counts: Counts, years: list[int], measure: Measure) -> None:
        self.counts, self._years, self._measure = counts, years, measure
        self._moved = counts.classes[:, 1:] != counts.classes[:, :-1]
        self._changes = self._moved.sum(axis=1, dtype=np.int64)

    def table(self, labels: Sequence[Mapping[int, str]]) -> Table:
        """Return a table with a row for each sequence."""
        columns: list[Column] = []
        for year, classes, map_labels in zip(self._years, self.counts.classes.T, labels):
            columns += coded(f"class_{year}", classes, map_labels, f"label_{year}")
        columns += self.counts.columns(self._measure, self.counts.percent())
        ordered = np.sort(self.counts.classes, axis=1)
        distinct = (ordered[:, 1:] != ordered[:, :-1]).sum(axis=1, dtype=np.int64) + 1
        columns.append(Column("changes", "count", self._changes))
        columns.append(Column("classes", "count", distinct))
        last_interval = self._moved.shape[1] - 1
        first_change = self._moved.argmax(axis=1)  # the first interval that is True
        last_change = last_interval - self._moved[:, ::-1].argmax(axis=1)
        year_to = np.array(self._years[1:], np.int64)
        for title, interval in (("first_change", first_change), ("last_change", last_change)):
            dates = np.where(self._changes > 0, year_to[interval], NULL)
            columns.append(Column(title, "class", dates))
        return Table(columns)

    def changes(self) -> Table:
        """Return a table with a row for each number of changes."""
        order = np.argsort(self._changes, kind="stable")
        numbers = self._changes[order][:, None]
        by_sequence = dataclasses.replace(self.counts.where(order), classes=numbers)
        by_number = by_sequence.summed(places_of(numbers))
        columns = by_number.columns(self._measure, by_number.percent())
        return Table([Column("changes", "count", by_number.classes[:, 0]), *columns])

    def intervals(self) -> Table:
        """Return a table with a row for each interval between two years."""
        years, weights = np.array(self._years, np.int64), self.counts.weights()
        changed = (self._moved * weights[:, None]).sum(axis=0)
        cells = (self._moved * self.counts.cells[:, None]).sum(axis=0)
        total = weights.sum()
        percent = changed * 100.0 / total if total else np.full(years.size - 1, np.nan)
        area = self._measure.area(cells) if self.counts.area is None else changed
        uniform = np.full(cells.size, percent.sum() / (years[-1] - years[0]))
        return Table(
            [
                Column("year_from", "class", years[:-1]),
                Column("year_to", "class", years[1:]),
                *sized(self._measure, cells, area, percent),
                Column("percent_year", "measure", percent / np.diff(years)),
                Column("uniform_percent_year", "measure", uniform),
            ]
        )


def _counts(series: Maps, measure: Measure) -> Counts:
    """Count each sequence of classes.

    If there are many maps, their classes are packed into fewer maps.
    """
    names = list(series.sources)
    rows = [] if measure.by_row is None else ["row"]
    if len(names) + len(rows) <= MOST_MAPS:
        [counts] = series.counts([names], measure)
        return counts
    tables = series.tables("\n".join(f"r.stats -n input={name}" for name in names))
    classes = np.unique(np.concatenate([table[:, 0] for table in tables]))
    # A pack of maps is a number in this base, with the rank of each map's class as a digit. As many
    # digits as fit into a category are packed.
    base = max(classes.size, 2)
    size = next(size for size in range(1, 32) if base ** (size + 1) > MAX_CATEGORY)
    packs = [names[start : start + size] for start in range(0, len(names), size)]
    if len(packs) + len(rows) > MOST_MAPS:
        most = size * (MOST_MAPS - len(rows))
        raise BadArgument(
            "maps", f"must list at most {most} maps for {classes.size} classes; got {len(names)}"
        )
    lines = list(_packing(packs, classes.tolist(), base))
    lines += ["r.mapcalc row = row()"] if rows else []
    packed = [f"pack{number}" for number in range(len(packs))]
    lines.append(f"r.stats -c -n input={','.join([*rows, *packed])}")
    [packed_table] = series.tables("\n".join(lines))
    packed_counts = counts_of(packed_table, measure)
    columns: list[Integers] = []
    for pack, numbers in zip(packs, packed_counts.classes.T):
        powers = base ** np.arange(len(pack) - 1, -1, -1)
        columns += [classes[numbers // power % base] for power in powers]
    return Counts(np.column_stack(columns), packed_counts.cells, packed_counts.area)


def _packing(packs: Sequence[Sequence[str]], classes: Sequence[int], base: int) -> Iterator[str]:
    """Yield script lines that pack the class ranks of several maps into one map."""
    rules = "\n".join(f"{code} = {rank}" for rank, code in enumerate(classes))
    for number, pack in enumerate(packs):
        yield from (f"r.reclass input={name} output={name}_rank\n{rules}\nend" for name in pack)
        text = f"{pack[0]}_rank"
        for name in pack[1:]:
            text = f"({text}) * {base} + {name}_rank"
        yield f"r.mapcalc pack{number} = {text}"


def _lines_of_maps(names: Sequence[str], years: Sequence[int]) -> Iterator[str]:
    """Yield script lines that compute the maps of changes, split into short expressions."""
    moves = list(zip(names, names[1:], years[1:]))
    sums: list[str] = []
    for start in range(0, len(moves), _TERMS):
        part = moves[start : start + _TERMS]
        text = " + ".join(f"({before} != {after})" for before, after, _ in part)
        sums.append(f"sum{len(sums)}")
        yield f"r.mapcalc {sums[-1]} = {text}"
    yield f"r.mapcalc changes = {' + '.join(sums)}"
    # The interval that is added last is tested first.
    for name, ordered in (("first_change", moves[::-1]), ("last_change", moves)):
        text = "null()"
        for number, (before, after, year) in enumerate(ordered, 1):
            text = f"if({before} != {after}, {year}, {text})"
            if number % _TERMS == 0:
                yield f"r.mapcalc {name}_{number} = {text}"
                text = f"{name}_{number}"
        yield f"r.mapcalc {name} = if(isnull(changes), null(), {text})"
