# SPDX-License-Identifier: Apache-2.0 OR GPL-2.0-or-later
"""Count the changes between maps of two or more years."""

from __future__ import annotations

import itertools
import numbers
from collections.abc import Iterable, Mapping, Sequence
from dataclasses import dataclass
from typing import Any, NamedTuple, Optional

import numpy as np

from .area import Measure
from .arrays import NDArray
from .columns import Column, Matrix, Table, distinct_names
from .counting import Counts, Maps, legend_for, sized
from .errors import BadArgument
from .sources import MapLike

__all__ = ["Change", "change", "checked_years", "maps_in_time"]

_PARTS = ("before", "after", "gain", "loss", "net", "swap", "persistence")
_YEARS = ("year_from", "year_to")

Labels = Mapping[int, str]


class Change(NamedTuple):
    """The result of `change`: how much of each class changed to each other class.

    Parameters
    ----------
    table : pandas.DataFrame
        A row for each change that occurs, with the columns `from`, `from_label`, `to`, `to_label`,
        `cells`, `area_ha` and `percent`: the change's percentage of the area that is null in
        neither year.
    matrix : pandas.DataFrame
        The areas, or the numbers of cells if areas are not computed, with a row for each earlier
        class and a column for each later class. If several classes have the same label, their
        numbers are appended, for example `wood (31)`.
    summary : pandas.DataFrame
        A row for each class, with the area before, the area after, gain, loss, net change, swap and
        persistence. Swap is twice the smaller of gain and loss, because the class lost this area in
        one place and gained it in another.

    Examples
    --------
    >>> import numpy as np, rcell
    >>> found = rcell.change(np.array([[1, 1, 2]]), np.array([[1, 2, 2]]))
    >>> found.matrix  # doctest: +NORMALIZE_WHITESPACE
    to    1  2
    from
    1     1  1
    2     0  1
    """

    table: Any
    matrix: Any
    summary: Any


def change(
    before: MapLike | Sequence[MapLike],
    after: Optional[MapLike] = None,
    *,
    years: Optional[Iterable[int]] = None,
    area: Optional[str] = "auto",
    labels: Any = None,
    crs: Any = None,
) -> Change:
    """Count the changes between classes in maps of two or more years, ignoring null cells.

    Parameters
    ----------
    before, after : path, array, or any map that `run` accepts
        The maps of the two years. Alternatively, `before` is a list of maps in chronological order,
        or a DataArray with the dimension `time`. Each map is then compared with the next one.
    years : iterable of int, optional
        The year of each map. Required for a list of more than two maps.
    area : {"ha", "km2", "m2"} or None
        The unit of areas, as in `composition`.
    labels : path, dict, Series or DataFrame, optional
        A legend for all maps, as in `composition`, which replaces the maps' own labels. By default,
        maps without labels get the labels of the first map with labels.
    crs : any, optional
        The coordinate reference system to assume for maps that do not have one.

    Returns
    -------
    Change
        A named tuple with the DataFrames `table`, `matrix` and `summary`.

    Raises
    ------
    Refused
        See `run`.
    BadArgument
        Only one map is given, or the number of years differs from the number of maps.

    Examples
    --------
    >>> import numpy as np, rcell
    >>> found = rcell.change(np.array([[1, 1, 2]]), np.array([[1, 2, 2]]))
    >>> found.summary.iloc[0].tolist()
    [1, 2, 1, 0, 1, -1, 0, 1]
    """
    named_maps, listed_years = _maps_of(before, after, years)
    checked = checked_years(listed_years, len(named_maps))
    maps = Maps(named_maps, crs)
    measure = maps.measure(area)
    names = list(maps.sources)
    pairs = maps.counts(list(zip(names, names[1:])), measure)
    map_labels = [maps.sources[name].labels for name in names]
    first_labels: Labels = next(filter(None, map_labels), {})
    if labels is not None:
        occurring = [(name, _classes_of(pairs, index)) for index, name in enumerate(names)]
        map_labels = [legend_for(labels, own={}, classes=occurring)] * len(names)
    all_labels = [own or first_labels for own in map_labels]
    changes = _Changes(pairs, checked, all_labels, measure)
    return Change(changes.table(), changes.matrix(), changes.summary())


def _maps_of(before: Any, after: Any, years: Any) -> tuple[dict[str, Any], Any]:
    """Return a call's maps by name, and the years of the maps."""
    if after is not None:
        return {"before": before, "after": after}, years
    maps, years = maps_in_time(before, years)
    if len(maps) < 2:
        raise BadArgument("after", "must be a map unless before is a list of maps; got None")
    if len(maps) == 2:
        return dict(zip(("before", "after"), maps)), years
    return {f"map_{number}": map for number, map in enumerate(maps, 1)}, years


def maps_in_time(maps: Any, years: Any) -> tuple[list[Any], Any]:
    """Return the maps in a list or in a DataArray with the dimension `time`, and the years."""
    if "time" in getattr(maps, "dims", ()):
        from ..readers.xarray import series_of

        bands, own_years = series_of(maps)
        return list(bands), own_years if years is None else years
    listed = list(maps) if isinstance(maps, (list, tuple)) else [maps]
    return listed, years


def checked_years(years: Any, map_count: int) -> Optional[list[int]]:
    """Return the years as a list, or raise BadArgument unless each map has one year."""
    if years is None and map_count == 2:
        return None
    if isinstance(years, str) or not (years is None or isinstance(years, Iterable)):
        rule = f"must be a list of whole numbers, for example [2000, 2020]; got {years!r}"
        raise BadArgument("years", rule)
    listed = [] if years is None else list(years)
    for year in listed:
        if not isinstance(year, numbers.Integral) or isinstance(year, bool):
            raise BadArgument("years", f"must be whole numbers; got {year!r}")
        if listed.count(year) > 1:
            raise BadArgument("years", f"must differ; got {year} twice")
    if len(listed) != map_count:
        rule = f"must list one year for each map; got {len(listed) or 'none'} for {map_count} maps"
        raise BadArgument("years", rule)
    return [int(year) for year in listed]


def _classes_of(pairs: Sequence[Counts], index: int) -> NDArray[np.int64]:
    """Return the classes in one map of a series, given the counts of each pair of years."""
    parts = []
    if index < len(pairs):
        parts.append(pairs[index].classes[:, 0])  # the map is the earlier of this pair
    if index > 0:
        parts.append(pairs[index - 1].classes[:, 1])  # the map is the later of this pair
    return np.concatenate(parts)


@dataclass(frozen=True)
class _Changes:
    """The cell counts of all changes between consecutive years, and the labels of each year."""

    pairs: Sequence[Counts]
    years: Optional[list[int]]
    labels: Sequence[Labels]
    measure: Measure

    def table(self) -> Table:
        """Return a table with a row for each change that occurs."""
        columns = self._years_of([pair.cells.size for pair in self.pairs])
        for place, name in enumerate(("from", "to")):
            classes = [pair.classes[:, place] for pair in self.pairs]
            labels = self.labels[place:]  # of the earlier or the later map of each pair
            columns += self._with_labels(name, f"{name}_label", classes, labels)
        cells = np.concatenate([pair.cells for pair in self.pairs])
        area = np.concatenate([pair.areas(self.measure) for pair in self.pairs])
        percent = np.concatenate([pair.percent() for pair in self.pairs])
        return Table(columns + sized(self.measure, cells, area, percent))

    def matrix(self) -> Matrix:
        """Return a matrix with a row for each earlier class and a column for each later class."""
        after = np.unique(np.concatenate([pair.classes[:, 1] for pair in self.pairs]))
        classes, parts = [], []
        for pair in self.pairs:
            measured = pair.cells if self.measure.unit is None else pair.areas(self.measure)
            before, values = _matrix_of(pair, measured, after)
            classes.append(before)
            parts.append(values)
        keys = self._years_of([before.size for before in classes])
        later: dict[int, str] = {}
        for labels in self.labels[1:]:
            later.update(labels)
        # The columns share one axis; the rows of each pair of years are an axis of their own.
        axes = [(after, later), *zip(classes, self.labels)]
        titles, *texts = distinct_names(axes, taken=[*(key.name for key in keys), "from"])
        has_labels = any(self.labels)
        if has_labels:
            keys.append(Column("from", "label", list(itertools.chain(*texts))))
        else:
            keys.append(Column("from", "class", np.concatenate(classes)))
        return Matrix(keys, "to", titles, np.concatenate(parts), is_numbered=not has_labels)

    def summary(self) -> Table:
        """Return a table of each class's areas, gain, loss, net change, swap and persistence."""
        classes, parts = [], []
        for pair in self.pairs:
            codes, sums = _summary_of(pair, pair.weights())
            classes.append(codes)
            parts.append(sums)
        both_labels = [{**before, **after} for before, after in zip(self.labels, self.labels[1:])]
        columns = self._years_of([codes.size for codes in classes])
        columns += self._with_labels("class", "label", classes, both_labels)
        values = np.concatenate(parts, axis=1)
        if self.measure.unit is not None and self.measure.by_row is None:
            values = self.measure.area(values)  # in degrees, weights are already areas
        kind = "count" if self.measure.unit is None else "measure"
        for part, row in zip(_PARTS, values):
            columns.append(Column(f"{part}_{self.measure.column}", kind, row))
        return Table(columns)

    def _years_of(self, rows: list[int]) -> list[Column]:
        """Return the columns with the years before and after each change, if years are given.

        `rows` contains the number of rows for each pair of years.
        """
        if self.years is None:
            return []
        years = np.array(self.years, np.int64)
        named_years = zip(_YEARS, (years[:-1], years[1:]))
        return [Column(name, "class", np.repeat(part, rows)) for name, part in named_years]

    def _with_labels(
        self,
        name: str,
        label_name: str,
        classes: Sequence[NDArray[np.int64]],
        labels: Sequence[Labels],
    ) -> list[Column]:
        """Return the class column for all years and, if there are labels, the label column."""
        columns = [Column(name, "class", np.concatenate(classes))]
        if any(self.labels):
            texts: list[Optional[str]] = []
            for codes, labels_of_pair in zip(classes, labels):
                texts += [labels_of_pair.get(code) for code in codes.tolist()]
            columns.append(Column(label_name, "label", texts))
        return columns


def _matrix_of(
    pair: Counts, measured: NDArray[Any], after: NDArray[np.int64]
) -> tuple[NDArray[np.int64], NDArray[Any]]:
    """Return the earlier classes, and a matrix of the values by earlier and later class.

    The matrix has a row for each earlier class and a column for each class in `after`.
    """
    before, down = np.unique(pair.classes[:, 0], return_inverse=True)
    values = np.zeros((before.size, after.size), measured.dtype)
    values[down, np.searchsorted(after, pair.classes[:, 1])] = measured
    return before, values


def _summary_of(pair: Counts, measured: NDArray[Any]) -> tuple[NDArray[np.int64], NDArray[Any]]:
    """Return the classes that occur in either year, and the measures in `_PARTS` for each class."""
    classes, indices = np.unique(pair.classes, return_inverse=True)
    before, after = indices.reshape(-1, 2).T
    persists = before == after
    begun, ended, same = np.zeros((3, classes.size), measured.dtype)
    np.add.at(begun, before, measured)
    np.add.at(ended, after, measured)
    np.add.at(same, before[persists], measured[persists])
    gain, loss = ended - same, begun - same
    swap = 2 * np.minimum(gain, loss)
    return classes, np.stack([begun, ended, gain, loss, ended - begun, swap, same])
