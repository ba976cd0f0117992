# SPDX-License-Identifier: Apache-2.0 OR GPL-2.0-or-later
"""Estimate a map's accuracy and correct its class areas with a reference sample."""

from __future__ import annotations

import math
import os
from typing import Any, Mapping, NamedTuple, Optional

import numpy as np

from ..readers import open_features
from .area import AUTO, unit_of
from .arguments import MAX_CATEGORY, first_of
from .arrays import Floats, Integers
from .columns import Column, Matrix, Table, measures
from .counting import Maps, coded, legend_for
from .crs import UNITS_OF_AREA
from .errors import BadArgument, Refused
from .host import option, warn
from .legends import is_missing, rows_of, whole_number
from .points import points_of
from .sources import MapLike, source_of

__all__ = ["Accuracy", "accuracy", "summary_of"]

_TABLES = (".csv", ".tsv")
# For the test of whether a sample is random: the normal deviate at p = 0.001, and the smallest
# expected count per class.
_DEVIATE = 3.09
_FEWEST = 5


class Accuracy(NamedTuple):
    """The result of `accuracy`: how well a map agrees with a reference.

    Parameters
    ----------
    matrix : pandas.DataFrame
        The confusion matrix: the number of sample cells, with a row for each map class and a column
        for each reference class.
    classes : pandas.DataFrame
        Each class's accuracies and area, with standard errors.
    overall, overall_se : float
        The share of the area that is mapped correctly, and its standard error.
    kappa : float
        Cohen's kappa, computed from the estimated shares, or NaN if there is only one class.
    quantity, allocation : float
        Quantity disagreement and allocation disagreement. Together with `overall`, they sum to 1.
    cells : int
        The number of cells in the sample.

    Examples
    --------
    >>> import numpy as np, rcell
    >>> found = rcell.accuracy(np.array([[1, 1, 2, 2]]), np.array([[1, 2, 2, 2]]))
    >>> found.overall, found.kappa, found.quantity, found.allocation
    (0.75, 0.5, 0.25, 0.0)
    """

    matrix: Any
    classes: Any
    overall: float
    overall_se: float
    kappa: float
    quantity: float
    allocation: float
    cells: int


def accuracy(
    map: Optional[MapLike],
    reference: Any,
    areas: Any = None,
    area: str | None = "auto",
    *,
    field: str | None = None,
    layer: str | None = None,
    labels: Any = None,
    crs: Any = None,
) -> Accuracy:
    """Compare a map with a reference sample and estimate each class's accuracy and area.

    Parameters
    ----------
    map : path, array, or any map that `run` accepts, or None
        The map to assess. May be None if the reference is a table.
    reference : map, points or table
        The reference sample: a map, whose null cells are ignored; points, given as a path, a
        GeoDataFrame or GeoJSON; or a table, given as a CSV file or a DataFrame with the columns
        `map`, `reference` and optionally `cells`.
    areas : "map", dict, Series, DataFrame or path, optional
        The areas of the map's classes, required if the sample was drawn class by class. Use "map"
        to compute the areas from the map, or list them by class in a dict, a Series, or a CSV file
        or DataFrame with the columns `value` and `area`. Without areas, the sample is treated as a
        simple random sample, and a warning is issued if points do not look like a random sample.
    area : {"ha", "km2", "m2"} or None
        The unit of areas, as in `composition`. The default is hectares if `areas` lists areas by
        class.
    field : str, optional
        The field that contains each point's class. By default, `class` or `reference`.
    layer : str, optional
        The layer to read if the point file has several layers.
    labels : path, dict, Series or DataFrame, optional
        A legend, as in `composition`.
    crs : any, optional
        The coordinate reference system to assume for maps that do not have one.

    Returns
    -------
    Accuracy
        A named tuple with the fields `matrix`, `classes`, `overall`, `overall_se`, `kappa`,
        `quantity`, `allocation` and `cells`. The columns of `classes` are `class`, `label`,
        `cells_map`, `cells_reference`, `users`, `users_se`, `producers`, `producers_se` and, if
        areas are computed, `mapped_ha`, `area_ha` and `area_se_ha`. Accuracies are shares from 0 to
        1, computed with equations 1 to 11 of Olofsson et al. 2014. Undefined values are NaN.
        Without areas, the standard errors are correct for a random sample, but meaningless if the
        reference covers the full map.

    Raises
    ------
    Refused
        The sample is empty, a class with an area has no sample cells, or a point's class is not a
        whole number.
    BadArgument
        `areas` does not include the area of a class in the sample.

    Examples
    --------
    >>> import pandas, rcell
    >>> sample = pandas.DataFrame({"map": [1, 1, 2], "reference": [1, 2, 2], "cells": [66, 9, 97]})
    >>> found = rcell.accuracy(None, sample, {1: 18000, 2: 882000})
    >>> found.classes[["class", "users", "producers", "mapped_ha", "area_ha"]]
       class  users  producers  mapped_ha   area_ha
    0      1   0.88   1.000000    18000.0   15840.0
    1      2   1.00   0.997557   882000.0  884160.0
    """
    pairs, maps = _pairs_of(map, reference, field, layer, crs, is_random=areas is None)
    pair_classes, pair_cells = pairs[:, :2], pairs[:, 2]
    if not pair_cells.sum():
        problem = "the sample is empty: no cell has a class in both the map and the reference"
        raise Refused(problem, "reference")
    sizes, unit = _sizes_of(areas, area, maps, crs)
    with_area = [code for code, size in (sizes or {}).items() if size > 0]
    classes = np.union1d(np.unique(pair_classes), np.array(with_area, np.int64))
    rows, cols = np.searchsorted(classes, pair_classes.T)
    counts = np.zeros((classes.size, classes.size), np.int64)
    np.add.at(counts, (rows, cols), pair_cells)
    map_cells = counts.sum(axis=1)
    mapped = map_cells.astype(np.float64)  # for a random sample: in proportion to the areas
    if sizes is not None:
        mapped = np.array([sizes.get(code, 0.0) for code in classes.tolist()])
        _check_strata(classes, mapped, map_cells)
    estimate = _Estimate(counts, weights=mapped / mapped.sum())
    map_labels = [] if maps is None else [source.labels for source in maps.sources.values()]
    first_labels: Mapping[int, str] = next(filter(None, map_labels), {})
    legend = legend_for(labels, first_labels, [("the sample", classes)])
    columns = coded("class", classes, legend, label="label") + estimate.columns()
    if unit is not None:
        class_areas, errors = mapped.sum() * np.array([estimate.shares, estimate.shares_se])
        sized = {"mapped": mapped, "area": class_areas, "area_se": errors}
        columns += measures({f"{name}_{unit}": values for name, values in sized.items()})
    all_pairs = np.stack([np.repeat(classes, classes.size), np.tile(classes, classes.size)], axis=1)
    matrix = Matrix.of(["map", "reference"], all_pairs, counts.reshape(-1), [legend, legend])
    return Accuracy(matrix, Table(columns), *estimate.summary(), cells=int(counts.sum()))


def summary_of(result: Accuracy) -> Table:
    """Return the overall measures and the number of sample cells as a one-row table."""
    return Table(
        Column(name, "count" if name == "cells" else "measure", np.array([value]))
        for name, value in zip(result._fields[2:], result[2:])  # without the two tables
    )


class _Estimate:
    """Estimated area shares by map class (rows) and reference class (columns).

    The sample is stratified by the map's classes. Equations are numbered as in Olofsson et al.
    2014, Remote Sensing of Environment 148. The variance of a stratum is NaN if the stratum has one
    cell, and is ignored if the stratum has no area.

    Parameters
    ----------
    counts : array of int64
        The number of sample cells for each map class (row) and reference class (column).
    weights : array of float64
        Each class's share of the map's area.
    """

    def __init__(self, counts: Integers, weights: Floats) -> None:
        self._counts, self._map_cells = counts, counts.sum(axis=1)
        self._within = counts / np.maximum(self._map_cells, 1)[:, None]  # shares of a map class
        self._joint = weights[:, None] * self._within  # shares of the map's area, equation 4
        self.shares = self._joint.sum(axis=0)  # equation 9
        variance = _ratio(self._within * (1 - self._within), (self._map_cells - 1)[:, None])
        self._users_variance = np.diag(variance)  # equation 6
        self._joint_variance = np.where(weights[:, None] > 0, weights[:, None] ** 2 * variance, 0)
        self.shares_se = np.sqrt(self._joint_variance.sum(axis=0))  # equation 10

    def columns(self) -> list[Column]:
        """Return columns with each class's cell counts, accuracies and standard errors."""
        has_cells, correct = self._map_cells > 0, np.diag(self._joint_variance)
        producers = _ratio(np.diag(self._joint), self.shares)  # equation 3
        # Equation 7, with shares in place of numbers of cells.
        wrong = self._joint_variance.sum(axis=0) - correct
        variance = (1 - producers) ** 2 * correct + producers**2 * wrong
        values = {
            "users": np.where(has_cells, np.diag(self._within), np.nan),  # equation 2
            "users_se": np.where(has_cells, np.sqrt(self._users_variance), np.nan),
            "producers": producers,
            "producers_se": _ratio(np.sqrt(np.maximum(variance, 0)), self.shares),
        }
        cells = {"cells_map": self._map_cells, "cells_reference": self._counts.sum(axis=0)}
        return [*(Column(name, "count", part) for name, part in cells.items()), *measures(values)]

    def summary(self) -> tuple[float, float, float, float, float]:
        """Return the overall accuracy, its standard error, kappa, and the two disagreements."""
        overall = float(np.trace(self._joint))  # equation 1
        overall_se = math.sqrt(np.trace(self._joint_variance))  # equation 5
        map_shares = self._joint.sum(axis=1)
        chance = float(map_shares @ self.shares)
        is_defined = len(map_shares) > 1 and chance < 1
        kappa = (overall - chance) / (1 - chance) if is_defined else math.nan
        # Pontius and Millones 2011, International Journal of Remote Sensing 32. Only wrong cells
        # are summed, so that both results are exactly 0 for a perfect map.
        wrong = self._joint * (1 - np.eye(len(map_shares)))
        too_much, missed = wrong.sum(axis=1), wrong.sum(axis=0)
        quantity = float(np.abs(too_much - missed).sum() / 2)
        allocation = float(np.minimum(too_much, missed).sum())
        return overall, overall_se, kappa, quantity, allocation


def _ratio(above: Any, below: Any) -> Floats:
    """Divide two arrays, returning NaN wherever the divisor is not positive."""
    return np.asarray(above / np.where(np.asarray(below) > 0, below, np.nan))


def _check_strata(classes: Integers, mapped: Floats, cells: Integers) -> None:
    """Raise an error if a class has an area but no sample cells, or sample cells but no area."""
    lacking = classes[(mapped > 0) & (cells == 0)].tolist()
    if lacking:
        problem = (
            "each map class with an area must have sample cells; got none for "
            f"{first_of(lacking)}"
        )
        raise Refused(f"{problem}: add cells, or merge the class with another one", "reference")
    extra = classes[(mapped == 0) & (cells > 0)].tolist()
    if extra:
        problem = f"must include each class in the sample; got no area for {first_of(extra)}"
        raise BadArgument("areas", problem)


# Samples


def _pairs_of(
    map: Any,
    reference: Any,
    field: Optional[str],
    layer: Optional[str],
    crs: Any,
    is_random: bool,
) -> tuple[Integers, Optional[Maps]]:
    """Count the sample cells of each pair of map class and reference class.

    Returns rows of (map class, reference class, cells) and the maps. The maps are None if the
    reference is a table and no map is given. Warns if points are to be treated as a random sample
    (`is_random`) but do not look like one.
    """
    points = open_features("reference", reference, layer)
    if points is None:
        for name, value in (("field", field), ("layer", layer)):
            if value is not None:
                raise BadArgument(name, "requires points, but reference has no points")
        pairs = _pairs_of_table(reference)
        if pairs is not None:
            return pairs, None if map is None else Maps({"map": source_of("map", map)}, crs)
    if map is None:
        raise BadArgument("map", "must be a map unless reference is a table; got None")
    source = source_of("map", map)
    if points is None:
        maps = Maps({"map": source, "reference": reference}, crs)
        [pairs] = maps.tables("r.stats -c -n input=map,reference")
        return pairs, maps
    placed = points_of(points, field, source, crs)
    maps = Maps({"map": source, "point": placed.map}, crs)
    point_classes, class_counts = maps.tables("r.stats -n input=point,map\nr.stats -c -n input=map")
    pairs = placed.pairs(point_classes)
    if is_random:
        _warn_of_strata(pairs, class_counts)
    return pairs, maps


def _warn_of_strata(pairs: Integers, class_counts: Integers) -> None:
    """Warn if a chi-squared test finds a sample's class shares implausible for a random sample.

    `pairs` is as in `_pairs_of`; `class_counts` has rows of (class, cells) for the full map. The
    rarest classes are pooled, so that no expected count is below `_FEWEST`. The critical value uses
    the Wilson-Hilferty approximation.
    """
    classes, cells = class_counts.T
    drawn = np.zeros(classes.size)
    np.add.at(drawn, np.searchsorted(classes, pairs[:, 0]), pairs[:, 2])
    order = np.argsort(cells, kind="stable")
    expected = cells[order] * (drawn.sum() / max(cells.sum(), 1))
    rare = np.count_nonzero(expected < _FEWEST)
    pooled = max(rare, int(np.searchsorted(np.cumsum(expected), _FEWEST)) + 1)
    freedom = classes.size - pooled
    if freedom < 1:
        return
    first = [0, *range(pooled, classes.size)]
    drawn = np.add.reduceat(drawn[order], first)
    expected = np.add.reduceat(expected, first)
    variance = 2 / (9 * freedom)
    limit = freedom * (1 - variance + _DEVIATE * math.sqrt(variance)) ** 3
    if ((drawn - expected) ** 2 / expected).sum() > limit:
        problem = "the shares of the map's classes differ between the sample and the map"
        remedy = f"if the sample was drawn class by class, use {option('areas', 'map')}"
        warn(f"reference: {problem}: {remedy}")


def _pairs_of_table(reference: Any) -> Optional[Integers]:
    """Return the counts of class pairs in a CSV file or a DataFrame, or None for other references.

    Rows that lack the map class or the reference class are left out.
    """
    is_path = isinstance(reference, (str, os.PathLike))
    is_file = is_path and os.path.splitext(os.fspath(reference))[1].lower() in _TABLES
    is_frame = hasattr(reference, "columns")  # pandas is not imported
    if not is_file and not is_frame:
        return None
    pairs = []
    for place, row in rows_of("reference", reference, ("map", "reference"), optional=("cells",)):
        mapped, actual = row["map"], row["reference"]
        if any(is_missing(value) or value == "" for value in (mapped, actual)):
            continue
        numbers = []
        for field in (mapped, actual, row.get("cells", 1)):
            number = whole_number(field)
            if number is None or abs(number) > MAX_CATEGORY:
                problem = f"{field!r} is not a valid class or number of cells"
                raise Refused(f"{place}: {problem}", "reference")
            numbers.append(number)
        *_, cells = numbers
        if cells < 0:
            problem = f"the number of cells must not be negative; got {cells}"
            raise Refused(f"{place}: {problem}", "reference")
        pairs.append(numbers)
    return np.array(pairs, np.int64).reshape(-1, 3)


# Areas


def _sizes_of(
    areas: Any, area: Any, maps: Optional[Maps], crs: Any
) -> tuple[Optional[dict[int, float]], Optional[str]]:
    """Return each class's area, or None if no areas are given, and the unit of areas."""
    if areas is None:
        return None, None
    if isinstance(areas, str) and areas == "map":
        if maps is None:
            raise BadArgument("areas", 'must list areas by class if no map is given; got "map"')
        measure = maps.measure(area)
        [counts] = maps.counts([["map"]], measure)
        known = zip(counts.classes[:, 0].tolist(), counts.areas(measure).tolist())
        return {code: float(size) for code, size in known}, measure.unit
    unit = "ha" if area == AUTO else area
    if unit is not None and unit not in UNITS_OF_AREA:
        unit_of(area, crs)  # raises an error that lists the units
    return dict(_sizes_given(areas)), unit


def _sizes_given(areas: Any) -> Any:
    """Yield (class, area) pairs from a dict, a Series, a CSV file or a DataFrame."""
    if isinstance(areas, (str, os.PathLike)) or hasattr(areas, "columns"):  # a DataFrame
        rows = rows_of("areas", areas, ("value", "area"))
        listed = [(f"{place}: ", row["value"], row["area"]) for place, row in rows]
    elif hasattr(areas, "items"):  # a dict or a Series
        listed = [("", code, number) for code, number in areas.items()]
    else:
        rule = f'must be "map" or areas by class, for example {{1: 18000}}; got {areas!r}'
        raise BadArgument("areas", rule)
    for place, code, size in listed:
        value = whole_number(code)
        try:
            number = float(size)
        except (TypeError, ValueError):
            number = math.nan
        if value is None or not 0 <= number < math.inf:
            rule = f"must be non-negative areas by class; got {place}{size!r} for {code!r}"
            raise BadArgument("areas", rule)
        yield value, number
