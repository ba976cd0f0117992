# SPDX-License-Identifier: Apache-2.0 OR GPL-2.0-or-later
"""Compute statistics of a map's values by zone."""

from __future__ import annotations

from decimal import Decimal
from typing import Any, Iterable

import numpy as np

from .arguments import MAX_CATEGORY, whole_number_of
from .arrays import Integers, NDArray
from .counting import Maps, places_of
from .errors import BadArgument, BadMap
from .host import option, warn
from .sources import MapLike, Scaled, Source, source_of
from .columns import Column, Table

__all__ = ["zonal"]


def zonal(
    values: MapLike,
    zones: Any,
    quantiles: Iterable[float] = (0.5,),
    scale: int | None = None,
    *,
    zone_field: str | None = None,
    layer: str | None = None,
    each: bool = False,
    zone_labels: Any = None,
    crs: Any = None,
) -> Table:
    """Compute statistics of a map of whole numbers, or of scaled decimals, by zone.

    Parameters
    ----------
    values : path, array, or any map that `run` accepts
    zones : map, or path of polygons, GeoDataFrame or GeoSeries
        See `composition`.
    quantiles : iterable of float
        Quantiles from 0 to 1, each of which becomes a column: 0.5 is `q50`, and 0.025 is `q2_5`.
        They are interpolated linearly, as numpy does by default.
    scale : int, optional
        Round decimals to multiples of 1 / `scale`, with a warning. For example, `scale=100` keeps
        two decimals.
    zone_field, layer : str, optional
        See `composition`.
    each : bool
        Whether to process overlapping polygons separately, as in `composition`.
    zone_labels : path, dict, Series or DataFrame, optional
        The legend of the zones, as in `composition`.
    crs : any, optional
        The coordinate reference system to assume for maps that do not have one.

    Returns
    -------
    pandas.DataFrame
        The columns are `zone`, `zone_label`, `cells`, `sum`, `mean`, `minimum`, `maximum`,
        `variance` (of the population), and the quantiles. Zones with only null values have no row.
        With `scale`, statistics are computed from integers and divided at the end.

    Raises
    ------
    Refused
        A value is too large for `scale`. See `run` for other reasons.
    BadArgument
        A quantile is not from 0 to 1, or `scale` is out of range.

    Examples
    --------
    >>> import numpy as np, rcell
    >>> height, zone = np.array([[412, 415, 420]]), np.array([[1, 1, 2]])
    >>> rcell.zonal(height, zone)
       zone  cells  sum   mean  minimum  maximum  variance    q50
    0     1      2  827  413.5      412      415      2.25  413.5
    1     2      1  420  420.0      420      420      0.00  420.0
    """
    if isinstance(quantiles, str) or not isinstance(quantiles, Iterable):
        rule = f"must be a list of numbers from 0 to 1, for example [0.5]; got {quantiles!r}"
        raise BadArgument("quantiles", rule)
    titled_quantiles = [(_title(quantile), float(quantile)) for quantile in quantiles]
    source: Source = source_of("values", values)
    if scale is not None:
        source = Scaled(source, whole_number_of("scale", scale, 1, MAX_CATEGORY))
    maps = Maps({"values": source}, crs, zones, zone_field, layer, each)
    try:
        [entries] = maps.tables("r.stats -c -n input=zones,values")
    except BadMap as error:
        if scale is None and error.source == source.name and error.advice:
            error.advice = f"{option('scale', 100)}, which rounds to 1/100"
        raise
    if scale is not None:
        warn(f"{source.name}: rounded to 1/{scale}")
    entry_zones, entry_values, cells = entries.T
    first = places_of(entry_zones)
    columns = maps.columns("zone", entry_zones[first], "zones", legend=zone_labels)
    return Table(
        columns
        + _moments(entry_values, cells, first, scale)
        + _quantiles(entry_values, cells, first, titled_quantiles, scale)
    )


def _title(quantile: Any) -> str:
    """Return a quantile's column name: `q` and the percentage, with `_` for the decimal point."""
    try:
        number = float(quantile)
    except (TypeError, ValueError):
        number = -1.0  # out of range
    percentage = Decimal(repr(number)) * 100
    if not 0 <= number <= 1:
        raise BadArgument("quantiles", f"must be from 0 to 1; got {quantile!r}")
    text = f"{percentage:f}"
    if "." in text:
        text = text.rstrip("0").rstrip(".")
    return "q" + text.replace(".", "_")


def _moments(
    values: Integers, cells: Integers, first: NDArray[np.intp], scale: int | None
) -> list[Column]:
    """Return sums, means, extremes and variances, using integers until the last division."""
    # A zone's values, in ascending order, begin at its index in `first`. Each occurs in `cells`.
    if not first.size:
        sums = squares = count = least = most = np.empty(0, np.int64)
    else:
        last = np.concatenate([first[1:], [values.size]]) - 1
        count, least, most = np.add.reduceat(cells, first), values[first], values[last]
        sums = np.add.reduceat(values * cells, first)
        # Squares of large values do not fit in 64 bits.
        largest = int(np.abs(values).max())
        exact = values if largest**2 * int(count.max()) < 2**63 else values.astype(object)
        squares = np.add.reduceat(exact * exact * cells, first)
    unit, kind = (1, "count") if scale is None else (scale, "measure")
    means, variances = [], []
    for n, total, squared in zip(count.tolist(), sums.tolist(), squares.tolist()):
        means.append(total / (n * unit))
        variances.append((n * squared - total * total) / (n * n * unit * unit))
    totals, minima, maxima = (
        part if scale is None else part / scale for part in (sums, least, most)
    )
    return [
        Column("cells", "count", count),
        Column("sum", kind, totals),
        Column("mean", "measure", np.array(means, np.float64)),
        Column("minimum", kind, minima),
        Column("maximum", kind, maxima),
        Column("variance", "measure", np.array(variances, np.float64)),
    ]


def _quantiles(
    values: Integers,
    cells: Integers,
    first: NDArray[np.intp],
    titled_quantiles: list[tuple[str, float]],
    scale: int | None,
) -> list[Column]:
    """Return quantiles by zone, interpolated like numpy's method `linear`."""
    if not first.size:
        return [Column(title, "measure", np.empty(0)) for title, _ in titled_quantiles]
    end = np.cumsum(cells)
    zone_begin = np.concatenate([[0], end])[first]
    count = np.add.reduceat(cells, first)
    columns = []
    for title, quantile in titled_quantiles:
        rank = (count - 1) * quantile
        lower = np.floor(rank).astype(np.int64)
        upper = np.minimum(lower + 1, count - 1)
        low = values[np.searchsorted(end, zone_begin + lower, "right")]
        high = values[np.searchsorted(end, zone_begin + upper, "right")]
        fraction, step = rank - lower, (high - low).astype(np.float64)
        # As in numpy, from the nearer of the two values.
        interpolated = np.where(fraction < 0.5, low + step * fraction, high - step * (1 - fraction))
        columns.append(Column(title, "measure", interpolated / (1 if scale is None else scale)))
    return columns
