# SPDX-License-Identifier: Apache-2.0 OR GPL-2.0-or-later
"""Draw random cells of each class for a reference sample."""

from __future__ import annotations

import hashlib
import itertools
import numbers
import re
from collections.abc import Mapping, Sequence
from typing import Any

import numpy as np

from .arguments import MAX_CATEGORY, first_of, whole_number_of
from .arrays import Integers
from .columns import Column, Table
from .counting import Maps, places_of, sums_of
from .errors import BadArgument
from .host import warn
from .sources import MapLike

__all__ = ["drawn", "sample"]

ALLOCATIONS = ("equal", "proportional")
# The limit keeps products with cell counts exact in R's floats, so that R draws the same cells.
MOST_POINTS = 1_000_000
# The largest number of cells that one run lists.
_MOST_LISTED = 1 << 22
# The number of bits used of a hash, for which R's floats are exact.
_BITS = 48
_OF_CLASSES = re.compile(r"-?[0-9]+:[0-9]+(,-?[0-9]+:[0-9]+)*")


def sample(
    map: MapLike,
    n: int | str | Mapping[int, int],
    seed: int | str,
    allocation: str = "equal",
    *,
    labels: Any = None,
    crs: Any = None,
) -> Table:
    """Draw cells at random from each class of a map, without replacement.

    All cells of a class have the same probability. The draw depends only on the cells, `n`,
    `allocation` and `seed`. Cells are chosen with SHA-256, so the draw is the same in all packages
    and versions.

    Parameters
    ----------
    map : path, array, or any map that `run` accepts
        A map whose classes are the strata.
    n : int, or dict of int by class
        The number of cells to draw, in total or from each class. A string such as `500` or
        `11:50,31:100` is also accepted.
    seed : int or str
        A value that determines the draw.
    allocation : {"equal", "proportional"}
        How to divide a total among classes. The remainder goes to the first classes ("equal") or to
        the largest fractions ("proportional").
    labels : path, dict, Series or DataFrame, optional
        A legend, as in `composition`.
    crs : any, optional
        The coordinate reference system to assume for a map that does not have one.

    Returns
    -------
    pandas.DataFrame
        The columns are `point`, `class`, `label`, `row` and `col` (counted from 1 at the top left),
        and `x` and `y` (of the cell's centre). If a class has too few cells, all of them are drawn,
        with a warning.

    Raises
    ------
    Refused
        A legend is invalid. See `run` for other reasons.
    BadArgument
        An argument is out of range, or `n` contains a class that does not occur in the map.

    Examples
    --------
    >>> import numpy as np, rcell
    >>> rcell.sample(np.array([[1, 1, 2], [3, 2, 2]]), {1: 1, 2: 2}, seed=7)
       point  class  row  col    x    y
    0      1      1    1    1  0.5  1.5
    1      2      2    1    3  2.5  1.5
    2      3      2    2    2  1.5  0.5
    """
    if isinstance(seed, bool) or not isinstance(seed, (numbers.Integral, str)):
        raise BadArgument("seed", f"must be a whole number or a string; got {seed!r}")
    requested = _requested(n, allocation)
    maps = Maps({"map": map}, crs)
    [entries] = maps.tables("r.mapcalc row = row()\nr.stats -c -n input=map,row")
    row_classes, row_numbers, row_cells = entries.T
    first = places_of(row_classes)
    classes = row_classes[first].tolist()
    sizes = sums_of(row_cells, first).tolist()
    wanted = _divided(requested, allocation, classes, sizes)
    _warn_of_few(classes, sizes, wanted)
    # Cells are ranked by class, row and column. An entry has the ranks from `begin` to `end - 1`.
    end = np.cumsum(row_cells)
    begin = end - row_cells
    # The class and row of each cell, and its position among the row's cells of this class.
    picked: list[tuple[int, int, int]] = []
    for code, size, class_begin, count in zip(classes, sizes, begin[first].tolist(), wanted):
        ranks = class_begin + np.array(drawn(f"{seed}:{code}", size, count), np.int64)
        indices = np.searchsorted(end, ranks, "right")
        places = ranks - begin[indices]
        for row, place in zip(row_numbers[indices].tolist(), places.tolist()):
            picked.append((code, row, place))
    codes, rows, _ = np.array(picked, np.int64).reshape(-1, 3).T
    cols = _columns(maps, picked)
    width, _, west, _, height, north = maps.first.transform
    return Table(
        [
            Column("point", "class", np.arange(1, len(picked) + 1)),
            *maps.columns("class", codes, "map", labels, "label"),
            Column("row", "count", rows),
            Column("col", "count", cols),
            Column("x", "measure", west + width * (cols - 0.5)),
            Column("y", "measure", north + height * (rows - 0.5)),
        ]
    )


def _columns(maps: Maps, picked: Sequence[tuple[int, int, int]]) -> Integers:
    """Return the column of each picked cell (class, row, position), reading rows in blocks."""
    rows = sorted({row for _, row, _ in picked})
    step = max(1, _MOST_LISTED // maps.first.region.cols)
    columns: dict[tuple[int, ...], Integers] = {}  # the columns of each class in each row
    for start in range(0, len(rows), step):
        rules = "\n".join(f"{row} = {row}" for row in rows[start : start + step])
        # In the map `row`, all rows that are not selected become null.
        script = f"r.mapcalc every = row()\nr.reclass input=every output=row\n{rules}\nend"
        [cells] = maps.tables(f"{script}\nr.mapcalc col = col()\nr.stats -n input=map,row,col")
        first = places_of(cells[:, :2])
        keys = [tuple(key) for key in cells[first, :2].tolist()]
        columns.update(zip(keys, np.split(cells[:, 2], first[1:])))
    return np.array([columns[code, row][place] for code, row, place in picked], np.int64)


def drawn(key: str, size: int, count: int) -> list[int]:
    """Draw distinct numbers from 0 to `size - 1` with Floyd's algorithm and return them sorted.

    Random numbers are the first 48 bits of the SHA-256 hash of `KEY:COUNTER`. The counter starts
    at 1 and increases by 1 with each hash. Numbers that would bias the draw are rejected.

    Examples
    --------
    >>> drawn("7:1", 100, 5), drawn("a", 5, 9)
    ([60, 63, 64, 67, 73], [0, 1, 2, 3, 4])
    """
    counter = itertools.count(1)
    numbers: set[int] = set()
    for last in range(size - min(count, size), size):
        limit = last + 1
        # Up to a multiple of the limit, all remainders are equally frequent.
        unbiased = (1 << _BITS) // limit * limit
        value = unbiased
        while value >= unbiased:
            digest = hashlib.sha256(f"{key}:{next(counter)}".encode()).digest()
            value = int.from_bytes(digest[: _BITS // 8], "big")
        numbers.add(last if value % limit in numbers else value % limit)
    return sorted(numbers)


def _requested(n: Any, allocation: Any) -> int | dict[int, int]:
    """Return the requested number of cells, in total or for each class."""
    if allocation not in ALLOCATIONS:
        raise BadArgument("allocation", f'must be "equal" or "proportional"; got {allocation!r}')
    if isinstance(n, str) and _OF_CLASSES.fullmatch(n):
        pairs = [word.split(":") for word in n.split(",")]
        n = {int(code): int(count) for code, count in pairs}
    elif isinstance(n, str) and n.isdecimal():
        n = int(n)
    if not isinstance(n, Mapping):
        return whole_number_of("n", n, 1, MOST_POINTS)
    if allocation != "equal":  # the default
        rule = f"must be left out if n has a number for each class; got {allocation!r}"
        raise BadArgument("allocation", rule)
    counts = {}
    for code, count in n.items():
        whole_number_of("n", code, -MAX_CATEGORY, MAX_CATEGORY)
        counts[int(code)] = whole_number_of("n", count, 0, MOST_POINTS)
    return counts


def _divided(
    requested: int | dict[int, int], allocation: str, classes: list[int], sizes: list[int]
) -> list[int]:
    """Return the number of cells to draw from each class, by the method of largest remainders."""
    if isinstance(requested, dict):
        lacking = sorted(set(requested) - set(classes))
        if lacking:
            raise BadArgument("n", f"must name classes that occur in the map; got {lacking[0]}")
        return [requested.get(code, 0) for code in classes]
    weights = sizes if allocation == "proportional" else [1] * len(classes)
    total = max(sum(weights), 1)
    counts = [requested * weight // total for weight in weights]
    remainders = [requested * weight % total for weight in weights]
    order = sorted(range(len(weights)), key=lambda index: (-remainders[index], index))
    for index in order[: requested - sum(counts)]:
        counts[index] += 1
    return counts


def _warn_of_few(classes: list[int], sizes: list[int], wanted: list[int]) -> None:
    few = [
        f"{code} ({size:,} of {count:,})"
        for code, size, count in zip(classes, sizes, wanted)
        if size < count
    ]
    if few:
        warn(f"some classes have fewer cells than requested: {first_of(few)}")
