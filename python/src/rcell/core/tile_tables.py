# SPDX-License-Identifier: Apache-2.0 OR GPL-2.0-or-later
"""Add up the tables of tiles to get the table of the full map."""

from __future__ import annotations

import sys
from collections.abc import Sequence
from typing import Optional

import numpy as np

from .arrays import NDArray
from .protocol import NULL

__all__ = ["TableSum", "in_order", "order_of", "summed"]

Integers = NDArray[np.int64]

# The number of rows to collect before they are added up.
_WAITING = 1 << 20
_LIMIT = 2**62
# Adding up early is worthwhile if at most this share of the rows remains.
_SHRUNK = 0.8


class TableSum:
    """Adds up tables whose rows are sorted combinations of categories, with or without counts.

    Parameters
    ----------
    maps : int
        The number of maps.
    is_counted : bool

    Examples
    --------
    >>> total = TableSum(1)
    >>> total.add(np.array([[1, 10], [5, 3]]))
    >>> total.add(np.array([[5, 4], [NULL, 1]]))
    >>> total.table().tolist()
    [[1, 10], [5, 7], [-2147483648, 1]]
    """

    def __init__(self, maps: int, is_counted: bool = True) -> None:
        self._is_counted = is_counted
        self._parts = [np.empty((0, maps + is_counted), np.int64)]
        self._rows, self._most = 0, _WAITING

    def add(self, table: Integers) -> None:
        """Add the table of a tile."""
        self._parts.append(table)
        self._rows += len(table)
        if self._rows > self._most:
            self._sum()

    def table(self) -> Integers:
        """Return the sum, with each combination once, in ascending order and with null last."""
        self._sum()
        return self._parts[0]

    def _sum(self) -> None:
        if len(self._parts) > 1:
            rows = np.concatenate(self._parts)
            self._parts = []  # so that at most these rows are in memory twice
            self._parts = [_added(rows, self._is_counted)]
        before, self._rows = self._rows, len(self._parts[0])
        # If few combinations occur in several tiles, adding up before the end saves no memory.
        is_worth_it = self._rows < _SHRUNK * before
        self._most = max(2 * self._rows, _WAITING) if is_worth_it else sys.maxsize


def summed(tables: Sequence[Integers], is_counted: bool = True) -> Integers:
    """Return the sum of one or more tables of the same maps."""
    total = TableSum(tables[0].shape[1] - is_counted, is_counted)
    for table in tables:
        total.add(table)
    return total.table()


def _added(rows: Integers, is_counted: bool) -> Integers:
    """Sort rows, and add up the cells of equal combinations."""
    columns = np.ascontiguousarray(rows.T)
    maps = len(columns) - is_counted
    if not columns.shape[1]:
        return rows
    keys = _keys_of(columns[:maps])
    order = _order_of_columns(columns[:maps], keys)
    if keys is None:
        ordered = columns[:maps, order]
        differs = (ordered[:, 1:] != ordered[:, :-1]).any(axis=0)
    else:
        keys = keys[order]
        differs = keys[1:] != keys[:-1]
    first = np.concatenate([[0], np.flatnonzero(differs) + 1])
    sums: Integers = columns[:, order[first]]
    if is_counted:
        sums[-1] = np.add.reduceat(columns[-1][order], first)
    return sums.T


def in_order(table: Integers) -> Integers:
    """Sort the rows of a table in ascending order, with null last."""
    ordered: Integers = table[order_of(table)]
    return ordered


def order_of(classes: Integers) -> NDArray[np.intp]:
    """Return indices that sort the rows of `classes` in a stable order, with null last."""
    columns = np.ascontiguousarray(classes.T)
    return _order_of_columns(columns, _keys_of(columns))


def _order_of_columns(columns: Integers, keys: Optional[Integers]) -> NDArray[np.intp]:
    """Return the indices that sort rows by their columns, beginning with the first column."""
    if keys is None:
        ordered = np.where(columns == NULL, np.iinfo(np.int64).max, columns)
        lexical: NDArray[np.intp] = np.lexsort(ordered[::-1])
        return lexical
    # A stable sort merges the tables of tiles, which are already sorted.
    order: NDArray[np.intp] = np.argsort(keys, kind="stable")
    return order


def _keys_of(columns: Integers) -> Optional[Integers]:
    """Return a sort key for each row, or None if the keys need more than 64 bits."""
    keys = np.zeros(columns.shape[1], np.int64)
    span = 1
    for column in list(columns[::-1]) if keys.size else []:
        low, high = int(column.min()), int(column.max())
        is_null = None
        if low == NULL:
            is_null = column == NULL
            low = int(column.min(where=~is_null, initial=high))
        size = high - low + 2
        if span * size >= _LIMIT:
            return None
        part = column - low if is_null is None else np.where(is_null, size - 1, column - low)
        keys += part if span == 1 else part * span
        span *= size
    return keys
