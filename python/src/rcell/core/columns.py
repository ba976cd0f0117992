# SPDX-License-Identifier: Apache-2.0 OR GPL-2.0-or-later
"""Define the core's tables, which packages convert to DataFrames, layers and text files."""

from __future__ import annotations

from collections.abc import Iterable, Mapping, Sequence
from dataclasses import dataclass, replace
from typing import Any, Union

import numpy as np

from .arrays import NDArray
from .protocol import NULL

__all__ = ["Column", "Matrix", "Table", "Value", "distinct_names", "measures", "unique_names"]

Value = Union[int, float, str, None]


@dataclass(frozen=True)
class Column:
    """A column of a table, with a name, a kind and values.

    Attributes
    ----------
    name : str
    kind : {"class", "label", "count", "measure"}
        A class is an integer, with -2147483648 for null. A label is a string, or None if missing. A
        count is an integer. A measure is a float, or NaN if missing.
    values : array, or list of str or None
    """

    name: str
    kind: str
    values: Any

    def listed(self) -> list[Value]:
        """Return the values as a list, with None for missing values."""
        if self.kind == "label":
            return list(self.values)
        values: list[Value] = self.values.tolist()
        if self.kind == "class":
            return [None if value == NULL else value for value in values]
        if self.kind == "measure":
            return [None if value != value else value for value in values]  # only NaN is not itself
        return values


def measures(values: Mapping[str, Any]) -> list[Column]:
    """Return a column of measures for each name in a mapping of names to values."""
    return [Column(name, "measure", part) for name, part in values.items()]


class Table:
    """A table of columns that have the same length and unique names.

    If a name is repeated, a number is appended to make it unique.

    Parameters
    ----------
    columns : iterable of Column

    Examples
    --------
    >>> import numpy as np
    >>> table = Table([Column("a", "count", np.array([1, 2])), Column("a", "label", ["x", None])])
    >>> table.columns, table.rows
    (('a', 'a_2'), [(1, 'x'), (2, None)])
    """

    def __init__(self, columns: Iterable[Column]) -> None:
        unnamed = list(columns)
        names = unique_names(column.name for column in unnamed)
        self.data = [replace(column, name=name) for column, name in zip(unnamed, names)]

    @property
    def columns(self) -> tuple[str, ...]:
        """The names of the columns."""
        return tuple(column.name for column in self.data)

    @property
    def rows(self) -> list[tuple[Value, ...]]:
        """The rows as tuples, with None for missing values."""
        return list(zip(*(column.listed() for column in self.data)))

    def __len__(self) -> int:
        return len(self.data[0].values)


class Matrix(Table):
    """A table with a column for each class of a map, after the columns that identify each row.

    Parameters
    ----------
    keys : list of Column
        The columns that identify each row.
    across : str
        The name of the variable whose classes are the other columns.
    titles : list of str
    values : array, rows x titles
    is_numbered : bool
        Whether the titles are class numbers.
    """

    def __init__(
        self,
        keys: list[Column],
        across: str,
        titles: Sequence[str],
        values: NDArray[Any],
        is_numbered: bool,
    ) -> None:
        kind = "measure" if values.dtype.kind == "f" else "count"
        columns = list(keys)
        for title, column in zip(titles, values.T):
            columns.append(Column(title, kind, column))
        super().__init__(columns)
        self.key_count = len(keys)
        self.across = across
        self.is_numbered = is_numbered

    @classmethod
    def of(
        cls,
        names: Sequence[str],
        classes: NDArray[np.int64],
        values: NDArray[Any],
        labels: Sequence[Mapping[int, str]],
    ) -> Matrix:
        """Arrange the values of class pairs in a matrix, with 0 for pairs that do not occur.

        `names` and `labels` belong to the two variables: first the rows, then the columns.

        Examples
        --------
        >>> pairs = np.array([[1, 7], [1, 8], [2, 8]])
        >>> Matrix.of(["a", "b"], pairs, np.array([3, 4, 5]), [{}, {7: "x", 8: "x"}]).columns
        ('a', 'x (7)', 'x (8)')
        """
        row_name, across = names
        row_labels, column_labels = labels
        row_codes, row_indices = _codes(classes[:, 0])
        column_codes, column_indices = _codes(classes[:, 1])
        cells = np.zeros((row_codes.size, column_codes.size), values.dtype)
        cells[row_indices, column_indices] = values
        axes = [(row_codes, row_labels), (column_codes, column_labels)]
        texts, titles = distinct_names(axes, taken=[row_name])
        key = Column(row_name, "class", row_codes)
        if row_labels:
            key = Column(row_name, "label", texts)
        return cls([key], across, titles, cells, is_numbered=not column_labels)


def _codes(classes: NDArray[np.int64]) -> tuple[NDArray[np.int64], NDArray[np.intp]]:
    """Return the distinct classes, with null last, and the index of each entry's class."""
    last = np.iinfo(np.int64).max
    codes, indices = np.unique(np.where(classes == NULL, last, classes), return_inverse=True)
    return np.where(codes == last, NULL, codes), indices


def distinct_names(
    axes: Sequence[tuple[NDArray[np.int64], Mapping[int, str]]], taken: Sequence[str] = ()
) -> list[list[str]]:
    """Return a unique name for each class on each axis: the label or, without one, the number.

    If two classes have the same label, their numbers are appended.

    Parameters
    ----------
    axes : sequence of (array, mapping)
        The classes on each axis, and the labels of the classes.
    taken : sequence of str
        Names that other columns already use.

    Examples
    --------
    >>> labels = {1: "2", 3: "wood", 4: "wood", 5: "from"}
    >>> distinct_names([(np.array([1, 2, 3]), labels), (np.array([4, 5]), labels)], ["from"])
    [['2 (1)', '2', 'wood (3)'], ['wood (4)', 'from (5)']]
    """
    codes_of_name: dict[str, set[int]] = {}
    for classes, labels in axes:
        for code in classes.tolist():
            codes_of_name.setdefault(labels.get(code) or _number(code), set()).add(code)

    def name(code: int, label: str | None) -> str:
        if not label:
            return _number(code)
        is_ambiguous = len(codes_of_name[label]) > 1 or label in taken
        return f"{label} ({code})" if is_ambiguous else label

    names = []
    for classes, labels in axes:
        names.append([name(code, labels.get(code)) for code in classes.tolist()])
    return names


def _number(code: int) -> str:
    return "null" if code == NULL else str(code)


def unique_names(names: Iterable[str]) -> list[str]:
    """Make names unique by appending the first unused number to each repeated name.

    Examples
    --------
    >>> unique_names(["lc", "lc", "lc_2"])
    ['lc', 'lc_2', 'lc_2_2']
    """
    unique: list[str] = []
    for name in names:
        new = name
        number = 2
        while new in unique:
            new = f"{name}_{number}"
            number += 1
        unique.append(new)
    return unique
