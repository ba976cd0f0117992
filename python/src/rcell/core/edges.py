# SPDX-License-Identifier: Apache-2.0 OR GPL-2.0-or-later
"""Format and compare map edges as the program does, in whole units of 10^-8, and limit sizes."""

from __future__ import annotations

from collections.abc import Callable, Iterable

__all__ = [
    "CELL_LIMIT",
    "DECIMALS",
    "SIDE_LIMIT",
    "UNITS",
    "differences_of",
    "edge_text",
    "fits_one_run",
]

DECIMALS = 8
UNITS = 10**DECIMALS
"""The number of units in an edge of 1. The program stores edges as whole numbers of units."""
SIDE_LIMIT = 65_535
CELL_LIMIT = 2_147_483_647


def fits_one_run(shape: tuple[int, int]) -> bool:
    """Return whether the program accepts a map of this size in one run.

    Examples
    --------
    >>> fits_one_run((65_535, 32_768)), fits_one_run((65_535, 32_769)), fits_one_run((65_536, 1))
    (True, False, False)
    """
    return max(shape) <= SIDE_LIMIT and shape[0] * shape[1] <= CELL_LIMIT


def edge_text(units: int) -> str:
    """Return an edge, given in units of 10^-8, as a decimal string."""
    whole, part = divmod(abs(units), UNITS)
    sign = "-" if units < 0 else ""
    return f"{sign}{whole}.{part:0{DECIMALS}d}".rstrip("0").rstrip(".")


def differences_of(own: Iterable[int], others: Iterable[int]) -> list[str]:
    """Return a description of each difference between two grids.

    Each grid is given as its four edges in units of 10^-8, its rows and its columns.

    Examples
    --------
    >>> differences_of((3 * UNITS, 0, UNITS, 0, 3, 1), (4 * UNITS, 0, UNITS, 0, 4, 1))
    ['north is 4, not 3 (1 more)', 'rows is 4, not 3 (1 more)']
    """
    names = ("north", "south", "east", "west", "rows", "cols")
    texts: list[Callable[[int], str]] = [edge_text] * 4 + [str] * 2  # four edges, two counts
    differences = []
    for name, text, own_edge, other_edge in zip(names, texts, own, others):
        if own_edge == other_edge:
            continue
        more = "more" if other_edge > own_edge else "less"
        difference = f"{text(abs(other_edge - own_edge))} {more}"
        differences.append(f"{name} is {text(other_edge)}, not {text(own_edge)} ({difference})")
    return differences
