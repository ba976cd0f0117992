# SPDX-License-Identifier: Apache-2.0 OR GPL-2.0-or-later
"""Apply a majority filter, which assigns each cell the most frequent class around it."""

from __future__ import annotations

import dataclasses
import itertools
import numbers
from typing import Any

from .errors import BadArgument
from .scripts import Run
from .sources import ArrayMap, MapLike, source_of

__all__ = ["majority", "majority_script"]

SIZES = range(3, 16, 2)
# The largest number of tokens in an expression, and room for the tokens around the arguments of
# nmode(), as in `majority = if(isnull(map), null(), nmode(..))`.
_MOST_TOKENS, _TOKENS_AROUND = 1000, 25
_TOKENS_OF_NAME = 2  # a name and a comma


def majority(map: MapLike, size: int = 3, fill: bool = False, *, crs: Any = None) -> ArrayMap:
    """Assign each cell the most frequent class in the square around it.

    In a tie, the smallest class is used.

    Parameters
    ----------
    map : path, array, or any map that `run` accepts
    size : int
        The number of rows and columns in the square. It must be odd, from 3 to 15. Null cells and
        cells outside the map are ignored.
    fill : bool
        Whether null cells also get a class. By default, null cells stay null.
    crs : any, optional
        The coordinate reference system to assume for a map that does not have one.

    Returns
    -------
    Raster
        The filtered map, with the original map's labels and colours.

    Raises
    ------
    Refused
        See `run`.
    BadArgument
        The size is even or out of range.

    Examples
    --------
    >>> import numpy as np, rcell
    >>> rcell.majority(np.array([[1, 1, 2], [3, 2, 2]])).array.tolist()
    [[1, 2, 2], [1, 2, 2]]
    """
    if not isinstance(size, numbers.Integral) or size not in SIZES:
        raise BadArgument("size", f"must be odd, from {SIZES[0]} to {SIZES[-1]}; got {size!r}")
    source = source_of("map", map)
    run = Run(majority_script(int(size), fill), {"map": source}, named={}, crs=crs)
    [filtered] = run.maps(["majority"])
    return dataclasses.replace(filtered, labels=source.labels, colors=source.colors)


def majority_script(size: int, fill: bool) -> str:
    """Return the script that filters the map `map` and creates the map `majority`.

    The expressions for squares of 13 and 15 rows have too many tokens. The script therefore first
    writes the cells with the longest offsets to separate maps, because a map without an offset
    needs fewer tokens.

    Examples
    --------
    >>> print(majority_script(3, True)[:57])
    r.mapcalc majority = nmode(map[-1,-1],map[-1,0],map[-1,1]
    """
    reach = range(-(size // 2), size // 2 + 1)
    terms: dict[tuple[int, int], str] = {}
    tokens: dict[tuple[int, int], int] = {}
    for row, col in itertools.product(reach, reach):
        # `map [ row , col ] ,` are seven tokens, and the sign of a negative offset is another one.
        terms[row, col] = f"map[{row},{col}]"
        tokens[row, col] = 7 + (row < 0) + (col < 0)
    terms[0, 0], tokens[0, 0] = "map", _TOKENS_OF_NAME
    lines: list[str] = []
    for place in sorted(terms, key=lambda place: -tokens[place]):
        if sum(tokens.values()) + _TOKENS_AROUND <= _MOST_TOKENS:
            break
        name = f"c{len(lines)}"
        lines.append(f"r.mapcalc {name} = {terms[place]}")
        terms[place], tokens[place] = name, _TOKENS_OF_NAME
    text = f"nmode({','.join(terms.values())})"
    if not fill:
        text = f"if(isnull(map), null(), {text})"
    lines.append(f"r.mapcalc majority = {text}")
    return "\n".join(lines)
