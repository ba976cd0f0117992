# SPDX-License-Identifier: Apache-2.0 OR GPL-2.0-or-later
"""Count the cell sides that classes share and measure the borders between classes."""

from __future__ import annotations

from typing import Any

import numpy as np

from .arrays import Integers
from .columns import Column, Table
from .counting import Maps, coded, legend_for
from .sources import MapLike

__all__ = ["adjacency", "side_lines", "sides_of"]


def adjacency(map: MapLike, *, labels: Any = None, crs: Any = None) -> Table:
    """Count the cell sides that each pair of classes shares.

    Parameters
    ----------
    map : path, array, or any map that `run` accepts
    labels : path, dict, Series or DataFrame, optional
        A legend, as in `composition`.
    crs : any, optional
        The coordinate reference system to assume for a map that does not have one.

    Returns
    -------
    pandas.DataFrame
        The columns are `class`, `label`, `neighbour`, `neighbour_label`, `sides` and `border_m`.
        Each pair of classes is listed once, with the smaller class first. A class is also paired
        with itself, to count the sides between its own cells. Sides next to null cells and along
        the map's edge are not counted. `border_m` is NaN if the map has no reference system or,
        with a warning, if the map is in degrees.

    Raises
    ------
    Refused
        The legend is invalid. See `run` for other reasons.

    Examples
    --------
    >>> import numpy as np, rcell
    >>> cells = np.array([[1, 1, 2], [1, 2, 2]])
    >>> lc = rcell.Raster(cells, (10, 0, 0, 0, -10, 20), crs="EPSG:25832")
    >>> rcell.adjacency(lc)
       class  neighbour  sides  border_m
    0      1          1      2      20.0
    1      1          2      3      30.0
    2      2          2      2      20.0
    """
    maps = Maps({"map": map}, crs)
    right, below = maps.tables("\n".join(side_lines("map")))
    pairs, flanks, ends = sides_of(right, below)
    metres = maps.measure(area=None).length()
    width, _, _, _, height, _ = maps.first.transform  # the height is negative
    legend = legend_for(labels, maps.sources["map"].labels, [("map", pairs)])
    columns = coded("class", pairs[:, 0], legend, "label") + coded("neighbour", pairs[:, 1], legend)
    border = (flanks * -height + ends * width) * metres
    columns += [Column("sides", "count", flanks + ends), Column("border_m", "measure", border)]
    return Table(columns)


def side_lines(name: str) -> list[str]:
    """Return script lines that count pairs of adjacent cells, first in rows, then in columns."""
    return [
        f"r.mapcalc right = {name}[0,1]",
        f"r.mapcalc below = {name}[1,0]",
        f"r.stats -c -n input={name},right",
        f"r.stats -c -n input={name},below",
    ]


def sides_of(right: Integers, below: Integers) -> tuple[Integers, Integers, Integers]:
    """Return each pair of classes once, with the numbers of cell sides that the pair shares.

    Returns the pairs, the number of sides between cells in the same row (flanks), and the number of
    sides between cells in the same column (ends). The arguments are the tables of `side_lines`.
    """
    ordered = np.sort(np.concatenate([right[:, :2], below[:, :2]]), axis=1)
    pairs, indices = np.unique(ordered, axis=0, return_inverse=True)
    indices = indices.reshape(-1)  # NumPy 2.0 returns a column
    flanks, ends = np.zeros((2, len(pairs)), np.int64)
    np.add.at(flanks, indices[: len(right)], right[:, 2])
    np.add.at(ends, indices[len(right) :], below[:, 2])
    return pairs, flanks, ends
