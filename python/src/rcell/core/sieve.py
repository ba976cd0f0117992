# SPDX-License-Identifier: Apache-2.0 OR GPL-2.0-or-later
"""Apply a minimum mapping unit, by merging small patches into their neighbours."""

from __future__ import annotations

import dataclasses
import math
from collections import defaultdict
from collections.abc import Mapping, Sequence
from typing import Any, NamedTuple, Optional

import numpy as np

from .area import metres_of
from .arguments import check_connectivity, is_number, whole_number_of
from .arrays import Integers
from .crs import UNITS_OF_AREA
from .errors import BadArgument, RcellError
from .host import option
from .patch_measures import clump_line
from .protocol import NULL
from .scripts import Run, Stats
from .sources import ArrayMap, MapLike, Source, source_of

__all__ = ["Sieved", "cells_of_hectares", "sieve"]

# The decimals to which a number of cells is rounded before it is rounded up.
_DIGITS = 9
# The offsets (row, column) of neighbours that share an edge or only a corner. The opposite
# neighbours are left out, so that each contact of two cells counts once.
_SIDES = {"right": "0,1", "below": "1,0"}
_CORNERS = {"falling": "1,1", "rising": "1,-1"}
_CHANGED = "r.mapcalc changed = if(isnull(map), null(), isnull(new) ||| map != new)"


class Sieved(NamedTuple):
    """Counts that describe the effect of `rcell.sieve` on a map.

    Parameters
    ----------
    patches_before, patches_after : int
        The number of patches in the map and in the result.
    cells_changed : int
        The number of cells whose class changed, or that became null.
    patches_below : int
        The number of patches that remain below the minimum size because they share no side with
        another class.

    Examples
    --------
    >>> import numpy as np, rcell
    >>> rcell.sieve(np.array([[1, 1, 2, 3, 3]]), min_cells=2).sieved
    Sieved(patches_before=3, patches_after=2, cells_changed=1, patches_below=0)
    """

    patches_before: int
    patches_after: int
    cells_changed: int
    patches_below: int


def sieve(
    map: MapLike,
    min_cells: Optional[int] = None,
    min_ha: Optional[float] = None,
    connectivity: int = 4,
    drop: bool = False,
    *,
    crs: Any = None,
) -> tuple[ArrayMap, Sieved]:
    """Merge patches below a minimum size into their neighbours, or set these patches to null.

    While any patch below the minimum size shares a side with another class, the smallest such patch
    gets the class of the neighbour with which it shares the most sides, and is joined to all
    patches of this class that it touches. In a tie, the patch whose first cell comes first is used.

    Parameters
    ----------
    map : path, array, or any map that `run` accepts
    min_cells : int
        The minimum number of cells in a patch.
    min_ha : float
        The minimum area of a patch in hectares, instead of `min_cells`. Maps in degrees are not
        supported.
    connectivity : {4, 8}
        4 connects cells that share an edge, and 8 also connects cells that share a corner.
    drop : bool
        Whether to set small patches to null instead of merging them.
    crs : any, optional
        The coordinate reference system to assume for a map that does not have one.

    Returns
    -------
    Raster
        The new map, with the labels and colours of the input map. Its attribute `sieved` contains a
        `Sieved` object, which counts patches and changed cells. A map without small patches is
        returned unchanged.

    Raises
    ------
    Refused
        See `run`.
    BadArgument
        Neither or both of the sizes are given; a size is out of range; or `min_ha` is given for a
        map in degrees or without a reference system.

    Examples
    --------
    >>> import numpy as np, rcell
    >>> rcell.sieve(np.array([[1, 1, 2, 3, 3]]), min_cells=2).array.tolist()
    [[1, 1, 1, 3, 3]]
    """
    check_connectivity(connectivity)
    source = source_of("map", map)
    steps = {**_SIDES, **_CORNERS} if connectivity == 8 else _SIDES
    script = _script("map", connectivity, ["patch,map"], {} if drop else steps)
    run = Run(script, {"map": source}, named={}, crs=crs)
    fewest = _fewest(min_cells, min_ha, source, run.crs)
    sizes, *contacts, patch = run.outputs(["patch"])
    assert isinstance(sizes, Stats) and sizes.cells is not None and isinstance(patch, ArrayMap)
    classes, cells = sizes.categories[:, 1], sizes.cells
    if drop:
        new = np.where(cells < fewest, NULL, classes)
    else:
        sides = _Touching.of(cells.size, contacts[: len(_SIDES)])
        corners = _Touching.of(cells.size, contacts[len(_SIDES) :])
        new = _Merging(classes, cells, sides, corners).run(fewest)
    class_of_patch = np.concatenate([[NULL], new]).astype(np.int32)
    classes_of_cells = class_of_patch[patch.filled(0)]  # patches are numbered from 1
    sieved = dataclasses.replace(
        patch,
        name="sieved",
        array=classes_of_cells,
        null=None,
        nodata_value=NULL,
        is_narrow=False,
        labels=source.labels,
        colors=source.colors,
    )
    script = _script("new", connectivity, ["patch", "changed"], {} if drop else _SIDES)
    run = Run(f"{_CHANGED}\n{script}", {"map": source, "new": sieved}, named={}, crs=crs)
    return sieved, _counted(run, fewest, patches_before=cells.size)


def _fewest(min_cells: Any, min_ha: Any, source: Source, crs: Any) -> int:
    """Return the minimum patch size in cells, from `min_cells` or `min_ha`."""
    if (min_cells is None) == (min_ha is None):
        outcome = "neither" if min_cells is None else "both"
        raise BadArgument(
            "min_cells", f"or {option('min_ha').rstrip('=')} must be given; got {outcome}"
        )
    if min_ha is None:
        return whole_number_of("min_cells", min_cells, 1)
    return cells_of_hectares("min_ha", min_ha, source, crs)


def cells_of_hectares(name: str, hectares: Any, source: Source, crs: Any) -> int:
    """Convert hectares to a number of cells, rounded up."""
    if not is_number(hectares) or not 0 < hectares < math.inf:
        raise BadArgument(name, f"must be a number above 0; got {hectares!r}")
    metres = metres_of(name, crs, f": use {option('min_cells')}")
    width, _, _, _, height, _ = source.transform
    cell_area = -width * height * metres**2
    cells = round(float(hectares) * UNITS_OF_AREA["ha"] / cell_area, _DIGITS)
    return max(1, math.ceil(cells))


def _script(name: str, connectivity: int, tables: Sequence[str], steps: Mapping[str, str]) -> str:
    """Return a script that counts patches, and contacts of patches at the offsets in `steps`."""
    lines = [clump_line(connectivity, name), *(f"r.stats -c -n input={maps}" for maps in tables)]
    for title, step in steps.items():
        other = f"if(patch != patch[{step}], patch[{step}], null())"
        lines += [f"r.mapcalc {title} = {other}", f"r.stats -c -n input=patch,{title}"]
    return "\n".join(lines)


class _Touching(NamedTuple):
    """The neighbours of each patch, and how often the patch touches each neighbour.

    The entries of patch `n` in `neighbours` and `times` are `starts[n]` to `starts[n + 1] - 1`.
    """

    starts: list[int]
    neighbours: memoryview
    times: memoryview

    @classmethod
    def of(cls, patches: int, tables: Sequence[Any]) -> _Touching:
        """Collect the pairs of patches in tables, in both directions, numbered from 0."""
        pairs, cells = np.empty((0, 2), np.int64), np.empty(0, np.int64)
        if tables:
            pairs = np.concatenate([table.categories - 1 for table in tables])
            cells = np.concatenate([table.cells for table in tables])
        both = np.concatenate([pairs, pairs[:, ::-1]])
        times = np.concatenate([cells, cells])
        order = np.argsort(both[:, 0], kind="stable")
        starts = np.searchsorted(both[order, 0], np.arange(patches + 1))
        neighbours = np.ascontiguousarray(both[order, 1])
        return cls(starts.tolist(), neighbours.data, times[order].data)


class _Merging:
    """Merges the small patches of a map.

    A merged patch keeps the smallest number of its parts.

    Parameters
    ----------
    classes, cells : array of int64
        The class and the size of each patch, in the order of the patches' first cells.
    sides, corners : _Touching
    """

    def __init__(
        self, classes: Integers, cells: Integers, sides: _Touching, corners: _Touching
    ) -> None:
        self._classes: list[int] = classes.tolist()
        self._cells: list[int] = cells.tolist()
        self._sides, self._corners = sides, corners
        # The patch into which each patch was merged, or itself, and the parts of small patches.
        self._into = list(range(cells.size))
        self._parts: dict[int, list[int]] = {}

    def run(self, fewest: int) -> Integers:
        """Merge patches below `fewest` cells and return the final class of each patch."""
        classes, cells, into = self._classes, self._cells, self._into
        waiting: defaultdict[int, list[int]] = defaultdict(list)
        for patch in np.flatnonzero(np.array(cells) < fewest).tolist():
            waiting[cells[patch]].append(patch)
        # A merged patch is larger than all patches tried so far, so each size is complete when its
        # turn comes.
        for size in range(1, min(fewest, sum(cells) + 1)):
            for patch in sorted(waiting.pop(size, ())):
                if into[patch] != patch or cells[patch] != size:
                    continue  # merged into another patch, or grown
                shared = self._shared(patch, self._sides)
                if not shared:
                    continue  # borders only null
                most = max(shared.values())
                first = min(neighbour for neighbour, times in shared.items() if times == most)
                code = classes[first]
                if len(self._corners.neighbours):
                    shared.update(self._shared(patch, self._corners))
                alike = [neighbour for neighbour in shared if classes[neighbour] == code]
                merged = self._join([patch, *alike], fewest)
                classes[merged] = code
                if cells[merged] < fewest:
                    waiting[cells[merged]].append(merged)
        roots = np.array(self._into, np.int64)
        while (roots[roots] != roots).any():
            roots = roots[roots]
        return np.array(self._classes, np.int64)[roots]

    def _shared(self, patch: int, touching: _Touching) -> dict[int, int]:
        """Return how often a small patch touches each of its neighbours."""
        shared: dict[int, int] = {}
        starts, into = touching.starts, self._into
        for part in self._parts.get(patch, (patch,)):
            entries = slice(starts[part], starts[part + 1])
            neighbours = touching.neighbours[entries].tolist()
            for neighbour, times in zip(neighbours, touching.times[entries].tolist()):
                if into[neighbour] != neighbour:
                    neighbour = self._root(neighbour)
                if neighbour != patch:
                    shared[neighbour] = shared.get(neighbour, 0) + times
        return shared

    def _join(self, joined: list[int], fewest: int) -> int:
        """Merge patches and return the number of the merged patch.

        The parts are stored only while the merged patch is small.
        """
        merged = min(joined)
        cells = sum(self._cells[patch] for patch in joined)
        if cells < fewest:
            parts = [self._parts.pop(patch, [patch]) for patch in joined]
            self._parts[merged] = [part for listed in parts for part in listed]
        for patch in joined:
            self._into[patch] = merged
        self._cells[merged] = cells
        return merged

    def _root(self, patch: int) -> int:
        """Return the patch into which a patch was finally merged, and shorten the way to it."""
        into = self._into
        while into[patch] != patch:
            into[patch] = into[into[patch]]
            patch = into[patch]
        return patch


def _counted(run: Run, fewest: int, patches_before: int) -> Sieved:
    """Count patches and changed cells, and check that no small patch borders another class."""
    sizes, changes, *contacts = (output for output in run.outputs() if isinstance(output, Stats))
    assert sizes.cells is not None and changes.cells is not None
    small = sizes.categories[sizes.cells < fewest, 0]
    if any(np.isin(small, pairs.categories).any() for pairs in contacts):
        raise RcellError("a small patch with a neighbour remains: this is a bug in rcell")
    counts = dict(zip(changes.categories[:, 0].tolist(), changes.cells.tolist()))
    cells_changed = counts.get(1, 0)  # the map `changed` is 1 or 0
    return Sieved(patches_before, sizes.cells.size, cells_changed, patches_below=small.size)
