"""Random calls that return maps, and random trajectories. random_calls.py draws and runs them."""

from __future__ import annotations

from typing import Any, Callable

import numpy as np

import reference_maps
from random_inputs import one_of
from reference import Lines, Raster, Refusal

PARTS = ("table", "changes", "intervals")
MAPS = ("changes", "first_change", "last_change")


def lc_of(calls: Any) -> Raster:
    """Draw a map `lc`, and return its cells."""
    calls.raster("lc")
    calls.settled()
    held: Raster = calls.held("lc")
    return held


def codes_of(held: Raster) -> list[int]:
    """Return the classes of a map."""
    codes: list[int] = np.unique(held.cells[~held.null]).tolist()
    return codes


def sieve(calls: Any) -> Lines:
    lc = lc_of(calls)
    connectivity = calls.picked("connectivity", (4, 8), (5, 0)) or 4
    drop = calls.chance(0.2)
    if drop:
        calls.option("drop", "yes")
    min_cells = min_ha = None
    if calls.chance(0.75):
        min_cells = calls.picked("min_cells", (1, 2, 3, 5, 9, 100), (0, -1))
    elif calls.chance(0.9):
        metres = lc.frame.system.metres or 1.0
        cell = lc.frame.width * lc.frame.height * metres**2 / reference_maps.SQUARE_METRES
        min_ha = float(f"{cell * one_of(calls.random, (0.5, 1.5, 2.5, 6.3)):.6g}")
        calls.option("min_ha", min_ha)
    return reference_maps.sieve(
        lc, min_cells=min_cells, min_ha=min_ha, connectivity=connectivity, drop=drop
    )


def within(calls: Any) -> Lines:
    lc = lc_of(calls)
    codes = codes_of(lc)
    classes = sorted({one_of(calls.random, [*codes, 99]), one_of(calls.random, [*codes, 99])})
    calls.option("classes", ",".join(map(str, classes)))
    metres = lc.frame.system.metres or 1.0
    size = min(lc.frame.width, lc.frame.height) * metres
    # Multiples of a cell are exactly at the limit. Libraries compute that limit in feet with
    # different precision.
    steps = (1, 2, 3, 5) if metres == 1.0 else (0.7, 1.3, 2.6)
    found = {size * step * one_of(calls.random, (1, 1, 1.37)) for step in steps}
    distances = sorted(found)[: int(calls.random.integers(1, 4))]
    calls.option("distances", ",".join(map(repr, distances)))
    return reference_maps.within(lc, classes=classes, distances=distances)


def aggregate(calls: Any) -> Lines:
    lc = lc_of(calls)
    is_bad = calls.chance(0.03)
    factor = one_of(calls.random, (0, -2) if is_bad else (1, 2, 3, 5, 40))
    calls.option("factor", factor)
    if is_bad:
        raise Refusal("factor is out of its range")
    min_percent = calls.picked("min_percent", (0, 30, 50, 100), (-1, 101)) or 0
    # A map without classes has no shares, so writing them is an error.
    is_shares = calls.chance(0.4) and bool(codes_of(lc))
    if is_shares:
        calls.option("map", "shares")
    return reference_maps.aggregate(lc, factor=factor, min_percent=min_percent, is_shares=is_shares)


def trajectories(calls: Any) -> Lines:
    names = ["a", "b", "c", "d"][: int(calls.random.integers(2, 5))]
    first = calls.raster(names[0]).held
    for name in names[1:]:
        calls.raster(name, like=first)
    calls.settled()
    maps = [calls.held(name) for name in names]
    years = sorted(calls.random.permutation(range(1980, 2030))[: len(names)].tolist())
    if calls.chance(0.03):
        years = years[::-1]
    calls.option("years", ",".join(map(str, years)))
    if years != sorted(years):
        raise Refusal("years do not ascend")
    if calls.chance(0.3):
        name = one_of(calls.random, MAPS)
        calls.option("map", name)
        return reference_maps.map_of_changes(maps, years, name)
    part = one_of(calls.random, PARTS)
    calls.option("table", part)
    labels = calls.legend("labels", maps[0], 0.4)
    area = calls.area()
    return reference_maps.trajectories(maps, years, area=area, labels=labels, part=part)


MAKERS: dict[str, Callable[[Any], Lines]] = {
    "sieve": sieve,
    "within": within,
    "aggregate": aggregate,
    "trajectories": trajectories,
}
