"""Compute the expected results of trajectories and of calls that return maps, with only numpy and
scipy, as in reference.py."""

from __future__ import annotations

import math
from collections import Counter
from fractions import Fraction
from typing import Any, Sequence

import numpy as np

import reference
from reference import Column, Lines, Raster, Refusal, grid, shown

SQUARE_METRES = 10000.0


def sieve(
    lc: Raster, *, min_cells: int | None, min_ha: float | None, connectivity: int, drop: bool
) -> Lines:
    """Sieve a map, and find all patches again after each step."""
    fewest = cells_of(lc, min_ha) if min_cells is None else min_cells
    cells, null = lc.cells.copy(), lc.null.copy()
    before = reference.clumped(lc, connectivity)
    numbers = before
    if drop:
        null |= np.bincount(numbers.ravel())[numbers] < fewest
        numbers = reference.clumped(Raster(cells, null, lc.frame), connectivity)
    else:
        while merged_one(cells, numbers, fewest):
            numbers = reference.clumped(Raster(cells, null, lc.frame), connectivity)
    sizes = np.bincount(numbers.ravel())[1:]
    changed = ((cells != lc.cells) | (null != lc.null)) & ~lc.null
    facts = (before.max(), sizes.size, changed.sum(), (sizes < fewest).sum())
    names = "patches_before|patches_after|cells_changed|patches_below"
    return [names, "|".join(str(int(fact)) for fact in facts), *grid(cells, null)]


def cells_of(lc: Raster, min_ha: float | None) -> int:
    """Return the number of cells for an area in hectares."""
    metres = lc.frame.system.metres
    if min_ha is None or not lc.frame.system.text or metres is None:
        raise Refusal("hectares of a map without metres, or no size")
    cell = lc.frame.width * lc.frame.height * metres**2
    return max(1, math.ceil(round(min_ha * SQUARE_METRES / cell, 6)))


def merged_one(cells: Any, numbers: Any, fewest: int) -> bool:
    """Give the first of the smallest patches that have a neighbour the class of the neighbour with
    the longest common border."""
    shared: Counter[tuple[int, int]] = Counter()
    for one, two in ((numbers[:, :-1], numbers[:, 1:]), (numbers[:-1], numbers[1:])):
        pairs = [it for it in zip(one.ravel().tolist(), two.ravel().tolist()) if it[0] != it[1]]
        shared.update(it for pair in pairs if 0 not in pair for it in (pair, pair[::-1]))
    sizes = np.bincount(numbers.ravel()).tolist()
    small = [(sizes[patch], patch) for patch in {one for one, _ in shared} if sizes[patch] < fewest]
    if not small:
        return False
    _, patch = min(small)
    around = [(-times, two) for (one, two), times in shared.items() if one == patch]
    cells[numbers == patch] = cells[numbers == min(around)[1]][0]
    return True


def within(lc: Raster, *, classes: Sequence[int], distances: Sequence[float]) -> Lines:
    """Return the cells within distances of classes. Squared distances are compared as fractions."""
    metres = lc.frame.system.metres
    if not lc.frame.system.text or metres is None:
        raise Refusal("distances of a map without metres")
    inside = np.argwhere(np.isin(lc.cells, classes) & ~lc.null).tolist()
    high, wide = Fraction(lc.frame.height * metres), Fraction(lc.frame.width * metres)
    limits = [Fraction(0), *(Fraction(distance) ** 2 for distance in distances)]
    found, null = np.zeros(lc.cells.shape, int), np.ones(lc.cells.shape, bool)
    for row, col in np.ndindex(lc.cells.shape) if inside else ():
        square = min(((row - a) * high) ** 2 + ((col - b) * wide) ** 2 for a, b in inside)
        rings = [ring for ring, limit in enumerate(limits) if square <= limit]
        if rings:
            found[row, col], null[row, col] = rings[0], False
    return grid(found, null)


def aggregate(lc: Raster, *, factor: int, min_percent: float, is_shares: bool) -> Lines:
    """Aggregate a map in blocks."""
    rows, cols = (-(-size // factor) for size in lc.cells.shape)
    classes = np.unique(lc.cells[~lc.null]).tolist()
    shares = np.full((len(classes), rows, cols), math.nan)
    majority, null = np.zeros((rows, cols), np.int64), np.ones((rows, cols), bool)
    for row, col in np.ndindex(rows, cols):
        block = tuple(slice(at * factor, (at + 1) * factor) for at in (row, col))
        counts = Counter(lc.cells[block][~lc.null[block]].tolist())
        total = sum(counts.values())
        if not total or total * 100.0 < min_percent * factor**2:
            continue
        null[row, col] = False
        majority[row, col] = min(counts, key=lambda code: (-counts[code], code))
        shares[:, row, col] = [counts[code] * 100.0 / total for code in classes]
    if not is_shares:
        return grid(majority, null)
    lines = []
    plain = [lc.labels.get(code) or str(code) for code in classes]
    for code, name, layer in zip(classes, plain, shares.tolist()):
        is_shared = plain.count(name) > 1 and lc.labels.get(code)
        lines.append(f"{name} ({code})" if is_shared else name)
        lines += [" ".join(map(shown, row)) for row in layer]
    return lines


def steps_of(way: Sequence[Any], years: Sequence[int]) -> list[int]:
    """Return the years in which a new class is first seen."""
    return [year for year, one, two in zip(years[1:], way, way[1:]) if one != two]


def trajectories(
    maps: Sequence[Raster], years: Sequence[int], *, area: str, labels: Any, part: str
) -> Lines:
    """Return a table of trajectories: `table`, `changes` or `intervals`."""
    unit = reference.unit_of(area, maps[0].frame)
    known = labels if labels is not None else next((it.labels for it in maps if it.labels), {})
    entries = reference.counted(maps, unit)
    entries = {way: it for way, it in entries.items() if None not in way}
    if part == "changes":
        sums: dict[tuple[int], tuple[int, float]] = {}
        for way, (cells, size) in entries.items():
            before = sums.get((len(steps_of(way, years)),), (0, 0.0))
            sums[len(steps_of(way, years)),] = before[0] + cells, before[1] + size
        ordered = dict(sorted(sums.items()))
        changes: list[Column] = [("changes", [key[0] for key in ordered])]
        return reference.table(changes + reference.sized(ordered, unit, 0))
    if part == "intervals":
        return _intervals(entries, years, unit)
    columns: list[Column] = []
    for place, year in enumerate(years):
        classes = [way[place] for way in entries]
        own = maps[place].labels if labels is None and maps[place].labels else known
        columns += reference.labelled(f"class_{year}", classes, own, f"label_{year}")
    columns += reference.sized(entries, unit, 0)
    steps = [steps_of(way, years) for way in entries]
    return reference.table(
        [
            *columns,
            ("changes", [len(it) for it in steps]),
            ("classes", [len(set(way)) for way in entries]),
            ("first_change", [it[0] if it else None for it in steps]),
            ("last_change", [it[-1] if it else None for it in steps]),
        ]
    )


def _intervals(entries: Any, years: Sequence[int], unit: str | None) -> Lines:
    total = math.fsum(size for _, size in entries.values())
    rows = []
    for place, (year, following) in enumerate(zip(years, years[1:])):
        moved = [it for way, it in entries.items() if way[place] != way[place + 1]]
        size = math.fsum(size for _, size in moved)
        percent = 100 * size / total if total else math.nan
        row = [year, following, sum(cells for cells, _ in moved)]
        rows.append([*row, *([size] if unit else []), percent, percent / (following - year)])
    uniform = math.fsum(row[-2] for row in rows) / (years[-1] - years[0])
    titles = ["year_from", "year_to", "cells", *([f"area_{unit}"] if unit else [])]
    titles += ["percent", "percent_year", "uniform_percent_year"]
    return ["|".join(titles)] + ["|".join(map(shown, [*row, uniform])) for row in rows]


def map_of_changes(maps: Sequence[Raster], years: Sequence[int], name: str) -> Lines:
    """Return a map of trajectories: `changes`, `first_change` or `last_change`. The tables are also
    computed."""
    reference.unit_of("", maps[0].frame)
    null = np.any([it.null for it in maps], axis=0)
    found = np.zeros(null.shape, np.int64)
    for place in zip(*np.nonzero(~null)):
        steps = steps_of([int(it.cells[place]) for it in maps], years)
        if name == "changes":
            found[place] = len(steps)
        elif steps:
            found[place] = steps[0 if name == "first_change" else -1]
        else:
            null[place] = True
    return grid(found, null)
