"""Define the calls that return maps cell by cell, without code from the package."""

from __future__ import annotations

from collections import Counter
from collections.abc import Iterator, Sequence
from fractions import Fraction
from typing import Any, Optional

import numpy as np

Rows = list[list[Optional[int]]]
Place = tuple[int, int]
EDGES = ((-1, 0), (0, -1), (0, 1), (1, 0))
CORNERS = ((-1, -1), (-1, 1), (1, -1), (1, 1))


def masked(rows: Any) -> Any:
    """Return rows of numbers and None as a masked array."""
    cells = [[0 if cell is None else cell for cell in row] for row in rows]
    return np.ma.MaskedArray(cells, mask=[[cell is None for cell in row] for row in rows])


def random_map(
    seed: int, rows: int, cols: int, classes: int, null: float = 0.1, grain: int = 1
) -> Any:
    """Return a map of squares of classes with noise and null cells."""
    random = np.random.default_rng(seed)
    small = random.integers(1, classes + 1, (-(-rows // grain), -(-cols // grain)))
    cells = np.kron(small, np.ones((grain, grain), int))[:rows, :cols]
    noise = random.integers(1, classes + 1, (rows, cols))
    cells = np.where(random.random((rows, cols)) < 0.15, noise, cells)
    return np.ma.MaskedArray(cells, mask=random.random((rows, cols)) < null)


# Maps with extreme shapes and values.
MAPS = {
    "one cell": masked([[7]]),
    "one row": masked([[1, 1, 2, 2, 2, None, 1, 3]]),
    "one column": masked([[1], [1], [2], [None], [2]]),
    "one class": masked([[4] * 6] * 5),
    "one class and null": masked([[4, 4, None, 4], [4, None, None, 4], [4, 4, 4, 4]]),
    "single cells": masked([[(row + col) % 2 + 1 for col in range(7)] for row in range(5)]),
    "single cells in null": masked([[1, None, 2], [None, None, None], [3, None, 1]]),
    "extreme classes": masked([[-5, -5, 0, 0], [-5, 2147483647, 0, -2147483647]]),
    "two classes": random_map(1, 9, 12, 2),
    "patchy": random_map(2, 24, 31, 5, 0.08, 4),
    "noise": random_map(3, 16, 17, 9, 0.2),
    "no null": random_map(4, 20, 20, 4, 0, 3),
    "null": masked([[None, None], [None, None]]),
}


def at(rows: Rows, place: Place) -> Optional[int]:
    """Return the cell at a place; None for null and outside the map."""
    row, col = place
    return rows[row][col] if 0 <= row < len(rows) and 0 <= col < len(rows[0]) else None


def places(rows: Rows) -> Iterator[Place]:
    """Yield the places of a map, row by row."""
    return ((row, col) for row in range(len(rows)) for col in range(len(rows[0])))


def near(place: Place, steps: Sequence[Place]) -> Iterator[Place]:
    """Yield the places that are one step away."""
    return ((place[0] + down, place[1] + right) for down, right in steps)


def patches(rows: Rows, connectivity: int) -> list[list[Place]]:
    """Return the places of each patch, in the order of their first cells."""
    steps = EDGES + (CORNERS if connectivity == 8 else ())
    seen: set[Place] = set()
    found = []
    for first in places(rows):
        if at(rows, first) is None or first in seen:
            continue
        seen.add(first)
        patch = [first]
        for place in patch:
            for other in near(place, steps):
                if other not in seen and at(rows, other) == at(rows, first):
                    seen.add(other)
                    patch.append(other)
        found.append(patch)
    return found


def sieve(rows: Rows, fewest: int, connectivity: int) -> Rows:
    """Return the map without small patches, finding all patches again after each step."""
    rows = [list(row) for row in rows]
    while True:
        found = patches(rows, connectivity)
        number = {place: at for at, patch in enumerate(found) for place in patch}
        small = sorted((len(patch), at) for at, patch in enumerate(found) if len(patch) < fewest)
        for _, patch in small:
            shared = Counter(
                number[other]
                for place in found[patch]
                for other in near(place, EDGES)
                if other in number and number[other] != patch
            )
            if shared:
                into = min(other for other in shared if shared[other] == max(shared.values()))
                for row, col in found[patch]:
                    rows[row][col] = at(rows, found[into][0])
                break
        else:
            return rows


def drop(rows: Rows, fewest: int, connectivity: int) -> Rows:
    """Return the map with small patches set to null."""
    rows = [list(row) for row in rows]
    for patch in patches(rows, connectivity):
        for row, col in patch if len(patch) < fewest else []:
            rows[row][col] = None
    return rows


def within(
    rows: Rows, classes: Sequence[int], distances: Sequence[float], width: float, height: float
) -> Rows:
    """Return, for each cell, the index of the smallest distance that reaches the classes."""
    inside = [place for place in places(rows) if at(rows, place) in classes]
    limits = [Fraction(distance) ** 2 for distance in (0, *distances)]
    found: Rows = [[None] * len(rows[0]) for _ in rows]
    for row, col in places(rows):
        squares = (
            ((row - down) * Fraction(height)) ** 2 + ((col - right) * Fraction(width)) ** 2
            for down, right in inside
        )
        nearest = min(squares, default=None)
        if nearest is not None:
            rings = (ring for ring, limit in enumerate(limits) if nearest <= limit)
            found[row][col] = next(rings, None)
    return found


def aggregate(
    rows: Rows, factor: int, min_percent: float = 0
) -> tuple[Rows, dict[tuple[int, int, int], float]]:
    """Return the most frequent class of each block, and class percentages by block."""
    high, wide = -(-len(rows) // factor), -(-len(rows[0]) // factor)
    majority: Rows = [[None] * wide for _ in range(high)]
    shares = {}
    for row, col in places(majority):
        block = [
            at(rows, (row * factor + down, col * factor + right))
            for down in range(factor)
            for right in range(factor)
        ]
        counts = Counter(cell for cell in block if cell is not None)
        cells = sum(counts.values())
        if cells and cells * 100 >= min_percent * factor**2:
            most = max(counts.values())
            majority[row][col] = min(code for code in counts if counts[code] == most)
            for code, count in counts.items():
                shares[code, row, col] = 100 * count / cells
    return majority, shares


def steps_of(way: Sequence[Any], years: Sequence[int]) -> list[int]:
    """Return the years in which a new class is first seen."""
    return [year for year, one, two in zip(years[1:], way, way[1:]) if one != two]
