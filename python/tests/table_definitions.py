"""Define the calls that return tables cell by cell, without code from the package."""

from __future__ import annotations

import math
from collections import Counter, defaultdict
from collections.abc import Sequence
from typing import Any

from .map_definitions import EDGES, Place, Rows, at, near, patches, places

Sides = dict[tuple[int, int], tuple[int, float]]


def side(step: Place, width: float, height: float) -> float:
    """Return the length of the side that a step crosses."""
    return width if step[1] == 0 else height


def perimeter(patch: Sequence[Place], width: float, height: float) -> float:
    """Return the length of all sides of a patch to other cells and to the edge of the map."""
    inside = set(patch)
    return sum(
        side(step, width, height)
        for place in patch
        for step, other in zip(EDGES, near(place, EDGES))
        if other not in inside
    )


def adjacency(rows: Rows, width: float, height: float) -> Sides:
    """Return the number and length of sides by pair of classes, the smaller class first."""
    found: Any = defaultdict(lambda: (0, 0.0))
    for place in places(rows):
        for step in ((0, 1), (1, 0)):
            one, other = at(rows, place), at(rows, (place[0] + step[0], place[1] + step[1]))
            if one is not None and other is not None:
                pair = (min(one, other), max(one, other))
                count, length = found[pair]
                found[pair] = (count + 1, length + side(step, width, height))
    return dict(found)


def most_like(cells: int) -> int:
    """Return the largest number of sides that cells can share with each other (He et al. 2000)."""
    root = math.isqrt(cells)
    rest = cells - root * root
    more = 0 if rest == 0 else 2 * rest - 1 if rest <= root else 2 * rest - 2
    return 2 * root * (root - 1) + more


def of_patches(
    chosen: Sequence[Sequence[Place]], whole: int, width: float, height: float
) -> dict[str, float]:
    """Return the measures that classes and landscapes have in common.

    `whole` is the total number of cells.
    """
    cell = width * height
    areas = [len(patch) * cell for patch in chosen]
    around = [perimeter(patch, width, height) for patch in chosen]
    sides = [perimeter(patch, 1, 1) for patch in chosen]
    weighed = sum(it * math.sqrt(len(patch)) for it, patch in zip(sides, chosen))
    cohesion = math.nan
    if whole > 1:
        cohesion = 100 * (1 - sum(sides) / weighed) / (1 - 1 / math.sqrt(whole))
    shapes = [0.25 * length / math.sqrt(area) for length, area in zip(around, areas)]
    return {
        "cells": sum(map(len, chosen)),
        "area_ha": sum(areas) / 1e4,
        "patches": len(areas),
        "patches_km2": len(areas) / (whole * cell / 1e6),
        "largest_patch_percent": 100 * max(areas) / (whole * cell),
        "mean_patch_ha": sum(areas) / len(areas) / 1e4,
        "area_weighted_mean_patch_ha": sum(it * it for it in areas) / sum(areas) / 1e4,
        "effective_mesh_ha": sum(it * it for it in areas) / (whole * cell) / 1e4,
        "mean_shape_index": sum(shapes) / len(shapes),
        "cohesion": cohesion,
    }


def entropy(parts: Sequence[float]) -> float:
    """Return the entropy of the shares of a sum."""
    return sum(-it / sum(parts) * math.log(it / sum(parts)) for it in parts)


def metrics(
    rows: Rows, connectivity: int, width: float, height: float
) -> tuple[dict[int, dict[str, float]], dict[str, float]]:
    """Return the class and landscape metrics of a map in metres."""
    found = patches(rows, connectivity)
    of_class: dict[int, list[list[Place]]] = defaultdict(list)
    for patch in found:
        code = at(rows, patch[0])
        assert code is not None
        of_class[code].append(patch)
    pairs, whole = adjacency(rows, width, height), sum(map(len, found))
    by_class = {}
    for code in sorted(of_class):
        borders = [
            length for pair, (_, length) in pairs.items() if code in pair and pair[0] != pair[1]
        ]
        most = most_like(sum(map(len, of_class[code])))
        by_class[code] = {
            **of_patches(of_class[code], whole, width, height),
            **of_borders(borders, len(of_class) - 1, len(of_class), whole * width * height),
            "aggregation_index": 100 * pairs.get((code, code), (0,))[0] / most
            if most
            else math.nan,
        }
        by_class[code]["percent"] = 100 * by_class[code]["cells"] / whole
    if not found:
        return {}, {}
    unlike = [length for (one, other), (_, length) in pairs.items() if one != other]
    kinds = len(of_class) * (len(of_class) - 1) // 2
    landscape = {
        **of_patches(found, whole, width, height),
        **of_borders(unlike, kinds, len(of_class), whole * width * height),
        **diversity({code: it["percent"] / 100 for code, it in by_class.items()}, pairs),
    }
    landscape["aggregation_index"] = sum(
        it["percent"] / 100 * it["aggregation_index"]
        for it in by_class.values()
        if not math.isnan(it["aggregation_index"])
    )
    return by_class, landscape


def of_borders(borders: Sequence[float], kinds: int, classes: int, area: float) -> dict[str, float]:
    """Return the border measures of a class, or of all classes."""
    mixed = math.nan
    if classes >= 3 and borders:
        mixed = 100 * entropy(borders) / math.log(kinds)
    density = sum(borders) / (area / 1e4)
    return {"edge_m": sum(borders), "edge_density_m_ha": density, "interspersion_index": mixed}


def diversity(shares: dict[int, float], pairs: Sides) -> dict[str, float]:
    """Return the diversity of class shares, and the contagion of class adjacencies."""
    found = {
        "classes": len(shares),
        "shannon_diversity": entropy(list(shares.values())),
        "simpson_diversity": 1 - sum(it * it for it in shares.values()),
        "shannon_evenness": math.nan,
        "contagion": math.nan,
    }
    if len(shares) > 1:
        most = math.log(len(shares))
        twice: Counter[tuple[int, int]] = Counter()
        for (one, other), (count, _) in pairs.items():
            twice[one, other] += count
            twice[other, one] += count
        around = {code: sum(twice[code, other] for other in shares) for code in shares}
        terms = [shares[one] * count / around[one] for (one, _), count in twice.items()]
        found["shannon_evenness"] = found["shannon_diversity"] / most
        found["contagion"] = 100 * (1 + sum(it * math.log(it) for it in terms) / (2 * most))
    return found


def olofsson(matrix: Sequence[Sequence[int]], sizes: Sequence[float]) -> dict[str, Any]:
    """Evaluate equations 1 to 11 of Olofsson et al. 2014 as printed.

    `sizes` contains the area of each map class.
    """
    every = range(len(matrix))
    weight = [size / sum(sizes) for size in sizes]
    n = [sum(row) for row in matrix]
    p = [[weight[i] * matrix[i][j] / n[i] if n[i] else 0.0 for j in every] for i in every]
    column = [sum(p[i][j] for i in every) for j in every]
    users = [ratio(p[i][i], sum(p[i])) for i in every]
    producers = [ratio(p[j][j], column[j]) for j in every]
    variance_users = [ratio(users[i] * (1 - users[i]), n[i] - 1) for i in every]
    variances = []
    for j in every:
        own = (sizes[j] * (1 - producers[j])) ** 2 * variance_users[j] if sizes[j] else 0.0
        share = [matrix[i][j] / n[i] if n[i] else 0.0 for i in every]
        rest = sum(
            sizes[i] ** 2 * ratio(share[i] * (1 - share[i]), n[i] - 1)
            for i in every
            if i != j and sizes[i]
        )
        variances.append(ratio(own + producers[j] ** 2 * rest, (sum(sizes) * column[j]) ** 2))
    spread = [
        sum(ratio(weight[i] * p[i][j] - p[i][j] ** 2, n[i] - 1) for i in every if weight[i])
        for j in every
    ]
    overall = sum(weight[i] ** 2 * variance_users[i] for i in every if weight[i])
    return {
        "overall": sum(p[i][i] for i in every),
        "overall_se": math.sqrt(overall),
        "users": users,
        "users_se": [math.sqrt(it) for it in variance_users],
        "producers": producers,
        "producers_se": [math.sqrt(it) for it in variances],
        "area_ha": [sum(sizes) * it for it in column],
        "area_se_ha": [sum(sizes) * math.sqrt(max(it, 0)) if it == it else it for it in spread],
    }


def ratio(above: float, below: float) -> float:
    """Return the quotient, or NaN if the divisor is not positive."""
    return above / below if below > 0 else math.nan
