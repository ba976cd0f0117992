"""Compute the expected results of dominant, accuracy, sample, metrics and zonal with a scale, using
reference.py."""

from __future__ import annotations

import hashlib
import math
from collections import Counter
from dataclasses import replace
from typing import Any, Mapping, Sequence

import numpy as np
import reference
from reference import DIVISORS, Column, Frame, Lines, Raster, Refusal, labelled, metres, table

# Zones one by one: the id of each, and its cells. Zones may overlap.
Zones = Sequence[tuple[int, Any]]
Labels = Mapping[int, str]


def zones_apart(zones: Raster) -> list[tuple[int, Any]]:
    """Return the zones of a map. A map of only nulls has one zone without cells."""
    ids = np.unique(zones.cells[~zones.null]).tolist() or [0]
    return [(zone, (zones.cells == zone) & ~zones.null) for zone in ids]


def zones_of_each(features: Any, has_field: bool, frame: Frame, most: int) -> Any:
    """Return the zones of polygons one by one, and their labels. A cell is in each polygon that
    contains its centre."""
    kept, ids, labels = reference.ids_of(features, has_field, most)
    masks: dict[int, Any] = {}
    for it, number in zip(kept, ids):
        mask = reference.inside(it.parts, frame)
        masks[number] = masks[number] | mask if number in masks else mask
    if not any(mask.any() for mask in masks.values()):
        raise Refusal("no polygon contains the centre of a cell")
    return sorted(masks.items()), labels


def appended(parts: Sequence[Lines]) -> Lines:
    """Return the rows of several tables with the same columns."""
    return [parts[0][0], *(line for part in parts for line in part[1:])]


def of_each(call: Any, values: Raster, zones: Zones, known: Labels, **words: Any) -> Lines:
    """Return the tables of a call that is run with one zone at a time."""
    frame = values.frame
    alone = (
        Raster(np.full(mask.shape, zone, np.int64), ~mask, frame, dict(known))
        for zone, mask in zones
    )
    return appended([call(values, it, **words) for it in alone])


def dominant(lc: Raster, zones: Zones, labels: Labels, zone_labels: Labels, *, area: str) -> Lines:
    """Return the most frequent and the rarest class of each zone."""
    unit = reference.unit_of(area, lc.frame)
    areas = reference.weights(lc.frame, unit)
    counts = {zone: Counter(lc.cells[mask & ~lc.null].tolist()) for zone, mask in zones}
    kept = [(zone, mask & ~lc.null, counts[zone]) for zone, mask in zones if counts[zone]]
    columns = labelled("zone", [zone for zone, _, _ in kept], zone_labels)
    columns.append(("cells", [sum(it.values()) for _, _, it in kept]))
    if unit:
        columns.append((f"area_{unit}", [math.fsum(areas[mask].tolist()) for _, mask, _ in kept]))
    columns.append(("classes", [len(it) for _, _, it in kept]))
    for title, sign in (("majority", -1), ("minority", 1)):
        found = [min(it, key=lambda code: (sign * it[code], code)) for _, _, it in kept]
        columns += labelled(title, found, labels)
        parts = zip(found, (it for _, _, it in kept))
        percent = [100 * it[code] / sum(it.values()) for code, it in parts]
        columns.append((f"{title}_percent", percent))
    return table(columns)


# Accuracy


def accuracy(
    pairs: Mapping[tuple[int, int], int],
    sizes: Mapping[int, float] | None,
    labels: Labels,
    *,
    unit: str | None,
    part: str,
) -> Lines:
    """Return a part of an accuracy assessment: equations 1 to 11 of Olofsson et al. 2014, class by
    class."""
    if not sum(pairs.values()):
        raise Refusal("an empty sample")
    codes = {code for pair in pairs for code in pair}
    classes = sorted(codes | {code for code, size in (sizes or {}).items() if size > 0})
    rows = {i: sum(pairs.get((i, j), 0) for j in classes) for i in classes}
    mapped = {i: float(rows[i]) if sizes is None else sizes.get(i, 0.0) for i in classes}
    if any((mapped[i] > 0) != (rows[i] > 0) for i in classes):
        raise Refusal("a class with an area and no sample, or with a sample and no area")
    if part == "matrix":
        plain = {code: labels.get(code) or str(code) for code in classes}
        often = Counter([*plain.values(), "map"])
        names = {
            code: f"{name} ({code})" if often[name] > 1 and labels.get(code) else name
            for code, name in plain.items()
        }
        head = "|".join(["map", *names.values()])
        body = ([names[i], *(pairs.get((i, j), 0) for j in classes)] for i in classes)
        return [head, *("|".join(map(str, line)) for line in body)]
    total = math.fsum(mapped.values())
    weight = {i: mapped[i] / total for i in classes}
    share = {
        (i, j): pairs.get((i, j), 0) / rows[i] if rows[i] else 0.0 for i in classes for j in classes
    }
    joint = {(i, j): weight[i] * share[i, j] for i, j in share}
    column = {j: math.fsum(joint[i, j] for i in classes) for j in classes}
    variance = {pair: _over(it * (1 - it), rows[pair[0]] - 1) for pair, it in share.items()}
    square = {(i, j): weight[i] ** 2 * variance[i, j] if weight[i] else 0.0 for i, j in variance}
    if part == "summary":
        return _summary(classes, joint, column, square, sum(rows.values()))
    producers = {j: _over(joint[j, j], column[j]) for j in classes}
    spread = {
        j: (1 - producers[j]) ** 2 * square[j, j]
        + producers[j] ** 2 * sum(square[i, j] for i in classes if i != j)
        for j in classes
    }
    columns = labelled("class", classes, labels, "label")
    columns += [
        ("cells_map", [rows[i] for i in classes]),
        ("cells_reference", [sum(pairs.get((i, j), 0) for i in classes) for j in classes]),
        ("users", [share[i, i] if rows[i] else None for i in classes]),
        ("users_se", [math.sqrt(variance[i, i]) if rows[i] else None for i in classes]),
        ("producers", [producers[j] for j in classes]),
        ("producers_se", [_over(math.sqrt(spread[j]), column[j]) for j in classes]),
    ]
    if unit and sizes is not None:
        errors = [total * math.sqrt(sum(square[i, j] for i in classes)) for j in classes]
        columns.append((f"mapped_{unit}", [mapped[i] for i in classes]))
        columns += [(f"area_{unit}", [total * column[j] for j in classes])]
        columns.append((f"area_se_{unit}", errors))
    return table(columns)


def _over(above: float, below: float) -> float:
    return above / below if below > 0 else math.nan


def _summary(classes: Any, joint: Any, column: Any, square: Any, cells: int) -> Lines:
    overall = math.fsum(joint[i, i] for i in classes)
    row = {i: math.fsum(joint[i, j] for j in classes) for i in classes}
    chance = math.fsum(row[i] * column[i] for i in classes)
    kappa = (overall - chance) / (1 - chance) if len(classes) > 1 and chance < 1 else None
    more = {i: math.fsum(joint[i, j] for j in classes if j != i) for i in classes}
    less = {j: math.fsum(joint[i, j] for i in classes if j != i) for j in classes}
    quantity = math.fsum(abs(more[i] - less[i]) for i in classes) / 2
    columns: list[Column] = [
        ("overall", [overall]),
        ("overall_se", [math.sqrt(sum(square[i, i] for i in classes))]),
        ("kappa", [kappa]),
        ("quantity", [quantity]),
        ("allocation", [math.fsum(min(more[i], less[i]) for i in classes)]),
        ("cells", [cells]),
    ]
    return table(columns)


# Samples


def sample(lc: Raster, labels: Labels, *, n: Any, seed: str, allocation: str) -> Lines:
    """Return sampled cells of each class, using Floyd's algorithm with random numbers from
    SHA-256."""
    places = {
        code: np.argwhere((lc.cells == code) & ~lc.null).tolist()
        for code in np.unique(lc.cells[~lc.null]).tolist()
    }
    if isinstance(n, dict):
        if not set(n) <= set(places):
            raise Refusal("a class that does not occur")
        wanted = {code: n.get(code, 0) for code in places}
    else:
        parts = {
            code: len(it) if allocation == "proportional" else 1 for code, it in places.items()
        }
        whole = sum(parts.values())
        wanted = {code: n * part // whole for code, part in parts.items()}
        order = sorted(parts, key=lambda code: (-(n * parts[code] % whole), code))
        for code in order[: n - sum(wanted.values())]:
            wanted[code] += 1
    drawn = [
        (code, *places[code][rank])
        for code in places
        for rank in _ranks(f"{seed}:{code}", len(places[code]), wanted[code])
    ]
    frame = lc.frame
    return table(
        [
            ("point", list(range(1, len(drawn) + 1))),
            *labelled("class", [code for code, _, _ in drawn], labels, "label"),
            ("row", [row + 1 for _, row, _ in drawn]),
            ("col", [col + 1 for _, _, col in drawn]),
            ("x", [frame.west + frame.width * (col + 0.5) for _, _, col in drawn]),
            ("y", [frame.north - frame.height * (row + 0.5) for _, row, _ in drawn]),
        ]
    )


def _ranks(key: str, size: int, count: int) -> list[int]:
    found: list[int] = []
    number = 0
    for limit in range(size - min(size, count) + 1, size + 1):
        while True:
            number += 1
            value = int(hashlib.sha256(f"{key}:{number}".encode()).hexdigest()[:12], 16)
            if value < 2**48 - 2**48 % limit:
                break
        found.append(limit - 1 if value % limit in found else value % limit)
    return sorted(found)


# Metrics


def metrics(
    lc: Raster, zones: Zones | None, labels: Labels, zone_labels: Labels, **words: Any
) -> Lines:
    """Return the metrics of a map, or of each zone as a separate map."""
    if zones is None:
        return _metrics(lc, labels, **words)
    parts = []
    for zone, mask in zones:
        lines = _metrics(replace(lc, null=lc.null | ~mask), labels, **words)
        names = ["zone", "zone_label"] if zone_labels else ["zone"]
        keys = [str(zone), zone_labels.get(zone) or "*"][: len(names)]
        head = "|".join([*names, lines[0]])
        parts.append([head, *("|".join([*keys, line]) for line in lines[1:])])
    return appended(parts)


def _metrics(lc: Raster, labels: Labels, *, level: str, connectivity: int, area: str) -> Lines:
    unit = reference.unit_of(area, lc.frame)
    numbers = reference.clumped(lc, connectivity)
    masks = [numbers == number for number in range(1, int(numbers.max(initial=0)) + 1)]
    codes = [int(lc.cells[mask][0]) for mask in masks]
    found = _Landscape(lc, masks, codes, unit)
    if level == "patch":
        return found.patches(labels)
    if level == "landscape":
        return table(found.landscape() if masks else [(it, []) for it in found.titles()])
    classes = sorted(set(codes))
    rows = [
        dict(found.measures([codes[at] == code for at in range(len(codes))], code))
        for code in classes
    ]
    columns = [(title, [row[title] for row in rows]) for title in found.titles(False)]
    return table([*labelled("class", classes, labels, "label"), *columns])


class _Landscape:
    """The patches of a landscape, with the definitions of FRAGSTATS."""

    def __init__(self, lc: Raster, masks: list[Any], codes: list[int], unit: str | None) -> None:
        self.lc, self.masks, self.codes, self.unit = lc, masks, codes, unit
        self.frame = lc.frame
        weight = reference.weights(lc.frame, unit)
        self.cells = [int(mask.sum()) for mask in masks]
        self.sizes = [math.fsum(weight[mask].tolist()) for mask in masks]
        self.around = [self._around(mask) for mask in masks]
        scale = metres(lc.frame)
        self.width, self.height = lc.frame.width * scale, lc.frame.height * scale
        self.pairs = self._pairs()

    @staticmethod
    def _around(mask: Any) -> tuple[int, int]:
        padded = np.pad(mask, 1).astype(np.int8)
        ends, flanks = (int(np.abs(np.diff(padded, axis=axis)).sum()) for axis in (0, 1))
        return ends, flanks

    def _pairs(self) -> Counter[tuple[int, int, bool]]:
        """Return how often two classes are adjacent, keyed by the smaller class, the larger class,
        and whether one is below the other."""
        found: Counter[tuple[int, int, bool]] = Counter()
        cells, null = self.lc.cells, self.lc.null
        for one, other, is_end in (
            (np.s_[:, :-1], np.s_[:, 1:], False),
            (np.s_[:-1], np.s_[1:], True),
        ):
            kept = ~null[one] & ~null[other]
            for a, b in zip(cells[one][kept].tolist(), cells[other][kept].tolist()):
                found[min(a, b), max(a, b), is_end] += 1
        return found

    def perimeter(self, at: int) -> float:
        ends, flanks = self.around[at]
        return ends * self.width + flanks * self.height

    def shape(self, at: int) -> float:
        return 0.25 * self.perimeter(at) / math.sqrt(self.cells[at] * self.width * self.height)

    def patches(self, labels: Labels) -> Lines:
        every = range(len(self.masks))
        columns: list[Column] = [("patch", [at + 1 for at in every])]
        columns += labelled("class", self.codes, labels, "label")
        columns.append(("cells", self.cells))
        if self.unit:
            columns.append((f"area_{self.unit}", self.sizes))
        columns.append(("perimeter_m", [self.perimeter(at) for at in every]))
        columns.append(("shape_index", [self.shape(at) for at in every]))
        columns.append(("fractal_dimension", [self._fractal(at) for at in every]))
        return table(columns)

    def _fractal(self, at: int) -> float:
        size = self.cells[at] * self.width * self.height
        if size != size or math.isclose(size, 1, rel_tol=1e-9):
            return math.nan
        return 2 * math.log(0.25 * self.perimeter(at)) / math.log(size)

    def titles(self, is_landscape: bool = True) -> list[str]:
        unit = self.unit or "cells"
        sized = [f"area_{unit}"] if self.unit else []
        per_area = ["patches_km2"] if self.unit else []
        density = [f"edge_density_m_{unit}"] if self.unit else []
        names = [
            "cells",
            *sized,
            *(["classes"] if is_landscape else ["percent"]),
            "patches",
            *per_area,
        ]
        names += ["largest_patch_percent", f"mean_patch_{unit}", f"area_weighted_mean_patch_{unit}"]
        names += [f"effective_mesh_{unit}", "edge_m", *density, "mean_shape_index"]
        names += ["aggregation_index", "cohesion", "interspersion_index"]
        more = ["contagion", "shannon_diversity", "shannon_evenness", "simpson_diversity"]
        return [*names, *(more if is_landscape else [])]

    def lengths(self, code: int | None) -> dict[tuple[int, int], float]:
        """Return the length of the border between each pair of classes, for one class or for
        all."""
        found: dict[tuple[int, int], float] = {}
        for (one, other, is_end), count in self.pairs.items():
            if one != other and code in (None, one, other):
                length = count * (self.width if is_end else self.height)
                found[one, other] = found.get((one, other), 0.0) + length
        return found

    def measures(self, chosen: list[bool], code: int | None) -> dict[str, Any]:
        """Return the measures that classes and landscapes share."""
        unit, every = self.unit or "cells", [at for at, is_in in enumerate(chosen) if is_in]
        whole, cells = math.fsum(self.sizes), sum(self.cells)
        sizes = [self.sizes[at] for at in every]
        borders = self.lengths(code)
        edge = math.fsum(borders.values()) if borders else 0.0 * self.width
        classes = len(set(self.codes))
        sides = [float(sum(self.around[at])) for at in every]
        below = sum(it * math.sqrt(self.cells[at]) for it, at in zip(sides, every))
        cohesion = math.nan
        if cells > 1:
            cohesion = 100 * (1 - sum(sides) / below) / (1 - 1 / math.sqrt(cells))
        kinds = classes - 1 if code is not None else classes * (classes - 1) // 2
        found: dict[str, Any] = {
            "cells": sum(self.cells[at] for at in every),
            f"area_{unit}": math.fsum(sizes),
            "percent": 100 * math.fsum(sizes) / whole,
            "patches": len(every),
            "largest_patch_percent": 100 * max(sizes) / whole,
            f"mean_patch_{unit}": math.fsum(sizes) / len(sizes),
            f"area_weighted_mean_patch_{unit}": sum(it * it for it in sizes) / math.fsum(sizes),
            f"effective_mesh_{unit}": sum(it * it for it in sizes) / whole,
            "edge_m": edge,
            f"edge_density_m_{unit}": edge / whole,
            "mean_shape_index": sum(self.shape(at) for at in every) / len(every),
            "cohesion": cohesion,
            "interspersion_index": _mixed(borders, kinds) if classes >= 3 and edge > 0 else None,
        }
        if self.unit:
            found["patches_km2"] = len(every) / (whole * DIVISORS[self.unit] / 1e6)
        if code is not None:
            found["aggregation_index"] = self._aggregation(code)
        return found

    def _aggregation(self, code: int) -> float:
        cells = sum(it for it, own in zip(self.cells, self.codes) if own == code)
        side = math.isqrt(cells)
        rest = cells - side * side
        most = 2 * side * (side - 1)
        most += 0 if rest == 0 else 2 * rest - 1 if rest <= side else 2 * rest - 2
        like = self.pairs[code, code, False] + self.pairs[code, code, True]
        return 100 * like / most if most else math.nan

    def landscape(self) -> list[Column]:
        found = self.measures([True] * len(self.masks), None)
        classes = sorted(set(self.codes))
        whole = math.fsum(self.sizes)
        share = {
            code: math.fsum(it for it, own in zip(self.sizes, self.codes) if own == code) / whole
            for code in classes
        }
        indices = {code: self._aggregation(code) for code in classes}
        entropy = 0.0 - sum(part * math.log(part) for part in share.values())
        many = len(classes) > 1
        found["classes"] = len(classes)
        found["aggregation_index"] = sum(
            share[code] * it for code, it in indices.items() if it == it
        )
        found["contagion"] = self._contagion(classes, share) if many else None
        found["shannon_diversity"] = entropy
        found["shannon_evenness"] = entropy / math.log(len(classes)) if many else None
        found["simpson_diversity"] = 1 - sum(part * part for part in share.values())
        return [(title, [found[title]]) for title in self.titles()]

    def _contagion(self, classes: list[int], share: Mapping[int, float]) -> float:
        twice: Counter[tuple[int, int]] = Counter()
        for (one, other, _), count in self.pairs.items():
            twice[one, other] += count
            twice[other, one] += count
        around = {code: sum(twice[code, other] for other in classes) for code in classes}
        terms = [share[one] * count / around[one] for (one, _), count in twice.items() if count]
        return 100 * (1 + sum(it * math.log(it) for it in terms) / (2 * math.log(len(classes))))


def _mixed(borders: Mapping[Any, float], kinds: int) -> float:
    total = math.fsum(borders.values())
    parts = [it / total for it in borders.values()]
    return 100 * (0.0 - sum(it * math.log(it) for it in parts)) / math.log(kinds)


# Decimals


def zonal(values: Raster, zones: Raster, *, scale: int, **words: Any) -> Lines:
    """Return statistics of decimals that are rounded to 1 / scale."""
    whole = np.rint(np.where(values.null, 0, values.cells).astype(np.float64) * scale)
    if np.abs(whole).max() > reference.MOST:
        raise Refusal("a value that does not fit")
    rounded = replace(values, cells=whole.astype(np.int64))
    head, *lines = reference.zonal(rounded, zones, **words)
    titles = head.split("|")
    powers = {"zone": 0, "zone_label": 0, "cells": 0, "variance": 2}
    rows = [
        [
            reference.shown(float(text) / scale ** powers.get(title, 1))
            if powers.get(title, 1)
            else text
            for title, text in zip(titles, line.split("|"))
        ]
        for line in lines
    ]
    return [head, *("|".join(row) for row in rows)]
