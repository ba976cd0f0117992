"""Compute the expected results of the ready-made calls, with only numpy and scipy. No code is
shared with the product."""

from __future__ import annotations

import itertools
import math
from collections import Counter
from dataclasses import dataclass, field
from typing import Any, Iterable, Mapping, Sequence

import numpy as np
import scipy.ndimage

MOST = 2147483647
DIVISORS = {"m2": 1.0, "ha": 1e4, "km2": 1e6}
Lines = list[str]
Column = tuple[str, Sequence[Any]]


class Refusal(Exception):
    """A call that must be rejected."""


@dataclass(frozen=True)
class System:
    """A reference system.

    Attributes
    ----------
    text : str
        The system as GDAL reads it, or nothing.
    metres : float or None
        The length of the unit in metres; None if the unit is unknown or an angle.
    angle : float or None
        The unit of angles in radians, or None.
    ellipsoid : tuple of float
        The semi-major axis and the flattening.
    """

    text: str
    metres: float | None = None
    angle: float | None = None
    ellipsoid: tuple[float, float] = (6378137.0, 1 / 298.257223563)


@dataclass(frozen=True)
class Frame:
    """The grid of a map."""

    rows: int
    cols: int
    west: float
    north: float
    width: float
    height: float
    system: System

    def centres(self) -> tuple[Any, Any]:
        """Return the coordinates of the centres of columns and rows."""
        x = self.west + self.width * (np.arange(self.cols) + 0.5)
        return x, self.north - self.height * (np.arange(self.rows) + 0.5)


@dataclass
class Raster:
    """A map: its cells, its null cells, and its labels."""

    cells: Any
    null: Any
    frame: Frame
    labels: dict[int, str] = field(default_factory=dict)


@dataclass
class Feature:
    """A feature of a layer: its rings by part (None without geometry), and the value of a field."""

    fid: int
    parts: list[list[list[tuple[float, float]]]] | None
    value: Any = None


def shown(value: Any) -> str:
    """Return a value as printed in the table of cases."""
    if value is None or value != value:
        return "*"
    return f"{value:.12g}" if isinstance(value, float) else str(value)


def table(columns: Iterable[Column]) -> Lines:
    """Return the lines of a table."""
    kept = list(columns)
    rows = zip(*(values for _, values in kept))
    return ["|".join(title for title, _ in kept)] + ["|".join(map(shown, row)) for row in rows]


def grid(cells: Any, null: Any) -> Lines:
    """Return the lines of a map."""
    return [
        " ".join("*" if is_null else str(cell) for cell, is_null in zip(*row))
        for row in zip(cells.tolist(), null.tolist())
    ]


# Areas


def row_areas(frame: Frame) -> Any:
    """Return the area of a cell in each row, in square metres."""
    system = frame.system
    if system.angle is None:
        if system.metres is None:
            raise Refusal("area")
        return np.full(frame.rows, frame.width * frame.height * system.metres**2)
    half = math.pi / system.angle  # from pole to pole
    edges = half / 2 - (frame.north - frame.height * np.arange(frame.rows + 1))
    middle = (edges[:-1] + edges[1:]) / 2
    if middle.min() < -1e-9 or middle.max() > half + 1e-9:
        raise Refusal("beyond the pole")
    edges = np.clip(edges, 0, half)
    # The area is an integral over the distance from the nearer pole, along the meridian.
    nodes, shares = np.polynomial.legendre.leggauss(24)
    step = np.diff(edges)[:, None] / 2
    place = edges[:-1, None] + step * (nodes + 1)
    angle = np.minimum(place, half - place) * system.angle
    a, f = system.ellipsoid
    e2 = f * (2 - f)
    ring = (1 - e2) * np.sin(angle) / (1 - e2 * np.cos(angle) ** 2) ** 2
    along = (ring * shares).sum(axis=1) * step[:, 0] * system.angle
    return a**2 * along * frame.width * system.angle


def unit_of(area: str, frame: Frame) -> str | None:
    """Return the unit of areas of a call. `area` is a unit, `none`, or empty if it is left out."""
    if area == "none":
        return None
    if not frame.system.text:
        if area:
            raise Refusal("area without a reference system")
        return None
    row_areas(frame)
    return area or "ha"


def weights(frame: Frame, unit: str | None) -> Any:
    """Return the area of each cell, or ones."""
    if unit is None:
        return np.ones((frame.rows, frame.cols))
    return np.repeat(row_areas(frame)[:, None] / DIVISORS[unit], frame.cols, axis=1)


def metres(frame: Frame) -> float:
    """Return the length of a unit in metres, or NaN if it is not a length."""
    return math.nan if frame.system.metres is None else frame.system.metres


# Counts


def labelled(
    title: str, classes: Sequence[Any], labels: Mapping[int, str], label: str = ""
) -> list[Column]:
    """Return a column of classes, and a column of labels if there are labels."""
    columns: list[Column] = [(title, classes)]
    if labels:
        columns.append((label or f"{title}_label", [labels.get(code) or None for code in classes]))
    return columns


def counted(maps: Sequence[Raster], unit: str | None) -> dict[tuple[Any, ...], tuple[int, float]]:
    """Return the number of cells and the area of each combination. Null is None, and comes last."""
    keys = [
        [
            None if is_null else cell
            for cell, is_null in zip(it.cells.ravel().tolist(), it.null.ravel().tolist())
        ]
        for it in maps
    ]
    area = weights(maps[0].frame, unit).ravel().tolist()
    cells: Counter[tuple[Any, ...]] = Counter()
    sums: dict[tuple[Any, ...], list[float]] = {}
    for place, key in enumerate(zip(*keys)):
        cells[key] += 1
        sums.setdefault(key, []).append(area[place])
    order = sorted(cells, key=lambda key: [(part is None, part or 0) for part in key])
    return {key: (cells[key], math.fsum(sums[key])) for key in order}


def sized(
    entries: Mapping[tuple[Any, ...], tuple[int, float]], unit: str | None, grouped: int
) -> list[Column]:
    """Return the cells, areas and percentages of entries, which are grouped by their first
    classes."""
    totals: dict[tuple[Any, ...], float] = {}
    for key, (_, area) in entries.items():
        if None not in key:
            totals[key[:grouped]] = totals.get(key[:grouped], 0.0) + area
    percent = [
        None if None in key else 100 * area / totals[key[:grouped]]
        for key, (_, area) in entries.items()
    ]
    areas = [(f"area_{unit}", [area for _, area in entries.values()])] if unit else []
    return [("cells", [cells for cells, _ in entries.values()]), *areas, ("percent", percent)]


def composition(
    lc: Raster, zones: Raster | None, *, area: str, nulls: bool, labels: Any, zone_labels: Any
) -> Lines:
    unit = unit_of(area, lc.frame)
    maps = [lc] if zones is None else [zones, lc]
    entries = counted(maps, unit)
    entries = {key: it for key, it in entries.items() if nulls or key[-1] is not None}
    columns: list[Column] = []
    if zones is not None:
        entries = {key: it for key, it in entries.items() if key[0] is not None}
        known = zones.labels if zone_labels is None else zone_labels
        columns = labelled("zone", [key[0] for key in entries], known)
    known = lc.labels if labels is None else labels
    columns += labelled("class", [key[-1] for key in entries], known, "label")
    return table(columns + sized(entries, unit, len(maps) - 1))


def cross(maps: Mapping[str, Raster], *, area: str, nulls: bool) -> Lines:
    first = next(iter(maps.values()))
    unit = unit_of(area, first.frame)
    entries = counted(list(maps.values()), unit)
    entries = {key: it for key, it in entries.items() if nulls or None not in key}
    columns = [
        column
        for place, (name, it) in enumerate(maps.items())
        for column in labelled(name, [key[place] for key in entries], it.labels)
    ]
    return table(columns + sized(entries, unit, 0))


# Change


def change(
    maps: Sequence[Raster], years: Sequence[int], *, area: str, labels: Any, part: str
) -> Lines:
    """Return a part of a change: `table`, `matrix` or `summary`."""
    unit = unit_of(area, maps[0].frame)
    known = labels if labels is not None else next((it.labels for it in maps if it.labels), {})
    pairs = []
    for pair in zip(maps, maps[1:]):
        entries = counted(pair, unit)
        pairs.append({key: it for key, it in entries.items() if None not in key})
    spans = list(zip(years, years[1:])) or [()]
    heads = ("year_from", "year_to") if years else ()
    if part == "matrix":
        return _matrix(pairs, spans, heads, known, unit)
    rows: list[list[Any]] = []
    for span, entries in zip(spans, pairs):
        rows += (
            _rows(span, entries, known, unit)
            if part == "table"
            else _summary(span, entries, known, unit)
        )
    text = [["label"], ["from_label"], ["to_label"]] if known else [[], [], []]
    if part == "table":
        titles = [
            "from",
            *text[1],
            "to",
            *text[2],
            "cells",
            *([f"area_{unit}"] if unit else []),
            "percent",
        ]
    else:
        parts = ("before", "after", "gain", "loss", "net", "swap", "persistence")
        titles = ["class", *text[0], *(f"{it}_{unit or 'cells'}" for it in parts)]
    return ["|".join([*heads, *titles])] + ["|".join(map(shown, row)) for row in rows]


def _rows(
    span: Sequence[int], entries: Any, labels: Mapping[int, str], unit: str | None
) -> list[list[Any]]:
    total = math.fsum(area for _, area in entries.values())
    return [
        [
            *span,
            *itertools.chain.from_iterable(
                [code, *([labels.get(code)] if labels else [])] for code in key
            ),
            cells,
            *([area] if unit else []),
            100 * area / total,
        ]
        for key, (cells, area) in entries.items()
    ]


def _summary(
    span: Sequence[int], entries: Any, labels: Mapping[int, str], unit: str | None
) -> list[list[Any]]:
    rows = []
    for code in sorted({code for key in entries for code in key}):
        before, after, same = (
            math.fsum(it[1] for key, it in entries.items() if is_in(key))
            for is_in in (
                lambda key: key[0] == code,
                lambda key: key[1] == code,
                lambda key: key == (code, code),
            )
        )
        gain, loss = after - same, before - same
        values = [before, after, gain, loss, after - before, 2 * min(gain, loss), same]
        shown_values = values if unit else [int(value) for value in values]
        rows.append([*span, code, *([labels.get(code)] if labels else []), *shown_values])
    return rows


def names_of(
    codes: Iterable[int], labels: Mapping[int, str], heads: Sequence[str]
) -> dict[int, str]:
    """Return the names of classes in a matrix."""
    plain = {code: labels.get(code) or str(code) for code in codes}
    often = Counter([*plain.values(), "from", *heads])
    return {
        code: f"{name} ({code})" if often[name] > 1 and labels.get(code) else name
        for code, name in plain.items()
    }


def _matrix(
    pairs: Any, spans: Any, heads: Sequence[str], labels: Mapping[int, str], unit: str | None
) -> Lines:
    names = names_of({code for entries in pairs for key in entries for code in key}, labels, heads)
    after = sorted({key[1] for entries in pairs for key in entries})
    lines = ["|".join([*heads, "from", *(names[code] for code in after)])]
    for span, entries in zip(spans, pairs):
        for code in sorted({key[0] for key in entries}):
            values = [entries.get((code, it), (0, 0.0))[1 if unit else 0] for it in after]
            lines.append("|".join(map(shown, [*span, names[code], *values])))
    return lines


# Patches


def clumped(lc: Raster, connectivity: int) -> Any:
    """Return the patch number of each cell, from 1 in the order of first cells, or 0 for null."""
    form = np.ones((3, 3)) if connectivity == 8 else None
    found = np.zeros(lc.cells.shape, np.int64)
    for code in np.unique(lc.cells[~lc.null]):
        parts, count = scipy.ndimage.label((lc.cells == code) & ~lc.null, form)
        found = np.where(parts > 0, parts + found.max(), found)
    numbers, first = np.unique(found, return_index=True)
    order = [number for _, number in sorted(zip(first.tolist(), numbers.tolist())) if number]
    renamed = np.zeros(int(found.max()) + 1, np.int64)
    renamed[order] = np.arange(1, len(order) + 1)
    return renamed[found]


def selected(lc: Raster, connectivity: int, classes: Any, min_cells: int) -> dict[int, Any]:
    """Return the cells of the selected patches, by patch number."""
    numbers = clumped(lc, connectivity)
    found = {}
    for number in range(1, int(numbers.max(initial=0)) + 1):
        mask = numbers == number
        code = int(lc.cells[mask][0])
        if mask.sum() >= min_cells and (classes is None or code in classes):
            found[number] = mask
    return found


def patches(
    lc: Raster,
    zones: Raster | None,
    *,
    area: str,
    connectivity: int,
    classes: Any,
    min_cells: int,
    core_depth: int,
    labels: Any,
    zone_labels: Any,
) -> Lines:
    frame, unit = lc.frame, unit_of(area, lc.frame)
    found = selected(lc, connectivity, classes, min_cells)
    area_of = weights(frame, unit)
    core = {
        number: scipy.ndimage.binary_erosion(mask, iterations=core_depth)
        for number, mask in found.items()
    }
    codes = [int(lc.cells[mask][0]) for mask in found.values()]
    columns: list[Column] = [("patch", list(found))]
    columns += labelled("class", codes, lc.labels if labels is None else labels, "label")
    columns.append(("cells", [int(mask.sum()) for mask in found.values()]))
    if unit:
        columns.append((f"area_{unit}", [float(area_of[mask].sum()) for mask in found.values()]))
    columns.append(("perimeter_m", [_perimeter(mask, frame) for mask in found.values()]))
    if unit:
        columns.append((f"core_{unit}", [float(area_of[mask].sum()) for mask in core.values()]))
    else:
        columns.append(("core_cells", [int(mask.sum()) for mask in core.values()]))
    columns += _boxes(found, frame)
    if zones is not None:
        known = zones.labels if zone_labels is None else zone_labels
        columns += labelled("zone", [_zone_of(mask, zones) for mask in found.values()], known)
    return table(columns)


def _perimeter(mask: Any, frame: Frame) -> float:
    around = np.pad(mask, 1).astype(np.int8)
    ends, flanks = (int(np.abs(np.diff(around, axis=axis)).sum()) for axis in (0, 1))
    return (ends * frame.width + flanks * frame.height) * metres(frame)


def _boxes(found: Mapping[int, Any], frame: Frame) -> list[Column]:
    rows = [np.flatnonzero(mask.any(axis=1)) for mask in found.values()]
    cols = [np.flatnonzero(mask.any(axis=0)) for mask in found.values()]
    return [
        ("west", [frame.west + frame.width * float(it[0]) for it in cols]),
        ("south", [frame.north - frame.height * float(it[-1] + 1) for it in rows]),
        ("east", [frame.west + frame.width * float(it[-1] + 1) for it in cols]),
        ("north", [frame.north - frame.height * float(it[0]) for it in rows]),
    ]


def _zone_of(mask: Any, zones: Raster) -> int | None:
    inside = Counter(zones.cells[mask & ~zones.null].tolist())
    return min(inside, key=lambda zone: (-inside[zone], zone)) if inside else None


def clump(lc: Raster, *, connectivity: int, classes: Any, min_cells: int) -> Lines:
    found = np.zeros(lc.cells.shape, np.int64)
    for number, mask in selected(lc, connectivity, classes, min_cells).items():
        found[mask] = number
    return grid(found, found == 0)


def adjacency(lc: Raster, *, labels: Any) -> Lines:
    ends: Counter[tuple[int, int]] = Counter()
    flanks: Counter[tuple[int, int]] = Counter()
    for sides, one, other in (
        (flanks, np.s_[:, :-1], np.s_[:, 1:]),
        (ends, np.s_[:-1, :], np.s_[1:, :]),
    ):
        kept = ~lc.null[one] & ~lc.null[other]
        for pair in zip(lc.cells[one][kept].tolist(), lc.cells[other][kept].tolist()):
            sides[min(pair), max(pair)] += 1
    pairs = sorted({*ends, *flanks})
    unit, known = metres(lc.frame), lc.labels if labels is None else labels
    return table(
        [
            *labelled("class", [pair[0] for pair in pairs], known, "label"),
            *labelled("neighbour", [pair[1] for pair in pairs], known),
            ("sides", [ends[pair] + flanks[pair] for pair in pairs]),
            (
                "border_m",
                [(ends[it] * lc.frame.width + flanks[it] * lc.frame.height) * unit for it in pairs],
            ),
        ]
    )


# Zones, values, maps


def zonal(values: Raster, zones: Raster, *, quantiles: Sequence[float], zone_labels: Any) -> Lines:
    kept = ~values.null & ~zones.null
    ids = sorted(set(zones.cells[kept].tolist()))
    parts = [values.cells[kept & (zones.cells == zone)] for zone in ids]
    whole = [[int(value) for value in part.tolist()] for part in parts]
    known = zones.labels if zone_labels is None else zone_labels
    columns = labelled("zone", ids, known)
    columns += [("cells", [len(it) for it in whole]), ("sum", [sum(it) for it in whole])]
    columns += [("mean", [sum(it) / len(it) for it in whole])]
    columns += [("minimum", [min(it) for it in whole]), ("maximum", [max(it) for it in whole])]
    spread = [len(it) * sum(value * value for value in it) - sum(it) ** 2 for it in whole]
    columns += [("variance", [square / len(it) ** 2 for square, it in zip(spread, whole)])]
    for quantile in quantiles:
        title = "q" + f"{quantile * 100:.10g}".replace(".", "_")
        columns.append(
            (title, [float(np.quantile(it.astype(np.float64), quantile)) for it in parts])
        )
    return table(columns)


def majority(lc: Raster, *, size: int, fill: bool) -> Lines:
    codes = np.unique(lc.cells[~lc.null])
    square = np.ones((size, size), np.int64)
    best, chosen = np.zeros(lc.cells.shape, np.int64), np.zeros(lc.cells.shape, np.int64)
    for code in codes:
        many = scipy.ndimage.convolve(
            ((lc.cells == code) & ~lc.null).astype(np.int64), square, mode="constant"
        )
        chosen = np.where(many > best, code, chosen)
        best = np.maximum(best, many)
    return grid(chosen, (best == 0) | (lc.null & (not fill)))


def align(lc: Raster, to: Frame, *, resample: str) -> Lines:
    if lc.frame.system.text != to.system.text:
        raise Refusal("another reference system")
    down = (lc.frame.north - to.north) / lc.frame.height
    across = (to.west - lc.frame.west) / lc.frame.width
    is_whole = abs(down - round(down)) < 1e-6 and abs(across - round(across)) < 1e-6
    is_like = math.isclose(lc.frame.width, to.width) and math.isclose(lc.frame.height, to.height)
    if not resample and not (is_whole and is_like):
        raise Refusal("not by whole cells")
    x, y = to.centres()
    rows = np.floor((lc.frame.north - y) / lc.frame.height + 1e-6).astype(int)
    cols = np.floor((x - lc.frame.west) / lc.frame.width + 1e-6).astype(int)
    used = np.zeros(lc.cells.shape, int)
    cells, null = np.zeros((to.rows, to.cols), np.int64), np.ones((to.rows, to.cols), bool)
    for (r, row), (c, col) in itertools.product(enumerate(rows), enumerate(cols)):
        if 0 <= row < lc.frame.rows and 0 <= col < lc.frame.cols:
            used[row, col] += 1
            cells[r, c], null[r, c] = lc.cells[row, col], lc.null[row, col]
    used[lc.null] = -1
    facts = [
        round(value) if abs(value - round(value)) < 1e-6 else value for value in (down, across)
    ]
    facts += [int((used > 0).sum()), int((used > 1).sum()), int((used == 0).sum())]
    titles = ("shift_rows", "shift_columns", "cells_used", "cells_repeated", "cells_lost")
    return ["|".join(titles), "|".join(map(shown, facts)), *grid(cells, null)]


def reclass(lc: Raster, *, rules: Mapping[int, int | None], other: str) -> Lines:
    cells, null = lc.cells.copy(), lc.null.copy()
    for code in np.unique(lc.cells[~lc.null]).tolist():
        mask = (lc.cells == code) & ~lc.null
        if code not in rules and not other:
            raise Refusal("a class without a rule")
        new = rules.get(code, code if other == "keep" else None)
        if new is None:
            null |= mask
        else:
            cells[mask] = new
    return grid(cells, null)


# Polygons


def inside(parts: Any, frame: Frame) -> Any:
    """Return the cells whose centre is in a polygon, using the edges to the right of each
    centre."""
    x, y = frame.centres()
    found = np.zeros((frame.rows, frame.cols), bool)
    for ring in itertools.chain.from_iterable(parts):
        for (x1, y1), (x2, y2) in zip(ring, ring[1:]):
            crossed = (y1 > y) != (y2 > y)
            if crossed.any():
                at = x1 + (y[crossed] - y1) * (x2 - x1) / (y2 - y1)
                found[crossed] ^= x[None, :] < at[:, None]
    return found


def is_missing(value: Any) -> bool:
    return value is None or value != value or value == ""


def is_whole(value: Any, most: int) -> bool:
    is_number = isinstance(value, (int, float)) and not isinstance(value, bool)
    return is_number and float(value).is_integer() and abs(value) <= most


def text_of(value: Any) -> str:
    return str(value).lower() if isinstance(value, bool) else str(value)


def ids_of(
    features: Sequence[Feature], has_field: bool, most: int
) -> tuple[list[Feature], list[int], dict[int, str]]:
    """Return the features with a zone, their zones, and the labels of zones. `most` is the largest
    integer that can be an id."""
    kept = [
        it for it in features if it.parts is not None and not (has_field and is_missing(it.value))
    ]
    labels: dict[int, str] = {}
    if not has_field:
        ids = [it.fid for it in kept]
    elif all(is_whole(it.value, most) for it in kept):
        ids = [int(it.value) for it in kept]
    else:
        known: dict[str, int] = {}
        ids = [known.setdefault(text_of(it.value), len(known) + 1) for it in kept]
        labels = {number: text for text, number in known.items()}
    return kept, ids, labels


def zones_of(features: Sequence[Feature], has_field: bool, frame: Frame, most: int) -> Raster:
    """Return the zones of polygons. If polygons overlap, a cell belongs to the last one."""
    kept, ids, labels = ids_of(features, has_field, most)
    cells, null = np.zeros((frame.rows, frame.cols), np.int64), np.ones(
        (frame.rows, frame.cols), bool
    )
    for it, number in zip(kept, ids):
        mask = inside(it.parts, frame)
        cells[mask], null[mask] = number, False
    if null.all():
        raise Refusal("no polygon contains the centre of a cell")
    return Raster(cells, null, frame, labels)
