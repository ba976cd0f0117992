"""Random calls of dominant, accuracy, sample, metrics, zonal with a scale, and of overlapping
zones, for random_calls.py."""

from __future__ import annotations

from collections import Counter
from typing import Any, Callable

import numpy as np
import random_inputs as inputs
import reference
import reference_answers
from osgeo import ogr
from random_inputs import Form, Made, one_of
from reference import Lines, Raster, Refusal

LEVELS = ("class", "landscape", "patch")
SEEDS = ("1", "7", "42", "-3", "Wald-1", "2026")


def zones_of(calls: Any, is_word: bool = False) -> Any:
    """Draw zones, which may be evaluated one by one. Return a function that returns them and their
    labels, once the maps are settled."""
    made = calls.zones(is_word)
    is_each = bool(made.features) and calls.chance(0.5)

    def found() -> Any:
        if not is_each:
            held = calls.held("zone")
            return reference_answers.zones_apart(held), held.labels
        calls.option("each", "yes")
        has_field = bool(made.zone_field)
        if has_field:
            calls.option("zone_field", made.zone_field)
        words = (made.features, has_field, calls.frame, calls.most)
        return reference_answers.zones_of_each(*words)

    return found


def legend_of(calls: Any, option: str, codes: Any, own: Any, share: float = 0.3) -> Any:
    """Return the labels of classes, from a legend if one is drawn, or else their own."""
    cells = np.array([codes], np.int64)
    held = Raster(cells, np.zeros(cells.shape, bool), calls.frame)
    found = calls.legend(option, held, share)
    return own if found is None else found


def codes_of(held: Raster) -> Any:
    return np.unique(held.cells[~held.null]).tolist()


def dominant(calls: Any) -> Lines:
    calls.raster("lc")
    zoned = zones_of(calls, True)
    calls.settled()
    lc = calls.held("lc")
    zones, own = zoned()
    labels = legend_of(calls, "labels", codes_of(lc), lc.labels)
    zone_labels = legend_of(calls, "zone_labels", [zone for zone, _ in zones], own, 0.2)
    return reference_answers.dominant(lc, zones, labels, zone_labels, area=calls.area())


def metrics(calls: Any) -> Lines:
    calls.raster("lc")
    zoned = zones_of(calls) if calls.chance(0.5) else None
    calls.settled()
    lc = calls.held("lc")
    zones, own = (None, {}) if zoned is None else zoned()
    level = calls.picked("level", LEVELS, ("cell",)) or "class"
    connectivity = calls.picked("connectivity", (4, 8), (5, 0)) or 4
    labels = legend_of(calls, "labels", codes_of(lc), lc.labels) if level != "landscape" else {}
    zone_labels = own
    if zones is not None:
        zone_labels = legend_of(calls, "zone_labels", [zone for zone, _ in zones], own, 0.2)
    words = {"level": level, "connectivity": connectivity, "area": calls.area()}
    return reference_answers.metrics(lc, zones, labels, zone_labels, **words)


def of_each(calls: Any) -> Lines:
    """Draw a composition, or statistics, with zones evaluated one by one."""
    is_zonal = calls.chance(0.4)
    calls.found.words[0] = "zonal" if is_zonal else "composition"
    calls.raster("lc")
    zoned = zones_of(calls, is_zonal)
    calls.settled()
    lc = calls.held("lc")
    zones, own = zoned()
    if is_zonal:
        plain = {"quantiles": [0.5], "zone_labels": None}
        return reference_answers.of_each(reference.zonal, lc, zones, own, **plain)
    words = {"area": calls.area(), "nulls": False, "labels": None, "zone_labels": None}
    return reference_answers.of_each(reference.composition, lc, zones, own, **words)


def sample(calls: Any) -> Lines:
    calls.raster("lc")
    calls.settled()
    lc = calls.held("lc")
    codes = codes_of(lc)
    seed = one_of(calls.random, SEEDS)
    calls.option("seed", seed)
    allocation, n = "equal", one_of(calls.random, (1, 2, 5, 10, 60, 3000))
    if calls.chance(0.4):
        pool = [*codes, 99] if calls.chance(0.05) or not codes else codes
        chosen = sorted({one_of(calls.random, pool), one_of(calls.random, pool)})
        n = {code: int(calls.random.integers(0, 9)) for code in chosen}
        calls.option("n", ",".join(f"{code}:{count}" for code, count in n.items()))
    else:
        calls.option("n", n)
        allocation = calls.picked("allocation", ("equal", "proportional"), ("odd",)) or "equal"
    labels = legend_of(calls, "labels", codes, lc.labels)
    return reference_answers.sample(lc, labels, n=n, seed=seed, allocation=allocation)


# Accuracy


def accuracy(calls: Any) -> Lines:
    lc = calls.raster("lc").held
    kind = one_of(calls.random, ("map", "map", "points", "table"))
    is_plane = calls.frame.system.metres is not None or calls.frame.system.angle is not None
    if kind == "points" and is_plane:
        points = points_of(calls, codes_of(lc))
    elif kind == "table":
        pairs = table_of(calls, codes_of(lc))
    else:
        kind, _ = "map", calls.raster("ref", like=lc)
    calls.settled()
    lc = calls.held("lc")
    if kind == "map":
        pairs = pairs_of(lc, calls.held("ref"))
    elif kind == "points":
        if points is None:
            raise Refusal("a class of a point that is not a whole number")
        pairs = pairs_of_points(lc, points)
    part = one_of(calls.random, ("classes", "classes", "matrix", "summary"))
    calls.option("table", part)
    sizes, unit = sizes_of(calls, lc)
    own = lc.labels or (calls.held("ref").labels if kind == "map" else {})
    codes = sorted({code for pair in pairs for code in pair} | set(sizes or {}))
    labels = legend_of(calls, "labels", codes, own)
    return reference_answers.accuracy(pairs, sizes, labels, unit=unit, part=part)


def pairs_of(lc: Raster, ref: Raster) -> Counter[tuple[int, int]]:
    kept = ~lc.null & ~ref.null
    return Counter(zip(lc.cells[kept].tolist(), ref.cells[kept].tolist()))


def pairs_of_points(lc: Raster, points: Any) -> Counter[tuple[int, int]]:
    found: Counter[tuple[int, int]] = Counter()
    for row, col, code in points:
        is_in = 0 <= row < lc.frame.rows and 0 <= col < lc.frame.cols
        if code is not None and is_in and not lc.null[row, col]:
            found[int(lc.cells[row, col]), code] += 1
    return found


def points_of(calls: Any, codes: Any) -> Any:
    """Write points and return their rows, columns and classes, or None if a class is not an
    integer."""
    random, frame = calls.random, calls.frame
    ending = one_of(random, [it for it in inputs.DRIVERS if it in ("gpkg", "fgb")])
    name = one_of(random, ("class", "reference", "f"))
    file = f"{calls.name}_ref.{ending}"
    source = ogr.GetDriverByName(inputs.DRIVERS[ending]).CreateDataSource(str(calls.folder / file))
    system = inputs.srs_of(frame.system.text) if frame.system.text else None
    layer = source.CreateLayer("points", system, ogr.wkbPoint, ["SPATIAL_INDEX=NO"])
    is_real = calls.chance(0.3)
    layer.CreateField(ogr.FieldDefn(name, ogr.OFTReal if is_real else ogr.OFTInteger))
    points: Any = []
    has_half = is_real and calls.chance(0.1)
    for _ in range(int(random.integers(1, 30))):
        row, col = (int(random.integers(-1, it + 1)) for it in (frame.rows, frame.cols))
        code = one_of(random, [*codes, *codes, 3, None])
        points.append((row, col, code))
        feature = ogr.Feature(layer.GetLayerDefn())
        if code is not None:
            feature.SetField(name, code + 0.5 * has_half)
        down, across = row + random.uniform(0.1, 0.9), col + random.uniform(0.1, 0.9)
        place = ogr.Geometry(ogr.wkbPoint)
        place.AddPoint_2D(frame.west + frame.width * across, frame.north - frame.height * down)
        feature.SetGeometry(place)
        layer.CreateFeature(feature)
    calls.add("ref", Made(file, None, system=frame.system))
    if name == "f":
        calls.option("field", name)
    return None if has_half and any(code is not None for _, _, code in points) else points


def table_of(calls: Any, codes: Any) -> Counter[tuple[int, int]]:
    """Write a table of pairs of classes, optionally with cell counts."""
    has_cells = calls.chance(0.7)
    found: Counter[tuple[int, int]] = Counter()
    lines = ["map,reference,cells" if has_cells else "map,reference"]
    for _ in range(int(calls.random.integers(1, 20))):
        pair = one_of(calls.random, [*codes, 1]), one_of(calls.random, [*codes, *codes, 2])
        cells = int(calls.random.integers(0, 50)) if has_cells else 1
        found[pair] += cells
        lines.append(",".join(map(str, [*pair, *([cells] if has_cells else [])])))
    file = f"{calls.name}_ref.csv"
    (calls.folder / file).write_text("\n".join(lines) + "\n")
    calls.add("ref", Made(file, None, system=calls.found.maps["lc"].system))
    return found


def sizes_of(calls: Any, lc: Raster) -> Any:
    """Return the areas of the map's classes, or None, and the unit of areas."""
    way = one_of(calls.random, ("none", "none", "map", "map", "file"))
    area = calls.area()
    if way == "none":
        return None, None
    if way == "map":
        calls.option("areas", "map")
        unit = reference.unit_of(area, lc.frame)
        weight = reference.weights(lc.frame, unit)
        codes = codes_of(lc)
        return {code: float(weight[(lc.cells == code) & ~lc.null].sum()) for code in codes}, unit
    sizes = {code: float(calls.random.integers(0, 10**6)) / 4 for code in codes_of(lc) or [1]}
    file = f"{calls.name}_areas.csv"
    lines = ["value,area", *(f"{code},{size!r}" for code, size in sizes.items())]
    (calls.folder / file).write_text("\n".join(lines) + "\n")
    calls.option("areas", file)
    return sizes, None if area == "none" else area or "ha"


# Decimals


def decimals(calls: Any) -> Lines:
    """Draw statistics of a raster of decimals."""
    calls.found.words[0] = "zonal"
    random, frame = calls.random, calls.frame
    form = Form(one_of(random, ("Float32", "Float64")), {}, one_of(random, ("nodata", "nan")))
    dtype = inputs.TYPES[form.kind][1]
    shape = (frame.rows, frame.cols)
    step = one_of(random, (0.001, 0.125, 0.5, 1.0))
    cells = (random.integers(-9000, 9000, shape) * step).astype(dtype)
    null = random.random(shape) < one_of(random, (0, 0.2))
    name = f"{calls.name}_value"
    refused = inputs.write_raster(
        random, calls.folder / f"{name}.tif", frame, cells, null, form, frame.system
    )
    held = Raster(cells, form.null, frame)
    calls.add("value", Made(f"{name}.tif", held, "", refused, frame.system))
    calls.zones(True)
    calls.settled()
    values, zones = calls.held("value"), calls.held("zone")
    scale = one_of(random, (1, 10, 100, 1000, 7, 1_000_000))
    calls.option("scale", scale)
    words = {"quantiles": [0.5], "zone_labels": None}
    return reference_answers.zonal(values, zones, scale=scale, **words)


MAKERS: dict[str, Callable[[Any], Lines]] = {
    "dominant": dominant,
    "accuracy": accuracy,
    "sample": sample,
    "metrics": metrics,
    "of_each": of_each,
    "decimals": decimals,
}
