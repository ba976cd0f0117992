"""Test metrics and dominant classes with cell-by-cell definitions."""

from __future__ import annotations

import math
import warnings
from collections import Counter
from typing import Any

import numpy as np
import pytest

from .map_definitions import MAPS, masked, random_map
from .table_definitions import metrics

rcell = pytest.importorskip("rcell")

SQUARE = (25.0, 0.0, 1000.0, 0.0, -25.0, 5000.0)
OBLONG = (30.0, 0.0, 0.0, 0.0, -10.0, 0.0)
LEVELS = ("patch", "class", "landscape")


def placed(cells: Any, transform: Any = SQUARE, crs: Any = "EPSG:32632") -> Any:
    return rcell.Raster(cells, transform, crs=crs)


def is_near(one: Any, other: Any) -> bool:
    if one != one or other != other:
        return bool(one != one and other != other)
    return bool(math.isclose(one, other, rel_tol=1e-12, abs_tol=1e-12))


def check(row: dict[str, Any], expected: dict[str, Any]) -> None:
    assert set(row) == set(expected)
    assert [name for name in row if not is_near(row[name], expected[name])] == []


def test_areas_and_percentages_are_those_of_composition() -> None:
    land = placed(random_map(7, 60, 80, 5), (30.0, 0.0, 0.0, 0.0, -30.0, 0.0))
    zones = placed(random_map(8, 60, 80, 3), (30.0, 0.0, 0.0, 0.0, -30.0, 0.0))
    for words in ({}, {"zones": zones}):
        found, listed = rcell.metrics(land, **words), rcell.composition(land, **words)
        for name in ("cells", "area_ha", "percent"):
            assert found[name].tolist() == listed[name].tolist()
    parts = rcell.composition(land, zones)
    exact = [
        100 * cells / parts["cells"][parts["zone"] == zone].sum()
        for zone, cells in zip(parts["zone"], parts["cells"])
    ]
    assert parts["percent"].tolist() == exact


@pytest.mark.parametrize("transform", [SQUARE, OBLONG])
@pytest.mark.parametrize("connectivity", [4, 8])
@pytest.mark.parametrize("name", MAPS)
def test_classes_and_landscapes_are_as_defined(
    name: str, connectivity: int, transform: Any
) -> None:
    land = placed(MAPS[name], transform)
    by_class, landscape = metrics(MAPS[name].tolist(), connectivity, transform[0], -transform[4])
    found = rcell.metrics(land, "class", connectivity).to_dict("records")
    assert [row["class"] for row in found] == list(by_class)
    for row in found:
        check(row, by_class[row["class"]] | {"class": row["class"]})
    rows = rcell.metrics(land, "landscape", connectivity).to_dict("records")
    assert len(rows) == bool(landscape)
    for row in rows:
        check(row, landscape)


def test_patches_are_the_patches_of_the_map() -> None:
    land = placed(MAPS["patchy"])
    found, listed = rcell.metrics(land, "patch"), rcell.patches(land)
    for title in ("patch", "class", "cells", "area_ha", "perimeter_m"):
        assert found[title].tolist() == listed[title].tolist()
    assert found["fractal_dimension"].between(1, 2).all()
    assert rcell.metrics(placed(masked([[1, 1], [1, 1]])), "patch")["shape_index"].tolist() == [1]


@pytest.mark.parametrize("level", LEVELS)
@pytest.mark.parametrize("connectivity", [4, 8])
def test_a_zone_is_a_landscape_of_its_own(connectivity: int, level: str) -> None:
    land, zones = MAPS["patchy"], random_map(9, 24, 31, 3, 0.05, 9) * 10
    found = rcell.metrics(placed(land), level, connectivity, zones=placed(zones))
    for zone in (10, 20, 30):
        outside = land.mask | zones.mask | (zones.data != zone)
        alone = placed(np.ma.MaskedArray(land.data, mask=outside))
        expected = rcell.metrics(alone, level, connectivity)
        rows = found[found["zone"] == zone].drop(columns="zone")
        assert rows.columns.tolist() == expected.columns.tolist()
        for one, other in zip(rows.to_dict("records"), expected.to_dict("records"), strict=True):
            check(one, other)


def test_lengths_are_missing_in_degrees_with_one_warning() -> None:
    land = placed(MAPS["no null"], (0.01, 0, 10, 0, -0.01, 60), "EPSG:4326")
    with pytest.warns(UserWarning) as told:
        found = rcell.metrics(land)
    assert [str(it.message) for it in told] == ["lengths are not computed for maps in degrees"]
    areas = rcell.composition(land)
    assert found["area_ha"].tolist() == pytest.approx(areas["area_ha"].tolist())
    lengths = ["edge_m", "edge_density_m_ha", "mean_shape_index", "interspersion_index"]
    assert found[lengths].isna().all(axis=None)
    flat = rcell.metrics(placed(MAPS["no null"]))
    for title in ("aggregation_index", "cohesion", "patches"):
        assert found[title].tolist() == pytest.approx(flat[title].tolist())


@pytest.mark.parametrize("level", LEVELS)
def test_without_a_reference_system_sizes_are_in_cells(level: str) -> None:
    with warnings.catch_warnings():
        warnings.simplefilter("error")
        found = rcell.metrics(rcell.Raster(MAPS["patchy"]), level)
    assert not [title for title in found if title.endswith(("_ha", "_km2"))]
    lengths = [title for title in found if title.endswith("_m")]
    assert lengths and found[lengths].isna().all(axis=None)


def test_a_level_that_there_is_not_is_an_error() -> None:
    with pytest.raises(rcell.BadArgument, match="level must be patch, class or landscape; got 3"):
        rcell.metrics(placed([[1]]), 3)


# The most frequent class and the rarest


def test_dominant_classes_are_as_counted() -> None:
    land, zones = MAPS["noise"], random_map(5, 16, 17, 3, 0.1, 5)
    found = rcell.dominant(
        placed(land), placed(zones), labels={code: str(code) for code in range(10)}
    )
    assert found["zone"].tolist() == [1, 2, 3]
    for row in found.to_dict("records"):
        counts = Counter(land.data[~land.mask & ~zones.mask & (zones.data == row["zone"])].tolist())
        often = [count for _, count in counts.most_common()]
        assert (row["cells"], row["classes"]) == (sum(often), len(often))
        for name, count in (("majority", often[0]), ("minority", often[-1])):
            assert row[name] == min(code for code in counts if counts[code] == count)
            assert row[f"{name}_label"] == str(row[name])
            assert row[f"{name}_percent"] == pytest.approx(100 * count / sum(often))


def test_a_legend_without_a_class_is_said_once() -> None:
    land = masked([[1, 2, 2]])
    with pytest.warns(UserWarning) as told:
        rcell.dominant(placed(land), placed(masked([[1, 1, 1]])), labels={5: "moor"})
    assert [str(it.message) for it in told] == ["labels: no label for 1, 2 in map"]
    assert len(rcell.dominant(placed(MAPS["null"]), placed(MAPS["null"]))) == 0
