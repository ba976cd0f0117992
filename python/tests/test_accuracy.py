"""Test accuracies with the printed equations of Olofsson et al. 2014, and test samples."""

from __future__ import annotations

import pathlib
import warnings
from collections import Counter
from typing import Any

import numpy as np
import pytest
from hypothesis import given, settings
from hypothesis import strategies as st

from .map_definitions import MAPS, masked, random_map
from .table_definitions import olofsson

rcell = pytest.importorskip("rcell")
pandas = pytest.importorskip("pandas")

METRES = (25.0, 0.0, 1000.0, 0.0, -25.0, 5000.0)
PAPER = [[66, 0, 5, 4], [0, 55, 8, 12], [1, 0, 153, 11], [2, 1, 9, 313]]
PAPER_HECTARES = [18000, 13500, 288000, 580500]


def placed(cells: Any, **words: Any) -> Any:
    return rcell.Raster(cells, METRES, crs="EPSG:32632", **words)


def table_of(matrix: Any) -> Any:
    rows = [(i, j, cells) for i, row in enumerate(matrix, 1) for j, cells in enumerate(row, 1)]
    return pandas.DataFrame(rows, columns=["map", "reference", "cells"])


def areas_of(sizes: Any) -> dict[int, float]:
    return dict(enumerate(sizes, 1))


def points(rows: Any) -> dict[str, Any]:
    """Return rows of x, y and class as GeoJSON points."""
    features = [
        {
            "type": "Feature",
            "properties": {"class": code},
            "geometry": {"type": "Point", "coordinates": [x, y]},
        }
        for x, y, code in rows
    ]
    return {"type": "FeatureCollection", "features": features}


def test_the_example_of_the_paper_has_its_figures() -> None:
    found = rcell.accuracy(None, table_of(PAPER), areas_of(PAPER_HECTARES))
    assert round(found.overall, 2) == 0.95 and round(1.96 * found.overall_se, 2) == 0.02
    assert found.classes["users"].round(2).tolist() == [0.88, 0.73, 0.93, 0.96]
    assert found.classes["producers"].round(2).tolist() == [0.75, 0.85, 0.93, 0.96]
    assert round(found.classes["area_ha"][0]) == 21158
    assert round(1.96 * found.classes["area_se_ha"][0]) == 6158
    assert found.matrix.to_numpy().tolist() == PAPER and found.cells == 640


COUNTS = st.integers(0, 30) | st.just(0)


@settings(max_examples=60, deadline=None)
@given(data=st.data(), size=st.integers(1, 6))
def test_all_measures_are_as_printed(data: Any, size: int) -> None:
    matrix = [[data.draw(COUNTS) for _ in range(size)] for _ in range(size)]
    sizes = [data.draw(st.integers(1, 10**6)) if sum(row) else 0 for row in matrix]
    if not any(sizes):
        return
    found = rcell.accuracy(None, table_of(matrix), areas_of(sizes))
    expected = olofsson(matrix, sizes)
    assert found.overall == pytest.approx(expected["overall"])
    assert found.overall_se == pytest.approx(expected["overall_se"], abs=1e-9, nan_ok=True)
    assert found.overall + found.quantity + found.allocation == pytest.approx(1)
    for title in found.classes.columns[3:]:
        # The printed variance of an area is a difference, which loses digits.
        largest = sum(sizes) * 1e-7 if title == "area_se_ha" else 1e-9
        if title in expected:
            wanted = pytest.approx(expected[title], rel=1e-9, abs=largest, nan_ok=True)
            assert found.classes[title].tolist() == wanted, title


def test_a_reference_map_is_counted_cell_by_cell() -> None:
    land, reference = random_map(11, 40, 40, 4), random_map(12, 40, 40, 4, 0.9)
    both = ~np.ma.getmaskarray(land) & ~np.ma.getmaskarray(reference)
    counts = Counter(zip(land.data[both].tolist(), reference.data[both].tolist()))
    matrix = np.array([[counts[i, j] for j in range(1, 5)] for i in range(1, 5)])
    found = rcell.accuracy(placed(land), placed(reference))
    assert found.matrix.to_numpy().tolist() == matrix.tolist()
    # Kappa as defined by Cohen 1960, from numbers of cells.
    chance = (matrix.sum(axis=0) * matrix.sum(axis=1)).sum() / both.sum() ** 2
    right = np.trace(matrix) / both.sum()
    assert found.overall == pytest.approx(right)
    assert found.kappa == pytest.approx((right - chance) / (1 - chance))
    mapped = rcell.accuracy(placed(land), placed(reference), "map").classes["mapped_ha"]
    assert mapped.tolist() == rcell.composition(placed(land))["area_ha"].tolist()


def test_points_in_one_cell_count_and_points_elsewhere_do_not() -> None:
    land = rcell.Raster(masked([[1, 2], [None, 2]]), METRES, crs="EPSG:4326")
    inside = [(1005, 4995, 1), (1010, 4990, 2), (1010, 4990, 1), (1030, 4990, 2)]
    rest = [(1010, 4970, 1), (9999, 0, 1), (1030, 4990, None)]
    with pytest.warns(UserWarning) as told:
        found = rcell.accuracy(land, points(inside + rest))
    parts = "1 without a class, 1 outside the map, 1 on null cells"
    assert [str(it.message) for it in told] == [f"reference: 3 of 7 points are left out: {parts}"]
    assert found.matrix.to_numpy().tolist() == [[2, 1], [0, 1]] and found.cells == 4


def test_points_that_are_no_random_sample_have_a_warning() -> None:
    land = rcell.Raster(masked([[1] * 9 + [2]]), METRES, crs="EPSG:4326")
    common, rare = (1005, 4995, 1), (1005 + 9 * METRES[0], 4995, 2)
    told = 'shares of the map\'s classes differ .* drawn class by class, use areas="map"'
    with pytest.warns(UserWarning, match=told):
        rcell.accuracy(land, points([common] * 80 + [rare] * 80))
    with warnings.catch_warnings():
        warnings.simplefilter("error")
        rcell.accuracy(land, points([common] * 80 + [rare] * 80), "map", area=None)
        rcell.accuracy(land, points([common] * 144 + [rare] * 16))
        rcell.accuracy(land, points([common] * 3 + [rare] * 3))


def test_a_class_with_an_area_needs_a_cell_and_the_reverse() -> None:
    with pytest.raises(rcell.Refused, match="must have sample cells; got none for 3"):
        rcell.accuracy(None, table_of([[5, 0], [1, 4]]), {1: 10, 2: 10, 3: 1})
    with pytest.raises(rcell.BadArgument, match="got no area for 2"):
        rcell.accuracy(None, table_of([[5, 0], [1, 4]]), {1: 10})
    with pytest.raises(rcell.BadArgument, match="got -1 for 1"):
        rcell.accuracy(None, table_of([[5]]), {1: -1})
    with pytest.raises(rcell.Refused, match="empty"):
        rcell.accuracy(placed(masked([[1]])), placed(masked([[None]])))


def test_one_class_has_no_kappa() -> None:
    found = rcell.accuracy(None, table_of([[5]]))
    assert found.overall == 1 and found.kappa != found.kappa and found.allocation == 0


@pytest.mark.parametrize(
    ("row", "told"),
    [
        ((1, 1.5, 2), "row 1: 1.5 is not a valid class"),
        ((1, 1, -2), "row 1: the number of cells must not be negative; got -2"),
    ],
)
def test_a_row_that_is_wrong_is_named(row: Any, told: str) -> None:
    frame = pandas.DataFrame([row], columns=["map", "reference", "cells"])
    with pytest.raises(rcell.Refused, match=told):
        rcell.accuracy(None, frame)


def test_a_table_may_be_a_file(tmp_path: pathlib.Path) -> None:
    (tmp_path / "sample.csv").write_text("map,reference\n1,1\n1,2\n2,2\n,2\n")
    (tmp_path / "areas.csv").write_text("value,area\n1,10\n2,30\n")
    found = rcell.accuracy(None, tmp_path / "sample.csv", tmp_path / "areas.csv", "km2")
    assert found.matrix.to_numpy().tolist() == [[1, 1], [0, 1]]
    assert found.classes["area_km2"].tolist() == [5, 35]


# Samples


def test_a_sample_is_the_same_for_ever() -> None:
    found = rcell.sample(placed(MAPS["patchy"]), 7, seed=7)
    cells = list(zip(found["class"], found["row"], found["col"]))
    first = [(1, 1, 10), (1, 4, 29), (2, 11, 5), (2, 17, 19)]
    assert cells == [*first, (3, 23, 10), (4, 10, 16), (5, 5, 18)]
    assert found.equals(rcell.sample(placed(MAPS["patchy"]), "7", seed="7"))
    assert not found.equals(rcell.sample(placed(MAPS["patchy"]), 7, seed=8))


def test_a_sample_has_its_classes_and_places() -> None:
    land = MAPS["patchy"]
    found = rcell.sample(placed(land), 40, seed=1)
    assert found["class"].value_counts().sort_index().tolist() == [8] * 5
    rows, cols = found["row"].to_numpy() - 1, found["col"].to_numpy() - 1
    assert land[rows, cols].tolist() == found["class"].tolist()
    assert len(set(zip(rows, cols))) == 40
    assert found["x"].tolist() == (1000 + 25 * (cols + 0.5)).tolist()
    assert found["y"].tolist() == (5000 - 25 * (rows + 0.5)).tolist()
    with pytest.warns(UserWarning, match="some classes have fewer cells than requested: 1"):
        assert len(rcell.sample(placed(land), {1: 10**6}, seed=1)) == (land == 1).sum()


def test_rows_are_listed_some_at_a_time(monkeypatch: pytest.MonkeyPatch) -> None:
    found = rcell.sample(placed(MAPS["noise"]), 60, seed=1)
    monkeypatch.setattr("rcell.core.sample._MOST_LISTED", 40)
    assert found.equals(rcell.sample(placed(MAPS["noise"]), 60, seed=1))


def test_each_cell_of_a_class_is_as_likely() -> None:
    often: Counter[int] = Counter()
    for seed in range(2000):
        often.update(rcell.core.sample.drawn(f"{seed}:1", 20, 5))
    expected = 2000 * 5 / 20
    squares = sum((often[place] - expected) ** 2 / expected for place in range(20))
    assert squares < 50  # chi-squared of 19 degrees of freedom: 1 in 10,000


@pytest.mark.parametrize(
    ("words", "told"),
    [
        ({"n": 0}, "n must be a whole number from 1 to 1000000; got 0"),
        ({"n": {9: 1}}, "n must name classes that occur in the map; got 9"),
        (
            {"n": {1: 1}, "allocation": "proportional"},
            "allocation must be left out if n has a number for each class",
        ),
        (
            {"n": 5, "allocation": "odd"},
            'allocation must be "equal" or "proportional"; got \'odd\'',
        ),
        ({"n": 5, "seed": 1.5}, "seed must be a whole number or a string; got 1.5"),
    ],
)
def test_arguments_of_a_sample_are_checked(words: Any, told: str) -> None:
    with pytest.raises(rcell.BadArgument, match=told):
        rcell.sample(placed(MAPS["patchy"]), **{"seed": 1, **words})


# Decimals by zone


def test_decimals_by_zone_are_whole_numbers_of_a_scale() -> None:
    random = np.random.default_rng(4)
    heights, zones = random.normal(100, 30, (30, 20)), random.integers(1, 4, (30, 20))
    with pytest.warns(UserWarning, match="rounded to 1/100"):
        found = rcell.zonal(heights, zones, (0.25,), scale=100)
    for row in found.to_dict("records"):
        inside = np.rint(heights[zones == row["zone"]] * 100) / 100
        assert row["cells"] == inside.size
        expected = [inside.sum(), inside.mean(), inside.min(), inside.max(), inside.var()]
        expected.append(np.quantile(inside, 0.25))
        assert list(row.values())[2:] == pytest.approx(expected)


def test_decimals_without_a_scale_are_an_error_that_names_it() -> None:
    with pytest.raises(rcell.BadMap, match="row 1, column 2 is 2.5") as caught:
        rcell.zonal(np.array([[1.0, 2.5]]), np.array([[1, 1]]))
    assert caught.value.advice == "scale=100, which rounds to 1/100"
    with pytest.raises(rcell.BadMap, match="scale=1000000000 is too large: .* column 2 is 2.5"):
        rcell.zonal(np.array([[1.0, 2.5]]), np.array([[1, 1]]), scale=10**9)
    with pytest.raises(rcell.BadArgument, match="scale must be a whole number from 1"):
        rcell.zonal(np.array([[1.0, 2.5]]), np.array([[1, 1]]), scale=0.5)
