"""Test buffers with a cell-by-cell definition."""

from __future__ import annotations

from typing import Any

import pytest

from .map_definitions import MAPS, masked, within

rcell = pytest.importorskip("rcell")

SQUARE = (25.0, 0.0, 1000.0, 0.0, -25.0, 5000.0)
OBLONG = (30.0, 0.0, 0.0, 0.0, -10.0, 0.0)
DISTANCES = ([1], [25], [25, 50], [35.4, 60], [90, 100, 130])


def placed(cells: Any, transform: Any = SQUARE, crs: Any = "EPSG:32632") -> Any:
    return rcell.Raster(cells, transform, crs=crs)


@pytest.mark.parametrize("transform", [SQUARE, OBLONG])
@pytest.mark.parametrize("distances", DISTANCES)
@pytest.mark.parametrize("name", MAPS)
def test_rings_are_as_defined(name: str, distances: Any, transform: Any) -> None:
    found = rcell.within(placed(MAPS[name], transform), [1, 4], distances)
    expected = within(MAPS[name].tolist(), [1, 4], distances, transform[0], -transform[4])
    assert found.array.tolist() == expected


def test_distances_are_in_metres_on_maps_in_feet() -> None:
    land = placed([[7, 1, 1, 1]], (100, 0, 0, 0, -100, 0), "EPSG:2263")
    found = rcell.within(land, [7], [30, 61])
    assert found.array.tolist() == [[0, 2, 2, None]]
    assert found.labels == {0: "inside", 1: "up to 30 m", 2: "30 to 61 m"}


def test_one_class_and_one_distance_are_numbers() -> None:
    land = placed([[7, 1, 1, 1]], (10, 0, 0, 0, -10, 0))
    found, listed = rcell.within(land, 7, 10), rcell.within(land, [7], [10])
    assert found.array.tolist() == listed.array.tolist() == [[0, 1, None, None]]
    assert found.labels == listed.labels == {0: "inside", 1: "up to 10 m"}


def test_a_distance_on_the_limit_is_within() -> None:
    land = placed([[7, 1, 1, 1]], (0.1, 0, 0, 0, -0.1, 0))
    assert rcell.within(land, [7], [0.1, 0.2]).array.tolist() == [[0, 1, 2, None]]


@pytest.mark.parametrize(
    ("classes", "distances", "told"),
    [
        ([], [10], r"classes must be a list of whole numbers; got \[\]"),
        (None, [10], "classes must be a list of whole numbers; got None"),
        ([1.5], [10], "classes must be whole numbers from .*; got 1.5"),
        ([1], [], "distances must have at least one number; got none"),
        ([1], "10", "distances must be a list of numbers, .*; got '10'"),
        ([1], [10, 10], "distances must be ascending numbers above 0; got 10"),
        ([1], [0], "distances must be ascending numbers above 0; got 0"),
        ([1], ["10"], "distances must be ascending numbers above 0; got '10'"),
        ([1], [1e9], "distances must be at most 255 cells; got 1000000000 m, which is 40000000.0 "),
    ],
)
def test_classes_and_distances_that_are_refused(classes: Any, distances: Any, told: str) -> None:
    with pytest.raises(rcell.BadArgument, match=told):
        rcell.within(placed(masked([[1, 2]])), classes, distances)


def test_a_map_without_metres_is_refused() -> None:
    for crs, told in (
        (None, "requires a coordinate reference system"),
        ("EPSG:4326", "in degrees"),
    ):
        with pytest.raises(rcell.BadArgument, match=told):
            rcell.within(placed([[1, 2]], (0.1, 0, 5, 0, -0.1, 5), crs), [1], [10])
