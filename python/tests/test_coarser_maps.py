"""Test coarser maps and class shares with a cell-by-cell definition."""

from __future__ import annotations

import math
import pathlib
from typing import Any

import numpy as np
import pytest

from .map_definitions import MAPS, aggregate, masked, random_map

rcell = pytest.importorskip("rcell")


@pytest.mark.parametrize("factor", [1, 2, 3, 5, 40])
@pytest.mark.parametrize("min_percent", [0, 50, 100])
@pytest.mark.parametrize("name", MAPS)
def test_blocks_are_as_defined(name: str, factor: int, min_percent: float) -> None:
    land = MAPS[name]
    found = rcell.aggregate(land, factor, min_percent)
    majority, shares = aggregate(land.tolist(), factor, min_percent)
    assert found.majority.array.tolist() == majority
    for (at, row, col), percent in np.ndenumerate(found.shares.percent):
        absent = math.nan if majority[row][col] is None else 0.0
        expected = shares.get((found.shares.classes[at], row, col), absent)
        assert percent == pytest.approx(expected, rel=1e-12, nan_ok=True)


def test_a_coarser_map_keeps_its_corner_labels_and_system() -> None:
    land = rcell.Raster(
        [[1, 1, 2], [3, 1, 2]], (30, 0, 100, 0, -10, 50), "EPSG:32632", labels={1: "wood"}
    )
    found = rcell.aggregate(land, 2)
    assert found.majority.transform == (60, 0, 100, 0, -20, 50)
    assert found.majority.bounds == (100, 30, 220, 50)
    assert (found.majority.labels, found.majority.crs) == ({1: "wood"}, "EPSG:32632")
    assert found.cells.array.tolist() == [[4, 2]] and found.cells.labels == {}
    assert found.shares[1].tolist() == [[75.0, 0.0]]
    assert found.shares.names == ["wood", "2", "3"]
    assert rcell.composition(found.majority, area="m2")["area_m2"].tolist() == [1200.0, 1200.0]


def test_shares_of_two_classes_with_one_label_are_told_apart() -> None:
    land = rcell.Raster([[1, 2], [3, 3]], labels={1: "wood", 2: "wood", 3: "town"})
    assert rcell.aggregate(land, 2).shares.names == ["wood (1)", "wood (2)", "town"]


def test_shares_are_written_as_bands(tmp_path: pathlib.Path) -> None:
    rasterio = pytest.importorskip("rasterio")
    land = random_map(5, 20, 30, 3, 0.4, 4)
    shares = rcell.aggregate(rcell.Raster(land, labels={2: "wood"}), 4, 70).shares
    path = shares.write(tmp_path / "shares.tif")
    with rasterio.open(path) as file:
        assert file.descriptions == ("1", "wood", "3")
        assert np.array_equal(file.read(), shares.percent, equal_nan=True)
        assert math.isnan(file.nodata)
    assert np.nansum(shares.percent, axis=0)[~np.isnan(shares.percent[0])] == pytest.approx(100)


def test_shares_that_cannot_be_written(tmp_path: pathlib.Path) -> None:
    shares = rcell.aggregate(MAPS["patchy"], 4).shares
    with pytest.raises(rcell.BadArgument, match="path must end in .tif or .tiff; got '.*png'"):
        shares.write(tmp_path / "shares.png")
    with pytest.raises(rcell.BadArgument, match="class must be one of 1, 2, 3, 4, 5; got 77"):
        shares[77]
    with pytest.raises(rcell.BadMap, match="there are no classes: all cells are null"):
        rcell.aggregate(MAPS["null"], 2).shares.write(tmp_path / "shares.tif")
    land = rcell.Raster(MAPS["patchy"]).write(tmp_path / "land.tif")
    with pytest.raises(rcell.Refused):
        rcell.aggregate(land, 2).shares.write(land)
    assert sorted(path.name for path in tmp_path.iterdir()) == ["land.tif"]


@pytest.mark.parametrize(
    ("words", "told"),
    [
        ({"factor": 0}, "factor must be a whole number from 1 to 2147483647; got 0"),
        ({"factor": 2.0}, "factor must be a whole number from 1 to 2147483647; got 2.0"),
        ({"factor": 2, "min_percent": -1}, "min_percent must be a number from 0 to 100; got -1"),
        (
            {"factor": 2, "min_percent": "50"},
            "min_percent must be a number from 0 to 100; got '50'",
        ),
    ],
)
def test_blocks_that_are_refused(words: Any, told: str) -> None:
    with pytest.raises(rcell.BadArgument, match=told):
        rcell.aggregate(masked([[1, 2]]), **words)
