"""Compare trajectories of classes with a simple count of sequences."""

from __future__ import annotations

from collections import Counter
from typing import Any

import numpy as np
import pytest

from .map_definitions import masked, random_map, steps_of

rcell = pytest.importorskip("rcell")
pandas = pytest.importorskip("pandas")

DEGREES = (0.1, 0.0, 5.0, 0.0, -0.1, 50.0)


def series(count: int) -> list[Any]:
    """Return maps of `count` years, in which some cells change each year."""
    random = np.random.default_rng(count)
    maps = [random_map(20, 12, 13, 4, 0.05, 3)]
    for _ in range(count - 1):
        moved = random.random(maps[0].shape) < 0.1
        maps.append(np.ma.where(moved, random.integers(1, 5, maps[0].shape), maps[-1]))
    return maps


def ways_of(maps: list[Any]) -> list[tuple[Any, ...]]:
    """Return the sequence of classes of each cell."""
    return list(zip(*(sum(cells.tolist(), []) for cells in maps)))


@pytest.mark.parametrize("crs", [None, "EPSG:4326"])
@pytest.mark.parametrize("count", [2, 5, 15, 16, 17, 60])
def test_sequences_are_counted_for_any_number_of_dates(count: int, crs: Any) -> None:
    maps = series(count)
    years = list(range(1900, 1900 + 2 * count, 2))
    rasters = [rcell.Raster(cells, DEGREES, crs) for cells in maps]
    found = rcell.trajectories(rasters, years)
    expected = Counter(way for way in ways_of(maps) if None not in way)
    keys = [f"class_{year}" for year in years]
    rows = found.table[[*keys, "cells"]].itertuples(index=False, name=None)
    assert [(row[:-1], row[-1]) for row in rows] == sorted(expected.items())
    for row in found.table.to_dict("records"):
        way = [row[key] for key in keys]
        steps = steps_of(way, years)
        assert (row["changes"], row["classes"]) == (len(steps), len(set(way)))
        assert not steps or (row["first_change"], row["last_change"]) == (steps[0], steps[-1])
        assert steps or (pandas.isna(row["first_change"]) and pandas.isna(row["last_change"]))
    assert found.table["percent"].sum() == pytest.approx(100)


@pytest.mark.parametrize("count", [2, 5, 60, 110])
def test_maps_have_the_changes_of_cells_that_are_null_in_no_year(count: int) -> None:
    maps = series(count)
    maps[-1] = np.ma.MaskedArray(maps[-1], mask=np.random.default_rng(1).random((12, 13)) < 0.2)
    years = list(range(-50, count - 50))
    found = rcell.trajectories(maps, years, include_maps=True)
    steps = [None if None in way else steps_of(way, years) for way in ways_of(maps)]
    for name, of in (
        ("changes", len),
        ("first_change", lambda years: years[0] if years else None),
        ("last_change", lambda years: years[-1] if years else None),
    ):
        expected = [None if years is None else of(years) for years in steps]
        assert sum(found.maps[name].array.tolist(), []) == expected
    assert rcell.trajectories(maps, years).maps == {}


@pytest.mark.parametrize("crs", [None, "EPSG:4326"])
def test_changes_and_intervals_are_sums_of_the_table(crs: Any) -> None:
    maps = [rcell.Raster(cells, DEGREES, crs) for cells in series(4)]
    years = [1990, 2000, 2006, 2018]
    found = rcell.trajectories(maps, years)
    by_changes = found.table.groupby("changes")[["cells", "percent"]].sum().reset_index()
    for title in ("changes", "cells", "percent"):
        assert found.changes[title].tolist() == pytest.approx(by_changes[title].tolist())
    for row, year, following in zip(found.intervals.to_dict("records"), years, years[1:]):
        moved = found.table[found.table[f"class_{year}"] != found.table[f"class_{following}"]]
        assert (row["year_from"], row["year_to"]) == (year, following)
        assert row["cells"] == moved["cells"].sum()
        assert row["percent"] == pytest.approx(moved["percent"].sum())
        assert row["percent_year"] == pytest.approx(row["percent"] / (following - year))
    uniform = found.intervals["percent"].sum() / 28
    assert found.intervals["uniform_percent_year"].tolist() == pytest.approx([uniform] * 3)


def test_two_dates_are_those_of_change() -> None:
    maps = [
        rcell.Raster(cells, (25, 0, 0, 0, -25, 0), "EPSG:32632", labels={1: "wood"})
        for cells in series(2)
    ]
    change, found = rcell.change(maps, years=[2000, 2010]).table, rcell.trajectories(
        maps, [2000, 2010]
    )
    for title, other in (
        ("from", "class_2000"),
        ("from_label", "label_2000"),
        ("to", "class_2010"),
        ("cells", "cells"),
        ("area_ha", "area_ha"),
        ("percent", "percent"),
    ):
        assert change[title].equals(found.table[other])


def test_labels_are_those_of_a_legend_or_of_the_first_map_that_has_some() -> None:
    maps = [rcell.Raster([[1, 2]]), rcell.Raster([[2, 2]], labels={1: "wood", 2: "water"})]
    found = rcell.trajectories(maps, [1, 2]).table
    assert found["label_1"].tolist() == ["wood", "water"]
    found = rcell.trajectories(maps, [1, 2], labels={1: "a", 2: "b"}).table
    assert found["label_2"].tolist() == ["b", "b"]


def test_a_data_array_has_its_own_years() -> None:
    xarray = pytest.importorskip("xarray")
    cells = np.array([[[1, 1]], [[1, 2]], [[2, 2]]])
    array = xarray.DataArray(cells, dims=("time", "y", "x"), coords={"time": [2000, 2010, 2020]})
    found = rcell.trajectories(array)
    assert found.table["first_change"].tolist() == [2020, 2010]


def test_maps_without_a_cell_have_no_rows() -> None:
    null = masked([[None, None]])
    found = rcell.trajectories([null, null], [1, 2], include_maps=True)
    assert len(found.table) == len(found.changes) == 0
    assert found.intervals["cells"].tolist() == [0] and found.intervals["percent"].isna().all()
    assert found.maps["changes"].array.tolist() == [[None, None]]


@pytest.mark.parametrize(
    ("count", "years", "told"),
    [
        (1, [2000], "maps must be a list of two or more maps; got 1"),
        (2, None, "years must be ascending, one for each map; got none"),
        (2, [2010, 2000], "years must be ascending, one for each map; got 2010, 2000"),
        (2, [2000, 2000], "years must differ; got 2000 twice"),
        (3, [2000, 2010], "years must list one year for each map; got 2 for 3 maps"),
        (300, range(300), "maps must list at most 240 maps for 4 classes; got 300"),
    ],
)
def test_years_that_are_refused(count: int, years: Any, told: str) -> None:
    with pytest.raises(rcell.BadArgument, match=told):
        rcell.trajectories(series(2) * (count // 2) + series(1) * (count % 2), years)
