"""Test sieved maps with a cell-by-cell definition."""

from __future__ import annotations

from typing import Any

import numpy as np
import pytest

from .map_definitions import MAPS, drop, masked, patches, random_map, sieve

rcell = pytest.importorskip("rcell")

METRES = (25.0, 0.0, 1000.0, 0.0, -25.0, 5000.0)


def placed(cells: Any, crs: Any = "EPSG:32632") -> Any:
    return rcell.Raster(cells, METRES, crs=crs)


def account_of(before: Any, after: Any, fewest: int, connectivity: int) -> tuple[int, ...]:
    """Return the expected values of `sieved`."""
    sizes = [len(patch) for patch in patches(after, connectivity)]
    changed = sum(one != other for one, other in zip(sum(before, []), sum(after, [])))
    below = sum(size < fewest for size in sizes)
    return len(patches(before, connectivity)), len(sizes), changed, below


@pytest.mark.parametrize("connectivity", [4, 8])
@pytest.mark.parametrize("fewest", [1, 2, 3, 5, 9, 20, 1000])
@pytest.mark.parametrize("name", MAPS)
def test_maps_at_the_edges_are_sieved_as_defined(name: str, fewest: int, connectivity: int) -> None:
    rows = MAPS[name].tolist()
    found = rcell.sieve(placed(MAPS[name]), fewest, connectivity=connectivity)
    expected = sieve(rows, fewest, connectivity)
    assert found.array.tolist() == expected
    assert found.sieved == account_of(rows, expected, fewest, connectivity)


@pytest.mark.parametrize("seed", range(60))
def test_random_maps_are_sieved_as_defined(seed: int) -> None:
    random = np.random.default_rng(seed)
    rows, cols, classes = (int(random.integers(1, most)) for most in (15, 15, 6))
    null, grain = random.choice([0, 0.1, 0.4]), int(random.integers(1, 4))
    land = random_map(seed, rows, cols, classes, null, grain)
    connectivity, fewest = (4, 8)[seed % 2], int(random.integers(1, 30))
    found = rcell.sieve(land, fewest, connectivity=connectivity)
    assert found.array.tolist() == sieve(land.tolist(), fewest, connectivity)


@pytest.mark.parametrize("connectivity", [4, 8])
@pytest.mark.parametrize("name", MAPS)
def test_small_patches_are_left_out_on_request(name: str, connectivity: int) -> None:
    rows = MAPS[name].tolist()
    for fewest in (1, 4, 1000):
        found = rcell.sieve(placed(MAPS[name]), fewest, connectivity=connectivity, drop=True)
        expected = drop(rows, fewest, connectivity)
        assert found.array.tolist() == expected
        assert found.sieved == account_of(rows, expected, fewest, connectivity)
        assert found.sieved.patches_below == 0


def test_hectares_are_rounded_up_to_whole_cells() -> None:
    land = placed(MAPS["patchy"])
    for area, cells in ((0.0625, 1), (0.25, 4), (0.26, 5), (1e-9, 1)):
        by_area, by_cells = rcell.sieve(land, min_ha=area), rcell.sieve(land, cells)
        assert by_area.array.tolist() == by_cells.array.tolist()


def test_labels_and_colours_are_those_of_the_map() -> None:
    land = rcell.Raster([[1, 1, 2, 3]], labels={1: "wood"}, colors={1: "#102030"})
    found = rcell.sieve(land, 2)
    assert found.array.tolist() == [[1, 1, 1, 1]]
    assert (found.labels, found.colors, found.name) == ({1: "wood"}, {1: "#102030"}, "sieved")
    assert found.aligned is None and land.sieved is None


@pytest.mark.parametrize(
    ("words", "told"),
    [
        ({}, "min_cells or min_ha must be given; got neither"),
        ({"min_cells": 2, "min_ha": 1}, "min_cells or min_ha must be given; got both"),
        ({"min_cells": 0}, "min_cells must be a whole number, at least 1; got 0"),
        ({"min_cells": 2.5}, "min_cells must be a whole number, at least 1; got 2.5"),
        ({"min_ha": -1}, "min_ha must be a number above 0; got -1"),
        ({"min_ha": "1"}, "min_ha must be a number above 0; got '1'"),
        ({"min_ha": 1}, "min_ha requires a coordinate .* crs=.EPSG:25832."),
        ({"min_ha": 1, "crs": "EPSG:4326"}, "min_ha requires a map in metres .*: use"),
        ({"min_cells": 2, "connectivity": 6}, "connectivity must be 4 or 8; got 6"),
    ],
)
def test_sizes_that_are_refused(words: Any, told: str) -> None:
    with pytest.raises(rcell.BadArgument, match=told):
        rcell.sieve(masked([[1, 2]]), **words)
