# SPDX-License-Identifier: Apache-2.0 OR GPL-2.0-or-later
"""Compare Dask arrays and Zarr stores with the same cells in memory."""

from __future__ import annotations

import pathlib
from typing import Any

import numpy as np
import pytest
from hypothesis import given, settings
from hypothesis import strategies as st

import rcell
from rcell.core import tiling
from tests.test_any_size import EXPRESSIONS, NO_CELL, as_tiles, check_equal, cut_maps

dask: Any = pytest.importorskip("dask.array")
xarray: Any = pytest.importorskip("xarray")
import rcell.xarray  # noqa: E402, F401

some = settings(max_examples=15, deadline=None)
CELLS = np.random.default_rng(8).choice([1, 1, 1, 2, 3, 200], (40, 31)).astype(np.uint8)
NULL = -2147483648


def array_of(cells: Any, chunks: Any, name: str = "lc", nodata: Any = NO_CELL) -> Any:
    """Return a Dask DataArray on a grid with cells of 25 x 50."""
    rows, cols = cells.shape
    place = xarray.Variable((), 0, {"GeoTransform": "1000 25 0 5000 0 -50"})
    centres = {"y": 5000 - 50 * (np.arange(rows) + 0.5), "x": 1000 + 25 * (np.arange(cols) + 0.5)}
    lazy = dask.from_array(cells, chunks=chunks)
    coordinates = {**centres, "spatial_ref": place}
    return xarray.DataArray(lazy, coordinates, ("y", "x"), name, {"_FillValue": nodata})


def in_memory(cells: Any, nodata: Any = NO_CELL) -> rcell.Raster:
    return rcell.Raster(cells, (25, 0, 1000, 0, -50, 5000), nodata=nodata)


@some
@given(case=cut_maps(), expression=EXPRESSIONS, chunks=st.tuples(*[st.integers(1, 5)] * 2))
def test_expressions_are_lazy_and_equal_one_run(case: Any, expression: str, chunks: Any) -> None:
    first, second, _ = case
    script = f"r.mapcalc y = {expression}\nr.mapcalc x = y[1,-1] + y"
    expected = rcell.grid(script, "x", a=in_memory(first), b=in_memory(second))
    lazy = array_of(first, chunks, "a")
    found = lazy.rcell.grid(script, b=array_of(second, -1, "b"))
    assert found.chunks == lazy.chunks and found.dtype == np.int32
    assert found.attrs["_FillValue"] == NULL and found.x.equals(lazy.x)
    computed = found.compute(scheduler="sync")
    assert computed.values.tolist() == expected.array.filled(NULL).tolist()


@some
@given(case=cut_maps(), chunks=st.tuples(*[st.integers(1, 5)] * 2))
def test_answers_of_chunks_equal_one_run(case: Any, chunks: Any) -> None:
    first, second, size = case
    lazy, whole = array_of(first, chunks), in_memory(first)
    check_equal(as_tiles(lambda: rcell.patches(lazy), size), rcell.patches(whole))
    check_equal(
        as_tiles(lambda: rcell.cross(a=lazy, b=array_of(second, -1)), size),
        rcell.cross(a=whole, b=in_memory(second)),
    )
    clumps = as_tiles(lambda: lazy.rcell.clump(), size)
    assert clumps.values.tolist() == rcell.clump(whole).array.filled(NULL).tolist()


def test_lazy_maps_have_labels_and_go_on_to_zarr(tmp_path: pathlib.Path) -> None:
    pytest.importorskip("zarr")
    rules = "r.reclass input=lc output=wood\n1 thru 3 = 1 wood\nend"
    found = array_of(CELLS, (16, 10), nodata=200).rcell.grid(rules)
    assert found.attrs["flag_meanings"] == "wood"
    path = str(tmp_path / "wood.zarr")
    found.to_dataset(name="wood").to_zarr(path)
    wood = rcell.Raster(
        np.where(CELLS == 200, 0, 1), (25, 0, 1000, 0, -50, 5000), nodata=0, labels={1: "wood"}
    )
    expected = rcell.composition(wood)
    check_equal(rcell.composition(path), expected)
    check_equal(as_tiles(lambda: rcell.composition(path), (7, 30)), expected)


def test_patches_of_lazy_arrays_stay_lazy() -> None:
    lazy = array_of(CELLS, (16, 10), nodata=200)
    found = lazy.rcell.grid("r.clump input=lc output=k\nr.mapcalc x = k[0,1] + 1")
    assert found.chunks == lazy.chunks
    whole = in_memory(CELLS, nodata=200)
    expected = rcell.grid("r.clump input=lc output=k\nr.mapcalc x = k[0,1] + 1", "x", lc=whole)
    assert found.values.tolist() == expected.array.filled(NULL).tolist()
    large = lazy.rcell.clump(min_cells=5)
    assert large.chunks is None
    assert large.values.tolist() == rcell.clump(whole, min_cells=5).array.filled(NULL).tolist()


TABLES: dict[str, Any] = {
    "composition": lambda a, b, **words: rcell.composition(a, b, **words),
    "cross": lambda a, b, **words: rcell.cross(a=a, b=b, **words),
    "change": lambda a, b, **words: rcell.change(a, b, **words),
    "series": lambda a, b, **words: rcell.change([a, b, a], years=[1, 2, 3], **words),
    "zonal": lambda a, b, **words: rcell.zonal(a, b, **words),
    "adjacency": lambda a, b, **words: rcell.adjacency(a, **words),
    "dominant": lambda a, b, **words: rcell.dominant(a, b, **words),
    "patches": lambda a, b, **words: rcell.patches(a, 8, zones=b, **words),
    "summary": lambda a, b, **words: rcell.patches(a, summary="class", **words),
    "metrics": lambda a, b, **words: rcell.metrics(a, "class", **words),
    "table": lambda a, b, **words: rcell.table("r.stats -l input=a,b", a=a, b=b, **words),
}


@pytest.mark.filterwarnings("ignore::UserWarning")
@pytest.mark.parametrize("name", TABLES)
def test_tables_left_to_dask(name: str) -> None:
    from dask.delayed import Delayed

    second = np.roll(CELLS, 7)
    found = TABLES[name](array_of(CELLS, (16, 10)), array_of(second, (9, -1)), compute=False)
    assert isinstance(found, Delayed)
    expected = TABLES[name](in_memory(CELLS), in_memory(second))
    check_equal(found.compute(scheduler="threads"), expected)


MAPS: dict[str, Any] = {
    "majority": lambda a, **words: rcell.majority(a, 5, **words),
    "reclass": lambda a, **words: rcell.reclass(a, {(1, 2): 7}, other="keep", **words),
    "clump": lambda a, **words: rcell.clump(a, 8, **words),
    "within": lambda a, **words: rcell.within(a, [3], [50], crs="EPSG:32632", **words),
    "grid": lambda a, **words: rcell.grid("r.mapcalc x = row() * a[0,2]", "x", a=a, **words),
}


@pytest.mark.filterwarnings("ignore::UserWarning")
@pytest.mark.parametrize("name", MAPS)
def test_maps_left_to_dask(name: str, raster: Any) -> None:
    lazy = array_of(CELLS, (16, 10), nodata=200)
    expected = MAPS[name](in_memory(CELLS, nodata=200))
    found = MAPS[name](lazy, compute=False)
    assert found.chunks == lazy.chunks and found.x.equals(lazy.x)
    assert found.values.tolist() == expected.array.filled(NULL).tolist()
    path = raster(CELLS, nodata=200, transform=(25.0, 0.0, 1000.0, 0.0, -50.0, 5000.0))
    with tiling.working(size=(13, 31)):
        of_file = MAPS[name](path, compute=False)
    assert of_file.chunks == ((13, 13, 13, 1), (31,))
    assert of_file.values.tolist() == found.values.tolist()


def test_a_buffer_left_to_dask_may_be_longer_than_the_map() -> None:
    raster = rcell.Raster([[3, 1, 1], [1, 1, 1]], (10, 0, 0, 0, -10, 10), crs="EPSG:32632")
    lazy = raster.to_xarray().chunk({"y": 1, "x": 2})
    found = rcell.within(lazy, [3], [15, 90], compute=False)
    whole = rcell.within(raster, [3], [15, 90])
    assert found.compute().to_numpy().tolist() == whole.array.tolist()


def test_what_cannot_be_left_to_dask() -> None:
    lazy = array_of(CELLS, (16, 10), nodata=200)
    calls: tuple[tuple[Any, str], ...] = (
        (
            lambda: rcell.sieve(lazy, min_cells=3, compute=False),
            "cannot compute the result of sieve",
        ),
        (lambda: rcell.reclass(lazy, {1: 2}, compute=False), "this map depends on a table"),
        (lambda: rcell.clump(lazy, classes=[1], compute=False), "this map depends on a table"),
        (
            lambda: rcell.table("r.stats -1 input=a", a=lazy, compute=False),
            "r.stats -1 lists cells",
        ),
        (lambda: rcell.composition(lazy, compute=False, workers=2), "workers must be left out"),
        (lambda: rcell.composition(lazy, compute=False, resume="a"), "resume must be left out"),
    )
    for call, told in calls:
        with pytest.raises(rcell.BadArgument, match=told):
            call()


def test_tables_of_lazy_arrays() -> None:
    lazy = array_of(CELLS, (16, 10), nodata=200)
    script = "r.mapcalc edge = lc != lc[0,1]\nr.stats -c input=edge,lc"
    check_equal(
        as_tiles(lambda: lazy.rcell.table(script, workers=3), (16, 20)),
        rcell.table(script, lc=in_memory(CELLS, nodata=200)),
    )


def test_chunks_that_are_not_what_dask_announced() -> None:
    wrong = array_of(CELLS, (16, 10)).copy()
    wrong.data = wrong.data.map_blocks(lambda block: block.astype(np.int16), dtype=np.uint16)
    with pytest.raises(rcell.BadMap, match="type int16, but Dask expected uint16"):
        wrong.rcell.grid("x = lc").compute(scheduler="sync")
    with pytest.raises(rcell.BadMap, match="type int16, but Dask expected uint16"):
        as_tiles(lambda: rcell.composition(wrong), (16, 10))


def test_stores_of_several_maps_and_none(tmp_path: pathlib.Path) -> None:
    pytest.importorskip("zarr")
    both = xarray.Dataset({name: (("y", "x"), CELLS) for name in ("a", "b")})
    path = str(tmp_path / "both.zarr")
    both.to_zarr(path)
    with pytest.raises(
        rcell.BadMap, match=r"the store must have one map; got 2 \(a, b\): pass one of them"
    ):
        rcell.composition(path)
    with pytest.raises(rcell.ReadFailed, match="cannot open: nowhere.zarr"):
        rcell.composition("nowhere.zarr")
