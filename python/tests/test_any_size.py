# SPDX-License-Identifier: Apache-2.0 OR GPL-2.0-or-later
"""Test that tiles have the same tables, cells, errors and warnings as one run."""

from __future__ import annotations

import io
import os
import pathlib
import signal
import subprocess
import sys
import threading
import time
from collections.abc import Callable
from typing import Any

import numpy as np
import pytest
from hypothesis import given, settings
from hypothesis import strategies as st
from hypothesis.extra.numpy import arrays

import rcell
from rcell.core import memory, tile_tables, tiling
from rcell.core.host import Host, serving
from rcell.core.protocol import NULL
from rcell.core.rectangles import NO_MARGIN
from rcell.core.sources import ArrayMap

Write = Callable[..., str]

METRES: dict[str, Any] = {"transform": (10, 0, 500_000, 0, -20, 5_500_000), "crs": "EPSG:32632"}
DEGREES: dict[str, Any] = {"transform": (0.1, 0, 7, 0, -0.1, 53), "crs": "EPSG:4326"}
NO_CELL = -9
# A longer run: RCELL_MORE=40 python3 -m pytest tests/test_any_size.py
MORE = int(os.environ.get("RCELL_MORE", "1"))

some = settings(max_examples=12 * MORE, deadline=None)


def as_tiles(call: Callable[[], Any], size: tuple[int, int], workers: int = 2) -> Any:
    with tiling.working(workers=workers, size=size):
        return call()


def check_equal(found: Any, expected: Any) -> None:
    """Assert that DataFrames, Rasters, or lists of them are equal."""
    if isinstance(expected, rcell.Raster):
        assert found.array.dtype == expected.array.dtype
        assert np.array_equal(np.ma.getmaskarray(found.array), np.ma.getmaskarray(expected.array))
        assert found.array.tolist() == expected.array.tolist()
        assert (found.labels, found.colors) == (expected.labels, expected.colors)
        assert (found.region, found.transform) == (expected.region, expected.transform)
    elif hasattr(expected, "columns"):
        assert list(found.columns) == list(expected.columns)
        assert found.dtypes.tolist() == expected.dtypes.tolist()
        exact = [name for name in expected.columns if expected[name].dtype != np.float64]
        assert found[exact].equals(expected[exact])
        for name in set(expected.columns) - set(exact):
            assert found[name].to_numpy() == pytest.approx(
                expected[name].to_numpy(), rel=1e-12, nan_ok=True
            )
    else:
        assert len(found) == len(expected)
        for one, other in zip(found, expected):
            check_equal(one, other)


@st.composite
def cut_maps(draw: st.DrawFn, most: int = 8) -> tuple[Any, Any, tuple[int, int]]:
    """Draw two maps with the same shape, and a tile size."""
    shape = draw(st.tuples(st.integers(1, most), st.integers(1, most)))
    elements = st.sampled_from([1, 1, 2, 3, 300, NO_CELL])
    first, second = (draw(arrays(np.int16, shape, elements=elements)) for _ in range(2))
    return first, second, draw(st.tuples(st.integers(1, most), st.integers(1, most)))


OFFSETS = st.integers(-3, 3)
TERMS = st.one_of(
    st.sampled_from(["a", "b", "row()", "col()", "nrows()", "ncols()", "7", "null()"]),
    st.builds("{}[{},{}]".format, st.sampled_from("ab"), OFFSETS, OFFSETS),
)
EXPRESSIONS = st.recursive(
    TERMS,
    lambda inner: st.one_of(
        st.builds(
            "({} {} {})".format,
            inner,
            st.sampled_from("+ - * / % == < &&& |||".split()),
            inner,
        ),
        st.builds("if({}, {}, {})".format, inner, inner, inner),
        st.builds("{}({}, {})".format, st.sampled_from(["nmode", "nmax", "min"]), inner, inner),
        st.builds("isnull({})".format, inner),
    ),
    max_leaves=6,
)


@some
@given(
    case=cut_maps(),
    expression=EXPRESSIONS,
    flags=st.sampled_from(["-c", "-cn", "-cN", "-cl", "-l", "-n", ""]),
    after=st.sampled_from(["", " after=2,1", " after=1,*"]),
    inputs=st.sampled_from(["a,x", "y,b", "x,y", "a,b", "k,x", "x,k"]),
    diagonal=st.sampled_from(["", "-d "]),
)
def test_scripts(
    case: Any, expression: str, flags: str, after: str, inputs: str, diagonal: str
) -> None:
    """Test offsets, positions, rules, patches of computed maps, and patch numbers."""
    first, second, size = case
    maps = {
        "a": rcell.Raster(first, nodata=NO_CELL),
        "b": rcell.Raster(second, nodata=NO_CELL),
    }
    script = (
        f"r.mapcalc x = {expression}\nr.reclass input=x output=y\n1 thru 3 = 1 few\n4 thru 9 = "
        "2\n* = 3 many\nend\n"
        f"r.clump {diagonal}input=y output=p\nr.mapcalc k = p[0,1] - p\n"
        f"r.stats {flags} input={inputs}{after}\nr.out.ascii input=k\nr.out.ascii "
        "input=x\nr.stats -c input=p,a"
    )
    check_equal(as_tiles(lambda: rcell.run(script, maps), size), rcell.run(script, maps))


def _polygons(rows: int, cols: int, place: dict[str, Any]) -> Any:
    """Return three polygons on the map, of which two overlap."""
    geopandas = pytest.importorskip("geopandas")
    from shapely.geometry import Polygon

    width, _, west, _, height, north = place["transform"]

    def shape(*corners: tuple[float, float]) -> Any:
        return Polygon([(west + width * col, north + height * row) for row, col in corners])

    shapes = [
        shape((0, 0), (0, cols * 0.7), (rows, 0)),
        shape(
            (rows * 0.2, cols * 0.3),
            (rows * 0.2, cols),
            (rows, cols),
            (rows, cols * 0.3),
        ),
        shape((0, cols * 0.8), (0, cols), (rows * 0.1, cols)),
    ]
    return geopandas.GeoDataFrame(
        {"name": ["b", "a", "b"]}, geometry=shapes, crs=place["crs"], index=[5, 7, 9]
    )


ANSWERS: dict[str, Callable[[Any, Any, Any], Any]] = {
    "composition": lambda a, b, zones: rcell.composition(a),
    "with null": lambda a, b, zones: rcell.composition(a, b, include_null=True),
    "by polygons": lambda a, b, zones: rcell.composition(a, zones, zone_field="name"),
    "by each polygon": lambda a, b, zones: rcell.composition(a, zones, each=True),
    "cross": lambda a, b, zones: rcell.cross(a=a, b=b),
    "change": lambda a, b, zones: list(rcell.change(a, b)),
    "zonal": lambda a, b, zones: rcell.zonal(b, a),
    "zonal of decimals": lambda a, b, zones: rcell.zonal(
        rcell.Raster(b.array.astype(float).filled(np.nan) / 8, b.transform, b.crs), a, scale=100
    ),
    "zonal of polygons": lambda a, b, zones: rcell.zonal(b, zones),
    "adjacency": lambda a, b, zones: rcell.adjacency(a),
    "patches": lambda a, b, zones: rcell.patches(a),
    "patches by corners": lambda a, b, zones: rcell.patches(a, 8, core_depth=2),
    "some patches": lambda a, b, zones: rcell.patches(a, classes=[1, 300], min_cells=3, area=None),
    "summary of patches": lambda a, b, zones: rcell.patches(a, summary="class"),
    "summary of some": lambda a, b, zones: rcell.patches(
        b, 8, summary="class", classes=[1, 3], min_cells=2, area=None
    ),
    "patches by zone": lambda a, b, zones: rcell.patches(a, zones=b),
    "patches by polygon": lambda a, b, zones: rcell.patches(a, 8, zones=zones, zone_field="name"),
    "majority": lambda a, b, zones: rcell.majority(a),
    "wide majority": lambda a, b, zones: rcell.majority(b, 7, fill=True),
    "reclass": lambda a, b, zones: rcell.reclass(a, {(1, 2): 7, 3: None}, other="keep"),
    "dominant": lambda a, b, zones: rcell.dominant(a, b),
    "accuracy": lambda a, b, zones: list(rcell.accuracy(a, b))[:2],
    "metrics": lambda a, b, zones: rcell.metrics(a, "class", 8),
    "metrics by zone": lambda a, b, zones: rcell.metrics(a, "landscape", zones=b),
    "metrics of patches": lambda a, b, zones: rcell.metrics(a, "patch", zones=zones, each=True),
    "sample": lambda a, b, zones: rcell.sample(a, 20, "seed"),
    "sieve": lambda a, b, zones: rcell.sieve(a, min_cells=4),
    "sieve by corners": lambda a, b, zones: rcell.sieve(b, min_cells=4, connectivity=8),
    "within": lambda a, b, zones: rcell.within(a, [300], [25, 50]),
    "aggregate": lambda a, b, zones: list(rcell.aggregate(a, factor=3))[::2],
    "trajectories": lambda a, b, zones: rcell.trajectories([a, b, a], years=[1, 2, 3]),
    "clump": lambda a, b, zones: rcell.clump(a),
    "large clumps": lambda a, b, zones: rcell.clump(b, 8, min_cells=3),
    "clumps of classes": lambda a, b, zones: rcell.clump(b, classes=[2]),
}


@pytest.mark.filterwarnings("ignore::UserWarning")
@pytest.mark.parametrize("name", ANSWERS)
@pytest.mark.parametrize("place", [METRES, DEGREES], ids=["metres", "degrees"])
def test_answers(name: str, place: dict[str, Any]) -> None:
    random = np.random.default_rng(len(name))
    for _ in range(2 * MORE):
        shape = tuple(random.integers(2, 13, 2))
        a, b = (
            rcell.Raster(
                random.choice([1, 1, 1, 2, 3, 300, NO_CELL], shape).astype(np.int16),
                nodata=NO_CELL,
                labels={1: "wood", 300: "lake"},
                **place,
            )
            for _ in range(2)
        )
        zones = _polygons(int(shape[0]), int(shape[1]), place)
        call = ANSWERS[name]
        try:
            expected = call(a, b, zones)
        except rcell.RcellError as error:
            with pytest.raises(type(error), match=str(error).split("\n")[0][:40]):
                as_tiles(lambda: call(a, b, zones), (4, 7))
            continue
        for size in ((4, 7), (13, 5)):
            check_equal(as_tiles(lambda: call(a, b, zones), size), expected)


@pytest.mark.parametrize("place", [METRES, DEGREES], ids=["metres", "degrees"])
def test_a_summary_is_the_summary_of_the_patches(place: dict[str, Any]) -> None:
    cells = np.random.default_rng(12).choice([1, 1, 2, 3, NO_CELL], (40, 30)).astype(np.int16)
    raster = rcell.Raster(cells, nodata=NO_CELL, **place)
    grouped = rcell.patches(raster, 8).groupby("class")
    found = rcell.patches(raster, 8, summary="class").set_index("class")
    assert found.patches.tolist() == grouped.size().tolist()
    assert found.cells.tolist() == grouped.cells.sum().tolist()
    for name, expected in (
        ("area_ha", grouped.area_ha.sum()),
        ("largest_ha", grouped.area_ha.max()),
        ("mean_ha", grouped.area_ha.mean()),
    ):
        assert found[name].tolist() == pytest.approx(expected.tolist(), rel=1e-12)
    wrong: tuple[dict[str, Any], ...] = ({"summary": "all"}, {"summary": "class", "zones": raster})
    for words in wrong:
        with pytest.raises(rcell.BadArgument, match="summary must be"):
            rcell.patches(raster, **words)


def test_more_patches_than_32_bits_have(
    monkeypatch: pytest.MonkeyPatch, tmp_path: pathlib.Path
) -> None:
    monkeypatch.setattr("rcell.core.tile_runs.MAX_CATEGORY", 9)
    cells = rcell.Raster(np.random.default_rng(14).integers(0, 4, (20, 20)), nodata=0)
    expected = rcell.clump(cells).array
    found = as_tiles(lambda: rcell.clump(cells), (7, 9))
    assert found.array.dtype == np.int64 and found.array.tolist() == expected.tolist()
    first = tuple(np.argwhere(~np.ma.getmaskarray(expected))[0])
    found.array[first] = 2**40
    rasterio = pytest.importorskip("rasterio")
    with rasterio.open(found.write(tmp_path / "clumps.tif")) as dataset:
        written = dataset.read(1)
    assert written[first] == 2**40
    assert written[1:].tolist() == expected.filled(NULL)[1:].tolist()


def comb(rows: int, cols: int) -> Any:
    """Return a comb, whose teeth are separate patches until the last row of tiles joins them."""
    cells = np.full((rows, cols), 1, np.int32)
    cells[:-1, 1::2] = 2
    return cells


def spiral(side: int) -> Any:
    """Return a path from the corner to the centre, one cell wide."""
    cells = np.full((side, side), 2, np.int32)
    for ring in range(0, side // 2, 2):
        end = side - 1 - ring
        cells[ring, ring : end + 1] = cells[ring : end + 1, end] = 1
        cells[end, ring : end + 1] = cells[ring + 2 : end + 1, ring] = 1
        cells[ring + 2, ring : ring + 3] = 1
    return cells


SHAPES = {
    "comb": comb(15, 13),
    "comb on its side": comb(15, 13).T,
    "spiral": spiral(17),
    "checkerboard": np.add.outer(np.arange(12), np.arange(13)) % 2 + 1,
    "diagonals": np.subtract.outer(np.arange(13), np.arange(12)) % 5,
    "one row": comb(1, 30),
    "null alone": np.full((6, 7), NO_CELL, np.int32),
}


@pytest.mark.parametrize("size", [(1, 99), (7, 8)], ids=str)
@pytest.mark.parametrize("name", SHAPES)
def test_shapes_that_are_hard_to_cut(name: str, size: tuple[int, int]) -> None:
    cells = rcell.Raster(SHAPES[name], nodata=NO_CELL)
    for connectivity in (4, 8):
        calls: tuple[Any, ...] = (rcell.clump, rcell.patches)
        for call in calls:
            expected = call(cells, connectivity)
            check_equal(as_tiles(lambda: call(cells, connectivity), size), expected)


# Files and arrays


@pytest.mark.parametrize("dtype", ["uint8", "int16", "int32", "float32", "float64"])
@pytest.mark.parametrize("is_tiled", [False, True])
def test_files_are_read_by_windows(raster: Write, dtype: str, is_tiled: bool) -> None:
    cells = np.random.default_rng(3).integers(0, 200, (70, 50)).astype(dtype)
    words = {"tiled": True, "blockxsize": 16, "blockysize": 32} if is_tiled else {}
    path = raster(cells, nodata=7, compress="deflate", **words)
    for size in ((16, 32), (11, 50)):
        call = lambda: rcell.composition(path, include_null=True)  # noqa: E731
        check_equal(as_tiles(call, size, 3), call())


def test_files_with_rows_from_the_south_and_masks(raster: Write) -> None:
    cells = np.random.default_rng(4).integers(0, 5, (20, 30)).astype(np.uint8)

    def edit(dataset: Any) -> None:
        dataset.write_mask(cells != 3)

    path = raster(cells, transform=(10.0, 0.0, 0.0, 0.0, 10.0, 0.0), edit=edit)
    call = lambda: rcell.patches(path)  # noqa: E731
    check_equal(as_tiles(call, (6, 7)), call())


def test_open_datasets_and_bands(raster: Write) -> None:
    rasterio = pytest.importorskip("rasterio")
    from rasterio.vrt import WarpedVRT

    cells = np.random.default_rng(5).integers(0, 5, (2, 20, 30)).astype(np.uint8)
    with rasterio.open(raster(cells)) as dataset, WarpedVRT(dataset) as warped:
        for one in (dataset, warped):
            call = lambda: rcell.composition(rasterio.band(one, 2))  # noqa: E731
            check_equal(as_tiles(call, (6, 7)), call())


def test_maps_of_gdal(raster: Write) -> None:
    pytest.importorskip("osgeo.gdal")
    from rcell.readers.gdal import open_raster

    cells = np.random.default_rng(6).integers(0, 5, (20, 30)).astype(np.uint8)
    source: Any = open_raster("lc", raster(cells, nodata=2))
    call = lambda: rcell.composition(source, include_null=True)  # noqa: E731
    check_equal(as_tiles(call, (6, 7)), call())


def test_arrays_of_dask(raster: Write) -> None:
    xarray = pytest.importorskip("xarray")
    pytest.importorskip("dask.array")
    cells = np.random.default_rng(7).integers(0, 5, (20, 30))
    whole = xarray.DataArray(cells, dims=("y", "x"))
    lazy = whole.chunk({"y": 6, "x": 7})
    calls: tuple[Any, ...] = (rcell.composition, rcell.majority, rcell.patches)
    for call in calls:
        check_equal(as_tiles(lambda: call(lazy), (12, 14)), call(whole))


def test_grids_of_text_take_one_run(tmp_path: pathlib.Path) -> None:
    path = rcell.Raster(np.arange(12).reshape(3, 4)).write(tmp_path / "a.txt")
    check_equal(as_tiles(lambda: rcell.composition(path), (2, 2)), rcell.composition(path))


def test_cells_are_listed_in_one_run() -> None:
    a = np.arange(12).reshape(3, 4)
    call = lambda: rcell.run("r.stats -1 input=a,a", a=a)  # noqa: E731
    check_equal(as_tiles(call, (2, 2)), call())


def test_more_columns_than_one_run_has() -> None:
    cells = np.tile(np.arange(70_000) // 10_000, (3, 1)).astype(np.uint8)
    assert rcell.composition(cells).cells.tolist() == [30_000] * 7
    assert rcell.patches(cells).cells.tolist() == [30_000] * 7
    assert rcell.majority(cells).array.tolist() == cells.tolist()
    with pytest.raises(rcell.BadMap, match="70,000 columns, but this call accepts at most 65,535"):
        rcell.Raster(cells).text()


@pytest.mark.parametrize("code", ["EPSG:32632", "EPSG:4326"])
@pytest.mark.parametrize("nodata", [7, None])
def test_a_map_is_aligned_by_parts(
    raster: Write, monkeypatch: pytest.MonkeyPatch, code: str, nodata: Any
) -> None:
    pytest.importorskip("pyproj")
    cells = np.random.default_rng(17).integers(0, 9, (40, 50)).astype(np.uint8)
    path = raster(cells, nodata=nodata)
    width, west, north = (25, 499_900, 5_499_900) if "32632" in code else (3e-4, 9.001, 49.6506)
    steps = (width, width * 1.3)
    for step in steps:
        to = rcell.Raster(np.ones((33, 44)), (step, 0, west, 0, -step, north), crs=code)
        expected = rcell.align(path, to, resample="nearest")
        with monkeypatch.context() as patch:
            patch.setattr("rcell.core.align._SIDE", 9)
            patch.setattr("rcell.readers.rasterio.BLOCK_CELLS", 100)
            patch.setattr("rcell.core.kept.free_memory", lambda: 100)
            found = rcell.align(path, to, resample="nearest")
        check_equal(found, expected)
        assert found.aligned == expected.aligned and found.aligned is not None
        assert found.aligned.cells_used > 100


# Errors


def test_the_first_bad_cell_has_its_place_in_the_full_map() -> None:
    cells = np.ones((20, 30))
    cells[17, 22] = cells[18, 1] = cells[19] = 1.5
    with pytest.raises(rcell.BadMap, match="the cell at row 18, column 23 is 1.5"):
        as_tiles(lambda: rcell.composition(cells), (6, 7))


def test_warnings_are_given_once_and_where_the_call_is() -> None:
    cells = np.full((20, 30), 255, np.uint8)
    calls: tuple[Any, ...] = (rcell.composition, rcell.patches)
    for call in calls:
        with pytest.warns(UserWarning, match="96 of the 96 cells along its border") as caught:
            as_tiles(lambda: call(cells), (6, 7))
        assert [one.filename for one in caught] == [__file__]
    large = np.full((20, 30), 2.0**25, np.float32)
    with pytest.warns(UserWarning, match="not exact beyond") as caught:
        as_tiles(lambda: rcell.composition(large), (6, 7))
    assert [one.filename for one in caught] == [__file__]


def test_too_little_memory_for_a_tile(monkeypatch: pytest.MonkeyPatch) -> None:
    monkeypatch.setattr(tiling, "SMALL_CELLS", 100)
    monkeypatch.setattr(tiling, "free_memory", lambda: 4_500_000)
    with pytest.raises(rcell.OutOfMemory, match="a tile of 256 x 256 cells may need .* are free"):
        rcell.composition(np.ones((600, 600), np.int32))


def test_tiles_shrink_and_fewer_are_worked_on_if_memory_is_short() -> None:
    source: Any = ArrayMap(
        "a", np.ones((8_000, 8_000), np.uint8), rcell.Region.of_cells(8_000, 8_000)
    )
    demand = tiling.Demand(100.0, NO_MARGIN)
    for free, expected in (
        (1 << 40, (1024, 4)),
        (1 << 29, (512, 4)),
        (30_000_000, (174, 3)),
    ):
        with pytest.MonkeyPatch.context() as patch, tiling.working(workers=4):
            patch.setattr(tiling, "free_memory", lambda: free)
            (rows, _), workers = tiling.tile_size({"a": source}, demand)
            assert (rows, workers) == expected


def test_the_number_of_workers_is_checked() -> None:
    with pytest.raises(
        rcell.BadArgument, match="workers must be a whole number, at least 1; got 0"
    ):
        rcell.composition([[1]], workers=0)


def test_a_host_ends_the_programs_of_all_tiles() -> None:
    class Cancelled(Exception):
        """Raised by the host."""

    shares: list[float] = []

    def watch() -> None:
        if shares:
            raise Cancelled

    before = threading.active_count()
    with serving(Host(watch=watch, progress=shares.append)), pytest.raises(Cancelled):
        as_tiles(lambda: rcell.composition(np.ones((200, 200))), (10, 10))
    assert threading.active_count() == before
    assert 0 < shares[0] < 1


def test_a_bar_is_shown_on_a_terminal_after_two_seconds(
    monkeypatch: pytest.MonkeyPatch,
) -> None:
    class Terminal(io.StringIO):
        def isatty(self) -> bool:
            return True

    for seconds, is_host, shown in ((0.0, False, True), (2.0, False, False), (0.0, True, False)):
        monkeypatch.setattr("rcell.core.showing.SECONDS", seconds)
        monkeypatch.setattr(sys, "stderr", Terminal())
        with serving(Host(progress=(lambda share: None) if is_host else None)):
            as_tiles(lambda: rcell.composition(np.ones((20, 20))), (5, 5))
        assert ("tile" in sys.stderr.getvalue()) == shown  # type: ignore[attr-defined]


def test_progress_ends_at_one() -> None:
    shares: list[float] = []
    with serving(Host(progress=shares.append)):
        as_tiles(lambda: rcell.patches(np.ones((20, 20))), (10, 10))
    assert shares == [at / 4 for at in range(1, 5)]
    shares.clear()
    with serving(Host(progress=shares.append)):
        as_tiles(lambda: rcell.clump(np.ones((20, 20))), (10, 10))
    assert shares == [at / 8 for at in range(1, 9)]


def test_an_interrupt_ends_programs_and_leaves_nothing(tmp_path: pathlib.Path) -> None:
    code = (
        "import numpy as np, rcell\n"
        "cells = np.random.default_rng(1).integers(0, 9, (6000, 6000)).astype(np.uint8)\n"
        "print('ready', flush=True)\nrcell.patches(cells, core_depth=20)"
    )
    words = {**os.environ, "TMPDIR": str(tmp_path)}
    with subprocess.Popen(
        [sys.executable, "-c", code],
        stdout=subprocess.PIPE,
        stderr=subprocess.PIPE,
        env=words,
    ) as process:
        assert process.stdout is not None and process.stdout.readline()
        time.sleep(1)
        process.send_signal(signal.SIGINT)
        begun = time.monotonic()
        _, told = process.communicate()
        assert time.monotonic() - begun < 5
    assert told.strip().endswith(b"KeyboardInterrupt")
    assert not list(tmp_path.iterdir())
    running = subprocess.run(["ps", "-o", "args=", "--ppid", str(process.pid)], capture_output=True)
    assert b"rcell-pipe" not in running.stdout


def test_memory_is_known() -> None:
    assert 0 < memory.free_memory() < 1 << 50
    assert memory.processors() >= 1


# Results that are too large for memory


def test_cells_of_large_maps_are_kept_in_a_file(
    monkeypatch: pytest.MonkeyPatch, tmp_path: pathlib.Path
) -> None:
    monkeypatch.setattr("rcell.core.kept.free_memory", lambda: 100)
    monkeypatch.setenv("TMPDIR", str(tmp_path))
    cells = np.random.default_rng(8).integers(0, 500, (40, 30)).astype(np.int16)
    calls: tuple[Any, ...] = (rcell.majority, rcell.clump)
    for call in calls:
        check_equal(as_tiles(lambda: call(cells), (7, 11)), call(cells))
    assert not list(tmp_path.iterdir())


def test_too_little_room_for_such_a_file(monkeypatch: pytest.MonkeyPatch) -> None:
    monkeypatch.setattr("rcell.core.kept.free_memory", lambda: 100)
    monkeypatch.setenv("TMPDIR", "/nowhere")
    with pytest.raises(rcell.WriteFailed, match="stored in /nowhere: No such file .*: set TMPDIR"):
        as_tiles(lambda: rcell.majority(np.ones((40, 30))), (7, 11))


# Resuming


def test_finished_tiles_are_kept_and_taken_again(raster: Write, tmp_path: pathlib.Path) -> None:
    cells = np.random.default_rng(9).integers(0, 5, (40, 30)).astype(np.uint8)
    path, folder = raster(cells), tmp_path / "shelf"
    expected = rcell.composition(path)
    for script_runs in (1, 0):
        starts: list[int] = []
        with pytest.MonkeyPatch.context() as patch:
            from rcell.core import protocol

            run = protocol.run
            patch.setattr(protocol, "run", lambda *a, **b: starts.append(1) or run(*a, **b))  # type: ignore[func-returns-value]
            found = as_tiles(lambda: rcell.composition(path, resume=folder), (20, 30))
        check_equal(found, expected)
        assert len(starts) == 2 * script_runs
    # Another script or another file does not reuse the results.
    as_tiles(lambda: rcell.majority(path, resume=folder), (20, 30))
    assert len(list(folder.iterdir())) == 4
    raster(cells[::-1])
    os.utime(path, (1, 1))
    check_equal(
        as_tiles(lambda: rcell.majority(path, resume=folder), (20, 30)),
        rcell.majority(path),
    )
    assert len(list(folder.iterdir())) == 6
    next(folder.iterdir()).write_bytes(b"broken")
    check_equal(
        as_tiles(lambda: rcell.composition(path, resume=folder), (20, 30)),
        rcell.composition(path),
    )


def test_a_summary_of_patches_is_kept_and_taken_again(
    raster: Write, tmp_path: pathlib.Path
) -> None:
    path = raster(np.random.default_rng(9).integers(0, 5, (40, 30)).astype(np.uint8))
    expected = rcell.patches(path, summary="class")
    for _ in range(2):
        call = lambda: rcell.patches(path, summary="class", resume=tmp_path / "shelf")  # noqa: E731
        check_equal(as_tiles(call, (20, 30)), expected)
        assert len(list((tmp_path / "shelf").iterdir())) == 2


def test_results_of_arrays_and_of_other_patches_are_told_apart(tmp_path: pathlib.Path) -> None:
    random = np.random.default_rng(13)
    maps = [random.integers(0, 3, (20, 20)) for _ in range(2)]
    for cells in maps + maps:
        for connectivity in (4, 8):
            call = lambda **words: rcell.patches(cells, connectivity, **words)  # noqa: E731
            check_equal(as_tiles(lambda: call(resume=tmp_path), (12, 20)), call())
    assert len(list(tmp_path.iterdir())) == 2 * 2 * 2


def test_maps_made_of_one_file_are_told_apart(raster: Write, tmp_path: pathlib.Path) -> None:
    path = raster(np.random.default_rng(15).integers(0, 5, (20, 20)).astype(np.uint8))
    for size in (3, 5):
        made = rcell.majority(path, size)
        call = lambda **words: rcell.composition(made, **words)  # noqa: E731
        check_equal(as_tiles(lambda: call(resume=tmp_path / "shelf"), (12, 20)), call())


def test_a_file_that_changes_while_it_is_read(raster: Write) -> None:
    path = raster(np.ones((20, 20), np.uint8))

    def touch(share: float) -> None:
        os.utime(path, (1, share))

    with serving(Host(progress=touch)):
        with pytest.raises(rcell.ReadFailed, match="map.tif: changed while it was read"):
            as_tiles(lambda: rcell.composition(path), (10, 10))


# Output files


@pytest.mark.parametrize("memory_cells", [0, 1 << 20])
def test_large_maps_are_written_some_rows_at_a_time(
    memory_cells: int, monkeypatch: pytest.MonkeyPatch, tmp_path: pathlib.Path
) -> None:
    rasterio = pytest.importorskip("rasterio")
    monkeypatch.setattr("rcell.geotiff._BLOCK_CELLS", 1)
    monkeypatch.setattr("rcell.geotiff._IN_MEMORY", memory_cells)
    monkeypatch.setattr("rcell.core.kept.free_memory", lambda: 100)
    cells = np.random.default_rng(10).integers(0, 5, (700, 600)).astype(np.uint8)
    cells[:300] = 1
    found = as_tiles(lambda: rcell.majority(rcell.Raster(cells, nodata=0, **METRES)), (256, 300))
    expected = rcell.majority(rcell.Raster(cells, nodata=0, **METRES))
    for name, is_cog in (("a.tif", False), ("b.tif", True), ("a.cog.tif", False)):
        path = found.write(tmp_path / name, cog=is_cog)
        with rasterio.open(path) as dataset:
            assert dataset.dtypes == ("uint8",)
            assert np.array_equal(dataset.read(1), expected.array.filled(255))
            layout = dataset.tags(ns="IMAGE_STRUCTURE").get("LAYOUT")
            assert layout == ("COG" if is_cog or ".cog" in name else None)
            assert dataset.block_shapes == ([(512, 512)] if layout else [(256, 256)])
    assert sorted(os.listdir(tmp_path)) == ["a.cog.tif", "a.tif", "b.tif"]


def test_a_file_that_was_not_written_whole_leaves_the_old_one(
    monkeypatch: pytest.MonkeyPatch, tmp_path: pathlib.Path
) -> None:
    rasterio = pytest.importorskip("rasterio")
    path = rcell.Raster([[1, 2]]).write(tmp_path / "a.tif")
    old = pathlib.Path(path).read_bytes()
    monkeypatch.setattr("rcell.geotiff._IN_MEMORY", 0)
    read = rasterio.DatasetReader.read
    monkeypatch.setattr(rasterio.DatasetReader, "read", lambda *a, **b: read(*a, **b) + 1)
    with pytest.raises(rcell.WriteFailed, match="rows 1 to 1 were not written correctly"):
        rcell.Raster([[3, 4]]).write(path)
    assert pathlib.Path(path).read_bytes() == old
    assert os.listdir(tmp_path) == ["a.tif"]


# Several files as one map


def _cut(
    raster: Write, cells: Any, places: list[tuple[int, int, int, int]], **words: Any
) -> list[str]:
    """Write parts of a map to files."""
    a, _, c, _, e, f = (10.0, 0.0, 500.0, 0.0, -20.0, 900.0)
    return [
        raster(
            cells[top : top + rows, left : left + cols],
            f"part_{at}.tif",
            (a, 0.0, c + a * left, 0.0, e, f + e * top),
            **words,
        )
        for at, (top, left, rows, cols) in enumerate(places)
    ]


@pytest.mark.parametrize("nodata", [0, None])
@pytest.mark.parametrize("dtype", ["uint8", "float32"])
def test_a_list_or_a_pattern_of_files_is_one_map(
    raster: Write, tmp_path: pathlib.Path, nodata: Any, dtype: str
) -> None:
    random = np.random.default_rng(11)
    cells = random.integers(0, 4, (30, 40)).astype(dtype)
    places = [(0, 0, 10, 20), (0, 20, 10, 20), (10, 5, 20, 35)]
    paths = _cut(raster, cells, places, nodata=nodata)
    is_null = np.ones(cells.shape, bool)
    for top, left, rows, cols in places:
        is_null[top : top + rows, left : left + cols] = False
    is_null |= (cells == 0) & (nodata == 0)
    place: Any = {"transform": (10, 0, 500, 0, -20, 900), "crs": "EPSG:32632"}
    expected = rcell.patches(rcell.Raster(np.ma.masked_array(cells, is_null), **place))
    for files in (paths, tuple(paths), str(tmp_path / "part_*.tif"), tmp_path / "part_?.tif"):
        check_equal(rcell.patches(files), expected)
        check_equal(as_tiles(lambda: rcell.patches(files), (7, 9)), expected)
    assert rcell.composition([paths[2]]).cells.sum() == (~is_null[10:, 5:]).sum()


def test_of_files_that_overlap_the_later_has_the_cells(raster: Write) -> None:
    first = raster(np.array([[1, 1, 1]], np.uint8), "first.tif", nodata=0)
    second = raster(
        np.array([[2, 0, 2]], np.uint8),
        "second.tif",
        (25.0, 0.0, 500_025.0, 0.0, -25.0, 5_500_000.0),
        nodata=0,
    )
    with pytest.warns(UserWarning, match="first.tif and .*second.tif overlap: the cells of"):
        assert rcell.grid("", "lc", lc=[first, second]).array.tolist() == [[1, 2, 1, 2]]
    with pytest.warns(UserWarning, match="overlap"):
        assert rcell.grid("", "lc", lc=[second, first]).array.tolist() == [[1, 1, 1, 2]]


@pytest.mark.parametrize(
    ("change", "error", "told"),
    [
        (
            {"transform": (30, 0, 500, 0, -20, 900)},
            rcell.OtherRegion,
            "differ: cells of 30 x 20, but `",
        ),
        (
            {"transform": (10, 0, 503, 0, -20, 900)},
            rcell.OtherRegion,
            "differ: shifted by 0 rows and -0.3",
        ),
        ({"crs": "EPSG:32633"}, rcell.OtherCrs, "EPSG:32633"),
        ({"nodata": 9}, rcell.BadMap, "the nodata value is 9 in the first and 0 in the second"),
        ({"dtype": np.int16}, rcell.BadMap, "the data type is int16 in the first and uint8"),
    ],
)
def test_files_that_differ_are_named(
    raster: Write, change: dict[str, Any], error: type[Exception], told: str
) -> None:
    words: dict[str, Any] = {"transform": (10, 0, 500, 0, -20, 900), "nodata": 0}
    cells = np.ones((2, 2), np.uint8)
    one = raster(cells, "one.tif", **words)
    other = raster(cells.astype(change.pop("dtype", np.uint8)), "other.tif", **{**words, **change})
    with pytest.raises(error, match="other.tif") as caught:
        rcell.composition([one, other])
    assert told in str(caught.value) and "one.tif" in str(caught.value)


def test_patterns_without_a_file_and_texts_in_lists(raster: Write, tmp_path: pathlib.Path) -> None:
    with pytest.raises(
        rcell.ReadFailed, match=r"cannot open: no\*.tif: no file matches this pattern"
    ):
        rcell.composition("no*.tif")
    text = rcell.Raster([[1, 2]]).write(tmp_path / "a.txt")
    with pytest.raises(
        rcell.BadMap, match="a.txt is a text grid, but only rasters can be combined"
    ):
        rcell.composition([text, text])
    named = raster(np.ones((2, 2), np.uint8), "a[1].tif")
    assert rcell.composition(named).cells.tolist() == [4]


# Sums of tables


@settings(max_examples=60, deadline=None)
@given(
    rows=st.lists(
        st.tuples(
            st.sampled_from([NULL, -5, 0, 3, 2**31 - 1, -(2**31) + 1]),
            st.sampled_from([NULL, 1, 2, 2**40]),
            st.sampled_from([NULL, 7, 2**31 - 1]),
            st.integers(1, 2**40),
        ),
        max_size=30,
    ),
    cut=st.integers(0, 30),
    is_counted=st.booleans(),
    waiting=st.sampled_from([1, 1 << 20]),
)
def test_sums_of_tables(rows: Any, cut: int, is_counted: bool, waiting: int) -> None:
    width = 3 + is_counted
    expected: dict[Any, int] = {}
    for *classes, cells in rows:
        expected[tuple(classes)] = expected.get(tuple(classes), 0) + cells
    with pytest.MonkeyPatch.context() as patch:
        patch.setattr(tile_tables, "_WAITING", waiting)
        total = tile_tables.TableSum(3, is_counted)
        for part in (rows[:cut], rows[cut:]):
            table = tile_tables.TableSum(3, is_counted)
            table.add(np.array(part, np.int64).reshape(-1, 4)[:, :width])
            total.add(table.table())
    last = sorted(expected, key=lambda classes: [(one == NULL, one) for one in classes])
    found = total.table().tolist()
    assert found == [[*classes, expected[classes]][:width] for classes in last]
