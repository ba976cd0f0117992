"""Test results as objects of pandas, xarray, matplotlib and GDAL."""

from __future__ import annotations

import importlib
import os
import pathlib
import subprocess
import sys
from typing import Any, Callable

import numpy as np
import pytest
from hypothesis import given, settings
from hypothesis import strategies as st

import rcell
from rcell.core.labels import write_labels

from .conftest import LAND, TRANSFORM

pandas = pytest.importorskip("pandas")
rasterio = pytest.importorskip("rasterio")
Write = Callable[..., str]
NAMES = {1: "broad leaved, wood", 2: "größer", 3: "c"}


def land(**words: Any) -> rcell.Raster:
    return rcell.Raster(LAND, TRANSFORM, "EPSG:32632", 0, NAMES, **words)


# Tables


def test_a_frame_has_the_columns_asked_for() -> None:
    frame = rcell.table("r.stats -c -l input=lc", lc=land(), area="ha", percent=True)
    assert list(frame.columns) == ["lc", "lc_label", "cells", "area_ha", "percent"]
    assert [str(kind) for kind in frame.dtypes] == [
        "Int64",
        "string",
        "int64",
        "float64",
        "float64",
    ]
    assert frame["lc"].isna().tolist() == [False, False, False, True]
    assert frame["lc_label"].tolist()[:3] == list(NAMES.values())
    assert frame["area_ha"].tolist() == [5 * 0.0625, 4 * 0.0625, 2 * 0.0625, 0.0625]
    assert frame["percent"].sum() == pytest.approx(100)
    assert frame.groupby("lc_label")["cells"].sum()["c"] == 2


def test_units_of_area() -> None:
    assert rcell.table("r.stats -cn input=lc", lc=land(), area="m2")["area_m2"].tolist() == [
        3125,
        2500,
        1250,
    ]
    assert rcell.table("r.stats -cn input=lc", lc=land(), area="km2")["area_km2"].tolist() == [
        0.003125,
        0.0025,
        0.00125,
    ]
    feet = rcell.Raster(LAND, (10, 0, 0, 0, -10, 30), "EPSG:2263")
    assert rcell.table("r.stats -c input=lc", lc=feet, area="m2")["area_m2"][0] == pytest.approx(
        (10 * 1200 / 3937) ** 2
    )
    for crs in ("EPSG:4326", rasterio.CRS.from_epsg(4326), rasterio.CRS.from_epsg(4326).to_wkt()):
        with pytest.raises(rcell.BadArgument, match="area requires a map in metres or feet"):
            rcell.table("r.stats -c input=lc", lc=rcell.Raster(LAND, crs=crs), area="ha")


def test_a_matrix() -> None:
    zone = rcell.Raster(
        [[7, 7, 8, 8], [7, 7, 8, 8], [0, 7, 8, 8]], TRANSFORM, "EPSG:32632", nodata=0
    )
    frame = rcell.table("r.stats -c -l input=zone,lc", zone=zone, lc=land(), pivot=True)
    assert (frame.index.name, frame.columns.name) == ("zone", "lc")
    assert frame.index.fillna(-1).tolist() == [7, 8, -1] and frame.columns.tolist() == [
        *NAMES.values(),
        "null",
    ]
    assert frame.to_numpy().tolist() == [[3, 1, 1, 0], [2, 3, 0, 1], [0, 0, 1, 0]]
    assert (
        rcell.table("r.stats -cn input=zone,lc", zone=zone, lc=land(), pivot=True, area="ha").loc[
            8, 2
        ]
        == 0.1875
    )
    assert (
        rcell.table(
            "r.stats -cn input=zone,lc", zone=zone, lc=land(), pivot=True, area="ha", percent=True
        ).loc[7, 1]
        == 30
    )


def test_labels_of_rules_and_of_maps() -> None:
    script = "r.reclass input=lc output=kind\n1 = 1 wood\n* = 2\nend\nr.stats -cl input=kind,lc"
    frame = rcell.table(script, lc=land())
    assert frame["kind_label"].fillna("").tolist() == ["wood", "", "", ""]
    assert frame["lc_label"].fillna("").tolist() == [*NAMES.values(), ""]


def test_without_xarray_and_matplotlib() -> None:
    code = (
        "import sys\nfor name in ('matplotlib', 'xarray'): sys.modules[name] = None\nimport "
        "numpy as np, rcell\n"
        "import importlib.util as u\nfind = u.find_spec\nu.find_spec = lambda name: None if name "
        "in ('matplotlib', 'xarray') else find(name)\n"
        "lc = rcell.Raster(np.array([[1, 2]]), labels={1: '<b>'})\nprint('pandas' in sys.modules)\n"
        "print(rcell.grid('', 'lc', lc=lc)._repr_html_())\n"
        "for call in (rcell.grid('', 'lc', lc=lc).to_xarray, rcell.grid('', 'lc', lc=lc).plot):\n"
        "    try: call()\n    except rcell.MissingLibrary as e: print(e.library)\n"
    )
    ran = subprocess.run(
        [sys.executable, "-c", code],
        capture_output=True,
        text=True,
        env={**os.environ, "PYTHONPATH": ":".join(sys.path)},
    )
    assert ran.stdout.splitlines() == [
        "False",
        "<p><b>lc</b>: 1 rows, 2 columns, 2 categories</p>",
        "xarray",
        "matplotlib",
    ], ran.stderr


# Grids


def test_a_geotiff_has_all_that_the_map_has(tmp_path: pathlib.Path) -> None:
    grid = rcell.grid("", "lc", lc=land())
    path = grid.write(tmp_path / "lc.tif")
    with rasterio.open(path) as dataset:
        assert (dataset.dtypes, dataset.nodata, dataset.crs.to_epsg()) == (("uint8",), 255, 32632)
        assert tuple(dataset.transform)[:6] == TRANSFORM
        assert dataset.read(1, masked=True).tolist() == grid.array.tolist()
    again = rcell.grid("", "lc", lc=path)
    assert (again.array.tolist(), again.labels, again.transform) == (
        grid.array.tolist(),
        NAMES,
        TRANSFORM,
    )
    assert sorted(os.listdir(tmp_path)) == ["lc.tif", "lc.tif.aux.xml"]
    rcell.grid("r.mapcalc x = lc", "x", lc=land()).write(path)
    assert os.listdir(tmp_path) == ["lc.tif"], "the labels of the old file are gone"


@pytest.mark.parametrize(
    ("values", "dtype", "nodata"),
    [
        ([0, 254], "uint8", 255),
        ([0, 255], "int16", -32768),
        ([-1, 5], "int16", -32768),
        ([0, 40_000], "int32", -(2**31)),
    ],
)
def test_the_smallest_type(
    tmp_path: pathlib.Path, values: list[int], dtype: str, nodata: int
) -> None:
    path = rcell.grid(
        "", "x", x=np.ma.MaskedArray([*values, 1], mask=[0, 0, 1]).reshape(1, 3)
    ).write(tmp_path / "x.tif")
    with rasterio.open(path) as dataset:
        assert (dataset.dtypes[0], dataset.nodata, dataset.read(1).tolist()) == (
            dtype,
            nodata,
            [[*values, nodata]],
        )


def test_a_large_geotiff_is_tiled(tmp_path: pathlib.Path) -> None:
    path = rcell.grid("", "x", x=rcell.Raster(np.zeros((300, 400), int), nodata=0)).write(
        tmp_path / "x.tiff"
    )
    with rasterio.open(path) as dataset:
        assert dataset.profile["tiled"] and dataset.read_masks(1).max() == 0


@pytest.mark.parametrize("labels", [NAMES, {-5: "below", 100_000: "far", 3: "ä & <b>"}])
def test_labels_are_written_where_gdal_reads_them(raster: Write, labels: dict[int, str]) -> None:
    path = raster(LAND)
    assert write_labels(path, labels) == f"{path}.aux.xml"
    assert rcell.grid("", "m", m=path).labels == labels
    gdal = pytest.importorskip("osgeo.gdal")
    dataset = gdal.Open(path)
    table = dataset.GetRasterBand(1).GetDefaultRAT()
    names = dataset.GetRasterBand(1).GetRasterCategoryNames()
    read = [table.GetValueAsString(row, 1) for row in range(3)] if table else names
    assert set(labels.values()) <= set(read)
    assert write_labels(path, {}) is None


@pytest.mark.parametrize("library", ["rasterio", "gdal"])
@pytest.mark.parametrize("driver", ["GTiff", "HFA"])
@pytest.mark.parametrize("has_table", [False, True])
def test_labels_of_files_are_read_alike_by_both_libraries(
    tmp_path: pathlib.Path, library: str, driver: str, has_table: bool
) -> None:
    gdal = pytest.importorskip("osgeo.gdal")
    path = str(tmp_path / ("map.tif" if driver == "GTiff" else "map.img"))
    dataset = gdal.GetDriverByName(driver).Create(path, 2, 1, 1, gdal.GDT_Byte)
    band = dataset.GetRasterBand(1)
    if has_table:
        table = gdal.RasterAttributeTable()
        table.CreateColumn("Value", gdal.GFT_Integer, gdal.GFU_MinMax)
        table.CreateColumn("Class_Name", gdal.GFT_String, gdal.GFU_Name)
        table.SetRowCount(3)
        for row, name in enumerate(["", "wood", "ä & <b>"]):
            table.SetValueAsInt(row, 0, row)
            table.SetValueAsString(row, 1, name)
        band.SetDefaultRAT(table)
    else:
        band.SetRasterCategoryNames(["", "wood", "ä & <b>"])
    del band, dataset
    reader = importlib.import_module(f"rcell.readers.{library}")
    assert reader.open_raster("m", path).labels == {1: "wood", 2: "ä & <b>"}


def test_no_half_written_geotiff(tmp_path: pathlib.Path, monkeypatch: pytest.MonkeyPatch) -> None:
    grid = rcell.grid("", "lc", lc=land())
    with pytest.raises(rcell.WriteFailed, match="No such file"):
        grid.write(tmp_path / "missing" / "lc.tif")
    with pytest.raises(rcell.BadArgument, match="path must end in .tif, .tiff or .txt; got"):
        grid.write(tmp_path / "lc.jpg")
    (tmp_path / "old.tif").write_text("old")
    monkeypatch.setattr(
        os, "fsync", lambda *_: (_ for _ in ()).throw(OSError(28, "No space left on device"))
    )
    with pytest.raises(rcell.WriteFailed, match="No space left"):
        grid.write(tmp_path / "old.tif")
    assert os.listdir(tmp_path) == ["old.tif"] and (tmp_path / "old.tif").read_text() == "old"


def test_a_full_disk(tmp_path: pathlib.Path) -> None:
    code = (
        "import resource, signal, sys, rcell, numpy as np\nsignal.signal(signal.SIGXFSZ, "
        "signal.SIG_IGN)\n"
        "g = rcell.grid('', 'x', x=np.random.default_rng(1).integers(0, 250, (300, "
        "300)))\nresource.setrlimit(resource.RLIMIT_FSIZE, (1000, 1000))\n"
        "try: g.write(sys.argv[1])\nexcept rcell.WriteFailed as e: print(e)"
    )
    ran = subprocess.run(
        [sys.executable, "-c", code, str(tmp_path / "x.tif")],
        capture_output=True,
        text=True,
        env={**os.environ, "PYTHONPATH": ":".join(sys.path)},
    )
    assert ran.stdout.endswith("x.tif cannot be written: File too large\n"), ran.stderr
    assert os.listdir(tmp_path) == []


def test_an_interrupted_write_leaves_nothing(
    tmp_path: pathlib.Path, monkeypatch: pytest.MonkeyPatch
) -> None:
    monkeypatch.setattr(
        "rcell.geotiff.write_labels", lambda *_: (_ for _ in ()).throw(KeyboardInterrupt())
    )
    with pytest.raises(KeyboardInterrupt):
        rcell.grid("", "lc", lc=land()).write(tmp_path / "lc.tif")
    assert os.listdir(tmp_path) == []


def test_plots(tmp_path: pathlib.Path) -> None:
    matplotlib = pytest.importorskip("matplotlib")
    matplotlib.use("Agg")
    from matplotlib import pyplot

    grid = rcell.grid("", "lc", lc=land())
    axes = grid.plot()
    assert [text.get_text() for text in axes.get_legend().get_texts()] == list(NAMES.values())
    assert axes.get_title() == "lc" and axes.get_xlim() == (500_000, 500_100)
    assert grid.plot(axes, legend=False) is axes
    many = rcell.grid("", "x", x=np.arange(64).reshape(8, 8))
    assert len(many.plot().figure.axes) == 2
    assert rcell.grid("", "x", x=rcell.Raster([[0]], nodata=0)).plot().get_legend() is None
    pyplot.close("all")


def test_pictures() -> None:
    image = pytest.importorskip("matplotlib.image")
    import io

    grid = rcell.grid("", "lc", lc=land())
    pixels = image.imread(io.BytesIO(grid._picture()))
    assert pixels.shape == (240, 320, 4) and pixels[0, -1, 3] == 0 and pixels[0, 0, 3] == 1
    assert (
        'src="data:image/png;base64,' in grid._repr_html_() and "3 categories" in grid._repr_html_()
    )
    assert "64 categories" in rcell.grid("", "x", x=np.arange(64).reshape(8, 8))._repr_html_()
    large = rcell.grid("", "x", x=np.ones((700, 900), int))
    assert image.imread(io.BytesIO(large._picture())).shape[:2] == (234, 300)
    assert (
        repr(grid)
        == "<Raster lc: north 5500000, south 5499925, east 500100, west 500000, 3 rows, 4 columns>"
    )


# xarray


def test_data_arrays_go_both_ways() -> None:
    pytest.importorskip("xarray")
    grid = rcell.grid("", "lc", lc=land())
    array = grid.to_xarray()
    assert (array.dims, array.x.values.tolist(), array.y.values.tolist()) == (
        ("y", "x"),
        [500012.5, 500037.5, 500062.5, 500087.5],
        [5499987.5, 5499962.5, 5499937.5],
    )
    again = rcell.grid("", "lc", lc=array)
    assert (again.array.tolist(), again.transform) == (grid.array.tolist(), TRANSFORM)
    assert rcell.table("r.stats -c input=lc", lc=array, area="ha")["area_ha"][0] == 0.3125
    assert dict(again.labels) == {1: "broad_leaved,_wood", 2: "größer", 3: "c"}
    assert rcell.grid("", "lc", lc=array[1:, :2]).transform == (25, 0, 500_000, 0, -25, 5_499_975)
    assert rcell.grid("", "lc", lc=array.sortby("y")).array.tolist() == grid.array.tolist()
    assert (
        rcell.grid("", "lc", lc=array.expand_dims(band=[1])).array.tolist() == grid.array.tolist()
    )


def test_data_arrays_that_are_no_maps() -> None:
    xarray = pytest.importorskip("xarray")
    cells = np.ones((2, 3))
    for array, told in (
        (xarray.DataArray(np.ones((2, 2, 2))), "the DataArray has 3 dimensions"),
        (
            xarray.DataArray(cells, {"y": [2, 1], "x": [1, 2, 4]}, ("y", "x")),
            "its coordinate x is not evenly spaced",
        ),
        (
            xarray.DataArray(cells, {"y": [2, 1], "x": [3, 2, 1]}, ("y", "x")),
            "its columns run from east to west: sort them, for example with .sortby('x')",
        ),
        (
            xarray.DataArray(cells[:1], {"y": [2], "x": [1, 2, 3]}, ("y", "x")),
            "only one cell along y",
        ),
        (xarray.DataArray(cells * 0.5), "the cell at row 1, column 1 is 0.5"),
    ):
        with pytest.raises(rcell.BadMap) as caught:
            rcell.run("r.stats -c input=lc", lc=array)
        assert told in str(caught.value)
    assert rcell.grid("", "lc", lc=xarray.DataArray(cells)).region == rcell.Region.of_cells(2, 3)
    null = xarray.DataArray(np.array([[1, 9], [3, 4]]), attrs={"nodata": 9})
    assert rcell.grid("", "lc", lc=null).array.tolist() == [[1, None], [3, 4]]


def test_lazy_arrays_are_computed_in_blocks() -> None:
    xarray = pytest.importorskip("xarray")
    pytest.importorskip("dask.array")
    array = xarray.DataArray(np.arange(40.0).reshape(8, 5)).chunk({"dim_0": 3})
    assert rcell.grid("", "lc", lc=array).array.tolist() == np.arange(40).reshape(8, 5).tolist()


# Scripts of any kind


LINES = st.sampled_from(
    [
        "r.stats -c input=lc",
        "r.stats -cn input=lc,k",
        "r.stats -1 input=lc",
        "r.stats -1n input=k",
        "r.stats input=lc,lc after=1,*",
        "r.stats -Nc input=k,lc separator=tab null_value=NA",
        "r.out.ascii input=lc",
        "r.out.ascii input=k null_value=-9",
        "r.clump input=lc output=k",
        "r.clump -d input=lc output=j",
        "r.mapcalc k = lc * 2",
        "r.mapcalc x = lc[0,1]",
        "# r.stats",
        "",
        "r.reclass input=lc output=m\n1 = 5 five\nend",
        "r.reclass input=lc output=m\n1 = 5",
        "end",
        "r.stats -cl input=m",
        "r.stats -c input=lc separator=ab",
        "r.stats  -c\tinput=lc \r",
        "r.stats -cc input=lc",
        "r.stats input=lc null_value=end",
        "r.out.ascii input=m null_value=a:b",
        "r.stats -c1 input=lc",
        "r.stats input=",
        "r.stats -c input=lc after=",
        "x",
    ]
)


@settings(max_examples=120, deadline=None)
@given(st.lists(LINES, max_size=7))
def test_any_script_is_answered_or_refused_as_by_the_program_itself(lines: list[str]) -> None:
    from .test_numpy_answers import by_files, text_of

    script = "\n".join(lines)
    given_map = rcell.Raster(LAND, nodata=0)
    status, output, message = by_files(script, lc=text_of(np.ma.masked_equal(LAND, 0)))
    if status:
        with pytest.raises(rcell.Refused) as caught:
            rcell.run(script, lc=given_map)
        assert (
            f"rcell: {caught.value.source}:{caught.value.line}: {caught.value.text}\n",
            caught.value.status,
        ) == (message, status)
        return
    found = 0
    for answer in rcell.run(script, lc=given_map):
        found += answer.region.rows + 6 if isinstance(answer, rcell.Raster) else len(answer)
    headers = sum(line.startswith("null: ") for line in output.decode().splitlines())
    assert found == len(output.decode().splitlines()) - headers
