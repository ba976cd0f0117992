"""Test input rasters that rasterio opens."""

from __future__ import annotations

import pathlib
import subprocess
import sys
import warnings
import zipfile
from typing import Any, Callable

import numpy as np
import pytest
from hypothesis import given, settings
from hypothesis import strategies as st
from hypothesis.extra import numpy as arrays

import rcell
from rcell.readers.rasterio import open_raster

from .conftest import LAND, TRANSFORM
from .rows import rows_of

rasterio = pytest.importorskip("rasterio")
Write = Callable[..., str]


def cells(path: Any) -> Any:
    return rcell.grid("", "lc", lc=path).array.tolist()


def test_nodata_is_null(raster: Write) -> None:
    assert cells(raster(LAND, nodata=0)) == [[1, 1, 2, None], [1, 2, 2, 2], [3, 3, 1, 1]]
    assert cells(raster(LAND)) == LAND.tolist()
    assert cells(raster(LAND.astype("int32") - 1, nodata=-1))[0] == [0, 0, 1, None]
    assert cells(raster(LAND.astype("float32"), nodata=0))[0] == [1, 1, 2, None]
    assert cells(raster(np.where(LAND == 0, np.nan, LAND).astype("float64"), nodata=float("nan")))[
        0
    ] == [1, 1, 2, None]
    assert cells(raster(np.where(LAND == 0, 4294967295, LAND).astype("uint32"), nodata=4294967295))[
        0
    ] == [1, 1, 2, None]
    assert cells(raster(np.where(LAND == 0, -(2**31), LAND).astype("int32"), nodata=-(2**31)))[
        0
    ] == [1, 1, 2, None]


def test_masks_are_null(raster: Write) -> None:
    def edit(dataset: Any) -> None:
        dataset.write_mask(LAND != 3)

    assert cells(raster(LAND, edit=edit)) == [[1, 1, 2, 0], [1, 2, 2, 2], [None, None, 1, 1]]
    alpha = np.stack([LAND, np.where(LAND == 2, 0, 255).astype("uint8")])
    from rasterio.enums import ColorInterp

    def transparent(dataset: Any) -> None:
        dataset.colorinterp = [ColorInterp.gray, ColorInterp.alpha]

    assert cells(raster(alpha, edit=transparent))[0] == [1, 1, None, 0]


def test_answers_get_the_place_of_the_first_map(raster: Write) -> None:
    thirds = (1 / 3, 0.0, 8 + 1 / 3, 0.0, -1 / 3, 50.0)
    grid = rcell.grid("r.clump input=lc output=k", "k", lc=raster(LAND, transform=thirds))
    assert grid.transform == thirds
    assert grid.crs.to_epsg() == 32632


def test_rows_from_south_to_north(raster: Write) -> None:
    path = raster(LAND, transform=(25, 0, 0, 0, 25, 0))
    grid = rcell.grid("", "lc", lc=path)
    assert grid.array.tolist() == LAND[::-1].tolist()
    assert (grid.region.north, grid.transform) == (75, (25, 0, 0, 0, -25, 75))
    assert rcell.patches(path)["class"][0] == 3


def test_without_georeference(raster: Write) -> None:
    with warnings.catch_warnings():
        warnings.simplefilter("ignore", rasterio.errors.NotGeoreferencedWarning)
        path = raster(LAND, transform=None, crs=None)
        assert rcell.grid("", "lc", lc=path).region == rcell.Region.of_cells(3, 4)
        assert cells(path) == LAND.tolist()


@pytest.mark.parametrize(
    ("array", "words", "told"),
    [
        (
            np.stack([LAND, LAND]),
            {},
            "has 2 bands: choose one, for example rasterio.band(dataset, 1)",
        ),
        (LAND, {"transform": (25, 1, 0, 0, -25, 0)}, "its transform is rotated"),
        (
            LAND,
            {"transform": (25, 0, 9.99999999e9, 0, -25, 0), "crs": None},
            "east must have at most ten digits; got 1e+10",
        ),
        (
            LAND,
            {"transform": (1e-9, 0, 0, 0, -1e-9, 0)},
            "north must exceed south after rounding",
        ),
        (
            LAND + np.float32(0.5),
            {},
            "not a map of whole numbers: the cell at row 1, column 1 is 1.5",
        ),
        (
            np.array([[0, 3 * 10**9]], "uint32"),
            {},
            "the cell at row 1, column 2 is 3000000000, outside -2147483647 to 2147483647",
        ),
        (
            np.array([[0, -(2**31)]], "int32"),
            {},
            "the cell at row 1, column 2 is -2147483648, outside -2147483647 to 2147483647",
        ),
        (LAND.astype("complex64"), {}, "its cells are of type complex64"),
    ],
)
def test_what_is_refused(raster: Write, array: Any, words: Any, told: str) -> None:
    path = raster(array, **words)
    with pytest.raises(rcell.BadMap) as caught:
        rcell.run("r.stats -c input=lc", lc=path)
    assert told in str(caught.value) and caught.value.source == "lc"


def test_scaled_values_and_control_points_are_refused(raster: Write) -> None:
    def scaled(dataset: Any) -> None:
        dataset.scales, dataset.offsets = (0.1,), (5,)

    with pytest.raises(rcell.BadMap, match="scaled: each cell times 0.1, plus 5"):
        rcell.run("", lc=raster(LAND, edit=scaled))
    points = [
        rasterio.control.GroundControlPoint(row, col, col * 2.0, row * 3.0)
        for row, col in ((0, 0), (0, 4), (3, 0))
    ]
    with pytest.raises(rcell.BadMap, match="ground control points"):
        rcell.run("", lc=raster(LAND, transform=None, gcps=points))


def test_maps_that_do_not_fit(raster: Write) -> None:
    first, second = raster(LAND, "a.tif"), raster(
        LAND, "b.tif", transform=(25, 0, 500_012.5, 0, -25, 5_500_000)
    )
    with pytest.raises(
        rcell.OtherRegion,
        match=r"east is 500112.5, not 500100 \(12.5 more\); west is 500012.5, not 500000 \(12.5 more\)",
    ):
        rcell.run("", a=first, b=second)


def test_datasets_and_bands(raster: Write) -> None:
    path = raster(np.stack([LAND, LAND + 1]), nodata=1)
    with rasterio.open(path) as dataset:
        assert cells(rasterio.band(dataset, 2)) == [[2, 2, 3, None], [2, 3, 3, 3], [4, 4, 2, 2]]
        with pytest.raises(rcell.BadMap):
            cells(dataset)
    with rasterio.open(raster(LAND)) as dataset:
        assert cells(dataset) == LAND.tolist()


def test_other_forms(raster: Write, tmp_path: pathlib.Path) -> None:
    shutil = pytest.importorskip("rasterio.shutil")
    path = raster(LAND, nodata=0)
    null = [[1, 1, 2, None], [1, 2, 2, 2], [3, 3, 1, 1]]
    for name, driver in (("m.asc", "AAIGrid"), ("m.vrt", "VRT")):
        shutil.copy(path, str(tmp_path / name), driver=driver)
        assert cells(tmp_path / name) == null
    with zipfile.ZipFile(tmp_path / "m.zip", "w") as archive:
        archive.write(path, "map.tif")
    assert cells(f"/vsizip/{tmp_path}/m.zip/map.tif") == null
    assert cells(f"zip://{tmp_path}/m.zip!map.tif") == null


def test_names_of_files(raster: Write, tmp_path: pathlib.Path) -> None:
    path = pathlib.Path(raster(LAND))
    for name in ("a map ä.tif", "-x.tif", "a=b,c.tif"):
        path = path.rename(tmp_path / name)
        assert cells(path) == LAND.tolist()


def test_files_that_cannot_be_read(tmp_path: pathlib.Path, raster: Write) -> None:
    with pytest.raises(rcell.ReadFailed, match="cannot open: .*nowhere.tif"):
        cells(tmp_path / "nowhere.tif")
    with pytest.raises(rcell.ReadFailed, match="cannot open"):
        cells("/vsizip/nowhere.zip/map.tif")
    with pytest.raises(rcell.ReadFailed, match="cannot open"):
        cells(tmp_path)
    (tmp_path / "notes.csv").write_text("a,b\n1,2\n")
    with pytest.raises(rcell.ReadFailed, match="cannot open"):
        cells(tmp_path / "notes.csv")


def test_a_broken_file(raster: Write, tmp_path: pathlib.Path) -> None:
    random = np.random.default_rng(1).integers(0, 99, (512, 512)).astype("uint8")
    path = raster(random, tiled=True, blockxsize=256, blockysize=256, compress="deflate")
    data = bytearray(pathlib.Path(path).read_bytes())
    data[len(data) // 2 : len(data) // 2 + 20_000] = bytes(20_000)
    pathlib.Path(path).write_bytes(data)
    with pytest.raises(rcell.ReadFailed, match="rows [0-9]+ to [0-9]+ cannot be read"):
        rcell.run("r.stats -c input=lc", lc=path)


def test_a_guess_that_is_wrong_changes_no_number(raster: Write) -> None:
    for dtype, wide in (("uint8", 213), ("int16", -1234), ("int32", 123_456_789)):
        array = np.ones((1_500, 1_100), dtype)
        array[700:720, 3:5], array[701, 4] = wide, 7
        array[:, 9] = 0
        path = raster(
            array, tiled=True, blockxsize=128, blockysize=128, compress="deflate", nodata=0
        )
        values, counts = np.unique(array, return_counts=True)
        rows: dict[Any, Any] = dict(rows_of(rcell.table("r.stats -c input=lc", lc=path)))  # type: ignore[arg-type]
        assert rows == {
            None if value == 0 else value: count
            for value, count in zip(values.tolist(), counts.tolist())
        }


def test_windows(raster: Write) -> None:
    array = np.arange(120, dtype="int16").reshape(10, 12)
    map_of = open_raster("lc", raster(array))
    assert map_of.window(3, 4, 2, 5).cells.tolist() == array[3:5, 4:9].tolist()
    turned = open_raster("lc", raster(array, transform=(25, 0, 0, 0, 25, 0)))
    assert turned.window(3, 4, 2, 5).cells.tolist() == array[::-1][3:5, 4:9].tolist()


@settings(max_examples=40, deadline=None)
@given(
    array=arrays.arrays(
        st.sampled_from(["uint8", "int16", "uint16", "int32", "float32"]),
        arrays.array_shapes(min_dims=2, max_dims=2, max_side=12),
        elements={"min_value": 0, "max_value": 200},
    ),
    nodata=st.one_of(st.none(), st.integers(0, 200)),
)
def test_any_raster_is_counted_as_numpy_does(array: Any, nodata: int | None) -> None:
    array = np.rint(array).astype(array.dtype)
    with rasterio.io.MemoryFile() as memory:
        profile = {
            "driver": "GTiff",
            "height": array.shape[0],
            "width": array.shape[1],
            "count": 1,
            "dtype": array.dtype,
            "nodata": nodata,
        }
        with memory.open(**profile, transform=rasterio.Affine(*TRANSFORM)) as dataset:
            dataset.write(array, 1)
        with memory.open() as dataset:
            rows = rows_of(rcell.table("r.stats -c input=lc", lc=dataset))
    values, counts = np.unique(array, return_counts=True)
    assert dict(rows) == {None if value == nodata else int(value): count for value, count in zip(values.tolist(), counts.tolist())}  # type: ignore[arg-type]


def test_without_rasterio(raster: Write) -> None:
    code = (
        "import sys\nsys.modules['rasterio'] = sys.modules['osgeo'] = None\nimport rcell\n"
        f"try: rcell.run('', lc={raster(LAND)!r})\nexcept rcell.MissingLibrary as e: print(e)"
    )
    ran = subprocess.run(
        [sys.executable, "-c", code],
        capture_output=True,
        text=True,
        env={"PYTHONPATH": ":".join(sys.path)},
    )
    assert (
        ran.stdout
        == "the library rasterio is required to read a raster: run pip install 'rcell[gis]', or install Debian's package python3-rasterio\n"
    ), ran.stderr
