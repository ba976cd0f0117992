"""Test that cells are read exactly or rejected, and that each problem raises a clear error."""

from __future__ import annotations

import contextlib
import gc
import importlib
import os
import pathlib
import sys
import time
import xml.etree.ElementTree as ElementTree
from typing import Any, Callable

import numpy as np
import pytest

import rcell
from rcell.core.labels import legend_of_band
from rcell.core.programs import find_program

from .conftest import LAND, TRANSFORM
from .rows import rows_of

rasterio = pytest.importorskip("rasterio")
Write = Callable[..., str]
SCRIPT = "r.stats -c input=m"
ESRI_LAEA = (
    'PROJCS["ETRS_1989_LAEA",GEOGCS["GCS_ETRS_1989",DATUM["D_ETRS_1989",SPHEROID["GRS_1980",6378137.0,298.257222101]],'
    'PRIMEM["Greenwich",0.0],UNIT["Degree",0.0174532925199433]],PROJECTION["Lambert_Azimuthal_Equal_Area"],'
    'PARAMETER["False_Easting",4321000.0],PARAMETER["False_Northing",3210000.0],PARAMETER["Central_Meridian",10.0],'
    'PARAMETER["Latitude_Of_Origin",52.0],UNIT["Meter",1.0]]'
)


def cells(given: Any, script: str = "", **words: Any) -> Any:
    return rcell.grid(script, "m", m=given, **words).array.tolist()


def refusal(given: Any, script: str = SCRIPT, **words: Any) -> rcell.Refused:
    with pytest.raises(rcell.Refused) as refused:
        rcell.run(script, m=given, **words)
    return refused.value


# Dimensions, nodata and scale of DataArrays


def data_array(dims: tuple[str, ...] = ("y", "x"), values: Any = None, **words: Any) -> Any:
    xarray = pytest.importorskip("xarray")
    array = np.arange(12).reshape(3, 4) if values is None else values
    coordinates = {"y": [2.5, 1.5, 0.5], "x": [0.5, 1.5, 2.5, 3.5]} if values is None else {}
    return xarray.DataArray(array, coordinates, dims[: array.ndim], **words)


def test_dimensions_are_known_by_their_names() -> None:
    array = data_array()
    assert cells(array.transpose("x", "y")) == cells(array) == np.arange(12).reshape(3, 4).tolist()
    upward = array.isel(y=slice(None, None, -1))
    assert cells(upward.transpose("x", "y")) == cells(array)
    renamed = array.rename(y="lat", x="lon")
    assert cells(renamed.transpose("lon", "lat")) == cells(array)
    for key, row, column in [
        ("axis", "Y", "X"),
        ("standard_name", "grid_latitude", "grid_longitude"),
        ("units", "degrees_north", "degrees_east"),
    ]:
        told = array.rename(y="rows", x="cols")
        told.rows.attrs[key], told.cols.attrs[key] = row, column
        assert cells(told.transpose("cols", "rows")) == cells(array)


def test_dimensions_of_one_element_keep_their_place() -> None:
    xarray = pytest.importorskip("xarray")
    assert cells(xarray.DataArray([[[1], [2], [3]]], dims=("y", "x", "band"))) == [[1, 2, 3]]
    assert cells(xarray.DataArray([[[1, 2, 3]]], dims=("band", "y", "x"))) == [[1, 2, 3]]
    assert cells(xarray.DataArray([[1, 2, 3]])) == [[1, 2, 3]]
    assert "must be along different axes" in str(
        refusal(xarray.DataArray([[1, 2]], dims=("x", "lon")))
    )


def test_nodata_of_a_data_array() -> None:
    values = np.array([[1.0, 2.0, np.nan]])
    assert cells(data_array(values=values, attrs={"_FillValue": np.nan, "nodata": 2})) == [
        [1, None, None]
    ]
    assert "must have one nodata value; got 1, 2" in str(
        refusal(data_array(values=values, attrs={"_FillValue": 1, "nodata": 2}))
    )
    assert "nodata values must be numbers; got 'x'" in str(
        refusal(data_array(values=values, attrs={"_FillValue": "x"}))
    )


def test_nodata_of_what_was_scaled_is_no_longer_nodata() -> None:
    decoded = data_array(values=np.array([[100.0, 2.0, np.nan]]))
    scalings: list[dict[str, Any]] = [{"add_offset": 200.0}, {"scale_factor": 2}]
    for scaled in scalings:
        decoded.encoding = {"_FillValue": 100, **scaled}
        assert cells(decoded) == [[100, 2, None]]
    decoded.encoding = {"_FillValue": 100, "scale_factor": 1.0, "add_offset": 0.0}
    assert cells(decoded) == [[None, 2, None]]


@pytest.mark.parametrize(
    "told, found",
    [
        ("float64", "int32"),
        ("uint16", "int16"),
        ("int8", "uint8"),
        ("int32", "uint32"),
        ("int32", "float32"),
        ("uint8", "int64"),
    ],
)
def test_cells_of_another_type_than_dask_was_told_are_refused(told: str, found: str) -> None:
    dask = pytest.importorskip("dask.array")
    given = dask.zeros((4, 3), chunks=(2, 3), dtype="uint8").map_blocks(
        lambda part: part.astype(found), dtype=told
    )
    text = (
        f"m: its cells are of type {found}, but Dask expected {told}: specify the type, for example "
        f"map_blocks(.., dtype='{found}')"
    )
    assert str(refusal(data_array(values=given, attrs={"_FillValue": 0}))) == text
    turned = dask.zeros((2, 3), chunks=(2, 3), dtype="uint8").map_blocks(
        lambda part: part.reshape(3, 2), dtype="uint8"
    )
    assert "a block has the shape (3, 2), but Dask expected (2, 3)" in str(
        refusal(data_array(values=turned))
    )


def test_a_scaled_data_array_is_refused() -> None:
    told = str(refusal(data_array(attrs={"scale_factor": 0.5})))
    assert told == (
        "m: its values are scaled: each cell times 0.5, plus 0; write them out as whole "
        "numbers first"
    )
    assert "plus 3" in str(refusal(data_array(attrs={"add_offset": 3})))
    decoded = data_array()
    decoded.encoding["scale_factor"] = 0.5
    assert cells(decoded) == np.arange(12).reshape(3, 4).tolist()


def test_arrays_of_other_kinds() -> None:
    xarray = pytest.importorskip("xarray")
    dask = pytest.importorskip("dask.array")
    assert cells(dask.from_array(LAND, chunks=2)) == LAND.tolist()
    assert (
        "got a Dataset: pass it as the only map, or pass one variable, for example dataset['lc']"
        in str(refusal(xarray.Dataset({"lc": data_array()})))
    )


def test_types_and_nodata_at_their_ends() -> None:
    assert cells(np.array([[1, 2**31 - 1]], ">u8")) == [[1, 2**31 - 1]]
    assert cells(rcell.Raster(np.array([[1, 2**64 - 1]], ">u8"), nodata=2**64 - 1)) == [
        [1, None]
    ]
    beyond: Any = np.float64(2.0**63)
    assert cells(rcell.Raster(np.array([[1, 2]], np.int64), nodata=beyond)) == [[1, 2]]
    assert "row 1, column 2 is inf" in str(
        refusal(rcell.Raster(np.array([[1, np.inf]], np.float32), nodata=1e300))
    )


@pytest.mark.parametrize("dtype", ["int8", "uint8", "int16", "int32", "int64", "uint64", "float32"])
def test_any_byte_of_a_mask_but_0_is_true(dtype: str) -> None:
    mask = np.array([[0, 4, 255]], np.uint8).view(bool)
    array: Any = np.ma.MaskedArray(np.array([[1, 2, 3]], dtype), mask)
    assert cells(array) == [[1, None, None]]
    assert cells(data_array(values=array)) == [[1, None, None]]
    assert cells(mask) == [[0, 1, 1]]


def test_a_nodata_beyond_all_numbers_is_no_cell() -> None:
    values: list[Any] = [10**400, -(10**400), np.longdouble("1e400")]
    for nodata in values:
        for array in (
            np.array([[1, 2]]),
            np.array([[1, 2]], np.uint8),
            np.array([[1.0, 2.0]], np.float32),
        ):
            assert cells(rcell.Raster(array, nodata=nodata)) == [[1, 2]]
        assert "row 1, column 2 is inf" in str(
            refusal(rcell.Raster(np.array([[1, np.inf]]), nodata=nodata))
        )


@pytest.mark.parametrize(
    "labels, told",
    [
        ({None: "n"}, "None is not a whole number"),
        ({1.5: "f"}, "1.5 is not a whole number"),
        ({2**31: "x"}, "2147483648 is outside -2147483647 to 2147483647"),
        ({-(2**31): "x"}, "-2147483648 is outside -2147483647 to 2147483647"),
        ({1: "\ud800"}, "the label of 1 contains a character that files cannot store: '\\ud800'"),
        ({1: "\udcff"}, "that files cannot store: '\\udcff'"),
        ({1: "a\0b"}, "the label contains a NUL character"),
        (["wood"], "labels must be a path, a dict, a Series or a DataFrame; got ['wood']"),
    ],
)
def test_labels_are_texts_of_categories(labels: Any, told: str) -> None:
    with pytest.raises(rcell.RcellError) as refused:
        rcell.Raster(LAND, labels=labels)
    assert told in str(refused.value)


def test_labels_of_a_legend_are_of_whole_numbers_however_they_are_written() -> None:
    assert rcell.Raster(LAND, labels={"1": "wood", 2.0: "water", 3: None}).labels == {
        1: "wood",
        2: "water",
    }


def test_labels_that_no_file_can_hold_are_not_written(tmp_path: pathlib.Path) -> None:
    made = rcell.grid("r.reclass input=m output=k\n* = 1 \udcff\nend", "k", m=LAND)
    with pytest.raises(rcell.BadMap) as refused:
        made.write(tmp_path / "k.tif")
    assert str(
        refused.value
    ) == "k: the label of 1 contains a character that files cannot store: '\\udcff'" and not list(
        tmp_path.iterdir()
    )
    labels: Any = {np.int64(1): np.str_("\u00fc"), -5: "", 2**31 - 1: "x"}
    kept = rcell.grid("", "m", m=rcell.Raster(LAND, labels=labels))
    assert rcell.grid("", "m", m=kept.write(tmp_path / "m.tif")).labels == {
        1: "\u00fc",
        2**31 - 1: "x",
    }


def test_labels_of_what_is_no_category_are_left_out() -> None:
    flags = data_array(
        attrs={"flag_values": [1.0, 1.5, np.nan, 2.0**31, -3.0], "flag_meanings": "a b c d e"}
    )
    assert rcell.grid("", "m", m=flags).labels == {1: "a", -3: "e"}
    rows = "".join(
        f"<Row><F>{value}</F><F>{value}</F></Row>"
        for value in ("1", "nan", "1e400", "x", "3000000000", "1.5")
    )
    fields = "".join(
        f"<FieldDefn><Name>{name}</Name><Usage>{usage}</Usage></FieldDefn>"
        for name, usage in (("Value", 5), ("Class", "2"))
    )
    table = (
        f"<GDALRasterAttributeTable>{fields}{rows}<Row><F>2</F></Row></GDALRasterAttributeTable>"
    )
    band = ElementTree.fromstring(f"<VRTRasterBand>{table}</VRTRasterBand>")
    assert legend_of_band(band, "map.tif").labels == {1: "1"}


def test_chunks_of_unknown_size_are_refused() -> None:
    dask = pytest.importorskip("dask.array")
    whole = dask.from_array(LAND, chunks=(1, 4))
    some = data_array(values=whole[whole[:, 0] > 0])
    told = "m: the sizes of its Dask chunks are unknown: call .data.compute_chunk_sizes() first"
    assert str(refusal(some)) == told
    some.data.compute_chunk_sizes()
    assert cells(some) == LAND[LAND[:, 0] > 0].tolist()


# Rasters


def test_cells_of_64_bits_are_exact(tmp_path: pathlib.Path) -> None:
    gdal = pytest.importorskip("osgeo.gdal")
    for code, dtype, nodata in (
        (12, np.uint64, 2**64 - 1),
        (13, np.int64, -9999),
        (13, np.int64, 2**53),
        (13, np.int64, None),
    ):
        path = str(tmp_path / "wide.tif")
        dataset = gdal.GetDriverByName("GTiff").Create(path, 3, 1, 1, code)
        band = dataset.GetRasterBand(1)
        if nodata is not None:
            (band.SetNoDataValueAsUInt64 if code == 12 else band.SetNoDataValueAsInt64)(nodata)
        band.WriteArray(np.array([[nodata or 1, 2, 3]], dtype))
        del dataset, band
        assert cells(path) == [[None if nodata else 1, 2, 3]]
        assert cells(rasterio.open(path)) == [[None if nodata else 1, 2, 3]]
    near = np.array([[2**53, 2**53 + 1]])
    assert "row 1, column 2 is 9007199254740993" in str(
        refusal(rcell.Raster(near, nodata=2.0**53))
    )


def test_transparent_cells_are_null(raster: Write) -> None:
    from rasterio.enums import ColorInterp

    def transparent(dataset: Any) -> None:
        dataset.colorinterp = [ColorInterp.gray, ColorInterp.alpha]

    alpha = np.stack([LAND, np.where(LAND == 2, 0, 128).astype("uint8")])
    wanted = [[None if cell == 2 else cell for cell in row] for row in LAND.tolist()]
    assert cells(raster(alpha, edit=transparent)) == wanted
    with_nodata = [[None if cell == 3 else cell for cell in row] for row in wanted]
    assert cells(raster(alpha, edit=transparent, nodata=3)) == with_nodata


@pytest.mark.parametrize("bad", [float("nan"), float("inf")])
def test_a_transform_that_is_not_finite_is_refused(raster: Write, bad: float) -> None:
    for place in (0, 2, 4):
        transform = [*TRANSFORM]
        transform[place] = bad
        assert "finite numbers" in str(refusal((LAND, transform)))
        assert "finite numbers" in str(refusal(raster(LAND, transform=transform)))
    array = data_array()
    assert "not finite" in str(refusal(array.assign_coords(x=[0.5, 1.5, 2.5, bad])))


def test_what_is_no_map_is_refused(tmp_path: pathlib.Path, raster: Write) -> None:
    with pytest.raises(rcell.BadMap, match="nodata must be a number; got '3'"):
        rcell.Raster([[1]], nodata="3")  # type: ignore[arg-type]
    assert "rows of equal length" in str(refusal([[1, 2], [3]]))
    with pytest.raises(rcell.BadMap, match="an Affine or six numbers"):
        rcell.Raster([[1]], (1, 2, 3))
    with pytest.raises(rcell.BadMap, match="rows and columns must be whole numbers; got 1.5 and 1"):
        rcell.Region(1, 0, 1, 0, rows=1.5, cols=1)  # type: ignore[arg-type]
    assert "NUL" in str(refusal("a\0b"))
    for name, better in (("a=b", "a_b"), ("a-b", "a_b"), ("1", "m_1"), ("a\0", "a_")):
        with pytest.raises(rcell.BadArgument, match=f"maps must have names of .* write {better}$"):
            rcell.run("", {name: [[1]]})
    stale = data_array()
    stale = stale.assign_coords(spatial_ref=0)
    stale.spatial_ref.attrs["GeoTransform"] = "1 2 3"
    assert "an Affine or six numbers" in str(refusal(stale))


def test_thousands_of_bands_are_refused_at_once(tmp_path: pathlib.Path) -> None:
    """A TIFF of 518 bytes may declare 65,535 bands, which must not be examined for each band."""
    bands = "".join(f'<VRTRasterBand dataType="Byte" band="{band}"/>' for band in range(1, 20001))
    path = tmp_path / "many.vrt"
    path.write_text(f'<VRTDataset rasterXSize="1" rasterYSize="1">{bands}</VRTDataset>')
    began = time.process_time()
    with pytest.raises(rcell.BadMap, match="has 20000 bands"):
        rcell.run("r.stats -c input=m", m=path)
    assert time.process_time() - began < 20


def test_edges_of_a_grid_are_exact(tmp_path: pathlib.Path) -> None:
    path, copy = tmp_path / "m.txt", tmp_path / "copy.txt"
    path.write_text(
        "north: 9999999999.12345678\nsouth: 9999999998.12345678\neast: 1\nwest: 0\nrows: "
        "1\ncols: 1\n7\n"
    )
    rcell.grid("", "m", m=path).write(copy)
    assert copy.read_text().startswith("north: 9999999999.12345678\nsouth: 9999999998.12345678\n")
    assert rows_of(rcell.table("r.stats input=a,b", a=path, b=copy)) == [(7, 7)]
    assert "arguments" not in str(refusal(_grid(tmp_path, "north: 1e999")))


def _grid(folder: pathlib.Path, first: str) -> pathlib.Path:
    path = folder / "grid.txt"
    path.write_text(f"{first}\nsouth: 0\neast: 1\nwest: 0\nrows: 1\ncols: 1\n7\n")
    return path


def test_classes_are_whole_numbers() -> None:
    assert rcell.patches(LAND, classes=[1.0]).equals(rcell.patches(LAND, classes=[1]))  # type: ignore[list-item]
    with pytest.raises(rcell.BadArgument, match="classes must be whole numbers .*; got 1.9"):
        rcell.patches(LAND, classes=[1.9])  # type: ignore[list-item]


@pytest.mark.parametrize("blank", ["\u3000", "\u2028", "\u0085", "\v", "\f", "\x1c", "\u00a0"])
def test_labels_keep_the_blanks_of_unicode(blank: str) -> None:
    table = rcell.run(
        f"r.reclass input=m output=k\n1 thru 9 = 1 {blank}wide\nend\nr.stats -l input=k", m=LAND
    ).tables[0]
    assert rows_of(table)[0] == (1, f"{blank}wide")
    script = f"r.reclass input=m output=k\n{'1' * 5} = 1 {'0' * 9}\nend\nr.stats -l input=k"
    assert rows_of(rcell.table(script, m=LAND)) == [(None, None)]


# Coordinate reference systems

UTM, GAUSS = "EPSG:25832", "EPSG:31467"
OTHER = (
    "its coordinate reference system is EPSG:31467 (DHDN / 3-degree Gauss-Kruger zone 3), but "
    "`a` has EPSG:25832 "
    "(ETRS89 / UTM zone 32N): reproject one of them first, for example with gdalwarp -t_srs EPSG:25832"
)
NONE = (
    "it has no coordinate reference system, but `a` has EPSG:25832 (ETRS89 / UTM zone 32N): "
    'state it with crs="EPSG:25832"'
)


def crossed(a: Any, b: Any, **words: Any) -> Any:
    return rows_of(rcell.table("r.stats -c input=a,b", a=a, b=b, **words))


def test_maps_of_two_reference_systems_are_refused(raster: Write) -> None:
    maps = raster(LAND, "a.tif", crs=UTM), raster(LAND, "b.tif", crs=GAUSS)
    with pytest.raises(rcell.OtherCrs) as refused:
        crossed(*maps)
    assert (refused.value.source, refused.value.text) == ("b", OTHER)
    shifted = raster(LAND[:2], "c.tif", crs=GAUSS)
    with pytest.raises(rcell.OtherCrs):  # before regions are compared
        crossed(maps[0], shifted)
    with pytest.raises(rcell.OtherCrs, match="but crs= is EPSG:31467"):
        crossed(maps[0], maps[0], crs=GAUSS)
    assert crossed(maps[0], maps[0]) == crossed(
        maps[0], rcell.Raster(LAND, TRANSFORM, rasterio.crs.CRS.from_epsg(25832))
    )


def test_a_map_without_a_reference_system_is_refused_next_to_one(raster: Write) -> None:
    given, array = raster(LAND, crs=UTM), (LAND, TRANSFORM)
    for maps, name in (((given, array), "b"), ((array, given), "a")):
        with pytest.raises(rcell.OtherCrs) as refused:
            crossed(*maps)
        assert (refused.value.source, refused.value.text) == (
            name,
            NONE if name == "b" else NONE.replace("`a`", "`b`"),
        )
    assert crossed(given, array, crs=UTM) == crossed(array, array) == crossed(given, given)
    assert rcell.run("r.out.ascii input=m", m=array, crs=UTM).grids["m"].crs == UTM
    with pytest.raises(
        rcell.BadArgument, match="crs must be a coordinate reference system; got 'nonsense'"
    ):
        crossed(array, array, crs="nonsense")


def test_a_reference_system_that_is_not_understood_is_refused(
    monkeypatch: pytest.MonkeyPatch,
) -> None:
    assert "its coordinate reference system is not understood: 'nonsense'" in str(
        refusal(rcell.Raster([[1]], crs="nonsense"))
    )
    compound = rcell.Raster([[1]], (1, 0, 10, 0, -1, 50), "EPSG:9707")
    assert rcell.composition(compound, area="km2")["area_km2"][0] == pytest.approx(
        8056.245, abs=0.001
    )
    with pytest.raises(rcell.BadArgument, match="area requires a map in metres or feet"):
        rcell.table(SCRIPT, m=compound, area="ha")
    modules: dict[str, Any] = sys.modules
    for name in ("pyproj", "osr"):
        monkeypatch.setitem(modules, f"rcell.readers.{name}", None)
    other = rcell.Raster([[1, 1]], (1, 0, 10, 0, -1, 50), "EPSG:4267")
    assert rows_of(rcell.table(SCRIPT, m=other)) == [(1, 2)]
    with pytest.raises(
        rcell.MissingLibrary, match="to read the coordinate reference system 'EPSG:4267'"
    ):
        rcell.table(SCRIPT, m=other, area="ha")


@pytest.mark.parametrize(
    ("one", "other", "is_same"),
    [
        ("EPSG:4326", "OGC:CRS84", True),
        ("EPSG:3035", ESRI_LAEA, True),
        (
            "EPSG:3035",
            "+proj=laea +lat_0=52 +lon_0=10 +x_0=4321000 +y_0=3210000 +ellps=GRS80",
            False,
        ),
        ("+proj=longlat +R=6371000", "+proj=longlat +R=6371000 +no_defs", True),
        ("+proj=utm +zone=32 +units=km", "+proj=utm +zone=32 +units=km +type=crs", True),
        ("EPSG:4326", "EPSG:4258", False),
        ("EPSG:25832", "EPSG:32632", False),
    ],
)
@pytest.mark.parametrize("library", ["pyproj", "osr"])
def test_reference_systems_are_the_same_whatever_their_spelling(
    library: str, one: str, other: str, is_same: bool
) -> None:
    crs_of = importlib.import_module(f"rcell.readers.{library}").crs_of
    assert crs_of(one).same(crs_of(other)) is is_same
    assert crs_of(crs_of(one).wkt).same(crs_of(other)) is is_same


@pytest.mark.parametrize(
    ("crs", "kind"),
    [
        ("EPSG:4978", "geocentric"),
        ("EPSG:5783", "vertical"),
        ('LOCAL_CS["site",UNIT["metre",1]]', "local"),
    ],
)
@pytest.mark.parametrize("library", ["pyproj", "osr"])
def test_systems_without_a_plane_have_no_areas(library: str, crs: str, kind: str) -> None:
    assert importlib.import_module(f"rcell.readers.{library}").crs_of(crs).kind == kind
    with pytest.raises(rcell.Refused, match=f" is {kind}, so cells have no area: reproject"):
        rcell.composition(rcell.Raster([[1]], crs=crs), area="ha")


def test_cells_centred_on_the_poles_have_the_area_of_the_ellipsoid() -> None:
    ones = np.ones((721, 1440), int)
    globe = rcell.Raster(ones, (0.25, 0, -180.125, 0, -0.25, 90.125), "EPSG:4326")
    # The surface of WGS 84: 4 pi times the square of its authalic radius, 6,371,007.1809 m.
    area = rcell.composition(globe, area="km2")["area_km2"][0]
    assert area == pytest.approx(510_065_621.724, rel=1e-11)
    beyond = rcell.Raster(ones, (0.25, 0, -180.125, 0, -0.25, 90.25), "EPSG:4326")
    with pytest.raises(rcell.Refused, match="the map extends beyond the pole: north is 90.25"):
        rcell.composition(beyond)


def test_areas_are_the_nearest_floats() -> None:
    land = (np.ones((1, 5), int), (30, 0, 0, 0, -30, 0))
    assert rows_of(rcell.table(SCRIPT, m=land, area="ha", crs=UTM)) == [(1, 5, 0.45)]


# Errors with advice


@pytest.mark.parametrize(
    "call", [rcell.run, rcell.table, lambda script, **maps: rcell.grid(script, "m", **maps)]
)
def test_a_lone_surrogate_in_a_script_is_refused(call: Any) -> None:
    with pytest.raises(rcell.Refused) as refused:
        call("# \u00fc\udcff\nr.stats -c  # \u00fc\ud800", m=LAND)
    first, *shown = str(refused.value).split("\n")
    assert first == "script, line 2: lone surrogate U+D800 at column 17"
    assert shown == ["  r.stats -c  # \u00fc\ufffd", " " * 17 + "^"]
    assert cells(LAND, script="# \udcff") == LAND.tolist()


def test_a_long_line_is_shown_in_part() -> None:
    long = refusal(LAND, "r.stats -c input=m " + "x" * 2**19)
    assert (long.text, len(long.content or "")) == ("line too long", 2**19 + 19)
    assert len(str(long)) < 200
    marked = refusal(LAND, "r.mapcalc b = " + "m + " * 400 + "1.5")
    text, line, mark = str(marked).split("\n")[:3]
    assert text == f"script, line 1: number not whole at column {marked.column}"
    assert line.startswith("  ..") and line[mark.index("^") :].startswith("1.5") and len(line) < 120


def test_the_program_judges_the_script_before_a_map_is_missed() -> None:
    for script, column in (
        ('r.mapcalc "x = lc * 2"', 11),
        ('r.mapcalc expression="x = lc * 2"', None),
    ):
        with pytest.raises(rcell.Refused) as refused:
            rcell.grid(script, "x", lc=LAND)
        assert (refused.value.source, refused.value.line) == ("script", 1)
        if column:
            assert (refused.value.text, refused.value.column) == ("bad byte at column 11", 11)
            assert str(refused.value).splitlines()[2] == " " * 12 + "^"
            assert refused.value.advice == "r.mapcalc x = lc * 2"
    with pytest.raises(rcell.BadArgument, match=r"\(lc, x\); got 'y'"):
        rcell.grid("r.mapcalc x = lc * 2", "y", lc=LAND)


@pytest.mark.parametrize(
    ("script", "column", "advice"),
    [
        ("r.stats -cn lc", 13, "r.stats -cn input=lc"),
        ("r.stats -c in=lc", 12, "r.stats -c input=lc"),
        ("r.stats -c input=lc output=t.txt", 21, "r.stats -c input=lc"),
        (
            "r.stats -c -1 input=lc",
            None,
            "use one of the two: `-1` cannot be combined with `-c` or `after=`",
        ),
        ("r.stat input=lc", None, "r.stats input=lc"),
        ("r.reclass input=lc output=k\n1 = 1 a", None, "add a line `end` after the last rule"),
        ("r.mapcalc x = lc = 2", 18, "r.mapcalc x = lc == 2"),
    ],
)
def test_a_refusal_says_what_to_write(script: str, column: int | None, advice: str) -> None:
    with pytest.raises(rcell.Refused) as refused:
        rcell.run(script, lc=LAND)
    assert (refused.value.column, refused.value.advice) == (column, advice)
    assert str(refused.value).splitlines()[-1] == f"  try: {advice}"


def test_all_errors_are_of_one_tree() -> None:
    assert issubclass(rcell.OtherCrs, rcell.RcellError)
    assert "x86-64-v2" in str(rcell.Killed(4))


def test_a_pivot_tells_classes_of_one_label_apart() -> None:
    labelled = rcell.Raster([[1, 2, 3, 0]], nodata=0, labels={1: "x", 2: "x", 3: "null"})
    matrix = rcell.table("r.stats -cl input=a,b", a=labelled, b=labelled, pivot=True)
    assert matrix.index.tolist() == ["x (1)", "x (2)", "null (3)", "null"]


def environment(**words: str) -> dict[str, str]:
    return {
        **os.environ,
        "PYTHONPATH": str(pathlib.Path(rcell.__file__).parents[1]),
        "RCELL": find_program(),
        **words,
    }


def test_a_rejected_script_leaves_no_file_open(raster: Write) -> None:
    path = raster(LAND)
    scripts = [
        "r.stats input=b",
        "nonsense",
        "r.mapcalc x = m[0,",
        "r.out.ascii input=q",
    ]

    def opened() -> list[str]:
        folder = "/proc/self/fd"
        found = [f"{folder}/{number}" for number in os.listdir(folder)]
        return [it for it in found if os.path.realpath(it) == os.path.realpath(path)]

    gc.collect()
    gc.disable()
    try:
        for script in scripts:
            with contextlib.suppress(rcell.Refused):
                rcell.table(script, m=path)
        assert opened() == []
    finally:
        gc.enable()
