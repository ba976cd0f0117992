"""Test rasters and polygons with GDAL's Python bindings: types, nulls, positions and errors."""

from __future__ import annotations

import pathlib
import sys
from typing import Any, Callable

import numpy as np
import pytest

import rcell
from rcell.core.crs import _known as known
from rcell.core.protocol import NULL
from rcell.core.scripts import run
from rcell.core.zones import Feature

gdal = pytest.importorskip("osgeo.gdal")
ogr = pytest.importorskip("osgeo.ogr")

from rcell.readers import ogr as polygons  # noqa: E402
from rcell.readers.gdal import RasterMap, open_raster  # noqa: E402

CELLS = np.array([[1, 2, 2], [7, 0, 1]])
PLACE = (500000.0, 20.0, 0.0, 5400000.0, 0.0, -20.0)
Made = Callable[..., RasterMap]
SENT = ("Byte", "UInt16", "Int16", "Int32", "UInt32", "Int64")
CONVERTED = ("UInt64", "Float32", "Float64")


@pytest.fixture
def made(tmp_path: pathlib.Path) -> Made:
    """Return a function that writes cells as a GeoTIFF, and opens it."""

    def write(
        cells: Any = CELLS,
        kind: str = "Int32",
        nodata: Any = None,
        place: Any = PLACE,
        bands: int = 1,
        **words: Any,
    ) -> RasterMap:
        path = str(tmp_path / f"map{len(list(tmp_path.iterdir()))}.tif")
        array = np.atleast_2d(np.asarray(cells))
        code = gdal.GetDataTypeByName(kind)
        dataset = gdal.GetDriverByName("GTiff").Create(path, *array.shape[::-1], bands, code)
        if place is not None:
            dataset.SetGeoTransform(place)
        for number in range(1, bands + 1):
            band = dataset.GetRasterBand(number)
            band.WriteArray(array)
            if nodata is not None:
                setter = f"SetNoDataValueAs{kind}" if kind.endswith("nt64") else "SetNoDataValue"
                getattr(band, setter)(nodata)
        del band, dataset
        return open_raster("lc", path, **words)

    return write


def counts(source: RasterMap) -> list[Any]:
    [table] = run("r.stats -c input=lc", lc=source)
    return list(table.rows)


def refusal(call: Callable[[], Any]) -> str:
    with pytest.raises(rcell.BadMap) as caught:
        call()
    return str(caught.value.text)


@pytest.mark.parametrize("kind", [*SENT, *CONVERTED])
def test_types_of_whole_numbers(made: Made, kind: str) -> None:
    source = made(kind=kind, nodata=0)
    assert counts(source) == [(1, 2), (2, 2), (7, 1), (None, 1)]
    is_converted = kind in CONVERTED
    assert (source.nodata, source.is_masked) == (NULL if is_converted else 0, False)


@pytest.mark.parametrize(
    ("cell", "kind", "told"),
    [
        (2.5, "Float64", "2.5"),
        (3e9, "Float64", "3000000000, outside"),
        (4294967295, "UInt32", "4294967295, outside"),
        (-(2**31), "Int32", "-2147483648, outside"),
        (2**40, "Int64", "1099511627776, outside"),
        (np.inf, "Float32", "inf, outside"),
    ],
)
def test_a_cell_that_is_not_a_category(made: Made, cell: float, kind: str, told: str) -> None:
    array = CELLS.astype(float if kind.startswith("Float") else np.int64)
    array[1, 2] = cell
    source = made(array, kind)
    text = f"not a map of whole numbers: the cell at row 2, column 3 is {told}"
    assert refusal(lambda: counts(source)).startswith(text)


@pytest.mark.parametrize("kind", ["Byte", "Int64", "Float64"])
def test_ranges_that_the_user_declares_null(made: Made, kind: str) -> None:
    ranges = [(1.5, 2.5), (-1e30, -5.0), (0.2, 0.8), (300.0, float("inf"))]
    assert counts(made(kind=kind, nodata=7, null_ranges=ranges)) == [(0, 1), (1, 2), (None, 3)]
    unused = made(kind=kind, nodata=7, null_ranges=[(2, 6)], uses_nodata=False)
    assert counts(unused) == [(0, 1), (1, 2), (7, 1), (None, 2)]


def test_nan_and_the_smallest_number_are_null(made: Made) -> None:
    assert counts(made([[1.0, np.nan, -9.0]], "Float32", -9)) == [(1, 1), (None, 2)]
    assert counts(made([[1, -(2**31)]], "Int32", -(2**31))) == [(1, 1), (None, 1)]


def test_null_of_64_bits_is_exact(made: Made) -> None:
    for kind, cell in (("UInt64", 2**64 - 1), ("Int64", -(2**63))):
        cells = np.array([[cell, 2]], np.uint64 if kind == "UInt64" else np.int64)
        assert counts(made(cells, kind, cell)) == [(2, 1), (None, 1)]
    near = np.array([[2**53 + 1, 2]], np.int64)
    assert "9007199254740993" in refusal(lambda: counts(made(near, "Int64", 2**53)))
    declared = made(near, "Int64", null_ranges=[(float(2**53), float(2**53))])
    assert "9007199254740993" in refusal(lambda: counts(declared))


def test_transparent_and_masked_cells_are_null(made: Made, tmp_path: pathlib.Path) -> None:
    path, alpha = str(tmp_path / "alpha.tif"), np.array([[255, 0, 255], [255, 255, 1]], np.uint8)
    options = ["ALPHA=YES", "PHOTOMETRIC=MINISBLACK"]
    dataset = gdal.GetDriverByName("GTiff").Create(path, 3, 2, 2, gdal.GDT_Byte, options)
    for number, cells in enumerate((CELLS.astype(np.uint8), alpha), 1):
        dataset.GetRasterBand(number).WriteArray(cells)
    del dataset
    assert counts(open_raster("lc", path)) == [(0, 1), (1, 2), (2, 1), (7, 1), (None, 1)]
    source = made()
    dataset = gdal.Open(source.path, gdal.GA_Update)
    dataset.CreateMaskBand(gdal.GMF_PER_DATASET)
    dataset.GetRasterBand(1).GetMaskBand().WriteArray(alpha)
    del dataset
    assert counts(open_raster("lc", source.path))[-1] == (None, 1)


def test_rows_from_south_to_north_are_turned(made: Made) -> None:
    turned = made(CELLS[::-1], place=(500000, 20, 0, 5399960, 0, 20))
    usual = made()
    assert (turned.region, turned.transform) == (usual.region, usual.transform)
    assert [block.cells.tolist() for block in turned.blocks()] == [CELLS.tolist()]


@pytest.mark.parametrize("library", ["gdal", "rasterio"])
def test_no_transform_and_an_exact_identity_are_told_apart(
    made: Made, library: str, recwarn: Any
) -> None:
    reader = pytest.importorskip(f"rcell.readers.{library}")
    bare = reader.open_raster("lc", made(place=None).path)
    exact = reader.open_raster("lc", made(place=(0, 1, 0, 0, 0, 1)).path)
    assert [block.cells.tolist() for block in bare.blocks()] == [CELLS.tolist()]
    assert [block.cells.tolist() for block in exact.blocks()] == [CELLS[::-1].tolist()]
    assert bare.transform == exact.transform == (1, 0, 0, 0, -1, 2)


def test_places_and_bands_that_are_rejected(made: Made) -> None:
    nan = float("nan")
    assert "finite numbers" in refusal(lambda: made(place=(nan, 1, 0, 0, 0, -1)))
    assert refusal(lambda: made(place=(0, 1, 0.5, 0, 0.5, -1))).startswith(
        "its transform is rotated"
    )
    assert "west to east" in refusal(lambda: made(place=(10, -1, 0, 100, 0, -1)))
    assert "must have at most ten digits" in refusal(lambda: made(place=(1e11, 1, 0, 1, 0, -1)))
    assert refusal(lambda: made(bands=2)) == "has 2 bands: choose one, for example band=1"
    assert refusal(lambda: made(bands=2, band=3)) == "has 2 bands, but no band 3"
    assert made(bands=2, band=2).band == 2
    assert "type CFloat32" in refusal(lambda: made(kind="CFloat32"))
    scaled = made()
    dataset = gdal.Open(scaled.path, gdal.GA_Update)
    dataset.GetRasterBand(1).SetScale(0.1)
    del dataset
    assert "each cell times 0.1" in refusal(lambda: open_raster("lc", scaled.path))


def test_files_that_are_not_there_or_broken(made: Made, tmp_path: pathlib.Path) -> None:
    for name in ("nowhere.tif", "\udcff.tif"):
        assert refusal(lambda: open_raster("lc", str(tmp_path / name))).startswith("cannot open")
    source = made(np.random.default_rng(5).integers(0, 99, (600, 600)))
    with open(source.path, "r+b") as file:
        file.truncate(100_000)
    assert refusal(lambda: counts(source)).startswith("rows ")


def test_files_are_read_without_rasterio_fiona_and_pyproj(
    tmp_path: pathlib.Path, monkeypatch: pytest.MonkeyPatch
) -> None:
    """Simulate a machine that has only GDAL's Python bindings."""
    lc, zones = str(tmp_path / "lc.tif"), str(tmp_path / "zones.geojson")
    dataset = gdal.GetDriverByName("GTiff").Create(lc, 2, 2, 1, gdal.GDT_Byte)
    dataset.SetGeoTransform((10.0, 0.1, 0.0, 50.0, 0.0, -0.1))
    dataset.SetProjection("EPSG:4326")
    dataset.GetRasterBand(1).WriteArray(np.array([[1, 2], [2, 2]], np.uint8))
    del dataset
    box = "[[[10, 49.8], [10.1, 49.8], [10.1, 50], [10, 50], [10, 49.8]]]"
    shape = f'{{"type": "Polygon", "coordinates": {box}}}'
    feature = f'{{"type": "Feature", "properties": {{"id": 7}}, "geometry": {shape}}}'
    pathlib.Path(zones).write_text(f'{{"type": "FeatureCollection", "features": [{feature}]}}')
    usual = rcell.composition(lc, zones=zones, zone_field="id")
    for library in ("rasterio", "fiona", "pyproj"):
        monkeypatch.setitem(sys.modules, library, None)  # type: ignore[misc]
    known.cache_clear()
    found = rcell.composition(lc, zones=zones, zone_field="id")
    known.cache_clear()
    assert found.to_numpy(float) == pytest.approx(usual.to_numpy(float), rel=1e-12)
    assert list(found.columns) == list(usual.columns)


def test_labels_of_the_caller_win(made: Made) -> None:
    source = made()
    dataset = gdal.Open(source.path, gdal.GA_Update)
    dataset.GetRasterBand(1).SetRasterCategoryNames(["", "wood, wet", 'a "quote"'])
    del dataset
    again = open_raster("lc", source.path)
    assert again.labels == {1: "wood, wet", 2: 'a "quote"'}
    assert again.with_labels({1: "of the style"}).labels == {1: "of the style"}


def test_features_of_a_layer(tmp_path: pathlib.Path) -> None:
    path = str(tmp_path / "zones.gpkg")
    source = ogr.GetDriverByName("GPKG").CreateDataSource(path)
    layer = source.CreateLayer("zones")
    layer.CreateField(ogr.FieldDefn("name", ogr.OFTString))
    layer.CreateField(ogr.FieldDefn("number", ogr.OFTInteger64))
    shapes = ("POLYGON((0 0,2 0,2 2,0 2,0 0))", "CURVEPOLYGON(CIRCULARSTRING(2 0,3 1,2 2,1 1,2 0))")
    for wkt, name, number in (
        (shapes[0], "a", 2**53 + 1),
        (None, "b", 2),
        (shapes[1], None, None),
    ):
        feature = ogr.Feature(layer.GetLayerDefn())
        feature.SetGeometry(None if wkt is None else ogr.CreateGeometryFromWkt(wkt))
        for field, value in (("name", name), ("number", number)):
            if value is not None:
                feature.SetField(field, value)
        layer.CreateFeature(feature)
    del feature, layer, source
    opened = polygons.open_layer("zones", path)
    assert opened.fields == ["name", "number"]
    found = [
        (each.id, each.value, each.kind, each.geometry is None)
        for each in opened.features("number")
    ]
    assert found == [
        (1, 2**53 + 1, "Polygon", False),
        (2, 2, "", True),
        (3, None, "Polygon", False),
    ]
    drawn = [each for each in opened.features(None) if isinstance(each, Feature) and each.geometry]
    numbers = [(each.geometry, each.id) for each in drawn]
    grid = opened.burn(numbers, (1.0, 0.0, 0.0, 0.0, -1.0, 2.0), (2, 3))
    assert grid.tolist() == [[1, 3, 3], [1, 3, 3]]
    assert opened.bounds(drawn[0].geometry) == (0, 0, 2, 2)
