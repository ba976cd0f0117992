"""Test polygons as zones: the zone of each feature, and the warnings."""

from __future__ import annotations

import datetime
import pathlib
import warnings
from collections.abc import Sequence
from typing import Any

import numpy as np
import pytest

pytest.importorskip("fiona")
geopandas = pytest.importorskip("geopandas")
ogr = pytest.importorskip("osgeo.ogr")
osr = pytest.importorskip("osgeo.osr")
rcell = pytest.importorskip("rcell")

# A map of 4 x 4 cells of 10 m with one class, and polygons on parts of it.
MAP = rcell.Raster(np.ones((4, 4), int), (10, 0, 0, 0, -10, 40), crs="EPSG:32632")
LEFT = "POLYGON ((0 0, 20 0, 20 40, 0 40, 0 0))"
RIGHT = "POLYGON ((20 0, 40 0, 40 40, 20 40, 20 0))"
FULL = "POLYGON ((0 0, 40 0, 40 40, 0 40, 0 0))"
CORNER = "POLYGON ((0 30, 10 30, 10 40, 0 40, 0 30))"
ENDINGS = {".gpkg": "GPKG", ".shp": "ESRI Shapefile", ".fgb": "FlatGeobuf"}


def layer(
    path: pathlib.Path,
    features: Sequence[tuple[str | None, Any]],
    kind: int = ogr.OFTInteger,
    name: str = "zones",
    subtype: int = 0,
    geometry: int = ogr.wkbPolygon,
) -> str:
    """Write polygons with a field `zone`, and return the path."""
    ogr.UseExceptions()
    system = osr.SpatialReference()
    system.ImportFromEPSG(32632)
    driver = ogr.GetDriverByName(ENDINGS[path.suffix])
    dataset = ogr.Open(str(path), 1) if path.exists() else driver.CreateDataSource(str(path))
    options = ["SPATIAL_INDEX=NO"] if path.suffix == ".fgb" else []
    opened = dataset.CreateLayer(name, system, geometry, options)
    field = ogr.FieldDefn("zone", kind)
    field.SetSubType(subtype)
    opened.CreateField(field)
    for shape, value in features:
        feature = ogr.Feature(opened.GetLayerDefn())
        if value is None:
            feature.SetFieldNull("zone")
        elif isinstance(value, (list, tuple)):
            feature.SetField("zone", *value)
        else:
            feature.SetField("zone", value)
        if shape is not None:
            feature.SetGeometry(ogr.CreateGeometryFromWkt(shape))
        opened.CreateFeature(feature)
    del feature, opened, dataset
    return str(path)


def cells(zones: Any, **words: Any) -> dict[Any, int]:
    """Return the cells of each zone, without its class."""
    found = rcell.composition(MAP, zones, **words)
    names = found["zone_label"] if "zone_label" in found else found["zone"]
    return dict(zip(names.tolist(), found["cells"].tolist()))


def warned(zones: Any, **words: Any) -> list[str]:
    """Return the warnings of a call."""
    with warnings.catch_warnings(record=True) as caught:
        warnings.simplefilter("always")
        cells(zones, **words)
    return [str(warning.message) for warning in caught]


@pytest.mark.parametrize(
    ("ending", "expected"),
    [(".gpkg", {2: 8, 3: 8}), (".shp", {1: 8, 2: 8})],
)
def test_a_feature_without_geometry_keeps_its_id(
    tmp_path: pathlib.Path, ending: str, expected: dict[int, int]
) -> None:
    path = layer(tmp_path / f"z{ending}", [(None, 1), (LEFT, 2), (RIGHT, 3)])
    assert cells(path) == expected


def test_the_zone_of_a_geodataframe_is_its_index() -> None:
    shapes = geopandas.GeoSeries.from_wkt([LEFT, None, RIGHT], index=[10, 20, 30], crs="EPSG:32632")
    assert cells(shapes) == {10: 8, 30: 8}
    assert cells(geopandas.GeoDataFrame(geometry=shapes)) == {10: 8, 30: 8}
    named = geopandas.GeoDataFrame(geometry=shapes.set_axis(["a", "b", "c"]))
    assert cells(named) == {"a": 8, "c": 8}


@pytest.mark.parametrize("ending", ENDINGS)
@pytest.mark.parametrize("kind", [ogr.OFTInteger, ogr.OFTInteger64, ogr.OFTReal])
def test_a_missing_value_is_no_zone(tmp_path: pathlib.Path, ending: str, kind: int) -> None:
    path = layer(tmp_path / f"z{ending}", [(LEFT, 5), (FULL, None)], kind)
    assert cells(path, zone_field="zone") == {5: 8}
    assert warned(path, zone_field="zone") == []


@pytest.mark.parametrize("ending", ENDINGS)
def test_nan_is_no_zone(tmp_path: pathlib.Path, ending: str) -> None:
    path = layer(tmp_path / f"z{ending}", [(LEFT, 1.0), (RIGHT, float("nan"))], ogr.OFTReal)
    assert cells(path, zone_field="zone") == {1: 8}


@pytest.mark.parametrize(
    ("values", "kind", "expected"),
    [
        ([1.0, 7.0], ogr.OFTReal, {1: 8, 7: 8}),
        ([5, 3_000_000_000], ogr.OFTInteger64, {5: 8, 3_000_000_000: 8}),
        ([1234567890123456, 1234567890123457], ogr.OFTInteger64, None),
        ([-4, 0], ogr.OFTInteger, {-4: 8, 0: 8}),
        ([2.5, 1.0], ogr.OFTReal, {"2.5": 8, "1.0": 8}),
        ([0.1 + 0.2, 0.3], ogr.OFTReal, {"0.30000000000000004": 8, "0.3": 8}),
        (["Île", "Çınar"], ogr.OFTString, {"Île": 8, "Çınar": 8}),
        (["7", "8"], ogr.OFTString, {"7": 8, "8": 8}),
        ([(2020, 1, 31, 0, 0, 0, 0), (2019, 12, 1, 0, 0, 0, 0)], ogr.OFTDate, None),
    ],
)
def test_values_of_a_field(tmp_path: pathlib.Path, values: Any, kind: int, expected: Any) -> None:
    if kind == ogr.OFTDate:
        expected = {"2020-01-31": 8, "2019-12-01": 8}
    expected = expected or {value: 8 for value in values}
    path = layer(tmp_path / "z.gpkg", [(LEFT, values[0]), (RIGHT, values[1])], kind)
    found = rcell.composition(MAP, path, zone_field="zone")
    names = found["zone_label"] if "zone_label" in found else found["zone"]
    assert dict(zip(names.tolist(), found["cells"].tolist())) == expected
    if "zone_label" in found:
        assert found["zone"].tolist() == [1, 2]
        assert found["zone_label"].tolist() == list(expected)


def test_booleans_are_true_and_false(tmp_path: pathlib.Path) -> None:
    features = [(LEFT, 1), (RIGHT, 0)]
    path = layer(tmp_path / "z.gpkg", features, subtype=ogr.OFSTBoolean)
    assert cells(path, zone_field="zone") == {"true": 8, "false": 8}
    frame = geopandas.GeoDataFrame(
        {"zone": [True, False], "day": [datetime.date(2020, 1, 2), None]},
        geometry=geopandas.GeoSeries.from_wkt([LEFT, RIGHT]),
        crs="EPSG:32632",
    )
    assert cells(frame, zone_field="zone") == {"true": 8, "false": 8}
    assert cells(frame, zone_field="day") == {"2020-01-02": 8}


def test_a_polygon_under_a_later_one_is_named_as_the_loser() -> None:
    frame = geopandas.GeoDataFrame(
        {"zone": ["under", "over"]},
        geometry=geopandas.GeoSeries.from_wkt([CORNER, FULL]),
        crs="EPSG:32632",
    )
    assert cells(frame, zone_field="zone") == {"over": 16}
    [told] = warned(frame, zone_field="zone")
    assert "1 cells are in more than one polygon, the first at row 1, column 1" in told
    assert "not to feature 0 (under); each=True processes overlapping polygons separately" in told


def test_a_polygon_between_two_others_is_not_without_a_centre() -> None:
    frame = geopandas.GeoDataFrame(
        geometry=geopandas.GeoSeries.from_wkt([FULL, FULL, FULL]), crs="EPSG:32632"
    )
    told = warned(frame)
    assert len(told) == 1
    assert "no centre" not in told[0]


def test_polygons_without_a_centre_are_named() -> None:
    small = "POLYGON ((1 1, 2 1, 2 2, 1 2, 1 1))"
    frame = geopandas.GeoDataFrame(
        {"zone": [7, 9]},
        geometry=geopandas.GeoSeries.from_wkt([FULL, small]),
        crs="EPSG:32632",
    )
    assert warned(frame, zone_field="zone") == [
        "zones: 1 of 2 polygons contain no cell centre: feature 1 (9)"
    ]


def test_overlap_within_one_zone_loses_nothing() -> None:
    frame = geopandas.GeoDataFrame(
        {"zone": [1, 1]}, geometry=geopandas.GeoSeries.from_wkt([CORNER, FULL]), crs="EPSG:32632"
    )
    assert cells(frame, zone_field="zone") == {1: 16}
    assert warned(frame, zone_field="zone") == []


def test_each_takes_one_feature_after_another() -> None:
    frame = geopandas.GeoDataFrame(
        {"zone": ["full", "corner", "left"]},
        geometry=geopandas.GeoSeries.from_wkt([FULL, CORNER, LEFT]),
        crs="EPSG:32632",
    )
    assert cells(frame, zone_field="zone", each=True) == {"full": 16, "corner": 1, "left": 8}
    assert warned(frame, zone_field="zone", each=True) == []
    values = rcell.zonal(MAP, frame, zone_field="zone", each=True)
    assert values["cells"].tolist() == [16, 1, 8]
    assert values["sum"].tolist() == [16, 1, 8]


def test_several_layers_are_listed(tmp_path: pathlib.Path) -> None:
    path = layer(tmp_path / "z.gpkg", [(LEFT, 1)], name="zz")
    layer(tmp_path / "z.gpkg", [(FULL, 1)], name="aa")
    with pytest.raises(rcell.Refused, match=r"has the layers zz, aa: name one, .*layer=\"zz\""):
        cells(path)
    assert cells(f"{path}|layername=aa") == {1: 16}
    assert cells(path, layer="zz") == {1: 8}
    with pytest.raises(rcell.Refused, match="no layer yy: the layers are zz, aa"):
        cells(path, layer="yy")


def test_geometries_of_all_kinds(tmp_path: pathlib.Path) -> None:
    several = (
        "MULTIPOLYGON (((20 0, 40 0, 40 20, 20 20, 20 0)), ((20 20, 40 20, 40 40, 20 40, 20 20)))"
    )
    features = [(LEFT, 1), (several, 2), ("POLYGON EMPTY", 3)]
    path = layer(tmp_path / "u.gpkg", features, geometry=ogr.wkbUnknown)
    assert cells(path, zone_field="zone") == {1: 8, 2: 8}
    curved = "CURVEPOLYGON (CIRCULARSTRING (0 20, 20 40, 40 20, 20 0, 0 20))"
    path = layer(tmp_path / "c.gpkg", [(curved, 4)], geometry=ogr.wkbCurvePolygon)
    assert cells(path, zone_field="zone") == {4: 12}
    path = layer(tmp_path / "l.gpkg", [("LINESTRING (0 0, 9 9)", 4)], geometry=ogr.wkbUnknown)
    with pytest.raises(
        rcell.BadMap, match="features must be polygons, but feature 1 is a LineString"
    ):
        cells(path)


def test_a_field_that_is_not_there(tmp_path: pathlib.Path) -> None:
    path = layer(tmp_path / "z.gpkg", [(LEFT, 1)])
    with pytest.raises(rcell.BadMap, match="zones: no field zones: the only field is zone"):
        cells(path, zone_field="zones")


def test_polygons_without_a_reference_system_are_not_guessed() -> None:
    frame = geopandas.GeoDataFrame(geometry=geopandas.GeoSeries.from_wkt([FULL]))
    with pytest.raises(rcell.OtherCrs, match="no coordinate reference system"):
        cells(frame)
    assert cells(frame, crs="EPSG:32632") == {0: 16}
