"""Compare seven calls, such as composition, patches and align, with numpy, scipy and GDAL."""

from __future__ import annotations

import math
import pathlib
import warnings
from typing import Any, Callable

import numpy as np
import pytest

import rcell
from rcell.core.majority import majority_script
from rcell.core.area import row_areas

from .conftest import LAND, TRANSFORM

pandas = pytest.importorskip("pandas")
rasterio = pytest.importorskip("rasterio")
pyproj = pytest.importorskip("pyproj")
Write = Callable[..., str]
UTM = "EPSG:32632"
NAMES = {1: "wood", 2: "water", 3: "town"}
WORLD = (10.0, 0.0, -180.0, 0.0, -10.0, 90.0)


def land(**words: Any) -> rcell.Raster:
    return rcell.Raster(LAND, TRANSFORM, UTM, 0, NAMES, **words)


def random_maps(seed: int, count: int, most: int = 12, classes: int = 4) -> list[Any]:
    """Return random masked arrays with the same shape."""
    random = np.random.default_rng(seed)
    shape = random.integers(2, most, 2)
    return [
        np.ma.MaskedArray(random.integers(1, classes + 1, shape), mask=random.random(shape) < 0.2)
        for _ in range(count)
    ]


def rows(frame: Any) -> list[tuple[Any, ...]]:
    return [
        tuple(None if pandas.isna(value) else value for value in row)
        for row in frame.itertuples(index=False, name=None)
    ]


# Composition and cross tables


def test_composition_has_its_columns() -> None:
    zones = rcell.Raster(
        [[7, 7, 7, 7], [8, 8, 8, 0], [0, 0, 8, 8]], TRANSFORM, UTM, 0, {7: "north"}
    )
    frame = rcell.composition(land(), zones)
    assert list(frame.columns) == [
        "zone",
        "zone_label",
        "class",
        "label",
        "cells",
        "area_ha",
        "percent",
    ]
    assert [str(kind) for kind in frame.dtypes] == [
        "Int64",
        "string",
        "Int64",
        "string",
        "int64",
        "float64",
        "float64",
    ]
    assert rows(frame) == [
        (7, "north", 1, "wood", 2, 0.125, 200 / 3),
        (7, "north", 2, "water", 1, 0.0625, 100 / 3),
        (8, None, 1, "wood", 3, 0.1875, 60.0),
        (8, None, 2, "water", 2, 0.125, 40.0),
    ]
    assert rows(rcell.composition(land(), area=None, include_null=True))[-1] == (
        None,
        None,
        1,
        None,
    )
    assert list(rcell.composition(LAND, area="km2", crs=UTM).columns) == [
        "class",
        "cells",
        "area_km2",
        "percent",
    ]
    assert rows(rcell.composition(land(), zones, area=None, include_null=True))[2] == (
        7,
        "north",
        None,
        None,
        1,
        None,
    )


@pytest.mark.parametrize("seed", range(6))
def test_tables_beside_numpy(seed: int) -> None:
    a, b, c = random_maps(seed, 3)
    both = ~(a.mask | b.mask)
    for zone, one, cells, percent in rows(rcell.composition(a, zones=b, area=None)):
        assert cells == int((both & (a.data == one) & (b.data == zone)).sum())
        assert percent == cells * 100 / int((both & (b.data == zone)).sum())
    assert rcell.composition(a, zones=b)["cells"].sum() == both.sum()
    every = both & ~c.mask
    for x, y, z, cells, area, percent in rows(rcell.cross(a=a, b=b, c=c, area="m2", crs=UTM)):
        assert cells == area == int((every & (a.data == x) & (b.data == y) & (c.data == z)).sum())
        assert percent == cells * 100 / int(every.sum())
    found = pandas.crosstab(
        pandas.Series(a.data[both], name="a"), pandas.Series(b.data[both], name="b")
    )
    wide = rcell.cross(a=a, b=b).pivot(index="a", columns="b", values="cells").fillna(0)
    assert wide.to_numpy().tolist() == found.to_numpy().tolist()


def test_a_cross_table_of_words_of_the_call() -> None:
    frame = rcell.cross(
        {"area": land(), "labels": land()}, labels={"area": {1: "a", 2: "b", 3: "c"}}
    )
    assert list(frame.columns) == [
        "area",
        "area_label",
        "labels",
        "labels_label",
        "cells",
        "area_ha",
        "percent",
    ]
    assert frame["area_label"].tolist() == ["a", "b", "c"]
    assert rows(rcell.cross(a=land(), b=land(), area=None, include_null=True))[-1] == (
        None,
        None,
        None,
        None,
        1,
        None,
    )


# Change


def test_change_is_that_of_pontius() -> None:
    before, after = np.array([[1, 1, 1, 1, 2, 2, 3, 0]]), np.array([[1, 1, 2, 3, 2, 1, 3, 1]])
    found = rcell.change(
        rcell.Raster(before, TRANSFORM, UTM, 0, NAMES),
        rcell.Raster(after, TRANSFORM, UTM, 0),
        area=None,
    )
    assert list(found.table.columns) == ["from", "from_label", "to", "to_label", "cells", "percent"]
    assert found.table["cells"].sum() == 7 and found.table["percent"].sum() == pytest.approx(100)
    assert rows(found.summary) == [
        (1, "wood", 4, 3, 1, 2, -1, 2, 2),
        (2, "water", 2, 2, 1, 1, 0, 2, 1),
        (3, "town", 1, 2, 1, 0, 1, 0, 1),
    ]
    assert found.matrix.loc["wood"].tolist() == [2, 1, 1] and found.matrix.columns.tolist() == [
        "wood",
        "water",
        "town",
    ]
    assert list(rcell.change(before, after, crs=UTM).summary.columns)[1:] == [
        f"{part}_ha" for part in ("before", "after", "gain", "loss", "net", "swap", "persistence")
    ]
    assert rcell.change(before, after, crs=UTM).matrix.loc[1, 2] == 0.0001


@pytest.mark.parametrize("seed", range(4))
def test_change_beside_numpy(seed: int) -> None:
    maps = random_maps(seed, 3)
    found = rcell.change(maps, years=[2000, 2006, 2012], area="m2", crs=UTM)
    for first, last, before, after in ((2000, 2006, *maps[:2]), (2006, 2012, *maps[1:])):
        kept = ~(before.mask | after.mask)
        table = found.table[(found.table["year_from"] == first) & (found.table["year_to"] == last)]
        assert table["cells"].sum() == kept.sum()
        for row in rows(found.summary[found.summary["year_from"] == first])[:]:
            _, _, code, begun, ended, gain, loss, net, swap, same = row
            assert (begun, ended) == (
                (kept & (before.data == code)).sum(),
                (kept & (after.data == code)).sum(),
            )
            assert same == (kept & (before.data == code) & (after.data == code)).sum()
            assert (gain, loss, net, swap) == (
                ended - same,
                begun - same,
                ended - begun,
                2 * min(gain, loss),
            )
    assert (
        found.matrix.loc[(2000, 2006)].to_numpy().sum()
        == found.table[found.table["year_from"] == 2000]["cells"].sum()
    )


# Patches


@pytest.mark.parametrize("connectivity", [4, 8])
def test_patches_beside_scipy(connectivity: int) -> None:
    ndimage = pytest.importorskip("scipy.ndimage")
    for seed in range(5):
        a, zones = random_maps(seed, 2, 14, 3)
        found = rcell.patches(a, connectivity, zones=zones, core_depth=2, crs=UTM)
        shape = ndimage.generate_binary_structure(2, connectivity // 4)
        assert len(found) == sum(
            ndimage.label((a.data == one) & ~a.mask, shape)[1] for one in (1, 2, 3)
        )
        numbers = rcell.grid(
            f"r.clump {'-d' if connectivity == 8 else ''} input=a output=k", "k", a=a
        ).array.filled(0)
        for row in found.itertuples(index=False):
            inside = numbers == row.patch
            core = ndimage.binary_erosion(inside, ndimage.generate_binary_structure(2, 1), 2)
            assert (row.cells, row.core_ha) == (inside.sum(), core.sum() / 1e4)
            counts = np.bincount(zones.data[inside & ~zones.mask], minlength=1)
            assert (pandas.isna(row.zone) and not counts.any()) or row.zone == counts.argmax()


def test_patches_measure_oblong_cells_and_feet() -> None:
    oblong = rcell.Raster([[1, 1, 2]], (10, 0, 100, 0, -30, 330), UTM)
    assert rcell.patches(oblong)["perimeter_m"].tolist() == [2 * (20 + 30), 2 * (10 + 30)]
    assert rcell.patches(oblong).iloc[0][["west", "south", "east", "north"]].tolist() == [
        100,
        300,
        120,
        330,
    ]
    feet = rcell.Raster([[1]], (10, 0, 0, 0, -10, 30), "EPSG:2263")
    assert rcell.patches(feet)["perimeter_m"][0] == pytest.approx(40 * 1200 / 3937)
    assert list(rcell.patches(LAND, area=None, crs=UTM).columns)[:6] == [
        "patch",
        "class",
        "cells",
        "perimeter_m",
        "core_cells",
        "west",
    ]


# Statistics by zone


@pytest.mark.parametrize("seed", range(5))
def test_zonal_beside_numpy(seed: int) -> None:
    random = np.random.default_rng(seed)
    values, zones = random_maps(seed, 2, 14)
    values = values * random.choice([1, -1, 500_000_000]) + int(random.integers(-9, 9))
    asked = [0, 0.025, 0.1, 0.5, 0.75, 1]
    found = rcell.zonal(values, zones, asked)
    assert list(found.columns)[-6:] == ["q0", "q2_5", "q10", "q50", "q75", "q100"]
    both = ~(values.mask | zones.mask)
    assert found["zone"].tolist() == sorted(set(zones.data[both].tolist()))
    for row in rows(found):
        kept = values.data[both & (zones.data == row[0])].astype(np.int64)
        assert row[1:6] == (
            kept.size,
            int(kept.sum()),
            int(kept.sum()) / kept.size,
            kept.min(),
            kept.max(),
        )
        assert row[6] == pytest.approx(np.var(kept), rel=1e-12)
        assert list(row[7:]) == np.quantile(kept, asked).tolist()


def test_quantiles_are_checked() -> None:
    for given in (1.5, -0.1, "x", float("nan")):
        with pytest.raises(rcell.BadArgument, match="quantiles must be from 0 to 1"):
            rcell.zonal(LAND, LAND, [given])  # type: ignore[list-item]
    assert rcell.zonal(rcell.Raster([[0]], nodata=0), [[1]]).empty


# Majority


@pytest.mark.parametrize("size", [3, 5, 11, 13, 15])
def test_majority_beside_numpy(size: int) -> None:
    [a] = random_maps(size, 1, 9)
    reach = size // 2
    wide = np.pad(np.where(a.mask, 0, a.data), reach)
    expected = np.zeros(a.shape, int)
    for row, col in np.ndindex(*a.shape):
        counts = np.bincount(wide[row : row + size, col : col + size].reshape(-1))
        counts[0] = 0
        expected[row, col] = counts.argmax() if counts.any() else 0
    assert rcell.majority(a, size, fill=True).array.filled(0).tolist() == expected.tolist()
    assert (
        rcell.majority(a, size).array.filled(0).tolist() == np.where(a.mask, 0, expected).tolist()
    )
    assert len(majority_script(size, False).splitlines()) == {13: 55, 15: 127}.get(size, 1)


def test_majority_keeps_labels_and_checks_its_size() -> None:
    found = rcell.majority(land(colors={1: "#00ff00"}))
    assert (found.labels, found.colors) == (NAMES, {1: "#00ff00"})
    for size in (4, 1, 17, 3.0, "3"):
        with pytest.raises(rcell.BadArgument, match="size must be odd, from 3 to 15; got"):
            rcell.majority(LAND, size)  # type: ignore[call-overload]


# Degrees


def surface(axis: float, flattening: float) -> float:
    """Return the area of an ellipsoid of revolution."""
    e = math.sqrt(flattening * (2 - flattening))
    return (
        4 * math.pi * axis**2
        if e == 0
        else 2 * math.pi * axis**2 * (1 + (1 - e**2) / e * math.atanh(e))
    )


@pytest.mark.parametrize("code", [4326, 4258, 4047, 4314])
def test_the_surface_of_the_ellipsoid(code: int) -> None:
    geod = pyproj.CRS.from_epsg(code).get_geod()
    world = rcell.Raster(np.arange(1, 649).reshape(18, 36), WORLD, f"EPSG:{code}")
    frame = rcell.composition(world, area="m2")
    assert frame["area_m2"].sum() == pytest.approx(surface(geod.a, geod.f), rel=1e-12)
    for rows_, height in ((180 * 1200, 1 / 1200), (9, 20.0)):
        areas = row_areas(math.pi / 2, math.radians(height), 2 * math.pi, rows_, (geod.a, geod.f))
        assert areas.sum() == pytest.approx(surface(geod.a, geod.f), rel=1e-12)


def test_cells_in_degrees_are_those_of_dense_parallels() -> None:
    geod = pyproj.Geod(ellps="WGS84")
    for north, side in ((60.0, 0.2), (89.5, 0.0001), (0.5, 1.0), (-33.0, 1 / 120)):
        steps = np.linspace(10, 10 + side, 20_001)
        lon, lat = [*steps, *steps[::-1]], [*np.full(20_001, north - side), *np.full(20_001, north)]
        expected = abs(geod.polygon_area_perimeter(lon, lat)[0])
        found = row_areas(
            math.radians(north), math.radians(side), math.radians(side), 1, (geod.a, geod.f)
        )[0]
        assert found == pytest.approx(expected, rel=2e-8)


def test_answers_in_degrees_weigh_their_rows() -> None:
    random = np.random.default_rng(1)
    a, b = (rcell.Raster(random.integers(1, 4, (18, 36)), WORLD, "EPSG:4326") for _ in "ab")
    area = np.broadcast_to(
        row_areas(
            math.pi / 2, math.radians(10), math.radians(10), 18, (6378137.0, 1 / 298.257223563)
        )[:, None]
        / 1e6,
        (18, 36),
    )
    for zone, one, cells, size, _ in rows(rcell.composition(a, zones=b, area="km2")):
        inside = (np.asarray(a.array) == one) & (np.asarray(b.array) == zone)
        assert (cells, size) == (inside.sum(), pytest.approx(area[inside].sum(), rel=1e-12))
    assert (
        rcell.cross(a=a, b=b, area="km2")["area_km2"].tolist()
        == rcell.composition(b, zones=a, area="km2")["area_km2"].tolist()
    )
    changed = rcell.change(a, b, area="km2")
    assert changed.summary["before_km2"].tolist() == pytest.approx(
        rcell.composition(a, area="km2")["area_km2"].tolist()
    )
    assert changed.matrix.to_numpy().sum() == pytest.approx(area.sum())
    with pytest.warns(UserWarning, match="lengths are not computed for maps in degrees"):
        found = rcell.patches(a, area="km2")
    numbers = rcell.grid("r.clump input=a output=k", "k", a=a).array.filled(0)
    assert found["perimeter_m"].isna().all()
    assert found["area_km2"].tolist() == pytest.approx(
        [area[numbers == k].sum() for k in found["patch"]]
    )
    assert 0 < found["core_km2"].sum() < found["area_km2"].sum()


def test_rows_beyond_a_pole() -> None:
    half = rcell.Raster(np.ones((19, 36), int), (10, 0, -180, 0, -10, 95), "EPSG:4326")
    assert rcell.composition(half, area="m2")["area_m2"][0] == pytest.approx(
        surface(6378137.0, 1 / 298.257223563), rel=1e-12
    )
    with pytest.raises(rcell.Refused, match="the map extends beyond the pole: north is 120"):
        rcell.composition(
            rcell.Raster(np.ones((19, 36), int), (10, 0, -180, 0, -10, 120), "EPSG:4326")
        )


# Polygons


def write_polygons(
    path: pathlib.Path, features: list[tuple[Any, dict[str, Any]]], crs: Any = UTM, **words: Any
) -> str:
    fiona = pytest.importorskip("fiona")
    kinds = {int: "int", str: "str", float: "float"}
    properties = {
        name: next((kinds[type(of[name])] for _, of in features if of[name] is not None), "str")
        for name in features[0][1]
    }
    driver = "GPKG" if path.suffix == ".gpkg" else "GeoJSON"
    with fiona.open(
        path,
        "w",
        driver=driver,
        crs=crs,
        schema={"geometry": features[0][0]["type"], "properties": properties},
        **words,
    ) as file:
        file.writerecords({"geometry": shape, "properties": of} for shape, of in features)
    return str(path)


def box(left: float, bottom: float, right: float, top: float) -> dict[str, Any]:
    """Return a rectangle, in columns from the west and rows from the south of the test map."""
    (a, _, c, _, e, f), height = TRANSFORM, LAND.shape[0]
    x, y = (lambda col: c + a * col), (lambda row: f + e * (height - row))
    return {
        "type": "Polygon",
        "coordinates": [
            [
                (x(left), y(bottom)),
                (x(left), y(top)),
                (x(right), y(top)),
                (x(right), y(bottom)),
                (x(left), y(bottom)),
            ]
        ],
    }


def test_polygons_are_zones(tmp_path: pathlib.Path) -> None:
    shapes = [box(0, 0, 2.4, 3), box(2.4, 0, 4, 3)]
    path = write_polygons(
        tmp_path / "z.gpkg",
        [(shapes[0], {"name": "west", "id": 7}), (shapes[1], {"name": "east", "id": 5})],
    )
    raster = rcell.Raster([[1, 1, 2, 2]] * 3, TRANSFORM, UTM)
    west = rcell.composition(land(), raster)
    assert rows(rcell.composition(land(), path)) == rows(west)
    named = rcell.composition(land(), path, zone_field="name")
    assert named["zone_label"].tolist()[0] == "west" and rows(
        named.drop(columns="zone_label")
    ) == rows(west)
    assert rcell.composition(land(), path, zone_field="id")["zone"].drop_duplicates().tolist() == [
        5,
        7,
    ]
    assert (
        rcell.zonal(land(), path)["cells"].tolist() == rcell.zonal(land(), raster)["cells"].tolist()
    )
    assert rcell.patches(land(), zones=path, zone_field="name")["zone_label"].tolist()[0] == "west"
    frame = pytest.importorskip("geopandas").read_file(path)
    assert rows(rcell.composition(land(), frame, zone_field="name")) == rows(named)
    square = {
        "type": "Polygon",
        "coordinates": [[(-180, 0), (-180, 90), (0, 90), (0, 0), (-180, 0)]],
    }
    layer = {
        "type": "FeatureCollection",
        "features": [{"type": "Feature", "geometry": square, "properties": None}],
    }
    assert rcell.composition(rcell.Raster(np.ones((18, 36), int), WORLD, "EPSG:4326"), layer)[
        "cells"
    ].tolist() == [162]


def test_polygons_that_are_refused(tmp_path: pathlib.Path) -> None:
    path = write_polygons(
        tmp_path / "z.gpkg", [(box(0, 0, 2, 3), {"name": "a"}), (box(1, 0, 4, 3), {"name": "b"})]
    )
    with pytest.warns(
        UserWarning,
        match=(
            "3 cells are in more than one polygon, the first at row 1, column 2: they belong to "
            "the later polygon, and not to feature 1"
        ),
    ):
        assert (
            rcell.composition(LAND, path, crs=UTM)["zone"].max() == 2
            if False
            else rcell.composition(land(), path)["zone"].max() == 2
        )
    with pytest.raises(rcell.Refused, match="no field x: the only field is name"):
        rcell.composition(land(), path, zone_field="x")
    with pytest.raises(rcell.ReadFailed, match="No such file"):
        rcell.composition(land(), "nowhere.gpkg")
    far = write_polygons(tmp_path / "far.gpkg", [(box(10, 0, 12, 3), {"name": "a"})])
    with pytest.raises(rcell.BadMap, match="zones: no polygon contains the centre of a cell"):
        rcell.composition(land(), far)
    some = write_polygons(
        tmp_path / "some.gpkg",
        [(box(0, 0, 4, 3), {"name": "a"}), (box(0.6, 0.6, 0.9, 0.9), {"name": "tiny"})],
    )
    with pytest.warns(
        UserWarning, match="1 of 2 polygons contain no cell centre: feature 2 .tiny."
    ):
        rcell.composition(land(), some, zone_field="name")
    degrees = write_polygons(
        tmp_path / "degrees.geojson", [(box(0, 0, 4, 3), {"name": "a"})], "EPSG:4326"
    )
    with pytest.raises(rcell.OtherCrs, match="ogr2ogr -t_srs EPSG:32632"):
        rcell.composition(land(), degrees)
    lines = write_polygons(
        tmp_path / "lines.gpkg",
        [({"type": "LineString", "coordinates": [(0, 0), (1, 1)]}, {"name": "a"})],
    )
    with pytest.raises(
        rcell.Refused, match="features must be polygons, but feature 1 is a LineString"
    ):
        rcell.composition(land(), lines)
    write_polygons(tmp_path / "z.gpkg", [(box(0, 0, 4, 3), {"name": "whole"})], layer="second")
    with pytest.raises(
        rcell.Refused, match="has the layers z, second: name one, for example .*z.gpkg.layername=z"
    ):
        rcell.composition(land(), path)
    assert rcell.composition(land(), f"{path}|layername=second", zone_field="name")[
        "zone_label"
    ].unique().tolist() == ["whole"]


# Alignment


def test_align_by_whole_cells(raster: Write) -> None:
    big = np.arange(1, 49, dtype=np.uint8).reshape(6, 8)
    big[0, 0] = 0
    path = raster(big, "big.tif", nodata=0)
    frame = raster(LAND, "frame.tif", (25.0, 0, 500_050.0, 0, -25.0, 5_499_975.0))
    found = rcell.align(path, to=frame)
    assert found.array.tolist() == big[1:4, 2:6].tolist() and found.aligned == (1, 2, 12, 0, 35)
    assert len(rcell.cross(a=found, b=frame)) == 12
    back = rcell.align(frame, to=path)
    assert np.ma.filled(back.array, 0)[1:4, 2:6].tolist() == LAND.tolist() and back.aligned == (
        -1,
        -2,
        12,
        0,
        0,
    )
    assert rcell.align(path, to=frame, resample="nearest").array.tolist() == found.array.tolist()
    text = path.replace("big.tif", "frame.txt")
    rcell.grid("", "m", m=frame).write(text)
    assert rcell.align(text, to=path, crs=UTM).aligned == (-1, -2, 12, 0, 0)
    far = rcell.align(rcell.Raster(LAND, (25.0, 0, 100_000.0, 0, -25.0, 100_000.0), UTM), to=path)
    assert far.aligned == (-216000, 16000, 0, 0, 12) and np.ma.getmaskarray(far.array).all()


def test_align_by_the_nearest_cell() -> None:
    source = rcell.Raster([[1, 2], [3, 0]], (10, 0, 0, 0, -10, 20), UTM, nodata=0)
    finer = rcell.Raster(np.zeros((4, 4), int), (5, 0, 0, 0, -5, 20), UTM)
    told = 'cells of 10 x 10, but `to` has cells of 5 x 5: use resample="nearest"'
    with pytest.raises(rcell.OtherRegion, match=told):
        rcell.align(source, to=finer)
    found = rcell.align(source, to=finer, resample="nearest")
    assert found.array.tolist() == [
        [1, 1, 2, 2],
        [1, 1, 2, 2],
        [3, 3, None, None],
        [3, 3, None, None],
    ]
    assert found.aligned == (0, 0, 3, 3, 0)
    half = rcell.Raster([[0, 0]], (10, 0, 5, 0, -10, 15), UTM)
    with pytest.raises(
        rcell.OtherRegion, match="shifted by 0.5 rows and 0.5 columns, not by whole cells"
    ):
        rcell.align(source, to=half)
    assert rcell.align(source, to=half, resample="nearest").array.tolist() == [[None, None]]
    with pytest.raises(
        rcell.BadArgument, match="""resample must be "nearest" or None; got 'cubic'"""
    ):
        rcell.align(source, to=half, resample="cubic")
    degrees = rcell.Raster(np.zeros((3, 3), int), (1e-4, 0, 5.9998, 0, -1e-4, 1e-4), "EPSG:4326")
    with pytest.raises(rcell.OtherCrs):
        rcell.align(source, to=degrees)
    found = rcell.align(
        rcell.Raster([[1, 2], [3, 4]], (10, 0, 166_000, 0, -10, 10), UTM),
        to=degrees,
        resample="nearest",
    )
    assert (
        found.crs == "EPSG:4326"
        and found.aligned is not None
        and found.aligned.shift_rows is None
        and found.aligned.cells_used > 0
    )


@pytest.mark.parametrize("code", ["EPSG:25832", "EPSG:3035"])
def test_align_beside_gdal(code: str) -> None:
    from rasterio.warp import Resampling, reproject

    random = np.random.default_rng(2)
    cells = random.integers(1, 9, (60, 70)).astype(np.int32)
    place = (30.0, 0, 500_000.0, 0, -30.0, 5_600_000.0)
    target = (
        (27.0, 0, 500_211.0, 0, -27.0, 5_599_500.0)
        if code == "EPSG:25832"
        else (27.0, 0, 4_250_700.0, 0, -27.0, 3_049_000.0)
    )
    expected = np.zeros((40, 40), np.int32)
    words = {
        "src_transform": rasterio.Affine(*place),
        "dst_transform": rasterio.Affine(*target),
        "src_crs": "EPSG:25832",
        "dst_crs": code,
    }
    reproject(cells, expected, resampling=Resampling.nearest, tolerance=0, **words)
    found = rcell.align(
        rcell.Raster(cells, place, "EPSG:25832"),
        to=rcell.Raster(expected, target, code),
        resample="nearest",
    )
    assert (expected > 0).mean() > 0.9
    assert (np.ma.filled(found.array, 0) == expected).mean() > 0.999


def test_the_error_says_how_to_align(raster: Write) -> None:
    lc, zone = raster(LAND, "lc.tif"), raster(
        LAND, "zone.tif", (25.0, 0, 500_050.0, 0, -25.0, 5_500_000.0)
    )
    with pytest.raises(rcell.OtherRegion) as caught:
        rcell.cross(lc=lc, zone=zone)
    assert str(caught.value).splitlines()[-1] == f'  try: zone=rcell.align("{zone}", to="{lc}")'
    moved = rcell.Raster(LAND, (25.0, 0, 500_012.5, 0, -25.0, 5_500_000.0), UTM)
    with pytest.raises(rcell.OtherRegion) as caught:
        rcell.composition(lc, moved)
    assert (
        str(caught.value).splitlines()[-1]
        == f'  try: zones=rcell.align(zones, to="{lc}", resample="nearest")'
    )


# Legends


def test_legends_of_all_kinds(tmp_path: pathlib.Path, raster: Write) -> None:
    (tmp_path / "legend.csv").write_text(
        '\ufeffvalue,label,colour\n0,none,\n1,"wood, old",#00FF00\n2,water,#0000ff\n3,town,\n',
        encoding="utf-8",
    )
    named = ["none", "wood, old", "water", "town"]
    for legend in (
        tmp_path / "legend.csv",
        pandas.read_csv(tmp_path / "legend.csv"),
        dict(enumerate(named)),
    ):
        assert rcell.composition(LAND, labels=legend)["label"].tolist() == named
    with pytest.warns(UserWarning, match="labels: no label for 0, 3 in map"):
        found = rcell.composition(LAND, labels={1: "a", 2: "b"})["label"]
    assert found.tolist() == [pandas.NA, "a", "b", pandas.NA]
    style = (
        '<qgis><pipe><rasterrenderer><colorPalette><paletteEntry value="{}" label="wood" '
        'color="#00aa00" alpha="255"/></colorPalette></rasterrenderer></pipe></qgis>'
    )
    path = raster(LAND)
    (tmp_path / "map.qml").write_text(style.format(1))
    assert rcell.composition(path)["label"].tolist() == [pandas.NA, "wood", pandas.NA, pandas.NA]
    assert rcell.grid("", "m", m=path).colors == {1: "#00aa00"}
    with warnings.catch_warnings():
        warnings.simplefilter("ignore")
        assert rcell.composition(LAND, labels=str(tmp_path / "map.qml"))["label"][1] == "wood"
        assert rcell.composition(LAND, labels=path)["label"][1] == "wood"
    with pytest.raises(rcell.Refused, match="labels: .* has no labels"):
        rcell.composition(LAND, labels=raster(LAND, "bare.tif"))


def test_colours_and_flags_come_through(tmp_path: pathlib.Path, raster: Write) -> None:
    def dress(dataset: Any) -> None:
        dataset.write_colormap(1, {1: (1, 2, 3, 255), 2: (250, 0, 0, 255)})
        dataset.update_tags(1, flag_values="{1,2,3}", flag_meanings="wood water town")

    path = raster(LAND, nodata=0, edit=dress)
    found = rcell.majority(path)
    assert found.labels == NAMES and {1: "#010203", 2: "#fa0000"}.items() <= found.colors.items()
    found.write(tmp_path / "made.tif")
    again = rcell.grid("", "m", m=tmp_path / "made.tif")
    assert again.labels == NAMES and again.colors[2] == "#fa0000"
    assert rcell.align(path, to=path).colors[1] == "#010203"
    pytest.importorskip("matplotlib").use("Agg")
    handles = found.plot().get_legend().get_patches()
    assert [tuple(round(255 * part) for part in handle.get_facecolor()[:3]) for handle in handles][
        0
    ] == (1, 2, 3)


def test_an_attribute_table_has_labels_and_colours(raster: Write) -> None:
    gdal = pytest.importorskip("osgeo.gdal")
    path = raster(LAND, nodata=0)
    table = gdal.RasterAttributeTable()
    for name, kind, usage in (
        ("Value", gdal.GFT_Integer, gdal.GFU_MinMax),
        ("Class", gdal.GFT_String, gdal.GFU_Name),
    ):
        table.CreateColumn(name, kind, usage)
    for name, usage in (("R", gdal.GFU_Red), ("G", gdal.GFU_Green), ("B", gdal.GFU_Blue)):
        table.CreateColumn(name, gdal.GFT_Integer, usage)
    table.SetRowCount(3)
    for row, (code, label) in enumerate(NAMES.items()):
        table.SetValueAsInt(row, 0, code)
        table.SetValueAsString(row, 1, label)
        table.SetValueAsInt(row, 2, 16 * code)
    dataset = gdal.Open(path, gdal.GA_Update)
    dataset.GetRasterBand(1).SetDefaultRAT(table)
    del dataset
    assert rcell.composition(path)["label"].tolist() == list(NAMES.values())
    assert rcell.majority(path).colors == {1: "#100000", 2: "#200000", 3: "#300000"}


def test_docstrings_are_whole() -> None:
    validate = pytest.importorskip("numpydoc.validate").validate
    names = [name for name in rcell.__all__ if not name.startswith("__")]
    names += [
        f"{name}.{member}"
        for name in names
        if isinstance(getattr(rcell, name), type)
        for member in vars(getattr(rcell, name))
        if not member.startswith("_")
    ]
    bad = {"GL03", "SS03", "SS05", "PR01", "PR02", "RT01", "RT03"}
    found = {}
    for name in names:
        of: Any = rcell
        for part in name.split("."):
            of = getattr(of, part)
        if callable(of) or isinstance(of, property):
            found[name] = [
                error for error in validate(f"rcell.{name}")["errors"] if error[0] in bad
            ]
    assert {name: errors for name, errors in found.items() if errors} == {}
