"""Test when areas, percentages and lengths are computed, and their bases."""

from __future__ import annotations

import pathlib
import warnings
from typing import Any, Callable

import numpy as np
import pytest

pandas = pytest.importorskip("pandas")
pyproj = pytest.importorskip("pyproj")
rcell = pytest.importorskip("rcell")

METRES = (100.0, 0.0, 0.0, 0.0, -100.0, 200.0)
DEGREES = (1.0, 0.0, 10.0, 0.0, -7.0, 69.0)
LAND = np.array([[1, 1, 2], [3, 2, 2]])
# The first row is further from the equator, so class 1 has more cells but less area.
NORTH = np.array([[1] * 8 + [2] * 2, [1] * 2 + [2] * 7 + [3]])

Write = Callable[..., str]


def test_percent_is_of_the_area_in_degrees() -> None:
    found = rcell.composition(rcell.Raster(NORTH, DEGREES, crs="EPSG:4326"))
    geod = pyproj.Geod(ellps="WGS84")
    rows = [
        abs(geod.polygon_area_perimeter([10, 11, 11, 10], [s, s, n, n])[0])
        for s, n in [(62, 69), (55, 62)]
    ]
    areas = [
        sum(rows[row] * np.count_nonzero(NORTH[row] == value) for row in (0, 1))
        for value in (1, 2, 3)
    ]
    expected = [100 * area / sum(areas) for area in areas]
    assert found["cells"].tolist() == [10, 9, 1]
    assert found["percent"].to_numpy() == pytest.approx(
        expected, rel=1e-3
    )  # geodesics are not parallels
    assert found["percent"].sum() == pytest.approx(100)
    assert found["percent"][1] > found["percent"][0]
    share = found["area_ha"] / found["area_ha"].sum() * 100
    assert found["percent"].to_numpy() == pytest.approx(share.to_numpy())


def test_percent_is_of_the_cells_without_areas() -> None:
    found = rcell.composition(rcell.Raster(NORTH, DEGREES, crs="EPSG:4326"), area=None)
    assert found["percent"].tolist() == [50, 45, 5]


def test_percent_is_of_the_part_of_a_zone_that_is_not_null() -> None:
    land = rcell.Raster(NORTH, DEGREES, crs="EPSG:4326", nodata=3)
    zones = rcell.Raster(np.repeat([[1], [2]], 10, 1), DEGREES, crs="EPSG:4326")
    found = rcell.composition(land, zones, include_null=True)
    assert found["class"].tolist() == [1, 2, 1, 2, pandas.NA]
    assert found["percent"].tolist()[:2] == pytest.approx([80, 20])
    assert found["percent"].tolist()[2:4] == pytest.approx([200 / 9, 700 / 9])
    assert np.isnan(found["percent"].tolist()[4])


def test_percent_of_a_change_and_of_a_cross_table_is_of_the_area() -> None:
    land = rcell.Raster(NORTH, DEGREES, crs="EPSG:4326")
    for found in (rcell.change(land, land).table, rcell.cross(a=land, b=land)):
        share = found["area_ha"] / found["area_ha"].sum() * 100
        assert found["percent"].to_numpy() == pytest.approx(share.to_numpy())


@pytest.mark.parametrize("given", [LAND, rcell.Raster(LAND, METRES), (LAND, METRES)])
def test_there_are_no_areas_without_a_reference_system(given: Any) -> None:
    assert rcell.composition(given).columns.tolist() == ["class", "cells", "percent"]
    assert rcell.cross(a=given).columns.tolist() == ["a", "cells", "percent"]
    change = rcell.change(given, given)
    assert change.table.columns.tolist() == ["from", "to", "cells", "percent"]
    assert change.summary.columns.tolist()[1:3] == ["before_cells", "after_cells"]
    patches = rcell.patches(given).columns.tolist()
    assert patches == [
        "patch",
        "class",
        "cells",
        "perimeter_m",
        "core_cells",
        "west",
        "south",
        "east",
        "north",
    ]


@pytest.mark.parametrize("unit", ["ha", "km2", "m2"])
def test_an_area_that_is_asked_for_needs_a_reference_system(unit: str) -> None:
    calls: list[Callable[[], Any]] = [
        lambda: rcell.composition(LAND, area=unit),
        lambda: rcell.cross(a=LAND, area=unit),
        lambda: rcell.change(LAND, LAND, area=unit),
        lambda: rcell.patches(LAND, area=unit),
        lambda: rcell.table("r.stats -c input=a", a=LAND, area=unit),
    ]
    for call in calls:
        with pytest.raises(
            rcell.BadArgument, match=rf'area "{unit}" requires .* crs="EPSG:'
        ) as caught:
            call()
        assert isinstance(caught.value, ValueError)
    stated = rcell.composition(LAND, area=unit, crs="EPSG:32632")
    assert f"area_{unit}" in stated


@pytest.mark.parametrize(("code", "metres"), [("EPSG:32632", 1.0), ("EPSG:2225", 1200 / 3937)])
def test_areas_that_are_left_out_are_hectares_if_the_unit_is_known(
    code: str, metres: float
) -> None:
    found = rcell.composition(rcell.Raster(LAND, METRES, crs=code))
    assert found["area_ha"].tolist() == pytest.approx([count * metres**2 for count in (2, 3, 1)])


@pytest.mark.parametrize(
    "wkt",
    [
        'LOCAL_CS["site",UNIT["foot",0.3048]]',
        pyproj.CRS("EPSG:4978").to_wkt("WKT1_GDAL"),
        'VERT_CS["height",VERT_DATUM["site",2005],UNIT["metre",1],AXIS["Up",UP]]',
    ],
)
def test_systems_without_a_unit_of_the_plane_have_no_areas(wkt: str) -> None:
    land = rcell.Raster(LAND, METRES, crs=wkt)
    with pytest.raises(rcell.RcellError, match="area"):
        rcell.composition(land, area="m2")
    assert "cells" in rcell.composition(land, area=None)


def test_lengths_in_degrees_are_not_a_number_with_one_warning() -> None:
    land = rcell.Raster(LAND, DEGREES, crs="EPSG:4326")
    for call, column in ((rcell.patches, "perimeter_m"), (rcell.adjacency, "border_m")):
        with pytest.warns(
            UserWarning, match="lengths are not computed for maps in degrees"
        ) as caught:
            found = call(land)
        assert len(caught) == 1
        assert caught[0].filename == __file__
        assert found[column].isna().all()


@pytest.mark.parametrize(
    ("dtype", "value"), [("uint8", 255), ("int16", -9999), ("int16", -32768), ("float32", -9999)]
)
def test_an_undeclared_nodata_value_is_named_once(raster: Write, dtype: str, value: int) -> None:
    cells = np.full((6, 6), value, dtype)
    cells[1:5, 1:5] = 3
    cells[0, :2] = 4
    path = raster(cells)
    with pytest.warns(UserWarning) as caught:
        rcell.composition(path)
    told = [str(warning.message) for warning in caught]
    assert len(told) == 1
    assert told[0].startswith(
        f"map: 18 of the 20 cells along its border are {value}, which is not declared as nodata"
    )
    assert f"-a_nodata {value}" in told[0]
    with warnings.catch_warnings():
        warnings.simplefilter("error")
        rcell.composition(raster(cells, "declared.tif", nodata=value))
        rcell.composition(raster(np.where(cells == value, 7, cells).astype(dtype), "other.tif"))


def test_no_false_alarm_of_proj(tmp_path: pathlib.Path) -> None:
    import subprocess
    import sys

    script = (
        "import rcell; print(rcell.composition(rcell.Raster([[1]], (1, 0, 0, 0, -1, 1), "
        "crs='EPSG:4326')))"
    )
    subprocess.run(
        [sys.executable, "-m", "venv", "--system-site-packages", "--without-pip", str(tmp_path)],
        check=True,
    )
    ran = subprocess.run(
        [str(tmp_path / "bin" / "python"), "-c", script], capture_output=True, text=True
    )
    assert ran.returncode == 0, ran.stderr
    assert ran.stderr == ""
