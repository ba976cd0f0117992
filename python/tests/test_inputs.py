"""Test that no output overwrites an input, a part of an input, or another output."""

from __future__ import annotations

import os
import pathlib
import shutil
from typing import Any, Callable

import numpy as np
import pytest

import rcell
from rcell.shell import main

from .conftest import LAND, TRANSFORM

rasterio = pytest.importorskip("rasterio")
fiona = pytest.importorskip("fiona")
copy = pytest.importorskip("rasterio.shutil").copy
Write = Callable[..., str]
LEGEND = "value,label\n1,wood\n2,field\n3,town\n"


@pytest.fixture
def room(raster: Write, tmp_path: pathlib.Path, monkeypatch: pytest.MonkeyPatch) -> pathlib.Path:
    """Return a folder with a map in two files, a VRT, a legend, a script and polygons."""
    monkeypatch.chdir(tmp_path)
    raster(LAND, "m.tif", nodata=0)
    raster(LAND[::-1].copy(), "b.tif", nodata=0)
    (tmp_path / "m.tif.aux.xml").write_text("<PAMDataset/>")
    (tmp_path / "legend.csv").write_text(LEGEND)
    (tmp_path / "script").write_text("r.stats -c input=lc\n")
    copy("m.tif", "v.vrt", driver="VRT")
    copy("v.vrt", "w.vrt", driver="VRT")
    west, north = TRANSFORM[2], TRANSFORM[5]
    ring = [(west, north), (west + 100, north), (west + 100, north - 75), (west, north - 75)]
    feature = {
        "geometry": {"type": "Polygon", "coordinates": [[*ring, ring[0]]]},
        "properties": {"zone": 5},
    }
    schema = {"geometry": "Polygon", "properties": {"zone": "int"}}
    for path, driver, layer in (
        ("pol.gpkg", "GPKG", "zones"),
        ("s.shp", "ESRI Shapefile", "s"),
        ("z.json", "GeoJSON", None),
    ):
        words = {"layer": layer} if layer else {}
        with fiona.open(path, "w", driver, schema, "EPSG:32632", **words) as opened:
            opened.write(feature)
    return tmp_path


def files_of(room: pathlib.Path) -> dict[str, bytes]:
    return {path.name: path.read_bytes() for path in room.iterdir()}


REFUSED = [
    "composition m.tif --labels legend.csv --out legend.csv",
    "composition m.tif --zones b.tif --zone-labels legend.csv --out legend.csv",
    "cross a=m.tif b=b.tif --labels a=legend.csv --out legend.csv",
    "composition m.tif --zones pol.gpkg|layername=zones --out pol.gpkg",
    "composition m.tif --zones pol.gpkg --out pol.gpkg",
    "composition m.tif --zones s.shp --out s.dbf",
    "composition m.tif --zones z.json --out z.json",
    "composition m.tif --out m.tif.aux.xml",
    "composition v.vrt --out m.tif",
    "majority v.vrt m.tif",
    "majority w.vrt m.tif",
    "majority m.tif v.tif",
    "align m.tif b.tif --to b.tif",
    "run script lc=m.tif --out lc=m.tif",
    "composition m.tif --out soft.csv --labels legend.csv",
    "composition m.tif --out hard.csv --labels legend.csv",
    "composition vrt://m.tif?bands=1 --out m.tif",
    "composition /vsizip/z.zip/m.tif --out z.zip",
]


@pytest.mark.parametrize("line", REFUSED)
def test_an_output_is_none_of_the_inputs(room: pathlib.Path, capsys: Any, line: str) -> None:
    (room / "soft.csv").symlink_to("legend.csv")
    os.link("legend.csv", "hard.csv")
    os.link("m.tif", "v.tif")
    shutil.make_archive("z", "zip", room, "m.tif")
    before = files_of(room)
    assert main(line.split()) == 2
    told = capsys.readouterr()
    assert (told.out, told.err.count("\n"), files_of(room)) == ("", 1, before)
    assert "choose another name" in told.err or "the name of a table must end" in told.err


def test_a_table_has_the_ending_of_one(room: pathlib.Path, capsys: Any) -> None:
    for name in ("t.csv", "t.tsv", "t.txt", "t.md", "t.json", "table"):
        assert main(["composition", "m.tif", "--out", name]) == 0
    assert (room / "t.tsv").read_text().startswith("class\tcells")
    before = files_of(room)
    for name in ("t.xlsx", "s.dbf", "t.tif", "t.gpkg", "t.csv.gz"):
        assert main(["composition", "m.tif", "--out", name]) == 2
        assert capsys.readouterr().err == (
            f"rcell-gis: {name}: the name of a table must end in .csv, .tsv, .txt, .md or "
            ".json\n"
        )
    assert files_of(room) == before


def test_a_name_that_a_sidecar_of_an_input_may_get_is_refused(room: pathlib.Path) -> None:
    os.unlink("m.tif.aux.xml")
    before = files_of(room)
    with pytest.raises(rcell.Refused, match="choose another name"):
        rcell.majority("m.tif").write("m.tif.msk")
    assert files_of(room) == before


def test_two_outputs_are_not_one_file(room: pathlib.Path, capsys: Any) -> None:
    (room / "old.tif").write_bytes(b"old")
    os.link("old.tif", "hard.tif")
    line = "run r.clump\\ input=lc\\ output=k lc=m.tif --out k={} --out lc={}"
    for one, other in (("x.tif", "x.tif"), ("x.tif", "./x.tif"), ("old.tif", "hard.tif")):
        before = files_of(room)
        words = [word.replace("\\", " ") for word in line.format(one, other).split()]
        words = ["run", "r.clump input=lc output=k", *words[-5:]]
        assert main(words) == 2
        assert "two outputs are the same file" in capsys.readouterr().err
        assert files_of(room) == before


def test_a_raster_is_not_written_over_what_it_was_made_of(room: pathlib.Path) -> None:
    before = files_of(room)
    made: list[tuple[Any, str]] = [
        (rcell.majority("m.tif"), "m.tif"),
        (rcell.majority("v.vrt"), "m.tif"),
        (rcell.grid("", "x", x=rcell.align("m.tif", to="b.tif")), "b.tif"),
        (rcell.grid("r.mapcalc x = lc", "x", lc=rcell.majority("m.tif")), "m.tif"),
    ]
    with rasterio.open("m.tif") as dataset:
        made.append((rcell.majority(dataset), "m.tif"))
        for grid, path in made:
            with pytest.raises(rcell.Refused, match="choose another name"):
                grid.write(path)
    assert files_of(room) == before
    made[0][0].write("new.tif")
    made[0][0].write("new.tif")
    assert np.array_equal(
        rcell.grid("", "x", x="new.tif").array.filled(0), made[0][0].array.filled(0)
    )
