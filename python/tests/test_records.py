"""Test that records verify unchanged inputs and name each change."""

from __future__ import annotations

import json
import pathlib
import shutil
from typing import Any

import numpy as np
import pytest

from .map_definitions import random_map

rcell = pytest.importorskip("rcell")
pytest.importorskip("pandas")
rasterio = pytest.importorskip("rasterio")

PLACE = (10, 0, 500000, 0, -10, 5000000)
LABELS = {1: "wood", 2: "town"}


def write(path: pathlib.Path, cells: Any, labels: Any = None) -> None:
    rcell.Raster(cells, PLACE, "EPSG:32633", labels=labels or {}).write(path)


@pytest.fixture
def folder(tmp_path: pathlib.Path) -> pathlib.Path:
    """Return a folder with a map, zones and a legend."""
    write(tmp_path / "lc.tif", random_map(1, 40, 50, 3), LABELS)
    write(tmp_path / "zones.tif", random_map(2, 40, 50, 2, 0, 10))
    (tmp_path / "legend.csv").write_text("value,label\n1,a\n2,b\n3,c\n")
    return tmp_path


def recorded(folder: pathlib.Path, **words: Any) -> pathlib.Path:
    path = folder / "t.csv"
    rcell.record(path, rcell.composition, folder / "lc.tif", zones=folder / "zones.tif", **words)
    return path


def test_a_recorded_call_returns_what_it_returns_without_a_record(folder: pathlib.Path) -> None:
    land, zones = folder / "lc.tif", str(folder / "zones.tif")
    found = rcell.record(folder / "t.csv", rcell.composition, land, zones=zones, area="km2")
    assert found.equals(rcell.composition(land, zones=zones, area="km2"))
    assert rcell.verify(folder / "t.csv") == []


def test_the_same_maps_and_call_give_the_same_bytes(folder: pathlib.Path) -> None:
    path = recorded(folder)
    told = (folder / "t.csv.json").read_bytes()
    assert recorded(folder) == path and (folder / "t.csv.json").read_bytes() == told
    assert str(folder).encode() not in told
    record = json.loads(told)
    assert record["call"]["words"] == [{"path": "lc.tif"}]
    assert record["runs"][0]["script"] == "r.stats -c -n input=zones,map"
    assert set(record["runs"][0]["maps"]) == {"map", "zones"}


def test_sums_are_of_cells_whatever_their_file(
    folder: pathlib.Path, tmp_path: pathlib.Path
) -> None:
    """A copy with another folder, type, nodata value and compression has the same checksum."""
    path, other = recorded(folder), tmp_path / "other"
    other.mkdir()
    for name in ("t.csv", "t.csv.json", "lc.tif.aux.xml", "zones.tif"):
        shutil.copy(folder / name, other)
    with rasterio.open(folder / "lc.tif") as one:
        cells = one.read(1, masked=True).astype("int32").filled(-5)
        profile = one.profile | {"dtype": "int32", "nodata": -5, "compress": None}
    with rasterio.open(other / "lc.tif", "w", **profile) as two:
        two.write(cells, 1)
    assert path != other and rcell.verify(other / "t.csv") == []


def test_a_letter_of_the_table_is_named_with_its_line(folder: pathlib.Path) -> None:
    path = recorded(folder)
    path.write_text(path.read_text().replace("wood", "Wood", 1))
    first, second = rcell.verify(path)
    assert first == "the table has changed since it was written"
    assert second.startswith("the table differs in line 2: `1,1,Wood,")


def test_a_cell_of_a_map_is_named_with_its_file(folder: pathlib.Path) -> None:
    path = recorded(folder)
    cells = random_map(1, 40, 50, 3)
    row, col = np.argwhere(~np.ma.getmaskarray(cells))[0]
    cells[row, col] = cells[row, col] % 3 + 1
    write(folder / "lc.tif", cells, LABELS)
    differs = rcell.verify(path)
    assert differs[0] == "the cells of map (lc.tif) differ"
    assert differs[1].startswith("the table differs in line 6 and in 1 more line: `2,2,town,274,")


def test_a_legend_is_named(folder: pathlib.Path) -> None:
    path = recorded(folder, labels=folder / "legend.csv")
    assert rcell.verify(path) == []
    (folder / "legend.csv").write_text("value,label\n1,a\n2,b\n3,d\n")
    assert rcell.verify(path)[0] == "legend.csv has changed"


def test_a_script_and_a_program_are_named(folder: pathlib.Path) -> None:
    path = recorded(folder)
    beside = folder / "t.csv.json"
    told = json.loads(beside.read_text())
    told["program"] = "0"
    told["runs"][0]["script"] += "\n"
    beside.write_text(json.dumps(told))
    program, script = rcell.verify(path)
    assert program.startswith("the program has changed: it was rcell ")
    assert script == "the scripts differ: the call ran different lines"


def test_a_map_that_is_gone_is_named(folder: pathlib.Path) -> None:
    path = recorded(folder)
    (folder / "lc.tif").unlink()
    [told] = rcell.verify(path)
    assert told.startswith("the call fails: map: cannot open: ") and "lc.tif" in told


def test_parts_of_results_and_all_kinds_of_arguments_are_recorded(folder: pathlib.Path) -> None:
    land, zones, path = folder / "lc.tif", folder / "zones.tif", folder / "t.csv"
    calls: list[tuple[Any, tuple[Any, ...], dict[str, Any]]] = [
        (rcell.change, (land, zones), {"table": "summary", "area": None}),
        (rcell.change, ([land, zones],), {"years": [2000, 2010], "table": "matrix"}),
        (rcell.cross, (), {"a": land, "b": zones}),
        (rcell.cross, ({"a": land, "b": zones},), {"labels": {"a": folder / "legend.csv"}}),
        (rcell.patches, (land,), {"min_cells": 3, "classes": [1, 2]}),
        (rcell.reclass, (land,), {"rules": {1: 2}}),
    ]
    for call, words, named in calls[:-1]:
        rcell.record(path, call, *words, **named)
        assert rcell.verify(path) == []
    call, words, named = calls[-1]
    with pytest.raises(rcell.RcellError):
        rcell.record(folder / "u.csv", call, *words, **named)
    assert not (folder / "u.csv").exists()


def test_patterns_of_files_and_workers_are_recorded(folder: pathlib.Path, monkeypatch: Any) -> None:
    (folder / "parts").mkdir()
    cells = random_map(3, 20, 30, 3, 0)
    for at in (0, 1):
        place = (10, 0, 500000 + 300 * at, 0, -10, 5000000)
        rcell.Raster(cells, place, "EPSG:32633").write(folder / "parts" / f"{at}.tif")
    monkeypatch.chdir(folder)
    found = rcell.record("t.csv", rcell.composition, "parts/*.tif", workers=1)
    assert found["cells"].sum() == 1200
    assert json.loads(pathlib.Path("t.csv.json").read_text())["call"] == {
        "name": "composition",
        "words": [{"path": "parts/*.tif"}],
        "named": {},
        "part": None,
    }
    monkeypatch.chdir("/")
    assert rcell.verify(folder / "t.csv") == []


def test_defaults_are_not_recorded(folder: pathlib.Path) -> None:
    recorded(folder)
    told = (folder / "t.csv.json").read_bytes()
    recorded(folder, area="auto", labels=None, include_null=False)
    assert (folder / "t.csv.json").read_bytes() == told


def test_a_table_without_a_record_is_named(folder: pathlib.Path) -> None:
    path = recorded(folder)
    (folder / "t.csv.json").unlink()
    told = r"t.csv has no record \(.*t.csv.json\): write it with rcell.record"
    with pytest.raises(rcell.Refused, match=told):
        rcell.verify(path)


def test_a_record_of_r_is_reported_and_verified_there(folder: pathlib.Path) -> None:
    path, beside = recorded(folder), folder / "t.csv.json"
    told = json.loads(beside.read_text())
    told["versions"] = {"R": "4.2.2", "rcell": "1.0.0", "terra": "1.7.3"}
    told["call"]["name"] = "rcell_composition"
    beside.write_text(json.dumps(told))
    with pytest.raises(rcell.Refused, match="t.csv was recorded with the R package: verify"):
        rcell.verify(path)
    page = pathlib.Path(rcell.report([path], folder / "r.html")).read_text()
    assert "Rscript -e &#x27;rcell::rcell_verify(&quot;t.csv&quot;)&#x27;" in page
    assert "The number of cells of each class, in total or by zone." in page


def test_a_record_of_another_call_fails_with_a_line(folder: pathlib.Path) -> None:
    path, beside = recorded(folder), folder / "t.csv.json"
    told = json.loads(beside.read_text())
    for named in ({"zone": 1}, {"zones": {"file": "zones.tif"}}):
        beside.write_text(json.dumps({**told, "call": {**told["call"], "named": named}}))
        [differs] = rcell.verify(path)
        assert differs.startswith("the call fails: ")
    beside.write_text(json.dumps({**told, "call": {**told["call"], "name": "frame_of"}}))
    with pytest.raises(rcell.Refused, match="frame_of is not a call that returns a table"):
        rcell.verify(path)


@pytest.mark.parametrize(
    ("words", "named", "told"),
    [
        (
            (np.array([[1]]),),
            {},
            "map must be a path, .* to be recorded; got an object of type ndarray",
        ),
        (
            ("lc.tif",),
            {"table": "matrix"},
            "table must be left out if there is only one table; got 'matrix'",
        ),
    ],
)
def test_calls_that_cannot_be_recorded(
    folder: pathlib.Path, monkeypatch: Any, words: Any, named: Any, told: str
) -> None:
    monkeypatch.chdir(folder)
    with pytest.raises(rcell.BadArgument, match=told):
        rcell.record("t.csv", rcell.composition, *words, **named)
    assert not (folder / "t.csv").exists()


def test_paths_that_are_refused(folder: pathlib.Path) -> None:
    with pytest.raises(rcell.BadArgument, match="path must end in .csv; got 't.txt'"):
        rcell.record("t.txt", rcell.composition, folder / "lc.tif")
    with pytest.raises(
        rcell.BadArgument, match="call must be a call that returns a table, .*; got len"
    ):
        rcell.record(folder / "t.csv", len, folder / "lc.tif")
    with pytest.raises(rcell.BadArgument, match="a call that returns a table, .*; got align"):
        rcell.record(folder / "t.csv", rcell.align, folder / "lc.tif", folder / "zones.tif")
    legend = folder / "legend.csv"
    with pytest.raises(rcell.Refused, match="the output file is the input file"):
        rcell.record(legend, rcell.composition, folder / "lc.tif", labels=legend)
    (folder / "t.csv").write_text("class,cells\n")
    for text, told in (
        ("{}", "is not a record of this version"),
        ("[]", "is not a record of this version"),
        ('{"rcell_record": 1, "call": {"name": "composition"}}', "is not a record of this version"),
        ("{", "is not a record: "),
    ):
        (folder / "t.csv.json").write_text(text)
        with pytest.raises(rcell.Refused, match=told):
            rcell.verify(folder / "t.csv")
