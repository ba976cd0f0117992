"""Test rcell-gis commands that write several maps, or record, verify and report tables."""

from __future__ import annotations

import json
import os
import pathlib
from typing import Any, Callable

import numpy as np
import pytest

import rcell
from rcell.__main__ import main

from .conftest import LAND

pytest.importorskip("pandas")
rasterio = pytest.importorskip("rasterio")
Write = Callable[..., str]


def test_a_sieved_map_comes_with_an_account(raster: Write, capfd: Any, tmp_path: Any) -> None:
    path, out = raster(LAND, nodata=0), str(tmp_path / "s.tif")
    assert main(["sieve", path, out, "--min-cells", "3"]) == 0
    told = rcell.sieve(path, 3).sieved
    assert told is not None
    assert capfd.readouterr().out.splitlines() == [",".join(told._fields), ",".join(map(str, told))]
    assert rcell.grid("", "x", x=out).array.tolist() == rcell.sieve(path, 3).array.tolist()


def test_shares_are_written_next_to_the_coarser_map(raster: Write, tmp_path: pathlib.Path) -> None:
    path, out, shares = raster(LAND, nodata=0), str(tmp_path / "a.tif"), str(tmp_path / "s.tif")
    assert main(["aggregate", path, out, "--factor", "2", "--shares", shares]) == 0
    found = rcell.aggregate(path, 2)
    assert rcell.grid("", "x", x=out).array.tolist() == found.majority.array.tolist()
    with rasterio.open(shares) as file:
        assert np.array_equal(file.read(), found.shares.percent, equal_nan=True)


def test_maps_of_changes_are_written_next_to_the_table(
    raster: Write, capfd: Any, tmp_path: pathlib.Path
) -> None:
    maps = [raster(LAND, "a.tif", nodata=0), raster(LAND[::-1], "b.tif", nodata=0)]
    out = tmp_path / "n.tif"
    words = ["--years", "2000,2010", "--table", "changes", "--map", f"changes={out}"]
    assert main(["trajectories", *maps, *words]) == 0
    found = rcell.trajectories(maps, [2000, 2010], include_maps=True)
    assert capfd.readouterr().out.startswith("changes,cells,area_ha,percent\n")
    made = rcell.grid("", "x", x=str(out)).array.tolist()
    assert made == found.maps["changes"].array.tolist()


def test_a_recorded_table_is_verified_here_and_in_python(
    raster: Write, capfd: Any, tmp_path: pathlib.Path
) -> None:
    path, out = raster(LAND, nodata=0), str(tmp_path / "t.csv")
    commands = [
        ["composition", path, "--area", "m2"],
        ["composition", path, "--band", "1"],
        ["cross", f"a={path}", f"b={path}"],
        ["change", path, path, "--table", "summary"],
        ["trajectories", path, path, "--years", "2000,2010", "--table", "intervals"],
        ["patches", path, "--min-cells", "2"],
        ["zonal", path, path, "--quantiles", "0.1,0.9"],
    ]
    for words in commands:
        assert main([*words, "--out", out]) == 0
        plain = pathlib.Path(out).read_bytes()
        assert main([*words, "--out", out, "--record"]) == 0
        assert pathlib.Path(out).read_bytes() == plain
        assert main(["verify", out]) == 0 and rcell.verify(out) == []
    assert capfd.readouterr().out == f"{out}: verified\n" * len(commands)


def test_what_differs_is_printed_with_status_1(raster: Write, capfd: Any, tmp_path: Any) -> None:
    path, out = raster(LAND, nodata=0), str(tmp_path / "t.csv")
    assert main(["composition", path, "--out", out, "--record"]) == 0
    raster(np.where(LAND == 3, 2, LAND), nodata=0)
    assert main(["verify", out]) == 1
    lines = capfd.readouterr().out.splitlines()
    assert lines[0] == f"{out}: the cells of map (map.tif) differ"
    assert lines[1].startswith(f"{out}: the table differs in line 3 and in 1 more line: `2,4,")


def test_a_report_is_a_page_in_a_file_or_on_standard_output(
    raster: Write, capfd: Any, tmp_path: pathlib.Path
) -> None:
    path, out, page = raster(LAND, nodata=0), str(tmp_path / "t.csv"), tmp_path / "r.html"
    assert main(["composition", path, "--out", out, "--record"]) == 0
    assert main(["report", out, "--out", str(page), "--title", "Land"]) == 0
    assert main(["report", out, "--title", "Land"]) == 0
    assert capfd.readouterr().out == page.read_text(encoding="utf-8")


@pytest.mark.parametrize(
    ("words", "status", "told"),
    [
        (["sieve", "MAP", "o.tif"], 2, "--min-cells or --min-ha must be given; got neither"),
        (
            ["within", "MAP", "o.tif", "--classes", "1", "--distances", "20,10"],
            2,
            "--distances must be ascending numbers above 0; got 10.0",
        ),
        (
            ["aggregate", "MAP", "o.tif", "--factor", "2", "--shares", "s.png"],
            2,
            "s.png: the name of the shares must end in .tif or .tiff",
        ),
        (
            ["trajectories", "MAP", "MAP", "--years", "1,2", "--map", "last=o.tif"],
            2,
            "no map last: the maps are changes, first_change, last_change",
        ),
        (
            ["composition", "MAP", "--record"],
            2,
            "--record requires --out with a name that ends in .csv",
        ),
        (
            ["composition", "MAP", "MAP", "--record", "--out", "t.csv"],
            2,
            "--record accepts one map; got 2",
        ),
        (
            ["verify", "t.csv"],
            4,
            "record: cannot open t.csv: No such file or directory",
        ),
        (
            ["report", "t.csv", "--out", "r.pdf"],
            2,
            "--out must end in .html; got 'r.pdf'",
        ),
    ],
)
def test_what_is_refused_is_one_line(
    raster: Write,
    capsys: Any,
    monkeypatch: Any,
    tmp_path: pathlib.Path,
    words: list[str],
    status: int,
    told: str,
) -> None:
    path = raster(LAND)
    monkeypatch.chdir(tmp_path)
    assert main([word.replace("MAP", path) for word in words]) == status
    assert capsys.readouterr() == ("", f"rcell-gis: {told}\n")
    assert os.listdir(tmp_path) == ["map.tif"]


def test_the_record_of_a_map_in_another_folder_has_a_relative_path(
    raster: Write, tmp_path: pathlib.Path
) -> None:
    (tmp_path / "tables").mkdir()
    out = tmp_path / "tables" / "t.csv"
    assert main(["composition", raster(LAND), "--out", str(out), "--record"]) == 0
    told = json.loads(pathlib.Path(f"{out}.json").read_text())
    assert told["call"]["words"] == [{"path": "../map.tif"}]
    os.rename(tmp_path / "tables", tmp_path / "others")
    assert rcell.verify(tmp_path / "others" / "t.csv") == []
