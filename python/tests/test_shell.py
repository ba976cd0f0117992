"""Test the command line of rcell-gis."""

from __future__ import annotations

import argparse
import csv
import io
import json
import os
import pathlib
import re
import subprocess
import sys
from typing import Any, Callable

import numpy as np
import pytest

import rcell
from rcell import shell
from rcell.core.labels import write_labels
from rcell.__main__ import main

from .conftest import LAND

pandas = pytest.importorskip("pandas")
rasterio = pytest.importorskip("rasterio")
Write = Callable[..., str]
NAMES = {1: "broad leaved, wood", 2: "größer", 3: "c"}


def said(capfdbinary: Any) -> tuple[str, str]:
    out, err = capfdbinary.readouterr()
    return out.decode(), err.decode()


def test_composition(raster: Write, capfdbinary: Any, tmp_path: pathlib.Path) -> None:
    path = raster(LAND, nodata=0)
    write_labels(path, NAMES)
    assert main(["composition", path]) == 0
    assert said(capfdbinary)[0].splitlines() == [
        "class,label,cells,area_ha,percent",
        '1,"broad leaved, wood",5,0.3125,45.45454545454545',
        "2,größer,4,0.25,36.36363636363637",
        "3,c,2,0.125,18.181818181818183",
    ]
    assert (
        main(
            [
                "composition",
                path,
                "--area",
                "none",
                "--include-null",
                "--out",
                str(tmp_path / "t.json"),
            ]
        )
        == 0
    )
    assert json.loads((tmp_path / "t.json").read_text())[-1] == {
        "class": None,
        "label": None,
        "cells": 1,
        "percent": None,
    }
    assert main(["composition", path, "--format", "markdown", "--zones", path]) == 0
    assert said(capfdbinary)[0].startswith(
        "| zone | zone_label | class | label | cells | area_ha | percent |\n|---:|---|---:|---|---:|---:|---:|\n"
    )
    (tmp_path / "legend.csv").write_text("value,label\n1,wood\n3,town\n")
    assert (
        main(
            [
                "composition",
                path,
                "--labels",
                str(tmp_path / "legend.csv"),
                "--out",
                str(tmp_path / "t.csv"),
            ]
        )
        == 0
    )
    assert said(capfdbinary) == ("", "rcell-gis: warning: labels: no label for 2 in map\n")
    assert (tmp_path / "t.csv").read_text().splitlines()[1:3] == [
        "1,wood,5,0.3125,45.45454545454545",
        "2,,4,0.25,36.36363636363637",
    ]


def test_every_argument_has_a_help_text() -> None:
    def without(parser: argparse.ArgumentParser) -> list[Any]:
        parsers = [
            action for action in parser._actions if isinstance(action, argparse._SubParsersAction)
        ]
        found = [
            action.dest for action in parser._actions if action not in parsers and not action.help
        ]
        return found + [
            each for action in parsers for sub in action.choices.values() for each in without(sub)
        ]

    assert without(shell._parser()[0]) == []


def test_an_empty_table_says_so(raster: Write, capfdbinary: Any) -> None:
    assert main(["composition", raster(np.zeros_like(LAND), nodata=0)]) == 0
    assert said(capfdbinary) == (
        "class,cells,area_ha,percent\n",
        "rcell-gis: note: the table is empty: all cells are null or excluded\n",
    )
    with pytest.raises(SystemExit):
        main(["patches", raster(LAND, nodata=0), "--classes", "31;32"])
    assert (
        "must be comma-separated whole numbers, for example 31,32; got 31;32"
        in said(capfdbinary)[1]
    )


def test_the_shell_has_the_numbers_of_python(raster: Write, capfdbinary: Any) -> None:
    a, b = raster(LAND, "a.tif", nodata=0), raster(LAND[::-1], "b.tif", nodata=0)
    for words, expected in (
        (["cross", f"a={a}", f"b={b}", "--area", "m2"], rcell.cross(a=a, b=b, area="m2")),
        (["change", a, b], rcell.change(a, b).table),
        (
            ["change", a, b, "--table", "summary", "--years", "2000,2010"],
            rcell.change(a, b, years=[2000, 2010]).summary,
        ),
        (
            ["change", a, b, a, "--table", "matrix", "--years", "1,2,3"],
            rcell.change([a, b, a], years=[1, 2, 3]).matrix.reset_index(),
        ),
        (
            [
                "patches",
                a,
                "--connectivity",
                "8",
                "--zones",
                b,
                "--classes",
                "1,2",
                "--min-cells",
                "2",
            ],
            rcell.patches(a, 8, zones=b, classes=[1, 2], min_cells=2),
        ),
        (["zonal", a, b, "--quantiles", "0.25,0.5"], rcell.zonal(a, b, [0.25, 0.5])),
    ):
        assert main(words) == 0
        out, err = said(capfdbinary)
        assert err == "" and out.splitlines()[0] == ",".join(map(str, expected.columns))
        found = pandas.read_csv(io.StringIO(out)).to_numpy(float)
        assert np.array_equal(
            found, expected.astype("Float64").to_numpy(float, na_value=np.nan), equal_nan=True
        )


def test_maps(raster: Write, capfdbinary: Any, tmp_path: pathlib.Path) -> None:
    path = raster(LAND, nodata=0)
    assert main(["majority", path, str(tmp_path / "m.tif"), "--size", "3"]) == 0
    assert (
        rcell.grid("", "m", m=tmp_path / "m.tif").array.tolist()
        == rcell.majority(path).array.tolist()
    )
    frame = raster(LAND, "frame.tif", (25.0, 0, 500_025.0, 0, -25.0, 5_500_000.0))
    assert main(["align", path, str(tmp_path / "moved.tif"), "--to", frame]) == 0
    assert said(capfdbinary) == (
        "shift_rows,shift_columns,cells_used,cells_repeated,cells_lost\n0,1,8,0,3\n",
        "",
    )
    assert len(rcell.cross(a=tmp_path / "moved.tif", b=frame)) == 5


def test_scripts(raster: Write, capfdbinary: Any, tmp_path: pathlib.Path) -> None:
    path = raster(LAND, nodata=0)
    (tmp_path / "script").write_text(
        "r.clump input=lc output=k\nr.stats -cn input=lc\nr.out.ascii input=k\nr.stats -n input=k,lc\n"
    )
    assert (
        main(
            [
                "run",
                str(tmp_path / "script"),
                f"lc={path}",
                "--out",
                f"k={tmp_path}/k.tif",
                "--out",
                f"lc={tmp_path}/lc.txt",
            ]
        )
        == 0
    )
    assert said(capfdbinary) == ("lc,cells\n1,5\n2,4\n3,2\n\nk,lc\n1,1\n2,2\n3,3\n4,1\n", "")
    with rasterio.open(tmp_path / "k.tif") as dataset:
        assert dataset.read(1).tolist()[2] == [3, 3, 4, 4]
    pytest.importorskip("matplotlib")
    assert (
        main(["run", "r.clump input=lc output=k", f"lc={path}", "--out", f"k={tmp_path}/k.png"])
        == 0
    )
    assert (tmp_path / "k.png").read_bytes()[:4] == b"\x89PNG"
    assert (
        main(["run", "r.clump input=lc output=k", f"lc={path}", "--out", f"k={tmp_path}/k.xyz"])
        == 2
    )
    assert sorted(os.listdir(tmp_path)) == ["k.png", "k.tif", "lc.txt", "map.tif", "script"]


def test_maps_are_written_all_or_none(tmp_path: Any, capsys: Any) -> None:
    path = str(tmp_path / "lc.tif")
    rcell.grid("", "lc", lc=np.array([[1, 2], [2, 2]])).write(path)
    kept = tmp_path / "k.txt"
    kept.write_text("old")
    words = [
        "run",
        "r.clump input=lc output=k",
        f"lc={path}",
        "--out",
        f"k={kept}",
        "--out",
        "lc=/nowhere/lc.tif",
    ]
    assert main(words) == 4
    assert (
        capsys.readouterr().err
        == "rcell-gis: /nowhere/lc.tif cannot be written: No such file or directory\n"
    )
    assert kept.read_text() == "old" and sorted(os.listdir(tmp_path)) == ["k.txt", "lc.tif"]
    assert main([*words[:-1], f"lc={tmp_path}/lc.txt"]) == 0
    assert kept.read_text().endswith("1 2\n2 2\n")


@pytest.mark.parametrize(
    ("words", "status", "told"),
    [
        (
            ["run", "r.stats -q input=lc", "lc=MAP"],
            1,
            "script, line 1: bad option; `r.stats -q input=lc`; try: r.stats input=lc",
        ),
        (
            ["run", "r.stats -c input=lc", "lc=/nowhere"],
            4,
            "lc: cannot open: /nowhere: No such file or directory",
        ),
        (["run", "r.stats -c input=lc", "lc"], 2, "lc: must have the form NAME=PATH"),
        (["cross", "lc=MAP", "lc=MAP"], 2, "lc=MAP: the name lc is given twice"),
        (
            ["run", "/nowhere/script", "lc=MAP"],
            4,
            "script: cannot open /nowhere/script: No such file or directory",
        ),
        (
            ["run", "r.clump input=lc output=k", "lc=MAP", "--out", "j=j.tif"],
            2,
            "no map j: the maps are lc, k",
        ),
        (
            ["run", "r.clump input=lc output=k", "lc=MAP", "--out", "k=/nowhere/k.tif"],
            4,
            "/nowhere/k.tif cannot be written: No such file or directory",
        ),
        (
            ["majority", "MAP", "MAP"],
            2,
            "MAP: the output file is the input file: choose another name",
        ),
        (["majority", "MAP", "m.tif", "--size", "4"], 2, "--size must be odd, from 3 to 15; got 4"),
        (["change", "MAP"], 2, "two or more maps are required, in the order of their years"),
        (
            ["composition", "MAP", "--labels", "/nowhere.csv"],
            4,
            "labels: cannot open: /nowhere.csv: No such file or directory",
        ),
        (
            ["composition", "MAP", "--out", "/nowhere/t.csv"],
            4,
            "/nowhere/t.csv cannot be written: No such file or directory",
        ),
    ],
)
def test_what_is_refused_is_one_line(
    raster: Write, capsys: Any, words: list[str], status: int, told: str
) -> None:
    path = raster(LAND)
    assert main([word.replace("MAP", path) for word in words]) == status
    out, err = capsys.readouterr()
    assert (out, err.replace(path, "MAP")) == ("", f"rcell-gis: {told}\n")


def test_another_region_ends_with_the_command_to_paste(raster: Write, capsys: Any) -> None:
    a, b = raster(LAND, "a.tif"), raster(
        LAND, "b c.tif", (25.0, 0, 500_050.0, 0, -25.0, 5_500_000.0)
    )
    assert main(["composition", a, "--zones", b]) == 1
    aligned = b.replace(".tif", "-aligned.tif")
    assert capsys.readouterr().err.endswith(f"; try: rcell-gis align '{b}' '{aligned}' --to {a}\n")
    half = raster(LAND, "half.tif", (25.0, 0, 500_012.5, 0, -25.0, 5_500_000.0))
    assert main(["change", a, half]) == 1
    assert capsys.readouterr().err.endswith(f"--to {a} --resample nearest\n")


def test_the_command_line_as_a_process(raster: Write) -> None:
    path = raster(LAND, nodata=0)
    environment = {**os.environ, "PYTHONPATH": ":".join(sys.path)}

    def call(*words: str, **more: Any) -> Any:
        return subprocess.run(
            [sys.executable, "-m", "rcell", *words],
            capture_output=True,
            text=True,
            env=environment,
            **more,
        )

    assert (
        call("run", "-", f"lc={path}", input="r.stats -cn input=lc\n").stdout
        == "lc,cells\n1,5\n2,4\n3,2\n"
    )
    assert call("--help").returncode == 0 and call("--version").stdout.startswith("rcell-gis ")
    refused: list[list[str]] = [
        [],
        ["nothing"],
        ["composition"],
        ["patches", path, "--connectivity", "6"],
    ]
    for words in refused:
        ran = call(*words)
        assert (ran.returncode, ran.stdout, ran.stderr.count("\n")) == (2, "", 1)
    environment["RCELL_PIPE"] = "/nowhere/rcell-pipe"
    missing = call("composition", path)
    assert (missing.returncode, missing.stderr) == (
        2,
        "rcell-gis: the program /nowhere/rcell-pipe does not exist or is not executable\n",
    )


def test_a_closed_output(raster: Write) -> None:
    environment = {**os.environ, "PYTHONPATH": ":".join(sys.path)}
    reader, writer = os.pipe()
    os.close(reader)
    ran = subprocess.run(
        [sys.executable, "-m", "rcell", "composition", raster(LAND)],
        stdout=writer,
        stderr=subprocess.PIPE,
        env=environment,
    )
    os.close(writer)
    assert (ran.returncode, ran.stderr) == (
        4,
        b"rcell-gis: standard output cannot be written: Broken pipe\n",
    )


def test_csv_reads_back(raster: Write, capfdbinary: Any) -> None:
    path = raster(
        np.arange(1, 13, dtype=np.uint8).reshape(3, 4), transform=(1 / 3, 0, 0, 0, -1 / 7, 9)
    )
    assert main(["composition", path]) == 0
    lines = list(csv.DictReader(io.StringIO(said(capfdbinary)[0])))
    assert [float(line["area_ha"]) for line in lines] == rcell.composition(path)["area_ha"].tolist()


def test_a_library_that_cannot_be_loaded_is_not_called_missing(
    raster: Write, tmp_path: pathlib.Path
) -> None:
    for name in ("rasterio", "osgeo"):
        (tmp_path / name).mkdir()
        reason = f"lib{name}.so.32: failed to map segment from shared object"
        (tmp_path / name / "__init__.py").write_text(f"raise ImportError({reason!r})\n")
    environment = {**os.environ, "PYTHONPATH": ":".join([str(tmp_path), *sys.path])}
    ran = subprocess.run(
        [sys.executable, "-m", "rcell", "composition", raster(LAND)],
        env=environment,
        capture_output=True,
        text=True,
        check=False,
    )
    assert ran.returncode == 2
    assert ran.stderr == (
        "rcell-gis: the library rasterio is required to read a raster, but cannot be loaded: "
        "librasterio.so.32: failed to map segment from shared object\n"
    )


def test_large_maps(
    raster: Write,
    capfdbinary: Any,
    tmp_path: pathlib.Path,
    monkeypatch: pytest.MonkeyPatch,
) -> None:
    cells = np.random.default_rng(1).integers(1, 4, (40, 30)).astype(np.uint8)
    path = raster(cells, "whole.tif", nodata=0)
    halves = [
        raster(cells[:20], "half_1.tif", (25, 0, 0, 0, -25, 1000), nodata=0),
        raster(cells[20:], "half_2.tif", (25, 0, 0, 0, -25, 500), nodata=0),
    ]
    commands = (
        ["composition"],
        ["patches", "--summary", "class"],
        ["patches", "--classes", "2", "--min-cells", "4", "--area", "none"],
    )
    expected = []
    for command in commands:
        assert main([*command, path]) == 0
        expected.append(said(capfdbinary)[0])
    monkeypatch.setenv("RCELL_TEST_TILES", "16x16")
    for command, table in zip(commands, expected):
        assert main([*command, str(tmp_path / "half_?.tif"), "--workers", "2"]) == 0
        assert said(capfdbinary)[0].split(",west")[0] == table.split(",west")[0]
    assert main(["composition", *halves]) == 0
    assert said(capfdbinary)[0].startswith("file,class,")
    shelf = str(tmp_path / "shelf")
    for _ in range(2):
        assert main(["majority", path, str(tmp_path / "m.cog.tif"), "--resume", shelf]) == 0
    assert len(os.listdir(shelf)) == 6
    with rasterio.open(tmp_path / "m.cog.tif") as dataset:
        assert dataset.tags(ns="IMAGE_STRUCTURE")["LAYOUT"] == "COG"
        assert dataset.read(1).tolist() == rcell.majority(path).array.tolist()


def test_dry_runs(raster: Write, capfdbinary: Any, tmp_path: pathlib.Path) -> None:
    path, out = raster(LAND, nodata=0), tmp_path / "out.csv"
    assert main(["patches", path, "--dry-run", "--out", str(out)]) == 0
    lines = said(capfdbinary)[0].splitlines()
    assert lines[0] == "3 rows and 4 columns: 12 cells"
    assert lines[1].startswith("one run, at most ")
    assert lines[2] == "map: 1 MB of uint8, read once"
    assert main(["majority", path, str(tmp_path / "m.tif"), "--dry-run"]) == 0
    assert sorted(os.listdir(tmp_path)) == ["map.tif"]
    assert main(["composition", path, "--workers", "0"]) == 2
    assert "--workers must be a whole number, at least 1; got 0" in said(capfdbinary)[1]


def test_the_manual_page_has_each_command() -> None:
    page = pathlib.Path(__file__).parents[2] / "helpers" / "rcell-gis.1"
    if not page.is_file():
        pytest.skip("the manual page is not part of the package")
    text = page.read_text(encoding="utf-8").partition(".SH OPTIONS")[0]
    assert sorted(re.findall(r"^\.BI (\w+) ", text, re.MULTILINE)) == sorted(shell.COMMANDS)
