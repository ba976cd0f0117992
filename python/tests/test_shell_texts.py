"""Run rcell-gis on texts: conversions, explanations, folders of outputs, and messages."""

from __future__ import annotations

import os
import pathlib
import random
import signal
import subprocess
import time
from typing import Any, Callable

import numpy as np
import pytest

import rcell
from rcell.core.programs import find_program
from rcell.shell import main

from .conftest import LAND

rasterio = pytest.importorskip("rasterio")
Write = Callable[..., str]
ROOT = pathlib.Path(__file__).resolve().parents[2]
PROGRAM = str(ROOT / "helpers/rcell-gis")
GRID = "north: 3\nsouth: 0\neast: 4\nwest: 0\nrows: 3\ncols: 4\n1 1 2 *\n1 2 2 2\n3 3 1 1\n"
ESRI = "ncols 4\nnrows 3\nxllcorner 0\nyllcorner 0\ncellsize 1.0\nNODATA_value {}\n{}\n"
CELLS = "1 1 2 {0}\n1 2 2 2\n3 3 1 1"
# The command line in a Python without libraries.
BARE = (
    "import sys; sys.modules.update(dict.fromkeys(['numpy', 'rasterio', 'osgeo', 'pandas', 'pyproj']))\n"
    "from rcell.shell import main; sys.exit(main())"
)


@pytest.fixture
def room(tmp_path: pathlib.Path, monkeypatch: pytest.MonkeyPatch) -> pathlib.Path:
    monkeypatch.chdir(tmp_path)
    (tmp_path / "land.txt").write_text(GRID)
    return tmp_path


def bare(*words: str, **more: Any) -> subprocess.CompletedProcess[str]:
    environment = {**os.environ, "RCELL": find_program()}
    command = ["/usr/bin/python3", "-c", BARE, *words]
    return subprocess.run(command, capture_output=True, text=True, env=environment, **more)


def run(*words: str, **more: Any) -> subprocess.CompletedProcess[str]:
    environment = {**os.environ, "RCELL": find_program()}
    return subprocess.run(
        [PROGRAM, *words], capture_output=True, text=True, env=environment, **more
    )


# Conversions


@pytest.mark.parametrize(
    ("nodata", "cells"),
    [
        ("-9999", CELLS.format("-9999")),
        ("-9999.0", CELLS.format("-9999")),
        ("-9.999e3", CELLS.format("-09999.00").replace("2 2", "2.0 +2")),
        ("nan", CELLS.format("-NaN")),
        ("-3.4028234663852885981e+38", CELLS.format("-3.40282346638529e+38")),
        ("0", CELLS.format("+00")),
        ("255", CELLS.format("255").replace("\n", "\r\n")),
        ("255", CELLS.format("255").replace("\n", " ")),
    ],
)
def test_esri_grids_are_read_without_libraries(room: pathlib.Path, nodata: str, cells: str) -> None:
    (room / "m.asc").write_text(ESRI.format(nodata, cells))
    ran = bare("convert", "m.asc", "m.txt")
    assert (ran.returncode, ran.stdout, ran.stderr) == (0, "", "")
    assert (room / "m.txt").read_text().split() == GRID.split()
    assert bare("convert", "m.asc", "-").stdout == (room / "m.txt").read_text()


@pytest.mark.parametrize(
    ("text", "told"),
    [
        (
            ESRI.format("0", CELLS.format("2.5")),
            "line 7: the cell '2.5' is not a whole number",
        ),
        (ESRI.format("0", "1 2"), "the header declares 3 rows of 4 cells, but 2 cells follow"),
        (
            ESRI.format("0", "").replace("ncols 4", "ncols 0"),
            "ncols must be a whole number above 0; got '0'",
        ),
        (ESRI.format("0", "").replace("cellsize 1.0\n", ""), "the header has no dx"),
        (ESRI.format("0", "").replace("1.0", "1,0"), "cellsize must be a number; got '1,0'"),
        (
            "ncols 4\nncols 4\n",
            "line 2: a header line must have one key and one value",
        ),
    ],
)
def test_what_is_wrong_with_an_esri_grid(room: pathlib.Path, text: str, told: str) -> None:
    (room / "m.asc").write_text(text)
    ran = bare("convert", "m.asc", "m.txt")
    assert (ran.returncode, ran.stderr.count("\n"), os.path.exists("m.txt")) == (
        1,
        1,
        False,
    )
    assert told in ran.stderr


def test_the_edges_of_esri_grids_are_exact(room: pathlib.Path) -> None:
    for parts, count, west, east in (
        (120, 43200, -180, 180),
        (3600, 64800, 162, 180),
        (7, 2520, -180, 180),
    ):
        header = (
            f"ncols {count}\nnrows 1\nxllcorner {west}.0\nyllcorner 0\ncellsize {1 / parts:.12f}\n"
        )
        (room / "m.asc").write_text(header + "1 " * count)
        ran = bare("convert", "m.asc", "-")
        assert ran.stdout.split("\n")[2] == f"east: {east}"
        told = "because the cell size, truncated to 12 decimals, would make it" in ran.stderr
        assert told == (parts != 7)
    text = "ncols 1\nnrows 2\nxllcenter 10.5\nyllcenter 0.05\ndx 0.2\ndy 0.1\n1 2"
    (room / "m.asc").write_text(text)
    edges = "north: 0.2\nsouth: 0\neast: 10.6\nwest: 10.4\n"
    assert bare("convert", "m.asc", "-").stdout.startswith(edges)
    (room / "m.asc").write_text("ncols 2\nnrows 1\nxllcorner 0\nyllcorner 0\ncellsize 1\n-9999 2")
    assert (
        "some cells are -9999, which the header does not declare as nodata"
        in bare("convert", "m.asc", "-").stderr
    )


def test_grids_are_converted_by_rcell_pipe_alone(room: pathlib.Path) -> None:
    assert bare("convert", "/dev/stdin", "-", input=GRID.replace("\n", "\r\n")).stdout == GRID
    for text, told in (
        (GRID.replace("3 3 1", "3 x 1"), "map, line 9: bad cell"),
        (GRID.replace("east: 4", "east: -1"), "map, line 7: bad region"),
    ):
        (room / "bad.txt").write_text(text)
        ran = bare("convert", "bad.txt", "m.asc")
        assert (ran.returncode, ran.stderr) == (1, f"rcell-gis: {told}\n")
    assert not os.path.exists("m.asc")


def test_an_empty_file_is_not_a_grid(room: pathlib.Path) -> None:
    (room / "empty.txt").write_text("")
    ran = run("composition", "empty.txt")
    assert ran.returncode == 4 and ran.stderr.startswith("rcell-gis: map: cannot open: ")


def test_a_grid_and_an_esri_grid_and_back(room: pathlib.Path) -> None:
    for words in (("land.txt", "m.asc"), ("m.asc", "b.txt"), ("land.txt", "c.txt")):
        assert bare("convert", *words).stderr == ""
    assert (room / "m.asc").read_text() == ESRI.format(
        "-2147483648", CELLS.format("-2147483648")
    ).replace("1.0", "1.0")
    assert (room / "b.txt").read_text() == (room / "c.txt").read_text() == GRID
    with rasterio.open("m.asc") as dataset:
        assert dataset.nodata == -(2**31) and dataset.read(1).tolist()[2] == [
            3,
            3,
            1,
            1,
        ]
    ran = bare("convert", "m.asc", "m.tif")
    assert ran.returncode == 2 and "library numpy is missing" in ran.stderr


def test_rasters_and_grids(raster: Write, room: pathlib.Path) -> None:
    path = raster(LAND, "lc.tif", nodata=0)
    for words in (
        ["lc.tif", "g.txt"],
        ["g.txt", "b.tif", "--like", "lc.tif"],
        ["lc.tif", "m.asc"],
        ["m.asc", "c.tif"],
    ):
        assert main(["convert", *words]) == 0
    with rasterio.open("b.tif") as back, rasterio.open(path) as given:
        assert (back.crs, back.transform) == (given.crs, given.transform)
        assert np.array_equal(back.read(1, masked=True).filled(0), LAND)
    assert rcell.grid("", "c", c="c.tif").array.filled(0).tolist() == LAND.tolist()
    assert main(["convert", "land.txt", "x.tif", "--like", "lc.tif"]) == 1


def test_a_band(raster: Write, capfd: Any) -> None:
    path = raster(np.stack([LAND, LAND + 10]), "rgb.tif")
    assert main(["composition", path]) == 1
    assert "has 2 bands: choose one, for example --band 1\n" in capfd.readouterr().err
    assert main(["composition", path, "--band", "2", "--area", "none"]) == 0
    assert capfd.readouterr().out.splitlines()[1] == "10,1,8.333333333333334"
    assert main(["composition", path, "--band", "3"]) == 1
    assert "has 2 bands, but no band 3" in capfd.readouterr().err


# Tables of several maps, folders of outputs


def test_several_maps_have_a_column_of_their_files(
    raster: Write, room: pathlib.Path, capfd: Any
) -> None:
    raster(LAND, "a.tif", nodata=0)
    raster(LAND[:2], "b.tif", nodata=0)
    assert main(["composition", "a.tif", "b.tif", "--area", "none"]) == 0
    assert [line.split(",")[:3] for line in capfd.readouterr().out.splitlines()] == [
        ["file", "class", "cells"],
        ["a.tif", "1", "5"],
        ["a.tif", "2", "4"],
        ["a.tif", "3", "2"],
        ["b.tif", "1", "3"],
        ["b.tif", "2", "4"],
    ]
    assert main(["patches", "a.tif", "b.tif", "--classes", "-1,2", "--min-cells", "2"]) == 0
    lines = capfd.readouterr().out.splitlines()
    assert [line.split(",")[0] for line in lines] == ["file", "a.tif", "b.tif"]
    assert main(["zonal", "a.tif", "a.tif", "a.tif"]) == 0
    assert capfd.readouterr().out.splitlines()[1].startswith("a.tif,1,5,")
    assert main(["composition", "a.tif", "/nowhere.tif", "--out", "t.csv"]) == 4
    assert capfd.readouterr().err.startswith("rcell-gis: /nowhere.tif: cannot open")
    assert not os.path.exists("t.csv")


def test_each_output_of_a_script_in_a_file(raster: Write, room: pathlib.Path, capfd: Any) -> None:
    (room / "script").write_text(
        "r.stats -cn input=lc\nr.clump input=lc output=k\nr.out.ascii input=k\nr.stats -c input=lc,k\n"
    )
    assert main(["run", "script", "lc=land.txt", "--each", "out"]) == 0
    names = ["1-r.stats-lc.csv", "2-r.out.ascii-k.txt", "3-r.stats-lc,k.csv"]
    assert sorted(os.listdir("out")) == [f"0{name}" for name in names]
    assert (room / "out/01-r.stats-lc.csv").read_text() == "lc,cells\n1,5\n2,4\n3,2\n"
    assert main(["run", "script", f"lc={raster(LAND, 'lc.tif')}", "--each", "tifs"]) == 0
    assert "02-r.out.ascii-k.tif" in os.listdir("tifs")
    assert main(["run", "script", "lc=land.txt", "--each", "out"]) == 2
    assert "out already exists" in capfd.readouterr().err
    assert main(["run", "r.stats -q input=lc", "lc=land.txt", "--each", "new"]) == 1
    assert main(["run", "script", "lc=land.txt", "--each", "no/folder"]) == 4
    assert not [name for name in os.listdir() if name.startswith((".", "new"))]


# Explanations


@pytest.mark.parametrize(
    ("script", "grid", "status", "told"),
    [
        ("r.stats -c input=lc\n", GRID, 0, ""),
        (
            "r.stats -c lc\n",
            GRID,
            1,
            "rcell: script:1: bad option\n  r.stats -c lc\n             ^\n  try: r.stats -c input=lc\n",
        ),
        (
            "r.mapcalc x = lc ** 2\n",
            GRID,
            1,
            "rcell: script:1: unexpected token at column 19\n  r.mapcalc x = lc ** 2\n                    ^\n"
            "  try: r.mapcalc x = (lc * lc)\n",
        ),
        (
            "r.reclass input=lc output=c\n11 = built\nend\n",
            GRID,
            1,
            "rcell: script:2: bad number in rule\n  11 = built\n  try: 11 = 1 built\n",
        ),
        (
            "r.stats -c input=lc\n",
            GRID.replace("1 2 2 2", "1 2.5 2 2"),
            1,
            "rcell: lc:8: bad cell\n  1 2.5 2 2\n    ^\n  try: use whole numbers, and `*` for null; to use another "
            "null text, add a line `null: TEXT` to the header\n",
        ),
        (
            "r.stats -c input=lc\n",
            "II*\0...",
            1,
            "rcell: lc:1: missing key\n  land.txt is not an rcell grid\n  try: rcell-gis convert land.txt land.grid.txt\n",
        ),
    ],
)
def test_explanations(room: pathlib.Path, script: str, grid: str, status: int, told: str) -> None:
    (room / "script").write_text(script)
    (room / "land.txt").write_text(grid)
    ran = bare("explain", "script", "lc=land.txt")
    assert (ran.returncode, ran.stderr) == (status, told)
    assert ran.stdout == ("" if status else "1 5\n2 4\n3 2\n* 1\n")


def test_explanations_of_files_and_extents(room: pathlib.Path) -> None:
    (room / "script").write_text("r.stats -c input=a,b\n")
    (room / "b.txt").write_text(GRID.replace("north: 3", "north: 3.00000001"))
    ran = bare("explain", "script", "a=land.txt", "b=b.txt")
    assert "north is 3.00000001 in b, but 3 in a\n" in ran.stderr
    assert "try: land.txt\n" in bare("explain", "script", "a=lnad.txt", "b=b.txt").stderr
    assert bare("explain", "script", "a").stderr.startswith(
        "rcell: arguments:2: bad grid argument\n  try: write NAME=PATH"
    )


def test_an_error_of_a_script_starts_at_most_two_processes(
    monkeypatch: pytest.MonkeyPatch,
) -> None:
    from rcell.core import protocol

    plan, asked = protocol.plan, []

    def counted(*words: Any, **more: Any) -> Any:
        asked.append(words)
        return plan(*words, **more)

    monkeypatch.setattr(protocol, "plan", counted)
    for script in (
        "r.stats foo bar",
        "r.mapcalc x = focal(lc)",
        'r.mapcalc "x = lx and ly" --o',
        "r.stats -c in=lx",
    ):
        asked.clear()
        with pytest.raises(rcell.Refused):
            rcell.run(script, lc=LAND)
        assert len(asked) <= 2


# Command lines, terminals, signals


def test_misspelt_words(capfd: Any) -> None:
    for words, told in (
        (["compostion", "a.tif"], "there is no command compostion: did you mean composition?"),
        (["record", "a.csv"], "there is no command record: add --record and --out FILE.csv to the"),
        (["within", "a.tif"], "; see rcell-gis within --help"),
        (
            ["composition", "a.tif", "--lables", "x"],
            "unexpected argument --lables: did you mean --labels?",
        ),
        (["patches", "a.tif", "--min", "2"], "unexpected argument --min"),
        (
            ["sieve", "a.tif", "--out", "b.tif"],
            "unexpected argument --out: name the file to write after MAP, without an option",
        ),
    ):
        with pytest.raises(SystemExit) as ended:
            main(words)
        assert ended.value.code == 2 and told in capfd.readouterr().err


def test_no_python_in_messages(raster: Write, capfd: Any) -> None:
    bare_map = raster(LAND, "bare.tif", crs=None)
    for words in (
        ["composition", bare_map, "--area", "ha"],
        ["cross", f"a={bare_map}", f"b={raster(LAND, 'b.tif')}"],
        ["majority", bare_map, "x.tif", "--size", "4"],
        ["patches", bare_map, "--core-depth", "0"],
        ["patches", bare_map, "--zone-field", "name"],
    ):
        assert main(words) != 0
        told = capfd.readouterr().err
        assert told.count("\n") == 1 and "--" in told
        assert "rcell." not in told and '="' not in told and "= " not in told, told


def test_a_terminal_does_not_obey_labels(raster: Write, room: pathlib.Path) -> None:
    import pty

    (room / "legend.csv").write_text("value,label\n1,\x1b[31mred\n")
    words = ["composition", raster(LAND), "--labels", "legend.csv"]
    ours, theirs = pty.openpty()
    environment = {**os.environ, "RCELL": find_program()}
    subprocess.run([PROGRAM, *words], stdout=theirs, stderr=theirs, env=environment, check=True)
    os.close(theirs)
    shown = os.read(ours, 10_000)
    os.close(ours)
    assert b"\x1b" not in shown and b"\\x1b[31mred" in shown
    assert "\x1b[31mred" in run(*words).stdout


def test_an_interrupt_is_silent_at_any_moment(raster: Write) -> None:
    path, chance = raster(np.tile(LAND, (200, 200))), random.Random(1)
    environment = {**os.environ, "RCELL": find_program()}
    for _ in range(30):
        program = subprocess.Popen(
            [PROGRAM, "composition", path],
            env=environment,
            stdout=subprocess.PIPE,
            stderr=subprocess.PIPE,
        )
        time.sleep(chance.uniform(0, 0.6))
        program.send_signal(signal.SIGINT)
        out, told = program.communicate()
        assert told == b"" and (program.returncode == 0 or out == b"")
        # Until Python has started, the system ends the process.
        assert program.returncode in (0, 130, -signal.SIGINT)


def test_version() -> None:
    version = (ROOT / "VERSION").read_text()
    assert run("--version").stdout == f"rcell-gis {version}"


def test_reclass_clump_and_adjacency(raster: Write, room: pathlib.Path, capfd: Any) -> None:
    path = raster(LAND, nodata=0)
    (room / "rules.csv").write_text("value,new,label\n1-2,1,wood\n3,,\n")
    assert main(["reclass", path, "r.tif", "--rules", "rules.csv"]) == 0
    assert main(["clump", path, "k.txt", "--connectivity", "8", "--classes", "2"]) == 0
    assert main(["adjacency", path]) == 0
    expected = rcell.adjacency(path)
    lines = capfd.readouterr().out.splitlines()
    assert lines[0] == ",".join(expected.columns) and len(lines) == len(expected) + 1
    assert rcell.composition("r.tif", area=None)["label"].tolist() == ["wood"]
    assert len(rcell.composition("k.txt", area=None)) == len(rcell.patches(path, 8, classes=[2]))
    assert main(["reclass", path, "rules.csv", "--rules", "rules.csv"]) == 2
    assert main(["reclass", path, "x.tif", "--rules", "nowhere.csv"]) == 4
