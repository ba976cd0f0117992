"""Time the QGIS plugin, and the algorithms of QGIS and GRASS.

    RCELL=bin/rcell QT_QPA_PLATFORM=offscreen /usr/bin/python3 bench/qgis.py [--short] [--write]

The results are nanoseconds of processor time per cell (user and system, children included). The
algorithms take turns in one process, from GeoTIFF to file, and the smallest value of all rounds
counts. The start of QGIS is not counted.

Two random maps are made: patches of 15 classes, 4000 x 5000 cells, and noise of 12 classes, 2000 x
2000 cells; with --short, 400 x 500 and 300 x 300 cells. With --write, the table is put into
bench/RESULTS.md, under the heading QGIS.
"""

from __future__ import annotations

import argparse
import os
import pathlib
import re
import sys
import tempfile
from dataclasses import dataclass
from typing import Any, Callable

HERE = pathlib.Path(__file__).resolve().parent
# The first entry is this file's folder, where a file has the name of the QGIS package.
sys.path[:1] = [str(HERE.parent / "qgis" / "tests")]

import made  # noqa: E402  (the path above has to be set first)
import numpy as np  # noqa: E402
import session  # noqa: E402
from numpy.typing import NDArray  # noqa: E402
from osgeo import gdal  # noqa: E402

ROUNDS = 3
SPEED = HERE / "RESULTS.md"


@dataclass(frozen=True)
class Map:
    """A map for the timings."""

    name: str
    path: str
    zones: str
    cells: int


@dataclass(frozen=True)
class Way:
    """One way to a result: an algorithm and its parameters for a map."""

    question: str
    name: str
    algorithm: str
    parameters: Callable[[Map, str], dict[str, Any]]
    only: str = ""


def patches(seed: int, rows: int, cols: int, classes: int) -> NDArray[np.uint8]:
    """Return ragged patches about a dozen cells wide, like land cover. 2.4 % of the cells are
    null."""
    generator = np.random.default_rng(seed)
    codes = generator.choice(
        np.array([0, *range(11, 11 + 6 * classes, 6)], np.uint8),
        (rows // 16 + 3, cols // 16 + 3),
        p=[0.024, *[0.976 / classes] * classes],
    )
    # To make edges ragged, each cell takes the code of a nearby block, at an offset given by two
    # waves.
    down, across = np.arange(rows)[:, None], np.arange(cols)[None, :]
    shift_down = 6 * np.sin(across / 9.0) + 3 * np.sin(down / 5.0)
    shift_across = 6 * np.sin(down / 11.0) + 3 * np.sin(across / 4.0)
    return codes[
        ((down + shift_down + 16) // 16).astype(np.intp),
        ((across + shift_across + 16) // 16).astype(np.intp),
    ]


def maps(room: str, short: bool) -> list[Map]:
    """Write the maps, and return them."""
    found = []
    rows, cols = (300, 300) if short else (3000, 3000)
    for name in ("patches", "noise"):
        cells = patches(1, rows, cols, 15) if name == "patches" else made.noise(2, rows, cols)
        zones = patches(3, rows, cols, 8) if name == "patches" else made.noise(4, rows, cols, 5)
        paths = [
            made.write(f"{room}/{name}{at}.tif", array, gdal.GDT_Byte, nodata=0)
            for at, array in enumerate((cells, zones))
        ]
        found.append(Map(name, paths[0], paths[1], rows * cols))
    return found


COUNT = "counts of one map"
ZONES = "class by zone, two maps"
RULES = "a map by rules"
PATCHES = "patches"
MODE = "majority of 3 x 3"
GRASS_TABLE = {
    "separator": "space",
    "null_value": "*",
    "nsteps": 255,
    "sort": 0,
    "-c": True,
    "-n": True,
    "-1": False,
}
NATIVE_RULES = [0, 30, 1, 31, 60, 2, 61, 255, 3]

WAYS = [
    Way(
        COUNT,
        "native:rasterlayeruniquevaluesreport",
        "native:rasterlayeruniquevaluesreport",
        lambda it, to: {"INPUT": it.path, "BAND": 1, "OUTPUT_TABLE": f"{to}.gpkg"},
    ),
    Way(
        COUNT,
        "rcell:composition",
        "rcell:composition",
        lambda it, to: {"INPUT": it.path, "OUTPUT": f"{to}.gpkg"},
    ),
    Way(
        COUNT,
        "grass7:r.stats",
        "grass7:r.stats",
        lambda it, to: {"input": [it.path], "html": f"{to}.html", **GRASS_TABLE},
    ),
    Way(
        ZONES,
        "rcell:cross",
        "rcell:cross",
        lambda it, to: {"INPUT": [it.path, it.zones], "OUTPUT": f"{to}.gpkg"},
    ),
    Way(
        ZONES,
        "grass7:r.stats",
        "grass7:r.stats",
        lambda it, to: {"input": [it.path, it.zones], "html": f"{to}.html", **GRASS_TABLE},
    ),
    Way(
        ZONES,
        "native:rasterlayerzonalstats, sums of codes",
        "native:rasterlayerzonalstats",
        lambda it, to: {
            "INPUT": it.path,
            "BAND": 1,
            "ZONES": it.zones,
            "ZONES_BAND": 1,
            "OUTPUT_TABLE": f"{to}.gpkg",
        },
    ),
    Way(
        RULES,
        "native:reclassifybytable",
        "native:reclassifybytable",
        lambda it, to: {
            "INPUT_RASTER": it.path,
            "RASTER_BAND": 1,
            "TABLE": NATIVE_RULES,
            "RANGE_BOUNDARIES": 2,
            "NODATA_FOR_MISSING": True,
            "OUTPUT": f"{to}.tif",
        },
    ),
    Way(
        RULES,
        "rcell:reclass",
        "rcell:reclass",
        lambda it, to: {
            "INPUT": it.path,
            "RULES": "0 thru 30 = 1 low\n31 thru 60 = 2\n61 thru 255 = 3",
            "OUTPUT": f"{to}.tif",
        },
    ),
    Way(
        PATCHES,
        "rcell:patches, map and table",
        "rcell:patches",
        lambda it, to: {"INPUT": it.path, "MAP": f"{to}.tif", "OUTPUT": f"{to}.gpkg"},
    ),
    Way(
        PATCHES,
        "rcell:patches, table alone",
        "rcell:patches",
        lambda it, to: {"INPUT": it.path, "OUTPUT": f"{to}.gpkg"},
    ),
    Way(
        PATCHES,
        "grass7:r.clump, map alone",
        "grass7:r.clump",
        lambda it, to: {"input": it.path, "title": "clumps", "output": f"{to}.tif"},
    ),
    Way(
        PATCHES,
        "gdal:polygonize, polygons",
        "gdal:polygonize",
        lambda it, to: {"INPUT": it.path, "BAND": 1, "FIELD": "class", "OUTPUT": f"{to}.gpkg"},
        "patches",
    ),
    Way(
        MODE,
        "rcell:majority",
        "rcell:majority",
        lambda it, to: {"INPUT": it.path, "OUTPUT": f"{to}.tif"},
    ),
    Way(
        MODE,
        "grass7:r.neighbors",
        "grass7:r.neighbors",
        lambda it, to: {"input": it.path, "method": 2, "size": 3, "output": f"{to}.tif"},
    ),
]


def spent() -> float:
    """Return the processor seconds used so far, including children that have ended."""
    return sum(os.times()[:4])


def measured(found: list[Map], rounds: int) -> dict[tuple[str, str, str], float]:
    """Return the fewest nanoseconds per cell, by question, way and map."""
    least: dict[tuple[str, str, str], float] = {}
    for turn in range(rounds):
        for way in WAYS:
            if not session.has(way.algorithm):
                continue
            for it in found:
                if way.only not in ("", it.name):
                    continue
                with tempfile.TemporaryDirectory() as room:
                    parameters = way.parameters(it, f"{room}/out")
                    before = spent()
                    session.run(way.algorithm, **parameters)
                    cost = (spent() - before) / it.cells * 1e9
                key = way.question, way.name, it.name
                least[key] = min(cost, least.get(key, cost))
                print(
                    f"turn {turn + 1}: {way.question}: {way.name}: {it.name}: {cost:.0f} ns",
                    file=sys.stderr,
                    flush=True,
                )
    return least


def table(least: dict[tuple[str, str, str], float], found: list[Map]) -> str:
    """Return the text of the table."""
    titles = [f"{it.name}, {it.cells / 1e6:g} million" for it in found]
    lines = [f"| Question | Algorithm | {' | '.join(titles)} |", "|---|---|" + "---|" * len(found)]
    for way in WAYS:
        costs = [least.get((way.question, way.name, it.name)) for it in found]
        if any(cost is not None for cost in costs):
            name = f"**{way.name}**" if way.name.startswith("rcell") else way.name
            cells = " | ".join("–" if cost is None else f"{cost:.0f}" for cost in costs)
            lines.append(f"| {way.question} | {name} | {cells} |")
    return "\n".join(lines)


def put_into_speed(text: str) -> None:
    """Replace the table under the heading QGIS."""
    whole = SPEED.read_text(encoding="utf-8")
    section = re.search(r"(?ms)^## QGIS$.*?(?=^## |\Z)", whole)
    if section is None:
        sys.exit("bench/RESULTS.md has no heading QGIS")
    changed = re.sub(r"(?m)(^\|.*\n)+", lambda _: text + "\n", section[0], count=1)
    SPEED.write_text(whole.replace(section[0], changed), encoding="utf-8")


def main() -> None:
    parser = argparse.ArgumentParser(description=__doc__.split("\n")[0])
    parser.add_argument("--short", action="store_true", help="small maps")
    parser.add_argument("--write", action="store_true", help="put the table into bench/RESULTS.md")
    parser.add_argument("--rounds", type=int, default=ROUNDS)
    words = parser.parse_args()
    session.start()
    with tempfile.TemporaryDirectory() as room:
        found = maps(room, words.short)
        text = table(measured(found, words.rounds), found)
    print(text)
    if words.write:
        put_into_speed(text)


if __name__ == "__main__":
    main()
