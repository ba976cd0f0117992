#!/usr/bin/python3
"""Measures ten tasks by the package and by peers, by turns in one run, and writes bench/RESULTS.md.

    speed.py [--side N] [--rounds N] [--show]

Each figure is nanoseconds of the processor a cell (user and system, all processes), the smallest of the rounds, on a GeoTIFF of patchy land
cover of N x N cells and another of zones. The contenders are started once and get a task after another: ten.py with this package; ten.py
with rasterio, numpy and scikit-image; ten.R with terra; ten.sh with GRASS, whose maps are there already, and whose modules start anew for
each task. Results that can be compared have to be the same. Last come what a
call takes whatever its map, and the table of a GeoTIFF compared with reading it and counting in C++ (bench/yardstick.cpp), whose sum it may
not pass by more than a fifth of the one and half of the other. With --show the tables are printed and no file is written.
"""

from __future__ import annotations

import argparse
import os
import pathlib
import resource
import shutil
import subprocess
import tempfile
import time

import numpy as np

import ten
from made_maps import TRANSFORM, geotiff, land_and_zones
from page import load, put

HERE = pathlib.Path(__file__).resolve().parent
ROOT = HERE.parents[1]
HEADS = {
    "rcell": "rcell",
    "numpy": "rasterio, numpy, scikit-image",
    "terra": "terra",
    "grass": "GRASS, maps in GRASS",
}
TURNS = 20
READING, COUNTING = 1.2, 1.5
"""What a table may take of reading and of counting alone."""


class Contender:
    """A process that does tasks, and the fewest seconds of each."""

    def __init__(self, words: list[str], **environment: str) -> None:
        self._process = subprocess.Popen(
            words,
            stdin=subprocess.PIPE,
            stdout=subprocess.PIPE,
            text=True,
            env={**os.environ, **environment},
        )
        self.seconds: dict[str, float] = {}
        self.sums: dict[str, str] = {}

    def turn(self, task: str) -> None:
        """Do a task once."""
        assert self._process.stdin and self._process.stdout
        print(task, file=self._process.stdin, flush=True)
        seconds, self.sums[task] = self._process.stdout.readline().split()
        self.seconds[task] = min(self.seconds.get(task, float("inf")), float(seconds))

    def close(self) -> None:
        """Let the process end."""
        self._process.communicate()


def make_maps(folder: str, side: int) -> None:
    """Land cover and zones, a map that begins some rows and columns further, the land cover as a text, and rules."""
    lc, zones = land_and_zones(folder, side)
    [cells] = [ten.read(lc)]
    (down, right), (width, _, west, _, height, north) = ten.SHIFT, TRANSFORM
    moved = (width, 0.0, west + width * right, 0.0, height, north + height * down)
    geotiff(f"{folder}/other.tif", cells[down:, right:], 0, moved)
    words = np.array(["*", *map(str, range(1, 256))])
    with open(f"{folder}/lc.txt", "w", encoding="ascii") as file:
        file.write(f"north: {side}\nsouth: 0\neast: {side}\nwest: 0\nrows: {side}\ncols: {side}\n")
        file.writelines(" ".join(row) + "\n" for row in words[cells].tolist())
    pathlib.Path(folder, "rules").write_text(f"{ten.RULES}end\n", encoding="ascii")


def contenders(folder: str) -> dict[str, Contender]:
    """All that are installed, by their names."""
    found = {
        "rcell": of_package(folder),
        "numpy": Contender(["/usr/bin/python3", str(HERE / "ten.py"), "numpy", folder]),
    }
    if shutil.which("Rscript"):
        found["terra"] = Contender(["Rscript", str(HERE / "ten.R"), folder])
    if shutil.which("grass"):
        found["grass"] = Contender(
            ["grass", "--tmp-location", "XY", "--exec", "bash", str(HERE / "ten.sh"), folder]
        )
    return found


def of_package(folder: str) -> Contender:
    """The package of this commit."""
    return Contender(
        ["/usr/bin/python3", str(HERE / "ten.py"), "rcell", folder],
        PYTHONPATH=str(ROOT / "python" / "src"),
    )


def measured(folder: str, rounds: int) -> dict[str, Contender]:
    """The contenders after all rounds."""
    found = contenders(folder)
    for _ in range(rounds):
        for task in ten.NAMES:
            for contender in found.values():
                contender.turn(task)
    for contender in found.values():
        contender.close()
    for task in ten.NAMES:
        if (
            task != "align" and found["numpy"].sums[task] != found["rcell"].sums[task]
        ):  # rasterio reads null as 0
            raise SystemExit(f"{task}: not the same results")
    return found


# The table of a GeoTIFF, taken apart


def used(words: list[str]) -> float:
    """Seconds of the processor of a program."""
    before = resource.getrusage(resource.RUSAGE_CHILDREN)
    subprocess.run(words, check=True, stdout=subprocess.DEVNULL)
    after = resource.getrusage(resource.RUSAGE_CHILDREN)
    return after.ru_utime + after.ru_stime - before.ru_utime - before.ru_stime


def taken_apart(folder: str) -> tuple[float, float, float]:
    """Seconds of reading a GeoTIFF with rasterio, of counting its cells in C++ (of a text, less the reading of that) and of its table, by turns."""
    yardstick, text = f"{folder}/yardstick", f"{folder}/lc.txt"
    subprocess.run(
        [
            "g++",
            "-std=c++20",
            "-O3",
            "-march=native",
            "-o",
            yardstick,
            str(ROOT / "bench" / "yardstick.cpp"),
        ],
        check=True,
    )
    package = of_package(folder)
    reads, wholes, parts = [], [], []
    for _ in range(TURNS):
        package.turn("table")
        before = time.process_time()
        ten.read(f"{folder}/lc.tif")
        reads.append(time.process_time() - before)
        wholes.append(used([yardstick, "none", "stats", text]))
        parts.append(used([yardstick, "none", "nothing", text]))
    package.close()
    return min(reads), min(wholes) - min(parts), package.seconds["table"]


def call(folder: str) -> float:
    """Seconds of a table of a map of one cell."""
    small = f"{folder}/small"
    os.mkdir(small)
    for name in ("lc", "zones", "other"):
        geotiff(f"{small}/{name}.tif", np.ones((1, 1), np.uint8), 0)
    package = of_package(small)
    for _ in range(TURNS):
        package.turn("table")
    package.close()
    return package.seconds["table"]


def section(folder: str, settings: argparse.Namespace) -> str:
    cells = settings.side**2
    found = measured(folder, settings.rounds)

    def ns(seconds: float) -> str:
        return "" if seconds == float("inf") else f"{seconds / cells * 1e9:.1f}"

    rows = [
        f"| {task} | {' | '.join(ns(one.seconds[task]) for one in found.values())} |"
        for task in ten.NAMES
    ]
    read, count, table = taken_apart(folder)
    return f"""Measured on {load()}.

Nanoseconds of the processor a cell (user and system, all processes), the least of {settings.rounds} rounds in which each had its turn, on
{settings.side:,} x {settings.side:,} cells of patchy land cover in 15 classes.

| Task | {' | '.join(HEADS[name] for name in found)} |
|---{'|---' * len(found)}|
{chr(10).join(rows)}

| Table of the same GeoTIFF, the least of {TURNS} turns | ns a cell |
|---|---|
| reading it with rasterio | {ns(read)} |
| counting in C++, without reading | {ns(count)} |
| {READING} of reading and {COUNTING} of counting | {ns(READING * read + COUNTING * count)} |
| rcell.table | {ns(table)} |

A call takes {call(folder) * 1e3:.1f} ms whatever its map.
"""


def main() -> None:
    words = argparse.ArgumentParser(
        description=__doc__, formatter_class=argparse.RawDescriptionHelpFormatter
    )
    words.add_argument("--side", type=int, default=2000)
    words.add_argument("--rounds", type=int, default=3)
    words.add_argument("--show", action="store_true")
    settings = words.parse_args()
    with tempfile.TemporaryDirectory(prefix="rcell-speed-") as folder:
        make_maps(folder, settings.side)
        text = section(folder, settings)
    print(text)
    if not settings.show:
        put("From Python", text)


if __name__ == "__main__":
    main()
