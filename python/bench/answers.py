#!/usr/bin/python3
"""Measures seven calls, the program alone and peers, by turns, in processor time, and writes a table into bench/RESULTS.md.

    answers.py [--newer] [--peers] [--cells N] [--rounds N] [--show]

Each figure is seconds of the processor (user and system, all processes), the smallest of the rounds. The maps are the patchy land cover,
its zones and a second year as GeoTIFF, made by made_maps.py, and the land cover again in degrees. `program` is rcell-pipe alone, on the
request that the package sends it (for align, which sends none, a table of the map), its output thrown away; `reading` is rasterio's read of the GeoTIFFs. A call may cost at
most the reading and twice the program, sieve, sample and within apart, whose work is in the package. With --newer the calls of newer.py are measured, with --peers also next
to terra and, in a session of GRASS, its modules. With --show the table is printed and no file is written.
"""

from __future__ import annotations

import argparse
import pathlib
import resource
import subprocess
import tempfile
import warnings
from typing import Any, Mapping, Sequence

import numpy as np
from scipy import ndimage
from skimage import measure

import rcell
from made_maps import geotiff, land_and_zones
from newer import Peers, Task, newer_calls, read
from page import load, put
from ten import majority
from rcell.core import programs, runs
from rcell.core.protocol import Question, request

DEGREES = (0.001, 0.0, 5.0, 0.0, -0.001, 50.0)
SHARE = 2
Maps = dict[str, str]


def used() -> float:
    """Seconds of the processor that this process and its children have taken."""
    return sum(
        part.ru_utime + part.ru_stime
        for part in map(resource.getrusage, (resource.RUSAGE_SELF, resource.RUSAGE_CHILDREN))
    )


def by_turns(tasks: dict[str, Task], rounds: int) -> dict[str, float]:
    """Seconds of each task, the smallest of so many rounds in which each has its turn."""
    least = dict.fromkeys(tasks, float("inf"))
    for _ in range(rounds):
        for name, task in tasks.items():
            before = used()
            task()
            least[name] = min(least[name], used() - before)
    return least


class Recorder:
    """The requests that the package sends to the program during a call, as files."""

    def __init__(self, folder: str) -> None:
        self._folder = folder
        self.requests: list[str] = []

    def record(self, call: Task) -> None:
        """Run a call and keep its requests."""
        asked = runs._frames

        def recording(
            script: str,
            maps: Mapping[str, Any],
            questions: Sequence[Question] = (),
            wanted: Sequence[str] = (),
            program: pathlib.Path | None = None,
        ) -> Any:
            self.requests.append(f"{self._folder}/request{len(self.requests)}")
            lines = [script, *(f"r.out.ascii input={name}" for name in wanted)]
            with open(self.requests[-1], "wb") as file:
                file.writelines(request(runs._sent(maps), "\n".join(lines).encode(), questions))
            return asked(script, maps, questions, wanted, program)

        runs._frames = recording  # type: ignore[assignment]
        try:
            call()
        finally:
            runs._frames = asked

    def program(self) -> None:
        """Run the program as the call did."""
        for path in self.requests:
            with open(path, "rb") as file:
                subprocess.run(
                    [programs.find_pipe()], stdin=file, check=True, stdout=subprocess.DEVNULL
                )


def maps_of(folder: str, side: int) -> Maps:
    """The maps by their names."""
    land, zones = land_and_zones(folder, side)
    cells = read(land)
    later = np.where(
        np.random.default_rng(5).random(cells.shape) < 0.05, np.roll(cells, 40, 1), cells
    )
    return {
        "land": land,
        "zones": zones,
        "later": geotiff(f"{folder}/later.tif", later, 0),
        "degrees": geotiff(f"{folder}/degrees.tif", cells, 0, DEGREES, "EPSG:4326"),
    }


def by_bincount(*paths: str) -> Any:
    """A cross table by numpy."""
    first, *rest = map(read, paths)
    keys = first.astype(np.int64)
    for cells in rest:
        keys = keys * (int(cells.max()) + 1) + cells
    return np.bincount(keys.reshape(-1))


def patches_by_skimage(path: str) -> Any:
    """Patches of all classes with their cells."""
    cells = read(path)
    return np.bincount(measure.label(cells, background=0, connectivity=1).reshape(-1))


def zonal_by_scipy(values: str, zones: str) -> Any:
    cells, zone = read(values), read(zones)
    index = np.unique(zone)
    return [
        of(cells, zone, index)
        for of in (ndimage.mean, ndimage.variance, ndimage.minimum, ndimage.maximum, ndimage.median)
    ]


def calls_of(maps: Maps) -> dict[str, tuple[list[str], Task, Peers]]:
    """Each call, with the files that it reads and its peers."""
    land, zones, later, degrees = (maps[name] for name in ("land", "zones", "later", "degrees"))
    return {
        "composition": (
            [land],
            lambda: rcell.composition(land),
            {"numpy bincount": lambda: by_bincount(land)},
        ),
        "composition by zone": (
            [land, zones],
            lambda: rcell.composition(land, zones),
            {"numpy bincount": lambda: by_bincount(zones, land)},
        ),
        "composition in degrees": (
            [degrees],
            lambda: rcell.composition(degrees),
            {},
        ),
        "cross": (
            [land, zones],
            lambda: rcell.cross(a=land, b=zones),
            {"numpy bincount": lambda: by_bincount(land, zones)},
        ),
        "change": (
            [land, later],
            lambda: rcell.change(land, later).summary,
            {"numpy bincount": lambda: by_bincount(land, later)},
        ),
        "patches": (
            [land],
            lambda: rcell.patches(land),
            {"skimage label, cells alone": lambda: patches_by_skimage(land)},
        ),
        "zonal": (
            [land, zones],
            lambda: rcell.zonal(land, zones),
            {"scipy ndimage": lambda: zonal_by_scipy(land, zones)},
        ),
        "majority 3 x 3": (
            [land],
            lambda: rcell.majority(land),
            {"numpy, 15 masks": lambda: majority(read(land))},
        ),
        "align by whole cells": (
            [land],
            lambda: rcell.align(land, to=later),
            {"numpy, reading alone": lambda: read(land)},
        ),
    }


def lines_of(
    calls: dict[str, tuple[list[str], Task, Peers]], folder: str, rounds: int
) -> list[str]:
    lines = []
    for name, (paths, call, peers) in calls.items():
        recorder = Recorder(folder)
        recorder.record(call)
        if not recorder.requests:  # alignment runs no program: a table of the map replaces it
            recorder.record(lambda: rcell.composition(paths[0]))
        own = {"answer": call, "program": recorder.program, "reading": lambda: [*map(read, paths)]}
        found = by_turns({**own, **peers}, rounds)
        answer, program, reading = (found[part] for part in own)
        share = answer / (reading + SHARE * program)
        told = ", ".join(
            f"{found[peer]:.2f} ({peer})" for peer in sorted(peers, key=found.__getitem__)
        )
        lines.append(
            f"| {name} | {answer:.2f} | {reading:.2f} | {program:.2f} | {share:.2f} | {told} |"
        )
        print(lines[-1], flush=True)
    return lines


def main() -> None:
    words = argparse.ArgumentParser(
        description=__doc__, formatter_class=argparse.RawDescriptionHelpFormatter
    )
    words.add_argument("--cells", type=int, default=25_000_000)
    words.add_argument("--rounds", type=int, default=2)
    words.add_argument("--show", action="store_true")
    words.add_argument("--newer", action="store_true")
    words.add_argument("--peers", action="store_true")
    settings = words.parse_args()
    warnings.simplefilter("ignore")
    side = int(settings.cells**0.5)
    with tempfile.TemporaryDirectory(prefix="rcell-answers-") as folder:
        maps = maps_of(folder, side)
        calls = newer_calls(maps, settings.peers) if settings.newer else calls_of(maps)
        lines = lines_of(calls, folder, settings.rounds)
    head = [
        "| answer | s | reading s | program s | share of reading + 2 program | peers s |",
        "|---|---|---|---|---|---|",
    ]
    if not settings.show:
        told = f"{side * side:,} cells; seconds of the processor, the least of {settings.rounds} rounds in which each had its turn; {load()}."
        put(
            "The newer calls" if settings.newer else "The seven calls",
            "\n".join([told, "", *head, *lines]) + "\n",
        )


if __name__ == "__main__":
    main()
