#!/usr/bin/python3
"""Measures ten tasks and a sum from arrays of five kinds, by turns with numpy and scikit-image in one process, and writes bench/RESULTS.md.

    arrays.py [--side N] [--rounds N] [--show] [KIND..]

KIND: patchy, noise, mask (bytes), heights16, heights32. Each figure is nanoseconds of the processor a cell (user and system, the program
included), the smallest of the rounds; ratios are of the smallest and of the medians. The peers (array_peers.py) are the fastest ways of one
thread that we know. Results of both have to be the same. Instructions a cell of rcell-pipe are callgrind's, on 1,000 x 1,000 cells. With
--show the table is printed and no file is written.
"""

from __future__ import annotations

import argparse
import os
import re
import resource
import statistics
import tempfile
import time
from pathlib import Path
from typing import Any, Callable, NamedTuple, cast

import numpy as np

import array_peers as peers
import rcell
from made_maps import CODES, patchy
from page import load, put
from rcell.core.programs import find_pipe

NULL = -2_147_483_648
SMALL_SIDE = 1000
VALGRIND = "valgrind --tool=callgrind --callgrind-out-file=/dev/null"
KINDS = {
    "patchy": "patchy u8",
    "noise": "noise u8",
    "heights16": "heights i16",
    "heights32": "heights i32",
    "mask": "mask u8",
}
NINE = [f"lc[{row},{col}]" for row in (-1, 0, 1) for col in (-1, 0, 1)]
OF_CLASSES = "11 12 = 1\n21 thru 24 = 2\n31 = 3\n41 thru 43 = 4\n* = 5\n"
OF_HEIGHTS = "1 thru 500 = 1\n501 thru 1000 = 2\n1001 thru 1500 = 3\n1501 thru 2000000 = 4\n* = 0\n"


class Maps(NamedTuple):
    """A map, its null, and zones of its size."""

    cells: Any
    nodata: int
    zones: Any


class Task(NamedTuple):
    """What both do, and which of its results can be compared."""

    name: str
    ours: Callable[[], Any]
    peer: Callable[[], Any]
    prepared: Callable[[Any], Any]


def heights(side: int, dtype: Any) -> Any:
    """Hills of four sizes, from some hundred below zero on, and null in a corner."""
    random, total = np.random.default_rng(3), np.zeros((side, side), np.float32)
    for step, high in ((256, 2200), (64, 700), (16, 150), (4, 30)):
        knots = random.random((side // step + 3, side // step + 3)).astype(np.float32) * high
        place = np.arange(side) / step
        first = place.astype(int)
        share = (place - first).astype(np.float32)
        rows = knots[first] * (1 - share)[:, None] + knots[first + 1] * share[:, None]
        total += rows[:, first] * (1 - share) + rows[:, first + 1] * share
    made = (total - 900).astype(dtype)
    made[: side // 20, : side // 4] = -9999
    return made


def made(kind: str, side: int) -> Maps:
    """Return the maps of a kind."""
    random = np.random.default_rng(1)
    zones = (patchy(side, side, 900, 130, 9, random) + 1).astype(np.int16)
    if kind == "mask":
        return Maps((heights(side, np.int32) > 700).astype(np.uint8), 255, zones)
    if kind.startswith("heights"):
        return Maps(heights(side, np.int16 if kind == "heights16" else np.int32), -9999, zones)
    if kind == "patchy":
        cells = CODES[patchy(side, side, 15, 24, 9, random)].astype(np.uint8)
    else:
        cells = random.integers(1, 13, (side, side), dtype=np.uint8)
    cells[random.random(cells.shape) < (0.024 if kind == "patchy" else 0.05)] = 0
    return Maps(cells, 0, zones)


def new_classes(cells: Any, nodata: int) -> Any:
    """Return the table by which numpy makes new classes of cells of 8 or 16 bits."""
    if cells.itemsize == 1:
        table = np.full(256, 5, np.int32)
        for old, new in (((11, 12), 1), (range(21, 25), 2), ((31,), 3), ((41, 42, 43), 4)):
            table[list(old)] = new
        table[nodata] = NULL
        return table
    values = np.arange(-32768, 32768)
    table = np.empty(1 << 16, np.int32)
    table[values.astype(np.int16).view(np.uint16)] = peers.classes_of_heights(values, nodata)
    return table


def tables_of(maps: Maps) -> list[Task]:
    """The tasks that end in a table."""
    cells, nodata, zones = maps
    lc, other = rcell.Raster(cells, nodata=nodata), rcell.Raster(zones, nodata=-1)
    masked = cast(Any, np.ma.MaskedArray)(cells, mask=(zones > 450) | (cells == nodata))
    hidden = 255 if cells.itemsize == 1 and nodata else nodata
    count = {1: peers.count_bytes, 2: peers.count_shorts, 4: peers.count_ints}[cells.itemsize]
    sizes = "r.clump input=lc output=x\nr.stats -c -n input=x"
    by_size = lambda table: np.sort(np.asarray(table))  # noqa: E731
    return [
        Task(
            "table", lambda: cells_of("r.stats -c input=lc", lc=lc), lambda: count(cells), by_size
        ),
        Task(
            "cross table",
            lambda: cells_of("r.stats -c input=lc,zones", lc=lc, zones=other),
            lambda: peers.cross(cells, zones),
            by_size,
        ),
        Task(
            "masked table",
            lambda: cells_of("r.stats -c input=lc", lc=masked),
            lambda: count(masked.filled(hidden)),
            by_size,
        ),
        Task(
            "sizes of patches",
            lambda: cells_of(sizes, lc=lc),
            lambda: np.bincount(peers.label(cells, nodata).reshape(-1))[1:],
            by_size,
        ),
    ]


def cells_of(script: str, **maps: Any) -> Any:
    """Return the counts of a table."""
    return rcell.table(script, **maps)["cells"].to_numpy()


def maps_of(maps: Maps) -> list[Task]:
    """The tasks that end in a map."""
    cells, nodata, zones = maps
    lc, other = rcell.Raster(cells, nodata=nodata), rcell.Raster(zones, nodata=-1)
    low, high = (40, 50) if cells.itemsize == 1 else (500, 1000)
    rules = OF_CLASSES if cells.itemsize == 1 else OF_HEIGHTS
    condition = f"x = if(lc > {low} && lc < {high}, zones, 0)"

    def grid(script: str, name: str = "x", **more: Any) -> Any:
        return rcell.grid(script, name, lc=lc, **more).array

    def reclassed() -> Any:
        if cells.itemsize == 4:
            return peers.reclass_ints(cells, nodata)
        return table[cells if cells.itemsize == 1 else cells.view(np.uint16)]

    table: Any = None if cells.itemsize == 4 else new_classes(cells, nodata)
    wide = lambda found: filled(found, nodata)  # noqa: E731
    tasks = [
        Task("map in and out", lambda: grid("", "lc"), cells.copy, wide),
        Task(
            "expression",
            lambda: grid(f"r.mapcalc {condition}", zones=other),
            lambda: peers.choose(cells, zones, low, high, nodata),
            wide,
        ),
        Task(
            "patches",
            lambda: grid("r.clump input=lc output=x"),
            lambda: peers.label(cells, nodata),
            wide,
        ),
        Task(
            "new classes", lambda: grid(f"r.reclass input=lc output=x\n{rules}end"), reclassed, wide
        ),
        Task(
            "sum of nine",
            lambda: grid(f"r.mapcalc x = {' + '.join(NINE)}"),
            lambda: peers.sum_of_nine(cells, nodata),
            wide,
        ),
    ]
    if cells.itemsize == 1 and not nodata:
        mode = f"r.mapcalc x = nmode({','.join(NINE)})"
        tasks.append(
            Task("majority of nine", lambda: grid(mode), lambda: peers.majority(cells), wide)
        )
    return tasks


def filled(found: Any, nodata: int) -> Any:
    """Return cells in which null, nodata and, of patches, the number of no patch are 0."""
    cells = np.asarray(found.filled(NULL) if hasattr(found, "filled") else found).astype(np.int64)
    return np.where((cells == NULL) | (cells == nodata), 0, cells)


def used() -> float:
    """Seconds of the processor of this process and of programs that have ended."""
    parts = map(resource.getrusage, (resource.RUSAGE_SELF, resource.RUSAGE_CHILDREN))
    return sum(part.ru_utime + part.ru_stime for part in parts)


def timed(work: Callable[[], Any]) -> tuple[float, Any]:
    before = used()
    result = work()
    return used() - before, result


def instructions(kind: str) -> dict[str, float]:
    """Return how many instructions rcell-pipe takes for a cell, by task."""
    maps, found, program = made(kind, SMALL_SIDE), {}, find_pipe()
    with tempfile.TemporaryDirectory(prefix="rcell-speed-") as folder:
        log, counting = Path(folder, "log"), Path(folder, "rcell-pipe")
        counting.write_text(f"#!/bin/sh\nexec {VALGRIND} --log-file={log} '{program}'\n")
        counting.chmod(0o755)
        for task in tables_of(maps) + maps_of(maps):
            os.environ["RCELL_PIPE"] = str(counting)
            task.ours()
            [number] = re.findall(r"Collected : (\d+)", log.read_text())
            found[task.name] = int(number) / SMALL_SIDE**2
    os.environ["RCELL_PIPE"] = str(program)
    return found


def cell(task: Task, rounds: int, cells: int) -> str:
    """Measure a task, and return its part of a row: rcell, the peer, the ratios of the smallest and of the medians."""
    mine, its = [], []
    for _ in range(rounds):
        (seconds, result), (other, expected) = timed(task.ours), timed(task.peer)
        mine.append(seconds)
        its.append(other)
    if not np.array_equal(task.prepared(result), task.prepared(expected)):
        raise SystemExit(f"{task.name}: not the same results")
    least = [min(turns) / cells * 1e9 for turns in (mine, its)]
    middle = statistics.median(mine) / statistics.median(its)
    return f"{least[0]:.1f}, {least[1]:.1f}; {least[0] / least[1]:.2f}, {middle:.2f}"


def section(kinds: list[str], side: int, rounds: int) -> str:
    """Return the table, with a row for a task and a column for a kind."""
    rows: dict[str, list[str]] = {}
    for place, kind in enumerate(kinds):
        maps, counts = made(kind, side), instructions(kind)
        for task in tables_of(maps) + maps_of(maps):
            parts = rows.setdefault(task.name, [""] * len(kinds))
            parts[place] = f"{cell(task, rounds, side * side)}; {counts[task.name]:.0f}"
            print(f"{time.strftime('%H:%M:%S')} {kind} {task.name}: {parts[place]}", flush=True)
    head = " | ".join(KINDS[kind] for kind in kinds)
    lines = [f"| {name} | {' | '.join(parts)} |" for name, parts in rows.items()]
    return f"""Measured on {load()}.

| Task | {head} |
|---{'|---' * len(kinds)}|
{chr(10).join(lines)}
"""


def main() -> None:
    words = argparse.ArgumentParser(
        description=__doc__, formatter_class=argparse.RawDescriptionHelpFormatter
    )
    words.add_argument("--side", type=int, default=3000)
    words.add_argument("--rounds", type=int, default=5)
    words.add_argument("--show", action="store_true")
    words.add_argument("kinds", nargs="*", choices=[*KINDS, []])
    settings = words.parse_args()
    text = section(settings.kinds or list(KINDS), settings.side, settings.rounds)
    print(text)
    if not settings.show:
        put("From arrays", text)


if __name__ == "__main__":
    main()
