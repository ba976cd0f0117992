#!/usr/bin/python3
"""Measures calls on a large map by tiles, with some numbers of workers, compared with one run and with Dask, numpy and scipy.

    any_size.py [--side N] [--rounds N] [--workers W,..] [--alone] [--folder F] [--write] [TASK ...]

The map is land cover of N x N cells, 16,000 if N is not given, as a GeoTIFF that is kept in the folder F, and the same map moved by two
cells. TASK is one of `reading` (alone), `composition`, `cross`, `change`, `majority` (3 x 3, written as a GeoTIFF), `clump`, `patches`
and `summary` (of patches by class); by default all. Each call runs in a process of its own, and the calls of a task take turns. Seconds are
processor time of this process and of its programs, and in parentheses by the clock, which means little unless nothing else runs. The last
columns are both times with the most workers, divided by the times of one run. With --alone, Dask, numpy and scipy are left out. With
--write, the table replaces the one in bench/RESULTS.md.

Results are compared after the clock has stopped: cells and patches of all ways, and each byte of the tables and maps of one run and of
tiles. If they differ in a row, the row says so, and the exit status is 1.
"""

from __future__ import annotations

import argparse
import json
import os
import resource
import subprocess
import sys
import tempfile
import time
import zlib
from concurrent.futures import ThreadPoolExecutor
from pathlib import Path
from typing import Any

import numpy as np
import rasterio
import rcell
from made_maps import land_cover
from page import load, put
from rasterio.windows import Window
from rcell.core.rectangles import rectangles_of
from rcell.core.sources import source_of
from rcell.core.tiling import work, working

TASKS = ("reading", "composition", "cross", "change", "majority", "clump", "patches", "summary")
# The side of tiles that calls with four workers choose.
TILE = 2816
CLASSES = 13
DIFFERENT = "DIFFERENT"


def call_of(task: str, path: str, other: str, out: str) -> Any:
    """Run a task, and return its result."""
    if task == "reading":
        return cells_read(path)
    if task == "majority":
        return rcell.majority(path).write(out)
    if task in ("composition", "clump"):
        return getattr(rcell, task)(path)
    if task == "cross":
        return rcell.cross(a=path, b=other)
    if task == "change":
        return rcell.change(path, other).table
    return rcell.patches(path, summary="class" if task == "summary" else None)


def numbers_of(task: str, result: Any) -> Any:
    """Return the numbers that all ways return for a task: of cells, and of patches."""
    if task == "majority":
        return sum_of_file(result)
    if task == "clump":
        return int(result.array.max() if hasattr(result, "array") else result.size)
    if task == "patches":
        cells = np.sort(result if isinstance(result, np.ndarray) else result.cells.to_numpy())
        return [cells.size, zlib.crc32(cells.tobytes())]
    if isinstance(result, (int, list)):  # the reading, and tables of Dask
        return result
    if task == "summary":
        return [result["patches"].tolist(), result.cells.tolist()]
    return result.cells.tolist()


def sum_of_content(result: Any) -> int:
    """Return a checksum of a map's cells or of all columns of a table, or 0 for other results."""
    if hasattr(result, "array"):
        return zlib.crc32(result.array.filled(0).astype(np.int32, copy=False).data)
    found = 0
    for name in getattr(result, "columns", ()):
        column = result[name].to_numpy(np.float64, na_value=np.nan)
        found = zlib.crc32(column.tobytes(), found)
    return found


def cells_read(path: str) -> int:
    """Read a map as calls do, by tiles if there are some, and return the number of its cells."""
    source: Any = source_of("map", path)
    size = work().size
    if size is None:
        return sum(block.cells.size for block in source.blocks())
    places = rectangles_of(source.region.shape, size)
    with ThreadPoolExecutor(work().workers) as pool:
        return sum(pool.map(lambda place: int(source.window(*place).cells.size), places))


def sum_of_file(path: str) -> int:
    """Return a sum of the cells of a raster, with 0 for nodata."""
    found = 0
    with rasterio.open(path) as dataset:
        for top in range(0, dataset.height, TILE):
            rows = min(TILE, dataset.height - top)
            cells = dataset.read(1, window=Window(0, top, dataset.width, rows))
            found = zlib.crc32(np.where(cells == dataset.nodata, 0, cells).tobytes(), found)
    return found


def peer_of(task: str, path: str, other: str, out: str) -> Any:
    """Run a task as users of Dask do; 0 is null."""
    rioxarray, da = __import__("rioxarray"), __import__("dask.array").array
    words = {"chunks": {"x": TILE, "y": TILE}, "lock": False}
    a, b = (rioxarray.open_rasterio(name, **words).squeeze("band") for name in (path, other))
    if task == "reading":
        return int(a.data.map_blocks(lambda part: np.array([[part.size]])).sum().compute())
    if task == "composition":
        return da.bincount(a.data.ravel(), minlength=CLASSES).compute()[1:].tolist()
    if task in ("cross", "change"):
        both = a.data.astype(np.uint16) * CLASSES + da.where(b.data < CLASSES, b.data, 0)
        counts = da.bincount(both.ravel(), minlength=CLASSES**2).compute()
        inner = counts.reshape(CLASSES, CLASSES)[1:, 1:]
        return inner[inner > 0].tolist()
    if task == "majority":
        made = a.copy(data=a.data.map_overlap(most_frequent, depth=1, boundary=0, dtype=np.uint8))
        made.rio.to_raster(out, tiled=True, compress="deflate", lock=__import__("threading").Lock())
        return out
    cells = a.to_numpy()
    ndimage = __import__("scipy.ndimage").ndimage
    sizes = {}
    for code in range(1, CLASSES):
        labels, count = ndimage.label(cells == code)
        sizes[code] = np.bincount(labels.ravel(), minlength=count + 1)[1:]
    if task == "summary":
        return [[len(of) for of in sizes.values()], [int(of.sum()) for of in sizes.values()]]
    return np.concatenate(list(sizes.values())).astype(np.int64)


def most_frequent(cells: Any) -> Any:
    """Return the most frequent class around each cell: the smallest of several, 0 for null."""
    best, most = np.zeros(cells.shape, np.uint8), np.zeros(cells.shape, np.uint8)
    for code in range(1, CLASSES):
        is_one = (cells == code).astype(np.uint8)
        rows = is_one.copy()
        rows[1:] += is_one[:-1]
        rows[:-1] += is_one[1:]
        count = rows.copy()
        count[:, 1:] += rows[:, :-1]
        count[:, :-1] += rows[:, 1:]
        np.copyto(best, code, where=count > most)
        np.maximum(most, count, out=most)
    best[cells == 0] = 0
    return best


def measured(task: str, path: str, other: str, workers: int) -> None:
    """Print the seconds and the memory of a task; 0 workers are one run, and -1 are Dask."""
    out = os.path.join(tempfile.gettempdir(), f"any-size-{os.getpid()}.tif")
    size = (TILE, TILE) if workers > 0 else None
    begun = time.monotonic()
    try:
        with working(workers=max(workers, 1), size=size):
            result = (peer_of if workers < 0 else call_of)(task, path, other, out)
        elapsed = time.monotonic() - begun
        used = [resource.getrusage(who) for who in (resource.RUSAGE_SELF, resource.RUSAGE_CHILDREN)]
        numbers, full = numbers_of(task, result), sum_of_content(result)
    finally:
        if os.path.exists(out):
            os.unlink(out)
    seconds = sum(of.ru_utime + of.ru_stime for of in used)
    memory = sum(of.ru_maxrss for of in used) / 1024
    print(json.dumps([numbers, full, seconds, elapsed, memory]))


def line_of(task: str, paths: list[str], counts: list[int], rounds: int) -> str:
    """Return the row of a task: the fastest round in one run and with each number of workers, where -1 stands for Dask."""
    best: dict[int, list[float]] = {}
    numbers, sums = set(), set()
    for _ in range(rounds):
        for workers in [0, *counts]:
            words = [sys.executable, __file__, "--measure", task, *paths, str(workers)]
            ran = subprocess.run(words, stdout=subprocess.PIPE, text=True, check=True)
            found, full, *new = json.loads(ran.stdout)
            numbers.add(json.dumps(found))
            sums |= {full} if workers >= 0 else set()
            best[workers] = list(map(min, new, best.get(workers, new)))
            print(task, workers, *(f"{value:.2f}" for value in new), file=sys.stderr, flush=True)
    is_equal = "equal" if len(numbers) == len(sums) == 1 else DIFFERENT
    cells = [f"{cpu:.1f} s ({wall:.1f}), {memory:,.0f} MB" for cpu, wall, memory in best.values()]
    ratios = (f"{most / one:.2f}" for most, one in zip(best[max(counts)][:2], best[0]))
    return f"| {task}, {is_equal} | {' | '.join([*cells, *ratios])} |"


def main() -> None:
    parser = argparse.ArgumentParser(description=__doc__)
    parser.add_argument("--measure", nargs=4)
    parser.add_argument("--side", type=int, default=16_000)
    parser.add_argument("--rounds", type=int, default=1)
    parser.add_argument("--workers", default="1,2,4")
    parser.add_argument("--alone", action="store_true")
    parser.add_argument("--folder", default=tempfile.gettempdir())
    parser.add_argument("--write", action="store_true")
    parser.add_argument("tasks", nargs="*", default=TASKS)
    given = parser.parse_args()
    if given.measure:
        task, path_read, path_other, workers = given.measure
        measured(task, path_read, path_other, int(workers))
        return
    path = Path(given.folder, f"land_cover_{given.side}.tif")
    other = Path(given.folder, f"shifted_{given.side}.tif")
    if not path.exists():
        land_cover(path, given.side)
    if not other.exists():
        rcell.grid("r.mapcalc b = a[2,2]", "b", a=str(path)).write(other)
    counts = [int(word) for word in given.workers.split(",")]
    names = [f"{count} worker{'s' if count > 1 else ''}" for count in counts]
    if not given.alone:
        counts, names = [*counts, -1], [*names, "Dask, numpy, scipy"]
    lines = [
        f"{given.side:,} x {given.side:,} cells of land cover, tiles of {TILE:,}; rounds: {given.rounds}. {load()}.",
        "",
        f"| Call | one run | {' | '.join(names)} | CPU time | by the clock |",
        "|---|" + "---|" * (3 + len(counts)),
        *(line_of(task, [str(path), str(other)], counts, given.rounds) for task in given.tasks),
    ]
    print("\n".join(lines))
    if given.write:
        put(f"Tiles: {given.side}", "\n".join(lines) + "\n")
    if any(DIFFERENT in line for line in lines):
        sys.exit("the results differ")


if __name__ == "__main__":
    main()
