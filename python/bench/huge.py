#!/usr/bin/python3
"""Measures calls on a map of four billion cells in twelve files: processor time, memory, and that a killed call continues.

    huge.py --folder F [--side N] [--workers W] [--once] [--write] [TASK ...]

Each of the twelve files has the same land cover of N x N cells, 18,432 if N is not given; they need 0.3 GB in the folder F. TASK is one of
`table` (composition), `summary` (of patches by class) and `majority` (3 x 3, written as a cloud optimised GeoTIFF). A task runs in a
process of its own. Then it runs with a folder for `resume=`, is killed when half of the tiles are kept and, for `majority`, again while it
writes, and continues: the bytes of its result must be the same, and nothing may be left. With --once it is not killed. Memory is what
the process and its programs have of their own, at most, and by worker.
"""

from __future__ import annotations

import argparse
import json
import os
import resource
import shutil
import signal
import subprocess
import sys
import threading
import time
from collections.abc import Callable
from hashlib import sha256
from pathlib import Path
from typing import Any

import numpy as np
import rasterio
import rcell
from made_maps import _land_cover
from page import load, put
from rasterio.windows import Window
from rcell.core.tiling import DryRun, working

TASKS = ("table", "summary", "majority")
DOWN, ACROSS = 3, 4
STRIP = 2048
WATCH_SECONDS = 0.5


def make(folder: Path, side: int) -> str:
    """Make the files that are missing, each with the cells of the first, and return a pattern of their names."""
    paths = [folder / f"huge_{side}_{at:02}.tif" for at in range(DOWN * ACROSS)]
    for at, path in enumerate(paths):
        if path.exists():
            continue
        beside = path.with_suffix(".part")
        if at == 0:
            _make_first(beside, side)
        else:
            shutil.copy(paths[0], beside)
        north, west = 25.0 * side * (DOWN - at // ACROSS), 25.0 * side * (at % ACROSS)
        with rasterio.open(beside, "r+") as dataset:
            dataset.transform = rasterio.Affine(25, 0, west, 0, -25, north)
        beside.rename(path)
    return str(folder / f"huge_{side}_*.tif")


def _make_first(path: Path, side: int) -> None:
    words = {"driver": "GTiff", "width": side, "height": side, "count": 1, "dtype": "uint8"}
    words |= {"tiled": True, "blockxsize": 256, "blockysize": 256, "compress": "deflate"}
    words |= {"zlevel": 1, "nodata": 0, "crs": "EPSG:32632"}
    with rasterio.open(path, "w", **words) as dataset:
        for top in range(0, side, STRIP):
            rows = np.arange(top, min(top + STRIP, side))
            cells = _land_cover(rows, np.arange(side))
            dataset.write(cells, 1, window=Window(0, top, side, len(rows)))


def run(task: str, files: str, out: str, words: dict[str, Any]) -> None:
    """Run a task and write its result."""
    if task == "majority":
        rcell.majority(files, **words).write(out, cog=True)
    elif task == "table":
        rcell.composition(files, **words).to_csv(out)
    else:
        rcell.patches(files, summary="class", **words).to_csv(out)


def own_memory(process: int) -> tuple[int, int]:
    """Return the bytes that a process has of its own, and all that it has in memory."""
    try:
        text = Path(f"/proc/{process}/status").read_text()
    except OSError:
        return 0, 0
    lines = dict(line.split(":", 1) for line in text.splitlines())
    own, mapped = (int(lines.get(key, "0").split()[0]) * 1024 for key in ("RssAnon", "VmRSS"))
    return own, mapped


def watch(peaks: dict[str, int], ended: threading.Event) -> None:
    """Note the largest memory of this process, of a program, and of all together."""
    me = os.getpid()
    while not ended.wait(WATCH_SECONDS):
        text = Path(f"/proc/{me}/task").iterdir()
        programs = {
            int(child) for task in text for child in (task / "children").read_text().split()
        }
        own, mapped = own_memory(me)
        each = [own_memory(program)[0] for program in programs]
        now = {
            "own": own,
            "mapped": mapped,
            "program": max(each, default=0),
            "all": own + sum(each),
        }
        peaks.update({name: max(peaks.get(name, 0), value) for name, value in now.items()})


def measure(task: str, files: str, out: str, workers: int, resume: str) -> None:
    """Run a task in this process, and print what it took."""
    peaks: dict[str, int] = {}
    ended = threading.Event()
    watcher = threading.Thread(target=watch, args=(peaks, ended))
    watcher.start()
    begun = time.monotonic()
    run(task, files, out, {"workers": workers, "resume": resume or None})
    wall = time.monotonic() - begun
    ended.set()
    watcher.join()
    used = [resource.getrusage(who) for who in (resource.RUSAGE_SELF, resource.RUSAGE_CHILDREN)]
    cpu = sum(each.ru_utime + each.ru_stime for each in used)
    print(json.dumps({"cpu": cpu, "wall": wall, **peaks}), flush=True)


def started(task: str, files: str, out: Path, workers: int, resume: str) -> Any:
    """Start a task in a process group of its own."""
    words = [sys.executable, __file__, "--measure", task, files, str(out), str(workers), resume]
    return subprocess.Popen(words, stdout=subprocess.PIPE, text=True, start_new_session=True)


def sum_of(path: Path) -> str:
    total = sha256()
    with open(path, "rb") as file:
        while piece := file.read(1 << 22):
            total.update(piece)
    return total.hexdigest()


def line_of(task: str, files: str, folder: Path, workers: int, is_killed: bool) -> str:
    """Return the row of a task: what it took, and whether a call that was killed gave the same bytes."""
    kind = ".tif" if task == "majority" else ".csv"
    straight = folder / f"straight{kind}"
    took = json.loads(started(task, files, straight, workers, "").communicate()[0])
    print(task, took, straight.stat().st_size, load(), file=sys.stderr, flush=True)
    told = killed(task, files, straight, workers) if is_killed else ""
    straight.unlink()
    giga = [f"{took[name] / 1e9:.2f}" for name in ("own", "program", "all", "mapped")]
    each = f"{took['all'] / 1e9 / workers:.2f}"
    return f"| {task} | {took['cpu']:,.0f} ({took['wall']:,.0f}) | {' | '.join(giga)} | {each} | {told} |"


def killed(task: str, files: str, straight: Path, workers: int) -> str:
    """Kill a call, let it continue, and compare what it writes."""
    folder, resumed = straight.parent, straight.with_stem("resumed")
    shelf = folder / "shelf"
    words = task, files, resumed, workers, str(shelf)
    half = tiles_of(task, files, workers) // 2
    kill(words, lambda: len(list(shelf.glob("*.npz"))) >= half)
    kept = len(list(shelf.glob("*.npz")))
    if task == "majority":
        kill(words, lambda: any(part.stat().st_size for part in folder.glob(".resumed*/*.tif")))
    again = json.loads(started(*words).communicate()[0])
    print(task, "killed with", kept, "tiles", again, load(), file=sys.stderr, flush=True)
    same = "the same bytes" if sum_of(straight) == sum_of(resumed) else "OTHER BYTES"
    shutil.rmtree(shelf)
    resumed.unlink()
    names = [path.name for path in folder.iterdir() if not path.name.startswith("huge")]
    left = sorted({*names} - {straight.name})
    return f"{kept}, {again['cpu']:,.0f}, {same}{', left: ' + ' '.join(left) if left else ''}"


def tiles_of(task: str, files: str, workers: int) -> int:
    """Return the number of tiles of a task, as a dry run prints it."""
    try:
        with working(workers=workers, is_dry=True):
            run(task, files, "", {})
    except DryRun as plan:
        return int(str(plan).split("\n")[1].split(" tiles")[0].replace(",", ""))
    raise AssertionError("a dry run has no result")


def kill(words: tuple[str, str, Path, int, str], is_time: Callable[[], bool]) -> None:
    """Start a task, and kill it and its programs when it is time."""
    process = started(*words)
    while process.poll() is None and not is_time():
        time.sleep(WATCH_SECONDS)
    os.killpg(process.pid, signal.SIGKILL)
    process.communicate()


def main() -> None:
    parser = argparse.ArgumentParser(description=__doc__)
    parser.add_argument("--measure", nargs=5)
    parser.add_argument("--side", type=int, default=18_432)
    parser.add_argument("--folder", type=Path)
    parser.add_argument("--workers", type=int, default=4)
    parser.add_argument("--once", action="store_true")
    parser.add_argument("--write", action="store_true")
    parser.add_argument("tasks", nargs="*", default=TASKS)
    given = parser.parse_args()
    if not given.measure and given.folder is None:
        parser.error("--folder is needed: it holds the files")
    if given.measure:
        task, files, out, workers, resume = given.measure
        measure(task, files, out, int(workers), resume)
        return
    given.folder.mkdir(exist_ok=True)
    files = make(given.folder, given.side)
    rows, cols = DOWN * given.side, ACROSS * given.side
    lines = [
        f"{rows:,} x {cols:,} cells of land cover in twelve files, {given.workers} workers. {load()}.",
        "",
        "| Call | CPU s (by the clock) | GB: Python | a program | all | with mapped files | all, by worker | killed: tiles kept, CPU s of the rest, result |",
        "|---|---|---|---|---|---|---|---|",
    ]
    print("\n".join(lines))
    for task in given.tasks:
        lines.append(line_of(task, files, given.folder, given.workers, not given.once))
        print(lines[-1], flush=True)
    if given.write:
        put("Tiles: huge", "\n".join(lines) + "\n")


if __name__ == "__main__":
    main()
