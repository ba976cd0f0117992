#!/usr/bin/python3
"""Does ten tasks with rcell, or the fastest way with rasterio, numpy and scikit-image: a name a line in, and out the seconds of the processor.

    ten.py (rcell|numpy) FOLDER

A sum of the result follows the seconds: of the counts of a table, in ascending order, or of the cells of a map. Python begins before
the clock does. `speed.py` runs it.
"""

from __future__ import annotations

import resource
import sys
import zlib
from typing import Any, Callable, cast

import numpy as np
import rasterio
from rasterio.windows import Window

__all__ = ["NAMES", "RULES", "SHIFT"]

NULL = -2_147_483_648
SHIFT = (300, 200)
"""Rows and columns by which the map that the last task cuts out is moved."""
RULES = "11 12 = 1\n21 thru 24 = 2\n31 = 3\n41 thru 43 = 4\n* = 5\n"
NINE = ", ".join(f"lc[{row},{col}]" for row in (-1, 0, 1) for col in (-1, 0, 1))
TABLE = "r.stats -c input=lc"
NAMES = [
    "table",
    "cross table",
    "masked table",
    "map in and out",
    "expression",
    "patches",
    "sizes of patches",
    "reclass",
    "majority of nine",
    "align",
]
Tasks = dict[str, Callable[[], Any]]


def read(path: str) -> Any:
    with rasterio.open(path) as dataset:
        return dataset.read(1)


def masked_of(lc: str, zones: str) -> Any:
    """Land cover in half of the zones, as an array of numpy."""
    cells, masked = read(lc), cast(Any, np.ma.MaskedArray)
    return masked(cells, mask=(read(zones) > 450) | (cells == 0))


def by_rcell(lc: str, zones: str, other: str) -> Tasks:
    import rcell

    masked = masked_of(lc, zones)
    plain = masked.data
    return {
        "table": lambda: rcell.table(TABLE, lc=lc),
        "cross table": lambda: rcell.table("r.stats -c input=lc,zones", lc=lc, zones=zones),
        "masked table": lambda: rcell.table(TABLE, lc=masked),
        "map in and out": lambda: rcell.grid("", "lc", lc=plain).array,
        "expression": lambda: rcell.grid(
            "r.mapcalc x = if(lc > 40 && lc < 50, zones, 0)", "x", lc=lc, zones=zones
        ).array,
        "patches": lambda: rcell.grid("r.clump input=lc output=x", "x", lc=lc).array,
        "sizes of patches": lambda: rcell.table(
            "r.clump input=lc output=x\nr.stats -c -n input=x", lc=lc
        ),
        "reclass": lambda: rcell.grid(f"r.reclass input=lc output=x\n{RULES}end", "x", lc=lc).array,
        "majority of nine": lambda: rcell.grid(f"r.mapcalc x = nmode({NINE})", "x", lc=lc).array,
        "align": lambda: rcell.align(lc, to=other).array,
    }


def by_numpy(lc: str, zones: str, other: str) -> Tasks:
    masked = masked_of(lc, zones)
    table = np.zeros(256, np.int32)
    for numbers, new in (((11, 12), 1), (range(21, 25), 2), ((31,), 3), ((41, 42, 43), 4)):
        table[list(numbers)] = new
    table[(table == 0) & (np.arange(256) > 0)] = 5
    table[0] = NULL
    return {
        "table": lambda: counts(read(lc)),
        "cross table": lambda: counts(read(zones).astype(np.int64) * 256 + read(lc)),
        "masked table": lambda: counts(masked.filled(0)),
        "map in and out": lambda: masked.data.copy(),
        "expression": lambda: expression(read(lc), read(zones)),
        "patches": lambda: patches(read(lc)),
        "sizes of patches": lambda: counts(patches(read(lc)))[1:],
        "reclass": lambda: table[read(lc)],
        "majority of nine": lambda: majority(read(lc)),
        "align": lambda: window(lc),
    }


def counts(cells: Any) -> Any:
    found = np.bincount(cells.reshape(-1))
    return found[found > 0]


def expression(lc: Any, zones: Any) -> Any:
    found = np.where((lc > 40) & (lc < 50), zones, 0).astype(np.int32)
    found[lc == 0] = NULL
    return found


def patches(lc: Any) -> Any:
    from skimage import measure

    return measure.label(lc, background=0, connectivity=1)


def majority(lc: Any) -> Any:
    """The class with the largest sum of nine shifted masks."""
    best, most = np.zeros_like(lc), np.zeros(lc.shape, np.uint8)
    for one in np.flatnonzero(np.bincount(lc.reshape(-1)))[1:]:
        mask = np.pad((lc == one).view(np.uint8), 1)
        rows = mask[:-2] + mask[1:-1] + mask[2:]
        count = rows[:, :-2] + rows[:, 1:-1] + rows[:, 2:]
        np.copyto(best, lc.dtype.type(one), where=count > most)
        np.maximum(most, count, out=most)
    return best


def window(path: str) -> Any:
    with rasterio.open(path) as dataset:
        return dataset.read(
            1,
            window=Window(SHIFT[1], SHIFT[0], dataset.width - SHIFT[1], dataset.height - SHIFT[0]),
        )


def sum_of(task: str, result: Any) -> int:
    """A sum of the counts of a table, or of the cells of a map."""
    if hasattr(result, "columns"):
        result = result["cells"].to_numpy()
    filled = np.asarray(result.filled(NULL) if hasattr(result, "filled") else result).astype(
        np.int64
    )
    if task == "patches":  # of which scikit-image gives null the number 0
        filled[filled == NULL] = 0
    return zlib.crc32((np.sort(filled) if filled.ndim == 1 else filled).tobytes())


def used() -> float:
    return sum(
        part.ru_utime + part.ru_stime
        for part in map(resource.getrusage, (resource.RUSAGE_SELF, resource.RUSAGE_CHILDREN))
    )


def main() -> None:
    ways = {"rcell": by_rcell, "numpy": by_numpy}[sys.argv[1]]
    tasks = ways(*(f"{sys.argv[2]}/{name}.tif" for name in ("lc", "zones", "other")))
    for line in sys.stdin:
        name = line.strip()
        before = used()
        result = tasks[name]()
        seconds = used() - before
        print(f"{seconds} {sum_of(name, result)}", flush=True)


if __name__ == "__main__":
    main()
