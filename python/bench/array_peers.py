"""The fastest ways of one thread that we know with numpy and scikit-image: flat arrays, in blocks that stay in the cache of a processor."""

from __future__ import annotations

from typing import Any

import numpy as np

__all__ = [
    "choose",
    "classes_of_heights",
    "count_bytes",
    "count_ints",
    "count_shorts",
    "cross",
    "label",
    "majority",
    "reclass_ints",
    "sum_of_nine",
]

NULL = -2_147_483_648
BLOCK = 1 << 16
ROWS = 64


def count_bytes(cells: Any) -> Any:
    """Count bytes as pairs, whose counts fit an array of 65,536."""
    flat, counts = cells.reshape(-1), np.zeros(1 << 16, np.int64)
    pairs = flat[: flat.size & ~1].view(np.uint16)
    for first in range(0, pairs.size, 1 << 20):
        counts += np.bincount(pairs[first : first + (1 << 20)], minlength=1 << 16)
    both = counts.reshape(256, 256)
    found = both.sum(0) + both.sum(1)
    if flat.size & 1:
        found[flat[-1]] += 1
    return found[found > 0]


def count_shorts(cells: Any) -> Any:
    """Count cells of 16 bits in an array of 65,536."""
    flat, counts = cells.reshape(-1).view(np.uint16), np.zeros(1 << 16, np.int64)
    for first in range(0, flat.size, 1 << 19):
        counts += np.bincount(flat[first : first + (1 << 19)], minlength=1 << 16)
    return counts[counts > 0]


def count_ints(cells: Any) -> Any:
    """Count cells from the smallest to the largest in an array."""
    flat = cells.reshape(-1)
    low = int(flat.min())
    many = int(flat.max()) - low + 1
    counts = np.zeros(many, np.int64)
    for first in range(0, flat.size, 1 << 18):
        counts += np.bincount(flat[first : first + (1 << 18)] - low, minlength=many)
    return counts[counts > 0]


def cross(cells: Any, zones: Any) -> Any:
    """Count pairs in an array by both ranges."""
    one, other = cells.reshape(-1), zones.reshape(-1)
    low, wide = int(one.min()), int(other.max()) + 1
    many = (int(one.max()) - low + 1) * wide
    counts, step = np.zeros(many, np.int64), max(BLOCK, min(many, 1 << 20))
    room = np.empty(step, np.int64)
    for first in range(0, one.size, step):
        code = room[: min(step, one.size - first)]
        np.multiply(one[first : first + step], wide, out=code, dtype=np.int64)
        code += other[first : first + step]
        code -= low * wide
        counts += np.bincount(code, minlength=many)
    return counts[counts > 0]


def choose(cells: Any, zones: Any, low: int, high: int, nodata: int) -> Any:
    """Return the zones where cells are between two numbers, else 0; null where the cells are."""
    found = np.empty(cells.shape, np.int32)
    one, other, made = cells.reshape(-1), zones.reshape(-1), found.reshape(-1)
    for first in range(0, one.size, BLOCK):
        part = np.s_[first : first + BLOCK]
        here = one[part]
        made[part] = np.where((here > low) & (here < high), other[part], 0)
        np.copyto(made[part], NULL, where=here == nodata)
    return found


def label(cells: Any, nodata: int) -> Any:
    """Number patches by edges."""
    from skimage import measure

    return measure.label(cells, background=nodata, connectivity=1)


def classes_of_heights(heights: Any, nodata: int) -> Any:
    """Return how many of four limits are below each height."""
    found = (heights > 0).astype(np.int32)
    for limit in (500, 1000, 1500):
        found += heights > limit
    found[heights == nodata] = NULL
    return found


def reclass_ints(cells: Any, nodata: int) -> Any:
    """Return classes of heights, block by block."""
    found = np.empty(cells.shape, np.int32)
    flat, made = cells.reshape(-1), found.reshape(-1)
    for first in range(0, flat.size, BLOCK):
        part = np.s_[first : first + BLOCK]
        made[part] = classes_of_heights(flat[part], nodata)
    return found


def sum_of_nine(cells: Any, nodata: int) -> Any:
    """Return the sum of each cell and its eight neighbours; null if one is null or outside."""
    found = np.empty(cells.shape, np.int32)
    for top, low, part in _strips(cells, nodata, np.int32):
        is_null = part == nodata
        rows = part[:-2] + part[1:-1]
        rows += part[2:]
        total = rows[:, :-2] + rows[:, 1:-1]
        total += rows[:, 2:]
        some = is_null[:-2] | is_null[1:-1] | is_null[2:]
        np.copyto(total, NULL, where=some[:, :-2] | some[:, 1:-1] | some[:, 2:])
        found[top:low] = total
    return found


def majority(cells: Any) -> Any:
    """Return the class with the largest sum of nine shifted masks, the smallest of several; 0 is null."""
    best, most = np.zeros_like(cells), np.zeros(cells.shape, np.uint8)
    classes = np.flatnonzero(np.bincount(cells.reshape(-1), minlength=256))
    for top, low, part in _strips(cells, 0, cells.dtype):
        for one in classes[classes > 0]:
            mask = (part == one).view(np.uint8)
            rows = mask[:-2] + mask[1:-1]
            rows += mask[2:]
            count = rows[:, :-2] + rows[:, 1:-1]
            count += rows[:, 2:]
            np.copyto(best[top:low], cells.dtype.type(one), where=count > most[top:low])
            np.maximum(most[top:low], count, out=most[top:low])
    return best


def _strips(cells: Any, outside: int, dtype: Any) -> Any:
    """Yield strips of rows with a cell more on each side."""
    rows, cols = cells.shape
    for top in range(0, rows, ROWS):
        low = min(top + ROWS, rows)
        first, end = max(top - 1, 0), min(low + 1, rows)
        part = np.full((low - top + 2, cols + 2), outside, dtype)
        part[first - top + 1 : end - top + 1, 1:-1] = cells[first:end]
        yield top, low, part
