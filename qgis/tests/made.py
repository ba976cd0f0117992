"""Create rasters for tests, and define the expected results with simple code."""

from __future__ import annotations

import contextlib
import os
from typing import Any, Iterator

import numpy as np
from numpy.typing import NDArray
from osgeo import gdal, osr

METRES = (500000.0, 20.0, 0.0, 5400000.0, 0.0, -20.0)
DEGREES = (8.0, 0.5, 0.0, 48.0, 0.0, -0.5)


def write(
    path: str,
    cells: Any,
    dtype: int = gdal.GDT_Int32,
    *,
    transform: Any = METRES,
    epsg: int = 32632,
    nodata: float | None = None,
    names: list[str] | None = None,
    driver: str = "GTiff",
    bands: int = 1,
) -> str:
    """Write cells as a raster, and return its path."""
    array = np.atleast_2d(np.asarray(cells))
    memory = gdal.GetDriverByName("MEM").Create("", array.shape[1], array.shape[0], bands, dtype)
    if transform is not None:
        memory.SetGeoTransform(transform)
    if epsg:
        reference = osr.SpatialReference()
        reference.ImportFromEPSG(epsg)
        memory.SetProjection(reference.ExportToWkt())
    for number in range(1, bands + 1):
        band = memory.GetRasterBand(number)
        if nodata is not None:
            band.SetNoDataValue(nodata)
        band.WriteArray(array)
        if names:
            band.SetRasterCategoryNames(names)
    options = ["COMPRESS=DEFLATE", "TILED=YES"] if driver == "GTiff" else []
    gdal.GetDriverByName(driver).CreateCopy(path, memory, options=options)
    return path


def noise(seed: int, rows: int, cols: int, most: int = 12, null: float = 0.05) -> NDArray[np.int32]:
    """Return random categories from 1 to `most`; 0 is null."""
    generator = np.random.default_rng(seed)
    cells = generator.integers(1, most + 1, (rows, cols), np.int32)
    cells[generator.random((rows, cols)) < null] = 0
    return cells


def patchy(seed: int, rows: int, cols: int, most: int = 9) -> NDArray[np.int32]:
    """Return patches made of overlapping blocks of several sizes; 0 is null."""
    generator = np.random.default_rng(seed)
    cells = np.full((rows, cols), 1, np.int32)
    for _ in range(rows * cols // 40):
        row, col = int(generator.integers(rows)), int(generator.integers(cols))
        height, width = generator.integers(1, 9, 2)
        cells[row : row + height, col : col + width] = generator.integers(0, most + 1)
    return cells


def counts(*maps: NDArray[Any], nulls: bool = False) -> dict[tuple[Any, ...], int]:
    """Count the cells of each combination with a loop; 0 is null."""
    found: dict[tuple[Any, ...], int] = {}
    for key in zip(*(cells.reshape(-1).tolist() for cells in maps)):
        if nulls or 0 not in key:
            found[key] = found.get(key, 0) + 1
    return found


def areas(cells: NDArray[Any], diagonal: bool) -> NDArray[np.int32]:
    """Number the patches with a simple search; 0 is null."""
    rows, cols = cells.shape
    numbers = np.zeros((rows, cols), np.int32)
    count = 0
    for start in zip(*np.nonzero(cells)):
        if numbers[start]:
            continue
        count += 1
        numbers[start] = count
        rest = [start]
        while rest:
            at = rest.pop()
            for row, col in _around(at, diagonal):
                if (
                    0 <= row < rows
                    and 0 <= col < cols
                    and not numbers[row, col]
                    and cells[row, col] == cells[start]
                ):
                    numbers[row, col] = count
                    rest.append((row, col))
    return numbers


def _around(at: tuple[int, ...], diagonal: bool) -> Iterator[tuple[int, int]]:
    for down in (-1, 0, 1):
        for across in (-1, 0, 1):
            if (down or across) and (diagonal or not (down and across)):
                yield at[0] + down, at[1] + across


def commonest(cells: NDArray[Any], size: int) -> NDArray[np.int32]:
    """Return the most frequent category of each cell's square, the smallest in a tie; 0 is null."""
    rows, cols = cells.shape
    reach = size // 2
    made = np.zeros((rows, cols), np.int32)
    for row in range(rows):
        for col in range(cols):
            square = cells[
                max(0, row - reach) : row + reach + 1, max(0, col - reach) : col + reach + 1
            ]
            values, times = np.unique(square[square != 0], return_counts=True)
            made[row, col] = values[times.argmax()] if values.size else 0
    return made


def running(path: str) -> list[str]:
    """Return the running processes of a program."""
    found = []
    for number in filter(str.isdigit, os.listdir("/proc")):
        with contextlib.suppress(OSError), open(f"/proc/{number}/cmdline", "rb") as file:
            if file.read().startswith(path.encode()):
                found.append(number)
    return found


def left_in(folder: str) -> list[str]:
    """Return the unexpected files in a folder."""
    return sorted(name for name in os.listdir(folder) if ".part" in name)
