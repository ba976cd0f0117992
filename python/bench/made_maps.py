"""Maps that the figures are measured on: GeoTIFFs, deflate, blocks of 256 x 256, the maps of tiles written by strips."""

from __future__ import annotations

from collections.abc import Iterator
from contextlib import contextmanager
from pathlib import Path
from typing import Any

import numpy as np
import numpy.typing as npt
import rasterio
from rasterio.windows import Window

from rcell.geotiff import profile_of

__all__ = [
    "TRANSFORM",
    "geotiff",
    "land_and_zones",
    "land_cover",
]

CLASSES = 12

FINEST = 4
"""Rows and columns of the smallest block of equal cells in land cover."""

STRIP = 2000
"""Rows that are made, or looked at, at a time."""

TRANSFORM = (25.0, 0.0, 500_000.0, 0.0, -25.0, 5_500_000.0)
CODES = np.array([11, 12, 21, 22, 23, 24, 31, 41, 42, 43, 52, 71, 81, 82, 90])

Cells = npt.NDArray[np.uint8]


def land_cover(path: Path, side: int) -> None:
    """Patches of many sizes in 12 classes: the sum of random fields at four scales, and null where another one is low."""
    with _writing(path, side) as dataset:
        for top in range(0, side, STRIP):
            rows = np.arange(top, min(top + STRIP, side))
            dataset.write(
                _land_cover(rows, np.arange(side)), 1, window=Window(0, top, side, len(rows))
            )


def _land_cover(rows: npt.NDArray[Any], cols: npt.NDArray[Any]) -> Cells:
    (down, low), (right, far) = (
        np.unique(along.reshape(-1) // FINEST, return_inverse=True) for along in (rows, cols)
    )
    total = sum(
        weight * _field(down, right, scale)
        for weight, scale in zip((0.5, 1, 1, 1), (4, 16, 64, 256))
    )
    blocks = (np.asarray(total) / 3.5 * CLASSES * 1.6 % CLASSES + 1).astype(np.uint8)
    blocks[_field(down, right, 32) < 0.05] = 0
    return blocks[low][:, far]


def _field(down: npt.NDArray[Any], right: npt.NDArray[Any], scale: int) -> npt.NDArray[np.float32]:
    """Numbers from 0 to 1, one for each block of so many cells, mixed from its place: the same wherever the map is cut."""
    blocks = ((along * FINEST // scale).astype(np.uint64) for along in (down, right))
    key = (next(blocks)[:, None] << np.uint64(32)) + next(blocks) + np.uint64(scale << 20)
    for factor in (0xFF51AFD7ED558CCD, 0xC4CEB9FE1A85EC53):
        key = (key ^ (key >> np.uint64(33))) * np.uint64(factor)
    return (key >> np.uint64(40)).astype(np.float32) / np.float32(2**24)


def patchy(
    rows: int, cols: int, kinds: int, side: int, ragged: int, random: np.random.Generator
) -> Any:
    """Patches of about `side` cells with ragged edges."""
    kind = random.integers(0, kinds, (rows // side + 2, cols // side + 2))
    row = np.arange(rows)[:, None] + random.integers(0, ragged, (rows, cols))
    col = np.arange(cols)[None, :] + random.integers(0, ragged, (rows, cols))
    return kind[row // side, col // side]


def land_and_zones(folder: str, side: int) -> tuple[str, str]:
    """The paths of GeoTIFFs of land cover in 15 classes, with some null, and of 900 zones in 16 bits."""
    random = np.random.default_rng(1)
    land = CODES[patchy(side, side, 15, 24, 9, random)].astype("uint8")
    land[random.random(land.shape) < 0.024] = 0
    zones = (patchy(side, side, 900, 130, 9, random) + 1).astype("int16")
    return geotiff(f"{folder}/lc.tif", land, 0), geotiff(f"{folder}/zones.tif", zones, -1)


def geotiff(
    path: str,
    cells: Any,
    nodata: int,
    transform: tuple[float, ...] = TRANSFORM,
    crs: str = "EPSG:32632",
) -> str:
    """The path of a GeoTIFF that is written."""
    with rasterio.open(
        path,
        "w",
        **profile_of(len(cells), cells.shape[1], transform, crs, cells.dtype.name, nodata),
    ) as dataset:
        dataset.write(cells, 1)
    return path


@contextmanager
def _writing(path: Path, side: int) -> Iterator[Any]:
    with rasterio.open(
        path,
        "w",
        driver="GTiff",
        count=1,
        dtype="uint8",
        nodata=0,
        width=side,
        height=side,
        tiled=True,
        blockxsize=256,
        blockysize=256,
        compress="deflate",
        transform=rasterio.Affine(25, 0, 0, 0, -25, 25 * side),
    ) as dataset:
        yield dataset
