# SPDX-License-Identifier: Apache-2.0 OR GPL-2.0-or-later
"""Write maps as GeoTIFF."""

from __future__ import annotations

import warnings
from collections.abc import Callable
from typing import TYPE_CHECKING, Any

import numpy as np

from .core.protocol import NULL, NULL_BYTE
from .core.writing import replacing, write_errors
from .core.labels import checked_labels, write_labels
from .core.libraries import need
from .core.tiling import in_threads, threads

if TYPE_CHECKING:
    from .raster import Raster

__all__ = ["profile_of", "smallest_type", "write_geotiff"]

TILE = 256
# A file with at least this many cells may exceed 4 GB before compression.
_BIG_FROM = 1 << 29
# Files with up to this many cells are created in memory.
_IN_MEMORY = 1 << 25
# The number of cells to write or check at a time, and the bytes that GDAL may cache.
_BLOCK_CELLS = 1 << 22
_CACHE = 64 << 20
_COG = {
    "driver": "COG",
    "compress": "deflate",
    "overview_resampling": "nearest",
    "bigtiff": "if_safer",
}


def smallest_type(least: int, greatest: int) -> tuple[str, int]:
    """Return the smallest data type for the categories and a nodata value, and that value.

    Examples
    --------
    >>> smallest_type(1, 12), smallest_type(0, 255), smallest_type(-5, 5), smallest_type(1, 70000)
    (('uint8', 255), ('int16', -32768), ('int16', -32768), ('int32', -2147483648))
    >>> smallest_type(1, 2**31)
    ('int64', -2147483648)
    """
    if 0 <= least and greatest < 255:
        return "uint8", 255
    if -32_768 < least and greatest <= 32_767:
        return "int16", -32_768
    return ("int32" if greatest <= np.iinfo(np.int32).max else "int64"), NULL


def profile_of(
    rows: int, cols: int, transform: tuple[float, ...], crs: Any, dtype: str, nodata: float
) -> dict[str, Any]:
    """Return rasterio's creation profile for a GeoTIFF.

    Examples
    --------
    >>> profile_of(10, 20, (1, 0, 0, 0, -1, 10), None, "uint8", 255)["compress"]
    'deflate'
    """
    affine = need("affine", "gis", "to write a GeoTIFF")
    profile: dict[str, Any] = {
        "driver": "GTiff",
        "height": rows,
        "width": cols,
        "count": 1,
        "dtype": dtype,
        "nodata": nodata,
        "transform": affine.Affine(*transform),
        "compress": "deflate",
        "BIGTIFF": "YES" if rows * cols >= _BIG_FROM else "IF_SAFER",
        "NUM_THREADS": str(threads()),
    }
    if rows >= TILE and cols >= TILE:
        profile |= {"tiled": True, "blockxsize": TILE, "blockysize": TILE}
    if crs is not None:
        profile["crs"] = crs
    return profile


def write_geotiff(grid: Raster, path: str, is_cog: bool = False) -> None:
    """Write a map as a GeoTIFF, completely or not at all, in blocks of rows.

    The library does not report a full disk. Large files are therefore read back before they replace
    the target.

    Parameters
    ----------
    grid : Raster
    path : str
    is_cog : bool
        Whether to write a cloud-optimised file: tiled, with overviews from nearest cells.

    Raises
    ------
    WriteFailed
        The file cannot be written.
    BadMap
        The file cannot store a label.
    """
    rasterio = need("rasterio", "gis", "to write a GeoTIFF")
    # Labels from rules may contain bytes that are not text.
    labels = checked_labels(grid.name, grid.labels)
    least, greatest = _range_of(grid)
    dtype, nodata = smallest_type(least, greatest)
    profile = profile_of(*grid.region.shape, grid.transform, grid.crs, dtype, nodata)
    is_large = grid.region.rows * grid.region.cols > _IN_MEMORY
    make = _write_cog if is_cog else _write
    with replacing(path) as beside, write_errors(
        path, rasterio.errors.RasterioError, UnicodeEncodeError
    ):
        with warnings.catch_warnings(), rasterio.Env(GDAL_CACHEMAX=_CACHE):
            warnings.simplefilter("ignore", rasterio.errors.NotGeoreferencedWarning)
            if is_large:
                make(grid, beside, profile)
                _check(grid, beside, profile)
            else:
                _write_from_memory(grid, beside, profile, make)
        write_labels(beside, labels)


def _write_from_memory(
    grid: Raster, path: str, profile: dict[str, Any], make: Callable[..., None]
) -> None:
    """Create a file in memory, and write its bytes with Python, which reports all errors."""
    with need("rasterio.io", "gis", "to write a GeoTIFF").MemoryFile(ext=".tif") as memory:
        make(grid, memory.name, profile)
        with open(path, "wb") as file:
            file.write(memory.getbuffer())


def _write_cog(grid: Raster, path: str, profile: dict[str, Any]) -> None:
    """Write a plain GeoTIFF first, and copy it to a cloud-optimised GeoTIFF."""
    plain = path + ".plain.tif"
    _write(grid, plain, profile)
    shutil = need("rasterio.shutil", "gis", "to write a GeoTIFF")
    shutil.copy(plain, path, **_COG, num_threads=profile["NUM_THREADS"])
    shutil.delete(plain)


def _write(grid: Raster, path: str, profile: dict[str, Any]) -> None:
    """Write the cells of a map, and its colours if its type supports a colour table."""
    dtype, nodata = profile["dtype"], profile["nodata"]
    rasterio = need("rasterio", "gis", "to write a GeoTIFF")
    with rasterio.open(path, "w", **profile) as dataset:
        # Only bytes support a colour table.
        if grid.colors and dtype == "uint8":
            colors = {
                code: tuple(bytes.fromhex(color[1:]))
                for code, color in grid.colors.items()
                if 0 <= code < nodata
            }
            dataset.write_colormap(1, colors)
        for row, end in _places_of(grid):
            cells = _filled(_rows_of(grid, row, end), dtype, nodata)
            dataset.write(cells, 1, window=_window(grid, row, end))


def _check(grid: Raster, path: str, profile: dict[str, Any]) -> None:
    """Raise OSError unless a file contains the cells of a map."""
    rasterio = need("rasterio", "gis", "to write a GeoTIFF")

    def check(row: int, end: int) -> None:
        expected = _filled(_rows_of(grid, row, end), profile["dtype"], profile["nodata"])
        with rasterio.open(path) as dataset:
            written = dataset.read(1, window=_window(grid, row, end))
        if not np.array_equal(written, expected):
            rows = f"rows {row + 1} to {end}"
            raise OSError(f"{rows} were not written correctly: the disk may be full")

    rows, ends = zip(*_places_of(grid))
    in_threads(check, rows, ends)


def _window(grid: Raster, row: int, end: int) -> Any:
    windows = need("rasterio.windows", "gis", "to write a GeoTIFF")
    return windows.Window(0, row, grid.region.cols, end - row)


def _range_of(grid: Raster) -> tuple[int, int]:
    """Return the smallest and the largest category, or 0 and 0 if all cells are null."""
    rows, ends = zip(*_places_of(grid))
    extremes: list[int] = []
    for of_block in in_threads(lambda row, end: _extremes_of(_rows_of(grid, row, end)), rows, ends):
        extremes += of_block
    return min(extremes, default=0), max(extremes, default=0)


def _is_masked(cells: Any) -> bool:
    return isinstance(cells, np.ma.MaskedArray)


def _extremes_of(cells: Any) -> tuple[int, ...]:
    """Return the smallest and the largest category in rows, or () if all cells are null."""
    if _is_masked(cells):
        return (int(cells.min()), int(cells.max())) if np.ma.count(cells) else ()
    smallest = int(cells.min())
    if smallest == NULL_BYTE:
        return ()
    # As 8-bit numbers, null plus 1 is 0, so the largest sum belongs to the largest category.
    return smallest, int((cells + np.uint8(1)).max()) - 1


def _places_of(grid: Raster) -> list[tuple[int, int]]:
    """Return the first row of each block of rows in a map, and the row after its last."""
    rows, cols = grid.region.shape
    step = max(_BLOCK_CELLS // cols // TILE, 1) * TILE
    return [(row, min(row + step, rows)) for row in range(0, rows, step)]


def _rows_of(grid: Raster, row: int, end: int) -> Any:
    """Return rows as a masked array, or as bytes with 255 for null if the map stores bytes."""
    cells = grid._bytes(row, end)
    if cells is None:
        cells = grid.rows(row, end)
        cells = cells if cells.dtype == np.int64 else cells.astype(np.int32)
    return cells


def _filled(cells: Any, dtype: str, nodata: float) -> Any:
    """Convert masked rows to the type and nodata value of the file, and return bytes unchanged."""
    return cells.filled(nodata).astype(dtype) if _is_masked(cells) else cells
