# SPDX-License-Identifier: Apache-2.0 OR GPL-2.0-or-later
"""Open rasters as maps with rasterio and read them window by window."""

from __future__ import annotations

import contextlib
import functools
import os
import threading
import warnings
import xml.etree.ElementTree as ElementTree
from dataclasses import dataclass
from typing import Any, ClassVar, Iterator, Mapping

import numpy as np

from ..core.files import opened
from ..core.host import host, option
from ..core.errors import BadMap, RcellError, ReadFailed
from ..core.labels import legend_of_band
from ..core.legends import Legend
from ..core.libraries import need
from ..core.pieces import shared_path
from ..core.sources import (
    BLOCK_CELLS,
    Block,
    Cells,
    Mask,
    checked,
    in_region,
    is_converted,
    nodata_of,
    type_of,
)
from ..core.region import Region, Transform, check_upright, six_numbers
from .handles import of_this_thread

__all__ = [
    "Layer",
    "RasterMap",
    "only_band",
    "open_dataset",
    "open_raster",
    "read_errors",
    "upright",
]

_PURPOSE = "to read a raster"
_IDENTITY: Transform = (1.0, 0.0, 0.0, 0.0, 1.0, 0.0)
# The largest number of cells in a block, for files whose blocks have very many rows.
MOST_BLOCK_CELLS = 1 << 23
_one_thread = threading.Lock()


def open_raster(name: str, source: Any, band: int | None = None) -> RasterMap:
    """Open a raster as a map.

    Parameters
    ----------
    name : str
        The name of the map, for messages.
    source : path, rasterio.DatasetReader or rasterio.Band
    band : int, optional
        The number of the band. By default, the raster must have only one band.

    Raises
    ------
    ReadFailed
        The raster cannot be opened.
    BadMap
        The raster has several bands, scaled values, a rotated transform, or control points instead
        of a transform.
    """
    rasterio = need("rasterio", "gis", _PURPOSE)
    with read_errors(name, "cannot open"):
        if isinstance(source, rasterio.Band):
            return RasterMap.of_dataset(name, source.ds, int(source.bidx))
        is_path = isinstance(source, (str, os.PathLike))
        dataset = open_dataset(name, os.fspath(source)) if is_path else source
        return RasterMap.of_dataset(name, dataset, band)


@contextlib.contextmanager
def read_errors(name: str, problem: str) -> Iterator[None]:
    """Convert errors from rasterio and the operating system to ReadFailed."""
    rasterio = need("rasterio", "gis", _PURPOSE)
    # Some properties of a dataset raise GDAL's errors directly.
    gdal_error = need("rasterio._err", "gis", _PURPOSE).CPLE_BaseError
    try:
        yield
    except UnicodeEncodeError:
        raise ReadFailed(
            name, f"{problem}: rasterio only accepts UTF-8 paths: rename the file"
        ) from None
    except (rasterio.errors.RasterioError, gdal_error, OSError, ValueError, TypeError) as error:
        if isinstance(error, RcellError):
            raise
        raise ReadFailed(name, f"{problem}: {error}") from None


def open_dataset(name: str, path: str) -> Any:
    """Open a dataset with rasterio, without the warning about missing georeferencing.

    Raises
    ------
    ReadFailed
        The dataset cannot be opened.
    """
    rasterio = need("rasterio", "gis", _PURPOSE)
    with warnings.catch_warnings():
        warnings.simplefilter("ignore", rasterio.errors.NotGeoreferencedWarning)
        with read_errors(name, "cannot open"):
            return rasterio.open(path)


@dataclass(frozen=True)
class Layer:
    """A band of a raster, and the criteria for null cells.

    Attributes
    ----------
    band : int
    dtype : str
    nodata : float or int or None
    has_mask : bool
        Whether the band has its own mask, or a mask for all bands.
    alpha : int or None
        The band that marks transparent cells, which are null.
    """

    band: int
    dtype: str
    nodata: float | None
    has_mask: bool
    alpha: int | None

    @classmethod
    def of(cls, name: str, dataset: Any, band: int, enums: Any) -> Layer:
        """Describe a band, or raise BadMap if its values are scaled or not real numbers."""
        check_scale(name, dataset, band)
        dtype, nodata = dataset.dtypes[band - 1], dataset.nodatavals[band - 1]
        if dtype.startswith("complex") or dtype not in np.sctypeDict:
            raise BadMap(name, f"not a map of whole numbers: its cells are of type {dtype}")
        if np.dtype(dtype).kind in "iu" and np.dtype(dtype).itemsize == 8:
            dtype, nodata = _of_64_bits(dataset, band)
        flags = dataset.mask_flag_enums[band - 1]
        alpha = next((number for number in alphas(dataset, enums) if number != band), None)
        # A band without flags has its own mask. An alpha band is read separately.
        has_mask = not flags or enums.MaskFlags.per_dataset in flags
        if enums.MaskFlags.alpha in flags:
            has_mask = False
        return cls(band, dtype, nodata, has_mask, alpha)

    def read(
        self, name: str, dataset: Any, place: tuple[int, int, int, int], title: str
    ) -> tuple[Cells, Mask | None]:
        """Return the cells of a window, and a mask of masked and transparent cells, or None.

        The window is its first row and column and its shape. Messages call it `title`.

        Raises
        ------
        ReadFailed
            A part of the file cannot be read.
        """
        top, left, rows, cols = place
        window = need("rasterio.windows", "gis", _PURPOSE).Window(left, top, cols, rows)
        with read_errors(name, f"{title} cannot be read"):
            cells: Cells = dataset.read(self.band, window=window)
            masks: list[Mask] = []
            if self.has_mask:
                masks.append(dataset.read_masks(self.band, window=window) == 0)
            if self.alpha is not None:
                masks.append(dataset.read(self.alpha, window=window) == 0)
        if cells.dtype.itemsize == 8:
            # Before version 1.4, rasterio swaps the names of the two 64-bit types, but not the
            # bits.
            cells = cells.view(self.dtype)
        return cells, np.logical_or.reduce(masks) if masks else None


def _described(dataset: Any) -> ElementTree.Element:
    """Return GDAL's VRT description of a raster, which contains details that rasterio lacks."""
    with need("rasterio.io", "gis", _PURPOSE).MemoryFile(ext=".vrt") as memory:
        need("rasterio.shutil", "gis", _PURPOSE).copy(dataset, memory.name, driver="VRT")
        return ElementTree.fromstring(memory.read())


def _band_of(dataset: Any, band: int) -> ElementTree.Element:
    return _described(dataset).findall("VRTRasterBand")[band - 1]


def _of_64_bits(dataset: Any, band: int) -> tuple[str, int | None]:
    """Return the exact type and nodata value of a 64-bit band.

    rasterio stores nodata as a float and, before version 1.4, swaps the two 64-bit types.
    """
    layer = _band_of(dataset, band)
    nodata = layer.findtext("NoDataValue")
    return str(layer.get("dataType")).lower(), None if nodata is None else int(nodata)


def legend_of_file(path: str, band: int) -> Legend:
    """Read the labels and colours of a band in a file."""
    return legend_of_band(_band_of(open_dataset(path, path), band), path)


@dataclass(frozen=True)
class RasterMap:
    """A band of a raster as a map, created by `open_raster`.

    Attributes
    ----------
    name : str
    dataset : rasterio.DatasetReader
        The caller's dataset, or a dataset that stays open as long as this map exists, because
        opening it takes milliseconds. None in other processes.
    layer : Layer
    region : Region
    transform : tuple of six float
        The transform with rows from north to south.
    crs : rasterio.crs.CRS or None
    is_upside_down : bool
        Whether the rows in the file run from south to north.
    block_shape : tuple of two ints
    files : tuple of str
        The files that GDAL lists.
    labels_path : str
        The path for reading labels, which may be any name that GDAL can open.
    thread : int
        The thread that opened the dataset.
    """

    name: str
    dataset: Any
    layer: Layer
    region: Region
    transform: Transform
    crs: Any
    is_upside_down: bool
    block_shape: tuple[int, int]
    files: tuple[str, ...]
    labels_path: str
    thread: int
    is_file: ClassVar[bool] = True

    @classmethod
    def of_dataset(cls, name: str, dataset: Any, band: int | None) -> RasterMap:
        """Convert a band of an open dataset to a map.

        If `band` is None, the dataset must have only one band.
        """
        enums = need("rasterio.enums", "gis", _PURPOSE)
        band = only_band(name, dataset, enums) if band is None else band
        if band not in dataset.indexes:
            count = dataset.count
            raise BadMap(name, f"has {count} band{'' if count == 1 else 's'}, but no band {band}")
        transform, is_upside_down = upright(name, dataset)
        region = in_region(name, Region.from_transform, transform, dataset.height, dataset.width)
        opened(*dataset.files)
        return cls(
            name=name,
            dataset=dataset,
            layer=Layer.of(name, dataset, band, enums),
            region=region,
            transform=transform,
            crs=dataset.crs or None,
            is_upside_down=is_upside_down,
            block_shape=dataset.block_shapes[band - 1],
            files=tuple(dataset.files),
            labels_path=dataset.name,
            thread=threading.get_ident(),
        )

    def sent(self, _: Any) -> RasterMap | None:
        """Return the map if another process can open its raster by path, otherwise None."""
        return self if self._has_path else None

    @property
    def _has_path(self) -> bool:
        """Whether the raster can be opened again by path.

        A warped raster has no path, and a file in memory exists only in this process.
        """
        is_reader = self.dataset is None or type(self.dataset).__name__ == "DatasetReader"
        return is_reader and not self.labels_path.startswith("/vsimem/")

    def __getstate__(self) -> dict[str, Any]:
        path = shared_path(self.labels_path)
        return {**vars(self), "dataset": None, "thread": 0, "labels_path": path}

    @property
    def dtype(self) -> np.dtype[Any]:
        """The data type of the map's blocks."""
        return type_of(np.dtype(self.layer.dtype))

    @property
    def nodata(self) -> int | None:
        """The value that marks null in the map's blocks."""
        return nodata_of(np.dtype(self.layer.dtype), self.layer.nodata)

    @property
    def is_masked(self) -> bool:
        """Whether the map's blocks have masks."""
        is_masked = self.layer.has_mask or self.layer.alpha is not None
        return is_masked and not is_converted(np.dtype(self.layer.dtype))

    @property
    def labels(self) -> Mapping[int, str]:
        """The labels of the map's categories."""
        return self._legend.labels

    @property
    def colors(self) -> Mapping[int, str]:
        """The colours of the map's categories."""
        return self._legend.colors

    @functools.cached_property
    def _legend(self) -> Legend:
        return legend_of_band(_band_of(self.dataset, self.layer.band), self.labels_path)

    def blocks(self) -> Iterator[Block]:
        """Yield the rows from north to south, in multiples of the file's blocks."""
        rows, cols = self.region.shape
        block_rows, _ = self.block_shape
        step = max(1, round(BLOCK_CELLS / cols / block_rows)) * block_rows
        step = min(step, max(1, MOST_BLOCK_CELLS // cols))
        for row in range(0, rows, step):
            yield self.window(row, 0, min(step, rows - row), cols)

    def window(self, row: int, col: int, rows: int, cols: int) -> Block:
        """Return a window of cells, with rows and columns counted from the north-west corner.

        Raises
        ------
        ReadFailed
            A part of the file cannot be read.
        BadMap
            A cell is not a whole number in range.
        """
        top = self.region.rows - row - rows if self.is_upside_down else row
        place, title = (top, col, rows, cols), f"rows {row + 1} to {row + rows}"
        if threading.get_ident() == self.thread:
            cells, null = self.layer.read(self.name, self.dataset, place, title)
        elif self._has_path:
            path = self.labels_path
            dataset = of_this_thread(path, lambda: open_dataset(self.name, path))
            cells, null = self.layer.read(self.name, dataset, place, title)
        else:  # for example a warped raster, which cannot be opened again by name
            with _one_thread:
                cells, null = self.layer.read(self.name, self.dataset, place, title)
        if self.is_upside_down:
            cells, null = cells[::-1], None if null is None else null[::-1]
        return checked(self.name, cells, null, self.layer.nodata, row, col)


def alphas(dataset: Any, enums: Any) -> list[int]:
    """Return the alpha bands, which mark transparent cells.

    `colorinterp` is read only once, because rasterio examines all bands each time, and a broken
    file may have 65,535 bands.
    """
    return [
        band
        for band, kind in zip(dataset.indexes, dataset.colorinterp)
        if kind == enums.ColorInterp.alpha
    ]


def only_band(name: str, dataset: Any, enums: Any) -> int:
    """Return the only band that is not an alpha band, or raise BadMap if there are several."""
    bands = sorted({*dataset.indexes} - {*alphas(dataset, enums)})
    if len(bands) != 1:
        is_python = host().words == "python"
        choice = "rasterio.band(dataset, 1)" if is_python else option("band", 1)
        raise BadMap(name, f"has {len(bands)} bands: choose one, for example {choice}")
    return int(bands[0])


def check_scale(name: str, dataset: Any, band: int) -> None:
    """Raise BadMap if the values of a band are scaled."""
    scale, offset = dataset.scales[band - 1], dataset.offsets[band - 1]
    if (scale, offset) != (1, 0):
        raise BadMap(
            name,
            f"its values are scaled: each cell times {scale:g}, plus {offset:g}; write them out "
            "as whole numbers first",
        )


def upright(name: str, dataset: Any) -> tuple[Transform, bool]:
    """Return the transform for rows from north to south, and whether the file's rows are reversed.

    Without a transform, cells have size 1 and the bottom left corner is at 0, 0.

    Raises
    ------
    BadMap
        The transform is rotated, has columns from east to west, or is given by control points.
    """
    a, b, c, d, e, f = transform = six_numbers(name, dataset.transform)
    # Without a transform, rasterio returns the identity, which a file may also contain.
    if transform == _IDENTITY and _described(dataset).find("GeoTransform") is None:
        control_points, _ = dataset.gcps
        if control_points:
            raise BadMap(name, "has ground control points but no transform: warp it first")
        return (1.0, 0.0, 0.0, 0.0, -1.0, float(dataset.height)), False
    is_upside_down = e > 0 and not b and not d
    turned = (a, b, c, d, -e, f + e * dataset.height) if is_upside_down else (a, b, c, d, e, f)
    check_upright(name, turned)
    return turned, is_upside_down
