# SPDX-License-Identifier: Apache-2.0 OR GPL-2.0-or-later
"""Open rasters as maps with GDAL's Python bindings and read them in blocks of rows."""

from __future__ import annotations

import functools
import math
import xml.etree.ElementTree as ElementTree
from collections.abc import Iterator, Mapping, Sequence
from dataclasses import dataclass, field, replace
from typing import Any, ClassVar, Optional

import numpy as np
from osgeo import gdal, gdal_array

from ..core.errors import BadMap, ReadFailed
from ..core.files import opened
from ..core.host import option
from ..core.labels import legend_of_band
from ..core.legends import Legend
from ..core.pieces import shared_path
from ..core.region import Region, Transform, check_upright
from ..core.sources import (
    BLOCK_CELLS,
    Block,
    Cells,
    Mask,
    checked,
    in_region,
    is_converted,
    nodata_of,
    type_of,
)
from .handles import of_this_thread
from .osr import quiet

__all__ = ["RasterMap", "open_dataset", "open_raster"]

# Ranges of values that are null, including both ends.
Ranges = Sequence[tuple[float, float]]


def open_dataset(name: str, path: str) -> Any:
    """Open a dataset with GDAL.

    Raises
    ------
    ReadFailed
        The dataset cannot be opened.
    """
    gdal.ErrorReset()
    try:
        with quiet():
            dataset = gdal.Open(path)
        text = gdal.GetLastErrorMsg()
    except RuntimeError as error:
        dataset, text = None, str(error)
    if dataset is None:
        raise ReadFailed(name, f"cannot open: {text or path}")
    opened(*dataset.GetFileList() or [])
    return dataset


def open_raster(
    name: str,
    path: str,
    band: Optional[int] = None,
    null_ranges: Ranges = (),
    uses_nodata: bool = True,
    uses_style: bool = True,
) -> RasterMap:
    """Open a band of a raster as a map.

    If `band` is None, the raster must have only one band.

    Parameters
    ----------
    name, path, band
    null_ranges : sequence of pairs of float
        Additional ranges of null values, each given by its first and last value.
    uses_nodata : bool
        Whether cells with the file's nodata value are null.
    uses_style : bool
        Whether labels may be read from a QGIS style next to the raster.

    Raises
    ------
    ReadFailed
        The raster cannot be opened.
    BadMap
        The raster has several bands, scaled values, a rotated transform, or control points instead
        of a transform.
    """
    dataset = open_dataset(name, path)
    try:
        with quiet():
            raster = _map_of(name, path, dataset, band, null_ranges, uses_nodata)
    except RuntimeError as error:  # from GDAL, if its exceptions are enabled
        raise ReadFailed(name, f"cannot open: {path}: {str(error).strip()}") from None
    return raster if uses_style else replace(raster, style_path="")


def _map_of(
    name: str, path: str, dataset: Any, band: Optional[int], null_ranges: Ranges, uses_nodata: bool
) -> RasterMap:
    """Convert a band of an open dataset to a map."""
    layer = dataset.GetRasterBand(_only_band(name, dataset) if band is None else band)
    if layer is None:
        count = dataset.RasterCount
        raise BadMap(name, f"has {count} band{'' if count == 1 else 's'}, but no band {band}")
    _check_values(name, layer)
    transform, is_upside_down = _upright(name, dataset)
    rows, cols = dataset.RasterYSize, dataset.RasterXSize
    system = dataset.GetSpatialRef()
    dtype = _dtype_of(layer)
    alpha = next((number for number in _alphas(dataset) if number != layer.GetBand()), None)
    # The flags of a band's own mask, and of masks for all bands.
    masks = (0, gdal.GMF_PER_DATASET, gdal.GMF_PER_DATASET | gdal.GMF_NODATA)
    block_cols, block_rows = layer.GetBlockSize()
    return RasterMap(
        name=name,
        path=path,
        band=layer.GetBand(),
        region=in_region(name, Region.from_transform, transform, rows, cols),
        transform=transform,
        crs=None if system is None else system.ExportToWkt(["FORMAT=WKT2_2019"]),
        file_type=dtype,
        file_nodata=layer.GetNoDataValue() if uses_nodata else None,
        null_ranges=tuple(null_ranges),
        has_mask=layer.GetMaskFlags() in masks,
        alpha=alpha,
        is_upside_down=is_upside_down,
        block_shape=(block_rows, block_cols),
        files=tuple(dataset.GetFileList() or ()),
        style_path=path,
    )


@dataclass(frozen=True)
class RasterMap:
    """A band of a raster as a map, created by `open_raster`.

    Attributes
    ----------
    name, path, band
    region : Region
    transform : tuple of six float
        The transform with rows from north to south.
    crs : str or None
    file_type : numpy type
    file_nodata : float, int or None
    null_ranges : tuple of pairs of float
    has_mask : bool
        Whether the band has its own mask, or a mask for all bands.
    alpha : int or None
        The band that marks transparent cells, which are null.
    is_upside_down : bool
        Whether the rows in the file run from south to north.
    block_shape : tuple of two ints
    files : tuple of str
    style_path : str
        The path of the raster next to which a QGIS style may exist, or empty if styles are ignored.
    legend : Legend, optional
        Labels and colours that replace the file's own.
    """

    name: str
    path: str
    band: int
    region: Region
    transform: Transform
    crs: Optional[str]
    file_type: np.dtype[Any]
    file_nodata: Optional[float]
    null_ranges: tuple[tuple[float, float], ...]
    has_mask: bool
    alpha: Optional[int]
    is_upside_down: bool
    block_shape: tuple[int, int]
    files: tuple[str, ...]
    style_path: str
    is_file: ClassVar[bool] = True
    legend: Legend = field(default_factory=lambda: Legend({}, {}))

    def sent(self, _: Any) -> RasterMap | None:
        """Return the map if another process can open its raster by path, otherwise None."""
        is_here = self.path.startswith("/vsimem/")
        return None if is_here else replace(self, path=shared_path(self.path))

    def with_labels(self, labels: Mapping[int, str]) -> RasterMap:
        """Return a copy of the map with these labels."""
        return replace(self, legend=Legend(dict(labels), self.legend.colors))

    @property
    def dtype(self) -> np.dtype[Any]:
        """The data type of the map's blocks."""
        return type_of(self.file_type)

    @property
    def nodata(self) -> int | None:
        """The value that marks null in the map's blocks."""
        return nodata_of(self.file_type, self.file_nodata)

    @property
    def is_masked(self) -> bool:
        """Whether the map's blocks have masks."""
        is_masked = self.has_mask or self.alpha is not None or bool(self.null_ranges)
        return is_masked and not is_converted(self.file_type)

    @property
    def labels(self) -> Mapping[int, str]:
        """The labels of the map's categories."""
        return self.legend.labels or self._legend_of_file.labels

    @property
    def colors(self) -> Mapping[int, str]:
        """The colours of the map's categories."""
        return self.legend.colors or self._legend_of_file.colors

    @functools.cached_property
    def _legend_of_file(self) -> Legend:
        dataset = open_dataset(self.name, self.path)
        with quiet():
            # A description of the raster, as XML without a path.
            described = gdal.GetDriverByName("VRT").CreateCopy("", dataset, strict=0)
            [text] = described.GetMetadata("xml:VRT")
        bands = ElementTree.fromstring(text).findall("VRTRasterBand")
        return legend_of_band(bands[self.band - 1], self.style_path)

    def blocks(self) -> Iterator[Block]:
        """Yield the rows from north to south, in multiples of the file's blocks.

        Raises
        ------
        ReadFailed
            A part of the file cannot be read.
        BadMap
            A cell is not a whole number in range.
        """
        rows, cols = self.region.shape
        block_rows, _ = self.block_shape
        most = max(1, BLOCK_CELLS // cols)
        step = (most - most % block_rows) or most  # if a block of the file has more rows
        dataset = open_dataset(self.name, self.path)
        for row in range(0, rows, step):
            count = min(step, rows - row)
            cells, null = self._read(dataset, row, col=0, rows=count, cols=cols)
            yield checked(self.name, cells, null, self.file_nodata, row)

    def window(self, row: int, col: int, rows: int, cols: int) -> Block:
        """Return a window of cells, with rows and columns counted from the north-west corner.

        Raises the same errors as `blocks`.
        """
        dataset = of_this_thread(self.path, lambda: open_dataset(self.name, self.path))
        cells, null = self._read(dataset, row, col, rows, cols)
        return checked(self.name, cells, null, self.file_nodata, row, col)

    def _read(
        self, dataset: Any, row: int, col: int, rows: int, cols: int
    ) -> tuple[Cells, Optional[Mask]]:
        """Return a window of cells, and a mask of null cells other than nodata, or None."""
        top = self.region.rows - row - rows if self.is_upside_down else row
        bands = [dataset.GetRasterBand(self.band)]
        if self.has_mask:
            bands.append(bands[0].GetMaskBand())
        if self.alpha is not None:
            bands.append(dataset.GetRasterBand(self.alpha))
        gdal.ErrorReset()
        try:
            with quiet():
                read = [band.ReadAsArray(col, top, cols, rows) for band in bands]
            text = gdal.GetLastErrorMsg()
        except RuntimeError as error:
            read, text = [None], str(error)
        if any(cells is None for cells in read):
            problem = f"rows {row + 1} to {row + rows} cannot be read: {text or self.path}"
            raise ReadFailed(self.name, problem)
        if self.is_upside_down:
            read = [part[::-1] for part in read]
        cells, *masks = read
        nulls = [mask == 0 for mask in masks]
        nulls += [_within(cells, low, high) for low, high in self.null_ranges]
        return cells, np.logical_or.reduce(nulls) if nulls else None


def _within(cells: Cells, low: float, high: float) -> Mask:
    """Return a mask of the cells in a range.

    Integers are compared as integers, because floats are not exact for all 64-bit integers.
    """
    if cells.dtype.kind in "iu":
        limits = np.iinfo(cells.dtype)
        if low > limits.max or high < limits.min:
            return np.zeros(cells.shape, np.bool_)
        low = math.ceil(low) if low > limits.min else int(limits.min)
        high = math.floor(high) if high < limits.max else int(limits.max)
        if low > high:
            return np.zeros(cells.shape, np.bool_)
    return (cells >= low) & (cells <= high)


def _alphas(dataset: Any) -> list[int]:
    """Return the alpha bands, which mark transparent cells."""
    bands = range(1, dataset.RasterCount + 1)
    return [
        band
        for band in bands
        if dataset.GetRasterBand(band).GetColorInterpretation() == gdal.GCI_AlphaBand
    ]


def _only_band(name: str, dataset: Any) -> int:
    """Return the only band that is not an alpha band, or raise BadMap if there are several."""
    alphas = _alphas(dataset)
    bands = [band for band in range(1, dataset.RasterCount + 1) if band not in alphas]
    if len(bands) != 1:
        raise BadMap(name, f"has {len(bands)} bands: choose one, for example {option('band', 1)}")
    return bands[0]


def _check_values(name: str, band: Any) -> None:
    """Raise BadMap if the values of a band are scaled or complex."""
    scale, offset = band.GetScale(), band.GetOffset()
    if scale not in (None, 1.0) or offset not in (None, 0.0):
        scaling = f"each cell times {1.0 if scale is None else scale:g}, plus {offset or 0.0:g}"
        raise BadMap(
            name, f"its values are scaled: {scaling}; write them out as whole numbers first"
        )
    if gdal.DataTypeIsComplex(band.DataType):
        kind = gdal.GetDataTypeName(band.DataType)
        raise BadMap(name, f"not a map of whole numbers: its cells are of type {kind}")


def _dtype_of(band: Any) -> np.dtype[Any]:
    # Before version 3.7, GDAL marked signed bytes with metadata instead of a type.
    if band.GetMetadataItem("PIXELTYPE", "IMAGE_STRUCTURE") == "SIGNEDBYTE":
        return np.dtype(np.int8)
    return np.dtype(gdal_array.GDALTypeCodeToNumericTypeCode(band.DataType))


def _upright(name: str, dataset: Any) -> tuple[Transform, bool]:
    """Return the transform for rows from north to south, and whether the file's rows are reversed.

    Without a transform, cells have size 1 and the bottom left corner is at 0, 0.
    """
    rows = dataset.RasterYSize
    geotransform = dataset.GetGeoTransform(can_return_null=True)
    if geotransform is None:
        if dataset.GetGCPCount():
            raise BadMap(name, "has ground control points but no transform: warp it first")
        return (1.0, 0.0, 0.0, 0.0, -1.0, float(rows)), False
    west, width, b, north, d, height = geotransform
    is_upside_down = height > 0 and not b and not d
    if is_upside_down:
        north, height = north + height * rows, -height
    transform = (width, b, west, d, height, north)
    check_upright(name, transform)
    return transform, is_upside_down
