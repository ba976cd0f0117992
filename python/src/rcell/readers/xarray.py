# SPDX-License-Identifier: Apache-2.0 OR GPL-2.0-or-later
"""Convert xarray DataArrays to maps, and maps to DataArrays."""

from __future__ import annotations

import numbers
from dataclasses import dataclass, field, replace
from typing import Any, Iterator, Mapping, NamedTuple

import numpy as np

from ..core.protocol import NULL

from ..core.crs import wkt_of
from ..core.errors import BadMap, ReadFailed
from ..core.labels import flags_of
from ..core.libraries import need
from ..core.pieces import Chunks
from ..core.rectangles import Rectangle
from ..core.sources import (
    BLOCK_CELLS,
    Block,
    check_array,
    in_region,
    is_converted,
    nodata_of,
    type_of,
)
from ..core.region import Region, Transform, six_numbers

__all__ = [
    "Flat",
    "data_array",
    "data_array_of",
    "flat_of",
    "is_lazy",
    "layers_of",
    "open_zarr",
    "series_of",
    "source_of_data_array",
    "variables_of",
]

# Names, CF standard names, CF axes, and CF units. Units are enough to identify a latitude or
# longitude.
_AXES = {
    "Y": set(
        "Y y lat latitude rlat grid_latitude northing projection_y_coordinate degrees_north "
        "degree_north degrees_N degree_N".split()
    ),
    "X": set(
        "X x lon longitude rlon grid_longitude easting projection_x_coordinate degrees_east "
        "degree_east degrees_E degree_E".split()
    ),
}
# The tolerance, in cells, for coordinates to count as evenly spaced.
_TOLERANCE = 1e-4


@dataclass(frozen=True)
class DataArrayMap:
    """A two-dimensional DataArray as a map.

    The blocks of a Dask array are computed one at a time.
    """

    name: str
    array: Any
    region: Region
    transform: Transform
    crs: Any
    nodata_value: float | None
    labels: Mapping[int, str]
    colors: Mapping[int, str] = field(default_factory=dict)

    @property
    def files(self) -> tuple[str, ...]:
        """The file from which the DataArray was opened, if known."""
        source = self.array.encoding.get("source")
        return (source,) if isinstance(source, str) else ()

    @property
    def dtype(self) -> np.dtype[Any]:
        """The data type of the map's blocks."""
        return type_of(self.array.dtype)

    @property
    def nodata(self) -> int | None:
        """The value that marks null in the map's blocks."""
        return nodata_of(self.array.dtype, self.nodata_value)

    @property
    def is_masked(self) -> bool:
        """Whether the map's blocks have masks, which is always true for Dask arrays."""
        return not is_converted(self.array.dtype) and (
            is_lazy(self.array) or isinstance(self.array.data, np.ma.MaskedArray)
        )

    def blocks(self) -> Iterator[Block]:
        """Yield the rows from north to south."""
        rows, cols = self.region.shape
        row_chunks, _ = self.array.chunks or ((1,), (1,))
        step = max(1, BLOCK_CELLS // cols, row_chunks[0])
        for row in range(0, rows, step):
            yield self.window(row, 0, min(step, rows - row), cols)

    @property
    def block_shape(self) -> tuple[int, int]:
        """The number of rows and columns in the largest Dask chunk."""
        row_chunks, col_chunks = self.array.chunks or ((1,), (1,))
        return max(row_chunks), max(col_chunks)

    def window(self, row: int, col: int, rows: int, cols: int) -> Block:
        """Return a window of cells, computing only the Dask chunks that contain the window.

        Rows and columns are counted from the north-west corner.
        """
        chunks = self._chunks_of(row, col, rows, cols)
        cells = chunks.cells.compute() if is_lazy(self.array) else chunks.cells
        return replace(chunks, cells=cells).window(row, col, rows, cols)

    def sent(self, outer: Rectangle) -> Chunks | None:
        """Return the Dask chunks that contain a window, or None if the array is a numpy array."""
        return self._chunks_of(*outer) if is_lazy(self.array) else None

    def _chunks_of(self, row: int, col: int, rows: int, cols: int) -> Chunks:
        cells = self.array[row : row + rows, col : col + cols].data
        return Chunks(self.name, self.array.dtype, self.nodata_value, self.is_masked, cells)


class Flat(NamedTuple):
    """A DataArray whose rows run from north to south, and its properties as a map."""

    array: Any
    transform: Transform | None
    crs: Any
    nodata: float | None
    labels: dict[int, str]


def flat_of(name: str, array: Any) -> Flat:
    """Return a DataArray in the form of a map, without reading its cells.

    Parameters
    ----------
    name : str
    array : xarray.DataArray
        An array with two dimensions and, possibly, others of length 1. The dimensions are
        identified by their names or CF axes; otherwise, they are rows and columns in this order.
        The coordinates, if any, are cell centres. Null cells contain NaN, or the value of
        `_FillValue`, `missing_value` or `nodata` in the attributes or the encoding. The reference
        system is read from the coordinate that `grid_mapping` names, or from `spatial_ref`, and the
        labels from CF's `flag_values` and `flag_meanings`.

    Raises
    ------
    BadMap
        The array cannot be a map, or its coordinates are not evenly spaced.
    """
    if not hasattr(array, "coords"):
        raise BadMap(
            name,
            f"must have coordinates, as a DataArray does; got a {type(array).__name__}",
        )
    if not hasattr(array, "ndim"):
        raise BadMap(
            name,
            f"must be a DataArray; got a {type(array).__name__}: pass it as the only map, or pass "
            f"one variable, for example dataset[{next(iter(array), 'name')!r}]",
        )
    if any(size != size for size in array.shape):  # NaN
        raise BadMap(
            name,
            "the sizes of its Dask chunks are unknown: call .data.compute_chunk_sizes() first",
        )
    _check_scale(name, array)
    flat = _flat(name, array)
    check_array(name, flat)
    transform = _transform_of(name, flat)
    if transform is not None and transform[4] > 0:
        a, b, c, d, e, f = transform
        flat, transform = flat[::-1], (a, b, c, d, -e, f + e * flat.shape[0])
    return Flat(flat, transform, _crs_of(array), _nodata_of(name, array), _flags_of(array))


def source_of_data_array(name: str, array: Any) -> DataArrayMap:
    """Convert a DataArray that `flat_of` accepts to a map.

    Raises
    ------
    BadMap
        The array cannot be a map.
    """
    flat, transform, crs, nodata, labels = flat_of(name, array)
    if transform is None:
        region = in_region(name, Region.of_cells, *flat.shape)
    else:
        region = in_region(name, Region.from_transform, transform, *flat.shape)
    return DataArrayMap(name, flat, region, transform or region.transform, crs, nodata, labels)


def open_zarr(name: str, path: str) -> DataArrayMap:
    """Open the only map in a Zarr store, with its values as stored.

    By default, xarray would convert integers with a nodata value to floats.
    """
    xarray = need("xarray", "xarray", "to read Zarr")
    need("zarr", "xarray", "to read Zarr")
    try:
        maps = variables_of(xarray.open_zarr(path, mask_and_scale=False))
    except (OSError, ValueError, KeyError) as error:
        raise ReadFailed(name, f"cannot open: {path}: {error}") from None
    if len(maps) != 1:
        problem = (
            f"the store must have one map; got {len(maps)} ({', '.join(maps)}): pass one of them"
        )
        raise BadMap(
            name, f"{problem}, for example xarray.open_zarr(path, mask_and_scale=False)[name]"
        )
    return source_of_data_array(name, *maps.values())


def variables_of(dataset: Any) -> dict[str, Any]:
    """Return a Dataset's maps by name: the variables with rows and columns, except grid mappings."""
    if not hasattr(dataset, "data_vars"):
        raise BadMap(
            "maps", "the DataArray has no usable name: pass it by keyword, for example lc=array"
        )
    described = {name: dataset[name] for name in dataset.data_vars}
    grid_mappings = set()
    for array in described.values():
        grid_mappings.add(array.attrs.get("grid_mapping"))
        grid_mappings.add(array.encoding.get("grid_mapping"))
    coords = {name: dataset[name] for name in grid_mappings & set(described)}
    maps = {}
    for name, array in described.items():
        if name not in grid_mappings and array.ndim > 1:
            maps[str(name)] = array.assign_coords(coords)
    return maps


def layers_of(array: Any) -> list[Any]:
    """Return the maps along the dimension of a DataArray that is neither rows nor columns."""
    if getattr(array, "ndim", 0) != 3:
        raise BadMap(
            "raster",
            "must be a DataArray with three dimensions; got "
            f"{getattr(array, 'ndim', 'several variables')}",
        )
    axes = [_axis_of(array, dim) for dim in array.dims]
    # Without names of rows and columns, the first dimension counts bands, as in rasterio.
    band_dim = array.dims[axes.index(None) if {"X", "Y"} <= set(axes) else 0]
    return [array.isel({band_dim: index}) for index in range(array.sizes[band_dim])]


def series_of(array: Any) -> tuple[list[Any], list[int]]:
    """Return the maps along a DataArray's dimension `time`, and their years."""
    times = array["time"].values
    years = times
    if np.issubdtype(times.dtype, np.datetime64):
        years = times.astype("datetime64[Y]").astype(np.int64) + 1970
    return [array.isel(time=index) for index in range(array.sizes["time"])], years.tolist()


def is_lazy(array: Any) -> bool:
    """Return whether the cells of a DataArray are in a Dask array."""
    return getattr(array, "chunks", None) is not None


def _flat(name: str, array: Any) -> Any:
    """Return a two-dimensional array with rows first, identified by name, size or position."""
    axes = [_axis_of(array, dim) for dim in array.dims]
    if axes.count("X") > 1 or axes.count("Y") > 1:
        listed = ", ".join(map(str, array.dims))
        raise BadMap(name, f"its dimensions must be along different axes; got {listed}")
    dim_of = dict(zip(axes, array.dims))
    dims = [dim_of.get("Y"), dim_of.get("X")]
    if None in dims:
        dims = _by_position(array, dims)
    others = [dim for dim in array.dims if dim not in dims]
    long = [dim for dim in others if array.sizes[dim] != 1]
    if len(dims) != 2 or long:
        sizes = ", ".join(f"{dim} {array.sizes[dim]}" for dim in array.dims)
        problem = f"the DataArray has {array.ndim} dimensions ({sizes}), but a map has two"
        example = long[0] if long else "band"
        raise BadMap(name, f"{problem}: select one, for example .isel({example}=0)")
    return array.isel({dim: 0 for dim in others}).transpose(*dims)


def _axis_of(array: Any, dim: Any) -> str | None:
    """Return a dimension's axis, `X` or `Y`, from its CF attributes or its name, or None."""
    attributes = array.coords[dim].attrs if dim in array.coords else {}
    hints = {*(attributes.get(key) for key in ("axis", "standard_name", "units")), str(dim).lower()}
    return next((axis for axis, names in _AXES.items() if hints & names), None)


def _by_position(array: Any, known: list[Any]) -> list[Any]:
    """Return the two dimensions with several elements or, if there are not two, the last two.

    A dimension that is known to be rows or columns, the elements of `known`, determines the order.
    """
    dims = [dim for dim in array.dims if array.sizes[dim] > 1 or dim in known]
    if len(dims) != 2:
        dims = list(array.dims[-2:])
    rows, cols = known
    if dims and (rows == dims[-1] or cols == dims[0]):
        dims.reverse()
    return dims


def _check_scale(name: str, array: Any) -> None:
    """Raise BadMap if the values of an array are scaled.

    Decoded arrays contain the scaling attributes in their encoding.
    """
    scale, offset = array.attrs.get("scale_factor", 1), array.attrs.get("add_offset", 0)
    if (scale, offset) != (1, 0):
        raise BadMap(
            name,
            f"its values are scaled: each cell times {scale}, plus {offset}; write them out as "
            "whole numbers first",
        )


def _transform_of(name: str, array: Any) -> Transform | None:
    """Return the transform that the coordinates define, or None without coordinates."""
    y, x = array.dims
    if y not in array.coords or x not in array.coords:
        return None
    stated = _stated_transform(name, array)
    stated_rows = stated_cols = None
    if stated is not None:
        a, _, c, _, e, f = stated
        stated_rows, stated_cols = (f, e), (c, a)
    north, height = _spacing(name, array[y], stated_rows)
    west, width = _spacing(name, array[x], stated_cols)
    if width < 0:
        raise BadMap(
            name, f"its columns run from east to west: sort them, for example with .sortby({x!r})"
        )
    return (width, 0.0, west, 0.0, height, north)


def _stated_transform(name: str, array: Any) -> Transform | None:
    """Return the transform that rioxarray stored, which is wrong if the array was cropped later."""
    reference = array.coords.get("spatial_ref")
    text = None if reference is None else reference.attrs.get("GeoTransform")
    if not text:
        return None
    c, a, b, f, d, e = six_numbers(name, str(text).split())
    return None if b or d else (a, b, c, d, e, f)


def _spacing(name: str, coordinate: Any, stated: tuple[float, float] | None) -> tuple[float, float]:
    """Return the outer edge and the step between cell centres along a dimension.

    These are `stated`, which is exact, if its cell centres are the coordinates.
    """
    try:
        centres = np.asarray(coordinate.values, dtype=np.float64)
    except (TypeError, ValueError):
        raise BadMap(name, f"its coordinate {coordinate.name} is not numeric") from None
    if not np.isfinite(centres).all():
        raise BadMap(name, f"its coordinate {coordinate.name} contains a value that is not finite")
    count = centres.size
    if stated is not None:
        edge, step = stated
        if np.abs(edge + step * (np.arange(count) + 0.5) - centres).max() <= abs(step) * _TOLERANCE:
            return edge, step
    if count == 1:
        raise BadMap(
            name,
            f"has only one cell along {coordinate.name}, so the cell size is unknown: pass "
            "rcell.Raster(array.values, region)",
        )
    step = (centres[-1] - centres[0]) / (count - 1)
    deviations = np.abs(centres[0] + step * np.arange(count) - centres)
    if step == 0 or deviations.max() > abs(step) * _TOLERANCE:
        raise BadMap(name, f"its coordinate {coordinate.name} is not evenly spaced")
    return float(centres[0] - step / 2), float(step)


def _crs_of(array: Any) -> Any:
    """Return the reference system from CF's grid mapping or the attributes, or None."""
    grid_mapping = array.encoding.get("grid_mapping") or array.attrs.get("grid_mapping")
    reference = array.coords.get(grid_mapping, array.coords.get("spatial_ref"))
    attrs = {} if reference is None else reference.attrs
    return attrs.get("crs_wkt") or attrs.get("spatial_ref") or array.attrs.get("crs") or None


def _nodata_of(name: str, array: Any) -> float | None:
    """Return the value that marks null, in addition to NaN.

    If xarray has scaled the cells, only NaN is null.
    """
    scale = array.encoding.get("scale_factor", 1)
    offset = array.encoding.get("add_offset", 0)
    stored = array.encoding if (scale, offset) == (1, 0) else {}
    values: list[Any] = []
    for attributes in (array.attrs, stored):
        for key in ("_FillValue", "missing_value", "nodata"):
            if attributes.get(key) is not None:
                values += np.asarray(attributes[key]).reshape(-1).tolist()
    if not all(isinstance(value, numbers.Real) for value in values):
        raise BadMap(name, f"its nodata values must be numbers; got {', '.join(map(repr, values))}")
    distinct = {value for value in values if value == value}  # without NaN
    if len(distinct) > 1:
        raise BadMap(
            name,
            f"must have one nodata value; got {', '.join(map(str, sorted(distinct)))}: keep one of "
            "_FillValue, missing_value and nodata",
        )
    return next(iter(distinct), None)


def _flags_of(array: Any) -> dict[int, str]:
    values = array.attrs.get("flag_values")
    listed = None if values is None else np.asarray(values).reshape(-1).tolist()
    return flags_of(listed, array.attrs.get("flag_meanings"))


def data_array_of(
    array: Any, transform: Transform, crs: Any, labels: Mapping[int, str], name: str
) -> Any:
    """Convert a map in memory to an int32 DataArray."""
    return data_array(array.astype(np.int32).filled(NULL), transform, crs, labels, name)


def data_array(
    cells: Any,
    transform: Transform,
    crs: Any,
    labels: Mapping[int, str],
    name: str,
    null: int = NULL,
    like: Any = None,
) -> Any:
    """Convert numpy or Dask cells to a DataArray with the conventions of rioxarray and CF.

    Parameters
    ----------
    cells : array of whole numbers, rows x cols
    transform : tuple of six float
    crs : any
    labels : mapping of int to str
    name : str
    null : int
        The value of null cells, stored as `_FillValue`.
    like : xarray.DataArray, optional
        A map of the same shape, from which dimensions and coordinates are copied.
    """
    xarray = need("xarray", "xarray", "to return a DataArray")
    attributes: dict[str, Any] = {"_FillValue": cells.dtype.type(null)}
    if labels:
        attributes["flag_values"] = np.array(sorted(labels), np.int32)
        attributes["flag_meanings"] = " ".join(
            "_".join(labels[category].split()) for category in sorted(labels)
        )
    width, _, west, _, height, north = transform
    geotransform = (west, width, 0.0, north, 0.0, height)
    reference = {"GeoTransform": " ".join(map(repr, geotransform))}
    wkt = wkt_of(crs)
    if wkt:
        reference |= {"crs_wkt": wkt, "spatial_ref": wkt}
    if like is None:
        rows, cols = cells.shape
        y, x = north + height * (np.arange(rows) + 0.5), west + width * (np.arange(cols) + 0.5)
        dims, coordinates = ("y", "x"), {"y": y, "x": x}
    else:
        dims = like.dims
        coordinates = {dim: like.coords[dim] for dim in dims if dim in like.coords}
    coordinates["spatial_ref"] = xarray.Variable((), 0, reference)
    attributes["grid_mapping"] = "spatial_ref"
    return xarray.DataArray(cells, coordinates, dims, name, attributes)
