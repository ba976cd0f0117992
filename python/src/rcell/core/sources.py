# SPDX-License-Identifier: Apache-2.0 OR GPL-2.0-or-later
"""Convert map arguments to cells that the program accepts."""

from __future__ import annotations

import contextvars
import functools
import json
import math
import numbers
import os
import re
import sys
from dataclasses import dataclass, field
from typing import Any, Iterable, Iterator, Mapping, Protocol, Union

import numpy as np

from .protocol import NULL

from .arrays import ArrayLike, NDArray
from .crs import common_crs
from .host import host, option, warn
from .errors import BadArgument, BadMap, OtherRegion
from .labels import checked_labels
from .region import Region, Shift, Transform, six_numbers

__all__ = [
    "MAX_CATEGORY",
    "ArrayMap",
    "Block",
    "Cells",
    "MapLike",
    "Mask",
    "Scaled",
    "Source",
    "array_map",
    "as_bools",
    "check_array",
    "check_computed",
    "check_names",
    "checked",
    "is_converted",
    "nodata_of",
    "null_cells",
    "type_of",
    "unmasked",
]

MAX_CATEGORY = 2_147_483_647
# The approximate number of cells in a block: large compared with the cost of a call, but small
# enough for a processor's cache.
BLOCK_CELLS = 1 << 20
# Larger whole numbers are not all exact in 32-bit floats.
_EXACT_FLOAT32 = 1 << 24

# The factor for the decimals of the map that is being read, before rounding; None for other maps.
_scale: contextvars.ContextVar[int | None] = contextvars.ContextVar("rcell.scale", default=None)

# The advice for rounding a map.
_ROUNDING_COMMAND = (
    'gdal_calc.py -A {0}.tif --calc="rint(A)" --type=Int32 --outfile={0}_rounded.tif'
)
_ROUNDING_CALL = "rcell.Raster(np.rint(array), transform, crs)"

Cells = NDArray[Any]
Mask = NDArray[np.bool_]
# A map argument: a path, a list or a pattern of paths, an array, an array with its region or
# transform, a Raster, a DataArray, or a dataset or band of rasterio.
MapLike = Union[str, "os.PathLike[str]", "list[str]", ArrayLike, tuple[Any, Any], "Source", Any]


@dataclass(frozen=True)
class Block:
    """A block of complete rows of a map, or a window of a map.

    Attributes
    ----------
    cells : array of the type of its source, rows x cols, C-contiguous
    null : array of bool or None
        A mask of cells that are null for a reason other than the source's nodata value, or None if
        the source is not masked.
    """

    cells: Cells
    null: Mask | None


class Source(Protocol):
    """A map that the program can read.

    Maps that can be read in parts also define `window(row, col, rows, cols)`, which returns a block
    and can be called from any thread. Optional attributes are `block_shape`, for maps that store
    cells in blocks; `is_file`, which is true if the map's cells are exactly the cells in its files;
    and `sent(window)`, which returns a map that other processes can read, or None.
    """

    @property
    def name(self) -> str:
        """The map's name in messages."""

    @property
    def region(self) -> Region:
        """The map's edges and shape."""

    @property
    def transform(self) -> Transform:
        """The transform of the map and of its results."""

    @property
    def dtype(self) -> np.dtype[Any]:
        """The data type of the map's blocks: an integer of 8, 16 or 32 bits, or int64."""

    @property
    def nodata(self) -> int | None:
        """The value that marks null in the map's blocks, or None."""

    @property
    def is_masked(self) -> bool:
        """Whether the map's blocks have masks of null cells."""

    @property
    def labels(self) -> Mapping[int, str]:
        """The labels of the map's categories."""

    @property
    def colors(self) -> Mapping[int, str]:
        """The colours of the map's categories, as `#rrggbb`."""

    @property
    def crs(self) -> Any:
        """The map's coordinate reference system, or None."""

    @property
    def files(self) -> tuple[str, ...]:
        """The files from which the map is read or was created."""

    def blocks(self) -> Iterator[Block]:
        """Yield the rows from north to south."""


# Cells


def as_bools(array: NDArray[Any]) -> Mask:
    """Return a boolean array in which True is always stored as the byte 1.

    In boolean views of other arrays, True may be any nonzero byte.

    Examples
    --------
    >>> as_bools(np.array([0, 4], np.uint8).view(bool)).view(np.uint8).tolist()
    [0, 1]
    """
    bools: Mask = array.view(np.uint8) != 0
    return bools


def unmasked(cells: Any) -> tuple[Cells, Mask | None]:
    """Return an array's cells and its mask, which is None for a plain array.

    Examples
    --------
    >>> unmasked(np.ma.masked_equal([1, 2], 2))[1].tolist()
    [False, True]
    """
    if not isinstance(cells, np.ma.MaskedArray):
        return np.asarray(cells), None
    return np.ma.getdata(cells), as_bools(np.ma.getmaskarray(cells))


def is_converted(dtype: np.dtype[Any]) -> bool:
    """Return whether cells of a type are converted to int32, as floats and uint64 are.

    In converted cells, -2147483648 is null. The program accepts all other types unchanged.
    """
    return dtype.kind == "f" or (dtype.kind == "u" and dtype.itemsize == 8)


def type_of(dtype: np.dtype[Any]) -> np.dtype[Any]:
    """Return the type in which cells of `dtype` are sent to the program.

    Examples
    --------
    >>> [str(type_of(np.dtype(name))) for name in ("uint8", "int64", "float32", "bool")]
    ['uint8', 'int64', 'int32', 'uint8']
    """
    if is_converted(dtype):
        return np.dtype(np.int32)
    if dtype.kind == "b":
        return np.dtype(np.uint8)
    return dtype.newbyteorder("=")


def nodata_of(dtype: np.dtype[Any], value: float | None) -> int | None:
    """Return the nodata value of the cells as sent, or None if no cell can equal the value.

    Examples
    --------
    >>> nodata_of(np.dtype("uint8"), 255.0), nodata_of(np.dtype("uint8"), -9999.0)
    (255, None)
    >>> nodata_of(np.dtype("float32"), -9999.0)
    -2147483648
    """
    if is_converted(dtype):
        return NULL
    limits = np.iinfo(type_of(dtype))
    # Numbers beyond 64 bits, NaN and infinity equal no cell, and the last two have no int().
    if value is None or not -(2.0**63) <= value < 2.0**64 or value != int(value):
        return None
    return int(value) if limits.min <= int(value) <= limits.max else None


def check_computed(name: str, cells: Cells, dtype: np.dtype[Any], shape: tuple[int, ...]) -> None:
    """Raise BadMap if cells computed by Dask differ from the expected type or shape.

    Examples
    --------
    >>> cells = np.array([[-1]], np.int16)
    >>> check_computed("m", cells, np.dtype(np.uint16), (1, 1))  # doctest: +ELLIPSIS
    Traceback (most recent call last):
      ...
    rcell.BadMap: m: its cells are of type int16, but Dask expected uint16: ...
    """
    if (is_converted(cells.dtype), type_of(cells.dtype)) != (is_converted(dtype), type_of(dtype)):
        problem = (
            f"its cells are of type {cells.dtype}, but Dask expected {dtype}: specify the type, for "
            f"example map_blocks(.., dtype='{cells.dtype}')"
        )
        raise BadMap(name, problem)
    if cells.shape != shape:
        raise BadMap(
            name,
            f"a block has the shape {cells.shape}, but Dask expected {tuple(shape)}: specify the "
            "chunks, for example map_blocks(.., chunks=..)",
        )


def checked(
    name: str,
    cells: Cells,
    null: Mask | None,
    nodata: float | None,
    first_row: int = 0,
    first_col: int = 0,
) -> Block:
    """Check cells, and convert them to a block of the type that is sent to the program.

    Parameters
    ----------
    name : str
        The name of the map, for messages.
    cells : array, rows x cols
    null : array of bool or None
    nodata : float or None
        The value that marks null, compared by value.
    first_row, first_col : int
        The row and column of the first cell in the map, for messages.

    Raises
    ------
    BadMap
        A cell is neither null nor a whole number from -2147483647 to 2147483647. The error names
        the first such cell.
    """
    cells = np.ascontiguousarray(
        as_bools(cells).view(np.uint8) if cells.dtype.kind == "b" else cells,
        cells.dtype.newbyteorder("="),
    )
    null = None if null is None else np.ascontiguousarray(null)
    scale = _scale.get()
    is_kept = not is_converted(cells.dtype) and scale is None
    # Integers of one or two bytes are always in range.
    if is_kept and (
        cells.itemsize <= 2 or (cells.min() >= -MAX_CATEGORY and cells.max() <= MAX_CATEGORY)
    ):
        return Block(cells, null)
    is_null = null_cells(cells, null, nodata)
    exact = cells if scale is None else np.rint(cells.astype(np.float64) * scale)
    is_bad = ~(_are_categories(exact) | is_null)
    if is_bad.any():
        row, col = (int(index) for index in np.unravel_index(int(is_bad.argmax()), is_bad.shape))
        value = cells[row, col].item()
        raise _bad_cell(name, first_row + row + 1, first_col + col + 1, value, scale)
    if is_kept:
        return Block(cells, null)
    whole = np.where(is_null, exact.dtype.type(0), exact)
    if scale is None and cells.dtype == np.float32 and np.abs(whole).max() > _EXACT_FLOAT32:
        warn(
            f"{name}: 32-bit floats are not exact beyond {_EXACT_FLOAT32}, but the map contains "
            "larger values"
        )
    return Block(np.where(is_null, np.int32(NULL), whole.astype(np.int32)), None)


def null_cells(cells: Cells, null: Mask | None, nodata: float | None) -> Mask:
    """Return a mask of all null cells, including nodata and NaN."""
    parts = [] if null is None else [null]
    if cells.dtype.kind == "f":
        parts.append(np.isnan(cells))
    value = _value_of(cells.dtype, nodata)
    if value is not None:
        parts.append(cells == value)
    if not parts:
        return np.zeros(cells.shape, np.bool_)
    if len(parts) == 1 and null is not None:
        return null.copy()  # so that changes to the result do not change the caller's mask
    return functools.reduce(np.logical_or, parts)


def _value_of(dtype: np.dtype[Any], nodata: float | None) -> Any:
    """Convert nodata to a type, or return None if no cell of this type can equal nodata."""
    if nodata is None or nodata != nodata:  # NaN does not equal any cell
        return None
    if sys.float_info.max < abs(nodata) < math.inf:  # an int that has no float
        return None
    if dtype.kind == "f":
        with np.errstate(over="ignore"):
            value = dtype.type(nodata)
        # A finite value that is too large for the type has become infinite.
        return value if np.isinf(value) == math.isinf(nodata) else None
    limits = np.iinfo(dtype)
    # Compare as integers, because floats are not exact for all 64-bit integers.
    is_value = (
        math.isfinite(nodata) and nodata == int(nodata) and limits.min <= int(nodata) <= limits.max
    )
    return dtype.type(int(nodata)) if is_value else None


def _are_categories(cells: Cells) -> Mask:
    """Return a mask of the cells that are whole numbers in range."""
    if cells.dtype.kind == "f":
        # MAX_CATEGORY itself is not exact in 32-bit floats, but the next number is.
        with np.errstate(invalid="ignore"):
            return np.asarray((np.rint(cells) == cells) & (np.abs(cells) < MAX_CATEGORY + 1.0))
    is_small = cells <= MAX_CATEGORY
    return is_small & (cells >= -MAX_CATEGORY) if cells.dtype.kind == "i" else is_small


def _bad_cell(name: str, row: int, col: int, value: float, scale: int | None) -> BadMap:
    """Return the error for a cell, counted from 1, that is not a whole number in range."""
    number = f"{value:.15g}" if isinstance(value, float) else str(value)
    if scale is not None:
        problem = (
            f"{option('scale', scale)} is too large: the cell at row {row}, column {col} is "
            f"{number}"
        )
        return BadMap(
            name, f"{problem}, and {scale} times that exceeds {MAX_CATEGORY}", row, col, value
        )
    beyond = (
        ", outside -2147483647 to 2147483647"
        if value == value and abs(value) > MAX_CATEGORY
        else ""
    )
    problem = f"not a map of whole numbers: the cell at row {row}, column {col} is {number}{beyond}"
    fault = BadMap(name, problem, row, col, value)
    if not beyond and value == value:
        advice = _ROUNDING_CALL if host().words == "python" else _ROUNDING_COMMAND
        fault.advice = advice.format(name)
    return fault


class Scaled:
    """A map of decimals, which are multiplied by a scale and rounded when they are read.

    Parameters
    ----------
    source : Source
    scale : int
    """

    dtype = np.dtype(np.int32)
    nodata = NULL
    is_masked = False

    def __init__(self, source: Source, scale: int) -> None:
        self.source, self.scale = source, scale

    def __getattr__(self, name: str) -> Any:
        # While the map is copied, the source is not set yet, and asking for it would never end.
        if name == "source" or name.startswith("__"):
            raise AttributeError(name)
        return getattr(self.source, name)

    def blocks(self) -> Iterator[Block]:
        """Yield the rows from north to south."""
        blocks = self.source.blocks()
        while True:
            # The scale is set only while this map is read: between blocks, others may be read.
            token = _scale.set(self.scale)
            try:
                block = next(blocks, None)
            finally:
                _scale.reset(token)
            if block is None:
                return
            yield block

    def window(self, row: int, col: int, rows: int, cols: int) -> Block:
        """Return a window of cells, with rows and columns counted from the north-west corner."""
        source: Any = self.source
        token = _scale.set(self.scale)
        try:
            block: Block = source.window(row, col, rows, cols)
        finally:
            _scale.reset(token)
        return block


def has_windows(source: Any) -> bool:
    """Return whether a map can be read in windows.

    Text grids can only be read from the beginning.
    """
    return hasattr(source.source if isinstance(source, Scaled) else source, "window")


# Maps in memory


@dataclass(frozen=True)
class ArrayMap:
    """A map whose cells are an array in memory.

    Parameters
    ----------
    name : str
        The name of the map, for messages.
    array : array of whole numbers, rows x cols
        Any integer type, bool, or floats that are whole numbers. NaN is null.
    region : Region
    null : array of bool, optional
        An array of the same shape that is True for null cells.
    nodata_value : float, optional
        The value that marks null, compared by value.
    labels : mapping, optional
    crs : any, optional
    exact_transform : tuple of six float, optional
        The transform of results. By default, it is the region's transform.
    is_narrow : bool
        Whether the array stores cells as bytes to save memory. Users still get int32 cells.

    Raises
    ------
    BadMap
        The array cannot be a map. Invalid cells are detected only when they are sent.
    """

    name: str
    array: Cells
    region: Region
    null: Mask | None = None
    nodata_value: float | None = None
    labels: Mapping[int, str] = field(default_factory=dict)
    crs: Any = None
    exact_transform: Transform | None = None
    colors: Mapping[int, str] = field(default_factory=dict)
    files: tuple[str, ...] = ()
    is_narrow: bool = False

    def __post_init__(self) -> None:
        check_array(self.name, self.array)
        if not (self.nodata_value is None or isinstance(self.nodata_value, numbers.Real)):
            raise BadMap(self.name, f"nodata must be a number; got {self.nodata_value!r}")
        if self.array.shape != self.region.shape:
            rows, cols = self.array.shape
            raise BadMap(
                self.name,
                f"the array has {rows} x {cols} cells, but the region has {self.region.rows} x "
                f"{self.region.cols}",
            )

    @property
    def transform(self) -> Transform:
        """The transform of results."""
        return self.exact_transform or self.region.transform

    @property
    def dtype(self) -> np.dtype[Any]:
        """The data type of the map's blocks."""
        return type_of(self.array.dtype)

    @property
    def nodata(self) -> int | None:
        """The value that marks null in the map's blocks."""
        return nodata_of(self.array.dtype, self.nodata_value)

    @property
    def is_masked(self) -> bool:
        """Whether the map's blocks have masks."""
        return self.null is not None and not is_converted(self.array.dtype)

    def filled(self, null: int) -> Cells:
        """Return the cells of a map of whole numbers, with the given value for null."""
        is_null = null_cells(self.array, self.null, self.nodata_value)
        wide = np.promote_types(self.array.dtype, np.int32)
        return np.where(is_null, wide.type(null), self.array)

    def blocks(self) -> Iterator[Block]:
        """Yield the rows from north to south."""
        rows, cols = self.region.shape
        step = max(1, BLOCK_CELLS // cols)
        for row in range(0, rows, step):
            yield self.window(row, 0, min(step, rows - row), cols)

    def window(self, row: int, col: int, rows: int, cols: int) -> Block:
        """Return a window of cells, with rows and columns counted from the north-west corner."""
        part = np.s_[row : row + rows, col : col + cols]
        null = None if self.null is None else self.null[part]
        return checked(self.name, self.array[part], null, self.nodata_value, row, col)


def check_array(name: str, array: Any) -> None:
    """Raise BadMap unless an array has numbers in two dimensions, and at least one cell."""
    if array.dtype.kind not in "iufb":
        raise BadMap(name, f"not a map of whole numbers: its cells are of type {array.dtype}")
    if array.ndim != 2:
        shape = " x ".join(map(str, array.shape)) or "one number"
        raise BadMap(
            name,
            f"the array has {array.ndim} dimensions ({shape}), but a map has two: pass one band of "
            "a raster, for example read(1)",
        )
    if array.size == 0:
        raise BadMap(name, f"the array has no cells ({array.shape[0]} x {array.shape[1]})")


def array_map(
    name: str,
    cells: Any,
    place: Any = None,
    crs: Any = None,
    nodata: float | None = None,
    labels: Mapping[int, str] | None = None,
    colors: Mapping[int, str] | None = None,
    files: tuple[str, ...] = (),
) -> ArrayMap:
    """Convert an array to a map.

    Parameters
    ----------
    name : str
        The name of the map, for messages.
    cells : array, masked array, or nested lists of whole numbers
    place : Region, or a transform, optional
        The position of the cells. By default, cells have size 1.
    crs, nodata, labels, colors, files
        As in ArrayMap.

    Raises
    ------
    BadMap
        The array is not two-dimensional, or the transform is not north-up.
    """
    try:
        array, null = unmasked(cells)
    except ValueError as error:
        raise BadMap(name, f"not an array with rows of equal length: {error}") from None
    if array.dtype.kind == "O" and isinstance(cells, (list, tuple)):
        raise BadMap(name, "not an array with rows of equal length")
    check_array(name, array)
    array, null, region, transform = _placed(name, array, null, place)
    valid_labels, colors = checked_labels(name, labels or {}), colors or {}
    return ArrayMap(
        name, array, region, null, nodata, valid_labels, crs or None, transform, colors, files
    )


def _placed(
    name: str, array: Cells, null: Mask | None, place: Any
) -> tuple[Cells, Mask | None, Region, Transform]:
    """Return the cells and mask with rows from north to south, and their region and transform."""
    rows, cols = array.shape
    if isinstance(place, Region):
        return array, null, place, place.transform
    if place is None:
        region = in_region(name, Region.of_cells, rows, cols)
        return array, null, region, region.transform
    a, b, c, d, e, f = six_numbers(name, place)
    if e > 0 and not b and not d:
        # Flip rows that are ordered from south to north.
        array = array[::-1]
        null = None if null is None else null[::-1]
        e, f = -e, f + e * rows
    transform = (a, b, c, d, e, f)
    region = in_region(name, Region.from_transform, transform, rows, cols)
    return array, null, region, transform


def in_region(name: str, make: Any, *words: Any) -> Region:
    """Call a function that returns a region, and add the map's name to its errors."""
    try:
        region: Region = make(*words)
    except BadMap as refusal:
        raise BadMap(name, refusal.text) from None
    return region


def source_of(name: str, map: Any) -> Source:
    """Convert a map argument to a source.

    Parameters
    ----------
    name : str
    map : any
        A path, a list or pattern of paths, an array or masked array, `(array, region)`, `(array,
        transform)`, a Raster, a DataArray, or a rasterio dataset or band.

    Raises
    ------
    BadMap
        The argument cannot be a map.
    """
    if hasattr(map, "blocks") and hasattr(map, "region"):  # already a source
        source: Source = map
        return source
    if hasattr(map, "source"):  # a Raster
        source = map.source(name)
        return source
    if isinstance(map, (str, os.PathLike)):
        from .mosaics import is_pattern, open_pattern
        from .text_grids import open_path

        path = os.fsdecode(map)
        if path.rstrip("/").endswith(".zarr"):
            from ..readers.xarray import open_zarr

            return open_zarr(name, path)
        return open_pattern(name, path) if is_pattern(path) else open_path(name, map)
    if _are_paths(map):
        from .mosaics import open_files

        return open_files(name, map)
    module = type(map).__module__.partition(".")[0]
    if module == "rasterio":
        from ..readers.rasterio import open_raster

        return open_raster(name, map)
    if module == "xarray":
        from ..readers.xarray import source_of_data_array

        return source_of_data_array(name, map)
    if module == "dask" and hasattr(map, "ndim"):
        return array_map(name, map.compute())
    if isinstance(map, tuple) and len(map) == 2 and isinstance(map[0], np.ndarray):
        cells, place = map
        return array_map(name, cells, place)
    if isinstance(map, (np.ndarray, list)):
        return array_map(name, map)
    kind = type(map).__name__
    raise BadMap(name, f"must be a path, an array or a raster; got an object of type {kind}")


def _are_paths(map: Any) -> bool:
    """Return whether a map is given as a list of paths."""
    return (
        isinstance(map, (list, tuple))
        and bool(map)
        and all(isinstance(path, (str, os.PathLike)) for path in map)
    )


_NAME = re.compile(r"[A-Za-z_][A-Za-z0-9_.]{0,63}")


def check_names(names: Iterable[str]) -> None:
    """Raise BadArgument for the first invalid map name."""
    for name in names:
        if not (isinstance(name, str) and _NAME.fullmatch(name)):
            valid = re.sub(r"[^A-Za-z0-9_.]", "_", str(name))[:64]
            if not _NAME.fullmatch(valid):  # begins with a digit or a dot, or is empty
                valid = f"m_{valid[:60]}"
            rule = (
                "must have names of 1 to 64 letters, digits, _ and ., beginning with a letter or "
                f"_; got {name!r}: write {valid}"
            )
            raise BadArgument("maps", rule)


def named_once(maps: Any, named: Mapping[str, Any]) -> dict[str, Any]:
    """Merge the maps in a mapping or Dataset with the maps passed as keywords.

    Raises BadArgument if both contain the same name.
    """
    if type(maps).__module__.partition(".")[0] == "xarray":
        from ..readers.xarray import variables_of

        maps = variables_of(maps)
    twice = set(maps or {}) & set(named)
    if twice:
        raise BadArgument("maps", f"must have different names; got {min(twice)} twice")
    return {**(maps or {}), **named}


def sources_of(
    maps: Mapping[str, Any], crs: Any = None, written: Mapping[str, Any] | None = None
) -> tuple[dict[str, Source], Any]:
    """Convert a call's maps to sources and return the sources and their reference system.

    Parameters
    ----------
    maps : mapping of str to any
    crs : any
        The coordinate reference system to assume for maps that do not have one.
    written : mapping of str to any, optional
        The maps as the caller passed them, for the advice in errors.

    Raises
    ------
    OtherCrs
        Reference systems differ, or only some maps have one and `crs` is not given.
    OtherRegion
        A map's region differs from the first map's region. The message lists the differences and
        shows the call that aligns the map.
    """
    if not maps:
        raise BadArgument("maps", 'must be given by name, for example a="a.tif"; got none')
    check_names(maps)
    sources = {name: source_of(name, map) for name, map in maps.items()}
    titles = {name: source.name for name, source in sources.items()}
    common = common_crs({name: source.crs for name, source in sources.items()}, crs, titles=titles)
    first_name, first = next(iter(sources.items()))
    for name, source in sources.items():
        if source.region != first.region:
            fault = _other_region(first, source)
            passed = written or maps
            own, target = _written(name, passed[name]), _written(first_name, passed[first_name])
            shift = Shift.between(source.transform, first.transform, first.region.shape)
            fault.advice = _alignment(name, own, target, shift.is_whole)
            raise fault
    return sources, common


def _other_region(first: Source, source: Source) -> OtherRegion:
    """Return the error for a map whose region differs from the first map's region."""
    differences = "; ".join(first.region.differences(source.region))
    text = f"its grid differs from `{first.name}`, and rcell does not resample: {differences}"
    regions = f"  {first.name}: {first.region}\n  {source.name}: {source.region}"
    return OtherRegion(source.name, f"{text}\n{regions}")


def _alignment(name: str, own: str, target: str, is_whole: bool) -> str:
    """Return the call that aligns a map with the first map, resampled unless the shift is whole."""
    if host().words == "qgis":
        nearest = "" if is_whole else " and RESAMPLE nearest"
        return f"rcell:align with INPUT {own}, TO {target}{nearest}"
    nearest = "" if is_whole else ', resample="nearest"'
    return f"{name}=rcell.align({own}, to={target}{nearest})"


def _written(name: str, map: Any) -> str:
    """Return the text for a map in the caller's notation: its path or its name."""
    if host().words == "qgis":
        return f'"{map.name}"'
    if isinstance(map, (str, os.PathLike)):
        return json.dumps(os.fspath(map), ensure_ascii=False)
    return name
