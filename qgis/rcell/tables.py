# SPDX-License-Identifier: Apache-2.0 OR GPL-2.0-or-later
"""Write tables and rasters with GDAL, and name each file only when it is complete."""

from __future__ import annotations

import contextlib
import os
import signal
import sqlite3
import threading
from collections.abc import Iterable, Iterator, Mapping, Sequence
from typing import Any, Callable

from numpy.typing import NDArray
from osgeo import gdal, ogr

from .engine.core.columns import Column, Table
from .engine.core.errors import RcellError, WriteFailed
from .engine.core.files import Output, check_output
from .engine.core.labels import write_labels
from .engine.core.sources import BLOCK_CELLS, Source
from .engine.core.table_texts import table_text
from .engine.readers.osr import quiet

# Level 1 with a predictor takes an eighth of the time of level 6 without a predictor, for files of
# the same size.
_OPTIONS = ["COMPRESS=DEFLATE", "ZLEVEL=1", "PREDICTOR=2", "TILED=YES", "BIGTIFF=IF_SAFER"]
_COPIED_BYTES = 1 << 22
_CHECKED_ROWS = 1 << 14
# The ending of the file that GDAL writes next to a raster.
_BESIDE = ".aux.xml"
_ENDING = (signal.SIGHUP, signal.SIGQUIT, signal.SIGTERM)
_CSV_TYPES = {"class": "Integer64", "count": "Integer64", "measure": "Real", "label": "String"}
_OGR_TYPES = {
    "class": ogr.OFTInteger64,
    "count": ogr.OFTInteger64,
    "measure": ogr.OFTReal,
    "label": ogr.OFTString,
}

Check = Callable[[], None]


def no_check() -> None:
    """Do nothing. This check never interrupts writing."""


def check_target(path: str, inputs: Sequence[str] = ()) -> None:
    """Check that a file can be written before work begins.

    Raises
    ------
    WriteFailed
        The folder is missing or not writable, or the path is a folder.
    Refused
        The file is one of the inputs.
    """
    target = os.path.realpath(path)
    folder = os.path.dirname(target)
    check_output(path, inputs)
    if os.path.isdir(target):
        raise _failed(path, "it is a folder")
    if os.path.exists(target) and not os.path.isfile(target):
        return
    if not os.path.isdir(folder):
        raise _failed(path, f"the folder {folder} does not exist")
    if not os.access(folder, os.W_OK):
        raise _failed(path, f"the folder {folder} is not writable")


def _failed(path: str, reason: str) -> WriteFailed:
    return WriteFailed(f"{path} cannot be written: {reason}")


# Tables


def is_file_of_table(path: str) -> bool:
    """Return whether `write_table` supports the format of a path."""
    return os.path.splitext(path)[1].lower() in (".csv", ".gpkg")


def distinct(table: Table) -> list[Column]:
    """Return a table's columns with names that differ regardless of case, as databases require."""
    taken: set[str] = set()
    columns = []
    for column in table.data:
        number, name = 2, column.name
        while name.casefold() in taken:
            number, name = number + 1, f"{column.name}_{number}"
        taken.add(name.casefold())
        columns.append(Column(name, column.kind, column.values))
    return columns


def write_table(path: str, table: Table, check: Check = no_check) -> None:
    """Write a table as CSV or GeoPackage, depending on the file name extension.

    `check` is called at intervals, and can raise an exception to stop the writing.

    Raises
    ------
    WriteFailed
        The table cannot be written. An existing file is unchanged.
    """
    stem, ending = os.path.splitext(path)
    columns = distinct(table)
    if ending.lower() == ".csv":
        with partly(path) as part, partly(stem + ".csvt") as types:
            _write_csv(part, types, columns, check)
    else:
        with partly(path) as part:
            _write_geopackage(part, os.path.basename(stem), columns, check)


def _checked(rows: Iterable[Any], check: Check) -> Iterator[Any]:
    """Yield the rows unchanged, calling `check` every few thousand rows."""
    for number, row in enumerate(rows):
        if number % _CHECKED_ROWS == 0:
            check()
        yield row


def _write_csv(part: str, types: str, columns: list[Column], check: Check) -> None:
    """Write a CSV and a .csvt file with its column types, without which QGIS reads only text."""
    rows = _checked(zip(*(column.listed() for column in columns)), check)
    text = table_text("csv", [column.name for column in columns], list(rows))
    with open(part, "w", encoding="utf-8", newline="") as file:
        file.write(text)
    csv_types = [f'"{_CSV_TYPES[column.kind]}"' for column in columns]
    with open(types, "w", encoding="utf-8") as file:
        file.write(",".join(csv_types) + "\n")


def _write_geopackage(part: str, name: str, columns: list[Column], check: Check) -> None:
    """Create a table with GDAL and insert rows with SQLite, which is ten times faster."""
    values = [column.listed() for column in columns]
    count = len(values[0])
    with quiet():
        gdal.ErrorReset()
        listed = _make_geopackage(part, name, columns)
        if not listed:
            raise OSError(gdal.GetLastErrorMsg() or "the disk may be full")
        row_ids = range(1, count + 1)
        rows = _checked(zip(row_ids, *values), check)
        try:
            _insert(part, name, listed, rows, count)
        except sqlite3.Error as error:
            raise OSError(str(error)) from None
        written = ogr.Open(part)
        if written is None or written.GetLayer(0).GetFeatureCount() != count:
            raise OSError(gdal.GetLastErrorMsg() or "the disk may be full")


def _insert(part: str, name: str, listed: str, rows: Iterable[Any], count: int) -> None:
    """Insert rows into the listed columns without the table's triggers, which would count rows."""
    with contextlib.closing(sqlite3.connect(part)) as connection, connection:
        triggers = connection.execute(
            "SELECT name, sql FROM sqlite_master WHERE type = 'trigger' AND tbl_name = ?", [name]
        ).fetchall()
        for trigger, _ in triggers:
            connection.execute(f"DROP TRIGGER {_quoted(trigger)}")
        places = ",".join("?" * (listed.count(", ") + 1))
        connection.executemany(f"INSERT INTO {_quoted(name)} ({listed}) VALUES ({places})", rows)
        connection.execute(
            "UPDATE gpkg_ogr_contents SET feature_count = ? WHERE table_name = ?", [count, name]
        )
        for _, create_trigger in triggers:
            connection.execute(create_trigger)


def _make_geopackage(part: str, name: str, columns: list[Column]) -> str:
    """Create an empty table and return its columns as an SQL list that starts with the row id.

    Returns an empty string if an error occurs.
    """
    source = ogr.GetDriverByName("GPKG").CreateDataSource(part)
    options = ["FID=rcell_fid"] if any(column.name.lower() == "fid" for column in columns) else []
    layer = None if source is None else source.CreateLayer(name, None, ogr.wkbNone, options)
    if layer is None:
        return ""
    for column in columns:
        layer.CreateField(ogr.FieldDefn(column.name, _OGR_TYPES[column.kind]))
    names = [layer.GetFIDColumn(), *(column.name for column in columns)]
    return ", ".join(map(_quoted, names)) if _flushed(source) else ""


def _quoted(name: str) -> str:
    doubled = name.replace('"', '""')
    return f'"{doubled}"'


# Rasters


def write_raster(
    path: str,
    driver: str,
    cells: NDArray[Any],
    null: float,
    like: Source,
    labels: Mapping[int, str],
    check: Check = no_check,
    names: Sequence[str] = ("",),
) -> None:
    """Write a map as 32-bit integers, or several maps of decimals as bands.

    Parameters
    ----------
    path : str
    driver : str
        The name of GDAL's driver.
    cells : array of int32, rows x cols, or of float64, bands x rows x cols
    null : float
        The value of null cells, which becomes nodata.
    like : Source
        The map that defines the position and the reference system.
    labels : mapping of int to str
    check : callable
        A function that is called at intervals, and can raise an exception to stop the writing.
    names : sequence of str
        The descriptions of the bands.

    Raises
    ------
    WriteFailed
        The raster cannot be written. An existing file is unchanged.
    """
    with partly(path) as part, quiet():
        gdal.ErrorReset()
        folder = f"/vsimem/rcell_{os.getpid()}_{id(part)}"
        try:
            tiff = f"{folder}/map.tif"
            is_made = _write_tiff(tiff, cells, null, like, check, names)
            copied = _copied(folder, part, driver, tiff) if is_made else ""
            if not copied:
                raise OSError(gdal.GetLastErrorMsg() or "the disk may be full")
            _copy_out(copied, part)
            write_labels(part, labels)
        finally:
            gdal.RmdirRecursive(folder)


def _copied(folder: str, part: str, driver: str, tiff: str) -> str:
    """Copy a raster in memory and return the copy's path, or an empty string after an error.

    The copy is in memory because GDAL does not report every full disk.
    """
    if driver == "GTiff":
        return tiff
    copied = f"{folder}/copy{os.path.splitext(part)[1]}"
    copy = gdal.GetDriverByName(driver).CreateCopy(copied, gdal.Open(tiff))
    return copied if copy is not None and _flushed(copy) else ""


def _write_tiff(
    path: str,
    cells: NDArray[Any],
    null: float,
    like: Source,
    check: Check,
    names: Sequence[str],
) -> bool:
    """Write a GeoTIFF with a band for each layer of cells and return whether that succeeded."""
    layers = cells if cells.ndim == 3 else cells[None]  # with the dimension of bands
    count, rows, cols = layers.shape
    kind = gdal.GDT_Float64 if cells.dtype.kind == "f" else gdal.GDT_Int32
    dataset = gdal.GetDriverByName("GTiff").Create(path, cols, rows, count, kind, _OPTIONS)
    if dataset is None:
        return False
    width, row_skew, west, column_skew, height, north = like.transform
    dataset.SetGeoTransform((west, width, row_skew, north, column_skew, height))
    if like.crs:
        dataset.SetProjection(like.crs)
    step = max(1, BLOCK_CELLS // cols)
    for number, (layer, name) in enumerate(zip(layers, names), 1):
        band = dataset.GetRasterBand(number)
        if name:
            band.SetDescription(name)
        band.SetNoDataValue(null)
        for row in range(0, rows, step):
            check()
            if band.WriteArray(layer[row : row + step], 0, row) not in (None, gdal.CE_None):
                return False
        del band
    return _flushed(dataset)


def _copy_out(source: str, target: str) -> None:
    """Copy a file and its GDAL sidecar file from GDAL's memory to the disk."""
    for ending in ("", _BESIDE):
        if gdal.VSIStatL(source + ending) is None:
            continue
        memory = gdal.VSIFOpenL(source + ending, "rb")
        try:
            with open(target + ending, "wb") as file:
                while piece := gdal.VSIFReadL(1, _COPIED_BYTES, memory):
                    file.write(piece)
        finally:
            gdal.VSIFCloseL(memory)


def _flushed(dataset: Any) -> bool:
    """Flush a dataset and return whether that succeeded."""
    gdal.ErrorReset()
    dataset.FlushCache()
    return bool(gdal.GetLastErrorType() < gdal.CE_Failure)


# Complete files


@contextlib.contextmanager
def partly(path: str) -> Iterator[str]:
    """Yield a temporary path whose file is renamed at the end of the block.

    After an error, no file is left.

    Raises
    ------
    WriteFailed
    """
    check_target(path)
    with _removed_on_signals():
        try:
            with Output(path) as output:
                yield output.path()
        except RcellError:
            raise
        except (OSError, RuntimeError) as error:
            raise _failed(path, getattr(error, "strerror", None) or str(error)) from None


@contextlib.contextmanager
def _removed_on_signals() -> Iterator[None]:
    """Remove unfinished files before a signal ends the process.

    This works only in the main thread, because Python handles signals only there.
    """
    caught: list[int] = []

    def end(number: int, _: Any) -> None:
        caught.append(number)
        raise SystemExit(128 + number)

    is_main = threading.current_thread() is threading.main_thread()
    handled = [
        number for number in _ENDING if is_main and signal.getsignal(number) == signal.SIG_DFL
    ]
    for number in handled:
        signal.signal(number, end)
    try:
        yield
    finally:
        for number in handled:
            signal.signal(number, signal.SIG_DFL)
        if caught:
            os.kill(os.getpid(), caught[0])
