# SPDX-License-Identifier: Apache-2.0 OR GPL-2.0-or-later
"""Write HTML reports with recorded tables, pictures of maps, and commands to verify the tables."""

from __future__ import annotations

import base64
import csv
import html
import json
import math
import os
import shlex
import struct
import zlib
from collections.abc import Iterator, Mapping, Sequence
from typing import Any

import numpy as np

from .arrays import NDArray
from .errors import BadArgument, RcellError, Refused
from .files import writing
from .labels import checked_labels
from .legends import labels_of
from .palette import colour_at
from .protocol import NULL
from .record import file_sum, files_in, is_of_r, placed, read_record, sum_of_cells
from .report_texts import DEFINITIONS, PAGE, WORDS
from .sources import Source, null_cells, source_of
from .writing import write_beside

__all__ = ["page_of", "report"]

# Limits: the rows of a table, the classes in a legend, and the longer side of a picture in pixels.
MOST_ROWS = 200
MOST_CLASSES = 40
MOST_PIXELS = 480
_DIGITS, _MOST_DECIMALS = 6, 6
# The first bytes of a PNG, and PNG's number for colours of red, green, blue and opacity.
_SIGNATURE = b"\x89PNG\r\n\x1a\n"
_RGBA = 6


def report(
    tables: Sequence[str | os.PathLike[str]],
    out: str | os.PathLike[str],
    title: str = "Report",
) -> str:
    """Write an HTML page with recorded tables, pictures of their maps, and commands to verify them.

    The same records and maps always produce the same page, which loads nothing from other sites.

    Parameters
    ----------
    tables : sequence of path
        CSVs that `record` has written.
    out : path
        The path of the page, which must end in `.html`.
    title : str
        The title of the page.

    Returns
    -------
    str
        The path of the page.

    Raises
    ------
    Refused
        A table has no record, or has changed since it was written.
    BadArgument
        The path does not end in `.html`, or no tables are given.
    WriteFailed
        The page cannot be written.

    Examples
    --------
    >>> import os, rcell, tempfile
    >>> with tempfile.TemporaryDirectory() as folder:
    ...     lc = rcell.Raster([[5, 7, 5]]).write(os.path.join(folder, "lc.txt"))
    ...     table = os.path.join(folder, "t.csv")
    ...     found = rcell.record(table, rcell.composition, lc)
    ...     page = rcell.report([table], os.path.join(folder, "report.html"))
    ...     open(page).readline()
    '<!DOCTYPE html>\\n'
    """
    if isinstance(tables, (str, os.PathLike)):
        raise BadArgument("tables", f"must be a list of paths; got {tables!r}")
    if not tables:
        raise BadArgument("tables", "must have at least one path; got none")
    path = os.fspath(out)
    if not path.lower().endswith((".html", ".htm")):
        raise BadArgument("out", f"must end in .html; got {path!r}")
    with writing(path):
        page = page_of([os.fspath(table) for table in tables], title)
        write_beside(path, page.encode("utf-8", "replace"))
    return path


def page_of(paths: Sequence[str], title: str) -> str:
    """Return the HTML page for recorded tables.

    Raises
    ------
    Refused
        A table has no record, or has changed since it was written.
    """
    parts = "\n".join(_section_of(path) for path in paths)
    return PAGE.format(title=html.escape(title), body=parts)


def _section_of(path: str) -> str:
    """Return the HTML section for a recorded table."""
    record, name = read_record(path), os.path.basename(path)
    if file_sum(path) != record["table"]["sha256"]:
        raise Refused("the table has changed since it was written: record it again", path)
    call = record["call"]
    definition = DEFINITIONS.get(call["name"].removeprefix("rcell_"), "")
    verify = f"rcell-gis verify {shlex.quote(name)}"
    if is_of_r(record):
        r_call = f"rcell::rcell_verify({json.dumps(name)})"
        verify = f"Rscript -e {shlex.quote(r_call)}"
    lines = [
        f"<section>\n<h2>{_text(name)}</h2>",
        f"<p>{_text(definition)}</p>",
        *_picture_of(record, os.path.dirname(os.path.abspath(path))),
        *_table_of(path, name),
        f"<p>{WORDS['call']}: <code>{_text(_call_text(call))}</code></p>",
        f"<p>{WORDS['made']}:</p>\n{_sums_of(record)}",
        f"<p>{WORDS['verify'].format(_text(name))}</p>",
        f"<pre>{_text(verify)}</pre>\n</section>",
    ]
    return "\n".join(lines)


def _text(value: Any) -> str:
    return html.escape(str(value))


# Tables


def _table_of(path: str, name: str) -> Iterator[str]:
    """Yield HTML lines with the first rows of a table and the number of omitted rows."""
    with open(path, encoding="utf-8", errors="replace", newline="") as file:
        titles, *rows = csv.reader(file)
    columns = [_shown(column) for column in zip(*rows)]
    if not rows:
        columns = [(False, [])] * len(titles)
    marks = [' class="number"' if is_number else "" for is_number, _ in columns]
    head = "".join(f"<th{mark}>{_text(title)}</th>" for mark, title in zip(marks, titles))
    yield f"<table>\n<thead><tr>{head}</tr></thead>\n<tbody>"
    shown_rows = list(zip(*(texts for _, texts in columns)))
    for row in shown_rows[:MOST_ROWS]:
        cells = "".join(f"<td{mark}>{_text(cell)}</td>" for mark, cell in zip(marks, row))
        yield f"<tr>{cells}</tr>"
    yield "</tbody>\n</table>"
    more = len(rows) - MOST_ROWS
    rest = f"{WORDS['rows'].format(more, _text(name))} " if more > 0 else ""
    yield f"<p>{rest}{WORDS['rounded']}</p>"


def _shown(column: Sequence[str]) -> tuple[bool, list[str]]:
    """Return whether a column is numeric, and its values as strings to display.

    Decimals are rounded to about six digits.
    """
    try:
        numbers = [float(text) if text else None for text in column]
    except ValueError:
        return False, list(column)
    if all(text.lstrip("-").isdigit() or not text for text in column):
        return True, list(column)
    known = [abs(number) for number in numbers if number is not None and math.isfinite(number)]
    largest = max(known, default=0.0)
    digits_before_point = len(str(int(largest)))
    decimals = max(0, min(_MOST_DECIMALS, _DIGITS - digits_before_point))
    return True, ["" if number is None else f"{number:.{decimals}f}" for number in numbers]


# Calls and checksums


def _call_text(call: Mapping[str, Any]) -> str:
    words = [_argument(word) for word in call["words"]]
    words += [f"{name}={_argument(value)}" for name, value in call["named"].items()]
    text = f"{call['name']}({', '.join(words)})"
    return f"{text}.{call['part']}" if call["part"] else text


def _argument(value: Any) -> str:
    if isinstance(value, list):
        return f"[{', '.join(map(_argument, value))}]"
    if not isinstance(value, dict):
        return repr(value)
    if "items" in value:
        pairs = (f"{key!r}: {_argument(item)}" for key, item in value["items"])
        return f"{{{', '.join(pairs)}}}"
    return repr(value["path"]) + (f", band {value['band']}" if "band" in value else "")


def _sums_of(record: Mapping[str, Any]) -> str:
    """Return an HTML table of all SHA-256 checksums in a record."""
    sums = {}
    for number, run in enumerate(record["runs"], 1):
        for line in run["script"].split("\n"):
            sums[f"script {number}: {line}"] = ""
        for name, digest in run["maps"].items():
            sums[f"cells of {name}"] = digest
    sums[f"program of rcell {record['versions']['rcell']}"] = record["program"]
    sums["table"] = record["table"]["sha256"]
    lines = ["<table>", "<thead><tr><th>what</th><th>SHA-256</th></tr></thead>", "<tbody>"]
    for name, digest in sums.items():
        lines.append(f"<tr><td>{_text(name)}</td><td><code>{_text(digest)}</code></td></tr>")
    lines += ["</tbody>", "</table>"]
    return "\n".join(lines)


# Pictures


def _picture_of(record: Mapping[str, Any], folder: str) -> Iterator[str]:
    """Yield HTML that shows the picture and legend of a call's first map, or says why not."""
    first = next(files_in([record["call"]["words"], record["call"]["named"]]), None)
    if first is None or not record["runs"]:
        return
    try:
        source = source_of("map", placed(first, folder))
        recorded = {digest for run in record["runs"] for digest in run["maps"].values()}
        if sum_of_cells(source) not in recorded:
            yield f"<p>{WORDS['changed'].format(_text(first['path']))}</p>"
            return
    except RcellError:
        yield f"<p>{WORDS['absent'].format(_text(first['path']))}</p>"
        return
    legend = record["call"]["named"].get("labels")
    labels = checked_labels("map", source.labels)
    if isinstance(legend, dict) and "path" in legend:
        labels = dict(labels_of(os.path.join(folder, legend["path"])))
    cells, step = _thinned(source)
    classes = [code for code in np.unique(cells).tolist() if code != NULL]
    colours = {
        code: source.colors.get(code) or f"#{bytes(colour_at(index)).hex()}"
        for index, code in enumerate(classes)
    }
    picture = base64.b64encode(_png(cells, colours)).decode()
    name = _text(os.path.basename(first["path"]))
    every = f", 1 of every {step} rows and columns" if step > 1 else ""
    yield f'<figure>\n<img alt="{name}" src="data:image/png;base64,{picture}">'
    entries = "".join(
        f'<span><i style="background: {colours[code]}"></i>{_text(labels.get(code, code))}</span>'
        for code in classes[:MOST_CLASSES]
    )
    more = len(classes) - MOST_CLASSES
    rest = f" and {more} more" if more > 0 else ""
    yield f"<figcaption>{name}{every}<br>{entries}{rest}</figcaption>\n</figure>"


def _thinned(source: Source) -> tuple[NDArray[np.int64], int]:
    """Return every nth row and column of a map, and n, so that the map fits into a picture."""
    step = math.ceil(max(source.region.shape) / MOST_PIXELS)
    rows, first_row = [], 0
    for block in source.blocks():
        is_null = null_cells(block.cells, block.null, source.nodata)
        cells = np.where(is_null, np.int64(NULL), block.cells)
        skipped = -first_row % step  # rows of the block before the map's next nth row
        rows.append(cells[skipped::step, ::step])
        first_row += len(cells)
    return np.concatenate(rows), step


def _png(cells: NDArray[np.int64], colours: Mapping[int, str]) -> bytes:
    """Encode a map as a PNG picture, in which null is transparent and small maps are enlarged."""
    classes = [NULL, *colours]
    shades = [(0, 0, 0, 0)]
    for colour in colours.values():
        red, green, blue = bytes.fromhex(colour[1:7])  # of #rrggbb
        shades.append((red, green, blue, 255))
    pixels = np.array(shades, np.uint8)[np.searchsorted(classes, cells)]
    times = max(1, MOST_PIXELS // 2 // max(cells.shape))
    pixels = pixels.repeat(times, axis=0).repeat(times, axis=1)
    rows, cols, _ = pixels.shape
    # Each row begins with the number of its filter; 0 means no filter.
    lines = np.concatenate([np.zeros((rows, 1), np.uint8), pixels.reshape(rows, -1)], axis=1)
    # 8 bits per number; then the usual compression and filters, and no interlacing.
    head = struct.pack(">IIBBBBB", cols, rows, 8, _RGBA, 0, 0, 0)
    chunks = (b"IHDR", head), (b"IDAT", zlib.compress(lines.tobytes(), 9)), (b"IEND", b"")
    return _SIGNATURE + b"".join(
        struct.pack(">I", len(data)) + name + data + struct.pack(">I", zlib.crc32(name + data))
        for name, data in chunks
    )
