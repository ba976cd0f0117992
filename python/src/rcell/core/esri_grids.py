# SPDX-License-Identifier: Apache-2.0 OR GPL-2.0-or-later
"""Convert ESRI ASCII grids (GDAL's AAIGrid) to rcell grids and back, with exact edges.

This module needs only the standard library.
"""

from __future__ import annotations

import re
from collections.abc import Iterable, Iterator
from fractions import Fraction
from typing import Optional

from .edges import DECIMALS, UNITS, edge_text
from .errors import Refused
from .files import PIECE, read_some
from .host import warn

__all__ = ["esri_of_grid", "grid_of_esri", "is_esri"]

NULL = b"-2147483648"  # not a category, so it cannot occur in a map
KEYS = b"ncols nrows xllcorner yllcorner xllcenter yllcenter cellsize dx dy nodata_value".split()
HEADER_BYTES = 1 << 16
MOST_WORDS = 1 << 16  # the largest number of distinct cells whose conversion is cached
GDAL_DECIMALS = 12  # GDAL truncates cell sizes to this many decimals
ROUNDED_FROM = 10**10  # larger 32-bit floats are written with a varying number of digits
FORGOTTEN = (b"-9999", b"-32768")  # nodata values that headers often do not declare
_NUMBER = re.compile(rb"[+-]?(\d+\.?\d*|\.\d+)(e[+-]?\d{1,3})?", re.IGNORECASE)
_LONGEST = 64  # the longest number that messages show, in bytes


def is_esri(start: bytes) -> bool:
    """Return whether a file that begins with these bytes is an ESRI ASCII grid.

    Examples
    --------
    >>> is_esri(b"NCOLS 3\\n"), is_esri(b"north: 3\\n")
    (True, False)
    """
    words = start.split(None, 1)
    return bool(words) and words[0].lower() in KEYS


def _number(text: bytes) -> Optional[Fraction]:
    is_number = len(text) <= _LONGEST and _NUMBER.fullmatch(text)
    return Fraction(text.decode()) if is_number else None


def _shown(word: bytes) -> str:
    return repr(word[:_LONGEST].decode("ascii", "backslashreplace"))


class _Header:
    """The header of an ESRI ASCII grid: the value of each key, and where the cells begin."""

    def __init__(self, start: bytes) -> None:
        self.values: dict[bytes, bytes] = {}
        self.end, self.line = 0, 1  # where the cells begin: the byte from 0, the line from 1
        for raw in start.splitlines(keepends=True):
            words = raw.split()
            key = words[0].lower() if words else b""
            if words and key not in KEYS:
                break
            if words and (len(words) != 2 or key in self.values):
                rule = "must have one key and one value, and no key may appear twice"
                raise Refused(f"a header line {rule}", "map", self.line)
            if words:
                self.values[key] = words[1]
            self.end += len(raw)
            self.line += 1
        self.cols = self.side(b"ncols")
        self.rows = self.side(b"nrows")
        west, east = self.edges(b"x", b"dx", self.cols, "east")
        south, north = self.edges(b"y", b"dy", self.rows, "north")
        texts = [edge_text(round(edge * UNITS)) for edge in (north, south, east, west)]
        self.text = "north: {}\nsouth: {}\neast: {}\nwest: {}\n".format(*texts)
        self.text += f"rows: {self.rows}\ncols: {self.cols}\n"

    def side(self, key: bytes) -> int:
        """Return the number of rows or columns."""
        text = self.values.get(key, b"")
        if not re.fullmatch(rb"[1-9]\d{0,9}", text):
            raise Refused(
                f"{key.decode()} must be a whole number above 0; got {_shown(text)}", "map"
            )
        return int(text)

    def value(self, *keys: bytes) -> tuple[Fraction, bytes]:
        """Return the value of the first given key that is present, as a number and as text."""
        key = next((key for key in keys if key in self.values), None)
        if key is None:
            raise Refused(f"the header has no {' or '.join(map(bytes.decode, keys))}", "map")
        number = _number(self.values[key])
        if number is None:
            raise Refused(f"{key.decode()} must be a number; got {_shown(self.values[key])}", "map")
        return number, self.values[key]

    def edges(self, axis: bytes, step: bytes, count: int, name: str) -> tuple[Fraction, Fraction]:
        """Return an axis's two edges, correcting the upper edge if the cell size was truncated."""
        size, text = self.value(step, b"cellsize")
        corner, centre = axis + b"llcorner", axis + b"llcenter"
        if corner in self.values or centre not in self.values:
            low, _ = self.value(corner)
        else:
            centre_of_cell, _ = self.value(centre)
            low = centre_of_cell - size / 2
        high = low + size * count
        decimals = len(text.partition(b".")[2])
        if decimals < GDAL_DECIMALS or text.endswith(b"0") or b"e" in text.lower():
            return low, high  # the size was not truncated
        # Use the roundest edge that differs by at most half a unit of the last decimal per cell.
        most = Fraction(count, 2 * 10**decimals)
        rounded = (round(high, places) for places in range(DECIMALS + 1))
        corrected = next((edge for edge in rounded if abs(edge - high) <= most), high)
        new_text = edge_text(round(corrected * UNITS))
        old_text = edge_text(round(high * UNITS))
        if new_text != old_text:
            warn(
                f"{name} is set to {new_text}, because the cell size, truncated to {decimals} "
                f"decimals, would make it {old_text}"
            )
        return low, corrected


class _Cells(dict[bytes, bytes]):
    """A cache of converted cells, which avoids converting the same word repeatedly."""

    def __init__(self, null: Optional[bytes]) -> None:
        super().__init__()
        self.null = null
        self.value = None if null is None else _number(null)
        self.forgotten: set[bytes] = set()

    def __missing__(self, word: bytes) -> bytes:
        if len(self) >= MOST_WORDS:
            self.clear()
        self[word] = text = self.text(word)
        if text in FORGOTTEN:
            self.forgotten.add(text)
        return text

    def text(self, word: bytes) -> bytes:
        value = _number(word)
        if self.is_null(word, value):
            return b"*"
        if value is None or value.denominator != 1:
            raise Refused(f"the cell {_shown(word)} is not a whole number")
        return b"%d" % value

    def is_null(self, word: bytes, value: Optional[Fraction]) -> bool:
        if value is None or self.value is None:  # a word such as nan
            return self.null is not None and word.strip(b"+-").lower() == self.null.lower()
        difference = abs(value - self.value)
        is_rounded = abs(self.value) > ROUNDED_FROM and difference * 10**6 <= abs(self.value)
        return difference == 0 or is_rounded


def grid_of_esri(path: str) -> Iterator[bytes]:
    """Convert an ESRI ASCII grid to an rcell grid and yield the text in pieces.

    Raises
    ------
    Refused
        The header or a cell is invalid. The error names the line.
    """
    with open(path, "rb") as file:
        pieces = iter(lambda: read_some(file.fileno(), PIECE), b"")
        start = b""
        while len(start) < HEADER_BYTES and (piece := next(pieces, b"")):
            start += piece
        header = _Header(start)
        yield header.text.encode()
        cells = _Cells(null=header.values.get(b"nodata_value"))
        count = 0
        for number, line in enumerate(_lines(start[header.end :], pieces), header.line):
            words = line.split()
            count += len(words)
            if not words:
                continue
            try:
                yield b" ".join([cells[word] for word in words]) + b"\n"
            except Refused as error:
                raise Refused(error.text, "map", number) from None
    if count != header.rows * header.cols:
        declared = f"{header.rows} rows of {header.cols} cells"
        difference = f"the header declares {declared}, but {count} cells follow"
        raise Refused(difference, "map")
    for word in sorted(cells.forgotten):
        warn(f"some cells are {word.decode()}, which the header does not declare as nodata")


def _lines(start: bytes, pieces: Iterable[bytes]) -> Iterator[bytes]:
    rest = start
    for piece in pieces:
        *lines, rest = (rest + piece).split(b"\n")
        yield from lines
    yield from rest.split(b"\n")


def esri_of_grid(pieces: Iterator[bytes]) -> Iterator[bytes]:
    """Convert a grid in the layout that rcell prints to an ESRI ASCII grid, piece by piece."""
    start = b""
    while start.count(b"\n") < 6:  # the four edges, `rows` and `cols`
        start += next(pieces)
    *lines, rest = start.split(b"\n", 6)
    values = dict(line.decode().split(": ") for line in lines)
    rows, cols = int(values["rows"]), int(values["cols"])
    north, south, east, west = (
        Fraction(values[edge]) for edge in ("north", "south", "east", "west")
    )
    wide, high = (east - west) / cols, (north - south) / rows
    sizes = [("cellsize", wide)] if wide == high else [("dx", wide), ("dy", high)]
    header = (
        f"ncols {cols}\nnrows {rows}\nxllcorner {values['west']}\nyllcorner {values['south']}\n"
    )
    header += "".join(f"{key} {float(size)!r}\n" for key, size in sizes)
    yield header.encode() + b"NODATA_value %s\n" % NULL
    yield rest.replace(b"*", NULL)
    for piece in pieces:
        yield piece.replace(b"*", NULL)
