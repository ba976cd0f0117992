# SPDX-License-Identifier: Apache-2.0 OR GPL-2.0-or-later
"""Open text grids, read their headers, and send them to rcell-pipe.

This module needs only the standard library.
"""

from __future__ import annotations

import contextlib
import io
import os
import re
import stat
import tempfile
from collections.abc import Iterator
from fractions import Fraction
from typing import IO, NamedTuple, Optional

from .edges import fits_one_run
from .errors import ReadFailed
from .files import PIECE, read_some
from .requests import GridText, Maps

__all__ = ["ONE_CELL", "PRINT_GRID", "GridFile", "Header", "header_values", "is_text_grid"]

PRINT_GRID = b"r.out.ascii input=grid\n"
"""The script that returns the map of `GridFile.maps`."""

# Enough for a header of six short lines, even after blank lines.
_HEADER_BYTES = 1 << 16
_KEYS = b"north|south|east|west|rows|cols|null|type|multiplier"
_FIRST_LINE = re.compile(rb"\s*(?:%s):" % _KEYS)
_REGION_LINE = re.compile(rb"(?m)^[ \t\r]*(north|south|east|west|rows|cols):[ \t\r]*(\S+)")
_FIRST_CELL = re.compile(rb"(?m)^[ \t\r]*[^:\s]+\s")
_EDGE = re.compile(rb"[+-]?(?=\.?\d)\d{0,10}(\.\d{0,8})?")
_COUNT = re.compile(rb"\+?\d{1,63}")


class Header(NamedTuple):
    """The region in a grid's header.

    Attributes
    ----------
    edges : tuple of str
        The north, south, east and west edges, as written in the header.
    rows, cols : int
    """

    edges: tuple[str, str, str, str]
    rows: int
    cols: int


ONE_CELL = Header(("1", "0", "1", "0"), 1, 1)


def is_text_grid(start: bytes) -> bool:
    """Return whether a file that begins with these bytes is an rcell text grid.

    Examples
    --------
    >>> is_text_grid(b"north: 3\\n"), is_text_grid(b"ncols 3\\n")
    (True, False)
    """
    return _FIRST_LINE.match(start) is not None


def header_values(start: bytes) -> dict[bytes, bytes]:
    """Return the edges, rows and columns in the header of a grid, by key.

    Examples
    --------
    >>> header_values(b"rows:  2\\r\\n")
    {b'rows': b'2'}
    """
    return dict(_REGION_LINE.findall(start))


class GridFile:
    """A text grid in a file or pipe, or another file, as its first bytes show.

    A file can be read again. A pipe can be read only once.

    Parameters
    ----------
    name : str
        The name of the map, for messages.
    path : str

    Attributes
    ----------
    is_file : bool
        Whether the path is a regular file.
    start : bytes
        The first bytes of the file, or all bytes read from a pipe. They contain the complete
        header.

    Raises
    ------
    OSError
        The file cannot be opened.
    """

    def __init__(self, name: str, path: str) -> None:
        self.name, self.path = name, path
        stream = io.FileIO(path)
        self.is_file = stat.S_ISREG(os.fstat(stream.fileno()).st_mode)
        self._pipe = None if self.is_file else stream
        self.start = b""
        while len(self.start) < _HEADER_BYTES and not _FIRST_CELL.search(self.start):
            piece = read_some(stream.fileno(), _HEADER_BYTES - len(self.start))
            self.start += piece
            if self.is_file or not piece:
                break
        if self.is_file:
            stream.close()

    @property
    def header(self) -> Optional[Header]:
        """The region in the header, or None if rcell rejects the header."""
        values = header_values(self.start)
        edges = [values.get(key, b"") for key in (b"north", b"south", b"east", b"west")]
        counts = [values.get(key, b"") for key in (b"rows", b"cols")]
        if not (all(map(_EDGE.fullmatch, edges)) and all(map(_COUNT.fullmatch, counts))):
            return None
        north, south, east, west = (edge.decode() for edge in edges)
        rows, cols = map(int, counts)
        is_valid = Fraction(north) > Fraction(south) and Fraction(east) > Fraction(west)
        if not is_valid or min(rows, cols) < 1 or not fits_one_run((rows, cols)):
            return None
        return Header((north, south, east, west), rows, cols)

    @contextlib.contextmanager
    def maps(self) -> Iterator[Maps]:
        """Yield the input maps of a request: only the map `grid`, which is the text of the grid.

        If the header is invalid, the program reports its error, regardless of the request's region.

        Raises
        ------
        ReadFailed
            The file cannot be opened or read completely.
        """
        with self._opened() as file:
            size = os.fstat(file.fileno()).st_size
            text = GridText("grid", size, self._pieces(file, size))
            yield Maps(*(self.header or ONE_CELL), [text])

    def _opened(self) -> IO[bytes]:
        """Open the file, or a copy of the pipe, because a request contains the text's length."""
        if self._pipe is None:
            try:
                return open(self.path, "rb")
            except OSError as error:
                problem = f"cannot open: {self.path}: {error.strerror}"
                raise ReadFailed(self.name, problem) from None
        copy = tempfile.TemporaryFile()
        with self._pipe as pipe:
            copy.write(self.start)
            copy.writelines(iter(lambda: read_some(pipe.fileno(), PIECE), b""))
        copy.seek(0)
        return copy

    def _pieces(self, file: IO[bytes], size: int) -> Iterator[bytes]:
        """Yield the text, which must have the size that it had when it was opened."""
        left = size
        while left:
            try:
                piece = file.read(min(left, PIECE))
            except OSError as error:
                raise ReadFailed(self.name, f"read failed: {error.strerror}") from None
            if not piece:
                problem = f"{self.path} was shortened from {size:,} to {size - left:,} bytes"
                raise ReadFailed(self.name, f"read failed: {problem} while it was read")
            left -= len(piece)
            yield piece

    def close(self) -> None:
        """Close a pipe that will not be read."""
        if self._pipe is not None:
            self._pipe.close()
