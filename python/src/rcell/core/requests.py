# SPDX-License-Identifier: Apache-2.0 OR GPL-2.0-or-later
"""Encode requests to rcell-pipe: maps, scripts, questions about patches, and parts of tiles."""

from __future__ import annotations

import struct
from collections.abc import Iterable, Iterator, Mapping, Sequence
from dataclasses import dataclass, field
from typing import NamedTuple, Optional, Union

__all__ = [
    "BORDER",
    "NUMBERS",
    "PATCHES",
    "Block",
    "Buffer",
    "GridText",
    "Map",
    "Maps",
    "Margin",
    "Question",
    "join_request",
    "patch_tables_request",
    "patches_request",
    "plan_request",
    "request",
]

CELL_BYTES = {"u8": 1, "i8": 1, "u16": 2, "i16": 2, "u32": 4, "i32": 4, "i64": 8}
"""The cell types of input maps, in the order of their codes, from 1."""

_CODES = {name: code for code, name in enumerate(CELL_BYTES, 1)}
_GRID_TEXT = 8  # the code of a text grid
PATCHES, NUMBERS, BORDER = 1, 2, 4
"""The frames that a question can ask for: patch measures, patch numbers, and the map's border."""
RUN_BYTES = 32  # the bytes of each run in a `responses.JoinFrame`
# Rows and masks are interleaved in pieces that fit in a processor's cache.
PIECE_BYTES = 1 << 18

Buffer = Union[bytes, bytearray, memoryview]


class Block(NamedTuple):
    """Complete rows of a map, as C-contiguous bytes in little-endian byte order.

    Attributes
    ----------
    cells : buffer
    mask : buffer, optional
        A byte for each cell, which is 1 if the cell is null. Required if the map is masked.
    """

    cells: Buffer
    mask: Optional[Buffer] = None


@dataclass(frozen=True)
class Map:
    """An input map of a request.

    Attributes
    ----------
    name : str
    type : {"u8", "i8", "u16", "i16", "u32", "i32", "i64"}
    blocks : iterable of Block
        All rows from north to south. Blocks are requested one by one while the program reads.
    nodata : int, optional
        The value that marks null.
    is_masked : bool
        Whether each block has a mask.
    labels : mapping of int to str
    """

    name: str
    type: str
    blocks: Iterable[Block]
    nodata: Optional[int] = None
    is_masked: bool = False
    labels: Mapping[int, str] = field(default_factory=dict)

    def pieces(self, rows: int, cols: int) -> Iterator[Buffer]:
        """Yield the bytes that encode the map, which must have these numbers of rows and columns.

        Raises
        ------
        ValueError
            The blocks do not contain the expected number of rows.
        """
        yield self._head()
        row_bytes, sent = cols * CELL_BYTES[self.type], 0
        for block in self.blocks:
            cells = memoryview(block.cells).cast("B")
            sent += len(cells) // row_bytes
            if self.is_masked:
                mask = memoryview(block.mask or b"").cast("B")
                yield from _interleaved(cells, mask, row_bytes, cols)
            else:
                yield cells
            if len(cells) % row_bytes:
                break
        if sent != rows:
            raise ValueError(f"the map {self.name} must have {rows} rows; got {sent}")

    def _head(self) -> bytes:
        flags = (self.nodata is not None) + 2 * self.is_masked
        numbers = _CODES[self.type], flags, self.nodata or 0, len(self.labels)
        labels = b""
        for category, text in self.labels.items():
            label = text.encode("utf-8", "surrogateescape")
            labels += struct.pack("<iH", category, len(label)) + label
        return _short(self.name) + struct.pack("<BBqI", *numbers) + labels


@dataclass(frozen=True)
class GridText:
    """An input map of a request that is sent as a text grid.

    Attributes
    ----------
    name : str
    size : int
        The number of bytes in the text.
    text : iterable of buffers
        The text, which is requested piece by piece while the program reads.
    """

    name: str
    size: int
    text: Iterable[Buffer]

    def pieces(self, *_: int) -> Iterator[Buffer]:
        """Yield the bytes that encode the map. The text contains the numbers of rows and columns."""
        yield _short(self.name) + struct.pack("<BBqIQ", _GRID_TEXT, 0, 0, 0, self.size)
        yield from self.text


@dataclass(frozen=True)
class Maps:
    """The input maps of a request, which have the same region.

    Attributes
    ----------
    edges : tuple of str
        The north, south, east and west edges as decimal strings.
    rows, cols : int
    maps : sequence of Map or GridText
    """

    edges: tuple[str, str, str, str]
    rows: int
    cols: int
    maps: Sequence[Union[Map, GridText]]

    def pieces(self) -> Iterator[Buffer]:
        """Yield the bytes that encode the region and the maps, with the errors of `Map.pieces`."""
        sizes = struct.pack("<III", self.rows, self.cols, len(self.maps))
        yield b"".join(map(_short, self.edges)) + sizes
        for each in self.maps:
            yield from each.pieces(self.rows, self.cols)


def _short(text: str) -> bytes:
    return bytes([len(text)]) + text.encode("ascii")


def _interleaved(cells: memoryview, mask: memoryview, row_bytes: int, cols: int) -> Iterator[bytes]:
    """Yield the rows of a map, each followed by the row's mask."""
    rows = len(cells) // row_bytes
    if len(mask) != rows * cols:
        raise ValueError(f"the mask must have {rows * cols} bytes; got {len(mask)}")
    step = max(1, PIECE_BYTES // (row_bytes + cols))
    for first in range(0, rows, step):
        places = range(first, min(first + step, rows))
        parts = (
            (cells[row * row_bytes : (row + 1) * row_bytes], mask[row * cols : (row + 1) * cols])
            for row in places
        )
        yield b"".join(part for pair in parts for part in pair)


class Margin(NamedTuple):
    """The number of rows or columns that are needed on each side of a cell."""

    up: int = 0
    down: int = 0
    left: int = 0
    right: int = 0

    def widened(self, other: Margin) -> Margin:
        """Return a margin with the larger of both numbers on each side."""
        return Margin(*(max(sides) for sides in zip(self, other)))


class Question(NamedTuple):
    """A question about the patches in a map.

    Attributes
    ----------
    map : str
        The name of an input map, or of a map that the script creates.
    connectivity : {4, 8}
    depth : int
        A cell is in the core of its patch if all cells within this many steps, across edges, are in
        the patch.
    zones : str
        The name of a map of zones, or an empty string. With zones, each patch is returned with the
        zone that contains most of its cells.
    kind : int
        The sum of `PATCHES`, `NUMBERS` and `BORDER` for the frames that the question asks for.

    Examples
    --------
    >>> Question("lc", 4, 1).bytes()
    b'\\x01\\x02lc\\x04\\x01\\x00\\x00\\x00\\x00'
    """

    map: str
    connectivity: int
    depth: int = 1
    zones: str = ""
    kind: int = PATCHES

    @property
    def reach(self) -> Margin:
        """The margin around a cell that determines whether the cell is in the core."""
        return Margin(*[self.depth if self.kind & PATCHES else 0] * 4)

    def bytes(self) -> bytes:
        """Return the bytes that encode the question."""
        numbers = struct.pack("<BI", self.connectivity, self.depth)
        return bytes([self.kind]) + _short(self.map) + numbers + _short(self.zones)

    def text(self) -> str:
        """Return the question as a comment, which follows the script in records.

        Recorded questions only ask for measures, so the comment omits `kind`.
        """
        numbers = f"connectivity {self.connectivity}, core depth {self.depth}"
        zones = f", zones {self.zones}" if self.zones else ""
        return f"# question: patches of {self.map}, {numbers}{zones}"


def request(
    maps: Maps,
    script: bytes,
    questions: Sequence[Question] = (),
    tile: Sequence[int] = (),
    magic: bytes = b"RCELLQ1\n",
) -> Iterator[Buffer]:
    """Yield the bytes of a request with maps, a script, and questions.

    Parameters
    ----------
    maps : sequence of Map
    script : bytes
    questions : sequence of Question
    tile : sequence of int
        For a request for a tile, eight numbers: the rows and columns of the full map; the first row
        and column of `maps`, and of the tile, in the full map, counted from 0; and the rows and
        columns of the tile. Otherwise empty.
    magic : bytes
        The first eight bytes of a request that is not for a tile.

    Examples
    --------
    >>> maps = Maps(("3", "0", "2", "0"), 3, 2, [])
    >>> b"".join(request(maps, b""))[:24]
    b'RCELLQ1\\n\\x013\\x010\\x012\\x010\\x03\\x00\\x00\\x00\\x02\\x00\\x00\\x00'
    """
    yield b"RCELLW1\n" + struct.pack("<8I", *tile) if tile else magic
    yield from maps.pieces()
    yield struct.pack("<I", len(script)) + script
    yield struct.pack("<I", len(questions)) + b"".join(each.bytes() for each in questions)


def plan_request(names: Sequence[str], script: bytes) -> Iterator[Buffer]:
    """Yield the bytes of a request for the plan of a script."""
    yield b"RCELLP1\n" + struct.pack("<I", len(names)) + b"".join(map(_short, names)) + struct.pack(
        "<I", len(script)
    ) + script


def join_request(
    borders: Sequence[Buffer], shape: tuple[int, int], connectivity: int
) -> Iterator[Buffer]:
    """Yield the bytes of a request for the numbers of the tiles' patches in the full map.

    Parameters
    ----------
    borders : sequence of buffers
        A border for each tile, row by row from the top left, as in `responses.BorderFrame`.
    shape : tuple of two ints
        The number of rows and of columns of tiles.
    connectivity : {4, 8}

    Examples
    --------
    >>> b"".join(join_request([], (2, 300), 4))
    b'RCELLJ1\\n\\x04\\x02\\x00\\x00\\x00,\\x01\\x00\\x00'
    """
    yield b"RCELLJ1\n" + struct.pack("<BII", connectivity, *shape)
    for border in borders:
        yield memoryview(border).cast("B")


def patches_request(runs: Buffer, patches: int, rows: Buffer) -> Iterator[Buffer]:
    """Yield the bytes of a request to join the measures of the patches of tiles.

    Parameters
    ----------
    runs : buffer
        The runs of a `responses.JoinFrame`.
    patches : int
        The number of patches in `rows`.
    rows : buffer
        For each patch, ordered by tile: its tile and its number in the tile as u64, both counted
        from 1, and its measures in the full map as in `responses.PatchesFrame`, without a zone.
    """
    run_bytes = memoryview(runs).cast("B")
    yield b"RCELLJ1\n" + struct.pack("<BQ", 2, len(run_bytes) // RUN_BYTES)
    yield run_bytes
    yield struct.pack("<Q", patches)
    yield memoryview(rows).cast("B")


def patch_tables_request(
    runs: Buffer, maps: int, tables: Sequence[tuple[int, Buffer, Buffer]]
) -> Iterator[Buffer]:
    """Yield the bytes of a request to add up tables by the numbers of patches in the full map.

    Parameters
    ----------
    runs : buffer
        The runs of a `responses.JoinFrame`.
    maps : int
        The number of maps. The first one contains the numbers of patches in the tile.
    tables : sequence of tuples of an int and two buffers
        For each table its tile, counted from 1; the counts of its entries, as u64; and the cells of
        the entries, as i32.

    Examples
    --------
    >>> b"".join(patch_tables_request(b"", 2, []))
    b'RCELLJ1\\n\\x03\\x00\\x00\\x00\\x00\\x00\\x00\\x00\\x00\\x02\\x00\\x00\\x00\\x00'
    """
    run_bytes = memoryview(runs).cast("B")
    yield b"RCELLJ1\n" + struct.pack("<BQ", 3, len(run_bytes) // RUN_BYTES)
    yield run_bytes
    yield struct.pack("<BI", maps, len(tables))
    for tile, counts, cells in tables:
        count_bytes = memoryview(counts).cast("B")
        yield struct.pack("<2Q", tile, len(count_bytes) // 8)
        yield count_bytes
        yield memoryview(cells).cast("B")
