# SPDX-License-Identifier: Apache-2.0 OR GPL-2.0-or-later
"""Read the responses of rcell-pipe: frames, and the final status."""

from __future__ import annotations

import struct
from collections.abc import Callable, Iterator, Mapping
from dataclasses import dataclass, field
from typing import NamedTuple, NoReturn, Optional, Union

from .requests import Margin

__all__ = [
    "COMMANDS",
    "NULL",
    "NULL_BYTE",
    "PATCH_BYTES",
    "ZONE_BYTES",
    "AnyFrame",
    "BorderFrame",
    "Done",
    "Frame",
    "GridFrame",
    "JoinFrame",
    "JoinedPatchesFrame",
    "NumbersFrame",
    "PatchSumsFrame",
    "PatchesFrame",
    "Statement",
    "TableFrame",
    "response_of",
]

NULL = -2_147_483_648
"""Null in cells of type i32. It is not a category."""

NULL_BYTE = 255
"""Null in returned cells of type u8."""

COMMANDS = ("r.mapcalc", "r.reclass", "r.clump", "r.stats", "r.out.ascii")
"""The commands, in the order of their codes, from 1."""

_SOURCES = {1: "request", 2: "script", 3: "question"}
_OPTIONS = "cl1nN"
_RUN_NUMBERS = 4  # of each run in a JoinFrame
PATCH_BYTES, ZONE_BYTES = 68, 4
BORDER_HEAD_BYTES = 17  # before the size of a border: the connectivity and the position
# Arrays with fewer bytes are assembled from pieces. Larger arrays are read directly into memory.
DIRECT_BYTES = 1 << 20
MOST_CELL_BYTES = 1 << 33


@dataclass(frozen=True)
class TableFrame:
    """The table of an `r.stats` statement, or the cells of `r.stats -1` in reading order.

    Attributes
    ----------
    line : int
        The line of the statement, counted from 1.
    names : tuple of str
        The names of the maps in the statement.
    separator, null_text : bytes
        The separator and the text for null in the printed table.
    entries : int
        The number of combinations or of cells.
    counts : memoryview or None
        The number of cells of each entry, as unsigned 64-bit integers, or None without the flag
        `-c`.
    cells : memoryview
        The categories as 32-bit integers, entry by entry. Null is `NULL`.
    labels : list of bytes or None
        The label of each value in `cells`: `no data` for null, and empty for a category without a
        label. None without the flag `-l`.
    """

    line: int
    names: tuple[str, ...]
    separator: bytes
    null_text: bytes
    entries: int
    counts: Optional[memoryview]
    cells: memoryview
    labels: Optional[list[bytes]]


@dataclass(frozen=True)
class GridFrame:
    """The map that an `r.out.ascii` statement prints.

    Attributes
    ----------
    line : int
    name : str
    null_text : bytes
        The text for null in the printed grid.
    edges : tuple of str
        The northern, southern, eastern and western edges, in rcell's notation.
    rows, cols : int
    type : {"u8", "i32"}
        The type of the cells: u8 if all categories are from 0 to 254, with 255 for null; otherwise
        i32, with `NULL` for null.
    cells : memoryview
        The cells row by row, with the type `type`.
    """

    line: int
    name: str
    null_text: bytes
    edges: tuple[str, ...]
    rows: int
    cols: int
    type: str
    cells: memoryview

    @property
    def null(self) -> int:
        """The value that marks null in the cells."""
        return NULL_BYTE if self.type == "u8" else NULL


@dataclass(frozen=True)
class PatchesFrame:
    """The program's response to a question about the patches of a map.

    Attributes
    ----------
    question : int
        The index of the question, counted from 0.
    rows : memoryview
        A row of `PATCH_BYTES` bytes for each patch, in the order of the patch numbers. A row
        contains the class as i32, followed by the cells, ends, flanks, core cells, first and last
        row, and first and last column as u64. Rows and columns are counted from 0, in the full map.
        If the question has zones, the zone follows as i32, which is `NULL` if the patch has no
        zone.
    has_zones : bool
        Whether the rows contain zones.
    """

    question: int
    rows: memoryview
    has_zones: bool


@dataclass(frozen=True)
class NumbersFrame:
    """The map of patch numbers, which precedes the patches of a question that asks for it.

    Attributes
    ----------
    question : int
        The index of the question, counted from 0.
    rows, cols : int
    type : {"u8", "i32"}
        The type of the cells, as in `GridFrame`.
    cells : memoryview
        The numbers row by row, with the type `type`. Patches are numbered from 1, as in `r.clump`.

    Examples
    --------
    >>> NumbersFrame(0, 1, 3, "u8", memoryview(bytes([1, 255, 2]))).cells.tolist()
    [1, 255, 2]
    """

    question: int
    rows: int
    cols: int
    type: str
    cells: memoryview


@dataclass(frozen=True)
class BorderFrame:
    """The border of a map, which precedes the patches of a question that asks for it.

    Attributes
    ----------
    question : int
        The index of the question, counted from 0.
    border : memoryview
        Bytes: the connectivity of the patches, and the first row and column of the map in the full
        map (`BORDER_HEAD_BYTES`). Then 32-bit integers: the rows and columns of the map; the cells
        and the patch numbers of its first row, last row, first column and last column, with `NULL`
        for null; and, for each row, the number of patches that begin in the row.
        `requests.join_request` joins such borders.
    """

    question: int
    border: memoryview


@dataclass(frozen=True)
class Statement:
    """A statement of a script, as described by the program's plan.

    Attributes
    ----------
    line : int
        The first line of the statement, counted from 1.
    command : {"r.mapcalc", "r.reclass", "r.clump", "r.stats", "r.out.ascii"}
    made : str
        The name of the map that the statement creates, or an empty string.
    reads : dict of str to Margin
        Each map that the statement reads, with the margin that the statement needs around a cell.
    needs : dict of str to Margin or None
        Each given map on which the statement depends, directly or through earlier statements, with
        the margin that the statement needs around a cell, or None if it needs the full map.
    options : str
        The flags of an r.stats statement, as letters.
    inputs : tuple of str
        The names of the maps in `input=`, in the same order.
    after : tuple of int
        The categories in `after=`.
    labels : dict of int to str
        The labels in the statement's rules, by category.
    text : str
        The lines of the statement. An r.reclass statement includes all lines up to the next
        statement.
    """

    line: int
    command: str
    made: str
    reads: dict[str, Margin]
    needs: dict[str, Optional[Margin]]
    options: str = ""
    inputs: tuple[str, ...] = ()
    after: tuple[int, ...] = ()
    labels: Mapping[int, str] = field(default_factory=dict)
    text: str = ""


@dataclass(frozen=True)
class JoinFrame:
    """The numbers that the patches of tiles have in the full map.

    Attributes
    ----------
    patches : int
        The number of patches in the full map.
    runs : memoryview
        Four unsigned 64-bit integers for each run of patches that have consecutive numbers both in
        a tile and in the full map: the tile, counted from 1; the first and the last number in the
        tile; and the number of the first patch in the full map.
    """

    patches: int
    runs: memoryview


@dataclass(frozen=True)
class JoinedPatchesFrame:
    """The joined measures of the patches of tiles.

    Attributes
    ----------
    rows : memoryview
        For each patch of the full map that has a part in the request, its number in the full map as
        u64, and `PATCH_BYTES` bytes as in `PatchesFrame`. Patches are in ascending order.
    """

    rows: memoryview


@dataclass(frozen=True)
class PatchSumsFrame:
    """The sums of tables by the numbers of patches in the full map.

    Attributes
    ----------
    maps : int
        The number of maps of each table.
    numbers : memoryview
        The number of each entry's patch in the full map as u64, or 0 outside patches, in ascending
        order.
    counts : memoryview
        The number of cells of each entry as u64.
    cells : memoryview
        The cells of each entry in the other maps as i32.
    """

    maps: int
    numbers: memoryview
    counts: memoryview
    cells: memoryview


Frame = Union[TableFrame, GridFrame, PatchesFrame, NumbersFrame, BorderFrame]
AnyFrame = Union[Frame, Statement, JoinFrame, JoinedPatchesFrame, PatchSumsFrame]


class Done(NamedTuple):
    """The final status of the program, and its error, as described in `protocol.Rejected`."""

    status: int
    source: str
    map: int
    line: int
    column: int
    text: str


class _NotUnderstood(Exception):
    """Raised if a response ends early or does not have the expected format."""


class _Response:
    """Reads the program's response.

    Memory is allocated only for data that has arrived, not for announced lengths.
    """

    def __init__(
        self, pieces: Iterator[bytes], fill: Optional[Callable[[memoryview], int]] = None
    ) -> None:
        self._pieces = pieces
        self._fill = fill
        self._held = memoryview(b"")

    def _next(self) -> bytes:
        for piece in self._pieces:
            return piece
        raise _NotUnderstood

    def take(self, count: int) -> bytearray:
        taken = bytearray()
        while len(taken) < count:
            if not self._held:
                self._held = memoryview(self._next())
            part = self._held[: count - len(taken)]
            taken += part
            self._held = self._held[len(part) :]
        return taken

    def numbers(self, count: int) -> tuple[int, ...]:
        return struct.unpack(f"<{count}Q", self.take(8 * count))

    def count(self) -> int:
        return self.numbers(1)[0]

    def text(self) -> bytearray:
        return self.take(self.count())

    def name(self) -> str:
        return self.text().decode("utf-8", "surrogateescape")

    def names(self, count: int) -> tuple[str, ...]:
        return tuple(self.name() for _ in range(count))

    def cells(self, count: int, letter: str) -> memoryview:
        """Read `count` numbers of a `struct` type.

        Long arrays are read directly into their own memory.
        """
        size = count * struct.calcsize(letter)
        if self._fill is None or not DIRECT_BYTES <= size <= MOST_CELL_BYTES:
            return memoryview(self.take(size)).cast(letter)
        import numpy as np  # Texts need only the standard library.

        room = np.empty(size, np.uint8).data  # allocated as it is written
        held = self._held[:size]
        room[: len(held)] = held
        self._held = self._held[len(held) :]
        if self._fill(room[len(held) :]) < size - len(held):
            raise _NotUnderstood
        return room.cast(letter)

    def table(self) -> TableFrame:
        """Read the frame of an r.stats statement."""
        line, entries, width = self.numbers(3)
        counts, labels, separator = self.take(3)
        return TableFrame(
            line=line,
            separator=bytes([separator]),
            null_text=bytes(self.text()),
            names=self.names(width),
            entries=entries,
            counts=self.cells(entries, "Q") if counts else None,
            cells=self.cells(entries * width, "i"),
            labels=[bytes(self.text()) for _ in range(entries * width)] if labels else None,
        )

    def grid(self) -> GridFrame:
        """Read the frame of an r.out.ascii statement."""
        line = self.count()
        null_text = bytes(self.text())
        name = self.name()
        edges = self.names(4)
        return GridFrame(line, name, null_text, edges, *self.map_cells())

    def map_cells(self) -> tuple[int, int, str, memoryview]:
        """Read the rows and columns of a map, and the type and values of its cells."""
        rows, cols = self.numbers(2)
        kinds = {1: ("u8", "B"), 6: ("i32", "i")}
        kind, letter = kinds.get(self.take(1)[0]) or self.unknown()
        return rows, cols, kind, self.cells(rows * cols, letter)

    def patch_numbers(self) -> NumbersFrame:
        return NumbersFrame(self.count(), *self.map_cells())

    def border(self) -> BorderFrame:
        question, head = self.count(), self.take(BORDER_HEAD_BYTES + 8)
        rows, cols = struct.unpack_from("<2I", head, BORDER_HEAD_BYTES)
        lines = self.take(4 * (4 * cols + 5 * rows))  # pairs of rows and columns, and the counts
        return BorderFrame(question, memoryview(head + lines))

    def patches(self) -> PatchesFrame:
        question = self.count()
        *_, has_zones = self.take(6)  # after connectivity and depth, which are known
        row_bytes = PATCH_BYTES + (ZONE_BYTES if has_zones else 0)
        return PatchesFrame(question, self.cells(row_bytes * self.count(), "B"), bool(has_zones))

    def statement(self) -> Statement:
        """Read the description of a statement in a plan."""
        line, (command, _) = self.count(), self.take(2)
        if not 0 < command <= len(COMMANDS):
            self.unknown()
        return Statement(
            line=line,
            command=COMMANDS[command - 1],
            made=self.name(),
            reads={self.name(): Margin(*self.numbers(4)) for _ in range(self.count())},
            needs={self.name(): self.need() for _ in range(self.count())},
            options=self.options(),
            inputs=self.names(self.count()),
            after=tuple(self.cells(self.count(), "i")),
            labels={self.cells(1, "i")[0]: self.name() for _ in range(self.count())},
        )

    def options(self) -> str:
        """Read a statement's flags, which are stored as bits, and return a string of letters."""
        [bits] = self.take(1)
        flags = ""
        for place, letter in enumerate(_OPTIONS):
            if bits >> place & 1:
                flags += letter
        return flags

    def need(self) -> Optional[Margin]:
        margin = Margin(*self.numbers(4))
        return None if self.take(1)[0] else margin

    def unknown(self) -> NoReturn:
        raise _NotUnderstood

    def join(self) -> JoinFrame:
        """Read the frame of a join request."""
        patches, runs = self.numbers(2)
        return JoinFrame(patches, self.cells(_RUN_NUMBERS * runs, "Q"))

    def joined_patches(self) -> JoinedPatchesFrame:
        return JoinedPatchesFrame(self.cells((8 + PATCH_BYTES) * self.count(), "B"))

    def patch_sums(self) -> PatchSumsFrame:
        entries, maps = self.numbers(2)
        numbers, counts = self.cells(entries, "Q"), self.cells(entries, "Q")
        return PatchSumsFrame(maps, numbers, counts, self.cells(entries * (maps - 1), "i"))

    def done(self) -> Done:
        """Read the program's final status and error from the end of the response."""
        status, source, map, line, column = self.numbers(5)
        return Done(
            status,
            _SOURCES.get(source, ""),
            map,
            line,
            column,
            self.text().decode("utf-8", "surrogateescape"),
        )

    def frames(self) -> tuple[list[AnyFrame], Done]:
        """Read the complete response and return the frames and the final status."""
        frames: list[AnyFrame] = []
        kinds: dict[bytes, Callable[[], AnyFrame]] = {
            b"TABL": self.table,
            b"CELL": self.table,
            b"GRID": self.grid,
            b"NUMB": self.patch_numbers,
            b"BORD": self.border,
            b"PTCH": self.patches,
            b"PLAN": self.statement,
            b"JOIN": self.join,
            b"PATS": self.joined_patches,
            b"PSUM": self.patch_sums,
        }
        if self.take(8) != b"RCELLA1\n":
            raise _NotUnderstood
        while (kind := bytes(self.take(4))) != b"DONE":
            frames.append(kinds.get(kind, self.unknown)())
        end = self.done()
        if self._held or any(self._pieces):
            raise _NotUnderstood
        return frames, end


def response_of(
    pieces: Iterator[bytes], fill: Optional[Callable[[memoryview], int]] = None
) -> Optional[tuple[list[AnyFrame], Done]]:
    """Read all pieces and return the response, or None if the format is not understood.

    Long arrays of cells are read with `fill`, if it is given.
    """
    try:
        return _Response(pieces, fill).frames()
    except _NotUnderstood:
        for _ in pieces:
            pass
        return None
