#!/usr/bin/env python3
"""Send join requests to rcell-pipe, and compare each response with a plain model of docs/pipe.md.

    test_join.py [--program PROGRAM] [--runs N] [--seed N]

- worked examples: patches that meet along seams, at the corner of four tiles, and around a tile;
  tables
- each error by name, and damaged borders
- N random maps, cut at random: the numbers and the joined measures must equal the numbers and the
  measures of the full map's patches, also if closed patches are not joined
- N random lists of tables, and of tables whose first column is a patch; some requests are damaged

The last line is 'N passed, M failed'.
"""
from __future__ import annotations

import argparse
import functools
import itertools
import operator
import os
import random
import struct
import subprocess
import sys
from dataclasses import dataclass, replace
from typing import Callable, Iterator, Optional, Sequence, Union

import patch_model
from fuzz import damaged_bytes
from joined_patches import JOINED, TWO_PARTS, Joined, Part, Patches
from joined_patches import KIND as PATCHES
from joined_patches import (
    add,
    full_map_number,
    is_next_run,
    is_patch,
    joined_patches,
    named_patch_errors,
    parts_of_tile,
    randomly_changed_patches,
)
from patch_model import Cells, patch_numbers
from patch_tables import KIND as PATCH_TABLES
from patch_tables import (
    MOST_TABLES,
    SUMS_OF_TWO_TILES,
    TWO_TILES,
    PatchTables,
    Sum,
    Table,
    named_patch_table_errors,
    number_of,
    patch_sums,
    randomly_changed_tables,
)
from pipe_model import NULL, border
from test_plan import BadRequest, Done, Reader

MAGIC = b"RCELLJ1\n"
TABLES = (
    1  # the kind of a request with tables; the kind of a request with borders is a connectivity
)
CORNERS = {4: False, 8: True}  # whether patches continue across corners, by connectivity
MOST_SIDE, MOST_TILES = 65_535, 2**32 - 1
MOST_WIDTH, MOST_CELLS = 16, 2**64 - 1
MODELLED_PATCHES = 100_000  # a damaged request may announce more than the model can list
SECONDS = 60

Cell = Optional[int]
Line = tuple[Cell, ...]
Side = tuple[Line, Line]  # cells, and the numbers of their patches
Run = tuple[int, ...]  # the tile, the first and last number in it, the number in the full map
Numbering = tuple[int, list[Run]]  # the number of patches, and the runs
Patch = tuple[int, int, int, int]  # tile row, row in the tile, tile column, number: in map order
Mark = Optional[tuple[int, Patch]]  # the category of a cell, and its patch
Entry = tuple[Line, int]  # a combination and its count


# Requests


@dataclass(frozen=True)
class Border:
    """The first row, last row, first column and last column of a tile, the number of patches that
    begin in each row, the connectivity, and the tile's first row and column in the full map."""

    sides: tuple[Side, ...]
    begun: tuple[int, ...]
    connectivity: int
    row: int
    col: int

    @property
    def rows(self) -> int:
        return len(self.begun)

    @property
    def cols(self) -> int:
        return len(self.sides[0][0])

    def data(self) -> bytes:
        cells = [
            NULL if cell is None else cell for side in self.sides for line in side for cell in line
        ]
        begun = struct.pack(f"<{self.rows}I", *self.begun)
        head = self.connectivity, self.row, self.col, self.rows, self.cols
        return struct.pack(f"<B2Q2I{len(cells)}i", *head, *cells) + begun

    def patches(self) -> Iterator[tuple[int, int]]:
        """Yield the row in which each patch begins, and its number."""
        rows = (row for row, count in enumerate(self.begun) for _ in range(count))
        return zip(rows, itertools.count(1))


@dataclass(frozen=True)
class Tiles:
    """A join request: the connectivity, and rows of tiles."""

    connectivity: int
    grid: tuple[tuple[Border, ...], ...]

    def data(self) -> bytes:
        head = MAGIC + struct.pack("<BII", self.connectivity, len(self.grid), len(self.grid[0]))
        return head + b"".join(tile.data() for row in self.grid for tile in row)

    def patches(self) -> list[list[Patch]]:
        """Return the patches of each tile."""
        return [
            [(at, row, col, number) for row, number in tile.patches()]
            for at, line in enumerate(self.grid)
            for col, tile in enumerate(line)
        ]


@dataclass(frozen=True)
class Tables:
    """A join request: the number of maps, and tables over these maps."""

    width: int
    tables: tuple[tuple[Entry, ...], ...]

    def data(self) -> bytes:
        out = MAGIC + struct.pack("<BBI", TABLES, self.width, len(self.tables))
        for table in self.tables:
            cells = [NULL if cell is None else cell for line, _ in table for cell in line]
            out += struct.pack(f"<Q{len(table)}Q", len(table), *(count for _, count in table))
            out += struct.pack(f"<{len(cells)}i", *cells)
        return out


def border_of(cells: Cells, connectivity: int, row: int, col: int) -> Border:
    own = list(map(list, cells))
    data = border(own, patch_numbers(own, connectivity), connectivity, row, col)
    return JoinReader(data).tile(connectivity, (row, col), (None, None))


@dataclass(frozen=True)
class Cut:
    """A map, and the first rows and columns of its tiles."""

    cells: Cells
    tops: list[int]
    lefts: list[int]
    connectivity: int

    def rows(self) -> list[list[tuple[slice, slice]]]:
        """Return the rows and columns of each tile, for each row of tiles."""
        rows = itertools.pairwise([*self.tops, len(self.cells)])
        cols = list(itertools.pairwise([*self.lefts, len(self.cells[0])]))
        return [[(slice(*span), slice(*other)) for other in cols] for span in rows]

    def request(self) -> Tiles:
        return Tiles(
            self.connectivity,
            tuple(tuple(self.border_at(*place) for place in row) for row in self.rows()),
        )

    def border_at(self, rows: slice, cols: slice) -> Border:
        own = part(self.cells, rows, cols)
        return border_of(own, self.connectivity, rows.start, cols.start)

    def numbering(self) -> Numbering:
        """Return the numbering, by numbering the patches of the full map and of each tile."""
        full, runs = patch_numbers(self.cells, self.connectivity), list[Run]()
        for tile, place in enumerate(itertools.chain(*self.rows()), 1):
            own = patch_numbers(part(self.cells, *place), self.connectivity)
            pairs = set(zip(itertools.chain(*own), itertools.chain(*part(full, *place))))
            runs += runs_of(tile, [number for one, number in sorted(pairs - {(None, None)})])
        return max(filter(None, itertools.chain(*full)), default=0), runs

    def patches(self, depth: int) -> Patches:
        """Return the request that joins the patches of the tiles."""
        parts = list[Part]()
        for tile, place in enumerate(itertools.chain(*self.rows()), 1):
            numbers = patch_numbers(part(self.cells, *place), self.connectivity)
            parts += parts_of_tile(self.cells, numbers, tile, place, depth)
        return Patches(tuple(self.numbering()[1]), tuple(parts))

    def is_closed(self, one: Part) -> bool:
        """Return whether a patch has no cell in the first or last row or column of its tile."""
        rows, cols = list(itertools.chain(*self.rows()))[one.tile - 1]
        patch = one.patch
        is_inside_rows = rows.start < patch.first_row and patch.last_row + 1 < rows.stop
        return is_inside_rows and cols.start < patch.first_col and patch.last_col + 1 < cols.stop

    def full_map_patches(self, depth: int) -> Joined:
        """Return the patches of the full map."""
        return list(enumerate(patch_model.patches(self.cells, self.connectivity, depth), 1))


def in_place(tiles: Tiles) -> Tiles:
    """Return tiles whose connectivity and positions are those that the request expects."""
    rows = itertools.accumulate((line[0].rows for line in tiles.grid), initial=0)
    grid = (
        tuple(
            replace(tile, connectivity=tiles.connectivity, row=row, col=col)
            for tile, col in zip(line, itertools.accumulate((it.cols for it in line), initial=0))
        )
        for row, line in zip(rows, tiles.grid)
    )
    return replace(tiles, grid=tuple(grid))


def part(cells: Cells, rows: slice, cols: slice) -> Cells:
    return [row[cols] for row in cells[rows]]


# The model


def runs_of(tile: int, numbers: Sequence[int]) -> Iterator[Run]:
    """Yield the longest runs of a tile's patches that have consecutive numbers in the full map."""
    begin = 0
    for end in range(1, len(numbers) + 1):
        if end == len(numbers) or numbers[end] != numbers[end - 1] + 1:
            yield tile, begin + 1, end, numbers[begin]
            begin = end


def is_side(patches: int, side: Side) -> bool:
    """Return whether cells and numbers match. Adjacent cells are in one patch if and only if they
    have one category."""
    cells = list(zip(*side))
    return all(
        number is None if cell is None else number is not None and 1 <= number <= patches
        for cell, number in cells
    ) and all(
        (cell == other) == (number == other_number)
        for (cell, number), (other, other_number) in itertools.pairwise(cells)
    )


def is_border(tile: Border) -> bool:
    """Return whether each side is possible, and the sides agree about the corners."""
    rows, cols = ([list(zip(*side)) for side in pair] for pair in (tile.sides[:2], tile.sides[2:]))
    return all(is_side(sum(tile.begun), side) for side in tile.sides) and all(
        rows[i][-j] == cols[j][-i] for i in (0, 1) for j in (0, 1)
    )


def marks(tiles: Tiles, row: int, col: int, side: int) -> list[Mark]:
    tile = tiles.grid[row][col]
    begins = {number: begin for begin, number in tile.patches()}
    return [
        None if cell is None or number is None else (cell, (row, begins[number], col, number))
        for cell, number in zip(*tile.sides[side])
    ]


def seams(tiles: Tiles) -> Iterator[tuple[list[Mark], list[Mark]]]:
    """Yield the cells on both sides of each seam: of two tiles of a row, and of two rows of tiles."""
    rows, cols = range(len(tiles.grid)), range(len(tiles.grid[0]))
    for row, col in itertools.product(rows, cols[1:]):
        yield marks(tiles, row, col - 1, 3), marks(tiles, row, col, 2)
    for row in rows[1:]:
        yield (
            [mark for col in cols for mark in marks(tiles, row - 1, col, 1)],
            [mark for col in cols for mark in marks(tiles, row, col, 0)],
        )


def joined(tiles: Tiles) -> Numbering:
    """Return the numbering of the tiles' patches, which continue where they meet along a seam."""
    patches = tiles.patches()
    met: dict[Patch, list[Patch]] = {patch: [] for tile in patches for patch in tile}
    reach = int(CORNERS[tiles.connectivity])  # cells to both sides that a cell also touches
    for one, other in seams(tiles):
        for at, mark in enumerate(other):
            for beyond in one[max(at - reach, 0) : at + reach + 1]:
                if mark and beyond and mark[0] == beyond[0]:
                    met[mark[1]].append(beyond[1])
                    met[beyond[1]].append(mark[1])
    numbers, count = dict[Patch, int](), 0
    for first in sorted(met):
        count += first not in numbers
        to_visit = [] if first in numbers else [first]
        while to_visit:
            patch = to_visit.pop()
            numbers[patch] = count
            to_visit += [near for near in met[patch] if near not in numbers]
    runs = (runs_of(at, [numbers[it] for it in tile]) for at, tile in enumerate(patches, 1))
    return count, list(itertools.chain(*runs))


def summed(tables: Tables) -> list[Entry]:
    """Return each combination once, in order and with null last, with the sum of its counts."""
    sums: dict[Line, int] = {}
    for line, count in itertools.chain(*tables.tables):
        sums[line] = sums.get(line, 0) + count
    return sorted(sums.items(), key=lambda it: [(cell is None, cell or 0) for cell in it[0]])


Request = Union[Tiles, Tables, Patches, PatchTables]


class JoinReader(Reader):
    """Reads a join request. `complete` counts the complete tiles or tables."""

    complete = 0

    def need(self, is_so: bool, text: bytes) -> None:
        if not is_so:
            raise BadRequest(text)

    def line(self, count: int) -> Line:
        cells = struct.unpack(f"<{count}i", self.take(4 * count))
        return tuple(None if cell == NULL else cell for cell in cells)

    def tile(
        self,
        connectivity: int,
        place: tuple[int, int],
        size: tuple[Optional[int], Optional[int]],
    ) -> Border:
        """Read a tile with this connectivity, first row and column, and numbers of rows and columns
        if they are given."""
        self.need(self.number("B") == connectivity, b"other connectivity")
        self.need((self.number("Q"), self.number("Q")) == place, b"other place")
        rows, cols = size
        own_rows, own_cols = self.number("I"), self.number("I")
        self.need(1 <= own_rows <= MOST_SIDE and 1 <= own_cols <= MOST_SIDE, b"bad size")
        self.need(rows in (None, own_rows) and cols in (None, own_cols), b"other size")
        lengths = own_cols, own_cols, own_rows, own_rows
        sides = tuple((self.line(length), self.line(length)) for length in lengths)
        begun = struct.unpack(f"<{own_rows}I", self.take(4 * own_rows))
        tile = Border(sides, begun, connectivity, *place)
        self.need(is_border(tile), b"bad border")
        self.complete += 1
        return tile

    def request(self) -> Request:
        self.need(self.take(len(MAGIC)) == MAGIC, b"bad magic")
        kind = self.number("B")
        readers: dict[int, Callable[[], Request]] = {
            TABLES: self.tables,
            PATCHES: self.patches,
            PATCH_TABLES: self.patch_tables,
            **{it: functools.partial(self.tiles, it) for it in CORNERS},
        }
        self.need(kind in readers, b"bad kind")
        request = readers[kind]()
        self.need(self.at == len(self.data), b"bytes after the request")
        return request

    def tables(self) -> Tables:
        width = self.number("B")
        self.need(1 <= width <= MOST_WIDTH, b"bad width")
        count, cells, found = self.number("I"), 0, list[tuple[Entry, ...]]()
        self.need(count > 0, b"bad number of tables")
        for self.complete in range(count):
            found.append(self.entries(width, cells))
            cells += sum(one for _, one in found[-1])
        self.complete = count
        return Tables(width, tuple(found))

    def entries(self, width: int, cells: int) -> tuple[Entry, ...]:
        """Read a table. The tables before it have this number of cells."""
        counts = list[int]()
        for _ in range(self.number("Q")):
            counts.append(self.number("Q"))
            self.need(counts[-1] > 0, b"bad count")
        self.need(cells + sum(counts) <= MOST_CELLS, b"too many cells")
        return tuple((self.line(width), one) for one in counts)

    def patch_tables(self) -> PatchTables:
        runs, cells, found = self.runs(), 0, list[Table]()
        self.complete = 1
        width = self.number("B")
        self.need(1 <= width <= MOST_WIDTH, b"bad width")
        count = self.number("I")
        self.need(1 <= count <= MOST_TABLES, b"bad number of tables")
        for self.complete in range(1, count + 1):
            tile, table = self.number("Q"), self.entries(width, cells)
            numbers = [number_of(runs, tile, line[0]) for line, _ in table]
            self.need(None not in numbers, b"unknown patch")
            found.append((tile, table))
            cells += sum(one for _, one in table)
        self.complete = count + 1
        return PatchTables(runs, width, tuple(found))

    def patch(self) -> patch_model.Patch:
        """Read the measures of a patch. Its class and counts come before its rows and columns."""
        counts = struct.unpack("<i4Q", self.take(36))
        self.need(is_patch(patch_model.Patch(*counts, 0, 0, 0, 0)), b"bad patch")
        rows = struct.unpack("<2Q", self.take(16))
        self.need(is_patch(patch_model.Patch(*counts, *rows, 0, 0)), b"bad patch")
        patch = patch_model.Patch(*counts, *rows, *struct.unpack("<2Q", self.take(16)))
        self.need(is_patch(patch), b"bad patch")
        return patch

    def runs(self) -> tuple[Run, ...]:
        runs = list[Run]()
        for _ in range(self.number("Q")):
            run = struct.unpack("<4Q", self.take(32))
            self.need(is_next_run(runs, run), b"bad run")
            runs.append(run)
        return tuple(runs)

    def patches(self) -> Patches:
        runs, parts, found = self.runs(), list[Part](), dict[int, patch_model.Patch]()
        self.complete = 1
        for _ in range(self.number("Q")):
            tile, number = struct.unpack("<2Q", self.take(16))
            self.need(not parts or parts[-1][:2] < (tile, number), b"patch order")
            full = full_map_number(runs, tile, number)
            self.need(full is not None, b"unknown patch")
            parts.append(Part(tile, number, self.patch()))
            fault = add(found, full or 0, parts[-1].patch)
            self.need(not fault, fault)
        self.complete = 2
        return Patches(runs, tuple(parts))

    def tiles(self, connectivity: int) -> Tiles:
        rows, cols = self.number("I"), self.number("I")
        self.need(1 <= rows * cols <= MOST_TILES, b"bad number of tiles")
        grid: list[tuple[Border, ...]] = []
        top = 0
        for _ in range(rows):
            line: list[Border] = []
            left = 0
            for col in range(cols):
                size = line[0].rows if line else None, grid[-1][col].cols if grid else None
                line.append(self.tile(connectivity, (top, left), size))
                left += line[-1].cols
            grid.append(tuple(line))
            top += line[0].rows
        return Tiles(connectivity, tuple(grid))


Found = Union[None, Numbering, list[Entry], list[Sum], Joined]
Response = tuple[Found, Done]


def expected(data: bytes) -> Optional[Response]:
    """Return the expected response, or None if there are too many patches to list."""
    reader = JoinReader(data)
    try:
        request = reader.request()
    except BadRequest as fault:
        return None, Done(1, 1, reader.complete, 0, 0, fault.text)
    if isinstance(request, Tables):
        return summed(request), Done()
    if isinstance(request, Patches):
        return joined_patches(request), Done()
    if isinstance(request, PatchTables):
        return patch_sums(request), Done()
    if sum(sum(tile.begun) for row in request.grid for tile in row) > MODELLED_PATCHES:
        return None
    return joined(request), Done()


class ResponseReader(JoinReader):
    def numbering(self) -> Numbering:
        patches, runs = self.number("Q"), self.number("Q")
        return patches, [struct.unpack("<4Q", self.take(32)) for _ in range(runs)]

    def sums(self) -> list[Entry]:
        entries, width = self.number("Q"), self.number("Q")
        counts = [self.number("Q") for _ in range(entries)]
        return [(self.line(width), count) for count in counts]

    def patch_sums(self) -> list[Sum]:
        entries, width = self.number("Q"), self.number("Q")
        numbers, counts = (struct.unpack(f"<{entries}Q", self.take(8 * entries)) for _ in range(2))
        return [(number, self.line(width - 1), one) for number, one in zip(numbers, counts)]

    def joined(self) -> Joined:
        fields = (struct.unpack("<Qi8Q", self.take(76)) for _ in range(self.number("Q")))
        return [(number, patch_model.Patch(*patch)) for number, *patch in fields]

    def response(self) -> Response:
        if self.take(8) != b"RCELLA1\n":
            raise ValueError("not a response")
        readers: dict[bytes, Callable[[], Found]] = {
            b"JOIN": self.numbering,
            b"SUMS": self.sums,
            b"PATS": self.joined,
            b"PSUM": self.patch_sums,
        }
        found: Found = None
        kind = self.take(4)
        if kind in readers:
            found = readers[kind]()
            kind = self.take(4)
        if kind != b"DONE":
            raise ValueError(f"no frame of a join: {kind!r}")
        done = Done(*(self.number("Q") for _ in range(5)), self.take(self.number("Q")))
        if self.at < len(self.data):
            raise ValueError("bytes after the response")
        return found, done


# Requests to try


def cut_of(text: str, tops: list[int], lefts: list[int], connectivity: int = 4) -> Cut:
    """Return a map that is given as rows of digits, with `.` for null."""
    cells = [[None if it == "." else int(it) for it in row] for row in text.split()]
    return Cut(cells, tops, lefts, connectivity)


# Each map, and its numbering, computed by hand.
EXAMPLES: dict[str, tuple[Cut, Numbering]] = {
    "a patch across a seam": (
        cut_of("899.", [0], [0, 2]),
        (2, [(1, 1, 2, 1), (2, 1, 1, 2)]),
    ),
    "patches in the order of the full map": (
        cut_of("1234 5634", [0], [0, 2]),
        (6, [(1, 1, 2, 1), (1, 3, 4, 5), (2, 1, 2, 3)]),
    ),
    "the corner of four tiles, by corners": (
        cut_of("12 21", [0, 1], [0, 1], 8),
        (2, [(1, 1, 1, 1), (2, 1, 1, 2), (3, 1, 1, 2), (4, 1, 1, 1)]),
    ),
    "the corner of four tiles, by edges": (
        cut_of("12 21", [0, 1], [0, 1]),
        (4, [(1, 1, 1, 1), (2, 1, 1, 2), (3, 1, 1, 3), (4, 1, 1, 4)]),
    ),
    "two patches of a tile meet outside": (
        cut_of("121 111", [0, 1], [0]),
        (2, [(1, 1, 2, 1), (1, 3, 3, 1), (2, 1, 1, 1)]),
    ),
    "a tile of null": (cut_of("1. 1.", [0], [0, 1]), (1, [(1, 1, 1, 1)])),
    "nothing": (cut_of("..", [0], [0, 1]), (0, [])),
}
GOOD = cut_of("1122. 13224 13.44", [0, 2], [0, 2, 4], 8).request()
TWO_TABLES = Tables(
    2, ((((7, None), 5), ((-3, 2), 1)), (), (((None, -9), 2), ((7, None), 2**40), ((7, -1), 3)))
)
SUMS = [((-3, 2), 1), ((7, -1), 3), ((7, None), 2**40 + 5), ((None, -9), 2)]


def changed(tile: Border, side: int, line: int, at: int, value: Cell) -> Border:
    """Return a border with another cell (line 0) or number (line 1) at a place of a side."""
    lines = list(tile.sides[side])
    lines[line] = (*lines[line][:at], value, *lines[line][at + 1 :])
    return replace(tile, sides=(*tile.sides[:side], (lines[0], lines[1]), *tile.sides[side + 1 :]))


def named_errors() -> Iterator[tuple[str, bytes]]:
    """Yield requests with each error, and the error's text."""
    data, tile = GOOD.data(), GOOD.grid[0][0]
    yield "bad magic", b"RCELLJ2" + data[7:]
    for kind in (0, 5, 6, 7, 9, 255):  # kind 1 is followed by tables, and kinds 2 and 3 by runs
        yield "bad kind", MAGIC + bytes([kind]) + data[9:]
    for sizes in ((0, 1), (1, 0), (0, 0), (2**16, 2**16), (2**32 - 1, 2**32 - 1)):
        yield "bad number of tiles", MAGIC + struct.pack("<BII", 4, *sizes) + data[17:]
    for sizes in ((0, 1), (1, 0), (MOST_SIDE + 1, 1), (1, 2**32 - 1)):
        yield "bad size", one_tile(4, 0, 0, *sizes)
    yield from named_place_errors()
    wide, high = (cut_of(text, [0], [0]).request().grid[0][0] for text in ("111", "1 1"))
    one = cut_of("1", [0], [0]).request().grid[0][0]
    yield "other size", in_place(Tiles(4, ((one, high),))).data()
    yield "other size", in_place(Tiles(4, ((one,), (wide,)))).data()
    yield "bytes after the request", data + b"\0"
    yield "bytes after the request", data + data
    yield "request too short", data[:-1]
    yield "request too short", MAGIC + struct.pack("<BII", 8, 1, MOST_TILES)
    for bad in spoiled(tile):
        yield "bad border", Tiles(8, ((bad,),)).data()
        yield "bad border", in_place(Tiles(8, ((tile, bad),))).data()


def one_tile(*head: int) -> bytes:
    """Return a request of connectivity 4 for one tile with this connectivity, first row and column,
    and numbers of rows and columns."""
    return MAGIC + struct.pack("<BII", 4, 1, 1) + struct.pack("<B2Q2I", *head) + bytes(10**6)


def named_place_errors() -> Iterator[tuple[str, bytes]]:
    """Yield requests of tiles with another connectivity or in another place."""
    for connectivity in (0, 1, 5, 8, 12, 255):
        yield "other connectivity", one_tile(connectivity, 7, 7, 0, 0)
    for place in ((0, 1), (1, 0), (2**32, 0), (0, 2**63)):
        yield "other place", one_tile(4, *place, 0, 0)
    tiles = cut_of("1122 1122 3344 3344 5566", [0, 2, 4], [0, 2]).request()
    by_corners = in_place(replace(tiles, connectivity=8))
    yield "other connectivity", replace(tiles, connectivity=8).data()
    yield "other connectivity", with_tile(tiles, 1, 1, by_corners.grid[1][1]).data()
    top, middle, low = tiles.grid
    # Rows of tiles, columns of tiles or two tiles of one size are swapped, or a tile is repeated.
    yield "other place", replace(tiles, grid=(middle, top, low)).data()
    yield "other place", replace(tiles, grid=tuple(line[::-1] for line in tiles.grid)).data()
    yield "other place", replace(tiles, grid=tuple(zip(top, middle))).data()
    yield "other place", with_tile(tiles, 1, 0, top[0]).data()
    yield "other place", with_tile(tiles, 1, 1, middle[0]).data()
    for row, tile in enumerate(line[1] for line in tiles.grid):
        for by in (-1, 1):
            yield "other place", with_tile(tiles, row, 1, replace(tile, col=tile.col + by)).data()
            if row:
                moved = replace(tile, row=tile.row + by)
                yield "other place", with_tile(tiles, row, 1, moved).data()


def with_tile(tiles: Tiles, row: int, col: int, tile: Border) -> Tiles:
    line = tiles.grid[row]
    line = (*line[:col], tile, *line[col + 1 :])
    return replace(tiles, grid=(*tiles.grid[:row], line, *tiles.grid[row + 1 :]))


def named_table_errors() -> Iterator[tuple[str, bytes]]:
    """Yield requests of tables with each error, and the error's text."""
    data = TWO_TABLES.data()
    for width in (0, MOST_WIDTH + 1, 255):
        yield "bad width", MAGIC + bytes([TABLES, width]) + data[10:]
    yield "bad number of tables", MAGIC + struct.pack("<BBI", TABLES, 1, 0)
    yield "bad count", Tables(1, ((((4,), 1),), (((4,), 1), ((5,), 0)))).data()
    for tables in ((((4,), 2**63), ((5,), 2**63)),), ((((4,), 2**64 - 1),), (((4,), 1),)):
        yield "too many cells", Tables(1, tables).data()
    yield "request too short", MAGIC + struct.pack("<BBI", TABLES, 1, 2**32 - 1)
    yield "request too short", MAGIC + struct.pack("<BBIQ", TABLES, 16, 1, 2**64 - 1)
    yield "bytes after the request", data + b"\0"


def spoiled(tile: Border) -> Iterator[Border]:
    """Yield borders that cannot be a tile's."""
    for side, (cells, _) in enumerate(tile.sides):
        for at, cell in enumerate(cells):
            other = 7 if cell is None else None  # null, if the cell has a category
            yield changed(tile, side, 0, at, other)
            for number in (0, -1, sum(tile.begun) + 1, 2**31 - 1, other):
                yield changed(tile, side, 1, at, number)
        for at in (0, len(cells) - 1):  # the other side keeps the cell of the corner
            yield changed(tile, side, 0, at, (cells[at] or 0) + 1)
    yield replace(tile, begun=(0,) * tile.rows)


def randomly_changed(chance: random.Random, tiles: Tiles) -> Tiles:
    """Return tiles of which one has another cell, number or count."""
    row, col = chance.randrange(len(tiles.grid)), chance.randrange(len(tiles.grid[0]))
    tile = tiles.grid[row][col]
    side, value = chance.randrange(len(tile.sides)), chance.choice([None, 1, 2, 3, 4])
    at = chance.randrange(len(tile.sides[side][0]))
    tile = changed(tile, side, chance.randrange(2), at, value)
    if chance.random() < 0.2:
        at = chance.randrange(tile.rows)
        tile = replace(tile, begun=(*tile.begun[:at], chance.randrange(4), *tile.begun[at + 1 :]))
    return with_tile(tiles, row, col, tile)


def random_cut(chance: random.Random) -> Cut:
    rows, cols = chance.randint(1, 14), chance.randint(1, 14)
    categories = chance.choice([[1, 2], [1, 1, 2, None], [1, 2, 3, -7, None], [5, None]])
    cells = [[chance.choice(categories) for _ in range(cols)] for _ in range(rows)]
    if chance.random() < 0.3:  # longer patches
        for row, above in zip(cells[1:], cells):
            row[:] = [old if chance.random() < 0.7 else new for old, new in zip(above, row)]
    tops, lefts = (
        [0, *sorted(chance.sample(range(1, length), chance.randint(0, min(length - 1, 4))))]
        for length in (rows, cols)
    )
    return Cut(cells, tops, lefts, chance.choice([4, 8]))


def random_tables(chance: random.Random) -> Tables:
    width, greatest = chance.randint(1, MOST_WIDTH), chance.choice([1, 9, 2**31 - 1])
    if chance.random() < 0.7:
        width = chance.randint(1, 3)

    def entry() -> Entry:
        cells = (chance.randint(-greatest, greatest) for _ in range(width))
        line = tuple(None if chance.random() < 0.2 else cell for cell in cells)
        return line, chance.choice([1, 7, chance.randint(1, 2**55)])

    sizes = (chance.randint(0, 30) for _ in range(chance.randint(1, 6)))
    return Tables(width, tuple(tuple(entry() for _ in range(size)) for size in sizes))


def random_patch_tables(chance: random.Random, cut: Cut) -> PatchTables:
    """Return tables of the patches of tiles and of other maps."""
    width, others = chance.randint(1, 4), [None, -5, 0, 1, 2, 2**31 - 1]
    tables = list[Table]()
    for tile, place in enumerate(itertools.chain(*cut.rows()), 1):
        counts: dict[Line, int] = {}
        for patch in itertools.chain(*patch_numbers(part(cut.cells, *place), cut.connectivity)):
            line = patch, *(chance.choice(others) for _ in range(width - 1))
            counts[line] = counts.get(line, 0) + chance.choice(
                [1, 1, 9, chance.randint(1, 2**52)]
            )
        tables.append((tile, tuple(chance.sample(list(counts.items()), len(counts)))))
    chance.shuffle(tables)
    return PatchTables(tuple(cut.numbering()[1]), width, tuple(tables))


class Tests:
    """Counts the tests, and prints the errors."""

    def __init__(self, program: str):
        self.program, self.passed, self.failed = program, 0, 0

    def check(self, name: str, wrong: str) -> None:
        self.passed += not wrong
        self.failed += bool(wrong)
        if wrong:
            print(f"{name}: {wrong}")

    def wrong(self, data: bytes) -> str:
        """Return the error in the response to a request, or nothing."""
        if data.startswith(b"RCELLQ1\n") or data.startswith(b"RCELLP1\n"):
            return ""  # the damage made it a request of another kind
        run = subprocess.run(
            [self.program], input=data, stdout=subprocess.PIPE, check=False, timeout=SECONDS
        )
        wanted, given = expected(data), ResponseReader(run.stdout).response()
        if run.returncode != given[1].status or (wanted is not None and given != wanted):
            return f"{data!r}\nexpected {wanted}\nreceived {given} and status {run.returncode}"
        return ""


def check_examples(tests: Tests) -> None:
    for name, (cut, numbering) in EXAMPLES.items():
        tiles = cut.request()
        models = joined(tiles), cut.numbering()
        tests.check(name, "" if models == (numbering,) * 2 else f"the models say {models}")
        tests.check(name, tests.wrong(tiles.data()))
    tests.check("tables", "" if summed(TWO_TABLES) == SUMS else f"the model says {SUMS}")
    for tables in (TWO_TABLES, Tables(16, ((),)), Tables(1, ((((4,), 2**64 - 1),), ()))):
        tests.check("tables", tests.wrong(tables.data()))
    found = joined_patches(TWO_PARTS)
    tests.check("patches", "" if found == JOINED else f"the model says {found}")
    for patches in (TWO_PARTS, Patches(TWO_PARTS.runs, ()), Patches((), ())):
        tests.check("patches", tests.wrong(patches.data()))
    sums = patch_sums(TWO_TILES)
    tests.check("patch tables", "" if sums == SUMS_OF_TWO_TILES else f"the model says {sums}")
    without_entries = replace(TWO_TILES, tables=((2, ()),)), PatchTables((), 16, ((0, ()),))
    for given in (TWO_TILES, *without_entries):
        tests.check("patch tables", tests.wrong(given.data()))


def check_errors(tests: Tests) -> None:
    named = named_errors(), named_table_errors(), named_patch_errors(), named_patch_table_errors()
    for text, data in itertools.chain(*named):
        found = expected(data)
        says = found[1].text.decode() if found else "too many patches"
        tests.check(text, "" if says == text else f"the model says {says} of {data!r}")
        tests.check(text, tests.wrong(data))


def check_random_tables(tests: Tests, chance: random.Random, name: str) -> None:
    """Check the sum of tables. The sums of parts of a list must add up to the sum of the list."""
    tables = random_tables(chance)
    at = chance.randint(0, len(tables.tables))
    parts = (replace(tables, tables=part) for part in (tables.tables[:at], tables.tables[at:]))
    sums = tuple(tuple(summed(part)) for part in parts)
    is_sum = summed(replace(tables, tables=sums)) == summed(tables)
    tests.check(name, "" if is_sum else f"the sums of parts do not add up: {tables}")
    data = tables.data()
    tests.check(name, tests.wrong(damaged_bytes(chance, data) if chance.random() < 0.2 else data))


def check_random_tiles(tests: Tests, chance: random.Random, name: str) -> None:
    cut = random_cut(chance)
    tiles = cut.request()
    models = joined(tiles), cut.numbering()
    tests.check(name, "" if models[0] == models[1] else f"the models say {models} of {cut}")
    kind = chance.random()
    if kind < 0.4:
        tiles = randomly_changed(chance, tiles)
    data = tiles.data()
    tests.check(name, tests.wrong(damaged_bytes(chance, data) if kind > 0.8 else data))


def check_random_patches(tests: Tests, chance: random.Random, name: str) -> None:
    """Check joined patches. The patches of all tiles must give the patches of the full map, and
    closed patches must be patches of the full map."""
    cut, depth = random_cut(chance), chance.randint(1, 3)
    request = cut.patches(depth)
    to_join = replace(request, parts=tuple(it for it in request.parts if not cut.is_closed(it)))
    together = joined_patches(to_join)
    for it in filter(cut.is_closed, request.parts):
        together.append((full_map_number(request.runs, it.tile, it.number) or 0, it.patch))
    together.sort(key=operator.itemgetter(0))
    wanted = cut.full_map_patches(depth)
    for found in (joined_patches(request), together):
        says = f"the models say {found} and {wanted} of {cut}"
        tests.check(name, "" if found == wanted else says)
    tests.check(name, tests.wrong(to_join.data()))
    kind = chance.random()
    if kind < 0.2:
        request = replace(request, parts=tuple(it for it in request.parts if chance.random() < 0.5))
    elif kind < 0.6:
        request = randomly_changed_patches(chance, request)
    data = request.data()
    tests.check(name, tests.wrong(damaged_bytes(chance, data) if kind > 0.8 else data))


def check_random_patch_tables(tests: Tests, chance: random.Random, name: str) -> None:
    """Check the sums of patch tables. They must be the sums of tables with the numbers of the full
    map's patches."""
    cut = random_cut(chance)
    request = random_patch_tables(chance, cut)
    full = (
        tuple(((number_of(request.runs, tile, line[0]), *line[1:]), one) for line, one in table)
        for tile, table in request.tables
    )
    sums = summed(Tables(request.width, tuple(full)))
    wanted = [(line[0] or 0, line[1:], one) for line, one in sums]
    found = patch_sums(request)
    tests.check(name, "" if found == wanted else f"the models say {found} and {wanted} of {cut}")
    kind = chance.random()
    if kind < 0.4:
        request = randomly_changed_tables(chance, request)
    data = request.data()
    tests.check(name, tests.wrong(damaged_bytes(chance, data) if kind > 0.8 else data))


def main() -> int:
    programs = os.environ.get("RCELL_BIN", os.path.abspath(f"{__file__}/../../../bin"))
    parser = argparse.ArgumentParser()
    parser.add_argument("--program", default=f"{programs}/rcell-pipe")
    parser.add_argument("--runs", type=int, default=500)
    parser.add_argument("--seed", type=int, default=1)
    settings = parser.parse_args()
    tests = Tests(settings.program)
    check_examples(tests)
    check_errors(tests)
    chance = random.Random(settings.seed)
    for number in range(settings.runs):
        name = f"random request {number} of seed {settings.seed}"
        check_random_tiles(tests, chance, name)
        check_random_tables(tests, chance, name)
        check_random_patches(tests, chance, name)
        check_random_patch_tables(tests, chance, name)
    print(f"{tests.passed} passed, {tests.failed} failed")
    return tests.failed > 0


if __name__ == "__main__":
    sys.exit(main())
