"""The bytes of `rcell-pipe`, as docs/pipe.md defines them: writes and reads requests, reads
responses, and prints them as `rcell` does."""
from __future__ import annotations

import re
import struct
from dataclasses import dataclass, field
from typing import Any, Callable, Iterable, Optional, Sequence

from model_grids import GridText, Region, Told
from patch_model import Cells, Patch

NULL = -(2**31)
# The letter of `struct`, and the smallest and largest number, by type code.
TYPES = {
    1: ("B", 0, 255),
    2: ("b", -128, 127),
    3: ("H", 0, 65535),
    4: ("h", -32768, 32767),
    5: ("I", 0, 2**32 - 1),
    6: ("i", NULL, 2**31 - 1),
    7: ("q", -(2**63), 2**63 - 1),
}
TEXT_GRID = 8  # the type of a map that is sent as a text
PATCHES, NUMBERS, BORDER = 1, 2, 4  # the kind of a question is the sum of these
NAME = re.compile(rb"[A-Za-z_][A-Za-z0-9_.]{0,63}")
COORDINATE = re.compile(rb"([+-]?)(\d{0,10})(?:\.(\d{0,8}))?")
UNITS = 10**8  # of a coordinate
SIDES = (b"north", b"south", b"east", b"west")
MOST_MAPS, MOST_SIDE, MOST_CELLS, MOST_SCRIPT = 65535, 65535, 2**31 - 1, 1048576

Row = list[int]
Edges = tuple[bytes, bytes, bytes, bytes]
Extent = tuple[Edges, int, int]  # with the numbers of rows and columns


@dataclass
class Raster:
    """A map of a request: its numbers and its mask, row by row. A text grid also has its text; if
    this is None, the rows are written as rcell prints them."""

    name: bytes
    edges: Edges
    type: int
    rows: list[Row]
    nodata: Optional[int] = None
    mask: Optional[list[Row]] = None
    labels: list[tuple[int, bytes]] = field(default_factory=list)
    text: Optional[bytes] = None

    def cells(self) -> list[list[Optional[int]]]:
        """Return the rows as categories and None."""
        masks = self.mask or [[0] * len(row) for row in self.rows]
        return [
            [None if hidden or n == self.nodata else n for n, hidden in zip(row, mask)]
            for row, mask in zip(self.rows, masks)
        ]


@dataclass(frozen=True)
class Question:
    """A question about the patches of a map. Its kind is the sum of the frames that it asks for."""

    map: bytes
    connectivity: int = 4
    depth: int = 1
    zones: bytes = b""
    kind: int = PATCHES

    def data(self) -> bytes:
        numbers = struct.pack("<BI", self.connectivity, self.depth)
        return bytes([self.kind]) + short(self.map) + numbers + short(self.zones)


def short(text: bytes) -> bytes:
    return bytes([len(text)]) + text


@dataclass(frozen=True)
class Place:
    """The size of a full map, the first row and column of a request's maps in it, and the first row
    and column of the tile and its size."""

    full_rows: int
    full_cols: int
    top: int
    left: int
    tile_top: int
    tile_left: int
    tile_rows: int
    tile_cols: int

    def data(self) -> bytes:
        corner = (self.full_rows, self.full_cols, self.top, self.left)
        tile = (self.tile_top, self.tile_left, self.tile_rows, self.tile_cols)
        return struct.pack("<8I", *corner, *tile)

    def is_valid(self, rows: int, cols: int) -> bool:
        """Return whether the place is valid for maps with these numbers of rows and columns."""
        sides = (
            (self.full_rows, self.top, rows, self.tile_top, self.tile_rows),
            (self.full_cols, self.left, cols, self.tile_left, self.tile_cols),
        )
        return all(
            full <= MOST_CELLS
            and tile >= 1
            and first <= tile_first
            and tile_first + tile <= first + size <= full
            for full, first, size, tile_first, tile in sides
        )

    def is_possible(self) -> bool:
        """Return whether the place is valid for maps that end with the full map."""
        return self.is_valid(self.full_rows - self.top, self.full_cols - self.left)


def tile_request(
    place: Place, maps: list[Raster], script: bytes, questions: Sequence[Question] = ()
) -> bytes:
    """Return the bytes of a request for a tile."""
    return b"RCELLW1\n" + place.data() + request(maps, script, questions)[8:]


def request(maps: list[Raster], script: bytes, questions: Sequence[Question] = ()) -> bytes:
    """Return the bytes of a request. The region is the first map's."""
    first = maps[0]
    size = len(first.rows), len(first.rows[0])
    out = b"RCELLQ1\n" + b"".join(map(short, first.edges))
    out += struct.pack("<III", *size, len(maps))
    out += b"".join(map(map_data, maps))
    asked = struct.pack("<I", len(questions)) + b"".join(it.data() for it in questions)
    return out + struct.pack("<I", len(script)) + script + asked


def map_data(it: Raster) -> bytes:
    """Return the bytes of a map in a request."""
    flags, nodata = (it.nodata is not None) + 2 * (it.mask is not None), it.nodata or 0
    if it.type == TEXT_GRID:
        flags = nodata = 0
    out = short(it.name) + struct.pack("<BBqI", it.type, flags, nodata, len(it.labels))
    for category, text in it.labels:
        out += struct.pack("<iH", category, len(text)) + text
    if it.type == TEXT_GRID:
        text = grid_text(it.edges, it.cells()) if it.text is None else it.text
        return out + struct.pack("<Q", len(text)) + text
    for place, row in enumerate(it.rows):
        out += struct.pack(f"<{len(row)}{TYPES[it.type][0]}", *row)
        out += bytes(it.mask[place]) if it.mask is not None else b""
    return out


def border(cells: Cells, numbers: Cells, connectivity: int, row: int, col: int) -> bytes:
    """Return a tile of a join request: its connectivity, its first row and column in the full map,
    its size, its four sides, and the patches that begin in each row."""

    def sides(of: Cells) -> list[list[Optional[int]]]:
        return [of[0], of[-1], [row[0] for row in of], [row[-1] for row in of]]

    out = struct.pack("<B2Q2I", connectivity, row, col, len(cells), len(cells[0]))
    for categories, patches in zip(sides(cells), sides(numbers)):
        values = [NULL if it is None else it for it in (*categories, *patches)]
        out += struct.pack(f"<{len(values)}i", *values)
    begun, before = list[int](), 0
    for row in numbers:
        last = max((it for it in row if it is not None), default=0)
        begun.append(max(last - before, 0))
        before += begun[-1]
    return out + struct.pack(f"<{len(begun)}I", *begun)


class Rejected(Exception):
    """The first error of a request: its text, the number of complete maps before it, and its row,
    its question or its line in a text grid, or 0 if it is in none of them."""

    def __init__(self, text: str, maps: int = 0, row: int = 0):
        super().__init__(text, maps, row)
        self.place = (text.encode(), maps, row)


def units(text: bytes) -> Optional[int]:
    """Return a coordinate in units of 8 decimals, or None if the text is not a coordinate."""
    found = COORDINATE.fullmatch(text)
    if found is None or not (found[2] or found[3]):
        return None
    size = int(found[2] or b"0") * UNITS + int((found[3] or b"").ljust(8, b"0"))
    return -size if found[1] == b"-" else size


class Reader:
    """Reads a request from left to right, up to its first error."""

    def __init__(self, data: bytes):
        self.data, self.at, self.maps, self.row = data, 0, 0, 0
        self.names: set[bytes] = set()

    def need(self, is_so: Any, text: str) -> None:
        if not is_so:
            raise Rejected(text, self.maps, self.row)

    def take(self, count: int) -> bytes:
        self.need(self.at + count <= len(self.data), "request too short")
        self.at += count
        return self.data[self.at - count : self.at]

    def numbers(self, letters: str) -> tuple[int, ...]:
        return struct.unpack(f"<{letters}", self.take(struct.calcsize(f"<{letters}")))

    def number(self, letter: str) -> int:
        return self.numbers(letter)[0]

    def coordinate(self) -> tuple[bytes, int]:
        text = self.take(self.number("B"))
        found = units(text)
        self.need(found is not None, "bad number")
        return text, found or 0

    def region(self) -> Extent:
        (n, north), (s, south), (e, east), (w, west) = (self.coordinate() for _ in range(4))
        rows, cols = self.number("I"), self.number("I")
        sides = 1 <= rows <= MOST_SIDE and 1 <= cols <= MOST_SIDE and rows * cols <= MOST_CELLS
        self.need(sides and south < north and west < east, "bad region")
        return (n, s, e, w), rows, cols

    def name(self) -> bytes:
        name = self.take(self.number("B"))
        self.need(NAME.fullmatch(name), "bad name")
        self.need(name not in self.names, "name used twice")
        self.names.add(name)
        return name

    def nodata(self, code: int, flags: int) -> Optional[int]:
        number, (_, smallest, largest) = self.number("q"), TYPES[code]
        self.need(smallest <= number <= largest if flags & 1 else number == 0, "bad nodata")
        return number if flags & 1 else None

    def labels(self) -> list[tuple[int, bytes]]:
        found = []
        for _ in range(self.number("I")):
            category = self.number("i")
            text = self.take(self.number("H"))
            self.need(category != NULL and b"\n" not in text, "bad label")
            found.append((category, text))
        return found

    def raster(self, edges: Edges, rows: int, cols: int) -> Raster:
        name, code = self.name(), self.number("B")
        self.need(code in TYPES or code == TEXT_GRID, "bad type")
        if code == TEXT_GRID:
            return self.text_grid(name, edges, rows, cols)
        flags = self.number("B")
        self.need(flags <= 3, "bad flags")
        nodata = self.nodata(code, flags)
        found = Raster(name, edges, code, [], nodata, [] if flags & 2 else None, self.labels())
        for self.row in range(1, rows + 1):
            found.rows.append(list(self.numbers(f"{cols}{TYPES[code][0]}")))
            if found.mask is not None:
                found.mask.append(list(self.take(cols)))
                self.need(max(found.mask[-1]) <= 1, "bad mask")
            row = Raster(
                name, edges, code, found.rows[-1:], nodata, found.mask and found.mask[-1:]
            ).cells()[0]
            self.need(
                all(cell is None or NULL < cell < 2**31 for cell in row), "cell out of range"
            )
        self.row = 0
        return found

    def text_grid(self, name: bytes, edges: Edges, rows: int, cols: int) -> Raster:
        self.need(self.number("B") == 0, "bad flags")
        self.need(self.number("q") == 0, "bad nodata")
        labels, text = self.labels(), self.take(self.number("Q"))
        found = GridText(text).read()
        if isinstance(found, Told):
            raise Rejected(found.text, self.maps, found.line)
        region = Region(*(units(edge) or 0 for edge in edges), rows, cols)
        self.need(found.region == region, "other region")
        numbers = [[NULL if cell is None else cell for cell in row] for row in found.rows]
        return Raster(name, edges, TEXT_GRID, numbers, NULL, None, labels, text)

    def question(self) -> Question:
        kind = self.number("B")
        self.need(1 <= kind <= PATCHES + NUMBERS + BORDER, "bad question")
        name = self.take(self.number("B"))
        connectivity = self.number("B")
        self.need(connectivity in (4, 8), "bad connectivity")
        depth = self.number("I")
        self.need(depth >= 1, "bad depth")
        zones = self.take(self.number("B"))
        self.need(not zones or kind & PATCHES and NAME.fullmatch(zones), "bad zones")
        return Question(name, connectivity, depth, zones, kind)

    def run(self) -> tuple[list[Raster], bytes, list[Question]]:
        """Return the maps, the script and the questions, or raise the first error."""
        self.need(self.take(8) == b"RCELLQ1\n", "bad magic")
        return (self.rasters(*self.region()), *self.script_and_questions())

    def run_in_tile(self) -> tuple[Place, list[Raster], bytes, list[Question]]:
        """Return the place, the maps, the script and the questions, or raise the first error."""
        self.need(self.take(8) == b"RCELLW1\n", "bad magic")
        place = Place(*self.numbers("8I"))
        self.need(place.is_possible(), "bad place")
        edges, rows, cols = self.region()
        self.need(place.is_valid(rows, cols), "bad place")
        return (place, self.rasters(edges, rows, cols), *self.script_and_questions())

    def rasters(self, edges: Edges, rows: int, cols: int) -> list[Raster]:
        count, maps = self.number("I"), []
        self.need(1 <= count <= MOST_MAPS, "bad number of maps")
        for self.maps in range(count):
            maps.append(self.raster(edges, rows, cols))
        self.maps = count
        return maps

    def script_and_questions(self) -> tuple[bytes, list[Question]]:
        size = self.number("I")
        self.need(size <= MOST_SCRIPT, "script too long")
        script, asked = self.take(size), []
        for self.row in range(1, self.number("I") + 1):
            asked.append(self.question())
        self.row = 0
        self.need(self.at == len(self.data), "bytes after the request")
        return script, asked


Frame = dict[str, Any]


class Response:
    """Reads the bytes of a response from left to right. Raises ValueError if they are not a
    response."""

    def __init__(self, data: bytes):
        self.data, self.at = data, 0

    def take(self, count: int) -> bytes:
        piece = self.data[self.at : self.at + count]
        if len(piece) < count:
            raise ValueError("the response ends early")
        self.at += count
        return piece

    def numbers(self, count: int, letter: str = "Q") -> tuple[int, ...]:
        return struct.unpack(f"<{count}{letter}", self.take(count * struct.calcsize("<" + letter)))

    def text(self) -> bytes:
        return self.take(self.numbers(1)[0])

    def table(self) -> Frame:
        line, entries, width = self.numbers(3)
        counts, labels, separator = self.take(3)
        frame: Frame = {"line": line, "separator": bytes([separator]), "null": self.text()}
        frame["names"] = [self.text() for _ in range(width)]
        frame["counts"] = self.numbers(entries) if counts else None
        cells = self.numbers(entries * width, "i")
        frame["cells"] = [cells[i * width : (i + 1) * width] for i in range(entries)]
        frame["labels"] = (
            [[self.text() for _ in range(width)] for _ in range(entries)] if labels else None
        )
        return frame

    def grid(self) -> Frame:
        frame: Frame = {"line": self.numbers(1)[0], "null": self.text(), "name": self.text()}
        frame["edges"] = [self.text() for _ in SIDES]
        frame["rows"] = self.rows()
        return frame

    def rows(self) -> list[list[Optional[int]]]:
        rows, cols = self.numbers(2)
        is_small = self.take(1) == b"\1"
        cells, null = self.numbers(rows * cols, "B" if is_small else "i"), 255 if is_small else NULL
        return [
            [None if cell == null else cell for cell in cells[r * cols : (r + 1) * cols]]
            for r in range(rows)
        ]

    def patch_numbers(self) -> Frame:
        return {"question": self.numbers(1)[0], "rows": self.rows()}

    def border(self) -> Frame:
        [question], begin = self.numbers(1), self.at
        self.take(17)
        rows, cols = self.numbers(2, "I")
        self.take(4 * (4 * cols + 4 * rows + rows))
        return {"question": question, "border": self.data[begin : self.at]}

    def patches(self) -> Frame:
        question, connectivity, depth, has_zones = struct.unpack("<QBIB", self.take(14))
        found = []
        zones: list[Optional[int]] = []
        for _ in range(self.numbers(1)[0]):
            found.append(Patch(*self.numbers(1, "i"), *self.numbers(8)))
            for zone in self.numbers(has_zones, "i"):
                zones.append(None if zone == NULL else zone)
        return {
            "question": question,
            "connectivity": connectivity,
            "depth": depth,
            "patches": found,
            "zones": zones if has_zones else None,
        }

    def done(self) -> Frame:
        return {
            **dict(zip(("status", "source", "maps", "line", "column"), self.numbers(5))),
            "text": self.text(),
        }

    def frames(self) -> list[Frame]:
        """Return the frames, the last of which is DONE."""
        if self.take(8) != b"RCELLA1\n":
            raise ValueError("another magic")
        kinds: dict[bytes, Callable[[], Frame]] = {
            b"TABL": self.table,
            b"CELL": self.table,
            b"GRID": self.grid,
            b"PTCH": self.patches,
            b"NUMB": self.patch_numbers,
            b"BORD": self.border,
            b"DONE": self.done,
        }
        found: list[Frame] = []
        while not found or found[-1]["kind"] != b"DONE":
            kind = self.take(4)
            if kind not in kinds:
                raise ValueError(f"no frame: {kind!r}")
            found.append({"kind": kind, **kinds[kind]()})
        if self.at != len(self.data):
            raise ValueError("bytes after the response")
        return found


def cell_text(cell: Optional[int], null: bytes) -> bytes:
    return null if cell is None or cell == NULL else b"%d" % cell


def header(edges: Iterable[bytes], rows: int, cols: int) -> bytes:
    """Return the lines that describe a region."""
    return b"".join(b"%s: %s\n" % pair for pair in zip(SIDES, edges)) + b"rows: %d\ncols: %d\n" % (
        rows,
        cols,
    )


def grid_text(edges: Iterable[bytes], rows: Cells, null: bytes = b"*") -> bytes:
    """Return the text that `rcell` prints for a map."""
    lines = (b" ".join(cell_text(cell, null) for cell in row) + b"\n" for row in rows)
    other_null = b"" if null == b"*" else b"null: " + null + b"\n"
    return header(edges, len(rows), len(rows[0])) + other_null + b"".join(lines)


def printed(frame: Frame) -> bytes:
    """Return the text that `rcell` prints for a frame, or nothing for a question."""
    if frame["kind"] in (b"NUMB", b"BORD", b"PTCH"):
        return b""
    if frame["kind"] == b"GRID":
        return grid_text(frame["edges"], frame["rows"], frame["null"])
    out = b""
    for place, cells in enumerate(frame["cells"]):
        fields = []
        for column, cell in enumerate(cells):
            fields += [cell_text(cell, frame["null"])] + (
                [frame["labels"][place][column]] if frame["labels"] is not None else []
            )
        fields += [b"%d" % frame["counts"][place]] if frame["counts"] is not None else []
        out += frame["separator"].join(fields) + b"\n"
    return out
