"""The cells, maps and grid texts of the model in tools/model/model.py: what a text denotes, or its
first error."""
from __future__ import annotations

import re
from dataclasses import dataclass, field
from typing import Callable, Iterator, Optional

Cell = Optional[int]  # None is null

GREATEST = 2147483647
GREATEST_SIDE = 65535
MOST_CELLS = 2147483647
LONGEST_TOKEN = 64
MOST_BLANKS = 1048576
COORDINATE_UNIT = 10**8

BLANKS = b" \t\r"
TOKEN = re.compile(rb"[^ \t\r\n]+")
WHITE = re.compile(rb"[ \t\r\n]+")
WHOLE_NUMBER = re.compile(rb"[+-]?[0-9]+")
COORDINATE = re.compile(rb"([+-]?)([0-9]{0,10})(?:\.([0-9]{0,8}))?")
NAME = re.compile(rb"[A-Za-z_][A-Za-z0-9_.]{0,63}")


@dataclass(frozen=True)
class Answer:
    status: int
    output: bytes
    told: bytes
    parts: tuple[tuple[int, bytes], ...] = field(
        default=(), compare=False
    )  # the output of each statement, by its line
    grids: tuple[bytes, ...] = field(
        default=(), compare=False
    )  # the names of the grids that were given


class Refused(Exception):
    """An error that ends the run: its source, line, text and status."""

    def __init__(self, source: bytes, line: int, text: str, status: int = 1):
        super().__init__(text)
        self.source, self.line, self.text, self.status = source, line, text, status

    def answer(self) -> Answer:
        return Answer(
            self.status, b"", b"rcell: %s:%d: %s\n" % (self.source, self.line, self.text.encode())
        )


def is_name(text: bytes) -> bool:
    return NAME.fullmatch(text) is not None


def is_in_range(number: int) -> bool:
    return -GREATEST <= number <= GREATEST


def whole_number(text: bytes) -> Optional[int]:
    """Return the integer in range that the text spells, or None."""
    if WHOLE_NUMBER.fullmatch(text) and is_in_range(int(text)):
        return int(text)
    return None


# Maps


@dataclass(frozen=True)
class Region:
    north: int
    south: int
    east: int
    west: int
    rows: int
    cols: int

    def is_allowed(self) -> bool:
        sides_fit = 1 <= self.rows <= GREATEST_SIDE and 1 <= self.cols <= GREATEST_SIDE
        return (
            self.north > self.south
            and self.east > self.west
            and sides_fit
            and self.rows * self.cols <= MOST_CELLS
        )

    def places(self) -> Iterator[tuple[int, int]]:
        """Return all cells in row order."""
        return ((row, col) for row in range(self.rows) for col in range(self.cols))


@dataclass
class CellMap:
    region: Region
    rows: list[list[Cell]]
    labels: dict[int, bytes] = field(default_factory=dict)

    def cell(self, row: int, col: int) -> Cell:
        if 0 <= row < self.region.rows and 0 <= col < self.region.cols:
            return self.rows[row][col]
        return None


def map_of(region: Region, cell_at: Callable[[int, int], Cell]) -> CellMap:
    return CellMap(
        region, [[cell_at(row, col) for col in range(region.cols)] for row in range(region.rows)]
    )


def order(cell: Cell) -> tuple[bool, int]:
    """Return a key for ascending order, with null last."""
    return (cell is None, cell or 0)


# Grid texts

# The checks at a position of a grid text, in the order in which errors at one position are
# reported.
(
    LONG_TOKEN,
    STUCK,
    SECOND_VALUE,
    LINE_END,
    HEADER_END,
    CELL_END,
    INPUT_END,
    TOKEN_TOO_MANY,
    READ_FAILS,
) = range(9)
TOLD_AT_AN_END = (LINE_END, HEADER_END, CELL_END, INPUT_END)

EDGES = (b"north", b"south", b"east", b"west")
SIDES = (b"rows", b"cols")
KEYS = EDGES + SIDES + (b"null", b"type", b"multiplier")


@dataclass(frozen=True)
class GridToken:
    text: bytes
    start: int
    line: int
    is_first_of_line: bool

    @property
    def end(self) -> int:
        return self.start + len(self.text)


@dataclass(frozen=True, order=True)
class Told:
    place: int
    rank: int
    line: int
    text: str


def grid_tokens(text: bytes) -> list[GridToken]:
    tokens, line, seen, last_line = [], 1, 0, 0
    for found in TOKEN.finditer(text):
        line += text.count(b"\n", seen, found.start())
        tokens.append(GridToken(found.group(), found.start(), line, line != last_line))
        seen, last_line = found.start(), line
    return tokens


def coordinate(text: bytes) -> Optional[int]:
    found = COORDINATE.fullmatch(text)
    if not found or not (found[2] or found[3]):
        return None
    size = int(found[2] or b"0") * COORDINATE_UNIT + int((found[3] or b"").ljust(8, b"0"))
    return -size if found[1] == b"-" else size


@dataclass(frozen=True)
class Failing:
    """A file that opens, returns these bytes, and then cannot be read further."""

    text: bytes


class GridText:
    """A grid text with all errors at its positions. `read` returns its map or its first error."""

    def __init__(self, given: bytes | Failing):
        self.ends = not isinstance(given, Failing)
        self.text = given if self.ends else given.text
        text = self.text
        self.tokens = grid_tokens(text)
        begins_data = (
            at
            for at, token in enumerate(self.tokens)
            if token.is_first_of_line and b":" not in token.text
        )
        data_at = next(begins_data, len(self.tokens))
        self.header, self.data = self.tokens[:data_at], self.tokens[data_at:]
        self.values: dict[bytes, object] = {}
        self.faults: list[Told] = []

    def read(self) -> CellMap | Told:
        self.judge_sizes()
        self.judge_header()
        if self.judge_region():
            self.judge_cells()
        if not self.ends:
            self.judge_failure()
        return min(self.faults) if self.faults else self.map()

    def judge_failure(self) -> None:
        """Drop the errors at the end of a text that fails, because such a text has no end."""
        end = len(self.text)
        self.faults = [
            told for told in self.faults if told.place < end or told.rank not in TOLD_AT_AN_END
        ]
        self.tell(end, READ_FAILS, self.line_at(end), "read failed")

    def tell(self, place: int, rank: int, line: int, text: str) -> None:
        self.faults.append(Told(place, rank, line, text))

    def line_at(self, place: int) -> int:
        return 1 + self.text.count(b"\n", 0, place)

    def judge_sizes(self) -> None:
        for token in self.tokens:
            if len(token.text) > LONGEST_TOKEN:
                self.tell(token.start + LONGEST_TOKEN, LONG_TOKEN, token.line, "token too long")
        for white in WHITE.finditer(self.text):
            if len(white.group()) > MOST_BLANKS:
                place = white.start() + MOST_BLANKS
                self.tell(place, STUCK, self.line_at(place), "too many blanks")

    def judge_header(self) -> None:
        lines: dict[int, list[GridToken]] = {}
        for token in self.header:
            lines.setdefault(token.line, []).append(token)
        for tokens in lines.values():
            self.judge_header_line(tokens)

    def judge_header_line(self, tokens: list[GridToken]) -> None:
        first = tokens[0]
        key, _, glued = first.text.partition(b":")
        values = ([(glued, first.end - len(glued))] if glued else []) + [
            (token.text, token.start) for token in tokens[1:]
        ]
        if len(values) > 1:
            self.tell(values[1][1], SECOND_VALUE, first.line, "bad header line")
            return
        fault = self.line_fault(key, values[0][0] if values else b"")
        if fault:
            line_feed = self.text.find(b"\n", tokens[-1].end)
            self.tell(len(self.text) if line_feed < 0 else line_feed, LINE_END, first.line, fault)

    def line_fault(self, key: bytes, value: bytes) -> str:
        """Return the error in a header line, or ''. A valid value is stored."""
        if key not in KEYS or not value or (key == b"null" and b":" in value):
            return "bad header line"
        if key in self.values:
            return "key given twice"
        if key == b"type":
            self.values[key] = value
            return "" if value == b"int" else "type not supported"
        if key == b"null":
            self.values[key] = value
            return ""
        self.values[key] = coordinate(value) if key in EDGES else whole_number(value)
        return "bad number" if self.values[key] is None else ""

    def judge_region(self) -> bool:
        """Return whether the header is complete enough to check the cells."""
        if any(told.rank == LINE_END for told in self.faults):
            return False
        place = self.data[0].end if self.data else len(self.text)
        line = self.data[0].line if self.data else self.line_at(place)
        if any(key not in self.values for key in EDGES + SIDES):
            self.tell(place, HEADER_END, line, "missing key")
            return False
        self.region = Region(
            *(self.values[key] for key in EDGES), *(max(0, self.values[key]) for key in SIDES)
        )
        if not self.region.is_allowed():
            self.tell(place, HEADER_END, line, "bad region")
        return self.region.is_allowed()

    def judge_cells(self) -> None:
        wanted = self.region.rows * self.region.cols
        for token in self.data[:wanted]:
            fault = self.cell_fault(token.text)
            if fault:
                self.tell(token.end, CELL_END, token.line, fault)
        for token in self.data[wanted : wanted + 1]:
            self.tell(token.start, TOKEN_TOO_MANY, token.line, "too many cells")
        if len(self.data) < wanted:
            self.tell(len(self.text), INPUT_END, self.line_at(len(self.text)), "too few cells")

    def is_null(self, text: bytes) -> bool:
        return text == self.values.get(b"null", b"*")

    def product(self, text: bytes) -> int:
        return int(text) * self.values.get(b"multiplier", 1)

    def cell_fault(self, text: bytes) -> str:
        if self.is_null(text):
            return ""
        if not WHOLE_NUMBER.fullmatch(text):
            return "bad cell"
        return (
            ""
            if is_in_range(int(text)) and is_in_range(self.product(text))
            else "cell out of range"
        )

    def map(self) -> CellMap:
        cells = [
            None if self.is_null(token.text) else self.product(token.text) for token in self.data
        ]
        return map_of(self.region, lambda row, col: cells[row * self.region.cols + col])


def read_map(name: bytes, given: bytes | Failing) -> CellMap:
    answer = GridText(given).read()
    if isinstance(answer, Told):
        raise Refused(name, answer.line, answer.text, 4 if answer.rank == READ_FAILS else 1)
    return answer


def coordinate_text(coordinate: int) -> bytes:
    whole, fraction = divmod(abs(coordinate), COORDINATE_UNIT)
    digits = (b".%08d" % fraction).rstrip(b"0") if fraction else b""
    return (b"-" if coordinate < 0 else b"") + b"%d" % whole + digits


def cell_text(cell: Cell, null_text: bytes) -> bytes:
    return null_text if cell is None else b"%d" % cell


def grid_text(grid: CellMap, null_text: bytes) -> bytes:
    region = grid.region
    lines = [key + b": " + coordinate_text(getattr(region, key.decode())) for key in EDGES]
    lines += [b"rows: %d" % region.rows, b"cols: %d" % region.cols]
    lines += [b"null: " + null_text] if null_text != b"*" else []
    lines += [b" ".join(cell_text(cell, null_text) for cell in row) for row in grid.rows]
    return b"".join(line + b"\n" for line in lines)
