"""Compute the response of `rcell-pipe` to a request for a run, a text or a tile with the plain models,
as docs/pipe.md defines it, and compare a given response with it."""
from __future__ import annotations

import re
from dataclasses import dataclass, field, replace
from functools import reduce
from typing import Optional, Sequence

import model
from joined_patches import parts_of_tile
from model import Clump, Mapcalc, OutAscii, Refused, ScriptReader, Stats
from model_expressions import Place as CellPlace
from model_grids import CellMap, Region
from patch_model import Cells, Patch, main_zones, patch_numbers, patches
from pipe_model import BORDER, NUMBERS, PATCHES, Frame, Place, Question, Raster, Reader, Rejected
from pipe_model import Response, border, printed, units
from test_plan import Done, Need, reads_of

RUN, TEXT, TILE = b"RCELLQ1\n", b"RCELLT1\n", b"RCELLW1\n"
REQUEST, SCRIPT, QUESTION = 1, 2, 3  # the source of an error
COLUMN = re.compile(r" at column (\d+)$")
NO_MARGIN = (0, 0, 0, 0)

Margin = tuple[Optional[int], ...]  # above, below, left and right; None up to the full map's end
Statements = list[tuple[int, model.Statement]]
Fault = Optional[tuple[int, bytes]]  # the line of a statement or number of a question, and the text
Maps = dict[bytes, CellMap]


# The halo of a tile


def halo_margin(place: Place, rows: int, cols: int) -> Margin:
    """Return the halo of a tile whose maps have these numbers of rows and columns."""
    below = place.top + rows - place.tile_top - place.tile_rows
    right = place.left + cols - place.tile_left - place.tile_cols
    return (
        place.tile_top - place.top if place.top else None,
        below if place.top + rows < place.full_rows else None,
        place.tile_left - place.left if place.left else None,
        right if place.left + cols < place.full_cols else None,
    )


def margin_after_read(margin: Margin, reach: Need) -> Margin:
    return tuple(None if a is None else a - b for a, b in zip(margin, reach[:4]))


def is_exceeded(margin: Margin, depth: int = 0) -> bool:
    """Return whether a margin is smaller than a depth on some side."""
    return any(side is not None and side < depth for side in margin)


def smaller(one: Margin, other: Margin) -> Margin:
    return tuple(b if a is None else a if b is None else min(a, b) for a, b in zip(one, other))


@dataclass
class Halo:
    """The margins of the maps of a tile, by name."""

    given: Margin
    margins: dict[bytes, Margin] = field(default_factory=dict)

    def fault(self, statements: Statements) -> Fault:
        """Return the first statement that cannot run in a tile. If there is none, add the margins
        of the maps that the statements make."""
        for line, statement in statements:
            if isinstance(statement, Stats) and b"l" in statement.flags:
                return line, b"labels in a tile"
            left = [
                margin_after_read(self.margins.get(name, self.given), reach)
                for name, reach in reads_of(statement)
            ]
            if any(map(is_exceeded, left)):
                return line, b"halo too small"
            made = getattr(statement, "target", b"")
            if made:
                is_clump = isinstance(statement, Clump)
                self.margins[made] = NO_MARGIN if is_clump else reduce(smaller, left, self.given)
        return None

    def lacks(self, question: Question) -> bool:
        """Return whether a question needs a larger halo after the statements."""
        margin = self.margins.get(question.map, self.given)
        return bool(question.kind & PATCHES) and is_exceeded(margin, question.depth)


# A run


@dataclass(frozen=True)
class Expected:
    """A response: the text of each statement that writes a frame, with its line; the frames of
    questions; and the last frame."""

    texts: Sequence[tuple[int, bytes]] = ()
    answers: Sequence[Frame] = ()
    done: Done = Done()


@dataclass
class Moved(CellMap):
    """A map whose cells are addressed by their positions in a larger map."""

    top: int = 0
    left: int = 0

    def cell(self, row: int, col: int) -> Optional[int]:
        return super().cell(row - self.top, col - self.left)


class Run:
    """Runs a script over the maps of a request, and returns the frames of its questions."""

    def __init__(self, place: Place, rasters: list[Raster], is_tile: bool):
        self.place, self.is_tile = place, is_tile
        first = rasters[0]
        self.edges = [units(text) or 0 for text in first.edges]
        self.region = Region(*self.edges, len(first.rows), len(first.rows[0]))
        self.maps: Maps = {
            it.name: CellMap(self.region, it.cells(), {} if is_tile else dict(it.labels))
            for it in rasters
        }

    def made_by_mapcalc(self, statement: Mapcalc) -> CellMap:
        top, left = self.place.top, self.place.left
        maps = {name: Moved(self.region, it.rows, {}, top, left) for name, it in self.maps.items()}
        full = Region(*self.edges, self.place.full_rows, self.place.full_cols)
        value = statement.expression.value
        return CellMap(
            self.region,
            [
                [
                    value(CellPlace(maps, full, row, col))
                    for col in range(left, left + self.region.cols)
                ]
                for row in range(top, top + self.region.rows)
            ],
        )

    def tile(self, name: bytes) -> CellMap:
        """Return the cells of the tile, with the tile's numbers of rows and columns."""
        top, left = self.place.tile_top - self.place.top, self.place.tile_left - self.place.left
        rows, cols = self.place.tile_rows, self.place.tile_cols
        whole = self.maps[name]
        cells = [row[left : left + cols] for row in whole.rows[top : top + rows]]
        return CellMap(Region(*self.edges, rows, cols), cells, whole.labels)

    def made_by_clump(self, statement: Clump) -> CellMap:
        """Return the numbers of the tile's patches, with null around the tile."""
        numbers = model.clumped(self.tile(statement.input), statement.with_corners)
        top, left = self.place.tile_top - self.place.top, self.place.tile_left - self.place.left
        around = Moved(numbers.region, numbers.rows, {}, top, left)
        return model.map_of(self.region, around.cell)

    def output(self, statement: model.Statement) -> Optional[bytes]:
        """Run a statement. Return the text of its frame, or None if it writes no frame."""
        if isinstance(statement, (Stats, OutAscii)):
            names = statement.inputs if isinstance(statement, Stats) else [statement.input]
            tiles = {name: self.tile(name) for name in names}
            return statement.run(tiles, tiles[names[0]].region)
        if isinstance(statement, Mapcalc):
            self.maps[statement.target] = self.made_by_mapcalc(statement)
        elif isinstance(statement, Clump):
            self.maps[statement.target] = self.made_by_clump(statement)
        else:
            statement.run(self.maps, self.region)
        return None

    def frames(self, at: int, question: Question) -> list[Frame]:
        """Return the frames of a question. Only the measures of patches depend on a tile's halo."""
        cells, connectivity = self.tile(question.map).rows, question.connectivity
        zones = self.tile(question.zones).rows if question.zones else None
        rows = patch_numbers(cells, connectivity)
        numbers = {"kind": b"NUMB", "question": at, "rows": rows}
        first = self.place.tile_top, self.place.tile_left
        own_border = border(cells, rows, connectivity, *first)
        sides = {"kind": b"BORD", "question": at, "border": own_border}
        measures = {
            "kind": b"PTCH",
            "question": at,
            "connectivity": connectivity,
            "depth": question.depth,
            "patches": self.measures(question, rows),
            "zones": None if zones is None else main_zones(cells, connectivity, zones),
        }
        wanted = (NUMBERS, numbers), (BORDER, sides), (PATCHES, measures)
        return [frame for flag, frame in wanted if question.kind & flag]

    def measures(self, question: Question, numbers: Cells) -> list[Patch]:
        """Return the measures in the full map of the tile's patches."""
        place, cells = self.place, self.maps[question.map].rows
        if not self.is_tile:
            return patches(cells, question.connectivity, question.depth)
        top, left = place.tile_top - place.top, place.tile_left - place.left
        tile = slice(top, top + place.tile_rows), slice(left, left + place.tile_cols)
        # A depth that reaches beyond the maps gives the same core as one that reaches their edges.
        depth = min(question.depth, len(cells) + len(cells[0]))
        return [
            replace(
                it.patch,
                first_row=it.patch.first_row + place.top,
                last_row=it.patch.last_row + place.top,
                first_col=it.patch.first_col + place.left,
                last_col=it.patch.last_col + place.left,
            )
            for it in parts_of_tile(cells, numbers, 0, tile, depth)
        ]


def rejected_script(fault: Refused) -> Expected:
    column = COLUMN.search(fault.text)
    place = fault.line, int(column[1]) if column else 0
    return Expected(done=Done(1, SCRIPT, 0, *place, fault.text.encode()))


def read(data: bytes) -> tuple[Place, list[Raster], bytes, list[Question]]:
    """Read a request for a run, a text or a tile, or raise its first error."""
    if data[:8] == TILE:
        return Reader(data).run_in_tile()
    maps, script, questions = Reader(RUN + data[8:] if data[:8] == TEXT else data).run()
    size = len(maps[0].rows), len(maps[0].rows[0])
    return Place(*size, 0, 0, 0, 0, *size), maps, script, questions


def question_fault(magic: bytes, known: set[bytes], halo: Halo, asked: list[Question]) -> Fault:
    """Return the number of the first question that is rejected, and the error."""
    for number, it in enumerate(asked, 1):
        if magic == TEXT:
            return number, b"question for a text"
        if not {it.map, it.zones or it.map} <= known:
            return number, b"unknown map"
        if halo.lacks(it):
            return number, b"halo too small"
    return None


def expected_of_run(data: bytes) -> Expected:
    """Return the response to a request for a run, a text or a tile."""
    magic = data[:8]
    try:
        place, maps, script, questions = read(data)
    except Rejected as error:
        text, complete, row = error.place
        return Expected(done=Done(1, REQUEST, complete, row, 0, text))
    reader = ScriptReader(script, [it.name for it in maps])
    try:
        statements = reader.read()
    except Refused as fault:
        return rejected_script(fault)
    halo = Halo(halo_margin(place, len(maps[0].rows), len(maps[0].rows[0])))
    found = halo.fault(statements) if magic == TILE else None
    if found:
        return Expected(done=Done(1, SCRIPT, 0, found[0], 0, found[1]))
    found = question_fault(magic, reader.known, halo, questions)
    if found:
        return Expected(done=Done(1, QUESTION, 0, found[0], 0, found[1]))
    run = Run(place, maps, magic == TILE)
    texts = [(line, run.output(statement)) for line, statement in statements]
    frames = [frame for at, it in enumerate(questions) for frame in run.frames(at, it)]
    return Expected([(line, it) for line, it in texts if it is not None], frames)


def wrong_frames(wanted: Expected, status: int, output: bytes) -> str:
    """Return the difference between a response of frames and the expected one, or ''."""
    *frames, end = Response(output).frames()
    texts = [(it["line"], printed(it)) for it in frames if "line" in it]
    done = Done(*(end[key] for key in ("status", "source", "maps", "line", "column", "text")))
    found = Expected(texts, [it for it in frames if "line" not in it], done)
    is_same = (list(wanted.texts), list(wanted.answers)) == (found.texts, found.answers)
    return "" if is_same and done == wanted.done and status == done.status else f"{found}, {status}"


def wrong_run(data: bytes, status: int, output: bytes) -> str:
    """Return the error in the response to a request for a run, a text or a tile, or ''."""
    wanted = expected_of_run(data)
    if data[:8] == TEXT and wanted.done.status == 0:
        text = b"".join(it for _, it in wanted.texts)
        return "" if (status, output) == (0, text) else f"{output!r}, {status}"
    return wrong_frames(wanted, status, output)
