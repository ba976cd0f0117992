"""Make random jobs: maps, a script, questions and a grid of tiles."""
from __future__ import annotations

import random
from typing import Iterator

import made
import model
from flow import Job
from made_cases import NAMES, ScriptMaker
from model import Refused
from model_expressions import FUNCTIONS, Call
from patch_model import Cells
from pipe_model import BORDER, NULL, NUMBERS, PATCHES, TEXT_GRID, TYPES, Edges, Question, Raster
from test_pipe import random_edges
from test_plan import Need, reads_of, within
from test_tiles import statements_of

LARGEST_SIDE, DEEPEST = 60, 4
POSITIONS = [FUNCTIONS[name] for name in (b"row", b"col", b"nrows", b"ncols")]


def raster_of(draw: random.Random, name: bytes, edges: Edges, cells: Cells) -> Raster:
    """Return a map of a random type that has these cells, in one of six cases a text grid. In
    other maps, a mask or nodata marks null."""
    if draw.random() < 1 / 6:
        numbers = [[NULL if cell is None else cell for cell in row] for row in cells]
        return Raster(name, edges, TEXT_GRID, numbers, NULL)
    values = {it for row in cells for it in row if it is not None}
    code, (_, least, most) = draw.choice(
        [it for it in TYPES.items() if all(it[1][1] <= value <= it[1][2] for value in values)]
    )
    free = [it for it in (least, most, 0) if it not in values]
    mask = None
    if not free or draw.random() < 0.3:
        mask = [[int(cell is None) for cell in row] for row in cells]
    nodata = draw.choice(free) if free and (mask is None or draw.random() < 0.5) else None
    hidden = draw.choice([least, most, 0]) if mask else nodata
    rows = [[hidden if cell is None else cell for cell in row] for row in cells]
    return Raster(name, edges, code, rows, nodata, mask)


def random_maps(draw: random.Random) -> list[Raster]:
    """Return one to three maps of the same size, at most 60 x 60 cells."""
    rows, cols = (
        draw.choice([1, *(draw.randint(1, most) for most in (8, 8, 8, 20, 20, LARGEST_SIDE))])
        for _ in range(2)
    )
    edges, names = random_edges(draw), draw.sample(NAMES, draw.choice([1, 2, 2, 3]))
    return [raster_of(draw, it, edges, made.random_cells(draw, rows, cols)) for it in names]


class JobMaker(ScriptMaker):
    """Makes questions, and scripts without labels that use clump maps only cell by cell."""

    def __init__(self, draw: random.Random, names: list[bytes]):
        super().__init__(draw)
        self.local, self.known = list(names), list(names)
        self.lines: list[bytes] = []
        self.questions: list[Question] = []
        self.numbered: dict[bytes, int] = {}

    def offset(self) -> list[bytes]:
        number = b"%d" % self.one([0, 0, 1, 1, 1, 2, 3, 5, self.number(0, LARGEST_SIDE)])
        return self.one([[number], [b"-", number], [b"+", number]])

    def leaf(self, known: list[bytes]) -> list[bytes]:
        if self.chance(0.2):
            return [self.one(known), b"[", *self.offset(), b",", *self.offset(), b"]"]
        return super().leaf(known)

    def flags(self, letters: bytes, part: float) -> list[bytes]:
        return super().flags(letters.replace(b"l", b""), part)

    def add_local(self) -> None:
        """Add a statement that needs only the cells around each cell."""
        names = list(self.local)
        makers = self.stats, self.out_ascii, self.mapcalc, self.mapcalc, self.reclass
        self.lines += self.one(makers)(names)
        made_maps = names[len(self.local) :]
        self.known += made_maps
        self.local = names
        self.lines += [b"r.out.ascii input=" + name for name in made_maps]

    def add(self, line: bytes, *names: bytes) -> bytes:
        """Add a line that makes a map, and return the map's name."""
        target = self.target(self.known)
        self.known.append(target)
        self.lines.append(line % (target, *names))
        return target

    def add_clump(self) -> None:
        """Add r.clump, a question about the same patches, and maps made from their numbers."""
        source, zones, corners = self.one(self.local), self.one(self.local), self.chance(0.5)
        command = b"r.clump -d" if corners else b"r.clump"
        clump = self.add(command + b" output=%s input=%s", source)
        depth = self.number(1, DEEPEST)
        kind = NUMBERS + BORDER + PATCHES
        self.numbered[clump] = len(self.questions)
        self.questions.append(Question(source, 8 if corners else 4, depth, zones, kind))
        flag = self.one([b"-c", b"-cn", b"-cN", b"-n", b"-1"])
        self.lines.append(b"r.stats %s input=%s,%s" % (flag, clump, zones))
        if self.chance(0.5):
            some = self.add(b"r.mapcalc %s = if(%s > 1, %s, null())", zones, clump)
            self.numbered[some] = self.numbered[clump]
            self.lines.append(b"r.out.ascii input=" + some)
        if self.chance(0.5):
            mask = self.add(b"r.mapcalc %s = if(isnull(%s), row(), %s)", clump, zones)
            self.lines.append(b"r.stats -c input=" + mask)
        if self.chance(0.5):
            rule = self.one([b"*", b"7"])
            other = self.add(b"r.reclass output=%s input=%s", clump)
            self.lines += [b"* = " + rule, b"end", b"r.stats -c input=%s,%s" % (zones, other)]
            if rule == b"*":
                self.numbered[other] = self.numbered[clump]

    def add_question(self) -> None:
        zones = self.one([b"", self.one(self.local)])
        place = self.one([4, 8]), self.number(1, DEEPEST)
        kind = NUMBERS + BORDER + PATCHES * (zones != b"" or self.chance(0.5))
        self.questions.append(Question(self.one(self.local), *place, zones, kind))


def random_job(draw: random.Random) -> Job:
    maps = random_maps(draw)
    names = [it.name for it in maps]
    while True:
        maker = JobMaker(draw, names)
        for add, most in ((maker.add_local, 4), (maker.add_clump, 2), (maker.add_question, 2)):
            for _ in range(draw.randint(0, most)):
                add()
        script = b"\n".join(maker.lines) + b"\n"
        try:
            statements_of(names, script)
            break
        except Refused:
            continue  # an expression is too long
    cut = made.random_cut(draw, maps[0].cells())
    extra = draw.choice([0, 0, 0, 1, 3])
    return Job(maps, script, maker.questions, cut, maker.numbered, extra)


def job_of_cut(cut: made.Cut, connectivity: int) -> Job:
    """Return a job about a map's patches: their numbers, and tables with and without them."""
    rows = [[NULL if cell is None else cell for cell in row] for row in cut.cells]
    edges = (b"%d" % len(rows), b"0", b"%d" % len(rows[0]), b"0")
    clump = b"r.clump -d" if connectivity == 8 else b"r.clump"
    script = clump + b" input=m output=n\nr.stats -c input=m\nr.stats -c input=m,n\n"
    question = Question(b"m", connectivity, kind=NUMBERS + BORDER)
    return Job([Raster(b"m", edges, 6, rows, NULL)], script, [question], cut, {b"n": 0})


def calls_position(statement: model.Statement) -> bool:
    """Return whether the value of an expression depends on the position of its cell."""
    parts = within(statement.expression) if isinstance(statement, model.Mapcalc) else ()
    return any(isinstance(it, Call) and it.function in POSITIONS for it in parts)


def features(job: Job) -> Iterator[str]:
    """Yield the features of a job, for the counts of what was tried."""
    statements = [it for _, it in statements_of([it.name for it in job.maps], job.script)]
    if len(list(job.cut.spans())) > 1:
        yield "more than one tile"
    if any(calls_position(it) for it in statements):
        yield "row(), col(), nrows() or ncols()"
    if any(reach != Need() for it in statements for _, reach in reads_of(it)):
        yield "offsets"
    yield from {type(it).__name__ for it in statements}
    yield from {f"patches, connectivity {it.connectivity}" for it in job.questions}
    if any(it.zones for it in job.questions):
        yield "zones"
