"""Run a job over the tiles of its maps, join the results, and compare them with the full maps'."""
from __future__ import annotations

import os
import signal
import struct
from collections import Counter
from dataclasses import dataclass, field
from typing import Any, Iterable, NamedTuple, Optional, Sequence

import test_join
import test_plan
from joined_patches import Part, Patches, Run
from made import Cut
from patch_model import Cells
from patch_tables import PatchTables
from pipe_model import NULL, PATCHES, Frame, Question, Raster, Response, request, tile_request
from test_join import Entry, Line, Tables
from test_tiles import Span, cut_maps, cut_rows, place_of

SECONDS = 120
DONE = 0
CLUMP = 3  # in a plan
NO_MARGIN = (0, 0, 0, 0)

Margin = tuple[int, ...]  # rows above and below, columns to the left and right
Numbers = dict[tuple[int, int], int]  # the full map's number of a patch of a tile
Columns = list[tuple[Frame, tuple[Frame, ...]]]  # frames of the full map, and of the tiles


class Pipe:
    """Runs rcell-pipe. Its input and output are files in a folder, because these are faster than
    pipes."""

    def __init__(self, program: str, folder: str):
        self.program = os.path.abspath(program)
        self.request, self.response = f"{folder}/request", f"{folder}/response"
        writing = os.O_WRONLY | os.O_CREAT | os.O_TRUNC
        self.actions = [
            (os.POSIX_SPAWN_OPEN, 0, self.request, os.O_RDONLY, 0),
            (os.POSIX_SPAWN_OPEN, 1, self.response, writing, 0o600),
        ]
        signal.signal(signal.SIGALRM, stop_waiting)

    def run(self, data: bytes) -> tuple[int, bytes]:
        """Return the exit status and the response. Raise TimeoutError if the program hangs."""
        with open(self.request, "wb") as file:
            file.write(data)
        child = os.posix_spawn(self.program, [self.program], {}, file_actions=self.actions)
        try:
            signal.alarm(SECONDS)
            _, status = os.waitpid(child, 0)
        except TimeoutError:
            os.kill(child, signal.SIGKILL)
            os.waitpid(child, 0)
            raise
        finally:
            signal.alarm(0)
        with open(self.response, "rb") as file:
            return os.waitstatus_to_exitcode(status), file.read()


def stop_waiting(number: int, frame: Any) -> None:
    raise TimeoutError(f"no end after {SECONDS} s")


class Wrong(Exception):
    """A result of the tiles that differs from the full map's."""


class Sent(NamedTuple):
    """A request with its response."""

    data: bytes
    status: int
    output: bytes


@dataclass(frozen=True)
class Job:
    """Maps with a script and questions, and a cutting into tiles. A map in `numbered` contains the
    numbers of the patches that a question is about."""

    maps: list[Raster]
    script: bytes
    questions: list[Question]
    cut: Cut
    numbered: dict[bytes, int] = field(default_factory=dict)
    extra: int = 0  # rows and columns of the halo beyond those that the plan needs


def halo_of(frames: Sequence[test_plan.Frame], questions: Sequence[Question]) -> Margin:
    """Return the halo that a plan and questions need. Maps of r.clump are read only at the same
    cell."""
    depths: dict[bytes, Margin] = {}
    halo: Margin = NO_MARGIN
    for frame in frames:
        reads = (
            [a + b for a, b in zip(depths.get(name, NO_MARGIN), reach)]
            for name, reach in frame.reads
        )
        deepest = tuple(map(max, NO_MARGIN, NO_MARGIN, *reads))
        halo = tuple(map(max, halo, deepest))
        if frame.made:
            depths[frame.made] = NO_MARGIN if frame.command == CLUMP else deepest
    for question in questions:
        reach = depths.get(question.map, NO_MARGIN) if question.kind & PATCHES else NO_MARGIN
        depth = question.depth if question.kind & PATCHES else 0
        halo = tuple(max(side, it + depth) for side, it in zip(halo, reach))
    return halo


def widened(span: Span, size: int, before: int, after: int) -> Span:
    first = max(0, span[0] - before)
    return first, min(size, span[0] + span[1] + after) - first


def head(frame: Frame) -> Frame:
    """Return the fields of a frame that do not depend on the cells."""
    of_cells = "cells", "counts", "rows", "border", "patches", "zones"
    return {key: it for key, it in frame.items() if key not in of_cells}


def cells_of(line: Sequence[int]) -> Line:
    return tuple(None if cell == NULL else cell for cell in line)


def borders(cut: Cut, tiles: Iterable[bytes], connectivity: int) -> bytes:
    """Return the request that joins the tiles of a map, from their borders."""
    sizes = struct.pack("<BII", connectivity, len(cut.ends), len(cut.col_ends))
    return test_join.MAGIC + sizes + b"".join(tiles)


def full_numbers(runs: Iterable[Run]) -> Numbers:
    return {
        (tile, number): there + number - first
        for tile, first, last, there in runs
        for number in range(first, last + 1)
    }


def main_zones(table: Iterable[Entry], patches: int) -> list[Optional[int]]:
    """Return the main zone of each patch, from the table of patch numbers and zones."""
    best: dict[Optional[int], tuple[int, int]] = {}
    for (number, zone), count in table:
        if zone is not None:
            best[number] = min(best.get(number, (0, 0)), (-count, zone))
    return [best[it][1] if it in best else None for it in range(1, patches + 1)]


class Flow:
    """The requests of a job, their responses, and the results that are joined from them."""

    def __init__(self, pipe: Pipe, job: Job):
        self.pipe, self.job = pipe, job
        self.sent: list[Sent] = []
        self.numbers: list[Numbers] = []
        self.runs: list[list[Run]] = []

    def send(self, data: bytes) -> bytes:
        self.sent.append(Sent(data, *self.pipe.run(data)))
        return self.sent[-1].output

    def frames(self, data: bytes) -> list[Frame]:
        *frames, end = Response(self.send(data)).frames()
        if (self.sent[-1].status, end["status"]) != (DONE, DONE):
            raise Wrong(f"status {self.sent[-1].status}, {end}")
        return frames

    def joined(self, data: bytes) -> test_join.Found:
        """Return the result of a join request."""
        found, end = test_join.ResponseReader(self.send(data)).response()
        if (self.sent[-1].status, end.status) != (DONE, DONE):
            raise Wrong(f"{data!r}: {end}")
        return found

    def planned_halo(self) -> Margin:
        names = [it.name for it in self.job.maps]
        plan = self.send(test_plan.request(names, self.job.script))
        frames, end = test_plan.ResponseReader(plan).response()
        if end.status != DONE:
            raise Wrong(f"the plan: {end}")
        halo = halo_of(frames, self.job.questions)
        return tuple(side + self.job.extra for side in halo)

    def tile_requests(self) -> Iterable[bytes]:
        job, (up, down, left, right) = self.job, self.planned_halo()
        for rows, cols in job.cut.spans():
            height = widened(rows, len(job.cut.cells), up, down)
            width = widened(cols, len(job.cut.cells[0]), left, right)
            place = place_of(job.maps, rows, cols, height, width)
            yield tile_request(place, cut_maps(job.maps, height, width), job.script, job.questions)

    def check(self) -> None:
        """Raise Wrong if a result of the tiles is not the full map's."""
        job = self.job
        full = self.frames(request(job.maps, job.script, job.questions))
        tiles = [self.frames(it) for it in self.tile_requests()]
        for frames in tiles:
            if [head(it) for it in frames] != [head(it) for it in full]:
                raise Wrong(f"{frames} is not like {full}")
        columns: Columns = list(zip(full, zip(*tiles)))
        for at, question in enumerate(job.questions):
            answers = {it[0]["kind"]: it for it in columns if it[0].get("question") == at}
            runs = self.check_numbers(answers, question.connectivity)
            if question.kind & PATCHES:
                self.check_patches(*answers[b"PTCH"], runs)
                self.check_zones(columns, at, answers[b"PTCH"][0])
        for whole, parts in columns:
            if whole["kind"] == b"GRID":
                self.check_rows(whole["rows"], parts, job.numbered.get(whole["name"]))
            elif "cells" in whole:
                self.check_table(whole, parts)

    # Questions

    def check_numbers(self, answers: dict[bytes, tuple], connectivity: int) -> list[Run]:
        """Compare the joined numbers of a question's patches with the full map's numbers. Return
        the runs that join them."""
        sides = [it["border"] for it in answers[b"BORD"][1]]
        patches, runs = self.joined(borders(self.job.cut, sides, connectivity))
        self.numbers.append(full_numbers(runs))
        self.runs.append(runs)
        whole, parts = answers[b"NUMB"]
        most = max((it for row in whole["rows"] for it in row if it is not None), default=0)
        if patches != most:
            raise Wrong(f"{patches} patches, and not {most}")
        self.check_rows(whole["rows"], parts, len(self.numbers) - 1)
        return runs

    def check_patches(self, whole: Frame, parts: Sequence[Frame], runs: list[Run]) -> None:
        """Compare the joined measures of a question's patches with the full map's measures."""
        listed = tuple(
            Part(tile, number, patch)
            for tile, part in enumerate(parts, 1)
            for number, patch in enumerate(part["patches"], 1)
        )
        found = self.joined(Patches(tuple(runs), listed).data())
        if found != list(enumerate(whole["patches"], 1)):
            raise Wrong(f"{found}, and not {whole}")

    def check_zones(self, columns: Columns, question: int, measures: Frame) -> None:
        """Compare the patches' main zones, from the joined table, with the full map's zones."""
        zones = self.job.questions[question].zones
        for whole, parts in columns:
            is_table = whole["kind"] == b"TABL" and whole["counts"] is not None
            names = whole["names"] if is_table else []
            if names[1:] == [zones] and self.job.numbered.get(names[0]) == question:
                found = main_zones(self.merged(whole, parts), len(measures["patches"]))
                if found != measures["zones"]:
                    raise Wrong(f"zones {found}, and not {measures['zones']}")

    # Grids and tables

    def renumbered(
        self, cells: Iterable[Optional[int]], tile: int, question: Optional[int]
    ) -> Line:
        """Return the cells, with the full map's numbers if they are numbers of a tile's patches."""
        if question is None:
            return tuple(cells)
        numbers = self.numbers[question]
        return tuple(None if cell is None else numbers.get((tile, cell)) for cell in cells)

    def check_rows(self, rows: Cells, parts: Sequence[Frame], question: Optional[int]) -> None:
        """Check that the grids of tiles are cut out of the full map's grid."""
        for tile, (place, part) in enumerate(zip(self.job.cut.spans(), parts), 1):
            found = [list(self.renumbered(row, tile, question)) for row in part["rows"]]
            wanted = cut_rows(rows, *place)
            if found != wanted:
                raise Wrong(f"tile {tile}: {found}, and not {wanted}")

    def table(
        self, part: Frame, tile: int, questions: Sequence[Optional[int]]
    ) -> tuple[Entry, ...]:
        """Return the table of a tile. The columns of a question have the full map's numbers."""
        columns = zip(*map(cells_of, part["cells"]))
        lines = zip(*(self.renumbered(column, tile, it) for column, it in zip(columns, questions)))
        counts = part["counts"] if part["counts"] is not None else [1] * len(part["cells"])
        return tuple(zip(lines, counts))

    def merged(self, whole: Frame, parts: Sequence[Frame]) -> list[Entry]:
        """Return the sums of the tables of tiles, in the order of tables."""
        questions = [self.job.numbered.get(name) for name in whole["names"]]
        tables = [self.table(part, tile, questions) for tile, part in enumerate(parts, 1)]
        found: list[Entry] = self.joined(Tables(len(questions), tuple(tables)).data())
        if questions[0] is not None and (sums := self.patch_sums(parts, questions)) != found:
            raise Wrong(f"{sums} by the numbers of patches, and {found} with these numbers")
        return found

    def patch_sums(self, parts: Sequence[Frame], questions: Sequence[Optional[int]]) -> list[Entry]:
        """Return the sums of tables whose first column has the tile's patch numbers."""
        runs, others = self.runs[questions[0] or 0], (None, *questions[1:])
        tables = [(tile, self.table(part, tile, others)) for tile, part in enumerate(parts, 1)]
        sums = self.joined(PatchTables(tuple(runs), len(questions), tuple(tables)).data())
        sums.sort(key=lambda it: it[0] == 0)  # in tables, null is last
        return [((number or None, *line), count) for number, line, count in sums]

    def check_table(self, whole: Frame, parts: Sequence[Frame]) -> None:
        """Check that the tables of tiles add up to the full map's table."""
        wanted, found = [cells_of(line) for line in whole["cells"]], self.merged(whole, parts)
        if whole["kind"] == b"CELL":
            is_so = dict(found) == Counter(wanted)
        elif whole["counts"] is None:
            is_so = [line for line, _ in found] == wanted
        else:
            is_so = found == list(zip(wanted, whole["counts"]))
        if not is_so:
            raise Wrong(f"{found} is not {whole}")
