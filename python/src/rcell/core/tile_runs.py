# SPDX-License-Identifier: Apache-2.0 OR GPL-2.0-or-later
"""Run a script over tiles, with the same outputs as one run over the full maps.

Tables are added up, and maps are assembled. Each r.clump is processed first, tile by tile: the
clumps are joined, and the clump map is then treated as a given map. Laws of this project state that
tiles give the same results as one run. Each step names its law.
"""

from __future__ import annotations

from collections.abc import Callable, Iterator, Mapping, Sequence
from contextlib import contextmanager
from dataclasses import dataclass
from typing import Any, TypeVar
from uuid import uuid4

import numpy as np

from .arrays import NDArray
from .borders import Watch
from .crews import Crew
from .errors import BadMap, ReadFailed
from .host import host
from .kept import cells_for
from .pieces import is_file
from .protocol import BORDER, NULL, NUMBERS, PATCHES, Question, Statement
from .rectangles import Rectangle, rectangles_of
from .resuming import Shelf, state_of
from .runs import Fold, Output
from .sources import MAX_CATEGORY, ArrayMap, Source
from .tile_clumps import Joined, join, open_clumps, renumber, wide
from .tile_scripts import makers, maps_read_by, question_about, reach_of, text_of
from .tile_tables import TableSum
from .tile_work import TileDone, TileWork
from .tiling import Demand, cluster, tile_size, work

__all__ = ["ask_tiles", "demand_of", "outputs_in", "run_tiles", "table_output"]

Integers = NDArray[Any]
Result = TypeVar("Result")
Put = Callable[[Rectangle, list[Integers]], list[Integers]]


def demand_of(
    plan: Sequence[Statement], maps: Mapping[str, Source], *questions: Question
) -> Demand:
    """Return the memory per cell and the halo that a tile needs for a script and for questions."""
    outputs = outputs_in(plan)
    used = makers(plan, maps_read_by(outputs), maps)
    # The patches that a question lists usually need less memory than a map.
    grids = sum(output.command == "r.out.ascii" for output in outputs) + len(questions)
    clumps = sum(statement.command == "r.clump" for statement in plan)
    reach = reach_of([*used, *outputs], questions)
    return Demand.of(maps, len(used) + clumps, grids + 2 * (clumps > 0), clumps, reach)


def outputs_in(plan: Sequence[Statement]) -> list[Statement]:
    """Return the statements of a plan that write an output."""
    return [statement for statement in plan if statement.command in ("r.stats", "r.out.ascii")]


def run_tiles(
    plan: Sequence[Statement],
    maps: Mapping[str, Source],
    demand: Demand,
    fold: Fold | None = None,
) -> list[Output]:
    """Run a script in tiles over maps of one region, and return the script's outputs.

    Parameters
    ----------
    plan : sequence of Statement
        The plan of the script.
    maps : mapping of str to Source
        The maps, all of which must define `window`.
    demand : Demand
    fold : Fold, optional
        See `execute`.

    Raises
    ------
    OutOfMemory, WriteFailed
        There is not enough memory for a tile, or disk space for the cells of a map.
    Refused, BadMap, Killed, MissingProgram, WrongProgram
        See `execute`.
    """
    clumps = [statement for statement in plan if statement.command == "r.clump"]
    outputs = outputs_in(plan)
    numbered = {clump.made for clump in clumps}
    rest = [statement for statement in outputs if not _is_map_of(statement, numbered)]
    passes = 1 if fold is not None else 2 * len(clumps) + bool(rest)

    def outputs_of(tiles: _Tiles) -> list[Output]:
        if fold is not None:
            tiles.fold(plan, clumps[0], outputs[0], fold)
            return []
        for clump in clumps:
            tiles.add_clumps(plan, clump, is_last=not rest and clump is clumps[-1])
        made_outputs = iter(tiles.outputs(plan, rest) if rest else [])
        return [
            tiles.clumps(statement) if _is_map_of(statement, numbered) else next(made_outputs)
            for statement in outputs
        ]

    return _in_tiles(maps, demand, passes, outputs_of)


def ask_tiles(
    question: Question,
    plan: Sequence[Statement],
    maps: Mapping[str, Source],
    demand: Demand,
    fold: Fold,
) -> None:
    """Measure the patches of a map tile by tile, and pass them to a fold.

    Parameters
    ----------
    question : Question
    plan : sequence of Statement
        The plan of a script with tables over the numbers of patches, or empty.
    maps, demand
        See `run_tiles`, which also lists the errors.
    fold : Fold
    """
    _in_tiles(maps, demand, 1, lambda tiles: tiles.measure(plan, question, fold))


def _in_tiles(
    maps: Mapping[str, Source], demand: Demand, passes: int, do: Callable[[_Tiles], Result]
) -> Result:
    """Call a function that processes each tile of maps `passes` times, and return its result."""
    found_cluster = cluster()
    size, workers = tile_size(maps, demand, found_cluster)
    shape = next(iter(maps.values())).region.shape
    places = rectangles_of(shape, size)
    states = _states(maps)
    steps = passes * len(places)
    with _first_bad_cell(maps), Crew(workers, steps, cluster=found_cluster) as crew:
        tiles = _Tiles(crew, dict(maps), places, shape)
        result = do(tiles)
        tiles.finish()
        _check_states(states)
        return result


def _states(maps: Mapping[str, Source]) -> dict[str, str]:
    """Return the state of each map file, by path."""
    states = {}
    for source in maps.values():
        if is_file(source):
            states.update({path: state_of(path) for path in source.files})
    return states


def _check_states(states: Mapping[str, str]) -> None:
    for path, state in states.items():
        if state_of(path) != state:
            raise ReadFailed(path, "changed while it was read")


@contextmanager
def _first_bad_cell(maps: Mapping[str, Source]) -> Iterator[None]:
    """Raise the error for the first invalid cell in reading order, as one run would."""
    try:
        yield
    except BadMap as error:
        for source in maps.values():
            if error.row and source.name == error.source:
                for _ in source.blocks():  # which raises the error
                    pass
        raise


def _is_map_of(output: Statement, names: set[str]) -> bool:
    """Return whether a statement writes one of the named maps."""
    return output.command == "r.out.ascii" and output.inputs[0] in names


class _Tiles:
    """The tiles of a call, with its input maps and the clump maps computed so far.

    Parameters
    ----------
    crew : Crew
    maps : dict of str to Source
    places : sequence of Rectangle
    shape : tuple of two ints
    """

    def __init__(
        self,
        crew: Crew,
        maps: dict[str, Source],
        places: Sequence[Rectangle],
        shape: tuple[int, int],
    ) -> None:
        self._crew, self._maps, self._places, self._shape = crew, maps, places, shape
        self._watches = {name: Watch(name, source, shape) for name, source in maps.items()}
        self._unread = dict.fromkeys(maps)  # the maps whose cells have not been checked by any run
        self._call = uuid4().hex  # identifies the call on the workers of a cluster
        self._shelf = Shelf.of(work().resume, maps, shape)

    def finish(self) -> None:
        """Issue the warnings about nodata values along the border of the maps."""
        for watch in self._watches.values():
            watch.finish()

    def outputs(self, plan: Sequence[Statement], outputs: Sequence[Statement]) -> list[Output]:
        """Return the outputs of statements, whose clump maps must already be known.

        By the law `tables_after_runs_merge_into_full_table`, the tables of the tiles add up to the
        full map's table.
        """
        sums: list[TableSum | _Grid] = [
            TableSum(len(statement.inputs), "c" in statement.options)
            if statement.command == "r.stats"
            else _Grid(self._shape)
            for statement in outputs
        ]
        for index, results in self._run(self._script(plan, outputs)):
            for total, result in zip(sums, results):
                if isinstance(total, TableSum):
                    total.add(result)
                else:
                    total.put(self._places[index], result)
        return [_output(statement, total) for statement, total in zip(outputs, sums)]

    def fold(
        self, plan: Sequence[Statement], clump: Statement, stats: Statement, fold: Fold
    ) -> None:
        """Pass the table of an `r.stats` statement over clumps to a fold, tile by tile.

        The clump map is never created.
        """
        question, borders = question_about(clump, BORDER), {}
        for index, (table, border) in self._run(self._script(plan, [stats]), question):
            borders[index] = border
            fold.add(index, table, open_clumps(border), [])
        fold.join(self._joined(borders, question))

    def measure(self, plan: Sequence[Statement], question: Question, fold: Fold) -> None:
        """Pass each tile's patch measures and tables to a fold.

        By the law `tile_questions_have_full_map_measures`, the measures are the full map's. The
        first column of each table is the patch number.
        """
        question, borders = question._replace(zones="", kind=PATCHES + BORDER), {}
        found = self._run(self._script(plan, outputs_in(plan)), question)
        for index, (*tables, border, rows) in found:
            borders[index] = border
            fold.add(index, rows, open_clumps(border), tables)
        fold.join(self._joined(borders, question))

    def add_clumps(self, plan: Sequence[Statement], clump: Statement, is_last: bool) -> None:
        """Compute the map of an `r.clump` statement, and add the map to the known maps.

        Each tile's clump numbers are kept until the clumps are joined, and then replaced with the
        full map's clump numbers.
        """
        question = question_about(clump, NUMBERS + BORDER)
        numbers = cells_for(self._shape, np.int32)

        def keep_numbers(place: Rectangle, results: list[Integers]) -> list[Integers]:
            clumps, border = results
            place.part_of(self._full, numbers)[...] = wide(clumps)
            return [border]

        script = makers(plan, clump.inputs, self._maps)
        found = self._run(script, question, is_last, False, keep_numbers)
        borders = {index: border for index, [border] in found}
        self._maps[clump.made] = ArrayMap(
            clump.made,
            self._numbered(numbers, self._joined(borders, question)),
            next(iter(self._maps.values())).region,
            nodata_value=NULL,
        )

    def _script(self, plan: Sequence[Statement], outputs: Sequence[Statement]) -> list[Statement]:
        """Return the statements of a plan that `outputs` need, followed by `outputs`."""
        return [*makers(plan, maps_read_by(outputs), self._maps), *outputs]

    def _run(
        self,
        script: Sequence[Statement],
        question: Question | None = None,
        is_last: bool = True,
        is_kept: bool = True,
        put: Put = lambda _, results: results,
    ) -> Iterator[tuple[int, list[Integers]]]:
        """Yield the index and the results of each tile as tiles complete.

        A run reads the maps that the script and the question need. The last run also reads all maps
        that no run has read, to check their cells. Results are kept for resuming, unless `is_kept`
        is False because they are too large. The tile's thread passes them to `put`, and what `put`
        returns is yielded.
        """
        questions = () if question is None else (question,)
        read = maps_read_by(script) | {question.map for question in questions}
        if is_last:
            read |= set(self._unread)
        maps = {name: source for name, source in self._maps.items() if name in read}
        if not maps:  # a script that reads no map runs over the first map
            name = next(iter(self._maps))
            maps = {name: self._maps[name]}
        watched = tuple(name for name in maps if name in self._unread)
        reach = reach_of(script, questions)
        text = text_of(script)
        common = self._shape, maps, watched, host().words, self._call

        def prepare(place: Rectangle) -> TileWork:
            outer = place.with_halo(reach, self._shape)
            work = TileWork(text, questions, place, outer, *common)
            return self._shelf.known(work) if is_kept else work

        def finish(work: TileWork, done: TileDone) -> list[Integers]:
            for name, counts in done.counts.items():
                self._watches[name].merge(counts)
            self._shelf.keep(work.path, done)
            return put(work.place, done.results)

        yield from self._crew.run(prepare, finish, self._places)
        for name in watched:
            del self._unread[name]

    def clumps(self, output: Statement) -> Output:
        """Return the clump map that a statement writes."""
        source = self._maps[output.inputs[0]]
        assert isinstance(source, ArrayMap)
        return Output("r.out.ascii", output.line, output.inputs, source.array)

    def _joined(self, borders: Mapping[int, Integers], question: Question) -> Joined:
        """Join the clumps of all tiles, given the border of each tile by index."""
        columns = sum(place.top == 0 for place in self._places)
        ordered = [borders[index] for index in range(len(borders))]
        return join(ordered, columns, question.connectivity)

    @property
    def _full(self) -> Rectangle:
        return Rectangle(0, 0, *self._shape)

    def _numbered(self, clumps: Integers, joined: Joined) -> Integers:
        """Replace the clump numbers of tiles with the full map's numbers, in place if they fit."""
        is_wide = joined.clumps > MAX_CATEGORY
        numbers = cells_for(self._shape, np.int64) if is_wide else clumps
        tiles = {place: tile for tile, place in enumerate(self._places)}

        def number(place: Rectangle) -> None:
            own, new = (place.part_of(self._full, cells) for cells in (clumps, numbers))
            renumber(own, joined.numbers_of(tiles[place]), out=new)

        for _ in self._crew.each(number, self._places):
            pass
        return numbers


@dataclass
class _Grid:
    """A map assembled from tiles, stored as bytes until a tile's cells do not fit in bytes."""

    shape: tuple[int, int]

    def __post_init__(self) -> None:
        self.cells = cells_for(self.shape, np.uint8)
        self._done: list[Rectangle] = []

    def put(self, place: Rectangle, cells: Integers) -> None:
        """Write the cells of a tile into the map."""
        full = Rectangle(0, 0, *self.shape)
        if cells.dtype == np.int32 and self.cells.dtype == np.uint8:
            narrow, self.cells = self.cells, cells_for(self.shape, np.int32)
            for done in self._done:
                done.part_of(full, self.cells)[...] = wide(done.part_of(full, narrow))
        if self.cells.dtype == np.int32 and cells.dtype == np.uint8:
            cells = wide(cells)
        place.part_of(full, self.cells)[...] = cells
        self._done.append(place)


def _output(statement: Statement, total: TableSum | _Grid) -> Output:
    if isinstance(total, _Grid):
        return Output("r.out.ascii", statement.line, statement.inputs, total.cells)
    return table_output(statement, total.table())


def table_output(statement: Statement, values: Any) -> Output:
    """Return the output of an `r.stats` statement, given the entries and counts of its table."""
    inputs, options = statement.inputs, statement.options
    return Output("r.stats", statement.line, inputs, values, "c" in options, "l" in options)
