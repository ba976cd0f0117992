# SPDX-License-Identifier: Apache-2.0 OR GPL-2.0-or-later
"""Run scripts with rcell-pipe, which reads binary maps and returns binary tables and maps."""

from __future__ import annotations

from dataclasses import dataclass, replace
from typing import Any, Iterable, Iterator, Mapping, Protocol, Sequence

import numpy as np

from . import protocol
from .arrays import NDArray
from .borders import watched
from .edges import CELL_LIMIT, SIDE_LIMIT, fits_one_run
from .errors import BadMap
from .host import host
from .programs import Path, find_pipe, program_errors
from .sources import Source
from .tile_clumps import PATCH, ZONED_PATCH, Joined

__all__ = [
    "Fold",
    "Output",
    "ask",
    "check_size",
    "execute",
    "execute_once",
    "grid_text",
    "planned",
    "printed",
    "values_of",
]


@dataclass(frozen=True)
class Output:
    """The output of one statement in a script.

    Attributes
    ----------
    command : {"r.stats", "r.out.ascii"}
    line : int
        The line of the statement in the script, or 0 for a map that was requested by name.
    maps : tuple of str
        The maps that the statement read.
    values : array
        For a table, int64, entries x columns: the categories of each map, with `NULL` for null, and
        the number of cells if it was requested. For a map, rows x cols: int32 with `NULL` for null,
        or bytes with 255 for null. A map assembled from tiles may contain 64-bit patch numbers.
    has_counts, has_labels : bool
        Whether the statement has the flags `-c` and `-l`.
    """

    command: str
    line: int
    maps: tuple[str, ...]
    values: NDArray[Any]
    has_counts: bool = False
    has_labels: bool = False


class Fold(Protocol):
    """Receives patches tile by tile."""

    def add(
        self, tile: int, rows: NDArray[Any], waiting: NDArray[Any], tables: list[NDArray[Any]]
    ) -> None:
        """Receive a tile's patches, which are numbered within the tile.

        Parameters
        ----------
        tile : int
        rows : array
            The program's measures of the patches, or an `r.stats` table over patches.
        waiting : array
            The numbers of the patches that may continue in other tiles.
        tables : list of arrays
            If `rows` contains measures: `r.stats` tables whose first column is the patch number.
        """

    def join(self, joined: Joined | None) -> None:
        """Join the waiting patches of all tiles. `joined` is None if there was only one run."""


def execute(
    script: str,
    maps: Mapping[str, Source],
    *,
    wanted: Sequence[str] = (),
    program: Path | None = None,
    fold: Fold | None = None,
) -> list[Output]:
    """Run a script over maps of one region, in one run or in tiles with the same outputs.

    All calls get their tables and maps from this function.

    Parameters
    ----------
    script : str
    maps : mapping of str to Source
        One or more maps, by name. All maps must have the region of the first map.
    wanted : sequence of str
        Maps of the script whose cells are returned after the script's outputs.
    program : path, optional
        The path of rcell-pipe.
    fold : Fold, optional
        Receives the table of a script with an r.clump and an r.stats over its map, tile by tile.
        The table is then not among the outputs.

    Returns
    -------
    list of Output
        The outputs in the order of the script's statements, then the requested maps.

    Raises
    ------
    Refused
        The program rejects a map or the script. The error names a line of the caller's script.
    BadMap
        A cell is neither null nor a whole number in range.
    OutOfMemory, Killed, MissingProgram, WrongProgram
    """
    from .tile_runs import demand_of, run_tiles
    from .tiling import DryRun, describe, is_small, takes_one_run, work

    engine = work().engine
    if engine is not None:
        outputs: list[Output] = engine(script, maps, wanted, fold)
        return _numbered(outputs, len(wanted))
    lines = "\n".join([script, *(f"r.out.ascii input={name}" for name in wanted)])
    if not is_small(maps) or work().is_dry:
        plan = planned(lines, maps, program=program)
        demand = demand_of(plan, maps)
        if work().is_dry:
            reads = 1 + sum(each.command == "r.clump" for each in plan) * (fold is None)
            raise DryRun(describe(plan, maps, demand, reads))
        if not takes_one_run(plan, maps, demand):
            _tell_host(script, maps)
            outputs = run_tiles(plan, maps, demand, fold)
            return _numbered(outputs, len(wanted))
    outputs = execute_once(script, maps, wanted=wanted, program=program)
    if fold is None:
        return outputs
    fold.add(0, outputs[0].values, np.empty(0, np.int64), [])
    return []


def execute_once(
    script: str,
    maps: Mapping[str, Source],
    *,
    wanted: Sequence[str] = (),
    program: Path | None = None,
) -> list[Output]:
    """Run a script over maps without tiles; see `execute`."""
    frames = _frames(script, maps, (), wanted, program)
    return _numbered([_output(frame) for frame in frames], len(wanted))


def ask(
    question: protocol.Question,
    clump: str,
    maps: Mapping[str, Source],
    fold: Fold,
) -> bool:
    """Measure the patches of a map, in one run or in tiles, and pass them to a fold.

    Parameters
    ----------
    question : Question
    clump : str
        The script line that numbers the patches as `patch`. Tiles use this line to count the zones
        of patches in a table.
    maps : mapping of str to Source
    fold : Fold

    Returns
    -------
    bool
        Whether the patches were passed to the fold. Hosts that run scripts themselves do not
        support questions.
    """
    from .tile_runs import ask_tiles, demand_of
    from .tiling import DryRun, describe, is_small, takes_one_run, work

    if work().engine is not None:
        return False
    if not is_small(maps) or work().is_dry:
        stats = [f"r.stats -c -n input=patch,{question.zones}"] if question.zones else []
        plan = planned("\n".join([clump, *stats]), maps)
        demand = demand_of(plan, maps, question)
        if work().is_dry:
            raise DryRun(describe(plan, maps, demand, 1))
        if not takes_one_run(plan, maps, demand):
            _tell_host("\n".join(["", question.text()]), maps)
            ask_tiles(question, plan, maps, demand, fold)
            return True
    [found] = _frames("", maps, (question,))
    fold.add(0, values_of(found), np.empty(0, np.int64), [])
    fold.join(None)
    return True


def planned(
    script: str, names: Iterable[str], *, program: Path | None = None
) -> list[protocol.Statement]:
    """Return the plan of a script, which lists what each statement reads, creates and needs.

    Raises the same errors as `execute`.
    """
    known = list(names)
    with program_errors(script, known, path := find_pipe(program)):
        return protocol.plan(path, known, protocol.script_bytes(script), watch=host().watch)


def printed(script: str, maps: Mapping[str, Source], *, program: Path | None = None) -> bytes:
    """Return the text that rcell prints for a script in one run.

    Arguments and errors are the same as in `execute`.
    """
    check_size(maps)
    with program_errors(script, list(maps), path := find_pipe(program)):
        return b"".join(
            protocol.text(path, _sent(maps), protocol.script_bytes(script), watch=host().watch)
        )


def grid_text(source: Source) -> bytes:
    """Return a map as a text grid."""
    return printed("r.out.ascii input=map", {"map": source})


def _frames(
    script: str,
    maps: Mapping[str, Source],
    questions: Sequence[protocol.Question] = (),
    wanted: Sequence[str] = (),
    program: Path | None = None,
) -> list[protocol.Frame]:
    """Run a script and return a frame for each of its outputs, each requested map and each question."""
    check_size(maps)
    lines = [script, *(f"r.out.ascii input={name}" for name in wanted)]
    _tell_host("\n".join([script, *(question.text() for question in questions)]), maps)
    with program_errors(script, list(maps), path := find_pipe(program)):
        words = protocol.script_bytes("\n".join(lines))
        return protocol.run(path, _sent(maps), words, questions, watch=host().watch)


def _tell_host(script: str, maps: Mapping[str, Source]) -> None:
    started = host().started
    if started is not None:
        started(script, maps)


def check_size(maps: Mapping[str, Source]) -> None:
    """Raise BadMap if maps are too large for a call that cannot use tiles."""
    source = next(iter(maps.values()))
    if not fits_one_run(source.region.shape):
        rows, cols = source.region.shape
        limits = f"at most {SIDE_LIMIT:,} rows and columns, and {CELL_LIMIT:,} cells"
        size = f"has {rows:,} rows and {cols:,} columns, but this call accepts {limits}"
        raise BadMap(source.name, f"{size}: cut the map first, for example with gdal_translate")


def _sent(maps: Mapping[str, Source]) -> protocol.Maps:
    """Convert maps to the program's input maps, whose blocks are sent one after another."""
    region = next(iter(maps.values())).region
    progress = _Progress(region.rows * region.cols * len(maps))
    sent = [_map_of(name, source, progress) for name, source in maps.items()]
    return protocol.Maps(region.edges, *region.shape, sent)


def _map_of(name: str, source: Source, progress: _Progress) -> protocol.Map:
    from .text_grids import TextMap

    if isinstance(source, TextMap):
        source = source.read()  # as bytes, if the cells fit
    kind = source.dtype.kind + str(8 * source.dtype.itemsize)
    blocks = _pieces(name, source, progress)
    return protocol.Map(name, kind, blocks, source.nodata, source.is_masked)


def _pieces(name: str, source: Source, progress: _Progress) -> Iterator[protocol.Block]:
    for block in watched(name, source):
        null = None if block.null is None else block.null.view(np.uint8).data
        yield protocol.Block(block.cells.data, null)
        progress.add(block.cells.size)


class _Progress:
    """Reports to the host the fraction of cells sent to the program."""

    def __init__(self, cells: int) -> None:
        self._cells = cells
        self._sent = 0

    def add(self, cells: int) -> None:
        """Add to the number of sent cells and report the fraction to the host."""
        self._sent += cells
        report = host().progress
        if report is not None:
            report(self._sent / self._cells)


def _numbered(outputs: list[Output], wanted: int) -> list[Output]:
    """Return the outputs, with the line of each requested map set to 0."""
    first = len(outputs) - wanted
    return outputs[:first] + [replace(output, line=0) for output in outputs[first:]]


def _output(frame: protocol.Frame) -> Output:
    """Convert a frame with a table or a map to an output."""
    values = values_of(frame)
    if isinstance(frame, protocol.GridFrame):
        return Output("r.out.ascii", frame.line, (frame.name,), values)
    assert isinstance(frame, protocol.TableFrame)
    has_counts, has_labels = frame.counts is not None, frame.labels is not None
    return Output("r.stats", frame.line, frame.names, values, has_counts, has_labels)


def values_of(frame: protocol.Frame) -> NDArray[Any]:
    """Return the content of a frame: a table, a map, a border, or rows of patch measures.

    Null in a map is `NULL_BYTE` if the cells are bytes, and otherwise `NULL`.
    """
    if isinstance(frame, protocol.TableFrame):
        return _entries_of(frame)
    if isinstance(frame, protocol.PatchesFrame):
        return np.frombuffer(frame.rows, ZONED_PATCH if frame.has_zones else PATCH)
    if isinstance(frame, protocol.BorderFrame):
        return np.asarray(frame.border)
    return np.asarray(frame.cells).reshape(frame.rows, frame.cols)


def _entries_of(frame: protocol.TableFrame) -> NDArray[np.int64]:
    """Return a table's entries and counts as an array in column-major order."""
    width = len(frame.names)
    columns = np.empty((width + (frame.counts is not None), frame.entries), np.int64)
    columns[:width] = np.asarray(frame.cells).reshape(frame.entries, width).T
    if frame.counts is not None:
        columns[-1] = np.asarray(frame.counts)
    return columns.T
