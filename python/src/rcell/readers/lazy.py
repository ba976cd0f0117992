# SPDX-License-Identifier: Apache-2.0 OR GPL-2.0-or-later
"""Build lazy results, as Dask graphs of the work on chunks."""

from __future__ import annotations

from collections.abc import Callable, Mapping, Sequence
from contextlib import suppress
from dataclasses import replace
from itertools import accumulate
from typing import Any
from uuid import uuid4

import numpy as np

from .. import frames
from ..core.arrays import NDArray
from ..core.clusters import run_on_worker, sent_parts
from ..core.errors import BadArgument, BadMap
from ..core.libraries import need
from ..core.pieces import Chunks
from ..core.protocol import BORDER, NULL, NUMBERS, Question, Statement
from ..core.rectangles import Rectangle
from ..core.runs import Fold, Output, planned
from ..core.sources import MAX_CATEGORY, ArrayMap, Source
from ..core.tile_clumps import Joined, join, renumber, wide
from ..core.tile_runs import demand_of, outputs_in, table_output
from ..core.tile_scripts import makers, maps_read_by, question_about, reach_of, text_of
from ..core.tile_tables import summed
from ..core.tile_work import TileDone, TileWork
from ..core.tiling import cluster, tile_size, working
from .xarray import DataArrayMap, data_array, is_lazy

__all__ = ["lazy_map", "lazy_table"]

Integers = NDArray[Any]
_NOTHING: Integers = np.empty(0, np.int64)


def lazy_map(make: Callable[[], Any]) -> Any:
    """Return the map of a call as a lazy DataArray with the chunks of the first Dask map.

    Parameters
    ----------
    make : callable
        A function that makes the call and returns a core map.

    Raises
    ------
    BadArgument
        The map depends on a table.
    """
    first_maps: list[Source] = []  # of each script

    def engine(
        script: str, maps: Mapping[str, Source], wanted: Sequence[str], fold: Fold | None
    ) -> list[Output]:
        first_maps.append(next(iter(maps.values())))
        outputs = _graph_of(script, maps, wanted)
        if any(output.command == "r.stats" for output in outputs):
            raise BadArgument("compute", "must be True: this map depends on a table of all cells")
        return outputs

    with working(engine=engine):
        result = make()
    first = first_maps[0]
    like = first.array if isinstance(first, DataArrayMap) else None
    return data_array(
        result.array, result.transform, result.crs, result.labels, result.name, like=like
    )


def lazy_table(name: str, words: Sequence[Any], named: Mapping[str, Any]) -> Any:
    """Return a Dask Delayed for the result of a call that depends on tables.

    The call runs twice: now, until it requests its tables, and again once these are computed.
    """
    requested: list[Output] = []

    def engine(
        script: str, maps: Mapping[str, Source], wanted: Sequence[str], fold: Fold | None
    ) -> list[Output]:
        requested.extend(_graph_of(script, maps, wanted))
        raise _TablesRequested

    with suppress(_TablesRequested), working(engine=engine):
        getattr(frames, name)(*words, **named)
    if not requested or any(output.command != "r.stats" for output in requested):
        raise BadArgument("compute", "must be True: this call needs a map of all cells")
    hollow_words = [_hollow(word) for word in words]
    hollow_named = {key: _hollow(word) for key, word in named.items()}
    outputs = [replace(output, values=_NOTHING) for output in requested]
    dask = need("dask", "xarray", "to compute results later")
    hidden = _Hidden((name, hollow_words, hollow_named, outputs))
    return dask.delayed(_computed)(hidden, [output.values for output in requested])


class _TablesRequested(Exception):
    """Raised to end a call that has requested its tables."""


class _Hidden:
    """Hides Dask arrays from Dask, so that Dask does not compute them."""

    def __init__(self, content: Any) -> None:
        self.content = content


def _hollow(argument: Any) -> Any:
    """Replace the cells of a Dask argument with zeros.

    Only the argument's position, type and labels are still needed.
    """
    if isinstance(argument, (list, tuple)):
        return type(argument)(map(_hollow, argument))
    if type(argument).__module__.partition(".")[0] != "xarray":
        return argument
    if hasattr(argument, "data_vars"):  # a Dataset
        return argument.map(_hollow, keep_attrs=True)
    if not is_lazy(argument):
        return argument
    zeros = need("dask.array", "xarray", "to use Dask arrays").zeros
    hollow = argument.copy(data=zeros(argument.shape, argument.dtype, chunks=argument.chunks))
    hollow.encoding = argument.encoding
    return hollow


def _computed(hidden: _Hidden, tables: Sequence[Integers]) -> Any:
    """Return the result of a call from its computed tables."""
    name, words, named, outputs = hidden.content
    scripts: list[str] = []

    def engine(
        script: str, maps: Mapping[str, Source], wanted: Sequence[str], fold: Fold | None
    ) -> list[Output]:
        if scripts:
            raise BadArgument("compute", "must be True: this call needs several tables in turn")
        scripts.append(script)
        if fold is None:
            return [replace(output, values=values) for output, values in zip(outputs, tables)]
        [table] = tables
        fold.add(0, table, _NOTHING, [])  # the only tile, so no patch continues
        return []

    with working(engine=engine):
        return getattr(frames, name)(*words, **named)


def _graph_of(script: str, maps: Mapping[str, Source], wanted: Sequence[str]) -> list[Output]:
    """Return the outputs of a script for Dask: maps as Dask arrays, tables as Delayed."""
    lines = "\n".join([script, *(f"r.out.ascii input={name}" for name in wanted)])
    plan = planned(lines, maps)
    if any("1" in statement.options for statement in plan):
        raise BadArgument(
            "compute", "must be True: r.stats -1 lists cells, which requires a single run"
        )
    for source in maps.values():
        if not hasattr(source, "window"):
            raise BadMap(
                source.name,
                "cannot be read in parts: convert it to a GeoTIFF, or omit compute=False",
            )
    graph = _Graph(dict(maps), _chunks_of(plan, maps))
    for clump in (statement for statement in plan if statement.command == "r.clump"):
        graph.add_clumps(plan, clump)
    return graph.outputs(plan)


def _chunks_of(plan: Sequence[Statement], maps: Mapping[str, Any]) -> Any:
    """Return the chunk sizes of results: the chunks of the first Dask map, or tiles."""
    for source in maps.values():
        array: Any = getattr(source, "array", None)
        if is_lazy(array) and not isinstance(source, ArrayMap):
            return array.chunks
    shape = next(iter(maps.values())).region.shape
    size, _ = tile_size(maps, demand_of(plan, maps), cluster())
    chunks = []
    for total, step in zip(shape, size):
        starts = range(0, total, step)
        chunks.append(tuple(min(step, total - start) for start in starts))
    return tuple(chunks)


class _ComputedMap:
    """A map that the graph computes, as a Dask array."""

    def __init__(self, name: str, array: Any, nodata: int) -> None:
        self._name, self._array, self._nodata = name, array, nodata

    def sent(self, outer: Rectangle) -> Chunks:
        """Return the Dask chunks that contain a window."""
        top, left, rows, cols = outer
        cells = self._array[top : top + rows, left : left + cols]
        return Chunks(self._name, self._array.dtype, self._nodata, is_masked=False, cells=cells)


class _Graph:
    """The Dask graph that processes a map chunk by chunk.

    Parameters
    ----------
    maps : dict of str to Source
    chunks : tuple of two tuples of int
    """

    def __init__(self, maps: dict[str, Any], chunks: tuple[tuple[int, ...], tuple[int, ...]]):
        self._maps, self._chunks, self._call = maps, chunks, uuid4().hex
        row_chunks, col_chunks = chunks
        self._shape = sum(row_chunks), sum(col_chunks)
        tops, lefts = accumulate(row_chunks, initial=0), list(accumulate(col_chunks, initial=0))
        self._places = [
            Rectangle(top, left, rows, cols)
            for top, rows in zip(tops, row_chunks)
            for left, cols in zip(lefts, col_chunks)
        ]
        self._delayed = need("dask", "xarray", "to compute results later").delayed
        self._dask = need("dask.array", "xarray", "to use Dask arrays")

    def outputs(self, plan: Sequence[Statement]) -> list[Output]:
        """Return the outputs of a plan, whose clump maps must have been added."""
        statements = outputs_in(plan)
        tiles = self._run([*makers(plan, maps_read_by(statements), self._maps), *statements])
        outputs = []
        for index, statement in enumerate(statements):
            if statement.command == "r.stats":
                table = self._delayed(_added)(statement, index, tiles)
                outputs.append(table_output(statement, table))
            else:
                cells = [self._delayed(_cells_of)(index, tile) for tile in tiles]
                values = self._array_of(cells)
                outputs.append(Output("r.out.ascii", statement.line, statement.inputs, values))
        return outputs

    def add_clumps(self, plan: Sequence[Statement], clump: Statement) -> None:
        """Add the map of an `r.clump` statement to the maps of the graph."""
        question = question_about(clump, NUMBERS + BORDER)
        tiles = self._run(makers(plan, clump.inputs, self._maps), question)
        _, col_chunks = self._chunks
        full = self._delayed(_joined)(tiles, len(col_chunks), question.connectivity)
        cells = [self._delayed(_renumbered)(index, tile, full) for index, tile in enumerate(tiles)]
        self._maps[clump.made] = _ComputedMap(clump.made, self._array_of(cells), NULL)

    def _run(self, script: Sequence[Statement], *questions: Question) -> list[Any]:
        """Return the delayed results of a script and of questions for each chunk."""
        read = maps_read_by(script) | {question.map for question in questions}
        maps = {name: source for name, source in self._maps.items() if name in read}
        if not maps:  # a script that reads no map still needs the region of a map
            name, source = next(iter(self._maps.items()))
            maps = {name: source}
        run, text, reach = self._delayed(run_on_worker), text_of(script), reach_of(script)
        done = []
        for place in self._places:
            outer = place.with_halo(reach, self._shape)
            work = TileWork(text, questions, place, outer, self._shape, maps, call=self._call)
            done.append(run(*sent_parts(work)))
        return done

    def _array_of(self, cells: Sequence[Any]) -> Any:
        """Combine int32 blocks into one array."""
        arrays = [
            self._dask.from_delayed(block, (place.rows, place.cols), np.int32)
            for block, place in zip(cells, self._places)
        ]
        _, col_chunks = self._chunks
        across = len(col_chunks)
        rows = [arrays[start : start + across] for start in range(0, len(arrays), across)]
        return self._dask.block(rows)


def _added(statement: Statement, index: int, tiles: Sequence[TileDone]) -> Integers:
    """Add up the tables of all chunks and return the table of the full map."""
    return summed([tile.results[index] for tile in tiles], "c" in statement.options)


def _cells_of(index: int, tile: TileDone) -> Integers:
    """Return the cells of a chunk's map as int32."""
    cells: Integers = tile.results[index]
    return wide(cells)


def _joined(tiles: Sequence[TileDone], columns: int, connectivity: int) -> Joined:
    """Return the numbering of the full map, from the patch numbers and border of each chunk."""
    borders = [border for _, border in (tile.results for tile in tiles)]
    full = join(borders, columns, connectivity)
    if full.clumps > MAX_CATEGORY:
        problem = f"a lazy map can have at most {MAX_CATEGORY:,} patches; got {full.clumps:,}"
        raise BadMap("map", f"{problem}: omit compute=False")
    return full


def _renumbered(index: int, tile: TileDone, full: Joined) -> Integers:
    """Return a chunk's cells with the clump numbers of the full map."""
    clumps, _ = tile.results
    numbers = np.empty(clumps.shape, np.int32)
    renumber(wide(clumps), full.numbers_of(index), out=numbers)
    return numbers
