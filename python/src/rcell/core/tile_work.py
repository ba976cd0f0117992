# SPDX-License-Identifier: Apache-2.0 OR GPL-2.0-or-later
"""Process one tile: send a request for the tile, in a thread or on another machine."""

from __future__ import annotations

from collections.abc import Mapping, Sequence
from dataclasses import dataclass, field, replace
from typing import Any, Optional

import numpy as np

from . import protocol
from .arrays import NDArray
from .borders import Watch
from .errors import OutOfMemory
from .host import host, serving
from .pieces import Piece
from .programs import find_pipe, program_errors
from .rectangles import Rectangle
from .region import Region
from .runs import values_of

__all__ = ["TileDone", "TileWork", "run_work"]

Integers = NDArray[Any]


@dataclass(frozen=True)
class TileWork:
    """A request for a tile, with a script and questions about the tile.

    By the law `tile_runs_have_full_map_cells`, the script's maps have the full map's cells.

    Attributes
    ----------
    text : str
        The script.
    questions : tuple of Question
    place, outer : Rectangle
        The tile, and the tile with its halo.
    shape : tuple of two ints
        The rows and columns of the full map.
    maps : mapping of str to any
        Maps that contain at least the cells of the tile and its halo.
    watched : tuple of str
        The maps whose border is watched for nodata values.
    words : str
        The syntax in which the caller writes options.
    call : str
        A unique string for each call.
    path : str
        The path for keeping the results, or empty.
    known : TileDone, optional
        The results that an earlier call kept, if any.
    """

    text: str
    questions: tuple[protocol.Question, ...]
    place: Rectangle
    outer: Rectangle
    shape: tuple[int, int]
    maps: Mapping[str, Any]
    watched: tuple[str, ...] = ()
    words: str = "python"
    call: str = ""
    path: str = ""
    known: Optional[TileDone] = None


@dataclass(frozen=True)
class TileDone:
    """The outcome of a tile: its results, counts of nodata along the border, and warnings.

    The results are the contents of the response's frames: first of the script, then of questions.
    """

    results: list[Integers]
    counts: Mapping[str, NDArray[np.int64]] = field(default_factory=dict)
    warnings: Sequence[str] = ()


def run_work(work: TileWork) -> TileDone:
    """Run a tile's script, or return its results if they are already known.

    Raises
    ------
    Refused, BadMap, OutOfMemory, Killed, MissingProgram, WrongProgram
    """
    if work.known is not None:
        return work.known
    warnings: dict[str, None] = {}  # without duplicates, in order

    def collect(text: str) -> None:
        warnings[text] = None

    with serving(replace(host(), words=work.words, warn=collect, progress=None, started=None)):
        watches = {name: Watch(name, work.maps[name], work.shape) for name in work.watched}
        sent = [_sent(work, name, source, watches) for name, source in work.maps.items()]
        results = [values_of(frame) for frame in _frames(work, sent)]
    counts = {name: watch.counts for name, watch in watches.items() if watch.counts.any()}
    return TileDone(results, counts, tuple(warnings))


def _frames(work: TileWork, sent: Sequence[protocol.Map]) -> list[protocol.Frame]:
    """Run the program over the tile with its halo, and return the frames."""
    tile = (*work.shape, work.outer.top, work.outer.left, *work.place)
    region = Region.of_cells(work.outer.rows, work.outer.cols)
    maps = protocol.Maps(region.edges, *region.shape, sent)
    try:
        with program_errors(work.text, list(work.maps), path := find_pipe()):
            words = protocol.script_bytes(work.text)
            return protocol.run(path, maps, words, work.questions, tile, watch=host().watch)
    except OutOfMemory as error:
        problem = f"{error.text} for a tile of {work.outer.rows} x {work.outer.cols} cells"
        raise OutOfMemory(problem, "arguments", status=error.status) from None


def _sent(work: TileWork, name: str, source: Any, watches: Mapping[str, Watch]) -> protocol.Map:
    """Convert a tile's map for the program, and count nodata values along the full map's border."""
    place, outer = work.place, work.outer
    # A `Piece` contains cells that have already been read.
    piece = source if isinstance(source, Piece) else Piece.of(source, outer)
    block = piece.block
    if name in watches:
        null = None if block.null is None else place.part_of(outer, block.null)
        without_halo = replace(block, cells=place.part_of(outer, block.cells), null=null)
        watches[name].add(without_halo, place.top, place.left)
    mask = None if block.null is None else block.null.view(np.uint8).data
    return protocol.Map(
        name,
        type=piece.dtype.kind + str(8 * piece.dtype.itemsize),
        blocks=[protocol.Block(block.cells.data, mask)],
        nodata=piece.nodata,
        is_masked=piece.is_masked,
    )
