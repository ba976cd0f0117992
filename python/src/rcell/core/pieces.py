# SPDX-License-Identifier: Apache-2.0 OR GPL-2.0-or-later
"""Send parts of maps to other processes, as file paths, Dask chunks or cells."""

from __future__ import annotations

import os
from collections.abc import Iterable, Mapping
from dataclasses import dataclass, replace
from typing import Any, Optional

import numpy as np

from .errors import ReadFailed
from .rectangles import Rectangle
from .sources import Block, Scaled, check_computed, checked, nodata_of, type_of, unmasked

__all__ = [
    "Chunks",
    "Piece",
    "State",
    "check_files_are",
    "chunks_of",
    "filled",
    "is_file",
    "sendable",
    "shared_path",
    "states_of",
]

# A file's size in bytes, and its modification time in nanoseconds.
State = tuple[int, int]


@dataclass(frozen=True)
class Piece:
    """A map that contains only the cells in a window of another map."""

    name: str
    dtype: np.dtype[Any]
    nodata: Optional[int]
    is_masked: bool
    scale: int
    block: Block

    @classmethod
    def of(cls, source: Any, outer: Rectangle) -> Piece:
        """Return a piece that contains the cells in a window of a map."""
        block = source.window(*outer)
        scale = getattr(source, "scale", 1)  # only maps of decimals have a scale
        return cls(source.name, source.dtype, source.nodata, source.is_masked, scale, block)

    def window(self, row: int, col: int, rows: int, cols: int) -> Block:
        """Return all cells of the piece. The requested window must have the same shape."""
        assert self.block.cells.shape == (rows, cols)
        return self.block


@dataclass(frozen=True)
class Chunks:
    """A window of a map whose cells are in a Dask array.

    Attributes
    ----------
    name : str
    announced : numpy type
        The type that Dask expects.
    nodata_value : float or None
    is_masked : bool
        Whether the window's block has a mask, because each chunk may have a mask.
    cells : array
        A Dask array, or a numpy array after `filled` has replaced the cells.
    """

    name: str
    announced: np.dtype[Any]
    nodata_value: Optional[float]
    is_masked: bool
    cells: Any

    @property
    def dtype(self) -> np.dtype[Any]:
        """The data type of the window's block."""
        return type_of(self.announced)

    @property
    def nodata(self) -> Optional[int]:
        """The value that marks null in the window's block."""
        return nodata_of(self.announced, self.nodata_value)

    def window(self, row: int, col: int, rows: int, cols: int) -> Block:
        """Return all cells of this window. The requested window must have the same shape."""
        cells, null = unmasked(self.cells)
        check_computed(self.name, cells, self.announced, (rows, cols))
        if self.is_masked and null is None:
            null = np.zeros(cells.shape, np.bool_)
        return checked(self.name, cells, null, self.nodata_value, row, col)


def is_file(source: Any) -> bool:
    """Return whether a map's cells are exactly the cells in its files."""
    return bool(getattr(source, "is_file", False))


def sendable(source: Any, outer: Rectangle) -> Any:
    """Return a map that can be sent to another process and contains at least a window's cells.

    Dask maps, and maps whose files can be opened by path, have a method `sent`. All other maps are
    sent as cells.
    """
    if isinstance(source, Piece):
        return source
    inner = source.source if isinstance(source, Scaled) else source
    sent = inner.sent(outer) if hasattr(inner, "sent") else None
    if sent is None:
        return Piece.of(source, outer)
    return Scaled(sent, source.scale) if isinstance(source, Scaled) else sent


def chunks_of(source: Any) -> Any:
    """Return the Dask array that contains a map's cells, or None if the map is not in Dask."""
    inner = source.source if isinstance(source, Scaled) else source
    return inner.cells if isinstance(inner, Chunks) else None


def filled(source: Any, cells: Any) -> Any:
    """Replace the cells of a Dask map with computed cells, or with None to drop them."""
    if isinstance(source, Scaled):
        return Scaled(filled(source.source, cells), source.scale)
    return replace(source, cells=cells)


# Files


def shared_path(path: str) -> str:
    """Return an existing file's absolute path, or any other name for GDAL unchanged."""
    return os.path.abspath(path) if os.path.exists(path) else path


def states_of(paths: Iterable[str]) -> dict[str, State]:
    """Return the states of the files that exist on this machine, by path."""
    states = {}
    for path in map(shared_path, paths):
        if os.path.exists(path):
            state = os.stat(path)
            states[path] = state.st_size, state.st_mtime_ns
    return states


def check_files_are(states: Mapping[str, State]) -> None:
    """Raise ReadFailed if a file's current state differs from its recorded state."""
    for path, recorded in states.items():
        current = states_of([path]).get(path)
        if current is None:
            raise ReadFailed(path, "cannot open: No such file or directory")
        if current != recorded:
            difference = f"{_state_text(current)} here, and {_state_text(recorded)} there"
            raise ReadFailed(path, f"differs from the file on the caller's machine: {difference}")


def _state_text(state: State) -> str:
    size, changed = state
    return f"{size:,} bytes, modified {_time(changed)}"


def _time(nanoseconds: int) -> str:
    """Format a time given in nanoseconds since 1970."""
    return str(np.datetime64(nanoseconds, "ns"))
