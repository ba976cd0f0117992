# SPDX-License-Identifier: Apache-2.0 OR GPL-2.0-or-later
"""Keep the results of finished tiles in a folder, so that an interrupted call can continue."""

from __future__ import annotations

import contextlib
import hashlib
import os
from collections.abc import Mapping, Sequence
from dataclasses import dataclass, replace
from typing import Any, Optional
from zipfile import ZIP_DEFLATED, BadZipFile, ZipFile

import numpy as np

from .arrays import NDArray
from .pieces import Piece, is_file
from .programs import find_pipe
from .sources import Source
from .tile_work import TileDone, TileWork
from .writing import replacing, write_errors

__all__ = ["Shelf", "state_of"]

_FORMAT = b"tiles 2"  # change this if the contents of the kept files change
# The attributes that define how a map is read from its files, such as its band.
_DETAILS = ("layer", "band", "null_ranges", "file_nodata", "scale")


@dataclass(frozen=True)
class Shelf:
    """Keeps the results of finished tiles in a folder, if a folder is given.

    Attributes
    ----------
    folder : str or None
    state : bytes
        Bytes that identify the maps and the program by their files' paths, sizes and times.
    """

    folder: Optional[str]
    state: bytes

    @classmethod
    def of(cls, folder: Optional[str], maps: Mapping[str, Source], shape: tuple[int, int]) -> Shelf:
        """Return the shelf for maps of a shape, and create the folder if it is missing."""
        if folder is None:
            return cls(None, b"")
        with write_errors(folder):
            os.makedirs(folder, exist_ok=True)
        parts = [repr(shape), state_of(find_pipe())]
        for name, source in maps.items():
            parts += [name, repr(source.region.units), str(source.nodata), str(source.dtype)]
            parts += [repr(getattr(source, detail, None)) for detail in _DETAILS]
            parts += map(state_of, source.files)
        return cls(folder, "\0".join(parts).encode("utf-8", "surrogateescape"))

    def known(self, work: TileWork) -> TileWork:
        """Return a tile's work with results from an earlier call, or a path for new results."""
        if self.folder is None:
            return work
        maps: dict[str, Any] = {}
        for name, source in work.maps.items():
            maps[name] = source if is_file(source) else Piece.of(source, work.outer)
        path = os.path.join(self.folder, f"{self._sum_of(work, maps)}.npz")
        work = replace(work, maps=maps, path=path)
        # Missing, incomplete and damaged files are ignored, so that the tile is computed again.
        with contextlib.suppress(OSError, ValueError, EOFError, KeyError, BadZipFile):
            with np.load(path, allow_pickle=False) as arrays:
                results = [arrays[f"arr_{number}"] for number in range(len(arrays.files))]
            return replace(work, path="", known=TileDone(results))
        return work

    def _sum_of(self, work: TileWork, maps: Mapping[str, Any]) -> str:
        """Return a checksum of everything on which a tile's results depend.

        Files are identified by size and time, and other maps by their cells.
        """
        words = work.text.encode("utf-8", "surrogateescape")
        questions = [question.bytes() for question in work.questions]
        place = repr((*work.place, *work.outer)).encode()
        sum_of = hashlib.sha256(b"\0".join([_FORMAT, self.state, words, place, *questions]))
        for name, map in maps.items():
            if isinstance(map, Piece):
                block = map.block
                sum_of.update(f"\0{name} {block.cells.dtype} {block.null is None}\0".encode())
                for array in (block.cells, block.null):
                    sum_of.update(b"" if array is None else np.ascontiguousarray(array).data)
        return sum_of.hexdigest()

    def keep(self, path: str, done: TileDone) -> None:
        """Write the results of a tile to a path, unless the path is empty."""
        if path:
            with replacing(path) as beside, write_errors(path):
                _save(beside, done.results)


def _save(path: str, arrays: Sequence[NDArray[Any]]) -> None:
    """Write arrays in the format of numpy's `savez_compressed`, with faster compression."""
    write_array: Any = np.lib.format.write_array
    with ZipFile(path, "w", ZIP_DEFLATED, compresslevel=1) as archive:
        for number, array in enumerate(arrays):
            with archive.open(f"arr_{number}.npy", "w", force_zip64=True) as file:
                write_array(file, array, allow_pickle=False)


def state_of(path: str) -> str:
    """Return a string that changes if a file changes."""
    try:
        state = os.stat(path)
    except OSError:
        return path
    return f"{os.path.realpath(path)} {state.st_size} {state.st_mtime_ns}"
