# SPDX-License-Identifier: Apache-2.0 OR GPL-2.0-or-later
"""Write the maps of an `rcell-gis` command, either all of them or none."""

from __future__ import annotations

import contextlib
import importlib
import os
from typing import Any, Callable, Sequence

from .core.errors import Refused, WriteFailed
from .core.files import writing

__all__ = ["map_ending", "file_errors", "write_map", "write_maps"]

PICTURES = (".png", ".svg", ".pdf")
MAPS = (".tif", ".tiff", ".txt", ".asc", *PICTURES)
_COMMAND_LINE = 2


def write_maps(targets: Sequence[str], make: Callable[[], list[Any]]) -> None:
    """Write either all maps or none.

    Raises Refused if a target is an input file or has an unknown format.
    """
    for path in targets:
        if not path.lower().endswith(MAPS):
            rule = (
                f"{path}: the name of a map must end in .tif, .tiff, .txt, .asc, "
                f"{', '.join(PICTURES[:-1])} or {PICTURES[-1]}"
            )
            raise Refused(rule, status=_COMMAND_LINE)
    with writing(*targets):
        maps = make()
    replacing = importlib.import_module("rcell.core.writing").replacing
    with contextlib.ExitStack() as files:  # files get their names when the block ends
        parts = [files.enter_context(replacing(path)) for path in targets]
        for raster, path, part in zip(maps, targets, parts):
            try:
                write_map(raster, part, map_ending(path))
            except WriteFailed as error:
                raise WriteFailed(str(error).replace(part, path)) from None


def map_ending(path: str) -> str:
    """Return the file name extension of a map's path, including `.cog` if present."""
    stem, ending = os.path.splitext(path.lower())
    return f".cog{ending}" if stem.endswith(".cog") else ending


def write_map(raster: Any, path: str, ending: str) -> None:
    """Write a map in the format of `ending`.

    `path` may end differently, because links have been resolved.
    """
    if ending in (".txt", ".asc"):
        converting = importlib.import_module("rcell.core.converting")
        with file_errors(path), open(path, "wb") as file:
            file.writelines(converting.printed_map(raster, ending == ".asc"))
    elif ending in PICTURES:
        libraries = importlib.import_module("rcell.core.libraries")
        libraries.need("matplotlib", "plot", "to draw a map").use("Agg")
        with file_errors(path):
            figure = raster.plot().figure
            figure.savefig(path, format=ending[1:], bbox_inches="tight", dpi=150)
    elif hasattr(raster, "percent"):  # shares of classes
        raster._write(path)
    else:
        write = importlib.import_module("rcell.geotiff").write_geotiff
        write(raster, path, ending.startswith(".cog"))


def file_errors(path: str) -> contextlib.AbstractContextManager[None]:
    """Convert OSError to WriteFailed, which names the path."""
    writing_module: Any = importlib.import_module("rcell.core.writing")
    title = "standard output" if path == "-" else path
    errors: contextlib.AbstractContextManager[None] = writing_module.write_errors(title)
    return errors
