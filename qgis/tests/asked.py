"""Compute a table of rasters with a script."""

from __future__ import annotations

from dataclasses import replace
from typing import Sequence

from rcell.core import answers
from rcell.core.program import Watch
from rcell.core.rasters import Raster


def table(
    program: str, rasters: Sequence[Raster], nulls: bool, watch: Watch | None = None
) -> answers.Table:
    """Count the cells of each combination of categories, with labels if a map has labels."""
    maps = {f"map_{place}": raster for place, raster in enumerate(rasters, 1)}
    found = answers.run(
        program, f"r.stats -c{'' if nulls else 'n'} input={','.join(maps)}", maps, watch=watch
    ).tables[0]
    return replace(found, labels=tuple(raster.labels or None for raster in rasters))
