# SPDX-License-Identifier: Apache-2.0 OR GPL-2.0-or-later
"""Define rcell:align, which aligns a raster with the grid of another raster."""

from __future__ import annotations

from typing import Any

from qgis.core import (
    QgsProcessingOutputNumber,
    QgsProcessingParameterRasterLayer,
)

from ..engine.core.align import align
from ..layers import raster_of
from ..results import named_classes
from ..translation import noop, tr
from .base import RcellAlgorithm, raise_unreadable

RESAMPLINGS = ["none", "nearest"]
FACTS = {
    "shift_rows": noop("Row of the raster at which the new grid begins"),
    "shift_columns": noop("Column of the raster at which the new grid begins"),
    "cells_used": noop("Cells in the result"),
    "cells_repeated": noop("Cells that are in the result more than once"),
    "cells_lost": noop("Cells that are not in the result"),
}


class AlignAlgorithm(RcellAlgorithm):
    """Aligns a raster with the grid of another raster."""

    NAME = "align"
    TITLE = noop("Align")
    SHORT = noop(
        "Aligns a raster of classes with the grid of another raster, by whole cells or with "
        "the nearest cells, and counts the cells used."
    )
    TAGS = "align, snap, resample, nearest, warp, clip, extent, grid"
    HELP = (
        noop(
            "<p>Without resampling, the raster is only cut and extended. A shift by part of a "
            "cell, cells of another size or another reference system cause an error. With "
            "<i>nearest</i>, each new cell gets the value of the cell that contains its centre. A "
            "centre on a border belongs to the southern or eastern cell.</p>"
        ),
        noop(
            "<p>The log and the outputs report how many cells with data the result contains, "
            "contains more than once, and does not contain.</p>"
        ),
    )

    def initAlgorithm(self, configuration: Any = None) -> None:
        """Declare the parameters."""
        self.add_raster()
        self.addParameter(QgsProcessingParameterRasterLayer("TO", tr("Raster with the new grid")))
        self.add_choice("RESAMPLE", tr("Resampling"), RESAMPLINGS)
        self.add_crs()
        self.add_map(tr("Aligned"))
        for name, title in FACTS.items():
            self.addOutput(QgsProcessingOutputNumber(name.upper(), tr(title)))

    def read(self) -> None:
        """Read the raster, and the raster with the new grid."""
        to = self.parameterAsRasterLayer(self.parameter_values, "TO", self.context)
        if to is None or not to.isValid():
            raise_unreadable(self.parameter_values.get("TO"))
        self.rasters = [self.raster(), raster_of(to, to.name(), band=1)]  # any band has the grid

    def answer(self) -> dict[str, Any]:
        """Write the map and return the numbers of cells that were used, repeated and lost."""
        map, to = self.rasters
        resample = "nearest" if self.word("RESAMPLE") == "nearest" else None
        raster, aligned = align(map, to, resample, crs=self.crs())
        facts = aligned._asdict()
        self.feedback.pushInfo(
            ", ".join(f"{name}: {value:.15g}" for name, value in facts.items() if value is not None)
        )
        path = self.put_map(raster, named_classes(raster), like=to)
        return {"OUTPUT": path, **{name.upper(): value for name, value in facts.items()}}
