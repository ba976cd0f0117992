# SPDX-License-Identifier: Apache-2.0 OR GPL-2.0-or-later
"""Define rcell:majority, rcell:within and rcell:aggregate: maps of neighbourhoods and blocks."""

from __future__ import annotations

from typing import Any

from qgis.core import QgsProcessingParameterNumber

from ..engine.core.aggregate import aggregate
from ..engine.core.majority import SIZES as SIDES
from ..engine.core.majority import majority
from ..engine.core.within import within
from ..results import named_classes, put_shares
from ..translation import noop, tr
from .base import RcellAlgorithm
from .tables import numbers_of

SIZES = [str(size) for size in SIDES]


class MajorityAlgorithm(RcellAlgorithm):
    """Assigns each cell the most frequent class in the square around it."""

    NAME = "majority"
    TITLE = noop("Majority of a neighbourhood")
    SHORT = noop(
        "Gives each cell the most frequent class in the square around it, which removes single "
        "cells and ragged edges."
    )
    TAGS = "majority filter, mode, smooth, focal, r.neighbors, modal, neighbourhood, sieve"
    HELP = (
        noop(
            "<p>Cells without data and cells outside the map are ignored. In a tie, the smallest "
            "class is used. By default, cells without data stay without data, which keeps the "
            "outline of the map.</p>"
        ),
        noop("<p>The result has the labels and the colours of the raster.</p>"),
    )

    def initAlgorithm(self, configuration: Any = None) -> None:
        """Declare the parameters."""
        self.add_raster()
        self.add_choice("SIZE", tr("Side of the square in cells"), SIZES)
        self.add_flag("FILL", tr("Fill cells without data from their neighbours"))
        self.add_map(tr("Majority"))

    def answer(self) -> dict[str, Any]:
        """Write the map and return its path."""
        size = int(self.word("SIZE"))
        raster = majority(self.rasters[0], size, self.flag("FILL"))
        path = self.put_map(raster, named_classes(raster))
        return {"OUTPUT": path}


class WithinAlgorithm(RcellAlgorithm):
    """Finds the cells within given distances of classes."""

    NAME = "within"
    TITLE = noop("Within a distance of classes")
    SHORT = noop("Finds the cells within given distances of classes (buffers), exact to the cell.")
    TAGS = "buffer, r.buffer, distance, proximity, rings, near, grow"
    HELP = (
        noop(
            "<p>Distances are in metres, in ascending order, up to 255 cells, and are measured "
            "between cell centres. The result is 0 in the classes, 1 up to the first distance, and "
            "2 from there up to the second distance. Used as zones in <i>Composition</i>, it yields "
            "the classes in each ring. Rasters in degrees must be reprojected first.</p>"
        ),
    )

    def initAlgorithm(self, configuration: Any = None) -> None:
        """Declare the parameters."""
        self.add_raster()
        self.add_text("CLASSES", tr("Classes, separated by commas"))
        self.add_text("DISTANCES", tr("Distances in metres, separated by commas"), "100,500")
        self.add_crs()
        self.add_map(tr("Within"))

    def check_words(self) -> None:
        """Check the lists of numbers."""
        self.classes_and_distances()

    def classes_and_distances(self) -> list[list[float]]:
        """Return the classes and the distances."""
        return [numbers_of(self.text(name.upper()), name) for name in ("classes", "distances")]

    def answer(self) -> dict[str, Any]:
        """Write the map and return its path."""
        classes, distances = self.classes_and_distances()
        raster = within(self.rasters[0], map(int, classes), distances, crs=self.crs())
        self.colours = {}  # the classes are new
        return {"OUTPUT": self.put_map(raster, named_classes(raster))}


class AggregateAlgorithm(RcellAlgorithm):
    """Creates a coarser map of the most frequent classes, and maps the shares of all classes."""

    NAME = "aggregate"
    TITLE = noop("Aggregate to larger cells")
    SHORT = noop(
        "Makes a coarser map with the most frequent class in each block of cells, and maps "
        "the percentage of each class in each block."
    )
    TAGS = "aggregate, resample, coarsen, mode, majority, r.resamp.stats, fraction, share, upscale"
    HELP = (
        noop(
            "<p>Blocks begin at the top left. At the right and bottom edges, they may extend "
            "beyond the map. In a tie, the smallest class is used. The shares have a band for "
            "each class, whose description is the label of the class.</p>"
        ),
    )

    def initAlgorithm(self, configuration: Any = None) -> None:
        """Declare the parameters."""
        self.add_raster()
        self.add_count("FACTOR", tr("Rows and columns per block"), default=10)
        kind = QgsProcessingParameterNumber.Double
        title = tr("Minimum percentage of a block's cells that must have data")
        limits = {"defaultValue": 0, "minValue": 0, "maxValue": 100}
        self.addParameter(QgsProcessingParameterNumber("MIN_PERCENT", title, kind, **limits))
        self.add_crs()
        self.add_map(tr("Most frequent class"))
        self.add_map(tr("Shares of classes"), "SHARES", is_optional=True)

    def answer(self) -> dict[str, Any]:
        """Write the map and, if requested, the shares."""
        min_percent = self.parameterAsDouble(self.parameter_values, "MIN_PERCENT", self.context)
        result = aggregate(self.rasters[0], self.number("FACTOR"), min_percent, crs=self.crs())
        raster = result.majority
        results = {"OUTPUT": self.put_map(raster, named_classes(raster), like=raster)}
        if self.parameter_values.get("SHARES"):
            path = str(self.parameterAsOutputLayer(self.parameter_values, "SHARES", self.context))
            put_shares(path, result.shares, self.check)
            results["SHARES"] = path
        return results
