# SPDX-License-Identifier: Apache-2.0 OR GPL-2.0-or-later
"""Define rcell:patches, rcell:clump, rcell:sieve and rcell:metrics."""

from __future__ import annotations

from typing import Any, Optional

from qgis.core import (
    QgsProcessingOutputNumber,
    QgsProcessingParameterNumber,
)

from ..engine.core.columns import Table
from ..engine.core.metrics import metrics
from ..engine.core.patches import MOST_CORE_DEPTH, clump, patches
from ..engine.core.sieve import Sieved, sieve
from ..engine.core.sources import Source
from ..results import MOST_CLASSES, counted, named_classes
from ..translation import noop, tr
from .base import RcellAlgorithm
from .tables import numbers_of

CONNECTIVITIES = ["4", "8"]
LEVELS = ["class", "landscape", "patch"]


class _OfPatches(RcellAlgorithm):
    """Declares the parameters that all patch algorithms share."""

    def add_patches(self) -> None:
        """Add the parameters that define and select patches."""
        self.add_choice("CONNECTIVITY", tr("Connectivity"), CONNECTIVITIES)
        self.add_text("CLASSES", tr("Classes, separated by commas (empty: all)"))
        self.add_count("MIN_CELLS", tr("Minimum number of cells"))

    def check_words(self) -> None:
        """Check the list of classes."""
        self.classes()

    def classes(self) -> Optional[list[int]]:
        """Return the listed classes, or None for all classes."""
        return [int(code) for code in numbers_of(self.text("CLASSES"), "classes")] or None


class ClumpAlgorithm(_OfPatches):
    """Numbers the patches of each class."""

    NAME = "clump"
    TITLE = noop("Map of patches")
    SHORT = noop("Gives each cell the number of its patch, as in the table of Patches.")
    TAGS = "patches, clumps, r.clump, segments, regions, connected components"
    HELP = (noop("<p>Cells of excluded patches have no data.</p>"),)

    def initAlgorithm(self, configuration: Any = None) -> None:
        """Declare the parameters."""
        self.add_raster()
        self.add_patches()
        self.add_crs()
        self.add_map(tr("Map of patches"))

    def answer(self) -> dict[str, Any]:
        """Write the map and return its path."""
        connectivity, fewest = int(self.word("CONNECTIVITY")), self.number("MIN_CELLS")
        raster = clump(self.rasters[0], connectivity, self.classes(), fewest, crs=self.crs())
        self.colours = {}  # patches have other numbers than classes
        return {"OUTPUT": self.put_map(raster, named_classes(raster), null=0)}


class PatchesAlgorithm(_OfPatches):
    """Numbers the patches of each class and lists them."""

    NAME = "patches"
    TITLE = noop("Patches")
    SHORT = noop(
        "Lists the patches of each class with cells, area, perimeter, core, extent and zone, "
        "and makes a map of them."
    )
    TAGS = (
        "patches, clumps, r.clump, islands, sieve, segments, regions, landscape, connected "
        "areas, perimeter, core"
    )
    HELP = (
        noop(
            "<p>Cells belong to one patch if they have the same class and are connected through "
            "cells of this class: by edges (connectivity 4), or by edges and corners (8). "
            "Patches are numbered in the order of their first cells, from the top left.</p>"
        ),
        noop(
            "<p>Patches below the minimum number of cells, and classes that are not listed, are "
            "excluded from the table and the map. The remaining patches keep their numbers. Join "
            "the table to the map by <code>patch</code>.</p>"
        ),
        noop(
            "<p>The perimeter is the length of the cell sides next to other patches, next to cells "
            "without data and along the edge of the map. The core consists of the cells whose "
            "neighbours, up to the core depth, are all in the patch. For rasters in degrees, there "
            "is no perimeter.</p>"
        ),
    )

    def initAlgorithm(self, configuration: Any = None) -> None:
        """Declare the parameters."""
        self.add_raster()
        self.add_patches()
        self.add_area()
        self.add_count("CORE_DEPTH", tr("Core depth in cells"), most=MOST_CORE_DEPTH)
        self.add_zones()
        self.add_flag("EACH", tr("Process overlapping polygons separately"))
        self.add_labels()
        self.add_crs()
        self.add_table()
        self.add_map(tr("Map of patches"), "MAP", is_optional=True)
        self.addOutput(QgsProcessingOutputNumber("PATCHES", tr("Number of patches")))

    def read(self) -> None:
        """Read the raster and its zones."""
        self.read_zoned()

    def answer(self) -> dict[str, Any]:
        """Write the table and, if requested, the map, and return the number of patches."""
        raster = self.rasters[0]
        zoning = self.zoning()
        connectivity = int(self.word("CONNECTIVITY"))
        classes = self.classes()
        min_cells = self.number("MIN_CELLS")
        table = self.called(
            patches,
            raster,
            connectivity=connectivity,
            area=self.area(),
            zones=self.zones,
            classes=classes,
            min_cells=min_cells,
            core_depth=self.number("CORE_DEPTH"),
            labels=self.labels(),
            each=self.flag("EACH"),
            **zoning,
        )
        self.colours = {}  # patches have other numbers than classes
        results = {"PATCHES": len(table), "OUTPUT": self.put_table("OUTPUT", table)}
        if self.parameter_values.get("MAP"):
            clumps = clump(raster, connectivity, classes, min_cells, crs=zoning["crs"])
            legend = _legend(table, raster, zoning["crs"])
            results["MAP"] = self.put_map(clumps, legend, "MAP", null=0)
        return results


class SieveAlgorithm(RcellAlgorithm):
    """Merges small patches into their neighbours."""

    NAME = "sieve"
    TITLE = noop("Sieve")
    SHORT = noop(
        "Merges patches below a minimum size into the neighbour with the longest common border, "
        "until no small patch has a neighbour."
    )
    TAGS = (
        "sieve, minimum mapping unit, eliminate, generalise, r.reclass.area, remove small patches"
    )
    HELP = (
        noop(
            "<p>The smallest patch is merged first. If several neighbours share the same border "
            "length, the first neighbour is used. Give the minimum size in cells or in hectares. "
            "For rasters in degrees, give it in cells.</p>"
        ),
        noop(
            "<p>The outputs count patches and changed cells in the result. Patches that border "
            "only cells without data remain. <code>PATCHES_BELOW</code> counts them.</p>"
        ),
    )

    def initAlgorithm(self, configuration: Any = None) -> None:
        """Declare the parameters."""
        self.add_raster()
        number = QgsProcessingParameterNumber
        title = tr("Minimum number of cells in a patch")
        self.addParameter(number("MIN_CELLS", title, number.Integer, optional=True, minValue=1))
        title = tr("Minimum area of a patch in hectares (instead of cells)")
        self.addParameter(number("MIN_HA", title, number.Double, optional=True, minValue=0))
        self.add_choice("CONNECTIVITY", tr("Connectivity"), CONNECTIVITIES)
        self.add_flag("DROP", tr("Remove small patches instead of merging them"))
        self.add_crs()
        self.add_map(tr("Sieved"))
        for name in Sieved._fields:
            self.addOutput(QgsProcessingOutputNumber(name.upper(), tr(name.replace("_", " "))))

    def answer(self) -> dict[str, Any]:
        """Write the map and return the numbers of patches and changed cells."""
        has_limit = {
            name: self.parameter_values.get(name) not in (None, "")
            for name in ("MIN_CELLS", "MIN_HA")
        }
        hectares = self.parameterAsDouble(self.parameter_values, "MIN_HA", self.context)
        sieved, facts = sieve(
            self.rasters[0],
            min_cells=self.number("MIN_CELLS") if has_limit["MIN_CELLS"] else None,
            min_ha=hectares if has_limit["MIN_HA"] else None,
            connectivity=int(self.word("CONNECTIVITY")),
            drop=self.flag("DROP"),
            crs=self.crs(),
        )
        path = self.put_map(sieved, named_classes(sieved))
        return {"OUTPUT": path, **{name.upper(): count for name, count in facts._asdict().items()}}


class MetricsAlgorithm(RcellAlgorithm):
    """Computes landscape metrics."""

    NAME = "metrics"
    TITLE = noop("Landscape metrics")
    SHORT = noop("Lists landscape metrics of each class, each patch or the full raster.")
    TAGS = (
        "landscape ecology, FRAGSTATS, landscapemetrics, fragmentation, edge density, diversity, "
        "Shannon, mesh, r.li"
    )
    HELP = (
        noop(
            "<p>The definitions follow FRAGSTATS 4, without a background class. A landscape "
            "consists of all cells with data. Edges are cell sides between two classes. Zone "
            "borders and sides next to cells without data do not count.</p>"
        ),
        noop(
            "<p>Each zone is a separate landscape: patches end at its border. For rasters in "
            "degrees or without a reference system, there are no lengths.</p>"
        ),
    )

    def initAlgorithm(self, configuration: Any = None) -> None:
        """Declare the parameters."""
        self.add_raster()
        self.add_choice("LEVEL", tr("Level"), LEVELS)
        self.add_choice("CONNECTIVITY", tr("Connectivity"), CONNECTIVITIES)
        self.add_zones()
        self.add_flag("EACH", tr("Process overlapping polygons separately"))
        self.add_area()
        self.add_labels()
        self.add_crs()
        self.add_table()

    def read(self) -> None:
        """Read the raster and its zones."""
        self.read_zoned()

    def answer(self) -> dict[str, Any]:
        """Write the table."""
        table = self.called(
            metrics,
            self.rasters[0],
            level=self.word("LEVEL"),
            connectivity=int(self.word("CONNECTIVITY")),
            area=self.area(),
            zones=self.zones,
            labels=self.labels(),
            each=self.flag("EACH"),
            **self.zoning(),
        )
        return {"OUTPUT": self.put_table("OUTPUT", table)}


def _legend(table: Table, raster: Source, crs: Any) -> list[tuple[int, str]]:
    """Return a legend with the number, class and size of each patch.

    If there are too many patches for a legend, each entry is empty.
    """
    if len(table) > MOST_CLASSES:
        return [(0, "")] * len(table)
    values: dict[str, list[Any]] = {column.name: column.listed() for column in table.data}
    labels = values.get("label", values["class"])
    entries = zip(values["patch"], values["class"], labels, values["cells"])
    legend = []
    for number, code, label, cells in entries:
        title = f"{number}: {code if label is None else label}"
        legend.append((number, counted(title, cells, raster, crs)))
    return legend
