# SPDX-License-Identifier: Apache-2.0 OR GPL-2.0-or-later
"""Define rcell:accuracy, which compares a map with a reference, and rcell:sample."""

from __future__ import annotations

from typing import Any

from qgis.core import QgsProcessing, QgsProcessingParameterMapLayer

from ..engine.core.accuracy import accuracy, summary_of
from ..engine.core.sample import ALLOCATIONS, sample
from ..layers import reference_of
from ..translation import noop, tr
from .base import RcellAlgorithm, raise_unreadable

SIZES = ["none", "map"]


class AccuracyAlgorithm(RcellAlgorithm):
    """Compares a map with a reference and corrects the areas of its classes."""

    NAME = "accuracy"
    TITLE = noop("Accuracy")
    SHORT = noop(
        "Lists the accuracy of each class with standard errors, areas corrected with a "
        "reference sample, and the confusion matrix."
    )
    TAGS = (
        "accuracy, confusion matrix, error matrix, kappa, validation, area estimation, sample, "
        "AcATaMa, r.kappa"
    )
    HELP = (
        noop(
            "<p>The reference is a raster on the same grid, a layer of points with their class "
            "in a field, or a table with the fields <code>map</code>, <code>reference</code> and "
            "<code>cells</code>. Points on cells without data are ignored.</p>"
        ),
        noop(
            "<p>If the sample was drawn class by class, the accuracies depend on the class areas, "
            "which are counted in the map or read from a CSV file with value,area. The equations are "
            "in Olofsson et al. (2014).</p>"
        ),
        noop(
            "<p>Without areas, standard errors are correct for a random sample, but "
            "meaningless for a complete reference.</p>"
        ),
    )

    def initAlgorithm(self, configuration: Any = None) -> None:
        """Declare the parameters."""
        self.add_raster()
        kinds = [QgsProcessing.TypeRaster, QgsProcessing.TypeVector]
        title = tr("Reference: a raster, points or a table")
        self.addParameter(QgsProcessingParameterMapLayer("REFERENCE", title, types=kinds))
        self.add_text("FIELD", tr("Field with the class of each point"))
        self.add_choice("AREAS", tr("Class areas"), SIZES)
        self.add_file("AREAS_FILE", tr("Class areas: a CSV with value,area"))
        self.add_area()
        self.add_labels()
        self.add_crs()
        self.add_table()
        self.add_table(tr("Matrix"), "MATRIX", is_optional=True)
        self.add_table(tr("Summary"), "SUMMARY", is_optional=True)

    def read(self) -> None:
        """Read the raster and the reference."""
        self.rasters = [self.raster()]
        layer = self.parameterAsLayer(self.parameter_values, "REFERENCE", self.context)
        if layer is None or not layer.isValid():
            raise_unreadable(self.parameter_values["REFERENCE"], "reference")
        self.reference = reference_of(layer)

    def answer(self) -> dict[str, Any]:
        """Write the table and, if requested, the matrix and the summary."""
        counted_areas = "map" if self.word("AREAS") == "map" else None
        result = self.called(
            accuracy,
            self.rasters[0],
            self.reference,
            part="classes",
            areas=self.path("AREAS_FILE") or counted_areas,
            area=self.area(),
            field=self.text("FIELD") or None,
            labels=self.labels(),
            crs=self.crs(),
        )
        results = {"OUTPUT": self.put_table("OUTPUT", result.classes)}
        for name, part in (("MATRIX", result.matrix), ("SUMMARY", summary_of(result))):
            if self.parameter_values.get(name):
                results[name] = self.put_table(name, part)
        return results

    def inputs(self) -> list[str]:
        """Return the input files."""
        return [*super().inputs(), *self.reference.files]


class SampleAlgorithm(RcellAlgorithm):
    """Draws a random sample of cells of each class."""

    NAME = "sample"
    TITLE = noop("Stratified sample of cells")
    SHORT = noop("Lists random cells of each class, with their rows, columns and coordinates.")
    TAGS = "sample, random points, stratified, reference, accuracy, validation, AcATaMa"
    HELP = (
        noop(
            "<p>Cells are drawn without replacement, and all cells of a class have the same "
            "probability. The same raster, numbers and seed draw the same cells in QGIS, Python, "
            "R and the shell.</p>"
        ),
        noop(
            "<p>Give a total number of cells, or a number for each class, for example "
            "<code>11:50,31:100</code>. The table contains coordinates, which <i>Create points "
            "layer from table</i> converts to points.</p>"
        ),
    )

    def initAlgorithm(self, configuration: Any = None) -> None:
        """Declare the parameters."""
        self.add_raster()
        self.add_text("N", tr("Number of cells, in total or by class"), "100")
        self.add_text("SEED", tr("Seed: a number or text"), "1")
        self.add_choice("ALLOCATION", tr("Allocation among the classes"), ALLOCATIONS)
        self.add_labels()
        self.add_crs()
        self.add_table()

    def answer(self) -> dict[str, Any]:
        """Write the table."""
        table = self.called(
            sample,
            self.rasters[0],
            self.text("N"),
            self.text("SEED"),
            allocation=self.word("ALLOCATION"),
            labels=self.labels(),
            crs=self.crs(),
        )
        return {"OUTPUT": self.put_table("OUTPUT", table)}
