# SPDX-License-Identifier: Apache-2.0 OR GPL-2.0-or-later
"""Define rcell:verify and rcell:report for recorded tables."""

from __future__ import annotations

from typing import Any

from qgis.core import (
    QgsProcessing,
    QgsProcessingOutputNumber,
    QgsProcessingOutputString,
    QgsProcessingParameterFile,
    QgsProcessingParameterFileDestination,
    QgsProcessingParameterMultipleLayers,
)

from ..engine.core.record import differences
from ..engine.core.report import report
from ..host import version
from ..translation import noop, tr
from .base import RcellAlgorithm

_TABLES = "Recorded tables (*.csv)"
_PAGES = "Pages (*.html)"


class VerifyAlgorithm(RcellAlgorithm):
    """Runs the call of a recorded table again and compares the result with the table."""

    NAME = "verify"
    TITLE = noop("Verify a recorded table")
    SHORT = noop("Runs the call of a recorded table again, and lists the differences.")
    TAGS = "record, provenance, reproducible, check, audit, SHA-256"
    IS_OF_ONE_RASTER = False
    HELP = (
        noop(
            "<p>A table has a record if it was recorded in QGIS, Python or the shell. There are no "
            "differences if the cells of its rasters, the program and the table are the same.</p>"
        ),
    )

    def initAlgorithm(self, configuration: Any = None) -> None:
        """Declare the parameters."""
        title = tr("Recorded table (CSV)")
        self.addParameter(QgsProcessingParameterFile("INPUT", title, fileFilter=_TABLES))
        self.addOutput(QgsProcessingOutputNumber("DIFFERENCES", tr("Number of differences")))
        self.addOutput(QgsProcessingOutputString("LINES", tr("Differences, one per line")))

    def read(self) -> None:
        """Read no layers, because the record names the files."""

    def answer(self) -> dict[str, Any]:
        """Return the differences between the record and the repeated call."""
        path = str(self.path("INPUT"))
        lines = list(differences(path, version()))
        for line in lines:
            self.feedback.pushWarning(f"{path}: {line}")
        if not lines:
            self.feedback.pushInfo(f"{path}: verified")
        return {"DIFFERENCES": len(lines), "LINES": "\n".join(lines)}


class ReportAlgorithm(RcellAlgorithm):
    """Writes an HTML page about recorded tables."""

    NAME = "report"
    TITLE = noop("Report of recorded tables")
    SHORT = noop("Writes a page about recorded tables, with definitions, a map and checksums.")
    TAGS = "report, HTML, page, record, provenance"
    IS_OF_ONE_RASTER = False
    HELP = (
        noop(
            "<p>The page explains each table, shows its raster, and contains the command that "
            "verifies it. The page loads nothing from other sites, and the same records always "
            "produce the same page.</p>"
        ),
    )

    def initAlgorithm(self, configuration: Any = None) -> None:
        """Declare the parameters."""
        title, kind = tr("Recorded tables (CSV)"), QgsProcessing.TypeFile
        self.addParameter(QgsProcessingParameterMultipleLayers("INPUT", title, kind))
        self.add_text("TITLE", tr("Title"), "Report")
        self.addParameter(QgsProcessingParameterFileDestination("OUTPUT", tr("Page"), _PAGES))

    def read(self) -> None:
        """Read no layers, because the records name the files."""

    def answer(self) -> dict[str, Any]:
        """Write the page."""
        paths = self.parameterAsFileList(self.parameter_values, "INPUT", self.context)
        page = self.parameterAsFileOutput(self.parameter_values, "OUTPUT", self.context)
        return {"OUTPUT": report(paths, page, self.text("TITLE"))}
