"""Start QGIS without a screen and with the plugin, once for all tests of a process."""

from __future__ import annotations

import os
import sys
from typing import Any

os.environ.setdefault("QT_QPA_PLATFORM", "offscreen")
sys.path[:0] = [
    os.path.dirname(os.path.dirname(os.path.abspath(__file__))),
    "/usr/share/qgis/python/plugins",
]

from qgis.core import (
    QgsApplication,
    QgsProcessingFeedback,
    QgsSettings,
)

_kept: list[Any] = []


def start() -> None:
    """Start QGIS, once."""
    if _kept:
        return
    application = QgsApplication([], False)
    application.initQgis()
    QgsSettings().setValue("Processing/Configuration/RCELL_PROGRAM", "")
    import processing
    from processing.core.Processing import Processing
    from rcell.plugin import RcellPlugin

    Processing.initialize()
    plugin = RcellPlugin()
    plugin.initProcessing()
    _kept.extend([application, processing, plugin])


def has(algorithm: str) -> bool:
    """Return whether QGIS has an algorithm."""
    return QgsApplication.processingRegistry().algorithmById(algorithm) is not None


class Log(QgsProcessingFeedback):
    """Collects the messages of a run."""

    def __init__(self) -> None:
        super().__init__(False)
        self.told: list[str] = []

    def pushCommandInfo(self, text: str) -> None:
        """Store a command."""
        self.told.append(f"command: {text}")

    def pushInfo(self, text: str) -> None:
        """Store an information message."""
        self.told.append(f"info: {text}")

    def pushWarning(self, text: str) -> None:
        """Store a warning."""
        self.told.append(f"warning: {text}")

    def reportError(self, text: str, fatalError: bool = False) -> None:
        """Store an error."""
        self.told.append(f"error: {text}")


def run(
    algorithm: Any, log: QgsProcessingFeedback | None = None, **parameters: Any
) -> dict[str, Any]:
    """Run an algorithm, given by name or as a model, and return its results."""
    import processing

    found: dict[str, Any] = processing.run(algorithm, parameters, feedback=log or Log())
    return found


def districts() -> Any:
    """Return two polygons with names and numbers, over the left part of the test maps."""
    from qgis.core import QgsFeature, QgsGeometry, QgsVectorLayer

    layer = QgsVectorLayer(
        "Polygon?crs=EPSG:32632&field=name:string&field=number:integer", "districts", "memory"
    )
    for name, number, box in (
        ("Nord", 20, (500000, 5399965, 500055, 5400000)),
        ("S\u00fcd", 10, (500000, 5399920, 500055, 5399965)),
    ):
        feature = QgsFeature(layer.fields())
        feature.setAttributes([name, number])
        west, south, east, north = box
        feature.setGeometry(
            QgsGeometry.fromWkt(
                f"POLYGON(({west} {south}, {east} {south}, {east} {north}, {west} {north}, {west} {south}))"
            )
        )
        layer.dataProvider().addFeature(feature)
    return layer


def rows(layer: Any) -> tuple[list[str], list[list[Any]]]:
    """Return the titles and rows of a table, with None for null."""
    from qgis.core import NULL, QgsVectorLayer

    table = QgsVectorLayer(layer, "table", "ogr") if isinstance(layer, str) else layer
    titles = [field.name() for field in table.fields()]
    return titles, [
        [None if value == NULL else value for value in feature.attributes()]
        for feature in table.getFeatures()
    ]
