"""The pictures of docs/qgis.md, drawn within the window of QGIS: the dialog of the table, a result with its legend, a model.

QGIS runs this file (`--code`, see pictures.sh); RCELL_QGIS_ROOM names a folder that has the rasters and gets the pictures.
"""

from __future__ import annotations

import os
import time
import traceback

from qgis.core import (
    QgsApplication,
    QgsProcessingModelAlgorithm,
    QgsProject,
    QgsRasterLayer,
    QgsSettings,
    QgsVectorLayer,
)
from qgis.PyQt.QtCore import Qt, QTimer
from qgis.PyQt.QtWidgets import QApplication, QDockWidget
from qgis.utils import iface

import rcell

ROOM = os.environ["RCELL_QGIS_ROOM"]
SHOWN_DOCKS = ("Layers",)
MODEL = os.path.join(os.path.dirname(rcell.__file__), "examples/patches_of_grouped_classes.model3")


def wait(seconds: float) -> None:
    """Lets QGIS draw."""
    ends = time.monotonic() + seconds
    while time.monotonic() < ends:
        QApplication.processEvents()
        time.sleep(0.02)


def layer_of(name: str) -> QgsRasterLayer:
    """A raster of the examples, in the project."""
    layer = QgsRasterLayer(os.path.join(ROOM, f"rasters/{name}.tif"), name, "gdal")
    QgsProject.instance().addMapLayer(layer)
    return layer


def draw_dialog(country: QgsRasterLayer, hemisphere: QgsRasterLayer) -> None:
    """The table of country by hemisphere, filled in."""
    from processing.gui.AlgorithmDialog import AlgorithmDialog

    dialog = AlgorithmDialog(
        QgsApplication.processingRegistry().createAlgorithmById("rcell:cross"),
        False,
        iface.mainWindow(),
    )
    dialog.setParameters({"INPUT": [country.id(), hemisphere.id()], "AREA": "km2"})
    dialog.resize(920, 430)
    dialog.show()
    wait(1)
    dialog.grab().save(f"{ROOM}/dialog.png")
    dialog.close()


def draw_result(country: QgsRasterLayer) -> None:
    """The window of QGIS with the largest islands and parts of countries, their legend and their table."""
    import processing

    found = processing.run(
        "rcell:patches",
        {
            "INPUT": country,
            "CONNECTIVITY": "8",
            "MIN_CELLS": 250,
            "MAP": f"{ROOM}/areas.tif",
            "OUTPUT": f"{ROOM}/areas.gpkg",
        },
    )
    areas = QgsRasterLayer(found["MAP"], "Patches", "gdal")
    table = QgsVectorLayer(found["OUTPUT"], "Table of patches", "ogr")
    QgsProject.instance().addMapLayers([areas, table])
    QgsSettings().setValue("qgis/dockAttributeTable", True)
    iface.showAttributeTable(table)
    for node in QgsProject.instance().layerTreeRoot().findLayers():
        is_result = node.layer() in (areas, table)
        node.setItemVisibilityChecked(is_result)
        node.setExpanded(is_result)
    window = iface.mainWindow()
    for dock in window.findChildren(QDockWidget):
        if dock.objectName() not in SHOWN_DOCKS and "AttributeTable" not in dock.objectName():
            dock.hide()
    layers = window.findChild(QDockWidget, "Layers")
    window.resizeDocks([layers], [390], Qt.Horizontal)
    wait(0.5)
    iface.mapCanvas().setExtent(areas.extent())
    iface.mapCanvas().refresh()
    wait(3)
    window.grab().save(f"{ROOM}/result.png")


def draw_model(country: QgsRasterLayer) -> None:
    """The model in its designer, after a run of it."""
    import processing
    from processing.modeler.ModelerDialog import ModelerDialog

    model = QgsProcessingModelAlgorithm()
    model.fromFile(MODEL)
    for name in model.childAlgorithms():
        is_valid, reasons = model.validateChildAlgorithm(name)
        if not is_valid:
            raise RuntimeError(f"{name} would be red in the designer: {reasons}")
    found = processing.run(
        model,
        {
            "cover": country,
            "patches:Map of patches": f"{ROOM}/model.tif",
            "patches:Table of patches": "TEMPORARY_OUTPUT",
        },
    )
    if not os.path.isfile(f"{ROOM}/model.tif"):
        raise RuntimeError(f"the model made no map: {found}")
    designer = ModelerDialog(model)
    designer.resize(1180, 560)
    designer.show()
    wait(1)
    designer.view().scene().clearSelection()
    wait(0.5)
    designer.grab().save(f"{ROOM}/model.png")


def main() -> None:
    try:
        from rcell.plugin import RcellPlugin

        plugin = RcellPlugin()
        plugin.initGui()
        iface.mainWindow().resize(1200, 800)
        country, hemisphere = layer_of("country"), layer_of("hemisphere")
        draw_dialog(country, hemisphere)
        draw_result(country)
        draw_model(country)
    except Exception:
        with open(f"{ROOM}/error", "w", encoding="utf-8") as file:
            file.write(traceback.format_exc())
    os._exit(0)


QTimer.singleShot(1000, main)
