"""Test the plugin inside the window of QGIS.

The script installs the zip like Install from ZIP, runs algorithms like the toolbox, and writes the
results.

QGIS runs this file (`--code`). The environment names the zip, a folder with the raster cover.tif,
and the file for the results.
"""

from __future__ import annotations

import json
import os
import threading
import time
import traceback
from typing import Any

from qgis.core import (
    QgsApplication,
    QgsProcessingContext,
    QgsProcessingOutputLayerDefinition,
    QgsProject,
    QgsRasterLayer,
)
from qgis.PyQt.QtCore import QTimer
from qgis.PyQt.QtWidgets import QApplication, QTextEdit
from qgis.utils import iface

ZIP, ROOM, TOLD = (
    os.environ[name] for name in ("RCELL_QGIS_ZIP", "RCELL_QGIS_ROOM", "RCELL_QGIS_TOLD")
)


def installed() -> dict[str, Any]:
    """Install the plugin."""
    import pyplugin_installer
    from qgis.utils import active_plugins, home_plugin_path

    pyplugin_installer.instance().installFromZipFile(ZIP)
    program = os.path.join(home_plugin_path, "rcell/bin/rcell-pipe")
    algorithms = sorted(
        it.id()
        for it in QgsApplication.processingRegistry().algorithms()
        if it.id().startswith("rcell:")
    )
    return {
        "is_active": "rcell" in active_plugins,
        "algorithms": algorithms,
        "program": program,
        "mode": os.stat(program).st_mode & 0o777,
    }


def dialog_of(name: str, parameters: dict[str, Any]) -> Any:
    """Return the dialog of an algorithm with parameters filled in."""
    from processing.gui.AlgorithmDialog import AlgorithmDialog

    dialog = AlgorithmDialog(
        QgsApplication.processingRegistry().createAlgorithmById(name), False, iface.mainWindow()
    )
    dialog.setParameters(parameters)
    dialog.show()
    return dialog


def wait_for(done: Any, seconds: float = 30) -> bool:
    """Let QGIS process events until a condition is true."""
    ends = time.monotonic() + seconds
    while not done() and time.monotonic() < ends:
        QApplication.processEvents()
        time.sleep(0.01)
    return bool(done())


def run_in_dialog() -> dict[str, Any]:
    """Press Run in the dialog, and check the layer that QGIS loads."""
    cover = QgsRasterLayer(os.path.join(ROOM, "cover.tif"), "cover")
    QgsProject.instance().addMapLayer(cover)
    dialog = dialog_of(
        "rcell:reclass", {"INPUT": cover.id(), "RULES": "1 2 = 1 green\n3 = 2 built up"}
    )
    dialog.runButton().click()
    loaded = lambda: QgsProject.instance().mapLayersByName("Reclassified map")  # noqa: E731
    wait_for(loaded)
    wait_for(lambda: loaded() and loaded()[0].renderer().type() == "paletted", 5)
    layer = loaded()[0] if loaded() else None
    legend = (
        [entry.label for entry in layer.renderer().classes()]
        if layer and layer.renderer().type() == "paletted"
        else []
    )
    dialog.close()
    return {"legend": legend}


def marked_in_log() -> dict[str, Any]:
    """Run a script with an invalid line, and return the log of the dialog."""
    cover = QgsProject.instance().mapLayersByName("cover")[0]
    dialog = dialog_of(
        "rcell:script", {"INPUT": [cover.id()], "NAMES": "lc", "SCRIPT": "r.mapcalc x = lc + 1.5"}
    )
    dialog.runButton().click()
    log = dialog.findChild(QTextEdit, "txtLog")
    wait_for(lambda: "Execution failed" in log.toPlainText())
    shown = log.toHtml()
    dialog.close()
    return {
        "log": log.toPlainText(),
        "has_letters_of_one_width": "Courier" in shown or "monospace" in shown,
    }


def refused_in_dialog() -> dict[str, Any]:
    """Run the dialog with two rasters on different grids; it must stay open with a message."""
    shifted = QgsRasterLayer(os.path.join(ROOM, "shifted.tif"), "shifted")
    QgsProject.instance().addMapLayer(shifted)
    cover = QgsProject.instance().mapLayersByName("cover")[0]
    algorithm = QgsApplication.processingRegistry().createAlgorithmById("rcell:cross")
    ok, text = algorithm.checkParameterValues(
        {"INPUT": [cover.id(), shifted.id()], "OUTPUT": "TEMPORARY_OUTPUT"}, _context()
    )
    return {"refused": text if not ok else ""}


def _context() -> QgsProcessingContext:
    context = QgsProcessingContext()
    context.setProject(QgsProject.instance())
    return context


def cancelled_in_dialog() -> dict[str, Any]:
    """Cancel a run over a large map in a separate thread, like the dialog."""
    large = os.path.join(ROOM, "large.tif")
    target = os.path.join(ROOM, "never.tif")
    parameters = {
        "INPUT": large,
        "CONNECTIVITY": "8",
        "MAP": QgsProcessingOutputLayerDefinition(target, None),
        "OUTPUT": "TEMPORARY_OUTPUT",
    }
    from qgis.core import QgsProcessingAlgRunnerTask, QgsProcessingFeedback

    # Keep references, because the task does not.
    feedback, context, ended = QgsProcessingFeedback(), _context(), []
    algorithm = QgsApplication.processingRegistry().createAlgorithmById("rcell:patches")
    task = QgsProcessingAlgRunnerTask(algorithm, parameters, context, feedback)
    task.executed.connect(lambda ok, results: ended.append((ok, time.monotonic())))
    at: list[float] = []
    threading.Timer(0.5, lambda: (at.append(time.monotonic()), feedback.cancel())).start()
    QgsApplication.taskManager().addTask(task)
    wait_for(lambda: ended)
    left = [name for name in os.listdir(ROOM) if name.startswith((".never", "never"))]
    return {
        "was_done": ended[0][0] if ended else None,
        "seconds": ended[0][1] - at[0] if ended and at else None,
        "left": left,
    }


def main() -> None:
    told: dict[str, Any] = {}
    try:
        for step in (
            installed,
            run_in_dialog,
            marked_in_log,
            refused_in_dialog,
            cancelled_in_dialog,
        ):
            told["step"] = step.__name__
            tell(told)
            told.update(step())
        told["mode_after"] = os.stat(told["program"]).st_mode & 0o777
    except Exception:
        told["error"] = traceback.format_exc()
    tell(told)
    os._exit(0)


def tell(told: dict[str, Any]) -> None:
    """Write the results so far, because QGIS may end unexpectedly."""
    with open(TOLD, "w", encoding="utf-8") as file:
        json.dump(told, file)


QTimer.singleShot(1000, main)
