"""Run the table of cases with the QGIS plugin.

Prints `case NAME` for each case and, below it, the result, with a blank before each line. Needs
Debian's Python and QGIS with Processing, but no screen.
"""

from __future__ import annotations

import os
import pathlib
import re
import shutil
import sys
import tempfile
from typing import Any

HERE = pathlib.Path(__file__).resolve().parent
os.environ.setdefault("QT_QPA_PLATFORM", "offscreen")
sys.path[:0] = [str(HERE.parent / "qgis"), "/usr/share/qgis/python/plugins"]

from cases import HERE as FOLDER
from cases import ANSWERS, FACTS, POLYGONS, Case, Scratch, cases, copied, kind_of, notes
from osgeo import gdal
from qgis.core import (
    NULL,
    QgsApplication,
    QgsProcessingException,
    QgsProcessingFeedback,
    QgsProject,
    QgsRasterLayer,
    QgsVectorLayer,
)
from qgis.PyQt.QtCore import QVariant

# The parameter for the second map of a call.
SECOND = {"zonal": "ZONES", "dominant": "ZONES", "accuracy": "REFERENCE"}
# Tables with their own output parameters.
PARTS = {name: name.upper() for name in ("matrix", "summary", "changes", "intervals")}
# Maps with their own output parameters.
PARTS_THAT_ARE_MAPS = {
    "changes": "CHANGES_MAP",
    **{name: name.upper() for name in ("first_change", "last_change", "shares")},
}
TYPES = {
    QVariant.Int: "integer",
    QVariant.LongLong: "integer",
    QVariant.Double: "number",
    QVariant.String: "text",
}


class Feedback(QgsProcessingFeedback):
    """Keeps the warnings of a run."""

    def __init__(self) -> None:
        super().__init__(False)
        self.warnings: list[str] = []

    def pushWarning(self, warning: str) -> None:
        self.warnings.append(warning)


def plain(value: Any, digits: int = 12) -> str:
    return (
        "*"
        if value is None or value == NULL
        else f"{value:.{digits}g}"
        if isinstance(value, float)
        else str(value)
    )


def asked(case: Case) -> tuple[str, dict[str, Any]]:
    """Return the algorithm and its parameters."""
    kind, *words = case.call.split()
    common = {
        "INPUT": list(case.maps.values()),
        "NAMES": ",".join(case.maps),
        "SCRIPT": case.script,
    }
    if case.crs:
        common["CRS"] = case.crs
    if kind in ("grid", "write"):
        return "rcell:script", {**common, "MAP": words[0]}
    return "rcell:script", {
        **common,
        "AREA": case.area or "none",
        "PERCENT": case.percent,
        "TABLE": "TEMPORARY_OUTPUT",
    }


def of_raster(path: str) -> list[str]:
    """Return the rows of a map or, for shares, the rows of each band, below its name."""
    dataset = gdal.Open(path)
    lines: list[str] = []
    for number in range(1, dataset.RasterCount + 1):
        band = dataset.GetRasterBand(number)
        nodata, name = band.GetNoDataValue(), band.GetDescription()
        lines += [name] if name else []
        for row in band.ReadAsArray().tolist():
            texts = ("*" if it in (nodata, None) or it != it else f"{it:.12g}" for it in row)
            lines.append(" ".join(texts))
    return lines


def of_layer(layer: Any, digits: int = 12) -> list[str]:
    titles = [field.name() for field in layer.fields()]
    return ["|".join(titles)] + [
        "|".join(plain(value, digits) for value in feature.attributes())
        for feature in layer.getFeatures()
    ]


def layer_of(case: Case, name: str) -> Any:
    path = case.maps[name]
    is_vector = POLYGONS.search(path) or path.endswith(".csv")
    return QgsVectorLayer(path, name, "ogr") if is_vector else QgsRasterLayer(path, name)


def types_of(layer: Any) -> str:
    return "|".join(TYPES.get(field.type(), "other") for field in layer.fields())


def parameters_of(case: Case) -> dict[str, Any]:
    """Return the parameters of an algorithm, which have the names of the Python parameters in
    capitals."""
    layers = [layer_of(case, name) for name in case.words]
    parameters: dict[str, Any] = {
        "INPUT": layers if case.call in ("cross", "change", "trajectories") else layers[0]
    }
    if case.call in SECOND:
        parameters[SECOND[case.call]] = layers[1]
    for key, text in case.options.items():
        name = {"rules": "RULES_FILE"}.get(key, key.upper())
        name += "_FILE" * (key == "areas" and text != "map")
        if key not in ("table", "map"):
            parameters[name] = (
                layer_of(case, text)
                if key in ("zones", "to")
                else text == "yes"
                if key in ("fill", "include_null", "each", "drop")
                else text
            )
    return parameters


def answered(case: Case, room: str) -> list[str]:
    """Run one of the ready-made calls."""
    import processing

    parameters, feedback = parameters_of(case), Feedback()
    part = PARTS.get(case.options.get("table", ""), "OUTPUT")
    if "map" in case.options:
        part = PARTS_THAT_ARE_MAPS[case.options["map"]]
    if case.outs:
        outputs = {
            {"out": "OUTPUT"}.get(name, name.upper()): path for name, path in case.outs.items()
        }
    else:
        path = os.path.join(room, f"{case.name}.tif") if case.makes_map else "TEMPORARY_OUTPUT"
        outputs = {"OUTPUT": "TEMPORARY_OUTPUT", part: path}
    try:
        found = processing.run(f"rcell:{case.call}", {**parameters, **outputs}, feedback=feedback)
    except QgsProcessingException as error:
        return refusal(str(error)) + notes(case, case.types, feedback.warnings)
    types = case.types
    if case.outs:
        lines = [f"written: {path}" for path in case.outs.values()]
    elif case.makes_map:
        names = FACTS.get(case.call, ())
        facts = ["|".join(names), "|".join(plain(found[name.upper()]) for name in names)]
        lines = [*(facts if names else []), *of_raster(found[part])]
    else:
        lines, types = of_layer(found[part], case.digits), types_of(found[part])
    return lines + notes(case, types, feedback.warnings)


def answer(case: Case, room: str) -> list[str]:
    import processing

    if case.call in ANSWERS:
        return answered(case, room)
    algorithm, parameters = asked(case)
    if case.call.startswith("table"):
        return of_layer(processing.run(algorithm, parameters)["TABLE"])
    if case.over:
        path = processing.run(algorithm, {**parameters, "OUTPUT": copied(case.over, room)})[
            "OUTPUT"
        ]
        again = {
            "INPUT": [path],
            "NAMES": "x",
            "SCRIPT": "r.stats -c -l input=x",
            "TABLE": "TEMPORARY_OUTPUT",
        }
        return of_layer(processing.run("rcell:script", again)["TABLE"])
    path = os.path.join(room, f"{case.name}.tif")
    return of_raster(processing.run(algorithm, {**parameters, "OUTPUT": path})["OUTPUT"])


def refusal(message: str) -> list[str]:
    """Return the parts of an error: `SOURCE, line N: TEXT`, or `SOURCE: TEXT`."""
    first, *rest = message.removeprefix("Unable to execute algorithm\n").splitlines()
    # The message is a Python exception, or there was nothing to run.
    if re.match("There were errors executing the algorithm|.*Algorithm .* not found", first):
        return [f"error: {message}"]
    place, _, text = first.partition(": ")
    if re.match("[A-Z_]+ ", place):  # a wrong parameter
        place, text = "arguments", first
    if not text:  # an error of QGIS itself
        place, text = "", place
    source, _, line = place.partition(", line ")
    cell = re.search(r"the cell at row (\d+), column (\d+)", text)
    # The mark is printed below its column, two blanks to the right.
    column = next((len(line) - 2 for line in rest if line.endswith("^")), None)
    found = [("kind", kind_of(text)), ("source", source), ("line", line), ("row", cell and cell[1])]
    found += [("column", cell[2] if cell else column), ("text", text)]
    return [f"{name}: {value}" for name, value in found if value]


def tried(case: Case, room: str) -> list[str]:
    try:
        return answer(case, room)
    except QgsProcessingException as error:
        return refusal(str(error))
    except Exception as error:
        return [f"error: {error!r}"]


def main() -> None:
    application = QgsApplication([], False)
    application.initQgis()
    from processing.core.Processing import Processing
    from rcell.plugin import RcellPlugin

    Processing.initialize()
    plugin = RcellPlugin()
    plugin.initProcessing()
    with tempfile.TemporaryDirectory(prefix="R\u00e4ume von QGIS ") as room:
        # QGIS writes statistics next to a raster that it opens.
        shutil.copytree(FOLDER / "rasters", f"{room}/rasters")
        shutil.copytree(HERE.parent / "examples/rasters", f"{room}/rasters", dirs_exist_ok=True)
        for case in (it for it in cases() if it.is_for("qgis")):
            if case.outs:
                scratch = Scratch()
                lines = tried(scratch.moved(case), room)
                QgsProject.instance().clear()
                lines += scratch.changed()
            else:
                case.maps = {
                    name: f"{room}/rasters/{os.path.basename(path)}"
                    for name, path in case.maps.items()
                }
                lines = tried(case, room)
            print(f"case {case.name}", *(f" {line}" for line in lines), sep="\n", flush=True)
    plugin.unload()
    application.exitQgis()


if __name__ == "__main__":
    sys.stdout.reconfigure(encoding="utf-8")  # type: ignore[union-attr]
    main()
