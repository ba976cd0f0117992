# SPDX-License-Identifier: Apache-2.0 OR GPL-2.0-or-later
"""Define rcell:script, which runs a script over rasters."""

from __future__ import annotations

import os
from typing import Any

from qgis.core import (
    QgsProcessing,
    QgsProcessingParameterFeatureSink,
    QgsProcessingParameterFolderDestination,
    QgsProcessingParameterRasterDestination,
)

from ..engine.core.area import flat_measure
from ..engine.core.arguments import known_names
from ..engine.core.columns import Table
from ..engine.core.errors import Refused, WriteFailed
from ..engine.core.host import Host, serving
from ..engine.core.protocol import NULL, Statement
from ..engine.core.runs import planned
from ..engine.core.scripts import Run, Stats
from ..engine.core.sources import ArrayMap
from ..host import find_program
from ..layers import names_of, raster_of
from ..results import cells_of, counted_classes, put_legend
from ..tables import check_target, write_raster, write_table
from ..translation import noop, tr
from .base import RcellAlgorithm, program_setting

AREAS = ["none", "ha", "km2", "m2"]
# The largest number of table rows that the log shows.
_SHOWN_ROWS = 20


class ScriptAlgorithm(RcellAlgorithm):
    """Runs a map algebra script over rasters."""

    NAME = "script"
    TITLE = noop("Map algebra script")
    SHORT = noop(
        "Runs a script of r.mapcalc, r.reclass, r.clump, r.stats and r.out.ascii over "
        "rasters, and writes a map, a table, or all outputs."
    )
    TAGS = "map algebra, raster calculator, r.mapcalc, r.reclass, r.clump, r.stats, expression"
    IS_OF_ONE_RASTER = False
    HELP = (
        noop(
            "<p>In the script, the rasters have the names that you list, in the order of the "
            "rasters. By default, they have their layer names, with <code>_</code> in place of "
            "characters that are not allowed in names.</p>"
        ),
        noop(
            "<p><code>r.mapcalc wet = if(cover == 4 &amp;&amp; slope &lt; 2, 1, "
            "null())<br>r.clump -d input=wet "
            "output=ponds<br>r.stats -c -n input=ponds,zone</code></p>"
        ),
        noop(
            "<p>The map output is the map that you name, or the only map of the script. The "
            "table output is the table of the only <code>r.stats</code>. All outputs of the script "
            "are written to the folder: a table for each <code>r.stats</code>, named after its "
            "line, and a GeoTIFF for each <code>r.out.ascii</code>.</p>"
        ),
        noop(
            "<p>If a line contains an error, the log shows the line with a mark below the error. "
            "Numbers are integers, which never overflow and are never rounded.</p>"
        ),
    )

    def initAlgorithm(self, configuration: Any = None) -> None:
        """Declare the parameters."""
        self.add_rasters(tr("Rasters (1 to 16)"))
        self.add_text("NAMES", tr("Their names in the script, separated by commas"))
        self.add_lines("SCRIPT", tr("Script"))
        self.add_text("MAP", tr("Name of the output map (empty: the only map of the script)"))
        self.add_choice("AREA", tr("Unit of areas in the table"), AREAS)
        self.add_flag("PERCENT", tr("Add percentages to the table"))
        any_table = QgsProcessing.TypeVector
        for parameter, arguments in (
            (QgsProcessingParameterRasterDestination, ("OUTPUT", tr("Map"))),
            (QgsProcessingParameterFeatureSink, ("TABLE", tr("Table"), any_table)),
            (QgsProcessingParameterFolderDestination, ("FOLDER", tr("Folder for all outputs"))),
        ):
            self.addParameter(parameter(*arguments, optional=True, createByDefault=False))
        self.add_crs()

    def check_words(self) -> None:
        """Check that the script creates the requested outputs.

        Errors in the script are left to the run, which marks them in the log.
        """
        try:
            plan = self._plan()
        except Refused as error:
            if error.content is not None:  # a line of the script
                return
            raise
        self._wanted(plan)
        tables = [statement.line for statement in plan if statement.command == "r.stats"]
        if self.parameter_values.get("TABLE") and len(tables) != 1:
            listed = ", ".join(f"r.stats in line {line}" for line in tables) or "no r.stats"
            problem = (
                f"the script must write one table; got {listed}: use FOLDER to get all outputs"
            )
            raise Refused(problem, "script")

    def read(self) -> None:
        """Read the rasters with their script names and check that they have the same grid."""
        layers = self._named_layers()
        self.rasters = [raster_of(layer, name) for name, layer in layers]
        self.fit(self.rasters)

    def answer(self) -> dict[str, Any]:
        """Write the requested outputs of the script."""
        wanted = self._wanted(self._plan())
        maps = {raster.name: raster for raster in self.rasters}
        run = Run(self._script(), maps, named={}, crs=self.crs())
        outputs = self._measured(run, [wanted] if wanted else [])
        results: dict[str, Any] = {}
        if wanted:
            raster_map = outputs.pop()  # the requested map is the last output
            classes = counted_classes(raster_map, run.first, run.crs)
            results["OUTPUT"] = self.put_map(raster_map, classes)
        tables = [output for _, output in outputs if isinstance(output, Table)]
        if self.parameter_values.get("TABLE"):
            results["TABLE"] = self.put_table("TABLE", tables[0])
        if self.parameter_values.get("FOLDER"):
            folder = self.text("FOLDER")
            results["FOLDER"] = self._put_all(folder, outputs, run)
        for line, output in outputs:
            if isinstance(output, Table):
                self.feedback.pushInfo(_shown(line, output))
        return results

    def _measured(self, run: Run, wanted: list[str]) -> list[Any]:
        """Run the script and return each output with its line number, then the requested map.

        Tables contain areas and percentages if they are requested. Maps have line 0.
        """
        unit = self.word("AREA")
        measure = None if unit == "none" else flat_measure(unit, run.first.transform, run.crs)
        percent = self.flag("PERCENT")
        outputs = run.outputs(wanted)
        count = len(outputs) - len(wanted)
        numbered: list[Any] = []
        for output in outputs[:count]:
            if isinstance(output, Stats):
                numbered.append((output.line, output.table(measure, percent)))
            else:
                numbered.append((0, output))
        return numbered + outputs[count:]

    def _named_layers(self) -> list[tuple[str, Any]]:
        names = self.text("NAMES")
        layers = self.raster_layers([name.strip() for name in names.split(",")])
        return list(zip(names_of(layers, names), layers))

    def _plan(self) -> list[Statement]:
        names = [name for name, _ in self._named_layers()]
        program = find_program(program_setting())
        with serving(Host(words="qgis", find=lambda: program)):
            return planned(self._script(), names)

    def _script(self) -> str:
        script: str = self.text("SCRIPT")
        return script.rstrip("\n")

    def _wanted(self, plan: list[Statement]) -> str:
        """Return the name of the requested map, or an empty string if no map is requested."""
        name: str = self.text("MAP").strip()
        if not self.parameter_values.get("OUTPUT"):
            if name:
                raise Refused(f"the map {name} is requested, but OUTPUT is empty", status=2)
            return ""
        maps = [statement.made for statement in plan if statement.made]
        if not name and len(maps) != 1:
            result = f"makes {', '.join(maps)}" if maps else "makes no map"
            raise Refused(f"the script {result}: name the output map", status=2)
        known = [*(raster.name for raster in self.rasters), *maps]
        if name and self.rasters and name not in known:
            raise Refused(f"no map {name}: {known_names('map', known)}", status=2)
        return name or maps[0]

    def _put_all(self, folder: str, outputs: list[tuple[int, Any]], run: Run) -> str:
        """Write a file for each output of the script and return the folder."""
        try:
            os.makedirs(folder, exist_ok=True)
        except OSError as error:
            raise WriteFailed(f"{folder} cannot be written: {error.strerror or error}") from None
        for line, output in outputs:
            if isinstance(output, ArrayMap):
                path = os.path.join(folder, f"{output.name}.tif")
                check_target(path, [file for raster in self.rasters for file in raster.files])
                write_raster(
                    path, "GTiff", cells_of(output), NULL, run.first, output.labels, self.check
                )
                classes = counted_classes(output, run.first, run.crs)
                put_legend(path, classes, colours={}, context=self.context)
            else:
                write_table(os.path.join(folder, f"table_{line}.csv"), output, self.check)
        return folder


def _shown(line: int, table: Table) -> str:
    """Format the first rows of a table for the log."""
    rows = [list(table.columns)]
    for row in table.rows[:_SHOWN_ROWS]:
        rows.append([_cell_text(value) for value in row])
    widths = [max(map(len, column)) for column in zip(*rows)]
    lines = [f"r.stats in line {line}:"]
    for texts in rows:
        lines.append("  ".join(text.rjust(width) for text, width in zip(texts, widths)))
    rest = len(table) - _SHOWN_ROWS
    if rest > 0:
        lines.append(f"({rest:,} more rows)")
    return "\n".join(lines)


def _cell_text(value: Any) -> str:
    if value is None:
        return ""
    return f"{value:.10g}" if isinstance(value, float) else str(value)
