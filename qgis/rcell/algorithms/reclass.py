# SPDX-License-Identifier: Apache-2.0 OR GPL-2.0-or-later
"""Define rcell:reclass, which reclassifies a map using rules."""

from __future__ import annotations

from typing import Any


from ..engine.core.errors import Refused
from ..engine.core.reclass import reclass
from ..engine.core.runs import planned
from ..engine.core.scripts import Run
from ..engine.core.sources import ArrayMap, Source
from ..results import counted_classes
from ..translation import noop, tr
from .base import RcellAlgorithm


OTHERS = ["error", "keep", "null"]


class ReclassAlgorithm(RcellAlgorithm):
    """Gives classes new numbers and labels, using rules."""

    NAME = "reclass"
    TITLE = noop("Reclassify by rules")
    SHORT = noop(
        "Gives the classes of a raster new numbers and labels, using rules in the format of "
        "r.reclass, and adds a legend with cells and areas."
    )
    TAGS = "reclassify, r.reclass, rules, recode, group, labels, legend"
    HELP = (
        noop(
            "<p>A rule is a line with classes, <code>=</code>, the new class and, optionally, a "
            "label.</p>"
        ),
        noop(
            "<p><code>1 thru 3 = 1 forest<br>4 7 9 = 2 open land<br>12 = NULL<br>* = 3 all "
            "else</code></p>"
        ),
        noop(
            "<p>Ranges include both ends. Classes without a rule have no data in the result. "
            "<code>*</code> means all other classes, and <code>* = *</code> keeps them. Lines "
            "that begin with <code>#</code> are comments.</p>"
        ),
        noop(
            "<p>The labels are stored as category names in the file, and the legend shows the "
            "cells and hectares of each class. The legend is also written to a .qml file next to "
            "the raster.</p>"
        ),
    )

    def initAlgorithm(self, configuration: Any = None) -> None:
        """Declare the parameters."""
        self.add_raster()
        self.add_lines("RULES", tr("Rules, one per line"), "1 thru 3 = 1 low\n* = 2 high")
        self.add_file("RULES_FILE", tr("Crosswalk instead of rules: a CSV with value,new,label"))
        self.add_choice("OTHER", tr("Classes without a rule in the crosswalk"), OTHERS)
        self.add_map(tr("Reclassified map"))

    def answer(self) -> dict[str, Any]:
        """Write the reclassified map."""
        raster = self.rasters[0]
        crosswalk, other = self.path("RULES_FILE"), self.word("OTHER")
        if crosswalk is None:
            reclassified = _reclassed(raster, self.text("RULES"))
        else:
            reclassified = reclass(raster, crosswalk, None if other == "error" else other)
        self.colours = {}  # the classes are new
        classes = counted_classes(reclassified, raster, crs=None)
        return {"OUTPUT": self.put_map(reclassified, classes)}


def _reclassed(raster: Source, rules: str) -> ArrayMap:
    """Reclassify a map using rules in the format of r.reclass.

    Raises
    ------
    Refused
        The program rejects a rule. The error names the line in the rules.
    """
    lines = rules.rstrip("\n").split("\n")
    script = "\n".join(["r.reclass input=map output=classes", *lines])
    try:
        planned(script, ["map"])
    except Refused:  # the rules lack a line `end`, or contain an error, which the run reports
        script += "\nend"
    try:
        return Run(script, {"map": raster}, named={}).maps(["classes"])[0]
    except Refused as refusal:  # the rules begin in line 2 of the script
        if refusal.source == "script" and 2 <= refusal.line <= len(lines) + 1:
            refusal.source, refusal.line = "rules", refusal.line - 1
        raise
