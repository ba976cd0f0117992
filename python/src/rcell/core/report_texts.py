# SPDX-License-Identifier: Apache-2.0 OR GPL-2.0-or-later
"""Define the wording and the layout of reports."""

from __future__ import annotations

__all__ = ["DEFINITIONS", "PAGE", "WORDS"]

_AREAS = (
    "The area is the number of cells times the area of a cell. In degrees, the area of a cell is "
    "computed for each row, on the ellipsoid. Percentages refer to the area that is not null or, "
    "without areas, to the cells that are not null."
)
DEFINITIONS = {
    "composition": f"The number of cells of each class, in total or by zone. {_AREAS}",
    "cross": f"The number of cells of each combination of the classes of several maps. {_AREAS}",
    "change": (
        "The changes in the cells that are null in neither year. A class gains the cells that "
        "changed to it and loses the cells that changed from it. Net change is gain minus loss, "
        "swap is twice the smaller of the two, and persistence counts unchanged cells. "
        f"{_AREAS}"
    ),
    "trajectories": (
        "The sequences of classes in the cells that are not null in any year. A change is dated to "
        "the first year with the new class. The uniform percentage is the average annual change "
        f"over all years. {_AREAS}"
    ),
    "patches": (
        "The patches of the map: cells of one class that are connected by edges or, with "
        "connectivity 8, also by corners. The perimeter includes cell sides next to other patches, "
        "next to null cells and along the map's edge. A cell is in the core if all cells within "
        "the core depth, counted in steps across edges, are in its patch."
    ),
    "zonal": (
        "Statistics of the values in each zone. The variance is the population variance. Quantiles "
        "between two values are interpolated."
    ),
    "adjacency": "The number of cell sides that two classes share. Each side counts once.",
    "dominant": (
        "The most frequent and the rarest class of each zone, by number of cells. In a tie, the "
        f"smallest class is used. {_AREAS}"
    ),
    "accuracy": (
        "The map is compared with a reference. With areas, the classes are strata, and all "
        "estimates and their standard errors follow equations 1 to 11 of Olofsson et al. (2014). "
        "User's accuracy is the share of a map class that is correct. Producer's accuracy is the "
        "share of a reference class that is mapped correctly."
    ),
    "metrics": (
        "Landscape metrics as defined by FRAGSTATS 4, without a border. Each zone is a separate "
        "landscape."
    ),
    "sample": (
        "A stratified random sample without replacement. The same map, size and seed draw the same "
        "cells in every package."
    ),
}

WORDS = {
    "call": "Call",
    "made": "Inputs",
    "rows": "{1} contains {0} more rows.",
    "rounded": "Numbers are rounded here. The CSV contains all digits.",
    "verify": "To verify this table, run this command in the folder that contains {0}:",
    "changed": "No picture: the cells of {0} have changed since the table was written.",
    "absent": "No picture: {0} cannot be read.",
}

PAGE = """<!DOCTYPE html>
<html lang="en">
<head>
<meta charset="utf-8">
<meta http-equiv="Content-Security-Policy" content="default-src 'none'; img-src data:; style-src 'unsafe-inline'">
<meta name="viewport" content="width=device-width, initial-scale=1">
<title>{title}</title>
<style>
body {{ font: 15px/1.45 sans-serif; color: #222; max-width: 60em; margin: 2em auto; padding: 0 1em; }}
h1, h2 {{ line-height: 1.2; }}
section {{ border-top: 1px solid #bbb; margin-top: 2em; }}
table {{ border-collapse: collapse; font-size: 13px; margin: 1em 0; }}
th, td {{ border-bottom: 1px solid #ddd; padding: 2px 8px; text-align: left; vertical-align: top; }}
td.number, th.number {{ text-align: right; font-variant-numeric: tabular-nums; }}
thead {{ display: table-header-group; }}
tr, figure {{ break-inside: avoid; }}
h2 {{ break-after: avoid; }}
figure {{ margin: 1em 0; }}
img {{ image-rendering: pixelated; max-width: 100%; border: 1px solid #bbb; }}
figcaption span {{ display: inline-block; margin-right: 1em; }}
figcaption i {{ display: inline-block; width: 0.9em; height: 0.9em; margin-right: 0.3em; border: 1px solid #888; }}
code, pre {{ font: 12px/1.4 monospace; overflow-wrap: anywhere; white-space: pre-wrap; }}
i {{ print-color-adjust: exact; -webkit-print-color-adjust: exact; }}
</style>
</head>
<body>
<h1>{title}</h1>
{body}
</body>
</html>
"""
