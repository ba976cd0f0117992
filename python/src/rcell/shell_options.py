# SPDX-License-Identifier: Apache-2.0 OR GPL-2.0-or-later
"""Define the options of `rcell-gis`."""

from __future__ import annotations

import argparse
from typing import Any

__all__ = ["NOTES", "OPTIONS"]

FORMATS = ("csv", "tsv", "markdown", "json")

# Notes that follow the options in a command's help.
NOTES = {
    "accuracy": """\
--areas map adds three columns: mapped_ha, the area on the map; area_ha, the estimate from the
sample; and area_se_ha, the standard error of the estimate (Olofsson et al. 2014). A sample that was
drawn class by class, for example with `sample`, requires --areas. Without it, only the user's
accuracies and their standard errors are correct. --table summary contains the overall
accuracy.""",
    "metrics": """\
The columns for classes are cells, area_ha, percent, patches, patches_km2, largest_patch_percent,
mean_patch_ha, area_weighted_mean_patch_ha, effective_mesh_ha, edge_m, edge_density_m_ha,
mean_shape_index, aggregation_index, cohesion and interspersion_index. A landscape consists of all
non-null cells of the map or zone. Zone borders and cell sides next to null cells are not edges.""",
    "sieve": """\
The smallest patch is merged first, into the neighbour with the longest common border. In a tie, the
neighbour whose first cell comes first is used. patches_below counts the remaining small patches,
which touch no other class.""",
    "verify": """\
To let others verify a table, give them FILE.csv, FILE.csv.json and the files that the record names.
Paths in the record are relative to FILE.csv.""",
    "within": """\
OUT is 0 in the classes, 1 up to the first distance, 2 from there up to the second distance, and
null beyond the last. Rings also cover cells that are null in MAP. Distances are measured between
cell centres. `composition MAP --zones OUT` lists the classes in each ring.""",
}


def _wholes(text: str) -> list[int]:
    try:
        return [int(word) for word in text.split(",")]
    except ValueError:
        rule = f"must be comma-separated whole numbers, for example 31,32; got {text}"
        raise argparse.ArgumentTypeError(rule) from None


def _distances(text: str) -> list[float]:
    try:
        return [float(word) for word in text.split(",")]
    except ValueError:
        rule = f"must be comma-separated numbers, for example 100,500; got {text}"
        raise argparse.ArgumentTypeError(rule) from None


def _shares(text: str) -> list[float]:
    try:
        return [float(word) for word in text.split(",")]
    except ValueError:
        rule = f"must be comma-separated numbers from 0 to 1, for example 0.25,0.5; got {text}"
        raise argparse.ArgumentTypeError(rule) from None


OPTIONS: dict[str, tuple[str, dict[str, Any]]] = {
    "map": ("map", {"metavar": "MAP", "help": "a raster that GDAL can read, or an rcell grid"}),
    "maps": (
        "maps",
        {"metavar": "MAP", "nargs": "+", "help": "rasters that GDAL can read, or rcell grids"},
    ),
    "named": (
        "maps",
        {
            "metavar": "NAME=MAP",
            "nargs": "+",
            "help": "maps, each with its name in the table or script",
        },
    ),
    "target": (
        "target",
        {"metavar": "OUT", "help": "the map to write: .tif, .txt, .asc, .png, .svg or .pdf"},
    ),
    "script": (
        "script",
        {
            "metavar": "SCRIPT",
            "help": 'a file, `-` for standard input, or a line such as "r.stats -c input=lc"',
        },
    ),
    "reference": (
        "reference",
        {
            "metavar": "REFERENCE",
            "help": "a map, points, or a CSV with the columns map, reference and cells",
        },
    ),
    "zone_map": ("zones", {"metavar": "ZONES", "help": "a map, or polygons"}),
    "zones": ("--zones", {"metavar": "ZONES", "help": "a map, or polygons"}),
    "zone_field": (
        "--zone-field",
        {"metavar": "FIELD", "help": "the polygon field with the ids or names of the zones"},
    ),
    "zone_labels": ("--zone-labels", {"metavar": "LEGEND", "help": "the labels of the zones"}),
    "layer": (
        "--layer",
        {"metavar": "NAME", "help": "the layer to read, if the vector file has several"},
    ),
    "each_zone": (
        "--each",
        {
            "action": "store_true",
            "help": "process overlapping polygons separately",
        },
    ),
    "band": (
        "--band",
        {"type": int, "metavar": "N", "help": "the band to read, if the raster has several"},
    ),
    "labels": ("--labels", {"metavar": "LEGEND", "help": "the labels of the classes"}),
    "legends": (
        "--labels",
        {
            "metavar": "NAME=LEGEND",
            "action": "append",
            "default": [],
            "help": "a legend for a map; may be repeated",
        },
    ),
    "area": (
        "--area",
        {"choices": ["ha", "km2", "m2", "none"], "help": "the unit of areas; default: ha"},
    ),
    "include_null": ("--include-null", {"action": "store_true", "help": "also count null cells"}),
    "crs": (
        "--crs",
        {"metavar": "EPSG:CODE", "help": "the reference system to assume for maps that have none"},
    ),
    "connectivity": (
        "--connectivity",
        {
            "type": int,
            "choices": [4, 8],
            "help": "how cells connect: 4 by edges (default), 8 also by corners",
        },
    ),
    "classes": (
        "--classes",
        {"type": _wholes, "metavar": "CLASS,..", "help": "select only patches of these classes"},
    ),
    "min_cells": (
        "--min-cells",
        {"type": int, "metavar": "N", "help": "select only patches with at least N cells"},
    ),
    "of_classes": (
        "--classes",
        {
            "type": _wholes,
            "required": True,
            "metavar": "CLASS,..",
            "help": "the classes from which distances are measured",
        },
    ),
    "distances": (
        "--distances",
        {
            "type": _distances,
            "required": True,
            "metavar": "METRES,..",
            "help": "the distances in metres, in ascending order",
        },
    ),
    "smallest": (
        "--min-cells",
        {"type": int, "metavar": "N", "help": "the minimum number of cells in a patch"},
    ),
    "min_ha": (
        "--min-ha",
        {"type": float, "metavar": "HA", "help": "the minimum area of a patch in hectares"},
    ),
    "drop": ("--drop", {"action": "store_true", "help": "set small patches to null"}),
    "summary": (
        "--summary",
        {"choices": ["class"], "help": "write a row per class instead of a row per patch"},
    ),
    "factor": (
        "--factor",
        {
            "type": int,
            "required": True,
            "metavar": "N",
            "help": "the number of rows and of columns in a block",
        },
    ),
    "min_percent": (
        "--min-percent",
        {
            "type": float,
            "metavar": "P",
            "help": "the minimum percentage of a block's cells that must not be null",
        },
    ),
    "shares": (
        "--shares",
        {
            "metavar": "FILE",
            "help": "also write a GeoTIFF with a band of percentages for each class",
        },
    ),
    "of_trajectories": (
        "--table",
        {
            "choices": ["table", "changes", "intervals"],
            "default": "table",
            "help": "one row per sequence of classes, per number of changes, or per interval",
        },
    ),
    "maps_of_years": (
        "--map",
        {
            "dest": "outs",
            "metavar": "NAME=FILE",
            "action": "append",
            "default": [],
            "help": "write a map (changes, first_change or last_change) to a file; may be repeated",
        },
    ),
    "core_depth": (
        "--core-depth",
        {
            "type": int,
            "metavar": "N",
            "help": "the number of steps from the border of a patch to its core",
        },
    ),
    "years": ("--years", {"type": _wholes, "metavar": "YEAR,..", "help": "the year of each map"}),
    "table": (
        "--table",
        {
            "choices": ["table", "matrix", "summary"],
            "default": "table",
            "help": "one row per change, a matrix, or gains and losses by class",
        },
    ),
    "areas": (
        "--areas",
        {
            "metavar": "AREAS",
            "help": (
                "the class areas, if the sample was drawn class by class: map, or a CSV with the "
                "columns value and area"
            ),
        },
    ),
    "n": (
        "--n",
        {
            "required": True,
            "metavar": "N",
            "help": "the number of cells in total or by class, for example 500 or 11:50,31:100",
        },
    ),
    "seed": (
        "--seed",
        {
            "required": True,
            "metavar": "SEED",
            "help": "a number or string that determines the draw",
        },
    ),
    "allocation": (
        "--allocation",
        {
            "choices": ["equal", "proportional"],
            "help": "how to divide N among classes; default: equal",
        },
    ),
    "level": (
        "--level",
        {
            "choices": ["class", "landscape", "patch"],
            "help": "what to measure; default: class",
        },
    ),
    "field": ("--field", {"metavar": "FIELD", "help": "the field with the class of each point"}),
    "part": (
        "--table",
        {
            "choices": ["classes", "matrix", "summary"],
            "default": "classes",
            "help": "one row per class, the confusion matrix, or one row for all classes",
        },
    ),
    "quantiles": (
        "--quantiles",
        {"type": _shares, "metavar": "Q,..", "help": "quantiles from 0 to 1; default: the median"},
    ),
    "scale": (
        "--scale",
        {
            "type": int,
            "metavar": "N",
            "help": "round decimals to multiples of 1/N, for example N = 100",
        },
    ),
    "size": (
        "--size",
        {
            "type": int,
            "metavar": "N",
            "help": "the side of the square in cells, odd, from 3 to 15; default: 3",
        },
    ),
    "fill": ("--fill", {"action": "store_true", "help": "also give null cells a class"}),
    "rules": (
        "--rules",
        {"required": True, "metavar": "FILE", "help": "a CSV with the columns value and new"},
    ),
    "other": (
        "--other",
        {"choices": ["keep", "null"], "help": "keep classes without a rule, or set them to null"},
    ),
    "to": ("--to", {"required": True, "metavar": "OTHER", "help": "the map whose grid is used"}),
    "resample": (
        "--resample",
        {
            "choices": ["nearest"],
            "help": "use the nearest cells if the grids do not match by whole cells",
        },
    ),
    "like": (
        "--like",
        {"metavar": "MAP", "help": "use the reference system and the extent of this map"},
    ),
    "workers": (
        "--workers",
        {
            "type": int,
            "metavar": "N",
            "help": "the number of tiles to process at a time; default: one per processor",
        },
    ),
    "resume": (
        "--resume",
        {
            "metavar": "DIR",
            "help": "keep the results of finished tiles in this folder, and reuse them",
        },
    ),
    "dry_run": (
        "--dry-run",
        {
            "action": "store_true",
            "help": "print the plan (tiles, memory, reads) without running it",
        },
    ),
    "outs": (
        "--out",
        {
            "dest": "outs",
            "metavar": "NAME=FILE",
            "action": "append",
            "default": [],
            "help": "write a map of the script to a file; may be repeated",
        },
    ),
    "each": (
        "--each",
        {"metavar": "DIR", "help": "write each table and map to a file in this new folder"},
    ),
    "tables": ("tables", {"metavar": "FILE.csv", "nargs": "+", "help": "tables with records"}),
    "page": ("--out", {"dest": "page", "metavar": "FILE.html", "help": "the page to write"}),
    "title": ("--title", {"metavar": "TEXT", "default": "Report", "help": "the title of the page"}),
    "record": (
        "--record",
        {"action": "store_true", "help": "also write a record, which `verify` checks"},
    ),
    "format": (
        "--format",
        {
            "choices": FORMATS,
            "help": "the table format; default: from the file name extension, or csv",
        },
    ),
    "out": ("--out", {"metavar": "FILE", "help": "write to a file instead of standard output"}),
}
