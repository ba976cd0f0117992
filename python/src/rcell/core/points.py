# SPDX-License-Identifier: Apache-2.0 OR GPL-2.0-or-later
"""Find the map cells that contain a layer's points and read the class of each point."""

from __future__ import annotations

from collections.abc import Iterator
from dataclasses import dataclass
from typing import Any, Optional

import numpy as np

from .arguments import MAX_CATEGORY, known_names
from .arrays import Integers
from .crs import common_crs
from .errors import BadMap
from .host import option, warn
from .legends import is_missing, whole_number
from .protocol import NULL
from .sources import ArrayMap, Source
from .zones import Layer

__all__ = ["Points", "points_of"]

# The usual fields for the class, if no field is named.
_FIELDS = ("class", "reference")
_KINDS = ("Point", "MultiPoint")


@dataclass(frozen=True)
class Points:
    """Points assigned to the cells of a map.

    Attributes
    ----------
    map : ArrayMap
        A map in which the cells that contain points are numbered from 1, and all other cells are
        null.
    cells, classes : array of int64
        The cell number and the class of each point.
    left_out : dict of str to int
        The number of points that are left out, by reason.
    """

    map: ArrayMap
    cells: Integers
    classes: Integers
    left_out: dict[str, int]

    def pairs(self, table: Integers) -> Integers:
        """Count the pairs of map class and point class, and warn about omitted points.

        Parameters
        ----------
        table : array of int64
            The number and the map class of each cell that contains points and is not null in the
            map.
        """
        class_of_cell = np.full(int(self.cells.max(initial=0)) + 1, NULL, np.int64)
        class_of_cell[table[:, 0]] = table[:, 1]
        classes = class_of_cell[self.cells]
        has_class = classes != NULL
        left_out = {**self.left_out, "on null cells": np.count_nonzero(~has_class)}
        lost = sum(left_out.values())
        if lost:
            total = lost + np.count_nonzero(has_class)
            reasons = ", ".join(
                f"{count:,} {reason}" for reason, count in left_out.items() if count
            )
            warn(f"reference: {lost:,} of {total:,} points are left out: {reasons}")
        pairs = np.column_stack([classes[has_class], self.classes[has_class]])
        distinct, counts = np.unique(pairs, axis=0, return_counts=True)
        return np.column_stack([distinct, counts])


def points_of(layer: Layer, field: Optional[str], like: Source, crs: Any = None) -> Points:
    """Assign the points of a layer to the cells of a map.

    A point on a border belongs to the cell south or east of the border.

    Parameters
    ----------
    layer : Layer
    field : str, optional
        The field that contains each point's class.
    like : Source
        The map whose cells are used.
    crs : any
        The coordinate reference system to assume for maps that do not have one.

    Raises
    ------
    OtherCrs
        The points' reference system differs from the map's.
    BadMap
        The field is missing, a feature is not a point, or a class is not a whole number.
    """
    name = _field_of(layer, field)
    titles = {"map": like.name, "reference": layer.name}
    systems = {"map": like.crs, "reference": layer.crs}
    common_crs(systems, crs, warp="ogr2ogr", titles=titles)
    points = list(_points(layer, name))
    known = [point for point in points if point is not None]
    x, y, codes = np.array(known, np.float64).reshape(-1, 3).T
    region, transform = like.region, like.transform
    width, _, west, _, height, north = transform
    col = np.floor((x - west) / width)
    row = np.floor((north - y) / -height)
    rows, cols = region.shape
    inside = (row >= 0) & (row < rows) & (col >= 0) & (col < cols)
    left_out = {
        "without a class": len(points) - len(known),
        "outside the map": np.count_nonzero(~inside),
    }
    flat_index = row[inside].astype(np.int64) * cols + col[inside].astype(np.int64)
    distinct, places = np.unique(flat_index, return_inverse=True)
    numbers = np.full((rows, cols), NULL, np.int32)
    numbers.reshape(-1)[distinct] = np.arange(1, distinct.size + 1)
    numbered = ArrayMap(
        layer.name, numbers, region, nodata_value=NULL, crs=like.crs, exact_transform=transform
    )
    classes = codes[inside].astype(np.int64)
    return Points(numbered, places.reshape(-1) + 1, classes, left_out)


def _field_of(layer: Layer, field: Optional[str]) -> str:
    """Return the name of the field that contains the classes.

    If no field is given, it is the only field that has one of the usual names.
    """
    usual = [name for name in _FIELDS if name in layer.fields]
    if field is None and len(usual) == 1:
        return usual[0]
    if field is None and usual:
        problem = (
            f"has the fields {' and '.join(usual)}: name one, for example "
            f"{option('field', usual[1])}"
        )
        raise BadMap(layer.name, problem)
    if field is None or field not in layer.fields:
        wanted = " or ".join(_FIELDS) if field is None else field
        raise BadMap(layer.name, f"no field {wanted}: {known_names('field', layer.fields)}")
    return field


def _points(layer: Layer, field: str) -> Iterator[Optional[tuple[float, float, int]]]:
    """Yield each point's coordinates and class, or None if the geometry or class is missing."""
    for feature in layer.features(field):
        value = feature.value
        if feature.geometry is None or is_missing(value) or value == "":
            yield None
            continue
        if feature.kind not in _KINDS:
            raise BadMap(
                layer.name, f"features must be points, but feature {feature.id} is a {feature.kind}"
            )
        west, south, east, north = layer.bounds(feature.geometry)
        if (west, south) != (east, north):
            raise BadMap(
                layer.name, f"features must be single points, but feature {feature.id} has several"
            )
        code = whole_number(value)
        if code is None or abs(code) > MAX_CATEGORY:
            problem = (
                f"classes must be whole numbers, but the class of feature {feature.id} is {value!r}"
            )
            raise BadMap(layer.name, problem)
        yield west, south, code
