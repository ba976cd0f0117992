# SPDX-License-Identifier: Apache-2.0 OR GPL-2.0-or-later
"""Convert GeoDataFrames, GeoSeries and GeoJSON to layers, which are rasterised with rasterio."""

from __future__ import annotations

import numbers
from collections.abc import Iterator, Mapping, Sequence
from dataclasses import dataclass
from typing import Any, Optional

import numpy as np

from ..core.arrays import NDArray
from ..core.legends import is_missing
from ..core.libraries import need
from ..core.region import Transform
from ..core.zones import Feature

__all__ = ["Polygons", "layer_of"]

# GeoJSON has only this reference system.
GEOJSON_CRS = "EPSG:4326"
_PURPOSE = "to read polygons"


@dataclass(frozen=True)
class Polygons:
    """A layer of features in memory.

    Attributes
    ----------
    name : str
    crs : any
    fields : tuple of str
    records : sequence of tuples
        For each feature, the id, the properties by field, and the geometry, which is GeoJSON, a
        shapely object, or None.
    """

    name: str
    crs: Any
    fields: tuple[str, ...]
    records: Sequence[tuple[Any, Mapping[str, Any], Any]]

    def features(self, field: Optional[str]) -> Iterator[Feature]:
        """Yield the features in order, with their values of a field."""
        for number, properties, geometry in self.records:
            value = None if field is None else properties[field]
            value = None if is_missing(value) else value
            kind = "" if geometry is None else _kind(geometry)
            yield Feature(number, value, kind, geometry if kind else None)

    def burn(
        self, shapes: Sequence[tuple[Any, int]], transform: Transform, shape: tuple[int, int]
    ) -> NDArray[np.int32]:
        """Return, for each cell, the number of the last geometry that contains its centre, or 0."""
        affine = need("affine", "gis", _PURPOSE).Affine(*transform)
        rasterize = need("rasterio.features", "gis", _PURPOSE).rasterize
        burnt: NDArray[np.int32] = rasterize(shapes, shape, fill=0, transform=affine, dtype="int32")
        return burnt

    def bounds(self, geometry: Any) -> tuple[float, float, float, float]:
        """Return the west, south, east and north bounds of a geometry."""
        if hasattr(geometry, "bounds"):  # a shapely object
            west, south, east, north = geometry.bounds
            return west, south, east, north
        # rasterio cannot compute the bounds of points or of fiona's geometries.
        x, y = zip(*_vertices(geometry["coordinates"]))
        return min(x), min(y), max(x), max(y)


def _vertices(coordinates: Any) -> Iterator[Sequence[float]]:
    """Yield the vertices of a GeoJSON geometry."""
    if isinstance(coordinates[0], numbers.Real):
        yield coordinates[:2]
        return
    for part in coordinates:
        yield from _vertices(part)


def _kind(geometry: Any) -> str:
    """Return the type of a geometry, or an empty string for an empty geometry."""
    if hasattr(geometry, "is_empty"):
        return "" if geometry.is_empty else str(geometry.geom_type)
    is_empty = not geometry.get("coordinates") and not geometry.get("geometries")
    return "" if is_empty else str(geometry["type"])


def layer_of(name: str, source: Any) -> Optional[Polygons]:
    """Convert a GeoDataFrame, GeoSeries or GeoJSON to a layer, or return None for other types."""
    if hasattr(source, "geom_type") and hasattr(source, "crs"):  # from geopandas
        shapes = source.geometry
        properties: Sequence[Mapping[str, Any]] = [{}] * len(shapes)
        fields: tuple[str, ...] = ()
        if hasattr(source, "columns"):  # a GeoDataFrame
            table = source.drop(columns=shapes.name)
            properties = table.to_dict("records") or properties
            fields = tuple(map(str, table.columns))
        return Polygons(name, source.crs, fields, list(zip(source.index, properties, shapes)))
    if isinstance(source, Mapping) and source.get("type") == "FeatureCollection":
        records = [
            (feature.get("id", place), feature.get("properties") or {}, feature.get("geometry"))
            for place, feature in enumerate(source["features"])
        ]
        # Features may lack properties that others have; these are None.
        missing: dict[str, Any] = {}
        for _, own, _ in records:
            missing.update(dict.fromkeys(own))
        complete = [(number, {**missing, **own}, shape) for number, own, shape in records]
        return Polygons(name, GEOJSON_CRS, tuple(missing), complete)
    return None
