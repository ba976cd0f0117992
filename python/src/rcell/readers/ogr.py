# SPDX-License-Identifier: Apache-2.0 OR GPL-2.0-or-later
"""Read vector files with GDAL's Python bindings."""

from __future__ import annotations

import math
from collections.abc import Iterator, Sequence
from dataclasses import dataclass
from typing import Any, Optional

import numpy as np
from osgeo import gdal, ogr

from ..core.arguments import known_names
from ..core.arrays import NDArray
from ..core.errors import BadMap, ReadFailed, Refused
from ..core.files import opened
from ..core.host import option
from ..core.region import Transform
from ..core.zones import Feature
from .osr import quiet

__all__ = ["OgrLayer", "bounds_of", "burn", "feature_of", "open_layer"]

_INTEGERS = (ogr.OFTInteger, ogr.OFTInteger64)


def open_layer(name: str, path: str, layer: Optional[str] = None) -> OgrLayer:
    """Open a layer of a vector file.

    If `layer` is None, the file must have only one layer.

    Raises
    ------
    ReadFailed
        The file cannot be opened.
    Refused
        The file has several layers and none is named, or no layer has this name.
    """
    try:
        with quiet():
            source = gdal.OpenEx(path, gdal.OF_VECTOR)
            text = gdal.GetLastErrorMsg()
    except RuntimeError as error:
        source, text = None, str(error)
    if source is None:
        raise ReadFailed(name, f"cannot open: {text or path}")
    opened(*source.GetFileList() or [path])
    names = [source.GetLayer(place).GetName() for place in range(source.GetLayerCount())]
    if layer is None and len(names) > 1:
        choice = option("layer", names[0])
        problem = (
            f"has the layers {', '.join(names)}: name one, for example {choice} or "
            f"{path}|layername={names[0]}"
        )
        raise Refused(problem, name)
    if not names or (layer is not None and layer not in names):
        raise Refused(f"no layer {layer}: {known_names('layer', names)}", name)
    return OgrLayer(name, source, layer or names[0])


@dataclass(frozen=True)
class OgrLayer:
    """A layer of a vector file, in the form that `core.zones` expects."""

    name: str
    source: Any
    layer: str

    @property
    def crs(self) -> Optional[str]:
        """The layer's reference system as well-known text, or None."""
        system = self.source.GetLayerByName(self.layer).GetSpatialRef()
        return None if system is None else str(system.ExportToWkt(["FORMAT=WKT2_2019"]))

    @property
    def fields(self) -> list[str]:
        """The names of the layer's fields."""
        definition = self.source.GetLayerByName(self.layer).GetLayerDefn()
        places = range(definition.GetFieldCount())
        return [definition.GetFieldDefn(place).GetName() for place in places]

    def features(self, field: Optional[str]) -> Iterator[Feature]:
        """Yield the features in order, with their values of a field."""
        layer = self.source.GetLayerByName(self.layer)
        layer.ResetReading()
        for feature in layer:
            place = -1 if field is None else feature.GetFieldIndex(field)
            value = _value_of(feature, place) if place >= 0 else None
            geometry = feature.GetGeometryRef()
            wkb = b"" if geometry is None else bytes(geometry.ExportToWkb())
            yield feature_of(self.name, feature.GetFID(), value, wkb)

    def burn(
        self, shapes: Sequence[tuple[Any, int]], transform: Transform, shape: tuple[int, int]
    ) -> NDArray[np.int32]:
        """Return, for each cell, the number of the last geometry that contains its centre, or 0."""
        return burn(shapes, transform, shape)

    def bounds(self, geometry: Any) -> tuple[float, float, float, float]:
        """Return the west, south, east and north bounds of a geometry."""
        return bounds_of(geometry)


def _value_of(feature: Any, place: int) -> Any:
    """Return the value of a field as a Python object, or None if the value is missing."""
    if not feature.IsFieldSetAndNotNull(place):
        return None
    definition = feature.GetFieldDefnRef(place)
    if definition.GetSubType() == ogr.OFSTBoolean:
        return bool(feature.GetFieldAsInteger(place))
    if definition.GetType() in _INTEGERS:
        return feature.GetFieldAsInteger64(place)
    if definition.GetType() == ogr.OFTReal:
        value = feature.GetFieldAsDouble(place)
        return None if math.isnan(value) else value
    text = str(feature.GetFieldAsString(place))
    if definition.GetType() in (ogr.OFTDate, ogr.OFTDateTime):
        return text.replace("/", "-").replace(" ", "T")
    return text


def feature_of(name: str, number: Any, value: Any, wkb: bytes) -> Feature:
    """Convert a well-known binary geometry to a feature, with curves as lines.

    Empty bytes and empty geometries are allowed.

    Raises
    ------
    BadMap
        The bytes are not a geometry.
    """
    if not wkb:
        return Feature(number, value, kind="", geometry=None)
    with quiet():
        geometry = ogr.CreateGeometryFromWkb(wkb)
    if geometry is None:
        raise BadMap(name, f"feature {number} has a geometry that cannot be read")
    if geometry.HasCurveGeometry():
        geometry = geometry.GetLinearGeometry()
    if geometry.IsEmpty():
        return Feature(number, value, kind="", geometry=None)
    kind = ogr.GeometryTypeToName(ogr.GT_Flatten(geometry.GetGeometryType()))
    return Feature(number, value, kind.replace(" ", ""), geometry)


def bounds_of(geometry: Any) -> tuple[float, float, float, float]:
    """Return the west, south, east and north bounds of a geometry."""
    west, east, south, north = geometry.GetEnvelope()
    return west, south, east, north


def burn(
    shapes: Sequence[tuple[Any, int]], transform: Transform, shape: tuple[int, int]
) -> NDArray[np.int32]:
    """Return, for each cell, the number of the last geometry that contains its centre, or 0."""
    source = ogr.GetDriverByName("Memory").CreateDataSource("polygons")
    layer = source.CreateLayer("polygons")
    layer.CreateField(ogr.FieldDefn("number", ogr.OFTInteger))
    for geometry, number in shapes:
        feature = ogr.Feature(layer.GetLayerDefn())
        feature.SetGeometry(geometry)
        feature.SetField("number", number)
        layer.CreateFeature(feature)
    rows, cols = shape
    target = gdal.GetDriverByName("MEM").Create("", cols, rows, bands=1, eType=gdal.GDT_Int32)
    width, b, west, d, height, north = transform
    target.SetGeoTransform((west, width, b, north, d, height))
    with quiet():
        bands = [1]
        gdal.RasterizeLayer(target, bands, layer, options=["ATTRIBUTE=number"])
    burnt: NDArray[np.int32] = target.ReadAsArray()
    return burnt
