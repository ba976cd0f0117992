# SPDX-License-Identifier: Apache-2.0 OR GPL-2.0-or-later
"""Convert QGIS layers to maps and polygons. A layer's settings override those in its file."""

from __future__ import annotations

import datetime
import math
import re
from collections.abc import Iterator, Sequence
from dataclasses import dataclass, replace
from types import SimpleNamespace
from typing import Any, Optional

import numpy as np
from numpy.typing import NDArray
from qgis.core import NULL as NO_VALUE
from qgis.core import (
    QgsColorRampShader,
    QgsCoordinateReferenceSystem,
    QgsPalettedRasterRenderer,
    QgsRasterLayer,
    QgsRasterRange,
    QgsSingleBandPseudoColorRenderer,
    QgsVectorLayer,
    QgsWkbTypes,
)
from qgis.PyQt.QtGui import QColor

from .engine.core.crs import are_same_crs
from .engine.core.errors import BadMap, Refused
from .engine.core.region import Transform
from .engine.core.sources import Source
from .engine.core.text_grids import is_grid, open_path
from .engine.core.zones import Feature
from .engine.readers import gdal, ogr


# The cell counts that this plugin's legends append to labels.
_COUNT = re.compile(r" \(\d+ cells(, [\d.e+]+ (ha|km2))?\)$")
_NAME = re.compile(r"[A-Za-z_][A-Za-z0-9_.]{0,63}")


def raster_of(layer: QgsRasterLayer, name: str, band: int | None = None) -> Source:
    """Open a band of a layer as a map.

    If `band` is None, the layer must have only one band.

    Raises
    ------
    BadMap
        GDAL cannot open the layer, or the layer is not a map of categories.
    """
    if layer.providerType() != "gdal":
        reason = f"its provider must be gdal; got {layer.providerType()}"
        raise BadMap(name, f"{reason}: export the layer as a GeoTIFF first")
    if is_grid(layer.source()):
        raster: Any = open_path(name, layer.source())
    else:
        nulls, uses_nodata = null_ranges_of(layer, band or 1), _uses_nodata(layer, band or 1)
        raster = gdal.open_raster(name, layer.source(), band, nulls, uses_nodata, uses_style=False)
    crs = wkt_of(layer.crs())
    # QGIS may have another name for the file's reference system, so the layer's system is used only
    # if the user chose it.
    is_chosen = layer.crs() != layer.dataProvider().crs()
    if crs and (is_chosen or not raster.crs) and not are_same_crs(raster.crs, crs):
        raster = replace(raster, crs=crs)
    labels = labels_of(layer, band or 1)
    return raster.with_labels(labels) if labels else raster


def zones_of(layer: Any) -> Source | FeatureLayer:
    """Convert a layer to zones: a raster or polygons.

    Raises
    ------
    BadMap
        The layer is neither a raster nor polygons.
    """
    if isinstance(layer, QgsRasterLayer):
        return raster_of(layer, layer.name())
    if not isinstance(layer, QgsVectorLayer) or layer.geometryType() != QgsWkbTypes.PolygonGeometry:
        raise BadMap(layer.name(), "must be a raster or polygons")
    return _features_of(layer)


def reference_of(layer: Any) -> Any:
    """Convert a layer to a reference: a raster, points, or a table like a DataFrame."""
    if isinstance(layer, QgsRasterLayer):
        return raster_of(layer, layer.name())
    features = _features_of(layer)
    if layer.geometryType() != QgsWkbTypes.NullGeometry:
        return features
    rows = [tuple(map(plain, attributes)) for _, attributes, _ in features.rows]
    # These are the parts of a DataFrame that the core uses.
    return SimpleNamespace(
        columns=features.fields, itertuples=lambda **_: rows, files=features.files
    )


def _features_of(layer: QgsVectorLayer) -> FeatureLayer:
    if layer.providerType() == "ogr" and "|" not in layer.source():
        # Raise an error if there are several layers, because QGIS would use the first.
        ogr.open_layer(layer.name(), layer.source())
    rows = [
        (feature.id(), list(feature.attributes()), bytes(feature.geometry().asWkb()))
        for feature in layer.getFeatures()
    ]
    fields = [field.name() for field in layer.fields()]
    return FeatureLayer(layer.name(), wkt_of(layer.crs()) or None, fields, rows, layer.source())


@dataclass(frozen=True)
class FeatureLayer:
    """The polygons or points of a layer, copied for the core.

    Only the main thread may access the QGIS layer.

    Attributes
    ----------
    name : str
    crs : str or None
    fields : list of str
    rows : list
        The id, the attributes and the well-known binary geometry of each feature.
    path : str
    """

    name: str
    crs: Optional[str]
    fields: list[str]
    rows: list[tuple[int, list[Any], bytes]]
    path: str

    @property
    def files(self) -> tuple[str, ...]:
        """The file from which the layer is read."""
        return (self.path,)

    def features(self, field: Optional[str]) -> Iterator[Feature]:
        """Yield the features in order, with their values of a field."""
        place = None if field is None else self.fields.index(field)
        for number, attributes, wkb in self.rows:
            value = None if place is None else plain(attributes[place])
            yield ogr.feature_of(self.name, number, value, wkb)

    def burn(
        self, shapes: Sequence[tuple[Any, int]], transform: Transform, shape: tuple[int, int]
    ) -> NDArray[np.int32]:
        """Return, for each cell, the number of the last geometry that contains its centre, or 0."""
        return ogr.burn(shapes, transform, shape)

    def bounds(self, geometry: Any) -> tuple[float, float, float, float]:
        """Return the west, south, east and north bounds of a geometry."""
        return ogr.bounds_of(geometry)


def plain(value: Any) -> Any:
    """Convert an attribute to a Python object, or return None if the attribute is missing."""
    if value is None or value == NO_VALUE or value != value:  # the last is NaN
        return None
    for method in ("toPyDateTime", "toPyDate", "toPyTime"):  # of QDateTime, QDate and QTime
        if hasattr(value, method):
            moment: datetime.date | datetime.time = getattr(value, method)()
            return moment
    return value


def wkt_of(crs: QgsCoordinateReferenceSystem) -> str:
    """Return a QGIS reference system's well-known text, or an empty string if it is invalid."""
    return str(crs.toWkt(QgsCoordinateReferenceSystem.WKT2_2019)) if crs.isValid() else ""


def labels_of(layer: QgsRasterLayer, band: int) -> dict[int, str]:
    """Return the labels in a layer's style, except labels that only repeat the value."""
    labels = {}
    for value, label in _classes_of(layer.renderer(), band):
        text = _COUNT.sub("", label)
        if float(value).is_integer() and text and not _is_number(text, value):
            labels[int(value)] = text
    return labels


def _is_number(text: str, value: float) -> bool:
    try:
        return float(text) == value
    except ValueError:
        return False


def _classes_of(renderer: Any, band: int) -> list[tuple[float, str]]:
    """Return the values and labels in a style, if it has an entry for each class."""
    if isinstance(renderer, QgsPalettedRasterRenderer) and renderer.band() == band:
        return [(entry.value, entry.label) for entry in renderer.classes()]
    if (
        isinstance(renderer, QgsSingleBandPseudoColorRenderer)
        and renderer.band() == band
        and renderer.shader() is not None
    ):
        function = renderer.shader().rasterShaderFunction()
        if (
            isinstance(function, QgsColorRampShader)
            and function.colorRampType() == QgsColorRampShader.Exact
        ):
            return [(item.value, item.label) for item in function.colorRampItemList()]
    return []


def colours_of(layer: QgsRasterLayer, band: int) -> dict[int, Any]:
    """Return a layer's colours by class, or an empty dict if the layer's style has no classes."""
    renderer = layer.renderer()
    if isinstance(renderer, QgsPalettedRasterRenderer) and renderer.band() == band:
        # Copy the colour, because it is deleted together with its class.
        return {int(entry.value): QColor(entry.color) for entry in renderer.classes()}
    return {}


def _uses_nodata(layer: QgsRasterLayer, band: int) -> bool:
    """Return whether the file's nodata value is null, which the user may have disabled.

    QGIS ignores nodata values that its data type cannot represent, such as -128 in signed bytes.
    This plugin treats these values as null.
    """
    provider = layer.dataProvider()
    return bool(provider.useSourceNoDataValue(band)) or not provider.sourceHasNoDataValue(band)


def null_ranges_of(layer: QgsRasterLayer, band: int) -> list[tuple[float, float]]:
    """Return the additional nodata ranges in the layer's properties."""
    return [_bounds(span) for span in layer.dataProvider().userNoDataValues(band)]


def _bounds(span: QgsRasterRange) -> tuple[float, float]:
    low, high = span.min(), span.max()
    # Categories are whole numbers, so an exclusive limit is moved by 1.
    if span.bounds() in (QgsRasterRange.IncludeMax, QgsRasterRange.Exclusive):
        low = float(math.floor(low) + 1)
    if span.bounds() in (QgsRasterRange.IncludeMin, QgsRasterRange.Exclusive):
        high = float(math.ceil(high) - 1)
    # A missing limit is NaN in QGIS.
    return (-math.inf if math.isnan(low) else low), (math.inf if math.isnan(high) else high)


def names_of(layers: Sequence[QgsRasterLayer], text: str) -> list[str]:
    """Return the layers' names for the script: the given names, or names made from their titles.

    Raises
    ------
    Refused
        There are too few or too many names, or a name is invalid or given twice.
    """
    if not text.strip():
        return made_names([layer.name() for layer in layers])
    names = [name.strip() for name in text.split(",")]
    if len(names) != len(layers):
        rule = "NAMES must have as many names as INPUT has rasters"
        raise Refused(f"{rule}; got {len(names)}, not {len(layers)}", status=2)
    for number, name in enumerate(names):
        if not _NAME.fullmatch(name):
            better = made_names([name])[0]
            raise Refused(
                "maps must have names of 1 to 64 letters, digits, _ and ., beginning with a letter "
                f"or _; got '{name}': write {better}",
                status=2,
            )
        if name in names[:number]:
            raise Refused(f"maps must have different names; got {name} twice", status=2)
    return names


def made_names(titles: Sequence[str]) -> list[str]:
    """Make script names from titles, with `_` in place of invalid characters."""
    names: list[str] = []
    for title in titles:
        valid = re.sub(r"[^A-Za-z0-9_.]", "_", title)[:60] or "_"  # with room for a number
        base = valid if _NAME.fullmatch(valid) else f"_{valid}"
        number, name = 2, base
        while name in names:
            number, name = number + 1, f"{base}_{number}"
        names.append(name)
    return names
