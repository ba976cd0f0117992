# SPDX-License-Identifier: Apache-2.0 OR GPL-2.0-or-later
"""Write the results of algorithms: rasters with a legend, and tables."""

from __future__ import annotations

import contextlib
import math
import os
from typing import Any, Mapping, Sequence

import numpy as np
from numpy.typing import NDArray
from qgis.core import (
    Qgis,
    QgsFeature,
    QgsFeatureSink,
    QgsField,
    QgsFields,
    QgsPalettedRasterRenderer,
    QgsProcessingContext,
    QgsProcessingLayerPostProcessorInterface,
    QgsRasterFileWriter,
    QgsRasterLayer,
)
from qgis.PyQt import QtCore
from qgis.PyQt.QtGui import QColor

from .engine.core.aggregate import BlockShares
from .engine.core.area import measure_of
from .engine.core.columns import Table
from .engine.core.crs import UNITS_OF_AREA
from .engine.core.errors import Refused, WriteFailed
from .engine.core.palette import colour_at
from .engine.core.protocol import NULL
from .engine.core.sources import ArrayMap, Source, null_cells
from .tables import Check, distinct, partly, write_raster

# A map with more classes gets no legend.
MOST_CLASSES = 1000
_VERSION_OF_META_TYPES = 33800


# Rasters


def cells_of(map: ArrayMap, null: int = NULL) -> NDArray[np.int32]:
    """Return the cells of a map, with the given value for null."""
    is_null = null_cells(map.array, map.null, map.nodata_value)
    return np.where(is_null, null, map.array).astype(np.int32)


def put_raster(path: str, map: ArrayMap, like: Source, check: Check, null: int = NULL) -> None:
    """Write a map to a file in the format of its file name extension.

    Raises
    ------
    WriteFailed
    """
    write_raster(path, _driver(path), cells_of(map, null), null, like, map.labels, check)


def put_shares(path: str, shares: BlockShares, check: Check) -> None:
    """Write the shares of classes to a file, with a band for each class.

    Raises
    ------
    WriteFailed
    """
    like, names = shares.blocks, shares.names
    if not names:
        raise WriteFailed(
            f"{path} cannot be written: there are no classes, because all cells are null"
        )
    write_raster(path, _driver(path), shares.percent, math.nan, like, {}, check, names)


def _driver(path: str) -> str:
    driver = QgsRasterFileWriter.driverForExtension(os.path.splitext(path)[1])
    if not driver:
        raise WriteFailed(f"{path} cannot be written: the file name extension is not supported")
    return str(driver)


def put_legend(
    path: str,
    classes: Sequence[tuple[int, str]],
    colours: Mapping[int, Any],
    context: QgsProcessingContext,
) -> bool:
    """Write a legend to a .qml file next to a raster and style the raster's layer.

    Returns False if the raster has too many classes for a legend.
    """
    style = os.path.splitext(path)[0] + ".qml"
    if not os.path.isfile(path):
        return True
    if not classes or len(classes) > MOST_CLASSES:
        with contextlib.suppress(OSError):
            os.unlink(style)  # of an earlier raster
        return not classes
    # With the default style, QGIS would compute the map's statistics and write them to a file.
    options = QgsRasterLayer.LayerOptions(loadDefaultStyle=False)
    layer = QgsRasterLayer(path, "legend", "gdal", options)
    entries = [
        QgsPalettedRasterRenderer.Class(
            value, colours.get(value) or QColor(*colour_at(place)), label
        )
        for place, (value, label) in enumerate(classes)
    ]
    layer.setRenderer(QgsPalettedRasterRenderer(layer.dataProvider(), 1, entries))
    with partly(style) as part:
        _message, is_saved = layer.saveNamedStyle(part)
        if not is_saved:
            raise WriteFailed(f"{style} cannot be written: the style could not be saved")
    if context.willLoadLayerOnCompletion(path):
        _styles.append(_Style(style))
        context.layerToLoadOnCompletionDetails(path).setPostProcessor(_styles[-1])
    return True


class _Style(QgsProcessingLayerPostProcessorInterface):
    """Loads the legend of a result, because QGIS does not read the .qml files of results."""

    def __init__(self, path: str) -> None:
        super().__init__()
        self._path = path

    def postProcessLayer(self, layer: Any, context: Any, feedback: Any) -> None:
        """Load the style when QGIS calls this method in the main thread."""
        layer.loadNamedStyle(self._path)
        layer.triggerRepaint()


# Keeps references to the styles, because QGIS does not, and uses them after the algorithm is
# deleted.
_styles: list[_Style] = []


def counts_of(map: ArrayMap) -> dict[int, int]:
    """Count the cells of each category, ignoring null cells."""
    is_null = null_cells(map.array, map.null, map.nodata_value)
    categories, cells = np.unique(map.array[~is_null], return_counts=True)
    return dict(zip(categories.tolist(), cells.tolist()))


def named_classes(map: ArrayMap) -> list[tuple[int, str]]:
    """Return the classes and labels of a map for its legend."""
    return [(code, map.labels.get(code, str(code))) for code in counts_of(map)]


def counted_classes(map: ArrayMap, like: Source, crs: Any) -> list[tuple[int, str]]:
    """Return the classes of a map for its legend, with labels, cells and areas."""
    return [
        (code, counted(map.labels.get(code, str(code)), cells, like, crs))
        for code, cells in counts_of(map).items()
    ]


def counted(label: str, cells: int, like: Source, crs: Any) -> str:
    """Append the number of cells to a label and, if all cells have the same area, the area.

    The area is in hectares, or in square kilometres if a cell covers at least 1 km2.
    """
    try:
        measure = measure_of("auto", like, like.crs or crs)
    except Refused:  # the map has no areas, which a legend does not need
        measure = None
    if measure is None or measure.unit is None or measure.by_row is not None:
        return f"{label} ({cells} cells)"
    unit = "km2" if measure.cell >= UNITS_OF_AREA["km2"] else "ha"
    return f"{label} ({cells} cells, {cells * measure.cell / UNITS_OF_AREA[unit]:.10g} {unit})"


# Tables


def types_of_fields(version: int, core: Any = QtCore) -> dict[str, Any]:
    """Return the field types: QMetaType since QGIS 3.38, because Qt 6 requires it, or QVariant."""
    types = core.QMetaType.Type if version >= _VERSION_OF_META_TYPES else core.QVariant
    text = types.QString if version >= _VERSION_OF_META_TYPES else types.String
    return {
        "class": types.LongLong,
        "count": types.LongLong,
        "measure": types.Double,
        "label": text,
    }


def fields_of(table: Table) -> QgsFields:
    """Return the QGIS fields of a table."""
    fields = QgsFields()
    types = types_of_fields(Qgis.QGIS_VERSION_INT)
    for column in distinct(table):
        fields.append(QgsField(column.name, types[column.kind]))
    return fields


def put_features(sink: QgsFeatureSink, table: Table, path: str) -> None:
    """Write the rows of a table to a sink.

    Raises
    ------
    WriteFailed
    """
    fields = fields_of(table)
    features = []
    for row in table.rows:
        feature = QgsFeature(fields)
        feature.setAttributes(list(row))
        features.append(feature)
    if not sink.addFeatures(features, QgsFeatureSink.FastInsert):
        raise WriteFailed(f"{path} cannot be written: {sink.lastError() or 'the disk may be full'}")
