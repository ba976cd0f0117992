# SPDX-License-Identifier: Apache-2.0 OR GPL-2.0-or-later
"""Read rasters, vector files and reference systems with other libraries.

The libraries are rasterio, fiona and pyproj, or GDAL's own Python bindings.
"""

from __future__ import annotations

import importlib
import os
import re
import warnings
from typing import TYPE_CHECKING, Any, Optional

from ..core.errors import BadArgument, MissingLibrary, ReadFailed

if TYPE_CHECKING:
    from ..core.crs import Crs
    from ..core.sources import Source
    from ..core.zones import Layer

__all__ = ["crs_of", "open_features", "open_raster"]

_VECTOR = re.compile(r"\.(gpkg|shp|geojson|json|fgb|gml|kml|sqlite)$", re.IGNORECASE)
_LAYER = "|layername="


def open_raster(name: str, path: str, band: int | None = None) -> Source:
    """Open a band of a raster as a map, with rasterio or GDAL's Python bindings.

    If `band` is None, the raster must have only one band.

    Raises
    ------
    ReadFailed
        The raster cannot be opened.
    BadMap
        The band cannot be a map.
    MissingLibrary
    """
    reader = _reader("rasterio", "gdal", extra="gis", purpose="to read a raster")
    source: Source = reader.open_raster(name, path, band)
    return source


def open_features(name: str, source: Any, layer: Optional[str] = None) -> Optional[Layer]:
    """Open polygons or points as a layer, or return None for other objects.

    Parameters
    ----------
    name : str
        The name in messages.
    source : path, GeoDataFrame, GeoSeries, GeoJSON as a dict, or Layer
        A path may include the name of a layer: `FILE|layername=NAME`.
    layer : str, optional
        The layer to read, if the file has several.

    Raises
    ------
    ReadFailed
        The file cannot be opened.
    Refused
        The file has several layers and none is named, or no layer has this name.
    MissingLibrary
    """
    if hasattr(source, "burn"):  # already a layer
        features: Layer = source
        return features
    if isinstance(source, (str, os.PathLike)):
        path, _, named = os.fspath(source).partition(_LAYER)
        if not _VECTOR.search(path):
            return None
        if named and layer and named != layer:
            raise BadArgument(
                "layer", f"must match the layer named in the path; got {layer!r} and {named!r}"
            )
        if not path.startswith("/vsi") and not os.path.exists(path):
            raise ReadFailed(name, f"cannot open: {path}: No such file or directory")
        reader = _reader("fiona", "ogr", extra="vector", purpose="to read a layer")
        features = reader.open_layer(name, path, layer or named or None)
        return features
    if isinstance(source, dict) or hasattr(source, "geom_type"):  # GeoJSON, or from geopandas
        from .polygons import layer_of

        return layer_of(name, source)
    return None


def crs_of(text: str) -> Crs:
    """Parse the text of a reference system, with pyproj or GDAL's osr.

    Raises
    ------
    ValueError
        The text does not describe a reference system.
    MissingLibrary
    """
    purpose = f"to read the coordinate reference system {text[:60]!r}"
    system: Crs = _reader("pyproj", "osr", extra="gis", purpose=purpose).crs_of(text)
    return system


def _reader(library: str, other: str, extra: str, purpose: str) -> Any:
    """Return the reader for a library or, if it is missing, `other`, for GDAL's Python bindings.

    The QGIS plugin contains only the readers for GDAL's bindings. Messages name the `extra` of this
    package that installs the library.
    """
    reason = ""
    for reader, needed in ((library, library), (other, "osgeo")):
        try:
            with warnings.catch_warnings():
                # In a virtual environment, Debian's pyproj warns although PROJ finds its files.
                warnings.filterwarnings("ignore", "Valid PROJ data directory not found")
                importlib.import_module(needed)
                return importlib.import_module(f".{reader}", __name__)
        except ModuleNotFoundError:
            continue
        except ImportError as error:  # installed, but cannot be loaded
            reason = reason or str(error)
    raise MissingLibrary(library, extra, purpose, reason)
