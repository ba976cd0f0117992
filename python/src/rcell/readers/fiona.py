# SPDX-License-Identifier: Apache-2.0 OR GPL-2.0-or-later
"""Read vector files with fiona."""

from __future__ import annotations

from typing import Optional

import fiona

from ..core.arguments import known_names
from ..core.errors import ReadFailed, Refused
from ..core.files import opened
from ..core.host import option
from .polygons import Polygons

__all__ = ["open_layer"]


def open_layer(name: str, path: str, layer: Optional[str] = None) -> Polygons:
    """Read a layer of a vector file into memory.

    Raises
    ------
    ReadFailed
        The file cannot be opened.
    Refused
        The file has several layers and none is named, or no layer has this name.
    """
    opened(path)
    try:
        layers = fiona.listlayers(path)
        if layer is None and len(layers) > 1:
            choice = option("layer", layers[0])
            problem = (
                f"has the layers {', '.join(layers)}: name one, for example {choice} or "
                f"{path}|layername={layers[0]}"
            )
            raise Refused(problem, name)
        if layer is not None and layer not in layers:
            raise Refused(f"no layer {layer}: {known_names('layer', layers)}", name)
        with fiona.open(path, layer=layer) as source:
            records = [
                (int(feature["id"]), dict(feature["properties"] or {}), feature["geometry"])
                for feature in source
            ]
            fields: tuple[str, ...] = ()
            if records:  # which all have the same properties
                _, properties, _ = records[0]
                fields = tuple(properties)
            return Polygons(name, source.crs_wkt or None, fields, records)
    except (fiona.errors.FionaError, KeyError, OSError, ValueError) as error:
        raise ReadFailed(name, f"cannot open: {path}: {error}") from None
