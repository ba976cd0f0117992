# SPDX-License-Identifier: Apache-2.0 OR GPL-2.0-or-later
"""Use the bands of a raster as separate maps."""

from __future__ import annotations

import os
from typing import Any

from ..core.errors import BadMap
from ..core.libraries import need
from .rasterio import open_dataset

__all__ = ["bands"]


def bands(raster: Any, /, **numbers: int) -> dict[str, Any]:
    """Return bands of a raster as maps by name, for calls that accept maps.

    Parameters
    ----------
    raster : path, open rasterio dataset, or DataArray with three dimensions
    **numbers : int
        The number of each map's band, counted from 1, by map name. In a DataArray, bands are
        counted along the dimension that is neither rows nor columns.

    Returns
    -------
    dict
        Maps by name, as accepted by `run`, `table` and `grid`.

    Raises
    ------
    BadMap
        The raster has no band with one of the numbers.
    ReadFailed
        The raster cannot be opened.

    Examples
    --------
    >>> import numpy as np, rcell, xarray
    >>> years = xarray.DataArray(np.array([[[1, 1]], [[1, 2]]]), dims=("year", "y", "x"))
    >>> rcell.table("r.stats -c input=before,after", rcell.bands(years, before=1, after=2))
       before  after  cells
    0       1      1      1
    1       1      2      1
    """
    if type(raster).__module__.partition(".")[0] == "xarray":
        from .xarray import layers_of

        layers = layers_of(raster)
    else:
        is_path = isinstance(raster, (str, os.PathLike))
        dataset = open_dataset("raster", os.fspath(raster)) if is_path else raster
        band = need("rasterio", "gis", "to read a raster").band
        layers = [band(dataset, number) for number in dataset.indexes]
    for name, number in numbers.items():
        if number not in range(1, len(layers) + 1):
            raise BadMap(name, f"no band {number}: the raster has {len(layers)}")
    return {name: layers[number - 1] for name, number in numbers.items()}
