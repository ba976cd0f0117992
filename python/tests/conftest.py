"""Provide fixtures for several tests."""

from __future__ import annotations

import pathlib
from typing import Any, Callable

import numpy as np
import pytest

TRANSFORM = (25.0, 0.0, 500_000.0, 0.0, -25.0, 5_500_000.0)
LAND = np.array([[1, 1, 2, 0], [1, 2, 2, 2], [3, 3, 1, 1]], np.uint8)


@pytest.fixture
def raster(tmp_path: pathlib.Path) -> Callable[..., str]:
    """Return a function that writes an array as a GeoTIFF and returns its path.

    `edit` is called with the open dataset.
    """
    rasterio = pytest.importorskip("rasterio")
    affine = pytest.importorskip("affine")

    def write(
        array: Any,
        name: str = "map.tif",
        transform: Any = TRANSFORM,
        edit: Any = None,
        **profile: Any,
    ) -> str:
        layers = array if array.ndim == 3 else array[None]
        path = str(tmp_path / name)
        words = {
            "driver": "GTiff",
            "height": layers.shape[1],
            "width": layers.shape[2],
            "count": layers.shape[0],
            "dtype": layers.dtype,
            "crs": "EPSG:32632",
        }
        if transform is not None:
            words["transform"] = affine.Affine(*transform)
        with rasterio.open(path, "w", **{**words, **profile}) as dataset:
            dataset.write(layers)
            if edit is not None:
                edit(dataset)
        return path

    return write
