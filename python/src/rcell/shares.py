# SPDX-License-Identifier: Apache-2.0 OR GPL-2.0-or-later
"""Define Shares, the percentages of classes in blocks of cells."""

from __future__ import annotations

import math
import os
from typing import Any

from .core.aggregate import BlockShares
from .core.arrays import NDArray
from .core.errors import BadArgument, BadMap
from .core.files import check_output
from .core.libraries import need
from .core.writing import replacing, write_errors
from .geotiff import profile_of

__all__ = ["Shares"]


class Shares:
    """The percentage of each class in each block of cells, returned by `rcell.aggregate`.

    `classes` contains the classes, `names` their labels or numbers, and `percent` the percentages,
    classes x rows x columns, with NaN in null blocks. `shares[31]` is the map of class 31.

    Parameters
    ----------
    shares : BlockShares
        The shares that the core returns.

    Examples
    --------
    >>> import rcell
    >>> shares = rcell.aggregate(rcell.Raster([[1, 1, 2]], labels={1: "wood"}), factor=3).shares
    >>> shares.names, shares[2].round(1).tolist()
    (['wood', '2'], [[33.3]])
    """

    def __init__(self, shares: BlockShares) -> None:
        self._shares = shares
        self.classes = shares.classes
        self.names = shares.names

    @property
    def percent(self) -> NDArray[Any]:
        """The percentages, classes x rows x columns.

        Examples
        --------
        >>> import rcell
        >>> rcell.aggregate([[1, 1], [2, 1]], factor=2).shares.percent.tolist()
        [[[75.0]], [[25.0]]]
        """
        return self._shares.percent

    def __getitem__(self, code: int) -> NDArray[Any]:
        if code not in self.classes:
            known = ", ".join(map(str, self.classes))
            raise BadArgument("class", f"must be one of {known or 'no classes'}; got {code!r}")
        layer: NDArray[Any] = self.percent[self.classes.index(code)]
        return layer

    def write(self, path: str | os.PathLike[str]) -> str:
        """Write a GeoTIFF with a band of percentages for each class, completely or not at all.

        Parameters
        ----------
        path : path
            The path, which must end in `.tif` or `.tiff`. The description of each band is its
            class's label or number.

        Returns
        -------
        str
            The path.

        Raises
        ------
        WriteFailed
            The file cannot be written. An existing file is unchanged.
        BadArgument
            The file name extension is not supported.
        BadMap
            There are no classes, because all cells are null.
        MissingLibrary
            Rasterio is not installed.

        Examples
        --------
        >>> import os, rasterio, rcell, tempfile
        >>> land = rcell.Raster([[1, 1], [2, 1]], (10, 0, 0, 0, -10, 20))
        >>> with tempfile.TemporaryDirectory() as folder:
        ...     shares = rcell.aggregate(land, factor=2).shares
        ...     path = shares.write(os.path.join(folder, "shares.tif"))
        ...     rasterio.open(path).descriptions
        ('1', '2')
        """
        text = os.fspath(path)
        if not text.lower().endswith((".tif", ".tiff")):
            raise BadArgument("path", f"must end in .tif or .tiff; got {text!r}")
        check_output(text, self._shares.blocks.files)
        self._write(text)
        return text

    def _write(self, path: str) -> None:
        """Compress the file in memory, and write it with Python, which reports a full disk."""
        if not self.classes:
            raise BadMap("shares", "there are no classes: all cells are null")
        rasterio = need("rasterio", "gis", "to write a GeoTIFF")
        like, layers = self._shares.blocks, self.percent
        profile = profile_of(*like.region.shape, like.transform, like.crs, "float64", math.nan)
        with replacing(path) as beside, write_errors(path, rasterio.errors.RasterioError):
            with need("rasterio.io", "gis", "to write a GeoTIFF").MemoryFile() as memory:
                profile["count"] = len(layers)
                with memory.open(**profile) as dataset:
                    dataset.write(layers)
                    for band, name in enumerate(self.names, 1):
                        dataset.set_band_description(band, name)
                with open(beside, "wb") as file:
                    file.write(memory.getbuffer())

    def __repr__(self) -> str:
        return f"<Shares of {', '.join(self.names)}: {self._shares.blocks.region}>"
