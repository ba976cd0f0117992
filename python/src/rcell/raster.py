# SPDX-License-Identifier: Apache-2.0 OR GPL-2.0-or-later
"""Define Raster, the type of map that calls accept and return."""

from __future__ import annotations

import base64
import dataclasses
import html
import io
import math
import os
from collections.abc import Sequence
from functools import cached_property
from typing import Any

import numpy as np

from .core.align import Aligned
from .core.arrays import ArrayLike, NDArray
from .core.errors import BadArgument
from .core.legends import legend_of
from .core.libraries import has, need
from .core.protocol import NULL, NULL_BYTE
from .core.region import Region, Transform
from .core.sieve import Sieved
from .core.sources import ArrayMap, array_map, null_cells

__all__ = ["Raster"]

# The longer side of pictures in notebooks, in pixels.
THUMBNAIL = 320
# A legend with more categories would be unreadable.
LEGEND_LIMIT = 30
_PALETTES = ("tab20", "tab20b", "tab20c")
_COG = (".cog.tif", ".cog.tiff")


class Raster:
    """A map in memory, with its position, reference system, labels and colours.

    If an array is passed to a call without a transform, its cells have size 1. `(array, transform)`
    is a short form of a Raster.

    Parameters
    ----------
    array : array, masked array, or nested lists of whole numbers, rows x cols
        Any integer type, bool, or floats that are whole numbers. Masked cells and NaN are null.
    transform : rasterio Affine, six numbers, or Region, optional
        The position of the cells. Rows from south to north are flipped. By default, cells have size
        1, and the bottom left corner is at 0, 0.
    crs : any, optional
        A coordinate reference system from rasterio or pyproj, a code such as `EPSG:3035`, or
        well-known text.
    nodata : float, optional
        The value that marks null.
    labels : path, dict, Series or DataFrame, optional
        A legend, as in `composition`.
    colors : mapping of int to str, optional
        The colours of categories, as `#rrggbb`.
    name : str
        The name of the map in messages, plots and DataArrays.

    Examples
    --------
    >>> import numpy as np, rcell
    >>> land = rcell.Raster(np.array([[1, 1], [2, 0]]), nodata=0, labels={1: "wood", 2: "water"})
    >>> rcell.table("r.stats -c -l input=land", land=land)
       land land_label  cells
    0     1       wood      2
    1     2      water      1
    2  <NA>       <NA>      1
    """

    def __init__(
        self,
        array: ArrayLike,
        transform: Region | Sequence[float] | None = None,
        crs: Any = None,
        nodata: float | None = None,
        labels: Any = None,
        colors: dict[int, str] | None = None,
        *,
        name: str = "map",
    ) -> None:
        legend = legend_of({} if labels is None else labels)
        given_colors = legend.colors if colors is None else colors
        source = array_map(name, array, transform, crs, nodata, legend.labels, given_colors)
        self._set(source, account=None)

    def _set(self, source: ArrayMap, account: Aligned | Sieved | None) -> None:
        """Set the attributes from a core map, and from its counts of cells or patches, if any."""
        self._source = source
        self.name = source.name
        self.region = source.region
        self.transform: Transform = source.transform
        self.crs = source.crs
        self.labels = dict(source.labels)
        self.colors = dict(source.colors)
        self.aligned = account if isinstance(account, Aligned) else None
        self.sieved = account if isinstance(account, Sieved) else None

    @classmethod
    def _of(cls, source: ArrayMap, account: Aligned | Sieved | None = None) -> Raster:
        """Convert a core map to a Raster, with counts of aligned or sieved cells, if any."""
        raster = cls.__new__(cls)
        raster._set(source, account)
        return raster

    @cached_property
    def array(self) -> Any:
        """The cells as a masked array with rows from north to south and with null cells masked.

        Examples
        --------
        >>> import numpy as np, rcell
        >>> rcell.Raster([[1, 1], [2, 0]], nodata=0).array.tolist()
        [[1, 1], [2, None]]
        """
        return self._masked(0, self.region.rows)

    def rows(self, first: int, end: int) -> Any:
        """Return consecutive rows of `array`.

        If the map is larger than memory, the rows are read from its file.

        Parameters
        ----------
        first, end : int
            The first row, from 0, and the row after the last.

        Returns
        -------
        numpy.ma.MaskedArray
            The rows.

        Examples
        --------
        >>> import rcell
        >>> rcell.Raster([[1, 1], [2, 0]], nodata=0).rows(1, 2).tolist()
        [[2, None]]
        """
        is_complete = "array" in vars(self)  # all cells are in memory, and may have been edited
        return self.array[first:end] if is_complete else self._masked(first, end)

    def _bytes(self, first: int, end: int) -> Any:
        """Return consecutive rows as bytes, or None if the map does not store bytes.

        In the bytes, 255 is null.
        """
        source = self._source
        is_kept = source.is_narrow and source.null is None and source.nodata_value == NULL_BYTE
        return source.array[first:end] if is_kept and "array" not in vars(self) else None

    def _masked(self, first: int, end: int) -> Any:
        source = self._source
        cells, null = source.array[first:end], source.null
        is_null = null_cells(cells, None if null is None else null[first:end], source.nodata_value)
        if source.is_narrow:
            cells = np.where(is_null, np.int32(NULL), cells)
        return np.ma.MaskedArray(cells, is_null)

    @property
    def shape(self) -> tuple[int, int]:
        """The number of rows and of columns.

        Examples
        --------
        >>> import rcell
        >>> rcell.Raster([[1, 2, 3]]).shape
        (1, 3)
        """
        return self.region.shape

    @property
    def res(self) -> tuple[float, float]:
        """The width and the height of a cell, in map units.

        Examples
        --------
        >>> import rcell
        >>> rcell.Raster([[1]], (25, 0, 0, 0, -50, 0)).res
        (25.0, 50.0)
        """
        return self.transform[0], -self.transform[4]

    @property
    def bounds(self) -> tuple[float, float, float, float]:
        """The west, south, east and north edges.

        Examples
        --------
        >>> import rcell
        >>> rcell.Raster([[1, 2]], (10, 0, 100, 0, -10, 50)).bounds
        (100.0, 40.0, 120.0, 50.0)
        """
        return self.region.bounds

    def source(self, name: str) -> ArrayMap:
        """Return the map as the core represents it, with the given name.

        All calls that accept maps use this method.

        Parameters
        ----------
        name : str
            The name of the map in messages.

        Returns
        -------
        ArrayMap
            The cells and their region.

        Examples
        --------
        >>> import rcell
        >>> rcell.Raster([[1, 2]]).source("land").name
        'land'
        """
        return dataclasses.replace(self._source, name=name)

    def categories(self) -> list[int]:
        """Return the categories that occur in the map, in ascending order.

        Returns
        -------
        list of int
            The categories, without duplicates.

        Examples
        --------
        >>> import rcell
        >>> rcell.Raster([[5, 7, 5]]).categories()
        [5, 7]
        """
        categories: list[int] = np.unique(self.array.compressed()).tolist()
        return categories

    def write(self, path: str | os.PathLike[str], *, cog: bool = False) -> str:
        """Write the map to a file, completely or not at all.

        Parameters
        ----------
        path : path
            The path, which must end in `.tif` or `.tiff` for a GeoTIFF, or in `.txt` for an rcell
            grid, which GRASS can also read. A GeoTIFF is compressed, has the smallest data type for
            the categories and nodata, and contains the transform, the reference system, labels as
            category names, and colours as a colour table. An existing file is replaced.
        cog : bool
            Whether to write a cloud-optimised GeoTIFF with overviews. This is the default if the
            name ends in `.cog.tif` or `.cog.tiff`.

        Returns
        -------
        str
            The path.

        Raises
        ------
        WriteFailed
            The file cannot be written. An existing file is unchanged.
        Refused
            The map was created from this file.
        BadArgument
            The file name extension is not supported.
        MissingLibrary
            Rasterio is required, but not installed.

        Examples
        --------
        >>> import os, rcell, tempfile
        >>> with tempfile.TemporaryDirectory() as folder:
        ...     path = rcell.Raster([[5, 7, 5]]).write(os.path.join(folder, "lc.txt"))
        ...     print(open(path).read().splitlines()[-1])
        5 7 5
        """
        from .core.files import check_output
        from .core.writing import write_beside

        text = os.fspath(path)
        check_output(text, self._source.files)
        if text.lower().endswith((".tif", ".tiff")):
            from .geotiff import write_geotiff

            write_geotiff(self, text, cog or text.lower().endswith(_COG))
        elif text.lower().endswith(".txt"):
            write_beside(text, self.text())
        else:
            raise BadArgument("path", f"must end in .tif, .tiff or .txt; got {text!r}")
        return text

    def text(self) -> bytes:
        """Return the map as a text grid, which the program can read.

        Returns
        -------
        bytes
            The header and the rows of the text grid.

        Examples
        --------
        >>> import rcell
        >>> rcell.Raster([[5, 7]]).text().splitlines()[-1]
        b'5 7'
        """
        from .core.runs import grid_text

        return grid_text(self.source("map"))

    def to_xarray(self) -> Any:
        """Convert the map to a DataArray with coordinates of cell centres.

        The reference system is stored as in rioxarray.

        Returns
        -------
        xarray.DataArray
            An int32 array with the dimensions `y` and `x`. Null is -2147483648, which is stored in
            the attribute `_FillValue`.

        Raises
        ------
        MissingLibrary
            Xarray is not installed.

        Examples
        --------
        >>> import rcell
        >>> rcell.Raster([[5, 7]]).to_xarray().x.values.tolist()
        [0.5, 1.5]
        """
        from .readers.xarray import data_array_of

        return data_array_of(self.array, self.transform, self.crs, self.labels, self.name)

    def plot(self, ax: Any = None, *, legend: bool = True) -> Any:
        """Draw the map with matplotlib, with a legend of its labels.

        Parameters
        ----------
        ax : matplotlib.axes.Axes, optional
            The axes to draw on. By default, a new figure is created.
        legend : bool
            Whether to draw a legend of labels or categories next to the map. With more than 30
            categories, a colour scale is drawn instead.

        Returns
        -------
        matplotlib.axes.Axes
            The axes with the map.

        Raises
        ------
        MissingLibrary
            Matplotlib is not installed.

        Examples
        --------
        >>> import matplotlib, rcell
        >>> matplotlib.use("Agg")
        >>> land = rcell.Raster([[1, 2]], labels={1: "wood", 2: "water"})
        >>> [text.get_text() for text in land.plot().get_legend().get_texts()]
        ['wood', 'water']
        """
        pyplot = need("matplotlib.pyplot", "plot", "to draw a map")
        if ax is None:
            _, ax = pyplot.subplots(layout="constrained")
        categories = self.categories()
        places, colors, norm = _colored(self.array, categories, self.colors)
        west, south, east, north = self.bounds
        extent = (west, east, south, north)
        image = ax.imshow(places, cmap=colors, norm=norm, interpolation="nearest", extent=extent)
        ax.set_title(self.name)
        if legend and 0 < len(categories) <= LEGEND_LIMIT:
            self._add_legend(ax, categories, colors)
        elif legend and categories:
            ax.figure.colorbar(image, ax=ax)
        return ax

    def _add_legend(self, ax: Any, categories: list[int], colors: Any) -> None:
        """Add a legend to the right of a drawn map."""
        patches = need("matplotlib.patches", "plot", "to draw a map")
        handles = [
            patches.Patch(color=colors(place), label=self.labels.get(category, str(category)))
            for place, category in enumerate(categories)
        ]
        ax.legend(
            handles=handles,
            loc="upper left",
            bbox_to_anchor=(1.02, 1.0),
            borderaxespad=0.0,
            frameon=False,
        )

    def _picture(self) -> bytes:
        """Return a small PNG picture of the map, in which null is transparent."""
        step = math.ceil(max(self.shape) / THUMBNAIL)
        places, colors, norm = _colored(self.array[::step, ::step], self.categories(), self.colors)
        scale = need("matplotlib.cm", "plot", "to draw a map").ScalarMappable(norm, colors)
        times = max(1, THUMBNAIL // max(places.shape))
        image = scale.to_rgba(places, bytes=True).repeat(times, axis=0).repeat(times, axis=1)
        png = io.BytesIO()
        need("matplotlib.image", "plot", "to draw a map").imsave(png, image, format="png")
        return png.getvalue()

    def _repr_html_(self) -> str:
        rows, cols = self.shape
        name = html.escape(self.name)
        summary = f"<b>{name}</b>: {rows} rows, {cols} columns, {len(self.categories())} categories"
        if not has("matplotlib"):
            return f"<p>{summary}</p>"
        encoded = base64.b64encode(self._picture()).decode()
        return f'<p>{summary}</p><img alt="{name}" src="data:image/png;base64,{encoded}">'

    def __array__(self, dtype: Any = None) -> NDArray[Any]:
        cells: NDArray[Any] = np.ma.getdata(self.array)
        return cells if dtype is None else cells.astype(dtype)

    def __repr__(self) -> str:
        return f"<Raster {self.name}: {self.region}>"


def _colored(array: Any, categories: list[int], colors: dict[int, str]) -> tuple[Any, Any, Any]:
    """Return the values to draw, their colour map, and their normalisation.

    The values are indices of categories or, if there are many, the categories themselves.
    """
    matplotlib = need("matplotlib", "plot", "to draw a map")
    colors_of = need("matplotlib.colors", "plot", "to draw a map")
    if not 0 < len(categories) <= LEGEND_LIMIT:
        return array, "viridis", None
    spare: list[Any] = []
    for name in _PALETTES:
        spare += matplotlib.colormaps[name].colors
    unused = iter(spare)
    palette = [colors.get(category) or next(unused) for category in categories]
    any_category = categories[0]  # for null cells, which stay masked
    places = np.searchsorted(categories, array.filled(any_category))
    indices: Any = np.ma.MaskedArray(places, np.ma.getmaskarray(array))
    edges = np.arange(len(categories) + 1) - 0.5
    norm = colors_of.BoundaryNorm(edges, len(categories))
    return indices, colors_of.ListedColormap(palette), norm
