# SPDX-License-Identifier: Apache-2.0 OR GPL-2.0-or-later
"""Show the versions of the program and the libraries that runs depend on."""

from __future__ import annotations

import importlib
import platform

from ._version import __version__
from .core.errors import RcellError
from .core.programs import find_pipe

__all__ = ["show_versions"]

_LIBRARIES = "numpy pandas rasterio pyproj fiona geopandas xarray dask matplotlib".split()


def show_versions() -> None:
    """Print the versions of the package, Python and libraries, and the path of rcell-pipe.

    Examples
    --------
    >>> import rcell
    >>> rcell.show_versions()  # doctest: +ELLIPSIS
    rcell       ...
    python      ...
    """
    lines = [("rcell", __version__), ("python", platform.python_version())]
    lines += [(name, _version_of(name)) for name in _LIBRARIES]
    try:
        lines.append(("rcell-pipe", find_pipe()))
    except RcellError as error:
        lines.append(("rcell-pipe", str(error)))
    for name, text in lines:
        print(f"{name:<11} {text}")


def _version_of(library: str) -> str:
    try:
        return str(importlib.import_module(library).__version__)
    except ImportError:
        return "not installed"
