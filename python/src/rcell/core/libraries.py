# SPDX-License-Identifier: Apache-2.0 OR GPL-2.0-or-later
"""Import optional libraries, which only some calls need."""

from __future__ import annotations

import importlib
import importlib.util
from typing import Any

from .errors import MissingLibrary

__all__ = ["has", "need"]


def has(library: str) -> bool:
    """Return whether a library is installed.

    Examples
    --------
    >>> has("numpy")
    True
    """
    return importlib.util.find_spec(library) is not None


def need(library: str, extra: str, purpose: str) -> Any:
    """Import and return a module, or raise MissingLibrary if it cannot be imported.

    Examples
    --------
    >>> need("numpy", "gis", "to count").__name__
    'numpy'
    """
    try:
        return importlib.import_module(library)
    except ModuleNotFoundError as error:
        raise MissingLibrary((error.name or library).partition(".")[0], extra, purpose) from None
    except ImportError as error:
        raise MissingLibrary(library.partition(".")[0], extra, purpose, str(error)) from None
