# SPDX-License-Identifier: Apache-2.0 OR GPL-2.0-or-later
"""rcell for QGIS: toolbox algorithms that run the proved program."""

from __future__ import annotations

from typing import Any


def classFactory(iface: Any) -> Any:
    """Create the plugin when QGIS loads it."""
    from .plugin import RcellPlugin

    return RcellPlugin()
