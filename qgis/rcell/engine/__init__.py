# SPDX-License-Identifier: Apache-2.0 OR GPL-2.0-or-later
"""Load the core and the GDAL readers of the Python package.

The zip contains copies of both. In the repository, the originals are in python/src/rcell.
"""

import os

_SOURCES = os.path.join(
    os.path.dirname(os.path.abspath(__file__)), *[os.pardir] * 3, "python", "src", "rcell"
)
if os.path.isdir(_SOURCES):
    __path__.append(_SOURCES)
