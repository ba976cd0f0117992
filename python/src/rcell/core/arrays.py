# SPDX-License-Identifier: Apache-2.0 OR GPL-2.0-or-later
"""Define array types for annotations without importing numpy.typing at run time."""

from __future__ import annotations

from typing import TYPE_CHECKING

__all__ = ["ArrayLike", "Floats", "Integers", "NDArray"]

if TYPE_CHECKING:
    import numpy as np
    from numpy.typing import ArrayLike, NDArray

    Integers = NDArray[np.int64]
    Floats = NDArray[np.float64]
else:
    ArrayLike, NDArray, Integers, Floats = object, list, list, list
