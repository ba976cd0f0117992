# SPDX-License-Identifier: Apache-2.0 OR GPL-2.0-or-later
"""Keep the cells of large maps in memory or, if memory is short, in unnamed files."""

from __future__ import annotations

import os
import tempfile
from typing import Any

import numpy as np

from .arrays import NDArray
from .errors import WriteFailed
from .memory import free_memory

__all__ = ["cells_for", "fits_memory"]

# The share of free memory that the cells of one map may use.
_SHARE = 0.25
# /var/tmp is on a disk, while /tmp is often in memory.
_LARGE_FILES = "/var/tmp"


def fits_memory(shape: tuple[int, int], dtype: Any) -> bool:
    """Return whether a map's cells fit in the share of free memory that one map may use."""
    return _size_of(shape, dtype) <= free_memory() * _SHARE


def _size_of(shape: tuple[int, int], dtype: Any) -> int:
    return shape[0] * shape[1] * np.dtype(dtype).itemsize


def cells_for(shape: tuple[int, int], dtype: Any) -> NDArray[Any]:
    """Create an array for a map's cells, in memory or in an unnamed temporary file.

    The file is removed together with the array.

    Raises
    ------
    WriteFailed
        The file does not fit on the disk.
    """
    size = _size_of(shape, dtype)
    if fits_memory(shape, dtype):
        return np.empty(shape, dtype)
    folder = os.environ.get("TMPDIR") or (
        _LARGE_FILES if os.access(_LARGE_FILES, os.W_OK) else tempfile.gettempdir()
    )
    try:
        with tempfile.TemporaryFile(dir=folder) as file:
            # Allocate the file now: if the disk filled up later, a signal would end this process.
            os.posix_fallocate(file.fileno(), 0, size)
            return np.memmap(file, dtype, "r+", shape=shape)
    except OSError as error:
        problem = f"{size:,} bytes of map cells cannot be stored in {folder}: {error.strerror}"
        raise WriteFailed(f"{problem}: set TMPDIR to a folder with more free space") from None
