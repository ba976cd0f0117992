# SPDX-License-Identifier: Apache-2.0 OR GPL-2.0-or-later
"""Keep open rasters by thread, because a thread may read only its own GDAL datasets."""

from __future__ import annotations

import threading
from collections.abc import Callable
from typing import Any

__all__ = ["begin_call", "of_this_thread"]

# Limits the number of open files for a map with many files.
MOST_OPEN = 64

_here = threading.local()
_one_at_a_time = threading.Lock()


def of_this_thread(path: str, open_path: Callable[[], Any]) -> Any:
    """Return this thread's open dataset for a path, opening it if necessary.

    If too many datasets are open, the dataset that has gone unused the longest is closed.

    Examples
    --------
    >>> of_this_thread("a", lambda: [1]) is of_this_thread("a", lambda: [1])
    True
    """
    # In the order of last use, because a dataset is removed here and added again below.
    handles: dict[str, Any] = _here.__dict__.setdefault("handles", {})
    dataset = handles.pop(path, None)
    if dataset is None:
        # Opening a raster may suppress a warning, which Python does for all threads at once.
        with _one_at_a_time:
            dataset = open_path()
        while len(handles) >= MOST_OPEN:
            del handles[next(iter(handles))]
    handles[path] = dataset
    return dataset


def begin_call(call: str) -> None:
    """Close the datasets that this thread opened for other calls.

    Threads of a cluster outlive a call, and files may be replaced between two calls.
    """
    if _here.__dict__.get("call") != call:
        _here.__dict__.update(call=call, handles={})
