# SPDX-License-Identifier: Apache-2.0 OR GPL-2.0-or-later
"""Look up calls that return tables by the names that records contain."""

from __future__ import annotations

from collections.abc import Callable
from typing import Any

from .accuracy import accuracy
from .adjacency import adjacency
from .change import change
from .composition import composition, cross
from .dominant import dominant
from .errors import Refused
from .metrics import metrics
from .patches import patches
from .sample import sample
from .scripts import table
from .trajectories import trajectories
from .zonal import zonal

__all__ = ["CALLS", "call_named"]

_CALLS: tuple[Callable[..., Any], ...] = (
    *(accuracy, adjacency, change, composition, cross, dominant),
    *(metrics, patches, sample, table, trajectories, zonal),
)
CALLS = {call.__name__: call for call in _CALLS}


def call_named(name: str) -> Callable[..., Any]:
    """Return the call with the given name.

    Raises
    ------
    Refused
        There is no call with this name.
    """
    if name not in CALLS:
        raise Refused(f"{name} is not a call that returns a table", "record")
    return CALLS[name]
